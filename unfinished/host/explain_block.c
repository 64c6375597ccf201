#include <inttypes.h>

#include "block.h"
#include "block_end.h"
#include "ended.h"
#include "printer.h"
#include "record.h"

enum { INPUTS_NAME = 2 };

/* " (the variable p)" of a block that is one's. */
static void print_owner(struct phrase *into, const struct ended *ended, uint32_t name)
{
    if (name == INPUTS_NAME)
        phrase_add(into, " (the inputs)");
    for (uint8_t variable = 0; variable < VARIABLES; variable++) {
        if (ended->at.variables[variable] != name)
            continue;
        phrase_add(into, " (the variable ");
        print_variable(into, ended->given->table, variable);
        phrase_add(into, ")");
    }
}

static void print_live(struct phrase *into, const struct ended *ended, uint32_t name, struct block block)
{
    phrase_add(into, "block %" PRIu32 " is live and %s", name, block.state == STATE_FIXED ? "fixed" : "freeable");
    print_owner(into, ended, name);
    phrase_add(into, ", ");
    print_count(into, block.length, "cell");
    phrase_add(into, block.length == 1 ? ", cell %zu" : " from cell %zu on", block.first);
}

static void print_dead(struct phrase *into, const struct ended *ended, uint32_t name)
{
    uint32_t statement = statement_that_ended(ended->given, ended->left, name);
    phrase_add(into, "block %" PRIu32 " is dead", name);
    if (statement == 0)
        return;
    bool is_let = record_at(ended->at.table, statement).kind == 47;
    phrase_add(into, " since %s%s %" PRIu32 ", ", is_let ? "the end of " : "",
               ended->given->is_target ? "record" : "statement", statement);
    print_text(into, ended, statement);
}

void explain_block(const struct ended *ended, uint32_t name, struct phrase *into)
{
    struct block block = block_at(ended->at.memory, name);
    phrase_add(into, into->length == 0 ? "" : "; ");
    if (is_live(block))
        print_live(into, ended, name, block);
    else
        print_dead(into, ended, name);
}
