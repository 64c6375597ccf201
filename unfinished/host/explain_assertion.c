#include "block.h"
#include "ended.h"
#include "record.h"

/* Adds a part, and whether it is true. */
static void print_truth(struct phrase *into, const struct ended *ended, uint32_t part, bool is_true)
{
    phrase_add(into, into->length == 0 ? "" : "; ");
    print_text(into, ended, part);
    phrase_add(into, is_true ? " is true" : " is false");
}

/* Why a pointer is not valid, or is valid and not initialised. */
static void print_reason(struct phrase *into, const struct ended *ended, struct value pointer)
{
    struct block block = block_at(ended->at.memory, pointer.name);
    if (!is_live(block)) {
        phrase_add(into, ", and that block is dead");
    } else if (cell_led_to(ended->at.memory, pointer.name, pointer.number) == NULL) {
        phrase_add(into, ", outside the block, which has ");
        print_count(into, block.length, "cell");
    } else {
        phrase_add(into, ", where nothing was stored");
    }
}

/* Kinds 30 and 31. */
static void explain_query(struct phrase *into, const struct ended *ended, uint32_t part, bool is_true,
                          struct value *asked)
{
    uint32_t term = record_at(ended->at.table, part).a;
    struct value pointer = evaluate(&ended->at, term).value;
    print_truth(into, ended, part, is_true);
    phrase_add(into, ": ");
    print_given(into, ended, term, pointer);
    if (!is_true)
        print_reason(into, ended, pointer);
    if (asked->kind == VALUE_NONE)
        *asked = pointer;
}

/* Kind 32. A literal's value stands in the part's text. */
static void explain_comparison(struct phrase *into, const struct ended *ended, uint32_t part, bool is_true)
{
    struct record record = record_at(ended->at.table, part);
    const uint32_t terms[] = {record.a, record.b};
    const char *before = ": ";
    print_truth(into, ended, part, is_true);
    for (int side = 0; side < 2; side++) {
        if (is_literal(ended, terms[side]))
            continue;
        phrase_add(into, "%s", before);
        print_given(into, ended, terms[side], evaluate(&ended->at, terms[side]).value);
        before = ", ";
    }
}

static void explain_part(struct phrase *into, const struct ended *ended, uint32_t part, bool is_true,
                         struct value *asked);

/* Kinds 34 and 35: one part is enough to make an `and` false or an `or` true, and where that is A, B was not looked
 * at. */
static void explain_either(struct phrase *into, const struct ended *ended, struct record record, bool is_true,
                           struct value *asked)
{
    bool one_is_enough = is_true == (record.kind == 35);
    bool is_a_so = (evaluate(&ended->at, record.a).value.number != 0) == is_true;
    if (is_a_so)
        explain_part(into, ended, record.a, is_true, asked);
    if (!is_a_so || !one_is_enough)
        explain_part(into, ended, record.b, is_true, asked);
}

/* A part that is true or false, by what makes it so. */
static void explain_part(struct phrase *into, const struct ended *ended, uint32_t part, bool is_true,
                         struct value *asked)
{
    struct record record = record_at(ended->at.table, part);
    switch (record.kind) {
    case 30: case 31:
        explain_query(into, ended, part, is_true, asked);
        break;
    case 32:
        explain_comparison(into, ended, part, is_true);
        break;
    case 33:
        explain_part(into, ended, record.a, !is_true, asked);
        break;
    default:
        explain_either(into, ended, record, is_true, asked);
    }
}

void explain_assertion(const struct ended *ended, struct phrase *into, struct value *asked)
{
    explain_part(into, ended, record_at(ended->at.table, ended->statement).a, false, asked);
}
