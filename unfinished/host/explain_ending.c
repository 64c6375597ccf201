#include "explain.h"

#include <inttypes.h>
#include <string.h>

#include "block.h"
#include "ended.h"

static const struct {
    uint32_t number;
    const char *line;
} USUAL[] = {
    {RECORDER_NO_CELLS, "blocks are never freed, or a size was meant in bytes: it counts cells"},
    {RECORDER_NO_NAMES, "a new or a let stands in a long loop; no name is given twice, also after its block's end"},
    {RECORDER_NO_FUEL, "the condition never becomes 0, or the loop needs more turns than there was fuel"},
    {RECORDER_ASSERTION_FALSE, "the program breaks what it asserts, or asserts it a statement too early or late"},
    {RECORDER_WRONG_SORT, "a pointer was taken for a number, or the address of a variable for what it holds"},
    {RECORDER_UNDEFINED_READ, "the first store is missing: fresh cells are undefined, not 0"},
    {RECORDER_DEAD_BLOCK, "the block was freed too early, or a pointer to it was kept too long"},
    {RECORDER_OVERFLOW, "a sum or a product grew over the turns of a loop, or -2^63 was divided by -1"},
    {RECORDER_ZERO_DIVISOR, "an input or a count is 0 where none was expected; test it before the division"},
    {RECORDER_BAD_SIZE, "a size that is worked out came to 0 or below; test it before the new"},
    {RECORDER_BAD_FREE, "a block was freed twice, or by a pointer that had moved off its first cell"},
    {RECORDER_NOT_LIVE, "the pointer was kept after its block's end; then only valid and initialised may be asked"},
    {RECORDER_CONTRADICTION, "a new block, a free or a let is told to the observation memory twice, or not at all"},
    {RECORDER_EMPTY_TEMPORARY, "the record that fills the temporary runs later, or in a branch that was not taken"},
    {RECORDER_OUTSIDE_BLOCK, "a loop runs a turn too far, or begins before the first cell"},
};

static void explain_usual(uint32_t number, struct phrase *into)
{
    for (size_t at = 0; at < sizeof USUAL / sizeof USUAL[0]; at++)
        if (USUAL[at].number == number)
            phrase_add(into, "%s", USUAL[at].line);
}

/* The blocks of the operands that are pointers; of a comparison those that are not live. */
static void explain_blocks(const struct ended *ended, struct phrase *into)
{
    const struct value x = ended->stopped.x, y = ended->stopped.y;
    switch (ended->stopped.ending) {
    case RECORDER_UNDEFINED_READ: case RECORDER_DEAD_BLOCK: case RECORDER_OUTSIDE_BLOCK: case RECORDER_BAD_FREE:
        explain_block(ended, x.name, into);
        break;
    case RECORDER_NOT_LIVE:
        if (!is_live(block_at(ended->at.memory, x.name)))
            explain_block(ended, x.name, into);
        if (y.kind == VALUE_POINTER && y.name != x.name && !is_live(block_at(ended->at.memory, y.name)))
            explain_block(ended, y.name, into);
        break;
    default:
        break;
    }
}

void explain_stop(const struct ended *ended, struct explanation *into)
{
    if (ended->stopped.ending != RECORDER_ASSERTION_FALSE) {
        explain_operation(ended, &into->operation);
        explain_blocks(ended, &into->block);
        explain_detail(ended, &into->detail);
        return;
    }
    struct value asked = {VALUE_NONE, 0, 0};
    explain_assertion(ended, &into->operation, &asked);
    if (asked.kind == VALUE_POINTER)
        explain_block(ended, asked.name, &into->block);
}

static void explain_source(const struct run_given *given, const struct run_left *left, struct explanation *into)
{
    uint32_t statement = left->answer.record;
    if (statement < 1 || statement > table_records(given->table))
        return;
    struct ended ended = ended_at(given, left, statement);
    phrase_add(&into->statement, "%" PRIu32 ": ", statement);
    print_text(&into->statement, &ended, statement);
    if (ended.stopped.ending == left->answer.number)
        explain_stop(&ended, into);
}

void explain_ending(const struct run_given *given, const struct run_left *left, struct explanation *into)
{
    memset(into, 0, sizeof *into);
    if (given->is_target)
        explain_target(given, left, into);
    else
        explain_source(given, left, into);
    explain_usual(left->answer.number, &into->usual);
}
