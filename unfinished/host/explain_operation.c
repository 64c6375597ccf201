#include <inttypes.h>

#include "block.h"
#include "ended.h"
#include "record.h"

/* By the operator's number; 8 shifts an offset. */
static const char *const SIGNS[] = {"", "+", "-", "*", "/", "/", "<=", "=", "+"};

static struct record stopped_record(const struct ended *ended)
{
    return record_at(ended->at.table, ended->stopped.record);
}

static uint32_t operator_of(struct record record)
{
    return record.kind == 5 ? OPERATOR_SHIFT : record.mark;
}

/* "*p: ", unless it is the statement, whose text stands above. */
static void name_part(struct phrase *into, const struct ended *ended, uint32_t record)
{
    if (record == ended->statement)
        return;
    print_text(into, ended, record);
    phrase_add(into, ": ");
}

static const char *words_asked_for(struct record record)
{
    switch (record.kind) {
    case 4: case 5: case 24: case 32:
        if (operator_of(record) == OPERATOR_SHIFT)
            return "a pointer and an integer were";
        return operator_of(record) == OPERATOR_EQUAL ? "two integers or two pointers were" : "two integers were";
    case 42: case 45: case 46:
        return "an integer was";
    default:
        return "a pointer was";
    }
}

/* What A and B gave. The place of a 42 has no part in what is told of its size. */
static void print_operands(struct phrase *into, const struct ended *ended)
{
    struct record record = stopped_record(ended);
    if (record.kind != 42)
        print_given(into, ended, record.a, ended->stopped.x);
    if (ended->stopped.y.kind == VALUE_NONE)
        return;
    phrase_add(into, "%s", record.kind == 42 ? "" : ", ");
    print_given(into, ended, record.b, ended->stopped.y);
}

static void explain_wrong_sort(const struct ended *ended, struct phrase *into)
{
    name_part(into, ended, ended->stopped.record);
    print_operands(into, ended);
    phrase_add(into, "; %s asked for", words_asked_for(stopped_record(ended)));
}

/* A store is named by its place. */
static void explain_nowhere(const struct ended *ended, struct phrase *into)
{
    bool is_store = ended->stopped.record == ended->statement;
    struct value used = ended->stopped.x;
    name_part(into, ended, is_store ? stopped_record(ended).a : ended->stopped.record);
    if (ended->stopped.ending == RECORDER_DEAD_BLOCK) {
        phrase_add(into, "block %" PRIu32 " is dead; its offset %" PRId64 " was used", used.name, used.number);
        return;
    }
    phrase_add(into, "offset %" PRId64 " is outside block %" PRIu32 ", which has ", used.number, used.name);
    print_count(into, block_at(ended->at.memory, used.name).length, "cell");
}

static void explain_overflow(const struct ended *ended, struct phrase *into)
{
    uint32_t operator = operator_of(stopped_record(ended));
    name_part(into, ended, ended->stopped.record);
    phrase_add(into, "%s%" PRId64 " %s %" PRId64 " leaves 64 bits", operator == OPERATOR_SHIFT ? "offset " : "",
               ended->stopped.x.number, SIGNS[operator], ended->stopped.y.number);
}

static void explain_size(const struct ended *ended, struct phrase *into)
{
    struct record record = stopped_record(ended);
    phrase_add(into, "the size ");
    if (!is_literal(ended, record.b)) {
        print_text(into, ended, record.b);
        phrase_add(into, " ");
    }
    phrase_add(into, "is %" PRId64 "; a block has at least 1 cell", ended->stopped.y.number);
}

static void explain_free(const struct ended *ended, struct phrase *into)
{
    struct block block = block_at(ended->at.memory, ended->stopped.x.name);
    print_operands(into, ended);
    if (!is_live(block))
        phrase_add(into, ", and that block is dead");
    else if (block.state == STATE_FIXED)
        phrase_add(into, ", and that block is fixed: only what a new made can be freed");
    else
        phrase_add(into, ", which is not the block's first cell");
}

static void explain_undefined(const struct ended *ended, struct phrase *into)
{
    print_text(into, ended, ended->stopped.record);
    phrase_add(into, " is undefined: nothing was stored at offset %" PRId64 " of block %" PRIu32,
               ended->stopped.x.number, ended->stopped.x.name);
}

/* A let's block has one cell. */
static void explain_new_block(const struct ended *ended, struct phrase *into)
{
    phrase_add(into, "a block of ");
    print_count(into, ended->stopped.y.kind == VALUE_NONE ? 1 : (uint64_t)ended->stopped.y.number, "cell");
    phrase_add(into, " was to be made%s",
               ended->stopped.ending == RECORDER_NO_NAMES ? ", and all 4,095 names are given" : "");
}

static void explain_fuel(const struct ended *ended, struct phrase *into)
{
    phrase_add(into, "no fuel was left for the test of ");
    print_text(into, ended, record_at(ended->at.table, ended->statement).a);
    phrase_add(into, "; the run was given %" PRIu32, ended->given->fuel);
}

static void explain_divisor(const struct ended *ended, struct phrase *into)
{
    name_part(into, ended, ended->stopped.record);
    phrase_add(into, "the divisor is 0");
}

static void explain_not_live(const struct ended *ended, struct phrase *into)
{
    name_part(into, ended, ended->stopped.record);
    print_operands(into, ended);
}

static const struct {
    uint32_t ending;
    void (*explain)(const struct ended *ended, struct phrase *into);
} OPERATIONS[] = {
    {RECORDER_NO_CELLS, explain_new_block},
    {RECORDER_NO_NAMES, explain_new_block},
    {RECORDER_NO_FUEL, explain_fuel},
    {RECORDER_WRONG_SORT, explain_wrong_sort},
    {RECORDER_UNDEFINED_READ, explain_undefined},
    {RECORDER_DEAD_BLOCK, explain_nowhere},
    {RECORDER_OVERFLOW, explain_overflow},
    {RECORDER_ZERO_DIVISOR, explain_divisor},
    {RECORDER_BAD_SIZE, explain_size},
    {RECORDER_BAD_FREE, explain_free},
    {RECORDER_NOT_LIVE, explain_not_live},
    {RECORDER_OUTSIDE_BLOCK, explain_nowhere},
};

void explain_operation(const struct ended *ended, struct phrase *into)
{
    for (size_t at = 0; at < sizeof OPERATIONS / sizeof OPERATIONS[0]; at++)
        if (OPERATIONS[at].ending == ended->stopped.ending)
            OPERATIONS[at].explain(ended, into);
}
