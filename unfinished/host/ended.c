#include "ended.h"

#include <inttypes.h>

#include "printer.h"
#include "record.h"

struct ended ended_at(const struct run_given *given, const struct run_left *left, uint32_t statement)
{
    uint32_t number = left->answer.number;
    struct moment at = moment_left(given->table->bytes, statement, number, left->memory);
    struct outcome stopped = {.ending = number, .record = statement};
    if (number != RECORDER_NO_FUEL)
        stopped = run_again(&at, statement);
    return (struct ended){given, left, statement, at, stopped};
}

void print_text(struct phrase *into, const struct ended *ended, uint32_t record)
{
    print_record(into, ended->given->table, record);
}

bool is_literal(const struct ended *ended, uint32_t record)
{
    struct record at = record_at(ended->at.table, record);
    return at.kind == 1 || (at.kind == 20 && is_literal(ended, at.a));
}

static void print_value(struct phrase *into, struct value value)
{
    if (value.kind == VALUE_POINTER)
        phrase_add(into, "a pointer to block %" PRIu32 ", offset %" PRId64, value.name, value.number);
    else
        phrase_add(into, "%" PRId64, value.number);
}

void print_given(struct phrase *into, const struct ended *ended, uint32_t record, struct value value)
{
    print_text(into, ended, record);
    phrase_add(into, " is ");
    if (is_literal(ended, record))
        phrase_add(into, "an integer");
    else
        print_value(into, value);
}

void print_count(struct phrase *into, uint64_t count, const char *unit)
{
    phrase_add(into, "%" PRIu64 " %s%s", count, unit, count == 1 ? "" : "s");
}
