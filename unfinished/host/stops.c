#include "stops.h"

#include <string.h>

#include "record.h"
#include "words.h"

/* The table that is run in place of the one given. The longest target table, with a false assertion in place of one of
 * its records, fits its room; nothing longer is made. */
static struct table changed;

_Static_assert(TABLE_ROOM >= (RECORDER_TARGET_RECORDS + 3) * RECORDER_RECORD_BYTES, "four records in place of one");

/* The records of a false assertion behind a let's body, and of the list that it stands in. */
enum { BEHIND_IN_SOURCE = 6 + 1, BEHIND_IN_TARGET = 4 + 1 };

/* Statement numbers in a changed target table: those of the false assertion, and all others. */
enum { OF_OTHERS = 1, OF_ASSERTION = 2 };

static bool is_accepted(const struct run_given *given)
{
    const struct table *table = given->table;
    recorder_answer answer = given->is_target ? recorder_check_target(table->bytes, table->length)
                                              : recorder_check_source(table->bytes, table->length);
    return answer.number == RECORDER_DONE;
}

/* Adds a record to the end of the changed table; its number. */
static uint32_t append(struct record record)
{
    uint32_t number = table_records(&changed) + 1;
    record_put(changed.bytes, number, record);
    changed.length += RECORDER_RECORD_BYTES;
    return number;
}

/* In a source table: assert 0 = 1. */
static uint32_t append_source_assertion(void)
{
    uint32_t zero = append((struct record){.kind = 1});
    uint32_t left = append((struct record){.kind = 20, .a = zero});
    uint32_t one = append((struct record){.kind = 1, .literal = 1});
    uint32_t right = append((struct record){.kind = 20, .a = one});
    uint32_t equal = append((struct record){.kind = 32, .mark = 7, .a = left, .b = right});
    return append((struct record){.kind = 48, .a = equal});
}

/* In a target table: t0 takes 0, then assert t0. The run ends there, so what t0 held is missed by nothing. */
static uint32_t append_target_assertion(void)
{
    uint32_t zero = append((struct record){.kind = 1});
    uint32_t taking = append((struct record){.kind = 61, .a = zero, .literal = OF_ASSERTION});
    uint32_t asserting = append((struct record){.kind = 67, .literal = OF_ASSERTION});
    return append((struct record){.kind = 44, .a = taking, .b = asserting, .literal = OF_ASSERTION});
}

/* Marks a statement and all records below it. Children have smaller numbers, so one way down finds them all; where a
 * field has no child, number 0 is marked, which is no record. */
static void mark_below(const struct table *table, uint32_t statement, bool *is_below)
{
    is_below[statement] = true;
    for (uint32_t number = statement; number > 0; number--) {
        if (!is_below[number])
            continue;
        struct record record = record_at(table->bytes, number);
        is_below[record.a] = true;
        is_below[record.b] = true;
        if (has_child_c(record.kind))
            is_below[record.c] = true;
    }
}

/* A record with the numbers that its children have in the changed table; `now` of 0 is 0. */
static struct record renumbered(struct record record, const uint32_t *now, bool is_target)
{
    record.a = now[record.a];
    record.b = now[record.b];
    if (has_child_c(record.kind))
        record.c = now[record.c];
    if (is_target && is_statement(record.kind))
        record.literal = OF_OTHERS;
    return record;
}

/* A false assertion; its number. */
static uint32_t append_assertion(bool is_target)
{
    return is_target ? append_target_assertion() : append_source_assertion();
}

/* The body of a let, then a statement; the number of both. */
static uint32_t append_behind(uint32_t body, uint32_t statement, bool is_target)
{
    int64_t literal = is_target ? OF_OTHERS : 0;
    return append((struct record){.kind = 44, .a = body, .b = statement, .literal = literal});
}

/* Makes the changed table. The number under which a run that ends at the assertion tells it. */
static uint32_t put_assertion(const struct run_given *given, struct stop stop)
{
    bool is_below[RECORDER_TARGET_RECORDS + 1] = {false};
    uint32_t now[RECORDER_TARGET_RECORDS + 1] = {0};
    uint32_t assertion = 0;
    if (!stop.is_let_end)
        mark_below(given->table, stop.statement, is_below);
    changed.length = 0;
    for (uint32_t number = 1; number <= table_records(given->table); number++) {
        struct record record = renumbered(record_at(given->table->bytes, number), now, given->is_target);
        if (number == stop.statement)
            assertion = append_assertion(given->is_target);
        if (number == stop.statement && stop.is_let_end)
            record.a = append_behind(record.a, assertion, given->is_target);
        if (!is_below[number])
            now[number] = append(record);
        else if (number == stop.statement)
            now[number] = assertion;
    }
    return given->is_target ? OF_ASSERTION : assertion;
}

/* Whether the table, an accepted one, has such a stop. */
static bool has_stop(const struct run_given *given, struct stop stop)
{
    if (!is_accepted(given) || stop.statement < 1 || stop.statement > table_records(given->table))
        return false;
    uint8_t kind = record_at(given->table->bytes, stop.statement).kind;
    return stop.is_let_end ? kind == 47 : is_statement(kind);
}

enum arrival stop_at(const struct run_given *given, struct stop stop, struct run_left *left)
{
    uint32_t most = given->is_target ? RECORDER_TARGET_RECORDS : RECORDER_SOURCE_RECORDS;
    if (!has_stop(given, stop))
        return ARRIVAL_NEVER;
    uint32_t behind = given->is_target ? BEHIND_IN_TARGET : BEHIND_IN_SOURCE;
    if (stop.is_let_end && table_records(given->table) + behind > most)
        return ARRIVAL_NO_ROOM;
    uint32_t told = put_assertion(given, stop);
    if (table_records(&changed) > most)
        return ARRIVAL_NO_ROOM;
    struct run_given run = *given;
    run.table = &changed;
    run_watched(&run, left);
    bool is_there = left->answer.number == RECORDER_ASSERTION_FALSE && left->answer.record == told;
    return is_there ? ARRIVAL_REACHED : ARRIVAL_NEVER;
}

/* The statement number at which the run of a target table ends where record n has a number that tells n in part: how
 * often 256 goes into n - 1, or what is left then. Statement numbers go from 1 to 256 and change nothing else. */
static uint32_t part_of_record(const struct run_given *given, bool is_quotient, struct run_left *left)
{
    const uint32_t numbers = RECORDER_SOURCE_RECORDS;
    changed.length = 0;
    for (uint32_t number = 1; number <= table_records(given->table); number++) {
        struct record record = record_at(given->table->bytes, number);
        if (is_statement(record.kind))
            record.literal = 1 + (is_quotient ? (number - 1) / numbers : (number - 1) % numbers);
        append(record);
    }
    struct run_given run = *given;
    run.table = &changed;
    run_watched(&run, left);
    return left->answer.record - 1;
}

uint32_t record_ended(const struct run_given *given)
{
    static struct run_left left;
    if (given->is_target)
        run_watched(given, &left);
    else
        run_plain(given, &left);
    if (left.answer.number == RECORDER_DONE || is_refusal(left.answer))
        return 0;
    if (!given->is_target)
        return left.answer.record;
    uint32_t quotient = part_of_record(given, true, &left);
    return quotient * RECORDER_SOURCE_RECORDS + part_of_record(given, false, &left) + 1;
}
