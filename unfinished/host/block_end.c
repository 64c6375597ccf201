#include "block_end.h"

#include "block.h"
#include "evaluation.h"
#include "record.h"
#include "stops.h"

/* Each statement that is asked about costs a run: one with more tests of whiles than this is not made again. */
enum { MOST_TESTS = 1000000 };

/* Whether a statement ended the block: LATER is not at the run's first arrival there, but perhaps at another. */
enum answer { CANNOT, LATER, MAY, DID };

/* A free, by the memory at the first arrival, which tells what it frees then. */
static enum answer freed_by(const uint8_t *table, uint32_t statement, const uint8_t *memory, uint32_t name)
{
    enum block_state state = block_at(memory, name).state;
    if (state == STATE_DEAD || state == STATE_FIXED)
        return CANNOT;
    struct moment at = moment_left(table, statement, RECORDER_DONE, memory);
    struct outcome freed = run_again(&at, statement);
    if (freed.ending == UNTOLD)
        return MAY;
    return freed.ending == RECORDER_DONE && freed.x.name == name ? DID : LATER;
}

/* A let, likewise: then it makes the block of the lowest unused name. */
static enum answer let_by(const uint8_t *memory, uint32_t name)
{
    if (block_at(memory, name).state != STATE_UNUSED)
        return CANNOT;
    return block_at(memory, name - 1).state != STATE_UNUSED ? DID : LATER;
}

/* What is in no while has one arrival at most. */
static bool is_in_while(const struct table *table, uint32_t statement)
{
    return innermost_around(table->bytes, table_records(table), statement, 46) != 0;
}

static enum answer ended_by(const struct run_given *given, uint32_t statement, uint32_t name)
{
    static struct run_left arrival;
    const uint8_t *table = given->table->bytes;
    uint8_t kind = record_at(table, statement).kind;
    if (kind != 43 && kind != 47)
        return CANNOT;
    enum arrival first = stop_at(given, (struct stop){statement, false}, &arrival);
    if (first == ARRIVAL_NEVER)
        return CANNOT;
    if (first == ARRIVAL_NO_ROOM)
        return MAY;
    enum answer answer = kind == 43 ? freed_by(table, statement, arrival.memory, name) : let_by(arrival.memory, name);
    if (answer == LATER)
        return is_in_while(given->table, statement) ? MAY : CANNOT;
    return answer;
}

uint32_t statement_that_ended(const struct run_given *given, const struct run_left *left, uint32_t name)
{
    uint32_t possible = 0, count = 0;
    struct run_given run = *given;
    run.observation_length = RECORDER_OBSERVATION_BYTES; /* a plain run may have been lent another */
    if (given->fuel - left->answer.fuel > MOST_TESTS)
        return 0;
    for (uint32_t statement = 1; statement <= table_records(given->table); statement++) {
        enum answer answer = ended_by(&run, statement, name);
        if (answer == DID)
            return statement;
        if (answer == MAY) {
            possible = statement;
            count++;
        }
    }
    return count == 1 ? possible : 0;
}
