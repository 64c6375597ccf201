#include <inttypes.h>

#include "ended.h"
#include "explain.h"
#include "record.h"
#include "stops.h"

/* By kind: what it does, and when that contradicts the observation memory. */
static const struct {
    uint8_t kind;
    const char *words;
    const char *contradicts;
} STEPS[] = {
    {63, "an operator was to be applied to two temporaries", ""},
    {64, "the observation memory was to be asked about the pointer in a temporary", ""},
    {65, "a temporary was to be negated", ""},
    {66, "a temporary was to be tested", ""},
    {67, "a temporary was asserted", ""},
    {68, "a block was to be recorded in the observation memory",
     "the offset is not 0, the length is below 1, the name is live or dead there already, or no run of free marks is "
     "long enough"},
    {69, "a block was to be deleted from the observation memory", "the offset is not 0, or the name is not live there"},
    {70, "a place was to be marked initialised", "the pointer leads to no mark: its name is not live there, or the "
     "offset is outside"},
};

static size_t step_of(uint8_t kind)
{
    size_t at = 0;
    while (at < sizeof STEPS / sizeof STEPS[0] && STEPS[at].kind != kind)
        at++;
    return at;
}

/* What is told where a temporary was used. */
static void explain_in_general(uint8_t kind, uint32_t number, struct explanation *into)
{
    size_t step = step_of(kind);
    bool is_step = step < sizeof STEPS / sizeof STEPS[0];
    phrase_add(&into->operation, "%s; what temporaries hold stands in no buffer",
               is_step ? STEPS[step].words : "a temporary was used");
    if (number == RECORDER_CONTRADICTION && is_step)
        phrase_add(&into->detail, "this contradicts where %s", STEPS[step].contradicts);
}

/* The statement of the answer is a number that the table carries: it need not be one of its records. */
static void explain_record(const struct run_given *given, const struct run_left *left, uint32_t record,
                           struct explanation *into)
{
    struct ended ended = ended_at(given, left, record);
    phrase_add(&into->statement, "record %" PRIu32 ": ", record);
    print_text(&into->statement, &ended, record);
    phrase_add(&into->statement, ", from source statement %" PRIu32, left->answer.record);
    if (ended.stopped.ending == left->answer.number)
        explain_stop(&ended, into);
    else
        explain_in_general(record_at(given->table->bytes, record).kind, left->answer.number, into);
}

void explain_target(const struct run_given *given, const struct run_left *left, struct explanation *into)
{
    uint32_t record = record_ended(given);
    if (record >= 1 && record <= table_records(given->table))
        explain_record(given, left, record, into);
    if (left->answer.number == RECORDER_EMPTY_TEMPORARY)
        phrase_add(&into->detail, "a temporary was read before anything was put there");
}
