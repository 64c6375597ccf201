#include <inttypes.h>
#include <string.h>

#include "explain.h"
#include "explain_parts.h"
#include "printer.h"
#include "recorder.h"

_Static_assert(RECORDER_INPUTS == 256 && RECORDER_INPUT_BYTES == 8, "the words of 9");
_Static_assert(RECORDER_TRANSLATION_BYTES == 57344, "the words of 20");
_Static_assert(RECORDER_MEMORY_BYTES == 49144 && RECORDER_OBSERVATION_BYTES == 33784, "the words of 21 and 22");

/* Refusals that name a record. */
static const struct {
    uint32_t number;
    void (*explain)(const struct refused *refused, struct explanation *into);
} OF_RECORDS[] = {
    {RECORDER_BAD_KIND, explain_kind},   {RECORDER_BAD_FIELD, explain_fields}, {RECORDER_BAD_CHILD, explain_children},
    {RECORDER_BAD_SHAPE, explain_shape}, {RECORDER_BAD_SCOPE, explain_scope},  {RECORDER_TOO_DEEP, explain_level},
};

/* Refusals of what is lent beside the table: no more is known than the number. */
static const struct {
    uint32_t number;
    const char *detail, *usual;
} OF_THE_REST[] = {
    {RECORDER_BAD_INPUTS, "a run takes 1 to 256 inputs, 8 bytes to each",
     "the inputs are empty, or a file of inputs is text where it should hold numbers of 8 bytes"},
    {RECORDER_SHORT_OUTPUT, "57344 bytes hold any translation: at most 14 records of 16 bytes for each source record",
     "the output is as long as the source table; a translation is longer"},
    {RECORDER_BAD_MEMORY, "the execution memory has 49144 bytes: 4095 block records of 8, then 1024 cells of 16",
     "the host was built with a header of other sizes, or the two memories are interchanged"},
    {RECORDER_BAD_OBSERVATION, "the observation memory has 33784 bytes: 4095 block records of 8, then 1024 marks of 1",
     "the host was built with a header of other sizes, or the two memories are interchanged"},
};

static void explain_length(const struct table *table, struct explanation *into)
{
    uint32_t records = table_records(table);
    if (table->length == 0)
        phrase_add(&into->detail, "the table has no bytes; a table has at least one record, of %d bytes",
                   RECORDER_RECORD_BYTES);
    else
        phrase_add(&into->detail, "the table has %zu bytes: %" PRIu32 " record%s of %d bytes, and %zu more",
                   table->length, records, records == 1 ? "" : "s", RECORDER_RECORD_BYTES,
                   table->length % RECORDER_RECORD_BYTES);
    phrase_add(&into->usual, "the file was cut short, or is no table");
}

static void explain_count(const struct table *table, bool is_target, struct explanation *into)
{
    int most = is_target ? RECORDER_TARGET_RECORDS : RECORDER_SOURCE_RECORDS;
    phrase_add(&into->detail, "the table has %" PRIu32 " records; a %s table has at most %d", table_records(table),
               is_target ? "target" : "source", most);
    if (is_target)
        phrase_add(&into->usual, "the file is no table: no translation is so long");
    else
        phrase_add(&into->usual, "the program is too long for one table, or the table is a target table");
}

static void explain_record(const struct table *table, bool is_target, recorder_answer answer, struct explanation *into)
{
    struct refused refused = {table, is_target, answer.record, record_at(table->bytes, answer.record)};
    phrase_add(&into->statement, "%" PRIu32 ": ", answer.record);
    print_record(&into->statement, table, answer.record);
    for (size_t at = 0; at < sizeof OF_RECORDS / sizeof OF_RECORDS[0]; at++)
        if (OF_RECORDS[at].number == answer.number)
            OF_RECORDS[at].explain(&refused, into);
}

static void explain_rest(recorder_answer answer, struct explanation *into)
{
    for (size_t at = 0; at < sizeof OF_THE_REST / sizeof OF_THE_REST[0]; at++) {
        if (OF_THE_REST[at].number != answer.number)
            continue;
        phrase_add(&into->detail, "%s", OF_THE_REST[at].detail);
        phrase_add(&into->usual, "%s", OF_THE_REST[at].usual);
    }
}

void explain_refusal(const struct table *table, bool is_target, recorder_answer answer, struct explanation *into)
{
    memset(into, 0, sizeof *into);
    if (answer.number == RECORDER_BAD_LENGTH)
        explain_length(table, into);
    else if (answer.number == RECORDER_TOO_MANY_RECORDS)
        explain_count(table, is_target, into);
    else if (answer.record >= 1 && answer.record <= table_records(table))
        explain_record(table, is_target, answer, into);
    else
        explain_rest(answer, into);
}
