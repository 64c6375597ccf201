#include "words.h"

#include <inttypes.h>
#include <stdio.h>

#include "explain.h"
#include "status.h"

_Static_assert(RECORDER_MEMORY_BYTES == 49144 && RECORDER_OBSERVATION_BYTES == 33784, "the words of 21 and 22");

#define FINISHED "finished"

static const struct {
    uint32_t number;
    const char *words;
} NUMBERS[] = {
    {RECORDER_DONE, FINISHED},
    {RECORDER_BAD_LENGTH, "the table's length is 0 or no multiple of 16 bytes"},
    {RECORDER_TOO_MANY_RECORDS, "too many records"},
    {RECORDER_BAD_KIND, "kind not in the language"},
    {RECORDER_BAD_FIELD, "mark, operator, query, literal or child presence against the rules"},
    {RECORDER_BAD_CHILD, "child not smaller or of the wrong sort"},
    {RECORDER_BAD_SHAPE, "the last record is no statement, or another is not a child exactly once"},
    {RECORDER_BAD_SCOPE, "variable used out of scope, or let while in scope"},
    {RECORDER_TOO_DEEP, "term or predicate that needs a temporary above 63"},
    {RECORDER_BAD_INPUTS, "inputs no multiple of 8 bytes, none, or over 256"},
    {RECORDER_SHORT_OUTPUT, "output shorter than the translation"},
    {RECORDER_BAD_MEMORY, "execution memory not 49144 bytes"},
    {RECORDER_BAD_OBSERVATION, "observation memory not 33784 bytes"},
    {RECORDER_NO_CELLS, "no run of free cells long enough"},
    {RECORDER_NO_NAMES, "all names given"},
    {RECORDER_NO_FUEL, "no fuel at a while test"},
    {RECORDER_ASSERTION_FALSE, "assertion false"},
    {RECORDER_WRONG_SORT, "wrong sort of value"},
    {RECORDER_UNDEFINED_READ, "undefined cell read"},
    {RECORDER_DEAD_BLOCK, "cell of a dead block"},
    {RECORDER_OVERFLOW, "overflow"},
    {RECORDER_ZERO_DIVISOR, "zero divisor"},
    {RECORDER_BAD_SIZE, "size below 1"},
    {RECORDER_BAD_FREE, "free of anything but the first cell of a live freeable block"},
    {RECORDER_NOT_LIVE, "base, offset or length of a block not live, or a pointer into one compared"},
    {RECORDER_CONTRADICTION, "call that contradicts the observation memory"},
    {RECORDER_EMPTY_TEMPORARY, "empty temporary"},
    {RECORDER_OUTSIDE_BLOCK, "offset outside a live block"},
};

const char *number_in_words(uint32_t number)
{
    for (size_t at = 0; at < sizeof NUMBERS / sizeof NUMBERS[0]; at++)
        if (NUMBERS[at].number == number)
            return NUMBERS[at].words;
    return "a number that the header does not have";
}

bool is_refusal(recorder_answer answer)
{
    return answer.number >= RECORDER_BAD_LENGTH && answer.number <= RECORDER_BAD_OBSERVATION;
}

static struct explanation explanation;

int tell_refusal(FILE *to, const char *in_front, const char *what, recorder_answer answer, const struct table *table,
                 bool is_target)
{
    if (!is_refusal(answer))
        return (int)answer.number;
    fprintf(to, "%s%s: refusal %" PRIu32, in_front, what, answer.number);
    if (answer.record != 0)
        fprintf(to, " at record %" PRIu32, answer.record);
    fprintf(to, " (%s)\n", number_in_words(answer.number));
    explain_refusal(table, is_target, answer, &explanation);
    print_explanation(to, in_front, &explanation);
    return (int)answer.number;
}

int tell_run(FILE *to, const char *what, const struct run_given *given, const struct run_left *left)
{
    recorder_answer answer = left->answer;
    if (is_refusal(answer))
        return tell_refusal(to, "", what, answer, given->table, given->is_target);
    fprintf(to, "%s: ending %" PRIu32 " (%s)", what, answer.number, number_in_words(answer.number));
    if (answer.number != RECORDER_DONE)
        fprintf(to, " at statement %" PRIu32, answer.record);
    fprintf(to, ", fuel left %" PRIu32 ", free cells %" PRIu32 "\n", answer.fuel, answer.free_cells);
    if (answer.number == RECORDER_DONE)
        return STATUS_DONE;
    explain_ending(given, left, &explanation);
    print_explanation(to, "", &explanation);
    return (int)answer.number;
}

void json_answer(struct json *json, const char *done, recorder_answer answer)
{
    json_open_object(json, "answer");
    json_number(json, "number", answer.number);
    json_text(json, "words", answer.number == RECORDER_DONE ? done : number_in_words(answer.number));
    json_number(json, "record", answer.record);
    json_number(json, "fuel", answer.fuel);
    json_number(json, "free_cells", answer.free_cells);
    json_close_object(json);
}

void json_checked(struct json *json, const char *done, recorder_answer answer, const struct table *table,
                  bool is_target)
{
    json_answer(json, done, answer);
    if (answer.number == RECORDER_DONE)
        return;
    explain_refusal(table, is_target, answer, &explanation);
    json_explanation(json, &explanation);
}

void json_run(struct json *json, const struct run_given *given, const struct run_left *left)
{
    if (is_refusal(left->answer)) {
        json_checked(json, FINISHED, left->answer, given->table, given->is_target);
        return;
    }
    json_answer(json, FINISHED, left->answer);
    if (left->answer.number == RECORDER_DONE)
        return;
    explain_ending(given, left, &explanation);
    json_explanation(json, &explanation);
}
