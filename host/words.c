#include "words.h"

#include <inttypes.h>
#include <stdio.h>

#include "memories.h"
#include "used_pointer.h"

static const struct {
    uint32_t number;
    const char *words;
} NUMBERS[] = {
    {RECORDER_DONE, "finished"},
    {RECORDER_BAD_LENGTH, "the table's length is 0 or no multiple of 16 bytes"},
    {RECORDER_TOO_MANY_RECORDS, "too many records"},
    {RECORDER_BAD_KIND, "kind not in the language"},
    {RECORDER_BAD_FIELD, "mark, operator, query, literal or child presence against the rules"},
    {RECORDER_BAD_CHILD, "child not smaller or of the wrong sort"},
    {RECORDER_BAD_SHAPE, "the last record is no statement, or another is not a child exactly once"},
    {RECORDER_BAD_SCOPE, "variable used out of scope, or let while in scope"},
    {RECORDER_TOO_DEEP, "term or predicate that needs a temporary above 63"},
    {RECORDER_BAD_INPUTS, "inputs no multiple of 8 bytes, none, or over 256"},
    {RECORDER_SHORT_OUTPUT, "output shorter than the translation"},
    {RECORDER_BAD_MEMORY, "execution memory not"},
    {RECORDER_BAD_OBSERVATION, "observation memory not"},
    {RECORDER_NO_CELLS, "no run of free cells long enough"},
    {RECORDER_NO_NAMES, "all names given"},
    {RECORDER_NO_FUEL, "no fuel at a while test"},
    {RECORDER_ASSERTION_FALSE, "assertion false"},
    {RECORDER_WRONG_SORT, "wrong sort of value"},
    {RECORDER_UNDEFINED_READ, "undefined cell read"},
    {RECORDER_DEAD_BLOCK, "cell of a dead block"},
    {RECORDER_OVERFLOW, "overflow"},
    {RECORDER_ZERO_DIVISOR, "zero divisor"},
    {RECORDER_BAD_SIZE, "size below 1"},
    {RECORDER_BAD_FREE, "free of anything but the first cell of a live freeable block"},
    {RECORDER_NOT_LIVE, "base, offset or length of a block not live, or a pointer into one compared"},
    {RECORDER_CONTRADICTION, "call that contradicts the observation memory"},
    {RECORDER_EMPTY_TEMPORARY, "empty temporary"},
    {RECORDER_OUTSIDE_BLOCK, "offset outside a live block"},
};

static const char *in_words(uint32_t number)
{
    for (size_t at = 0; at < sizeof NUMBERS / sizeof NUMBERS[0]; at++)
        if (NUMBERS[at].number == number)
            return NUMBERS[at].words;
    return "a number that the header does not have";
}

/* Prints the words, with the length that 21 and 22 ask for. */
static void print_words(uint32_t number)
{
    printf("%s", in_words(number));
    if (number == RECORDER_BAD_MEMORY)
        printf(" %d bytes", RECORDER_MEMORY_BYTES);
    if (number == RECORDER_BAD_OBSERVATION)
        printf(" %d bytes", RECORDER_OBSERVATION_BYTES);
}

bool is_refusal(recorder_answer answer)
{
    return answer.number >= RECORDER_BAD_LENGTH && answer.number <= RECORDER_BAD_OBSERVATION;
}

int tell_refusal(const char *what, recorder_answer answer)
{
    if (is_refusal(answer)) {
        printf("%s: refusal %" PRIu32, what, answer.number);
        if (answer.record != 0)
            printf(" at record %" PRIu32, answer.record);
        printf(" (");
        print_words(answer.number);
        printf(")\n");
    }
    return (int)answer.number;
}

/* Prints why a run ended: where its table is known, with the pointer that 42 and 50 come from. */
static void print_reason(recorder_answer answer, const uint8_t *table, const uint8_t *memory)
{
    struct used_pointer used;
    if (table == NULL || !used_pointer(table, answer, memory, &used)) {
        print_words(answer.number);
    } else if (answer.number == RECORDER_DEAD_BLOCK) {
        printf("block %" PRIu32 " is dead; its offset %" PRId64 " was used", used.name, used.offset);
    } else {
        size_t length = block_length(memory, used.name);
        printf("offset %" PRId64 " is outside block %" PRIu32 ", which has %zu cell%s", used.offset, used.name, length,
               length == 1 ? "" : "s");
    }
}

int tell_run(const char *what, recorder_answer answer, const uint8_t *table, const uint8_t *memory)
{
    if (is_refusal(answer))
        return tell_refusal(what, answer);
    printf("%s: ending %" PRIu32 " (", what, answer.number);
    print_reason(answer, table, memory);
    printf(")");
    if (answer.number != RECORDER_DONE)
        printf(" at statement %" PRIu32, answer.record);
    printf(", fuel left %" PRIu32 ", free cells %" PRIu32 "\n", answer.fuel, answer.free_cells);
    return (int)answer.number;
}
