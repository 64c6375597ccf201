#include "answer_file.h"

#include <inttypes.h>
#include <string.h>

#include "account.h"
#include "difference.h"
#include "number.h"

static const char *const KEYS[ANSWER_LINES] = {
    "version", "wording", "fuel", "number", "statement", "fuel left", "free cells",
};

enum { LINE_ROOM = 32 }; /* the longest line and a NUL fit */

struct answer_file answer_file_of(const struct derived *derived)
{
    recorder_answer answer = derived->plain.answer;
    return (struct answer_file){{
        [ANSWER_VERSION] = RECORDER_VERSION,
        [ANSWER_WORDING] = ACCOUNT_WORDING,
        [ANSWER_FUEL] = derived->run.fuel,
        [ANSWER_NUMBER] = answer.number,
        [ANSWER_STATEMENT] = answer.record,
        [ANSWER_FUEL_LEFT] = answer.fuel,
        [ANSWER_FREE_CELLS] = answer.free_cells,
    }};
}

static void print_line(struct phrase *into, size_t line, uint32_t number)
{
    phrase_add(into, "%s %" PRIu32 "\n", KEYS[line], number);
}

void answer_file_print(struct phrase *into, const struct answer_file *file)
{
    for (size_t line = 0; line < ANSWER_LINES; line++)
        print_line(into, line, file->numbers[line]);
}

/* Reads a line's number and moves past the line. What the number prints as must be the line, byte for byte, so that no
 * number can be written in two ways. */
static bool read_line(const uint8_t **rest, size_t *length, size_t line, uint32_t *number)
{
    const uint8_t *end = memchr(*rest, '\n', *length < LINE_ROOM ? *length : LINE_ROOM - 1);
    size_t key_length = strlen(KEYS[line]);
    if (end == NULL || (size_t)(end - *rest) <= key_length)
        return false;
    char digits[LINE_ROOM] = {0};
    memcpy(digits, *rest + key_length + 1, (size_t)(end - *rest) - key_length - 1);
    int64_t value = 0;
    if (!number_from_text(digits, 0, UINT32_MAX, &value))
        return false;
    struct phrase printed = {0};
    print_line(&printed, line, (uint32_t)value);
    if (printed.length != (size_t)(end + 1 - *rest) || memcmp(printed.text, *rest, printed.length) != 0)
        return false;
    *number = (uint32_t)value;
    *rest += printed.length;
    *length -= printed.length;
    return true;
}

bool answer_file_read(const uint8_t *bytes, size_t length, struct answer_file *into, struct phrase *difference)
{
    for (size_t line = 0; line < ANSWER_LINES; line++) {
        if (read_line(&bytes, &length, line, &into->numbers[line]))
            continue;
        phrase_add(next_difference(difference), "answer.txt, line %zu: not '%s' and a decimal number", line + 1,
                   KEYS[line]);
        return false;
    }
    if (length > 0)
        phrase_add(next_difference(difference), "answer.txt: %zu bytes behind its last line", length);
    return length == 0;
}

void answer_file_compare(const struct answer_file *read, const struct answer_file *right, struct phrase *difference)
{
    for (size_t line = ANSWER_FUEL; line < ANSWER_LINES; line++)
        if (read->numbers[line] != right->numbers[line])
            phrase_add(next_difference(difference), "answer.txt, %s: %" PRIu32 " where the rules give %" PRIu32,
                       KEYS[line], read->numbers[line], right->numbers[line]);
}

recorder_answer answer_file_answer(const struct answer_file *file)
{
    return (recorder_answer){
        .number = file->numbers[ANSWER_NUMBER],
        .record = file->numbers[ANSWER_STATEMENT],
        .fuel = file->numbers[ANSWER_FUEL_LEFT],
        .free_cells = file->numbers[ANSWER_FREE_CELLS],
    };
}
