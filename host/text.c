#include "text.h"

#include <inttypes.h>
#include <stdbool.h>
#include <string.h>

#include "number.h"
#include "recorder.h"
#include "status.h"

enum { LINE_ROOM = 512 };

static const char SPACES[] = " \t\r\n";

/* The numbers of a line, in their order, and where the record has them. */
static const struct field {
    const char *name;
    int64_t low, high;
    size_t at, width;
} FIELDS[] = {
    {"number", 1, INT64_MAX, 0, 0},
    {"kind", 0, UINT8_MAX, 0, 1},
    {"mark", 0, UINT8_MAX, 1, 1},
    {"child A", 0, UINT16_MAX, 2, 2},
    {"child B", 0, UINT16_MAX, 4, 2},
    {"child C", 0, UINT16_MAX, 6, 2},
    {"literal", INT64_MIN, INT64_MAX, 8, 8},
};

enum { FIELD_COUNT = sizeof FIELDS / sizeof FIELDS[0] };

struct place {
    const char *path;
    size_t line;
};

static FILE *complain(struct place where)
{
    fprintf(stderr, "recorder: %s, line %zu: ", where.path, where.line);
    return stderr;
}

/* Splits the next word off; NULL where there is none. */
static char *next_word(char **rest)
{
    char *word = *rest + strspn(*rest, SPACES);
    size_t length = strcspn(word, SPACES);
    *rest = word + length + (word[length] != '\0');
    word[length] = '\0';
    return length == 0 ? NULL : word;
}

/* Reads one field of a record from a word, or from none where the line has ended. */
static bool field_from_word(const struct field *field, const char *word, int64_t *value, struct place where)
{
    if (word == NULL) {
        fprintf(complain(where), "%s is missing; a record is: number kind mark A B C literal\n", field->name);
        return false;
    }
    if (!number_from_text(word, field->low, field->high, value)) {
        fprintf(complain(where), "'%s' is no %s, a number from %" PRId64 " to %" PRId64 "\n", word, field->name,
                field->low, field->high);
        return false;
    }
    return true;
}

/* Reads the fields of record `number` from a line that has at least one word. */
static bool record_from_line(char *line, size_t number, uint8_t *record, struct place where)
{
    for (size_t at = 0; at < FIELD_COUNT; at++) {
        int64_t value = 0;
        if (!field_from_word(&FIELDS[at], next_word(&line), &value, where))
            return false;
        if (at == 0 && (uint64_t)value != number) {
            fprintf(complain(where), "the record is numbered %" PRId64 ", and its place is %zu\n", value, number);
            return false;
        }
        number_to_bytes(value, record + FIELDS[at].at, FIELDS[at].width);
    }
    const char *word = next_word(&line);
    if (word != NULL)
        fprintf(complain(where), "'%s' stands after the literal\n", word);
    return word == NULL;
}

/* Adds the record of a line, if it has one. */
static bool add_line(char *line, struct table *into, struct place where)
{
    line[strcspn(line, "#")] = '\0';
    if (line[strspn(line, SPACES)] == '\0')
        return true;
    if (into->length + RECORDER_RECORD_BYTES > sizeof into->bytes) {
        fprintf(complain(where), "more records than any table has\n");
        return false;
    }
    uint8_t *record = into->bytes + into->length;
    into->length += RECORDER_RECORD_BYTES;
    return record_from_line(line, into->length / RECORDER_RECORD_BYTES, record, where);
}

int table_from_text(FILE *file, const char *path, struct table *into)
{
    struct place where = {path, 0};
    char line[LINE_ROOM];
    into->length = 0;
    while (fgets(line, sizeof line, file) != NULL) {
        where.line++;
        if (strlen(line) == sizeof line - 1 && line[sizeof line - 2] != '\n') {
            fprintf(complain(where), "longer than %zu characters\n", sizeof line - 2);
            return STATUS_TABLE;
        }
        if (!add_line(line, into, where))
            return STATUS_TABLE;
    }
    return STATUS_DONE;
}
