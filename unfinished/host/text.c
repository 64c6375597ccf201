#include "text.h"

#include <inttypes.h>
#include <stdio.h>
#include <string.h>

#include "number.h"
#include "recorder.h"
#include "status.h"

enum { LINE_ROOM = 512 };

#define LETTERS "abcdefghijklmnopqrstuvwxyzABCDEFGHIJKLMNOPQRSTUVWXYZ"
#define DIGITS "0123456789"

static const char SPACES[] = " \t";
static const uint8_t BYTE_ORDER_MARK[] = {0xEF, 0xBB, 0xBF};

/* The numbers of a line, in their order, and where the record has them. */
static const struct field {
    const char *name;
    int64_t low, high;
    size_t at, width;
} FIELDS[] = {
    {"number", 1, INT64_MAX, 0, 0},
    {"kind", 0, UINT8_MAX, 0, 1},
    {"mark", 0, UINT8_MAX, 1, 1},
    {"child A", 0, UINT16_MAX, 2, 2},
    {"child B", 0, UINT16_MAX, 4, 2},
    {"child C", 0, UINT16_MAX, 6, 2},
    {"literal", INT64_MIN, INT64_MAX, 8, 8},
};

enum { FIELD_COUNT = sizeof FIELDS / sizeof FIELDS[0] };

struct place {
    const char *path;
    size_t line;
};

static FILE *complain(struct place where)
{
    fprintf(stderr, "recorder: %s, line %zu: ", where.path, where.line);
    return stderr;
}

static bool is_control(uint8_t byte)
{
    return (byte < 0x20 && byte != '\t' && byte != '\n' && byte != '\r') || byte == 0x7F;
}

static bool has_mark(const uint8_t *content, size_t length)
{
    return length >= sizeof BYTE_ORDER_MARK && memcmp(content, BYTE_ORDER_MARK, sizeof BYTE_ORDER_MARK) == 0;
}

/* A table's bytes begin with a record without children, so bytes 2 to 5, its A and B, are zero. Whatever else begins
 * with a control character or with what is no ASCII is no text either; 10 is a line's end and kind 10 alike. */
bool is_text(const uint8_t *content, size_t length)
{
    static const uint8_t NONE[4] = {0};
    if (length == 0 || has_mark(content, length))
        return true;
    if (length >= 6 && memcmp(content + 2, NONE, sizeof NONE) == 0)
        return false;
    return !is_control(content[0]) && content[0] < 0x80;
}

/* Splits the next word off; NULL where there is none. */
static char *next_word(char **rest)
{
    char *word = *rest + strspn(*rest, SPACES);
    size_t length = strcspn(word, SPACES);
    *rest = word + length + (word[length] != '\0');
    word[length] = '\0';
    return length == 0 ? NULL : word;
}

/* Reads one field of a record from a word, or from none where the line has ended. */
static bool field_from_word(const struct field *field, const char *word, int64_t *value, struct place where)
{
    if (word == NULL) {
        fprintf(complain(where), "%s is missing; a record is: number kind mark A B C literal\n", field->name);
        return false;
    }
    if (!number_from_text(word, field->low, field->high, value)) {
        fprintf(complain(where), "'%s' is no %s, a number from %" PRId64 " to %" PRId64 "\n", word, field->name,
                field->low, field->high);
        return false;
    }
    return true;
}

/* Reads the fields of record `number` from a line that has at least one word. */
static bool record_from_line(char *line, size_t number, uint8_t *record, struct place where)
{
    for (size_t at = 0; at < FIELD_COUNT; at++) {
        int64_t value = 0;
        if (!field_from_word(&FIELDS[at], next_word(&line), &value, where))
            return false;
        if (at == 0 && (uint64_t)value != number) {
            fprintf(complain(where), "the record is numbered %" PRId64 ", and its place is %zu\n", value, number);
            return false;
        }
        number_to_bytes(value, record + FIELDS[at].at, FIELDS[at].width);
    }
    const char *word = next_word(&line);
    if (word != NULL)
        fprintf(complain(where), "'%s' stands after the literal\n", word);
    return word == NULL;
}

/* A name is made of letters, digits and _ and begins with a letter. It is neither a temporary's ("t0") nor that of a
 * variable without a name ("v1"), and no other variable has it. */
static bool is_name(const char *name, const struct table *table)
{
    size_t length = strlen(name);
    if (length >= NAME_ROOM || strspn(name, LETTERS DIGITS "_") != length || strchr(LETTERS, name[0]) == NULL)
        return false;
    for (size_t variable = 0; variable < VARIABLES; variable++)
        if (strcmp(table->names[variable], name) == 0)
            return false;
    return strchr("tv", name[0]) == NULL || strspn(name + 1, DIGITS) + 1 != length;
}

/* A comment "# variable 1 is p" tells how a variable is called. Every other comment tells nothing. */
static void name_from_comment(char *comment, struct table *into)
{
    const char *words[5];
    int64_t variable = 0;
    for (size_t at = 0; at < sizeof words / sizeof words[0]; at++)
        words[at] = next_word(&comment);
    const char *name = words[3];
    bool is_naming = name != NULL && words[4] == NULL && strcmp(words[0], "variable") == 0 &&
                     strcmp(words[2], "is") == 0 && number_from_text(words[1], 0, VARIABLES - 1, &variable);
    if (is_naming && is_name(name, into))
        memcpy(into->names[variable], name, strlen(name) + 1);
}

/* Adds the record of a line, if it has one. */
static bool add_line(char *line, struct table *into, struct place where)
{
    char *comment = strchr(line, '#');
    if (comment != NULL) {
        *comment = '\0';
        name_from_comment(comment + 1, into);
    }
    if (line[strspn(line, SPACES)] == '\0')
        return true;
    if (into->length + RECORDER_RECORD_BYTES > sizeof into->bytes) {
        fprintf(complain(where), "more records than any table has\n");
        return false;
    }
    uint8_t *record = into->bytes + into->length;
    into->length += RECORDER_RECORD_BYTES;
    return record_from_line(line, into->length / RECORDER_RECORD_BYTES, record, where);
}

/* Whether a line holds what a text may hold: no NUL, no other control character, no carriage return but at its end. */
static bool is_clean(const uint8_t *line, size_t length, struct place where)
{
    for (size_t at = 0; at < length; at++) {
        if (!is_control(line[at]) && line[at] != '\r')
            continue;
        fprintf(complain(where), "column %zu: %s (byte %u), which no text has; --bytes reads a table's bytes\n", at + 1,
                line[at] == '\0' ? "a NUL" : "a control character", line[at]);
        return false;
    }
    return true;
}

/* Reads a line, without what ends it. */
static bool read_line(const uint8_t *content, size_t length, struct table *into, struct place where)
{
    char line[LINE_ROOM];
    if (!is_clean(content, length, where))
        return false;
    if (length >= sizeof line) {
        fprintf(complain(where), "longer than %zu characters\n", sizeof line - 1);
        return false;
    }
    memcpy(line, content, length);
    line[length] = '\0';
    return add_line(line, into, where);
}

int table_from_text(const uint8_t *content, size_t length, const char *path, struct table *into)
{
    struct place where = {path, 0};
    size_t at = has_mark(content, length) ? sizeof BYTE_ORDER_MARK : 0;
    into->length = 0;
    memset(into->names, 0, sizeof into->names);
    while (at < length) {
        const uint8_t *end = memchr(content + at, '\n', length - at);
        size_t line_length = end == NULL ? length - at : (size_t)(end - (content + at));
        bool has_return = end != NULL && line_length > 0 && end[-1] == '\r';
        where.line++;
        if (!read_line(content + at, line_length - has_return, into, where))
            return STATUS_TABLE;
        at += line_length + 1;
    }
    return STATUS_DONE;
}
