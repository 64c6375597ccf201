#include "commands.h"

#include <inttypes.h>
#include <stdio.h>
#include <stdlib.h>

#include "files.h"
#include "json.h"
#include "phrase.h"
#include "printer.h"
#include "record.h"
#include "recorder.h"
#include "status.h"
#include "table.h"
#include "words.h"

enum {
    SEQUENCE = 44,
    IF = 45,
    WHILE = 46,
    LET = 47,
    TARGET_IF = 66
};

enum { ORIGIN_COLUMN = 52 };

/* What a line says of its record: all, or "else", or what an earlier line calls "#12". */
enum form { WHOLE, ELSE, LEFT_OUT };

struct line {
    uint32_t number, depth;
    enum form form;
};

/* Of a table in shape each record has one line and each if one more; those of a sequence's parts take its place. */
enum { LINES = 2 * TABLE_ROOM / RECORDER_RECORD_BYTES };

static struct table read_in;
static struct line pending[LINES]; /* the next one last: the deepest table needs no deep stack */
static size_t pending_count;

struct showing {
    const char *file;
    bool is_target, json;
};

static struct record record_of(uint32_t number)
{
    return record_at(read_in.bytes, number);
}

static bool has_origin(const struct showing *showing, struct line line)
{
    return showing->is_target && is_statement(record_of(line.number).kind);
}

static void print_line(const struct showing *showing, struct line line, const char *text)
{
    int length = printf("%*s%s%" PRIu32 ": %s", (int)(2 * line.depth), "", line.form == LEFT_OUT ? "#" : "",
                        line.number, text);
    if (has_origin(showing, line))
        printf("%*s[of %" PRId64 "]", length < ORIGIN_COLUMN ? ORIGIN_COLUMN - length : 1, "",
               record_of(line.number).literal);
    printf("\n");
}

static struct json begin_object(const struct showing *showing)
{
    struct json json = json_begin(stdout, "show");
    json_text(&json, "file", showing->file);
    return json;
}

static void json_line(const struct showing *showing, struct line line, const char *text)
{
    struct json json = begin_object(showing);
    json_number(&json, "number", line.number);
    json_number(&json, "depth", line.depth);
    json_text(&json, "text", text);
    if (has_origin(showing, line))
        json_number(&json, "of", record_of(line.number).literal);
    json_end(&json);
}

static void show_line(const struct showing *showing, struct line line, const char *text)
{
    if (showing->json)
        json_line(showing, line, text);
    else
        print_line(showing, line, text);
}

/* A statement as it stands above the lines of the statements in it. */
static void print_opening(struct phrase *into, uint32_t number)
{
    struct record record = record_of(number);
    switch (record.kind) {
    case IF:
        phrase_add(into, "if ");
        print_record(into, &read_in, record.a);
        phrase_add(into, " then");
        break;
    case WHILE:
        phrase_add(into, "while ");
        print_record(into, &read_in, record.a);
        phrase_add(into, " do");
        break;
    case LET:
        phrase_add(into, "let ");
        print_variable(into, &read_in, record.mark);
        phrase_add(into, " in");
        break;
    case TARGET_IF: phrase_add(into, "if t%u then", record.mark); break;
    default: print_record(into, &read_in, number); break;
    }
}

static void push(uint32_t number, uint32_t depth, enum form form)
{
    pending[pending_count++] = (struct line){number, depth, form};
}

/* The statements in a statement, the last one first. */
static void push_statements(struct line line)
{
    struct record record = record_of(line.number);
    bool is_if = record.kind == IF || record.kind == TARGET_IF;
    if (is_if) {
        push(record.c, line.depth + 1, WHOLE);
        push(line.number, line.depth, ELSE);
    }
    if (is_if || record.kind == WHILE)
        push(record.b, line.depth + 1, WHOLE);
    if (record.kind == LET)
        push(record.a, line.depth + 1, WHOLE);
}

/* The records that a line calls "#12", the last one first. */
static void push_left_out(struct line line, const struct phrase *text)
{
    for (size_t at = text->length; at > 0; at--)
        if (text->text[at - 1] == '#')
            push((uint32_t)strtoul(text->text + at, NULL, 10), line.depth + 1, LEFT_OUT);
}

static void show_record(const struct showing *showing, struct line line)
{
    struct phrase text = {0};
    print_opening(&text, line.number);
    show_line(showing, line, text.text);
    push_statements(line);
    push_left_out(line, &text);
}

static void show_tree(const struct showing *showing)
{
    push(table_records(&read_in), 0, WHOLE);
    while (pending_count > 0) {
        struct line line = pending[--pending_count];
        struct record record = record_of(line.number);
        if (line.form == ELSE) {
            show_line(showing, line, "else");
        } else if (record.kind == SEQUENCE) {
            push(record.b, line.depth, WHOLE);
            push(record.a, line.depth, WHOLE);
        } else {
            show_record(showing, line);
        }
    }
}

static void show_each(const struct showing *showing)
{
    for (uint32_t number = 1; number <= table_records(&read_in); number++) {
        struct phrase text = {0};
        print_record(&text, &read_in, number);
        show_line(showing, (struct line){number, 0, WHOLE}, text.text);
    }
}

/* How the lines are to be read. */
static void print_heading(const struct showing *showing, bool is_tree)
{
    uint32_t records = table_records(&read_in);
    printf("%s table, %" PRIu32 " record%s; ", showing->is_target ? "target" : "source", records,
           records == 1 ? "" : "s");
    printf(is_tree ? "what stands one below the other is a sequence (kind 44)" : "each has a line");
    printf(showing->is_target ? "; [of 5]: from source statement 5\n" : "\n");
}

static bool looks_like_target(void)
{
    for (uint32_t number = 1; number <= table_records(&read_in); number++) {
        uint8_t kind = record_of(number).kind;
        if (kind == 12 || kind >= 60)
            return true;
    }
    return false;
}

static int show_refusal(const struct showing *showing, recorder_answer answer)
{
    if (!showing->json)
        return tell_refusal(stdout, "", "check", answer, &read_in, showing->is_target);
    struct json json = begin_object(showing);
    json_checked(&json, "accepted", answer, &read_in, showing->is_target);
    json_end(&json);
    return (int)answer.number;
}

int show_command(const struct arguments *given)
{
    int status = table_read(given->words[0], given->format, &read_in);
    if (status != STATUS_DONE)
        return status;
    struct showing showing = {given->words[0], given->target || looks_like_target(), given->json};
    recorder_answer answer = showing.is_target ? recorder_check_target(read_in.bytes, read_in.length)
                                               : recorder_check_source(read_in.bytes, read_in.length);
    bool is_tree = answer.number == RECORDER_DONE || answer.number > RECORDER_BAD_SHAPE;
    if (!showing.json)
        print_heading(&showing, is_tree);
    if (is_tree)
        show_tree(&showing);
    else
        show_each(&showing);
    return answer.number == RECORDER_DONE ? STATUS_DONE : show_refusal(&showing, answer);
}
