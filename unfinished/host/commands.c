#include "commands.h"

#include <inttypes.h>
#include <stdio.h>

#include "files.h"
#include "json.h"
#include "phrase.h"
#include "record.h"
#include "recorder.h"
#include "status.h"
#include "table.h"
#include "words.h"

/* The buffers that the host owns and lends. Nothing is allocated. */
static struct table read_in;
static uint8_t target[LENT_ROOM];

/* What stands before a line where several files are given: the file's name. */
static struct phrase in_front(const struct arguments *given, const char *file)
{
    struct phrase name = {0};
    if (given->word_count > 1)
        phrase_add(&name, "%s: ", file);
    return name;
}

/* Runs a command on each file; the status is the worst, which is the greatest. */
static int for_each(const struct arguments *given, int (*one)(const struct arguments *given, const char *file))
{
    int worst = STATUS_DONE;
    for (size_t at = 0; at < given->word_count; at++) {
        int status = table_read(given->words[at], given->format, &read_in);
        if (status == STATUS_DONE)
            status = one(given, given->words[at]);
        worst = status > worst ? status : worst;
    }
    return worst;
}

static void tell_records(FILE *to, const char *what, uint32_t records)
{
    fprintf(to, "%s, %" PRIu32 " record%s\n", what, records, records == 1 ? "" : "s");
}

static int check_one(const struct arguments *given, const char *file)
{
    recorder_answer answer = given->target ? recorder_check_target(read_in.bytes, read_in.length)
                                           : recorder_check_source(read_in.bytes, read_in.length);
    if (given->json) {
        struct json json = json_begin(stdout, "check");
        json_text(&json, "file", file);
        json_text(&json, "language", given->target ? "target" : "source");
        json_number(&json, "records", table_records(&read_in));
        json_checked(&json, "accepted", answer, &read_in, given->target);
        json_end(&json);
        return (int)answer.number;
    }
    struct phrase front = in_front(given, file);
    if (answer.number != RECORDER_DONE)
        return tell_refusal(stdout, front.text, "check", answer, &read_in, given->target);
    phrase_add(&front, "check: accepted");
    tell_records(stdout, front.text, table_records(&read_in));
    return STATUS_DONE;
}

int check_command(const struct arguments *given)
{
    return for_each(given, check_one);
}

/* The bytes of a translation; none where it was refused. */
static size_t length_of(recorder_answer translated)
{
    return translated.number == RECORDER_DONE ? (size_t)translated.record * RECORDER_RECORD_BYTES : 0;
}

static void list_as_json(const char *file, recorder_answer answer)
{
    for (uint32_t number = 1; number * RECORDER_RECORD_BYTES <= length_of(answer); number++) {
        struct record record = record_at(target, number);
        struct json json = json_begin(stdout, "list");
        json_text(&json, "file", file);
        json_number(&json, "number", number);
        json_number(&json, "kind", record.kind);
        json_number(&json, "mark", record.mark);
        json_number(&json, "a", record.a);
        json_number(&json, "b", record.b);
        json_number(&json, "c", record.c);
        json_number(&json, "literal", record.literal);
        json_end(&json);
    }
    if (answer.number == RECORDER_DONE)
        return;
    struct json json = json_begin(stdout, "list");
    json_text(&json, "file", file);
    json_checked(&json, "translated", answer, &read_in, false);
    json_end(&json);
}

static int list_one(const struct arguments *given, const char *file)
{
    recorder_answer answer = recorder_translate(read_in.bytes, read_in.length, target, sizeof target);
    struct phrase front = in_front(given, file);
    if (given->json)
        list_as_json(file, answer);
    else if (answer.number != RECORDER_DONE)
        printf("%s%" PRIu32 " %" PRIu32 "\n", front.text, answer.number, answer.record);
    else
        table_print(stdout, front.text, target, length_of(answer));
    return (int)answer.number;
}

int list_command(const struct arguments *given)
{
    return for_each(given, list_one);
}

/* The second word of a command, where it has one. */
static const char *output_of(const struct arguments *given)
{
    return given->word_count < 2 ? NULL : given->words[1];
}

static void tell_translation(const struct arguments *given, recorder_answer answer)
{
    FILE *to = status_lines(output_of(given));
    if (given->json) {
        struct json json = json_begin(to, "translate");
        json_text(&json, "file", given->words[0]);
        json_checked(&json, "translated", answer, &read_in, false);
        json_end(&json);
    } else if (answer.number == RECORDER_DONE) {
        tell_records(to, "translation: done", answer.record);
    } else {
        tell_refusal(to, "", "translation", answer, &read_in, false);
    }
}

int translate_command(const struct arguments *given)
{
    int status = table_read(given->words[0], given->format, &read_in);
    if (status != STATUS_DONE)
        return status;
    recorder_answer answer = recorder_translate(read_in.bytes, read_in.length, target, given->output_length);
    if (answer.number == RECORDER_DONE && output_of(given) != NULL)
        status = bytes_write(output_of(given), given->force, target, length_of(answer));
    if (status != STATUS_DONE)
        return status;
    tell_translation(given, answer);
    return (int)answer.number;
}

/* What pack and unpack tell, where it is asked for. */
static int tell_written(const struct arguments *given, const char *command, int status)
{
    if (status != STATUS_DONE || !given->json)
        return status;
    struct json json = json_begin(status_lines(output_of(given)), command);
    json_text(&json, "file", given->words[0]);
    json_text(&json, "output", output_of(given));
    json_number(&json, "records", table_records(&read_in));
    json_end(&json);
    return STATUS_DONE;
}

int pack_command(const struct arguments *given)
{
    int status = table_read(given->words[0], given->format, &read_in);
    if (status == STATUS_DONE)
        status = bytes_write(output_of(given), given->force, read_in.bytes, read_in.length);
    return tell_written(given, "pack", status);
}

/* Text has whole records only: bytes behind the last would be lost. */
static int write_text(const char *path, bool force)
{
    FILE *file = NULL;
    if (read_in.length % RECORDER_RECORD_BYTES != 0) {
        fprintf(stderr, "recorder: a table's bytes are a multiple of %d; these are %zu\n", RECORDER_RECORD_BYTES,
                read_in.length);
        return STATUS_TABLE;
    }
    int status = open_to_write(path, force, &file);
    if (status != STATUS_DONE)
        return status;
    table_print(file, "", read_in.bytes, read_in.length);
    return close_written(path, file);
}

int unpack_command(const struct arguments *given)
{
    int status = table_read(given->words[0], given->format, &read_in);
    if (status == STATUS_DONE)
        status = write_text(output_of(given), given->force);
    return tell_written(given, "unpack", status);
}
