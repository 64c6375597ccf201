#include "commands.h"

#include <inttypes.h>
#include <stdio.h>
#include <string.h>

#include "memories.h"
#include "recorder.h"
#include "status.h"
#include "table.h"
#include "words.h"

/* The buffers that the host owns and lends. Nothing else is allocated. */
static struct table read_in;
static uint8_t target[LENT_ROOM];
static uint8_t plain_memory[LENT_ROOM];
static uint8_t watched_memory[LENT_ROOM];
static uint8_t observation[LENT_ROOM];

static void tell_records(const char *what, size_t length)
{
    size_t records = length / RECORDER_RECORD_BYTES;
    printf("%s, %zu record%s\n", what, records, records == 1 ? "" : "s");
}

static int check(bool is_target)
{
    recorder_answer answer = is_target ? recorder_check_target(read_in.bytes, read_in.length)
                                       : recorder_check_source(read_in.bytes, read_in.length);
    if (answer.number == RECORDER_DONE)
        tell_records("check: accepted", read_in.length);
    return tell_refusal("check", answer);
}

static recorder_answer translate(size_t output_length)
{
    return recorder_translate(read_in.bytes, read_in.length, target, output_length);
}

/* The bytes of a translation; none where it was refused. */
static size_t length_of(recorder_answer translated)
{
    return translated.number == RECORDER_DONE ? (size_t)translated.record * RECORDER_RECORD_BYTES : 0;
}

static int tell_translation(recorder_answer answer)
{
    if (answer.number == RECORDER_DONE)
        tell_records("translation: done", length_of(answer));
    return tell_refusal("translation", answer);
}

static recorder_answer run_plain(const struct arguments *given)
{
    return recorder_run_plain(read_in.bytes, read_in.length, given->inputs, given->inputs_length, given->fuel,
                              plain_memory, given->memory_length);
}

static recorder_answer run_watched(const uint8_t *bytes, size_t length, const struct arguments *given)
{
    return recorder_run_watched(bytes, length, given->inputs, given->inputs_length, given->fuel, watched_memory,
                                given->memory_length, observation, given->observation_length);
}

int check_command(const struct arguments *given)
{
    int status = table_read(given->file, &read_in);
    return status != STATUS_DONE ? status : check(given->target);
}

int translate_command(const struct arguments *given)
{
    int status = table_read(given->file, &read_in);
    if (status != STATUS_DONE)
        return status;
    recorder_answer answer = translate(given->output_length);
    status = tell_translation(answer);
    if (status != STATUS_DONE || given->output == NULL)
        return status;
    return table_write(given->output, target, length_of(answer));
}

int list_command(const struct arguments *given)
{
    int status = table_read(given->file, &read_in);
    if (status != STATUS_DONE)
        return status;
    recorder_answer answer = translate(LENT_ROOM);
    if (answer.number != RECORDER_DONE)
        printf("%" PRIu32 " %" PRIu32 "\n", answer.number, answer.record);
    table_print(target, length_of(answer));
    return (int)answer.number;
}

int run_command(const struct arguments *given)
{
    int status = table_read(given->file, &read_in);
    if (status != STATUS_DONE)
        return status;
    recorder_answer answer = run_plain(given);
    if (!is_refusal(answer))
        print_execution_memory(plain_memory);
    return tell_run("plain run", answer, read_in.bytes, plain_memory);
}

int watch_command(const struct arguments *given)
{
    int status = table_read(given->file, &read_in);
    if (status != STATUS_DONE)
        return status;
    const uint8_t *bytes = read_in.bytes;
    size_t length = read_in.length;
    if (!given->target) {
        recorder_answer translated = translate(LENT_ROOM);
        if (translated.number != RECORDER_DONE)
            return tell_translation(translated);
        bytes = target;
        length = length_of(translated);
    }
    recorder_answer answer = run_watched(bytes, length, given);
    if (!is_refusal(answer)) {
        print_execution_memory(watched_memory);
        print_observation_memory(observation);
    }
    return tell_run("watched run", answer, given->target ? NULL : read_in.bytes, watched_memory);
}

/* Both runs of the table and of its translation, which must not part. */
static int run_both(const struct arguments *given, size_t target_length)
{
    recorder_answer plain = run_plain(given);
    tell_run("plain run", plain, read_in.bytes, plain_memory);
    if (is_refusal(plain))
        return (int)plain.number;
    recorder_answer watched = run_watched(target, target_length, given);
    tell_run("watched run", watched, read_in.bytes, watched_memory);
    printf("\n");
    print_execution_memory(plain_memory);
    print_observation_memory(observation);
    bool same_answer = memcmp(&plain, &watched, sizeof plain) == 0;
    bool same_memory = memcmp(plain_memory, watched_memory, RECORDER_MEMORY_BYTES) == 0;
    if (!same_answer || !same_memory) {
        printf("\nthe runs part\n");
        return STATUS_PARTED;
    }
    printf("\nboth runs have the same answer and the same execution memory\n");
    return STATUS_DONE;
}

static void print_titled(const char *title, const uint8_t *bytes, size_t length)
{
    printf("%s (number, kind, mark, A, B, C, literal)\n", title);
    table_print(bytes, length);
}

int demo_command(const struct arguments *given)
{
    int status = table_read(given->file, &read_in);
    if (status != STATUS_DONE)
        return status;
    print_titled("source table", read_in.bytes, read_in.length);
    status = check(false);
    if (status != STATUS_DONE)
        return status;
    recorder_answer translated = translate(LENT_ROOM);
    print_titled("\ntarget table", target, length_of(translated));
    tell_translation(translated);
    printf("\n");
    return run_both(given, length_of(translated));
}

int pack_command(const struct arguments *given)
{
    int status = table_read(given->file, &read_in);
    return status != STATUS_DONE ? status : table_write(given->output, read_in.bytes, read_in.length);
}
