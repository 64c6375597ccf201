#include "arguments.h"

#include <inttypes.h>
#include <stdio.h>
#include <string.h>

#include "number.h"
#include "status.h"
#include "table.h"

static const int64_t DEFAULT_INPUTS[] = {7, 9};
enum { DEFAULT_FUEL = 1000 };

/* An option's value into what is given; the status as of arguments_read. */
typedef int reader(const char *option, const char *value, struct arguments *into);

static int bad_value(const char *option, const char *value, const char *asked)
{
    fprintf(stderr, "recorder: %s takes %s, not '%s'\n", option, asked, value);
    return STATUS_USAGE;
}

static void set_inputs(const int64_t *numbers, size_t count, struct arguments *into)
{
    for (size_t at = 0; at < count; at++)
        number_to_bytes(numbers[at], into->inputs + at * RECORDER_INPUT_BYTES, RECORDER_INPUT_BYTES);
    into->inputs_length = count * RECORDER_INPUT_BYTES;
}

/* Reads numbers with commas between them; an empty list is one of no inputs. */
static int read_inputs(const char *option, const char *value, struct arguments *into)
{
    int64_t numbers[INPUTS_ROOM / RECORDER_INPUT_BYTES];
    size_t count = 0;
    const char *rest = value;
    bool is_more = *value != '\0';
    while (is_more) {
        char number[32];
        size_t length = strcspn(rest, ",");
        if (count == sizeof numbers / sizeof numbers[0])
            return bad_value(option, value, "at most 512 numbers");
        size_t copied = length < sizeof number ? length : 0;
        memcpy(number, rest, copied);
        number[copied] = '\0';
        if (!number_from_text(number, INT64_MIN, INT64_MAX, &numbers[count]))
            return bad_value(option, value, "numbers of 64 bits with commas between them");
        count++;
        is_more = rest[length] == ',';
        rest += length + 1;
    }
    set_inputs(numbers, count, into);
    return STATUS_DONE;
}

static int read_inputs_file(const char *option, const char *value, struct arguments *into)
{
    (void)option;
    return bytes_read(value, into->inputs, sizeof into->inputs, &into->inputs_length);
}

static int read_fuel(const char *option, const char *value, struct arguments *into)
{
    int64_t number = 0;
    if (!number_from_text(value, 0, UINT32_MAX, &number))
        return bad_value(option, value, "a number from 0 to 4294967295");
    into->fuel = (uint32_t)number;
    return STATUS_DONE;
}

static int read_length(const char *option, const char *value, size_t *length)
{
    int64_t number = 0;
    if (!number_from_text(value, 0, LENT_ROOM, &number))
        return bad_value(option, value, "a number of bytes from 0 to 65536");
    *length = (size_t)number;
    return STATUS_DONE;
}

static int read_output_length(const char *option, const char *value, struct arguments *into)
{
    return read_length(option, value, &into->output_length);
}

static int read_memory_length(const char *option, const char *value, struct arguments *into)
{
    return read_length(option, value, &into->memory_length);
}

static int read_observation_length(const char *option, const char *value, struct arguments *into)
{
    return read_length(option, value, &into->observation_length);
}

static int read_target(const char *option, const char *value, struct arguments *into)
{
    (void)option;
    (void)value;
    into->target = true;
    return STATUS_DONE;
}

static const struct option {
    const char *name;
    int bit;
    bool has_value;
    reader *read;
} OPTIONS[] = {
    {"--target", OPTION_TARGET, false, read_target},
    {"--inputs", OPTION_INPUTS, true, read_inputs},
    {"--inputs-file", OPTION_INPUTS, true, read_inputs_file},
    {"--fuel", OPTION_FUEL, true, read_fuel},
    {"--output-bytes", OPTION_OUTPUT, true, read_output_length},
    {"--memory-bytes", OPTION_MEMORY, true, read_memory_length},
    {"--observation-bytes", OPTION_OBSERVATION, true, read_observation_length},
};

static const struct option *option_named(const char *name)
{
    for (size_t at = 0; at < sizeof OPTIONS / sizeof OPTIONS[0]; at++)
        if (strcmp(OPTIONS[at].name, name) == 0)
            return &OPTIONS[at];
    return NULL;
}

static int wrong(const char *command, const char *what, const char *word)
{
    fprintf(stderr, "recorder: %s: %s%s (recorder --help tells the usage)\n", command, what, word);
    return STATUS_USAGE;
}

static int read_file(const struct command *command, const char *word, struct arguments *into)
{
    if (into->file == NULL)
        into->file = word;
    else if (command->may_write && into->output == NULL)
        into->output = word;
    else
        return wrong(command->name, "one file too many: ", word);
    return STATUS_DONE;
}

/* Reads the option at words[*at], and moves on to its value where it has one. */
static int read_option(const struct command *command, int count, char *const *words, int *at, struct arguments *into)
{
    const char *name = words[*at];
    const struct option *option = option_named(name);
    if (option == NULL)
        return wrong(command->name, "no such option: ", name);
    if ((option->bit & command->options) == 0)
        return wrong(command->name, "takes no ", name);
    if (!option->has_value)
        return option->read(name, NULL, into);
    if (*at + 1 == count)
        return wrong(command->name, "a value is missing after ", name);
    *at += 1;
    return option->read(name, words[*at], into);
}

static void set_defaults(struct arguments *into)
{
    *into = (struct arguments){
        .fuel = DEFAULT_FUEL,
        .output_length = LENT_ROOM,
        .memory_length = RECORDER_MEMORY_BYTES,
        .observation_length = RECORDER_OBSERVATION_BYTES,
    };
    set_inputs(DEFAULT_INPUTS, sizeof DEFAULT_INPUTS / sizeof DEFAULT_INPUTS[0], into);
}

int arguments_read(const struct command *command, int count, char *const *words, struct arguments *into)
{
    set_defaults(into);
    for (int at = 0; at < count; at++) {
        bool is_option = strncmp(words[at], "--", 2) == 0;
        int status = is_option ? read_option(command, count, words, &at, into) : read_file(command, words[at], into);
        if (status != STATUS_DONE)
            return status;
    }
    if (into->file == NULL)
        return wrong(command->name, "a file is missing", "");
    if (command->must_write && into->output == NULL)
        return wrong(command->name, "the file to write is missing", "");
    return STATUS_DONE;
}
