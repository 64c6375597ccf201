#include "arguments.h"

#include <stdio.h>
#include <string.h>

#include "files.h"
#include "number.h"
#include "status.h"

static const int64_t DEFAULT_INPUTS[] = {7, 9};
enum { DEFAULT_FUEL = 1000, DEFAULT_STOPS = 100 };

/* An option's value into what is given; the status as of arguments_read. */
typedef int reader(const char *option, const char *value, struct arguments *into);

static int bad_value(const char *option, const char *value, const char *asked)
{
    fprintf(stderr, "recorder: %s takes %s, not '%s'\n", option, asked, value);
    return STATUS_USAGE;
}

static void set_inputs(const int64_t *numbers, size_t count, struct arguments *into)
{
    for (size_t at = 0; at < count; at++)
        number_to_bytes(numbers[at], into->inputs + at * RECORDER_INPUT_BYTES, RECORDER_INPUT_BYTES);
    into->inputs_length = count * RECORDER_INPUT_BYTES;
}

/* Reads numbers with commas between them; an empty list is one of no inputs. What there is no room for is left out: the
 * library refuses so many by 9. */
static int read_inputs(const char *option, const char *value, struct arguments *into)
{
    int64_t numbers[INPUTS_ROOM / RECORDER_INPUT_BYTES];
    size_t count = 0;
    const char *rest = value;
    bool is_more = *value != '\0';
    while (is_more) {
        char word[32];
        int64_t number = 0;
        size_t length = strcspn(rest, ",");
        size_t copied = length < sizeof word ? length : 0;
        memcpy(word, rest, copied);
        word[copied] = '\0';
        if (!number_from_text(word, INT64_MIN, INT64_MAX, &number))
            return bad_value(option, value, "numbers of 64 bits with commas between them");
        if (count < sizeof numbers / sizeof numbers[0])
            numbers[count++] = number;
        is_more = rest[length] == ',';
        rest += length + 1;
    }
    set_inputs(numbers, count, into);
    return STATUS_DONE;
}

static int read_inputs_file(const char *option, const char *value, struct arguments *into)
{
    bool is_longer = false;
    (void)option;
    return first_bytes_read(value, into->inputs, sizeof into->inputs, &into->inputs_length, &is_longer);
}

/* Reads a number from low to high. */
static int read_number(const char *option, const char *value, int64_t low, int64_t high, const char *asked,
                       int64_t *number)
{
    return number_from_text(value, low, high, number) ? STATUS_DONE : bad_value(option, value, asked);
}

static int read_fuel(const char *option, const char *value, struct arguments *into)
{
    int64_t number = into->fuel;
    int status = read_number(option, value, 0, UINT32_MAX, "a number from 0 to 4294967295", &number);
    into->fuel = (uint32_t)number;
    return status;
}

static int read_length(const char *option, const char *value, size_t *length)
{
    int64_t number = 0;
    int status = read_number(option, value, 0, LENT_ROOM, "a number of bytes from 0 to 65536", &number);
    *length = (size_t)number;
    return status;
}

static int read_output_length(const char *option, const char *value, struct arguments *into)
{
    return read_length(option, value, &into->output_length);
}

static int read_memory_length(const char *option, const char *value, struct arguments *into)
{
    return read_length(option, value, &into->memory_length);
}

static int read_observation_length(const char *option, const char *value, struct arguments *into)
{
    return read_length(option, value, &into->observation_length);
}

static int read_stops(const char *option, const char *value, struct arguments *into)
{
    int64_t number = into->stops;
    int status = read_number(option, value, 1, UINT32_MAX, "a number from 1 to 4294967295", &number);
    into->stops = (uint32_t)number;
    return status;
}

static int read_before(const char *option, const char *value, struct arguments *into)
{
    int64_t number = into->before;
    int status = read_number(option, value, 1, RECORDER_TARGET_RECORDS, "a record number from 1 to 4096", &number);
    into->before = (uint32_t)number;
    return status;
}

static int read_switch(const char *option, const char *value, struct arguments *into)
{
    (void)value;
    into->target |= strcmp(option, "--target") == 0;
    into->json |= strcmp(option, "--json") == 0;
    into->force |= strcmp(option, "--force") == 0;
    if (strcmp(option, "--text") == 0)
        into->format = FORMAT_TEXT;
    if (strcmp(option, "--bytes") == 0)
        into->format = FORMAT_BYTES;
    return STATUS_DONE;
}

/* What every command takes has bit 0. */
static const struct option {
    const char *name;
    const char *value; /* what stands for it in the usage; NULL where the option has none */
    int bit;
    reader *read;
    const char *summary;
} OPTIONS[] = {
    {"--target", NULL, OPTION_TARGET, read_switch, "FILE is a target table"},
    {"--text", NULL, OPTION_FORMAT, read_switch, "FILE is a table as text, whatever it begins with"},
    {"--bytes", NULL, OPTION_FORMAT, read_switch, "FILE holds a table's bytes, whatever it begins with"},
    {"--force", NULL, OPTION_FORCE, read_switch, "overwrite a file that exists"},
    {"--inputs", "7,9", OPTION_INPUTS, read_inputs, "the inputs of a run, 1 to 256; 7,9 unless given"},
    {"--inputs-file", "FILE", OPTION_INPUTS, read_inputs_file, "the inputs of a run as bytes, 8 to each"},
    {"--fuel", "N", OPTION_FUEL, read_fuel, "the fuel of a run, 0 to 4294967295; 1000 unless given"},
    {"--stops", "N", OPTION_STOPS, read_stops, "stop at most N times; 100 unless given"},
    {"--before", "N", OPTION_BEFORE, read_before, "as it is when the run first comes to statement N"},
    {"--output-bytes", "N", OPTION_OUTPUT, read_output_length, "lend the translator N bytes, 0 to 65536"},
    {"--memory-bytes", "N", OPTION_MEMORY, read_memory_length, "lend a run N bytes of execution memory"},
    {"--observation-bytes", "N", OPTION_OBSERVATION, read_observation_length,
     "lend a watched run N bytes of observation memory"},
    {"--json", NULL, 0, read_switch, "one JSON object a line in place of text (docs/FORMATS.md)"},
};

static bool takes(const struct command *command, const struct option *option)
{
    return option->bit == 0 || (option->bit & command->options) != 0;
}

void print_options(const struct command *command)
{
    for (size_t at = 0; at < sizeof OPTIONS / sizeof OPTIONS[0]; at++) {
        const struct option *option = &OPTIONS[at];
        if (command != NULL && !takes(command, option))
            continue;
        int length = printf("  %s%s%s", option->name, option->value == NULL ? "" : " ",
                            option->value == NULL ? "" : option->value);
        printf("%*s%s\n", length < 26 ? 26 - length : 1, "", option->summary);
    }
}

/* The option whose name is the first `length` characters. */
static const struct option *option_named(const char *name, size_t length)
{
    for (size_t at = 0; at < sizeof OPTIONS / sizeof OPTIONS[0]; at++)
        if (strlen(OPTIONS[at].name) == length && strncmp(OPTIONS[at].name, name, length) == 0)
            return &OPTIONS[at];
    return NULL;
}

static int wrong(const char *command, const char *what, const char *word)
{
    fprintf(stderr, "recorder: %s: %s%s (recorder %s --help tells the usage)\n", command, what, word, command);
    return STATUS_USAGE;
}

/* Reads the option at words[*at], "--name value" or "--name=value", and moves on to its value where that is a word. */
static int read_option(const struct command *command, int count, char **words, int *at, struct arguments *into)
{
    const char *word = words[*at];
    size_t length = strcspn(word, "=");
    const char *value = word[length] == '=' ? word + length + 1 : NULL;
    const struct option *option = option_named(word, length);
    if (option == NULL)
        return wrong(command->name, "no such option: ", word);
    if (!takes(command, option))
        return wrong(command->name, "takes no ", option->name);
    if (option->value == NULL && value != NULL)
        return wrong(command->name, "no value belongs to ", option->name);
    if (option->value != NULL && value == NULL) {
        if (*at + 1 == count)
            return wrong(command->name, "a value is missing after ", option->name);
        *at += 1;
        value = words[*at];
    }
    return option->read(option->name, value, into);
}

static void set_defaults(struct arguments *into)
{
    *into = (struct arguments){
        .fuel = DEFAULT_FUEL,
        .output_length = LENT_ROOM,
        .memory_length = RECORDER_MEMORY_BYTES,
        .observation_length = RECORDER_OBSERVATION_BYTES,
        .stops = DEFAULT_STOPS,
    };
    set_inputs(DEFAULT_INPUTS, sizeof DEFAULT_INPUTS / sizeof DEFAULT_INPUTS[0], into);
}

static int check_count(const struct command *command, const struct arguments *given)
{
    if (given->word_count > command->most_words)
        return wrong(command->name, "one word too many: ", given->words[command->most_words]);
    if (given->word_count < command->least_words)
        return wrong(command->name, "it takes ", command->operands);
    return STATUS_DONE;
}

int arguments_read(const struct command *command, int count, char **words, struct arguments *into, bool *wants_help)
{
    set_defaults(into);
    into->words = words;
    bool is_over = false; /* behind "--" nothing is an option */
    for (int at = 0; at < count; at++) {
        bool is_option = !is_over && words[at][0] == '-' && words[at][1] != '\0';
        *wants_help = is_option && (strcmp(words[at], "-h") == 0 || strcmp(words[at], "--help") == 0);
        if (*wants_help)
            return STATUS_DONE;
        if (is_option && strcmp(words[at], "--") == 0) {
            is_over = true;
            continue;
        }
        /* The words that are no options move to the front, where they are read no more. */
        if (!is_option)
            words[into->word_count++] = words[at];
        int status = is_option ? read_option(command, count, words, &at, into) : STATUS_DONE;
        if (status != STATUS_DONE)
            return status;
    }
    return check_count(command, into);
}
