/* The command line. */
#ifndef HOST_ARGUMENTS_H
#define HOST_ARGUMENTS_H

#include <stdbool.h>
#include <stddef.h>
#include <stdint.h>

#include "recorder.h"

enum {
    INPUTS_ROOM = (RECORDER_INPUTS + 1) * RECORDER_INPUT_BYTES, /* one more than are accepted: the library refuses */
    LENT_ROOM = 65536                                           /* the most that an option lends */
};

/* The options that not every command takes, as bits. */
enum {
    OPTION_TARGET = 1,
    OPTION_INPUTS = 2,
    OPTION_FUEL = 4,
    OPTION_OUTPUT = 8,
    OPTION_MEMORY = 16,
    OPTION_OBSERVATION = 32,
    OPTION_FORMAT = 64,
    OPTION_FORCE = 128,
    OPTION_STOPS = 256,
    OPTION_BEFORE = 512
};

enum format { FORMAT_BY_CONTENT, FORMAT_TEXT, FORMAT_BYTES };

struct arguments {
    char *const *words; /* what is no option: files and folders, in their order */
    size_t word_count;
    enum format format; /* of every table that is read */
    bool target;        /* the table is a target table */
    bool json;          /* objects in place of text */
    bool force;         /* files may be overwritten */
    uint32_t fuel;
    uint8_t inputs[INPUTS_ROOM];
    size_t inputs_length;
    size_t output_length; /* how many bytes of each buffer are lent */
    size_t memory_length;
    size_t observation_length;
    uint32_t stops;  /* trace: at most so many */
    uint32_t before; /* draw: at the first arrival at this statement; 0 after the run */
};

/* What a command takes. */
struct command {
    const char *name;
    const char *operands;             /* as the usage shows them */
    size_t least_words, most_words;   /* how many of them */
    int options;
    int (*run)(const struct arguments *given);
    const char *summary;              /* what it does, in lines of the usage */
};

/* Reads the words after the command's name. The status is 0, or that of an error that was told on standard error; help
 * is asked for where `*wants_help` comes out true, and then nothing else counts. */
int arguments_read(const struct command *command, int count, char **words, struct arguments *into, bool *wants_help);

/* Prints the options that a command takes; all of them where it is NULL. */
void print_options(const struct command *command);

#endif
