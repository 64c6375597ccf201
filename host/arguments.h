/* The command line. */
#ifndef HOST_ARGUMENTS_H
#define HOST_ARGUMENTS_H

#include <stdbool.h>
#include <stddef.h>
#include <stdint.h>

#include "recorder.h"

enum {
    INPUTS_ROOM = 2 * RECORDER_INPUTS * RECORDER_INPUT_BYTES, /* more than are accepted: the library refuses */
    LENT_ROOM = 65536                                         /* the most that an option lends */
};

/* The options, as bits. */
enum {
    OPTION_TARGET = 1,
    OPTION_INPUTS = 2,
    OPTION_FUEL = 4,
    OPTION_OUTPUT = 8,
    OPTION_MEMORY = 16,
    OPTION_OBSERVATION = 32
};

struct arguments {
    const char *file;   /* the table */
    const char *output; /* where to write, or NULL */
    bool target;        /* the table is a target table */
    uint32_t fuel;
    uint8_t inputs[INPUTS_ROOM];
    size_t inputs_length;
    size_t output_length; /* how many bytes of each buffer are lent */
    size_t memory_length;
    size_t observation_length;
};

/* What a command takes. */
struct command {
    const char *name;
    bool may_write;  /* takes OUT as a second file */
    bool must_write; /* and cannot do without it */
    int options;
    int (*run)(const struct arguments *given);
};

/* Reads the words after the command's name. The status is 0, or that of an error that was told on standard error. */
int arguments_read(const struct command *command, int count, char *const *words, struct arguments *into);

#endif
