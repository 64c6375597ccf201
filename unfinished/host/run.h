/* A run: what went in and what came out. */
#ifndef HOST_RUN_H
#define HOST_RUN_H

#include <stdbool.h>
#include <stddef.h>
#include <stdint.h>

#include "arguments.h"
#include "recorder.h"
#include "table.h"

/* What a run is made of. */
struct run_given {
    const struct table *table; /* as it was read: a source table, or a target table */
    bool is_target;            /* then only a watched run can be made of it */
    const uint8_t *inputs;
    size_t inputs_length;
    uint32_t fuel;
    size_t memory_length, observation_length; /* how many bytes are lent; others than the right ones are refused */
};

/* What it left. */
struct run_left {
    recorder_answer answer;
    uint8_t memory[LENT_ROOM];      /* RECORDER_MEMORY_BYTES of it count */
    uint8_t observation[LENT_ROOM]; /* RECORDER_OBSERVATION_BYTES of it count; all zero after a plain run */
};

/* What a command was given, for runs of this table. */
struct run_given run_of(const struct arguments *given, const struct table *table);

/* The plain run of a source table. */
void run_plain(const struct run_given *given, struct run_left *left);

/* The watched run of a target table, or of a source table's translation. A refusal by the translator is the answer. */
void run_watched(const struct run_given *given, struct run_left *left);

#endif
