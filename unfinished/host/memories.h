/* Both memories, to be read by people. */
#ifndef HOST_MEMORIES_H
#define HOST_MEMORIES_H

#include <stddef.h>
#include <stdint.h>
#include <stdio.h>

#include "json.h"
#include "phrase.h"

/* Prints the live blocks with their cells, and the dead names. `memory` has RECORDER_MEMORY_BYTES. */
void print_execution_memory(FILE *to, const uint8_t *memory);

/* Prints the live blocks with their marks, and the dead names. `observation` has RECORDER_OBSERVATION_BYTES. */
void print_observation_memory(FILE *to, const uint8_t *observation);

/* The same as a member of the object that is open: an object with the lists "blocks" and "dead". */
void json_execution_memory(struct json *json, const char *key, const uint8_t *memory);
void json_observation_memory(struct json *json, const char *key, const uint8_t *observation);

/* Adds what a cell holds: "7", "undefined", "pointer to block 5, offset 0". */
void print_cell(struct phrase *into, const uint8_t *cell);

/* Adds "cell 3" or "cells 3 to 7", `end` being the first that no longer counts. */
void print_places(struct phrase *into, const char *unit, size_t first, size_t end);

/* The block record of a name; `memory` as either of the above. */
const uint8_t *block_of(const uint8_t *memory, size_t name);

/* The length of a live block, 0 of any other. */
size_t block_length(const uint8_t *memory, size_t name);

#endif
