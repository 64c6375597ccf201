/* Both memories, to be read by people. */
#ifndef HOST_MEMORIES_H
#define HOST_MEMORIES_H

#include <stddef.h>
#include <stdint.h>

/* Prints the live blocks with their cells, and the dead names. `memory` has RECORDER_MEMORY_BYTES. */
void print_execution_memory(const uint8_t *memory);

/* Prints the live blocks with their marks, and the dead names. `observation` has RECORDER_OBSERVATION_BYTES. */
void print_observation_memory(const uint8_t *observation);

/* The length of a live block, 0 of any other; `memory` as either of the above. */
size_t block_length(const uint8_t *memory, size_t name);

#endif
