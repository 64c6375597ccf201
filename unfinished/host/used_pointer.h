/* The pointer at which a run ended 42 or 50, for people: the answer has the statement alone. */
#ifndef HOST_USED_POINTER_H
#define HOST_USED_POINTER_H

#include <stdbool.h>
#include <stdint.h>

#include "recorder.h"

struct used_pointer {
    uint32_t name;
    int64_t offset;
};

/* The pointer whose read or store ended a run. `answer` is that of a plain run of the table, or of the watched run of
 * its translation, and `memory` the RECORDER_MEMORY_BYTES that it left. false where the number is neither 42 nor 50.
 *
 * The table must be an accepted source table, and answer and memory those of its run: they are not checked anew. */
bool used_pointer(const uint8_t *table, recorder_answer answer, const uint8_t *memory, struct used_pointer *used);

#endif
