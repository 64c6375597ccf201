/* The observation memory that mirrors an execution memory. */
#ifndef HOST_MIRROR_H
#define HOST_MIRROR_H

#include <stdbool.h>
#include <stdint.h>

#include "phrase.h"
#include "recorder.h"

/* Whether the observation memory is the mirror of the execution memory: block states 0, 1, 2, 3 as 0, 1, 1, 2, equal
 * first and length, mark i 1 where cell i holds an integer or a pointer. Where it is not, the first difference is added
 * to `difference`. */
bool is_mirror(const uint8_t *memory, const uint8_t *observation, struct phrase *difference);

/* Whether the rules promise a mirror after this ending of a translation's run: at every one but 42 and 50. */
bool promises_mirror(recorder_answer answer);

#endif
