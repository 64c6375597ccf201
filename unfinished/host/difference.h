/* What is wrong with an entry, in words: one difference after another, told apart by semicolons. */
#ifndef HOST_DIFFERENCE_H
#define HOST_DIFFERENCE_H

#include <stddef.h>
#include <stdint.h>

#include "phrase.h"

/* The same phrase, ready for one more difference. */
struct phrase *next_difference(struct phrase *differences);

/* Adds the first byte, counted from 0, in which a file is not what the rules give, or its length. */
void compare_bytes(const char *name, const uint8_t *found, size_t found_length, const uint8_t *right,
                   size_t right_length, struct phrase *differences);

#endif
