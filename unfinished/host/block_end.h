/* Which statement ended a block, by proved calls alone. */
#ifndef HOST_BLOCK_END_H
#define HOST_BLOCK_END_H

#include <stdint.h>

#include "run.h"

/* The free, or the let at its end, that ended a block which is dead after the run; 0 where it is not known. */
uint32_t statement_that_ended(const struct run_given *given, const struct run_left *left, uint32_t name);

#endif
