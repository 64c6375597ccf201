/* The memories' layouts, as this host reads them; include/recorder.h describes them. */
#ifndef HOST_LAYOUT_H
#define HOST_LAYOUT_H

#include "recorder.h"

_Static_assert(RECORDER_VERSION == 2, "the layouts that this host reads");
_Static_assert(RECORDER_BLOCKS_BYTES == RECORDER_NAMES * RECORDER_BLOCK_BYTES, "block records");
_Static_assert(RECORDER_MEMORY_BYTES == RECORDER_BLOCKS_BYTES + RECORDER_CELLS * RECORDER_CELL_BYTES, "cells");
_Static_assert(RECORDER_OBSERVATION_BYTES == RECORDER_BLOCKS_BYTES + RECORDER_CELLS, "marks");

/* Byte 0 is a block's state or a cell's kind. First, length and the name pointed to take 2 bytes, a cell's number 8. */
enum { FIRST_AT = 2, LENGTH_AT = 4, POINTED_AT = 4, NUMBER_AT = 8 };

#endif
