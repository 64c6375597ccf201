/* Blocks and cells of an execution memory. */
#ifndef HOST_BLOCK_H
#define HOST_BLOCK_H

#include <stdbool.h>
#include <stddef.h>
#include <stdint.h>

enum { FIRST_LET_NAME = 3 }; /* names 1 and 2 are given at a run's start */

enum block_state { STATE_UNUSED, STATE_FIXED, STATE_FREEABLE, STATE_DEAD };

struct block {
    enum block_state state;
    size_t first, length;
};

/* Neighbouring cells. */
struct cells {
    size_t first, length;
};

/* The block of a name; unused where the number is no name. */
struct block block_at(const uint8_t *memory, uint32_t name);

bool is_live(struct block block);

/* The bytes of the cell that a pointer leads to; NULL where it leads nowhere. */
const uint8_t *cell_led_to(const uint8_t *memory, uint32_t name, int64_t offset);

/* The first run of free cells at `from` or behind it; its length is 0 where there is none. */
struct cells free_run_from(const uint8_t *memory, size_t from);

/* The number with which a new block of so many cells, at least 1, ends a run: 31, 30, or 0 where it can be made. */
uint32_t new_block_ending(const uint8_t *memory, int64_t size);

#endif
