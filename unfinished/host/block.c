#include "block.h"

#include "layout.h"
#include "number.h"

enum { CELL_FREE = 0 };

struct block block_at(const uint8_t *memory, uint32_t name)
{
    if (name < 1 || name > RECORDER_NAMES)
        return (struct block){STATE_UNUSED, 0, 0};
    const uint8_t *bytes = memory + (size_t)(name - 1) * RECORDER_BLOCK_BYTES;
    size_t first = number_from_bytes(bytes + FIRST_AT, 2), length = number_from_bytes(bytes + LENGTH_AT, 2);
    return (struct block){bytes[0], first, length};
}

bool is_live(struct block block)
{
    return block.state == STATE_FIXED || block.state == STATE_FREEABLE;
}

static const uint8_t *cell_at(const uint8_t *memory, size_t index)
{
    return memory + RECORDER_BLOCKS_BYTES + index * RECORDER_CELL_BYTES;
}

const uint8_t *cell_led_to(const uint8_t *memory, uint32_t name, int64_t offset)
{
    struct block block = block_at(memory, name);
    if (!is_live(block) || offset < 0 || (uint64_t)offset >= block.length)
        return NULL;
    return cell_at(memory, block.first + (size_t)offset);
}

static bool is_free(const uint8_t *memory, size_t index)
{
    return index < RECORDER_CELLS && cell_at(memory, index)[0] == CELL_FREE;
}

struct cells free_run_from(const uint8_t *memory, size_t from)
{
    while (from < RECORDER_CELLS && !is_free(memory, from))
        from++;
    size_t end = from;
    while (is_free(memory, end))
        end++;
    return (struct cells){from, end - from};
}

static bool has_free_run(const uint8_t *memory, int64_t size)
{
    struct cells run = free_run_from(memory, 0);
    while (run.length > 0 && (int64_t)run.length < size)
        run = free_run_from(memory, run.first + run.length);
    return run.length > 0;
}

static bool has_unused_name(const uint8_t *memory)
{
    uint32_t name = 1;
    while (name <= RECORDER_NAMES && block_at(memory, name).state != STATE_UNUSED)
        name++;
    return name <= RECORDER_NAMES;
}

uint32_t new_block_ending(const uint8_t *memory, int64_t size)
{
    if (!has_unused_name(memory))
        return RECORDER_NO_NAMES;
    return has_free_run(memory, size) ? RECORDER_DONE : RECORDER_NO_CELLS;
}
