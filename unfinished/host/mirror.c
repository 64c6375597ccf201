#include "mirror.h"

#include <stddef.h>
#include <string.h>

#include "recorder.h"

/* By the state of a block in either memory, and by the kind of a cell. */
static const char *const OBSERVED[] = {"unused", "live", "dead"};
static const char *const EXECUTED[] = {"unused", "live", "live", "dead"};
static const char *const CELLS[] = {"is free", "is undefined", "holds an integer", "holds a pointer"};

enum { STATE_COUNT = 4, OBSERVED_COUNT = 3, CELL_KINDS = 4 };

/* By the state in the execution memory, that in the observation memory. */
static const uint8_t MIRRORED[STATE_COUNT] = {0, 1, 1, 2};

static void tell_block(struct phrase *into, uint32_t name, const uint8_t *block, const uint8_t *observed)
{
    bool are_states = block[0] < STATE_COUNT && observed[0] < OBSERVED_COUNT;
    if (are_states && MIRRORED[block[0]] != observed[0])
        phrase_add(into, "block %u is %s in the execution memory and %s in the observation memory", (unsigned)name,
                   EXECUTED[block[0]], OBSERVED[observed[0]]);
    else
        phrase_add(into, "block %u has another place or length in the observation memory", (unsigned)name);
}

static bool mirrors_block(const uint8_t *block, const uint8_t *observed)
{
    bool same_state = block[0] < STATE_COUNT && MIRRORED[block[0]] == observed[0];
    return same_state && memcmp(block + 1, observed + 1, RECORDER_BLOCK_BYTES - 1) == 0;
}

static bool are_blocks_mirrored(const uint8_t *memory, const uint8_t *observation, struct phrase *difference)
{
    for (uint32_t name = 1; name <= RECORDER_NAMES; name++) {
        size_t start = (size_t)(name - 1) * RECORDER_BLOCK_BYTES;
        if (mirrors_block(memory + start, observation + start))
            continue;
        tell_block(difference, name, memory + start, observation + start);
        return false;
    }
    return true;
}

static bool are_marks_mirrored(const uint8_t *memory, const uint8_t *observation, struct phrase *difference)
{
    for (size_t index = 0; index < RECORDER_CELLS; index++) {
        uint8_t kind = memory[RECORDER_BLOCKS_BYTES + index * RECORDER_CELL_BYTES];
        uint8_t mark = observation[RECORDER_BLOCKS_BYTES + index];
        if (kind < CELL_KINDS && mark == (kind >= 2))
            continue;
        phrase_add(difference, "mark %zu is %u where cell %zu %s", index, mark, index,
                   kind < CELL_KINDS ? CELLS[kind] : "is of no kind");
        return false;
    }
    return true;
}

bool is_mirror(const uint8_t *memory, const uint8_t *observation, struct phrase *difference)
{
    return are_blocks_mirrored(memory, observation, difference) && are_marks_mirrored(memory, observation, difference);
}

bool promises_mirror(recorder_answer answer)
{
    return answer.number != RECORDER_DEAD_BLOCK && answer.number != RECORDER_OUTSIDE_BLOCK;
}
