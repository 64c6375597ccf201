#include "picture.h"

#include <string.h>

#include "layout.h"
#include "number.h"
#include "svg.h"

/* The states that mean dead, in either memory. */
enum { DEAD_EXECUTION = 3, DEAD_OBSERVATION = 2 };

/* Of cells or words above a box. */
enum { LEAST_CELL_WIDTH = 276, BESIDE_WORDS = 48 };

static struct side side_of(const uint8_t *memory, size_t name, uint8_t dead)
{
    struct side side = {0};
    if (name < 1 || name > RECORDER_NAMES)
        return side;
    const uint8_t *block = memory + (name - 1) * RECORDER_BLOCK_BYTES;
    side.is_dead = block[0] == dead;
    side.is_live = block[0] != 0 && !side.is_dead;
    side.first = number_from_bytes(block + FIRST_AT, 2);
    side.length = number_from_bytes(block + LENGTH_AT, 2);
    /* No run leaves a block that passes the end; nothing beyond it is read all the same. */
    if (side.first + side.length > RECORDER_CELLS)
        side.first = side.length = 0;
    return side;
}

struct side execution_side(const uint8_t *memory, size_t name)
{
    return side_of(memory, name, DEAD_EXECUTION);
}

struct side observation_side(const uint8_t *observation, size_t name)
{
    return side_of(observation, name, DEAD_OBSERVATION);
}

/* Finds the cells to which arrows will go. */
static void find_pointed_to(struct picture *picture)
{
    for (size_t index = 0; index < RECORDER_CELLS; index++) {
        const uint8_t *cell = picture->memory + RECORDER_BLOCKS_BYTES + index * RECORDER_CELL_BYTES;
        struct side side = execution_side(picture->memory, number_from_bytes(cell + POINTED_AT, 2));
        int64_t offset = signed_from_bytes(cell + NUMBER_AT);
        if (offset >= 0 && offset < (int64_t)side.length)
            picture->is_pointed_to[side.first + (size_t)offset] = true;
    }
}

static void add_blocks(struct picture *picture)
{
    for (size_t name = 1; name <= RECORDER_NAMES; name++) {
        struct drawn_block block = {
            .name = name,
            .is_fixed = picture->memory[(name - 1) * RECORDER_BLOCK_BYTES] == 1,
            .execution = execution_side(picture->memory, name),
            .observation = observation_side(picture->observation, name),
        };
        if (!block.execution.is_live && !block.observation.is_live)
            continue;
        if (picture->block_count == MOST_BLOCKS) {
            picture->left_out++;
            picture->left_out_without_mirror += is_mirrored(picture, &block) ? 0 : 1;
            continue;
        }
        add_rows(picture, &block);
        picture->blocks[picture->block_count++] = block;
    }
}

/* Gives the block's rows their places; the y below them. Rows outside the block stand a little off. */
static int place_rows(struct picture *picture, struct drawn_block *block, int y)
{
    bool was_outside = false;
    block->y = 0;
    for (size_t at = 0; at < block->row_count; at++) {
        struct drawn_row *row = &picture->rows[block->first_row + at];
        bool is_outside = row->sort == ROW_OUTSIDE;
        if (at > 0 && (is_outside || was_outside))
            y += OUTSIDE_GAP;
        if (!is_outside && block->y == 0)
            block->y = y;
        row->y = y;
        y += ROW_HEIGHT;
        if (!is_outside)
            block->height = y - block->y;
        was_outside = is_outside;
    }
    return y;
}

static void place_blocks(struct picture *picture, int y)
{
    for (size_t at = 0; at < picture->block_count; at++)
        y = place_rows(picture, &picture->blocks[at], y + NAME_HEIGHT) + BLOCK_GAP;
    picture->blocks_end = y;
}

static void measure(struct picture *picture)
{
    picture->cell_width = LEAST_CELL_WIDTH;
    for (size_t at = 0; at < picture->row_count; at++) {
        struct phrase words = {0};
        print_row(&words, picture, &picture->rows[at]);
        int wanted = (int)words.length * CHARACTER_WIDTH + BESIDE_WORDS;
        if (picture->cell_width < wanted)
            picture->cell_width = wanted;
    }
    int lanes_width = LANES_BEFORE + (int)picture->lane_count * LANE_WIDTH;
    picture->observation_x = MARGIN + LABEL_WIDTH + picture->cell_width + lanes_width + LABEL_WIDTH;
    picture->width = picture->observation_x + MARK_WIDTH + MARGIN;
}

void picture_lay_out(struct picture *picture, const uint8_t *memory, const uint8_t *observation,
                     struct used_pointer used, int y)
{
    memset(picture, 0, sizeof *picture);
    picture->memory = memory;
    picture->observation = observation;
    picture->used = used;
    find_pointed_to(picture);
    add_blocks(picture);
    place_blocks(picture, y);
    add_arrows(picture);
    measure(picture);
}
