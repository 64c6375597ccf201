#include <stdlib.h>

#include "layout.h"
#include "number.h"
#include "picture.h"

/* Between two arrows in one lane. */
enum { LEAST_GAP = 6 };

bool is_pointer(const struct drawn_row *row)
{
    return row->sort == ROW_CELLS && row->cell != NULL && row->cell[0] == CELL_POINTER && !row->has_various;
}

static bool has_offset(const struct drawn_row *row, int64_t offset)
{
    if (row->sort == ROW_OUTSIDE)
        return row->offset == offset;
    return row->cell != NULL && offset >= row->offset && offset - row->offset < (int64_t)row->count;
}

static const struct drawn_row *row_in_block(const struct picture *picture, const struct drawn_block *block,
                                            int64_t offset)
{
    for (size_t at = 0; at < block->row_count; at++)
        if (has_offset(&picture->rows[block->first_row + at], offset))
            return &picture->rows[block->first_row + at];
    return NULL;
}

const struct drawn_row *row_pointed_to(const struct picture *picture, const struct drawn_row *row)
{
    size_t name = number_from_bytes(row->cell + POINTED_AT, 2);
    for (size_t at = 0; at < picture->block_count; at++)
        if (picture->blocks[at].name == name && picture->blocks[at].execution.is_live)
            return row_in_block(picture, &picture->blocks[at], signed_from_bytes(row->cell + NUMBER_AT));
    return NULL;
}

bool is_dangling(const struct picture *picture, const struct drawn_row *row)
{
    return !execution_side(picture->memory, number_from_bytes(row->cell + POINTED_AT, 2)).is_live;
}

static int least(const struct arrow *arrow)
{
    return arrow->from_y < arrow->to_y ? arrow->from_y : arrow->to_y;
}

static int length_of(const struct arrow *arrow)
{
    return abs(arrow->to_y - arrow->from_y);
}

static bool are_apart(const struct arrow *one, const struct arrow *other)
{
    return least(one) > least(other) + length_of(other) + LEAST_GAP ||
           least(other) > least(one) + length_of(one) + LEAST_GAP;
}

/* The first lane in which the arrow meets none but those that go where it goes. */
static size_t free_lane(const struct picture *picture, size_t before)
{
    const struct arrow *arrow = &picture->arrows[before];
    for (size_t lane = 0; lane < MOST_LANES; lane++) {
        bool is_free = true;
        for (size_t at = 0; at < before && is_free; at++) {
            const struct arrow *other = &picture->arrows[at];
            is_free = other->lane != lane || other->to_y == arrow->to_y || are_apart(arrow, other);
        }
        if (is_free)
            return lane;
    }
    return MOST_LANES;
}

static int by_length(const void *one, const void *other)
{
    const struct arrow *first = one, *second = other;
    int difference = length_of(first) - length_of(second);
    return difference != 0 ? difference : first->from_y - second->from_y;
}

void add_arrows(struct picture *picture)
{
    for (size_t at = 0; at < picture->row_count; at++) {
        const struct drawn_row *row = &picture->rows[at];
        const struct drawn_row *target = is_pointer(row) ? row_pointed_to(picture, row) : NULL;
        if (target != NULL)
            picture->arrows[picture->arrow_count++] =
                (struct arrow){row->y + DEPARTURE_Y, target->y + ARRIVAL_Y, MOST_LANES};
    }
    /* Short ones first, so that they stay near the boxes and long ones go round them. */
    qsort(picture->arrows, picture->arrow_count, sizeof picture->arrows[0], by_length);
    for (size_t at = 0; at < picture->arrow_count; at++) {
        size_t lane = free_lane(picture, at);
        picture->arrows[at].lane = lane;
        if (lane < MOST_LANES && lane >= picture->lane_count)
            picture->lane_count = lane + 1;
    }
}
