#include <inttypes.h>
#include <string.h>

#include "layout.h"
#include "memories.h"
#include "number.h"
#include "picture.h"

static bool mirrors(const uint8_t *cell, const uint8_t *mark)
{
    if (cell == NULL || mark == NULL)
        return cell == mark;
    return (cell[0] == CELL_INTEGER || cell[0] == CELL_POINTER) == (mark[0] != 0);
}

/* The row of one offset alone. */
static struct drawn_row single_row(const struct picture *picture, const struct drawn_block *block, size_t offset)
{
    struct drawn_row row = {.sort = ROW_CELLS, .offset = (int64_t)offset, .count = 1};
    if (offset < block->execution.length)
        row.cell = picture->memory + RECORDER_BLOCKS_BYTES + (block->execution.first + offset) * RECORDER_CELL_BYTES;
    if (offset < block->observation.length)
        row.mark = picture->observation + RECORDER_BLOCKS_BYTES + block->observation.first + offset;
    row.is_mirrored = mirrors(row.cell, row.mark);
    return row;
}

static bool have_equal_marks(const struct drawn_row *one, const struct drawn_row *other)
{
    if (one->mark == NULL || other->mark == NULL)
        return one->mark == other->mark;
    return one->mark[0] == other->mark[0];
}

static bool is_pointed_to(const struct picture *picture, const struct drawn_row *row)
{
    size_t index = (size_t)(row->cell - picture->memory - RECORDER_BLOCKS_BYTES) / RECORDER_CELL_BYTES;
    return picture->is_pointed_to[index];
}

/* Whether two rows may be one. By kind they may have different values; else a cell with an arrow to it stays alone. */
static bool are_alike(const struct picture *picture, const struct drawn_row *one, const struct drawn_row *other,
                      bool by_kind)
{
    if (!have_equal_marks(one, other) || (one->cell == NULL) != (other->cell == NULL))
        return false;
    if (one->cell == NULL)
        return true;
    if (by_kind)
        return one->cell[0] == other->cell[0];
    return memcmp(one->cell, other->cell, RECORDER_CELL_BYTES) == 0 && !is_pointed_to(picture, one) &&
           !is_pointed_to(picture, other);
}

/* The row at an offset with all that can be folded into it. */
static struct drawn_row folded_row(const struct picture *picture, const struct drawn_block *block, size_t offset,
                                   size_t length, bool by_kind)
{
    struct drawn_row row = single_row(picture, block, offset);
    bool has_various = false;
    size_t count = 1;
    for (; offset + count < length; count++) {
        struct drawn_row next = single_row(picture, block, offset + count);
        if (!are_alike(picture, &row, &next, by_kind))
            break;
        has_various |= row.cell != NULL && memcmp(row.cell, next.cell, RECORDER_CELL_BYTES) != 0;
    }
    if (count >= FOLDED_FROM) {
        row.count = count;
        row.has_various = has_various;
    }
    return row;
}

/* What is left of a block from an offset on, as a row. */
static struct drawn_row rest_row(const struct picture *picture, const struct drawn_block *block, size_t offset,
                                 size_t length)
{
    struct drawn_row row = single_row(picture, block, offset);
    row.sort = ROW_LEFT_OUT;
    row.count = length - offset;
    for (; offset < length; offset++)
        row.is_mirrored &= single_row(picture, block, offset).is_mirrored;
    return row;
}

/* How many offsets the block has in the memory that has more. */
static size_t greater_length(const struct drawn_block *block)
{
    size_t length = block->execution.length;
    return length < block->observation.length ? block->observation.length : length;
}

bool is_mirrored(const struct picture *picture, const struct drawn_block *block)
{
    return block->execution.first == block->observation.first &&
           rest_row(picture, block, 0, greater_length(block)).is_mirrored;
}

/* Adds the rows of a block's cells and marks; false where they are too many, and then the last says so. */
static bool add_cells(struct picture *picture, const struct drawn_block *block, bool by_kind)
{
    size_t length = greater_length(block), offset = 0;
    for (size_t count = 0; offset < length && count < MOST_ROWS; count++) {
        struct drawn_row row = folded_row(picture, block, offset, length, by_kind);
        offset += row.count;
        if (count == MOST_ROWS - 1 && offset < length)
            row = rest_row(picture, block, (size_t)row.offset, length);
        picture->rows[picture->row_count++] = row;
    }
    return offset == length;
}

/* The least offset from `low` to `high` with which a cell points to the name, or with which the run used it. */
static bool least_offset(const struct picture *picture, size_t name, int64_t low, int64_t high, int64_t *least)
{
    bool is_found = picture->used.name == name && picture->used.offset >= low && picture->used.offset <= high;
    if (is_found)
        high = picture->used.offset;
    for (size_t index = 0; index < RECORDER_CELLS; index++) {
        const uint8_t *cell = picture->memory + RECORDER_BLOCKS_BYTES + index * RECORDER_CELL_BYTES;
        int64_t offset = signed_from_bytes(cell + NUMBER_AT);
        bool points = cell[0] == CELL_POINTER && number_from_bytes(cell + POINTED_AT, 2) == name;
        if (!points || offset < low || offset > high)
            continue;
        high = offset;
        is_found = true;
    }
    *least = high;
    return is_found;
}

/* Adds rows for offsets outside the block, from `low` to `high`, that pointers have. */
static void add_outside(struct picture *picture, const struct drawn_block *block, int64_t low, int64_t high)
{
    int64_t offset = 0;
    for (int count = 0; count < MOST_OUTSIDE; count++) {
        if (!block->execution.is_live || !least_offset(picture, block->name, low, high, &offset))
            return;
        picture->rows[picture->row_count++] =
            (struct drawn_row){.sort = ROW_OUTSIDE,
                               .offset = offset,
                               .count = 1,
                               .is_mirrored = true,
                               .is_used = picture->used.name == block->name && picture->used.offset == offset};
        if (offset == high)
            return;
        low = offset + 1;
    }
}

void add_rows(struct picture *picture, struct drawn_block *block)
{
    block->first_row = picture->row_count;
    add_outside(picture, block, INT64_MIN, -1);
    size_t cells_from = picture->row_count;
    if (!add_cells(picture, block, false)) {
        picture->row_count = cells_from;
        add_cells(picture, block, true);
    }
    add_outside(picture, block, (int64_t)block->execution.length, INT64_MAX);
    block->row_count = picture->row_count - block->first_row;
}

static void print_pointer(struct phrase *into, const struct picture *picture, const struct drawn_row *row)
{
    phrase_add(into, "%sblock %" PRIu64 ", offset %" PRId64, is_dangling(picture, row) ? "dead " : "",
               number_from_bytes(row->cell + POINTED_AT, 2), signed_from_bytes(row->cell + NUMBER_AT));
    if (!is_dangling(picture, row) && row_pointed_to(picture, row) == NULL)
        phrase_add(into, ", not shown");
}

/* Cells of one kind that are told together. */
static void print_various(struct phrase *into, const struct drawn_row *row)
{
    if (row->cell[0] == CELL_INTEGER)
        phrase_add(into, "%zu integers, the first %" PRId64, row->count, signed_from_bytes(row->cell + NUMBER_AT));
    else
        phrase_add(into, "%zu pointers", row->count);
}

void print_row(struct phrase *into, const struct picture *picture, const struct drawn_row *row)
{
    if (row->sort == ROW_OUTSIDE)
        phrase_add(into, "offset %" PRId64 ", outside%s", row->offset,
                   row->is_used ? ": the run ended here" : " the block");
    else if (row->sort == ROW_LEFT_OUT)
        phrase_add(into, "%zu cells, not shown", row->count);
    else if (row->cell == NULL)
        phrase_add(into, "no cell here");
    else if (row->has_various)
        print_various(into, row);
    else {
        if (row->count > 1)
            phrase_add(into, "%zu cells, each ", row->count);
        if (row->cell[0] == CELL_POINTER)
            print_pointer(into, picture, row);
        else
            print_cell(into, row->cell);
    }
}
