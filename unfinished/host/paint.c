#include "paint.h"

#include <inttypes.h>
#include <stdlib.h>

#include "layout.h"
#include "memories.h"
#include "svg.h"

enum {
    CELLS_X = MARGIN + LABEL_WIDTH,
    BASELINE = 18, /* of words in a row, from its top */
    ABOVE_BOX = 8, /* the words above a box stand so high */
    BEFORE_WORDS = 10,
    WARNING_WIDTH = 116, /* of the words "no mirror here" */
    STUB = 12, /* the way of a pointer that leads to nothing drawn */
    DOT_BEFORE_END = 14,
    CORNER = 6
};

static int cells_end(const struct picture *picture)
{
    return CELLS_X + picture->cell_width;
}

/* "3" or "3 to 1022", left of a box. An offset outside may be too long for that; its row has it in words. */
static void paint_offsets(FILE *to, int x, const struct drawn_row *row)
{
    if (row->sort == ROW_OUTSIDE)
        return;
    struct phrase words = {0};
    phrase_add(&words, "%" PRId64, row->offset);
    if (row->count > 1)
        phrase_add(&words, " to %" PRId64, row->offset + (int64_t)row->count - 1);
    svg_text(to, x - BEFORE_WORDS, row->y + BASELINE, "label", words.text);
}

/* Words on paper, so that no hatching runs through them. */
static void paint_words(FILE *to, int x, int y, const struct phrase *words)
{
    svg_box(to, x - 4, y + 3, (int)words->length * CHARACTER_WIDTH + 4, ROW_HEIGHT - 6, "paper");
    svg_text(to, x, y + BASELINE, "value", words->text);
}

static void paint_cell(FILE *to, const struct picture *picture, const struct drawn_row *row)
{
    const char *style = "cell";
    if (row->sort == ROW_OUTSIDE)
        style = "outside";
    else if (row->cell != NULL && row->cell[0] == CELL_UNDEFINED && row->sort == ROW_CELLS)
        style = "undefined";
    struct phrase words = {0};
    print_row(&words, picture, row);
    paint_offsets(to, CELLS_X, row);
    svg_box(to, CELLS_X, row->y, picture->cell_width, ROW_HEIGHT, style);
    paint_words(to, CELLS_X + BEFORE_WORDS, row->y, &words);
}

static const char *mark_in_words(const struct drawn_row *row)
{
    if (row->sort == ROW_LEFT_OUT)
        return "not shown";
    if (row->mark == NULL)
        return "no mark";
    return row->mark[0] != 0 ? "initialised" : "not initialised";
}

static void paint_mark(FILE *to, const struct picture *picture, const struct drawn_row *row)
{
    int x = picture->observation_x;
    const char *sign = row->mark != NULL && row->mark[0] != 0 ? "initialised" : "not-initialised";
    paint_offsets(to, x, row);
    svg_box(to, x, row->y, MARK_WIDTH, ROW_HEIGHT, "mark");
    if (row->mark != NULL && row->sort == ROW_CELLS)
        svg_box(to, x + BEFORE_WORDS, row->y + (ROW_HEIGHT - SIGN) / 2, SIGN, SIGN, sign);
    svg_text(to, x + BEFORE_WORDS + SIGN + 8, row->y + BASELINE, "value", mark_in_words(row));
    if (!row->is_mirrored)
        svg_text(to, x + MARK_WIDTH - WARNING_WIDTH, row->y + BASELINE, "warning", "no mirror here");
}

/* "cell 3" or "cells 3 to 7", at the right end above a box. */
static void paint_span(FILE *to, int x, int y, const char *unit, const struct side *side)
{
    struct phrase words = {0};
    print_places(&words, unit, side->first, side->first + side->length);
    svg_text(to, x, y, "span", words.text);
}

/* In place of a block that only the other memory has. */
static void paint_missing(FILE *to, int x, int width, const struct drawn_block *block, const struct side *side)
{
    struct phrase words = {0};
    phrase_add(&words, "block %zu: %s", block->name, side->is_dead ? "dead here" : "not recorded here");
    svg_text(to, x, block->y - ABOVE_BOX, "name", words.text);
    svg_box(to, x, block->y, width, block->height, "no-mirror");
    svg_text(to, x + BEFORE_WORDS, block->y + BASELINE, "warning", "no mirror here");
}

static const struct drawn_row *row_of(const struct picture *picture, const struct drawn_block *block, size_t at)
{
    return &picture->rows[block->first_row + at];
}

/* Thick outlines round the rows that only the other memory has, or whose mark is not the cell's. */
static void outline_rows(FILE *to, const struct picture *picture, const struct drawn_block *block, bool is_execution)
{
    for (size_t at = 0; at < block->row_count; at++) {
        const struct drawn_row *row = row_of(picture, block, at);
        if (is_execution && row->cell == NULL && row->sort != ROW_OUTSIDE)
            svg_box(to, CELLS_X, row->y, picture->cell_width, ROW_HEIGHT, "no-mirror");
        if (!is_execution && !row->is_mirrored)
            svg_box(to, picture->observation_x, row->y, MARK_WIDTH, ROW_HEIGHT, "no-mirror");
    }
}

/* Adds what a block is for: the inputs, or a variable in scope. */
static void print_role(struct phrase *into, const struct picture *picture, size_t name)
{
    if (name == 2)
        phrase_add(into, ": the inputs");
    for (size_t variable = 0; variable < VARIABLES; variable++) {
        const char *called = picture->table->names[variable];
        if (picture->variables[variable] == name && called[0] != '\0')
            phrase_add(into, ": variable %s", called);
        else if (picture->variables[variable] == name)
            phrase_add(into, ": variable %zu", variable);
    }
}

static void paint_execution(FILE *to, const struct picture *picture, const struct drawn_block *block)
{
    if (!block->execution.is_live) {
        paint_missing(to, CELLS_X, picture->cell_width, block, &block->execution);
        return;
    }
    struct phrase words = {0};
    phrase_add(&words, "block %zu", block->name);
    print_role(&words, picture, block->name);
    phrase_add(&words, ", %s", block->is_fixed ? "fixed" : "freeable");
    int y = row_of(picture, block, 0)->y - ABOVE_BOX;
    svg_text(to, CELLS_X, y, "name", words.text);
    paint_span(to, cells_end(picture), y, "cell", &block->execution);
    for (size_t at = 0; at < block->row_count; at++)
        paint_cell(to, picture, row_of(picture, block, at));
    svg_box(to, CELLS_X, block->y, picture->cell_width, block->height, "block");
    outline_rows(to, picture, block, true);
}

static bool has_same_place(const struct drawn_block *block)
{
    return block->execution.first == block->observation.first && block->execution.length == block->observation.length;
}

static void paint_observation(FILE *to, const struct picture *picture, const struct drawn_block *block)
{
    int x = picture->observation_x;
    if (!block->observation.is_live) {
        paint_missing(to, x, MARK_WIDTH, block, &block->observation);
        return;
    }
    bool is_elsewhere = !has_same_place(block);
    struct phrase words = {0};
    phrase_add(&words, "block %zu%s", block->name, is_elsewhere ? ": no mirror here" : "");
    svg_text(to, x, block->y - ABOVE_BOX, is_elsewhere ? "warning" : "name", words.text);
    paint_span(to, x + MARK_WIDTH, block->y - ABOVE_BOX, "mark", &block->observation);
    for (size_t at = 0; at < block->row_count; at++)
        if (row_of(picture, block, at)->sort != ROW_OUTSIDE)
            paint_mark(to, picture, row_of(picture, block, at));
    svg_box(to, x, block->y, MARK_WIDTH, block->height, is_elsewhere ? "no-mirror" : "block");
    outline_rows(to, picture, block, false);
}

void paint_blocks(FILE *to, const struct picture *picture)
{
    for (size_t at = 0; at < picture->block_count; at++) {
        paint_execution(to, picture, &picture->blocks[at]);
        paint_observation(to, picture, &picture->blocks[at]);
    }
    if (picture->left_out == 0)
        return;
    struct phrase words = {0};
    phrase_add(&words, "and %zu more live blocks", picture->left_out);
    if (picture->left_out_without_mirror > 0)
        phrase_add(&words, ", %zu of them without a mirror", picture->left_out_without_mirror);
    svg_text(to, CELLS_X, picture->blocks_end + BASELINE, "name", words.text);
}

static void paint_arrow(FILE *to, const struct picture *picture, const struct arrow *arrow)
{
    int end = cells_end(picture);
    if (arrow->lane == MOST_LANES) {
        svg_line(to, end - DOT_BEFORE_END, arrow->from_y, end + STUB, arrow->from_y, "arrow");
        return;
    }
    int lane_x = end + LANES_BEFORE + (int)arrow->lane * LANE_WIDTH;
    int length = abs(arrow->to_y - arrow->from_y);
    int corner = length < 2 * CORNER ? length / 2 : CORNER;
    int down = arrow->to_y > arrow->from_y ? corner : -corner;
    fprintf(to, "<path d=\"M%d %d H%d q%d 0 %d %d V%d q0 %d %d %d H%d\" class=\"arrow\"/>\n", end - DOT_BEFORE_END,
            arrow->from_y, lane_x - corner, corner, corner, down, arrow->to_y - down, down, -corner, down, end + 8);
    svg_head(to, end + 1, arrow->to_y);
}

/* The dot, and a short way that ends in a cross at a dead block and in nothing at a row that is not drawn. */
static void paint_pointer(FILE *to, const struct picture *picture, const struct drawn_row *row)
{
    int end = cells_end(picture), y = row->y + DEPARTURE_Y;
    if (row_pointed_to(picture, row) == NULL) {
        svg_line(to, end - DOT_BEFORE_END, y, end + STUB, y, "arrow");
        if (is_dangling(picture, row))
            svg_cross(to, end + STUB + 4, y);
    }
    svg_dot(to, end - DOT_BEFORE_END, y);
}

void paint_arrows(FILE *to, const struct picture *picture)
{
    for (size_t at = 0; at < picture->arrow_count; at++)
        paint_arrow(to, picture, &picture->arrows[at]);
    for (size_t at = 0; at < picture->row_count; at++)
        if (is_pointer(&picture->rows[at]))
            paint_pointer(to, picture, &picture->rows[at]);
}
