/* Both memories laid out as a picture: what is drawn, and where. */
#ifndef HOST_PICTURE_H
#define HOST_PICTURE_H

#include <stdbool.h>
#include <stddef.h>
#include <stdint.h>

#include "phrase.h"
#include "table.h"
#include "used_pointer.h"

/* What a cell may hold. */
enum { CELL_UNDEFINED = 1, CELL_INTEGER = 2, CELL_POINTER = 3 };

/* How much is drawn. */
enum {
    MOST_BLOCKS = 40,  /* the other live ones are counted */
    MOST_ROWS = 40,    /* of cells in a block */
    MOST_OUTSIDE = 4,  /* offsets that pointers have before a block, and as many behind it */
    MOST_LANES = 20,   /* side by side for arrows */
    FOLDED_FROM = 6,   /* so many equal cells are one row */
    ROW_ROOM = MOST_BLOCKS * (MOST_ROWS + 2 * MOST_OUTSIDE)
};

/* Sizes. */
enum {
    MARGIN = 24,
    LABEL_WIDTH = 84, /* for offsets, left of the boxes */
    ROW_HEIGHT = 26,
    NAME_HEIGHT = 24, /* for the words above a box */
    BLOCK_GAP = 14,
    OUTSIDE_GAP = 5,
    ARRIVAL_Y = 7,   /* where arrows come to a row */
    DEPARTURE_Y = 15, /* where they leave it: a cell that points to itself has a loop */
    LANE_WIDTH = 10,
    LANES_BEFORE = 30, /* room between boxes and the first lane */
    MARK_WIDTH = 276
};

/* What one memory says of a block. */
struct side {
    bool is_live, is_dead;
    size_t first, length; /* 0 unless live */
};

enum row_sort {
    ROW_CELLS,
    ROW_LEFT_OUT, /* the rest of a block with too many rows */
    ROW_OUTSIDE   /* no cell: a pointer has this offset, or the run ended when it used it */
};

struct drawn_row {
    enum row_sort sort;
    int64_t offset;
    size_t count;               /* of cells, from the offset on */
    bool has_various;           /* they are of one kind and not equal */
    bool is_mirrored;
    bool is_used;               /* outside, and the run ended there */
    const uint8_t *cell, *mark; /* the first of each; NULL where the memory has none there */
    int y;
};

struct drawn_block {
    size_t name;
    bool is_fixed;
    struct side execution, observation;
    size_t first_row, row_count;
    int y, height; /* of the box */
};

struct arrow {
    int from_y, to_y;
    size_t lane; /* MOST_LANES where none was free */
};

struct picture {
    const uint8_t *memory, *observation;
    const struct table *table;     /* it may say how variables are called */
    uint32_t variables[VARIABLES]; /* the names of their blocks; 0 out of scope */
    struct used_pointer used; /* at which the run ended; its name 0 where there is none */
    bool is_pointed_to[RECORDER_CELLS];
    struct drawn_block blocks[MOST_BLOCKS];
    size_t block_count, left_out, left_out_without_mirror;
    struct drawn_row rows[ROW_ROOM];
    size_t row_count;
    struct arrow arrows[ROW_ROOM];
    size_t arrow_count, lane_count;
    int cell_width, observation_x, width;
    int blocks_end; /* the y below the last block */
};

/* The picture of two memories, its blocks from the y on. They must stay as they are while it is used. The pointer is
 * the one at which the run ended, its name 0 where there is none. */
void picture_lay_out(struct picture *picture, const uint8_t *memory, const uint8_t *observation,
                     struct used_pointer used, int y);

/* What the memories say of a name. */
struct side execution_side(const uint8_t *memory, size_t name);
struct side observation_side(const uint8_t *observation, size_t name);

/* Adds the rows of a block, and the block's own place among them. (rows.c) */
void add_rows(struct picture *picture, struct drawn_block *block);

/* Whether the observation memory has the block's mirror: its place and every mark. (rows.c) */
bool is_mirrored(const struct picture *picture, const struct drawn_block *block);

/* Adds what a row's cells hold. (rows.c) */
void print_row(struct phrase *into, const struct picture *picture, const struct drawn_row *row);

/* Whether the row's cells hold one pointer, and the row to which it leads, NULL where none is drawn. (arrows.c) */
bool is_pointer(const struct drawn_row *row);
const struct drawn_row *row_pointed_to(const struct picture *picture, const struct drawn_row *row);

/* Whether such a row points into a dead block. (arrows.c) */
bool is_dangling(const struct picture *picture, const struct drawn_row *row);

/* Gives each pointer whose row is drawn an arrow, and the arrows lanes. (arrows.c) */
void add_arrows(struct picture *picture);

#endif
