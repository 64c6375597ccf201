/* The words above a picture. */
#ifndef HOST_CAPTION_H
#define HOST_CAPTION_H

#include <stdint.h>
#include <stdio.h>

#include "phrase.h"
#include "run.h"

struct caption {
    struct phrase file, ending, statement, mirror;
};

/* What the memories are that a run left, or with `before` those on its way at that statement. The record is the one
 * that the run came to, 0 where it finished. */
void caption_write(struct caption *into, const char *path, const struct run_given *run, const struct run_left *left,
                   uint32_t before, uint32_t record);

/* Paints it over a picture so wide; the y below it. With `to` NULL nothing is painted. */
int caption_paint(FILE *to, const struct caption *caption, int width);

#endif
