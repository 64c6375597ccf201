/* The parts of a picture, painted. */
#ifndef HOST_PAINT_H
#define HOST_PAINT_H

#include <stdio.h>

#include "picture.h"

/* The sign of a mark is so wide and high. */
enum { SIGN = 12 };

/* The blocks of both memories and the arrows between them. */
void paint_blocks(FILE *to, const struct picture *picture);
void paint_arrows(FILE *to, const struct picture *picture);

/* The dead names of both memories from the y on; the y below them. With `to` NULL nothing is painted. (legend.c) */
int paint_dead_names(FILE *to, const struct picture *picture, int y);

/* What the signs mean; the y below it. (legend.c) */
int paint_legend(FILE *to, const struct picture *picture, int y);

#endif
