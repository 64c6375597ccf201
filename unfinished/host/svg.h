/* Elements of an SVG picture. A style is the name of a class, which svg_open writes into the picture. */
#ifndef HOST_SVG_H
#define HOST_SVG_H

#include <stddef.h>
#include <stdio.h>

/* No font is carried along: room for text is measured by a wide one. */
enum { CHARACTER_WIDTH = 8, LINE_HEIGHT = 19 };

/* The picture's frame: how large it is, and what it tells those who do not see it. */
void svg_open(FILE *to, int width, int height, const char *title, const char *description);
void svg_close(FILE *to);

/* What stands between them is painted so much lower. */
void svg_open_group(FILE *to, int y);
void svg_close_group(FILE *to);

/* Text from (x, y) on, its lower left end. Any bytes: what cannot stand in a picture becomes '?'. */
void svg_text(FILE *to, int x, int y, const char *style, const char *text);

/* Text in lines of at most so many characters and at most so many lines, y being that of the first; how many lines.
 * Where more is left the last one ends in "..". With `to` NULL they are counted alone. */
int svg_lines(FILE *to, int x, int y, const char *style, const char *text, size_t characters, int most_lines);

void svg_box(FILE *to, int x, int y, int width, int height, const char *style);
void svg_line(FILE *to, int from_x, int from_y, int to_x, int to_y, const char *style);

/* What a pointer starts with, and what its way ends with: at a cell, coming from the right; at nothing. */
void svg_dot(FILE *to, int x, int y);
void svg_head(FILE *to, int x, int y);
void svg_cross(FILE *to, int x, int y);

#endif
