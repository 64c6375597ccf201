/* A table as text. */
#ifndef HOST_TEXT_H
#define HOST_TEXT_H

#include <stdio.h>

#include "table.h"

/* Reads the lines of an open file into a table; the path stands in messages. The status is 0, or that of an error that
 * was told on standard error. */
int table_from_text(FILE *file, const char *path, struct table *into);

#endif
