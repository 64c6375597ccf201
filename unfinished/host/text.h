/* A table as text. */
#ifndef HOST_TEXT_H
#define HOST_TEXT_H

#include <stdbool.h>
#include <stddef.h>
#include <stdint.h>

#include "table.h"

/* Whether a file's bytes are to be read as text, told by how they begin (docs/FORMATS.md). */
bool is_text(const uint8_t *content, size_t length);

/* Reads the lines of a text into a table; the path stands in messages. The status is 0, or that of an error that was
 * told on standard error. */
int table_from_text(const uint8_t *content, size_t length, const char *path, struct table *into);

#endif
