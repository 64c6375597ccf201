/* Files: tables and bytes, read and written. "-" is standard input or output. */
#ifndef HOST_FILES_H
#define HOST_FILES_H

#include <stdbool.h>
#include <stddef.h>
#include <stdint.h>
#include <stdio.h>

#include "arguments.h"
#include "table.h"

/* Every status is 0, or that of an error that was told on standard error. */

/* Reads a table, as text or as bytes: told by the content unless the format is given. */
int table_read(const char *path, enum format format, struct table *into);

/* Reads at most `room` bytes of a file, and whether there are more. */
int first_bytes_read(const char *path, uint8_t *bytes, size_t room, size_t *length, bool *is_longer);

/* Reads the bytes of a file, which is an error where there are more than `room`. */
int bytes_read(const char *path, uint8_t *bytes, size_t room, size_t *length);

/* Opens a file to be written. One that exists is an error unless `force`; "-" is standard output. */
int open_to_write(const char *path, bool force, FILE **file);

/* Closes it, and tells where not all could be written. */
int close_written(const char *path, FILE *file);

/* Writes bytes to a file. */
int bytes_write(const char *path, bool force, const uint8_t *bytes, size_t length);

/* Where a command tells what it did: standard error where its output goes to standard output. */
FILE *status_lines(const char *output);

#endif
