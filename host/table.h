/* Tables in files and on paper. */
#ifndef HOST_TABLE_H
#define HOST_TABLE_H

#include <stddef.h>
#include <stdint.h>
#include <stdio.h>

/* A little more than the longest table, so that the checker is the one to say that a table is too long. */
enum { TABLE_ROOM = 65536 + 64 };

struct table {
    uint8_t bytes[TABLE_ROOM];
    size_t length;
};

/* Reads a file: where its name ends in .txt as text, one record a line (number kind mark A B C literal, and # before a
 * comment), else as the table's bytes. The status is 0, or that of an error that was told on standard error. */
int table_read(const char *path, struct table *into);

/* Writes bytes to a file; the status as above. */
int table_write(const char *path, const uint8_t *bytes, size_t length);

/* Reads at most `room` bytes of a file; the status as above. */
int bytes_read(const char *path, uint8_t *bytes, size_t room, size_t *length);

/* Prints one line a record: number, kind, mark, A, B, C, literal. Bytes after the last whole record are left out. */
void table_print(const uint8_t *bytes, size_t length);

#endif
