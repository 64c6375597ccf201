/* A table as the host has it. */
#ifndef HOST_TABLE_H
#define HOST_TABLE_H

#include <stddef.h>
#include <stdint.h>
#include <stdio.h>

enum {
    TABLE_ROOM = 65536 + 64, /* a little more than the longest table, so that the checker says that one is too long */
    VARIABLES = 64,
    NAME_ROOM = 16
};

struct table {
    uint8_t bytes[TABLE_ROOM];
    size_t length;
    char names[VARIABLES][NAME_ROOM]; /* how a text calls its variables; "" where it does not say */
};

/* How many whole records the table has. */
uint32_t table_records(const struct table *table);

/* Prints one line a record: number, kind, mark, A, B, C, literal. Bytes after the last whole record are left out. Each
 * line begins with the words in front. */
void table_print(FILE *to, const char *in_front, const uint8_t *bytes, size_t length);

#endif
