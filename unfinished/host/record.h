/* The fields of a table's records. */
#ifndef HOST_RECORD_H
#define HOST_RECORD_H

#include <stdbool.h>
#include <stddef.h>
#include <stdint.h>

struct record {
    uint8_t kind, mark;
    uint32_t a, b, c;
    int64_t literal;
};

/* Record `number`, counted from 1. */
struct record record_at(const uint8_t *table, uint32_t number);

/* Writes record `number`. */
void record_put(uint8_t *table, uint32_t number, struct record record);

/* Whether field C of the kind is a child: in kinds 63 and 64 it is an operator or a query. */
bool has_child_c(uint8_t kind);

/* Whether the kind is a statement's, in either language. */
bool is_statement(uint8_t kind);

#endif
