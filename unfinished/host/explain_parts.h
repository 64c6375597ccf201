/* The parts of explain_refusal, each for one number of the checker. */
#ifndef HOST_EXPLAIN_PARTS_H
#define HOST_EXPLAIN_PARTS_H

#include <stdbool.h>
#include <stddef.h>
#include <stdint.h>

#include "explain.h"
#include "record.h"
#include "table.h"

/* A table and the record that the checker named. */
struct refused {
    const struct table *table;
    bool is_target;
    uint32_t number;
    struct record record;
};

/* Field A, B or C, where `at` is 0, 1 or 2, and its letter. */
uint32_t field_of(const struct record *record, size_t at);
char letter_of(size_t at);

/* explain_record.c: 3, 4 and 5, which a record and its children show. */
void explain_kind(const struct refused *refused, struct explanation *into);
void explain_fields(const struct refused *refused, struct explanation *into);
void explain_children(const struct refused *refused, struct explanation *into);

/* explain_tree.c: 6, 7 and 8, which the records above show. */
void explain_shape(const struct refused *refused, struct explanation *into);
void explain_scope(const struct refused *refused, struct explanation *into);
void explain_level(const struct refused *refused, struct explanation *into);

#endif
