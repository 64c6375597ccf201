/* A run that ended, and the parts of its explanation. */
#ifndef HOST_ENDED_H
#define HOST_ENDED_H

#include <stdbool.h>
#include <stdint.h>

#include "evaluation.h"
#include "phrase.h"
#include "run.h"

struct explanation;

struct ended {
    const struct run_given *given;
    const struct run_left *left;
    uint32_t statement; /* at which it ended: a record of the table */
    struct moment at;
    struct outcome stopped; /* what the statement comes to when it is worked out again */
};

/* The run that ended at this record of its table, worked out again. At 32 the test was not begun, so that there is
 * nothing to work out. */
struct ended ended_at(const struct run_given *given, const struct run_left *left, uint32_t statement);

/* Adds a record's text. */
void print_text(struct phrase *into, const struct ended *ended, uint32_t record);

/* Whether a record is a literal, as an expression or as a term. */
bool is_literal(const struct ended *ended, uint32_t record);

/* Adds what a record gave: "p + 1 is a pointer to block 5, offset 1". */
void print_given(struct phrase *into, const struct ended *ended, uint32_t record, struct value value);

/* Adds "1 cell", "2 cells". */
void print_count(struct phrase *into, uint64_t count, const char *unit);

/* explain_ending.c: operation, block and detail. */
void explain_stop(const struct ended *ended, struct explanation *into);

/* explain_operation.c: what stopped, with its operands, at any ending but 33. */
void explain_operation(const struct ended *ended, struct phrase *into);

/* explain_assertion.c: the innermost parts that make the assertion false. The pointer of the first of them that asks
 * whether one is valid or initialised goes to `asked`, which else stays as it was. */
void explain_assertion(const struct ended *ended, struct phrase *into, struct value *asked);

/* explain_block.c: what the block of a name is now. */
void explain_block(const struct ended *ended, uint32_t name, struct phrase *into);

/* explain_detail.c: the free runs at 30, the side at 47, whether 42 and 50 were a read or a store. */
void explain_detail(const struct ended *ended, struct phrase *into);

/* explain_target.c: all but what people usually got wrong, of the run of a target table. */
void explain_target(const struct run_given *given, const struct run_left *left, struct explanation *into);

#endif
