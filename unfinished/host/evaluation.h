/* A statement worked out again on the memory that a run left.
 *
 * No buffer has what an operation was given, but evaluating changes nothing, so that a statement's parts give once more
 * what they gave. A statement 42 whose own store ended the run has made its block by then, in cells that its place and
 * size did not read; at 30, 31 and 45 nothing was made. */
#ifndef HOST_EVALUATION_H
#define HOST_EVALUATION_H

#include <stdbool.h>
#include <stdint.h>

#include "operators.h"
#include "recorder.h"
#include "table.h"

/* In place of an ending's number: it hangs on a temporary, and those stand in no buffer. */
enum { UNTOLD = 255 };

/* What evaluating looks at. */
struct moment {
    const uint8_t *table;
    const uint8_t *memory;
    bool has_made_block;           /* the block of a 42 stands already, and its store comes next */
    uint32_t variables[VARIABLES]; /* the names of their blocks; 0 out of scope */
};

/* What working a record out comes to. */
struct outcome {
    uint32_t ending;    /* 0, or the number that it stops with */
    uint32_t record;    /* the operation that stopped: a part of the statement, or the statement itself */
    struct value x, y;  /* what its A and B gave, as far as it has them */
    struct value value; /* what it gave, where it did not stop */
};

/* The innermost record of a kind around a record, looked for up to the last; 0 where there is none. */
uint32_t innermost_around(const uint8_t *table, uint32_t last, uint32_t number, uint8_t kind);

/* The moment at which a run ended with this number at this statement, a record of an accepted table. The memory has the
 * RECORDER_MEMORY_BYTES that the run left. They must be of one run: they are not checked anew. */
struct moment moment_left(const uint8_t *table, uint32_t statement, uint32_t number, const uint8_t *memory);

/* Evaluates an expression, a term or a predicate, or works out the pointer of a place. */
struct outcome evaluate(const struct moment *at, uint32_t record);

/* What the statement stops with. A while is taken to have had fuel for its test. */
struct outcome run_again(const struct moment *at, uint32_t statement);

#endif
