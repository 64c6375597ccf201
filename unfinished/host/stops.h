/* A run looked at on its way, by proved calls alone. */
#ifndef HOST_STOPS_H
#define HOST_STOPS_H

#include <stdbool.h>
#include <stdint.h>

#include "run.h"

enum arrival {
    ARRIVAL_REACHED,
    ARRIVAL_NEVER,   /* the run ends before it comes to the statement */
    ARRIVAL_NO_ROOM  /* the table with a false assertion in the statement's place would have too many records */
};

/* Where a run is looked at: when it first comes to a statement; or to the end of a let, when its body is done and its
 * block is there still. */
struct stop {
    uint32_t statement; /* a record number, of a target table too */
    bool is_let_end;
};

/* Both memories as they are when the run first comes to the stop: the same run, watched, with a false assertion in
 * place of the statement and all below it, or behind the body of the let. `left->answer` has the fuel left and the free
 * cells as then. */
enum arrival stop_at(const struct run_given *given, struct stop stop, struct run_left *left);

/* The record of a target table at which its watched run ends, 0 where it finishes. An answer has the source statement
 * alone; two more runs with other statement numbers in the table tell the record. */
uint32_t record_ended(const struct run_given *given);

#endif
