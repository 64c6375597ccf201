/* When a run first comes to each statement, and to the end of each let. */
#ifndef HOST_ARRIVALS_H
#define HOST_ARRIVALS_H

#include <stdint.h>

#include "stops.h"

/* All statements but lists, which do nothing of their own, and whiles: a run that comes to one comes to its test. They
 * stand in the order of the tree, each before its parts, and a let's end behind its body. Between two while tests no
 * statement runs twice, so those at which equal fuel was used were come to in this order. */
struct arrivals {
    uint32_t count;
    struct stop stops[RECORDER_TARGET_RECORDS]; /* a let has its body below it, so ends find room */
    enum arrival how[RECORDER_TARGET_RECORDS];
    uint32_t used[RECORDER_TARGET_RECORDS]; /* fuel, at the first arrival; where it is reached */
};

/* Finds them for an accepted table, by one run a statement. On a terminal a line on standard error shows how far it is
 * where that takes long. */
void find_arrivals(const struct run_given *given, struct arrivals *into);

#endif
