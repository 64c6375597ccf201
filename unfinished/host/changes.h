/* What changed in the memories from one moment of a run to a later one, in words. */
#ifndef HOST_CHANGES_H
#define HOST_CHANGES_H

#include <stdint.h>
#include <stdio.h>

#include "json.h"

/* Prints one line a change, indented, equal ones of neighbours on one line. Nothing is said of the cells and marks of a
 * block that ended, nor of those of a new block that are as it got them. Before a run all bytes are 0. */
void print_execution_changes(FILE *to, const uint8_t *before, const uint8_t *after);
void print_observation_changes(FILE *to, const uint8_t *before, const uint8_t *after);

/* The same as a member of the object that is open: a list of texts. */
void json_execution_changes(struct json *json, const char *key, const uint8_t *before, const uint8_t *after);
void json_observation_changes(struct json *json, const char *key, const uint8_t *before, const uint8_t *after);

#endif
