/* Answers explained: why a run ended as it did, why a table was refused. */
#ifndef HOST_EXPLAIN_H
#define HOST_EXPLAIN_H

#include <stdint.h>

#include "json.h"
#include "phrase.h"
#include "run.h"

/* Each text is empty where there is nothing to say. */
struct explanation {
    struct phrase statement; /* "29: assert initialised (p + 1)" */
    struct phrase operation; /* what stopped, with its operands */
    struct phrase block;     /* the pointer, and what its block is now */
    struct phrase detail;    /* the free runs at 30, the side at 47, the field at a refusal .. */
    struct phrase usual;     /* what people usually got wrong */
};

/* Why a run ended with a number other than 0. `left` is what it left. */
void explain_ending(const struct run_given *given, const struct run_left *left, struct explanation *into);

/* Why a table was refused by 1 to 8: the record's text, the field, its value, what the kind allows. */
void explain_refusal(const struct table *table, bool is_target, recorder_answer answer, struct explanation *into);

/* Prints the texts that are not empty, one a line, indented; each line begins with the words in front. */
void print_explanation(FILE *to, const char *in_front, const struct explanation *explanation);

/* The texts that are not empty as members of the object that is open. */
void json_explanation(struct json *json, const struct explanation *explanation);

#endif
