/* The kinds of records, as section 3 of docs/RULES.md has them. */
#ifndef HOST_KINDS_H
#define HOST_KINDS_H

#include <stdbool.h>
#include <stddef.h>
#include <stdint.h>

#include "phrase.h"

enum sort { NOTHING, EXPRESSION, PLACE, TERM, PREDICATE, STATEMENT };

enum { SOURCE = 1, TARGET = 2, BOTH = 3 };

enum { CHILDREN = 3 };

/* The numbers that a field may hold; the field is 0 where there is no word for them. */
struct range {
    const char *word; /* "operators", "queries", "variables" or "temporaries" */
    uint8_t low, high;
    uint8_t also; /* one more number; 0 is none */
};

struct kind {
    uint8_t number;
    uint8_t languages;
    enum sort sort;
    const char *word;             /* what the kind is called */
    const char *pattern;          /* how it is written, for printer.c */
    enum sort children[CHILDREN]; /* of which sorts A, B and C are; NOTHING where the field is no child */
    struct range mark;
    struct range c;    /* where C is no child */
    uint8_t levels[2]; /* how many temporaries above its own level A and B of a term or predicate start */
};

/* The kind of a number in either language; NULL where there is none. */
const struct kind *kind_numbered(uint8_t number);

/* Whether the kind is one of the language; NULL is of none. */
bool is_in_language(const struct kind *kind, bool is_target);

bool is_in_range(struct range range, uint32_t number);

/* The least and the greatest literal of a kind. */
void literal_bounds(const struct kind *kind, bool is_target, int64_t *low, int64_t *high);

/* "an expression" */
const char *sort_in_words(enum sort sort);

/* Adds "operators 1 to 5 or 8". */
void print_range(struct phrase *into, struct range range);

/* Adds the numbers of a language's kinds: "1-5, 10, 11, .." */
void print_kinds(struct phrase *into, bool is_target);

#endif
