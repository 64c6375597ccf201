#include <inttypes.h>

#include "explain_parts.h"
#include "kinds.h"
#include "printer.h"
#include "recorder.h"

enum { LET = 47, HIGHEST_TEMPORARY = 63, TOLD_AT_MOST = 6 };

/* A field that names a child. */
struct parent {
    uint32_t number; /* 0 where there is none */
    size_t field;    /* 0, 1, 2: A, B, C */
};

static bool names_child(const struct table *table, struct parent parent, uint32_t child)
{
    struct record record = record_at(table->bytes, parent.number);
    const struct kind *kind = kind_numbered(record.kind);
    return kind != NULL && kind->children[parent.field] != NOTHING && field_of(&record, parent.field) == child;
}

/* The first field that names the child, from this one on. */
static struct parent parent_from(const struct table *table, uint32_t child, struct parent from)
{
    for (; from.number <= table_records(table); from.number++, from.field = 0)
        for (; from.field < CHILDREN; from.field++)
            if (names_child(table, from, child))
                return from;
    return (struct parent){0, 0};
}

/* Parents stand behind their children, so that the way up passes each record once. */
static struct parent parent_of(const struct table *table, uint32_t child)
{
    return parent_from(table, child, (struct parent){child + 1, 0});
}

/* Adds "A of 5, B of 7", and says how many there are. */
static uint32_t add_parents(struct phrase *into, const struct table *table, uint32_t child)
{
    uint32_t count = 0;
    struct parent parent = parent_of(table, child);
    while (parent.number != 0) {
        if (count++ < TOLD_AT_MOST)
            phrase_add(into, "%s%c of %" PRIu32, count == 1 ? "" : ", ", letter_of(parent.field), parent.number);
        parent.field++;
        parent = parent_from(table, child, parent);
    }
    if (count > TOLD_AT_MOST)
        phrase_add(into, ", ..");
    return count;
}

void explain_shape(const struct refused *refused, struct explanation *into)
{
    const struct kind *kind = kind_numbered(refused->record.kind);
    if (kind != NULL && refused->number == table_records(refused->table)) {
        phrase_add(&into->detail, "the last record is %s; the last is the whole program, a statement",
                   sort_in_words(kind->sort));
        phrase_add(&into->usual, "the statement that holds all others together is left out");
        return;
    }
    struct phrase parents = {0};
    uint32_t count = add_parents(&parents, refused->table, refused->number);
    if (count == 0) {
        phrase_add(&into->detail, "it is the child of no record; each but the last is the child of exactly one");
        phrase_add(&into->usual, kind != NULL && kind->sort == STATEMENT
                                     ? "a sequence (kind 44) that should hold the statement is left out"
                                     : "a parent names a wrong child, or the record is a leftover");
    } else {
        phrase_add(&into->detail, "it is a child %" PRIu32 " times (%s); each but the last is one exactly once", count,
                   parents.text);
        phrase_add(&into->usual, "a part is used twice: each use needs records of its own");
    }
}

/* The let of a variable above a record; 0 where there is none. */
static uint32_t let_above(const struct table *table, uint32_t number, uint8_t variable)
{
    for (number = parent_of(table, number).number; number != 0; number = parent_of(table, number).number) {
        struct record record = record_at(table->bytes, number);
        if (record.kind == LET && record.mark == variable)
            return number;
    }
    return 0;
}

static void add_variable(struct phrase *into, const struct refused *refused)
{
    phrase_add(into, "variable %u (", refused->record.mark);
    print_variable(into, refused->table, refused->record.mark);
    phrase_add(into, ")");
}

/* Where the variable is let at all. */
static void add_lets(struct phrase *into, const struct refused *refused)
{
    uint32_t count = 0;
    for (uint32_t number = 1; number <= table_records(refused->table); number++) {
        struct record record = record_at(refused->table->bytes, number);
        if (record.kind != LET || record.mark != refused->record.mark || count++ >= TOLD_AT_MOST)
            continue;
        phrase_add(into, "%s %" PRIu32, count == 1 ? "; it is let elsewhere, at" : ",", number);
    }
    if (count == 0)
        phrase_add(into, "; it is let nowhere");
    if (count > TOLD_AT_MOST)
        phrase_add(into, ", ..");
}

static void explain_let(const struct refused *refused, struct explanation *into)
{
    add_variable(&into->detail, refused);
    if (refused->record.mark == 0) {
        phrase_add(&into->detail, " is let, and is in scope everywhere");
        phrase_add(&into->usual, "variables are counted from 0: 0 points to the inputs, 1 to 63 may be let");
        return;
    }
    phrase_add(&into->detail, " is let while it is in scope, by the let at %" PRIu32 " above",
               let_above(refused->table, refused->number, refused->record.mark));
    phrase_add(&into->usual, "two variables have one number; its lets may stand side by side, not nested");
}

void explain_scope(const struct refused *refused, struct explanation *into)
{
    if (refused->record.kind == LET) {
        explain_let(refused, into);
        return;
    }
    add_variable(&into->detail, refused);
    phrase_add(&into->detail, " is used where it is not in scope: no record above lets it");
    add_lets(&into->detail, refused);
    phrase_add(&into->usual, "the statement stands behind the let and not in it, or the number is wrong");
}

/* How many temporaries a record's own target records take above its level. */
static uint32_t temporaries_of(const struct kind *kind)
{
    return kind->levels[0] > kind->levels[1] ? kind->levels[0] : kind->levels[1];
}

/* The level of a term or predicate; the assertion's own is 0. */
static uint32_t level_of(const struct table *table, uint32_t number)
{
    uint32_t level = 0;
    struct parent parent = parent_of(table, number);
    while (parent.number != 0) {
        const struct kind *above = kind_numbered(record_at(table->bytes, parent.number).kind);
        if (above == NULL || above->sort == STATEMENT)
            break;
        level += above->levels[parent.field];
        parent = parent_of(table, parent.number);
    }
    return level;
}

void explain_level(const struct refused *refused, struct explanation *into)
{
    const struct kind *kind = kind_numbered(refused->record.kind);
    if (kind == NULL)
        return;
    uint32_t level = level_of(refused->table, refused->number);
    phrase_add(&into->detail, "its level is %" PRIu32 ", so temporary t%" PRIu32 " would be named; the last is t%d",
               level, level + temporaries_of(kind), HIGHEST_TEMPORARY);
    phrase_add(&into->usual, "one assertion nests too much: a level goes up by 1 in A and by 2 in B of an "
               "operation, so nest in A, or assert in parts");
}
