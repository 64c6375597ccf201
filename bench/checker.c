/* The table checker: refusals 1 to 8 of document 01 (8 for source tables only), in one pass from the last record down.
 * Parents have larger numbers, so each is met before its children, and the last fault that is met has the lowest
 * record. */
#include "interpreter.h"
#include "forms.h"
#include "layout.h"

#include <stdbool.h>
#include <string.h>

#define INLINED static inline __attribute__((always_inline))
#define SELDOM static __attribute__((cold, noinline))

/* The lowest record at fault of each number; 0 where there is none. */
typedef struct faults {
    unsigned number, record; /* of 3 to 5 */
    unsigned shape, scope, level;
} faults;

/* A table that is being checked. */
typedef struct checked {
    const record *table; /* record n is table[n] */
    const form *forms;
    uint64_t *scopes; /* of each record, with variable 0 in it; 0 until a parent was met */
    uint16_t *levels; /* of terms and predicates; none for a target table */
    faults found;
} checked;

/* A child that is missing comes before one that is wrong. */
SELDOM uint32_t fault_of(const record *r, const form *f, uint32_t number)
{
    if (f->sort == NONE)
        return 3;
    for (int i = 0; i < 3; i++)
        if (f->children[i] != NONE && r->child[i] == 0)
            return 4;
    return number;
}

SELDOM void note_fault(checked *t, unsigned n, uint32_t number)
{
    const record *r = &t->table[n];
    t->found.number = fault_of(r, &t->forms[r->kind], number);
    t->found.record = n;
}

SELDOM void note_shape(checked *t, unsigned n)
{
    if (t->found.shape == 0 || n < t->found.shape)
        t->found.shape = n;
}

/* Whether mark and literal hold, and the fields that hold no child. */
INLINED bool fields_hold(const record *r, const form *f)
{
    uint64_t word;
    memcpy(&word, r, sizeof word);
    return (word & f->zeros) == 0 && (f->marks >> (r->mark & 63) & 1) &&
           (uint64_t)r->literal - f->lowest <= f->literals;
}

/* Child i of record n gets its scope; or 4 or 5. */
INLINED uint32_t hand_down(checked *t, unsigned n, unsigned i, unsigned sort, uint64_t below)
{
    unsigned child = t->table[n].child[i];
    if (i == 2 && sort >= OPERATOR)
        return child - 1u < (sort == OPERATOR ? 8 : 5) ? 0 : 4;
    if (child - 1u >= n - 1 || t->forms[t->table[child].kind].sort != sort)
        return 5;
    if (t->scopes[child] != 0)
        note_shape(t, child);
    t->scopes[child] = below;
    return 0;
}

/* The scope of the children; a variable out of scope, or let while in scope, is a fault. */
INLINED uint64_t scope_below(checked *t, unsigned n, unsigned naming, uint64_t scope)
{
    if (naming == NAMES_NONE)
        return scope;
    uint64_t variable = UINT64_C(1) << (t->table[n].mark & 63);
    if (((scope & variable) != 0) == (naming == LETS))
        t->found.scope = n;
    return naming == LETS ? scope | variable : scope;
}

INLINED void check_level(checked *t, unsigned n, const form *f)
{
    if (f->sort != TERM && f->sort != PREDICATE)
        return;
    const record *r = &t->table[n];
    unsigned level = t->levels[n];
    if (level + f->highest >= TEMPORARIES)
        t->found.level = n;
    t->levels[r->child[0]] = level + (f->below & 15);
    t->levels[r->child[1]] = level + (f->below >> 4);
}

/* 0, or 4 or 5. */
INLINED uint32_t check_record(checked *t, unsigned n)
{
    const record *r = &t->table[n];
    const form *f = &t->forms[r->kind];
    uint64_t scope = t->scopes[n];
    if (!fields_hold(r, f))
        return 4;
    if (scope == 0)
        note_shape(t, n);
    uint64_t below = scope_below(t, n, f->naming, scope | 1);
    for (unsigned i = 0; i < 3; i++)
        if (f->children[i] != NONE) {
            uint32_t number = hand_down(t, n, i, f->children[i], below);
            if (number != 0)
                return number;
        }
    if (t->levels)
        check_level(t, n, f);
    return 0;
}

INLINED recorder_answer refusal(uint32_t number, uint32_t n)
{
    return (recorder_answer){number, n, 0, 0};
}

INLINED recorder_answer check_records(checked *t, unsigned count)
{
    t->scopes[count] = 1;
    for (unsigned n = count; n > 0; n--) {
        uint32_t number = check_record(t, n);
        if (number != 0)
            note_fault(t, n, number);
    }
    if (t->found.number != 0)
        return refusal(t->found.number, t->found.record);
    if (t->forms[t->table[count].kind].sort != STATEMENT)
        note_shape(t, count);
    if (t->found.shape != 0)
        return refusal(6, t->found.shape);
    if (t->found.scope != 0)
        return refusal(7, t->found.scope);
    return t->found.level != 0 ? refusal(8, t->found.level) : refusal(0, 0);
}

recorder_answer interpreter_check_source(const uint8_t *bytes, size_t length)
{
    uint64_t scopes[SOURCE_RECORDS + 1];
    uint16_t levels[SOURCE_RECORDS + 1];
    size_t count = length / sizeof(record);
    if (length == 0 || length % sizeof(record) != 0)
        return refusal(1, 0);
    if (count > SOURCE_RECORDS)
        return refusal(2, 0);
    memset(scopes, 0, (count + 1) * sizeof *scopes);
    memset(levels, 0, (count + 1) * sizeof *levels);
    checked t = {(const record *)bytes - 1, source_forms, scopes, levels, {0}};
    return check_records(&t, count);
}

recorder_answer interpreter_check_target(const uint8_t *bytes, size_t length)
{
    uint64_t scopes[TARGET_RECORDS + 1];
    size_t count = length / sizeof(record);
    if (length == 0 || length % sizeof(record) != 0)
        return refusal(1, 0);
    if (count > TARGET_RECORDS)
        return refusal(2, 0);
    memset(scopes, 0, (count + 1) * sizeof *scopes);
    checked t = {(const record *)bytes - 1, target_forms, scopes, NULL, {0}};
    return check_records(&t, count);
}
