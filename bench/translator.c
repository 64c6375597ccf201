/* The translator: the size of the translation first, then its records straight into the host's bytes. */
#include "interpreter.h"
#include "layout.h"

#include <string.h>

typedef struct translator {
    const record *source; /* record n is source[n] */
    record *out;          /* record n is out[n] */
    unsigned count;       /* of records written */
    unsigned statement;   /* the source statement that they come from */
} translator;

/* A record as two words, so that it is written in two stores. */
typedef struct LAID_OUT words {
    uint64_t fields;
    int64_t literal;
} words;

static inline unsigned write(translator *t, uint64_t kind, uint64_t mark, uint64_t a, uint64_t b, uint64_t c, int64_t z)
{
    unsigned n = ++t->count;
    *(words *)&t->out[n] = (words){kind | mark << 8 | a << 16 | b << 32 | c << 48, z};
    return n;
}

/* A target statement. */
static inline unsigned put(translator *t, uint64_t kind, uint64_t mark, uint64_t a, uint64_t b, uint64_t c)
{
    return write(t, kind, mark, a, b, c, t->statement);
}

static inline unsigned then(translator *t, unsigned first, unsigned rest)
{
    return put(t, 44, 0, first, rest, 0);
}

/* An expression or a place. */
static unsigned copy(translator *t, unsigned n)
{
    const record *r = &t->source[n];
    unsigned a = r->child[0] ? copy(t, r->child[0]) : 0, b = r->child[1] ? copy(t, r->child[1]) : 0;
    return write(t, r->kind, r->mark, a, b, 0, r->literal);
}

/* What was written from record `first` up to `last` once more: the records lie in a row, so no child is looked for. */
static unsigned again(translator *t, unsigned first, unsigned last)
{
    unsigned up = t->count + 1 - first;
    for (unsigned n = first; n <= last; n++) {
        const record *r = &t->out[n];
        unsigned a = r->child[0] ? r->child[0] + up : 0, b = r->child[1] ? r->child[1] + up : 0;
        write(t, r->kind, r->mark, a, b, 0, r->literal);
    }
    return t->count;
}

static unsigned take(translator *t, const record *r)
{
    unsigned first = t->count + 1, place = copy(t, r->child[0]), saved = put(t, 60, 0, place, 0, 0);
    place = again(t, first, place);
    unsigned value = copy(t, r->child[1]);
    unsigned taken = put(t, 41, 0, place, value, 0), marked = put(t, 70, 0, 0, 0, 0);
    return then(t, saved, then(t, taken, marked));
}

static unsigned take_new(translator *t, const record *r)
{
    unsigned first = t->count + 1, place = copy(t, r->child[0]), saved = put(t, 60, 0, place, 0, 0);
    unsigned size_first = t->count + 1, size = copy(t, r->child[1]), sized = put(t, 61, 2, size, 0, 0);
    place = again(t, first, place);
    size = again(t, size_first, size);
    unsigned taken = put(t, 42, 0, place, size, 0);
    unsigned read = write(t, 2, 0, write(t, 12, 0, 0, 0, 0, 0), 0, 0, 0);
    unsigned fetched = put(t, 61, 1, read, 0, 0), stored = put(t, 68, 1, 0, 0, 0), marked = put(t, 70, 0, 0, 0, 0);
    return then(t, saved, then(t, sized, then(t, taken, then(t, fetched, then(t, stored, marked)))));
}

static unsigned release(translator *t, const record *r)
{
    unsigned first = t->count + 1, pointer = copy(t, r->child[0]), saved = put(t, 61, 0, pointer, 0, 0);
    unsigned freed = put(t, 43, 0, again(t, first, pointer), 0, 0), deleted = put(t, 69, 0, 0, 0, 0);
    return then(t, saved, then(t, freed, deleted));
}

static unsigned at_level(translator *t, unsigned n, unsigned level);

/* 34: A; 66 with B, else skip. 35: A; 66 with skip, else B. */
static unsigned branch(translator *t, const record *r, unsigned level)
{
    unsigned first = at_level(t, r->child[0], level), yes, no;
    if (r->kind == 34) {
        yes = at_level(t, r->child[1], level);
        no = put(t, 40, 0, 0, 0, 0);
    } else {
        yes = put(t, 40, 0, 0, 0, 0);
        no = at_level(t, r->child[1], level);
    }
    return then(t, first, put(t, 66, level, 0, yes, no));
}

/* A term or predicate, worked out into t(level). */
static unsigned at_level(translator *t, unsigned n, unsigned level)
{
    static const uint8_t queries[] = {[30] = 1, [31] = 2, [21] = 3, [22] = 4, [23] = 5};
    const record *r = &t->source[n];
    unsigned a, b;
    switch (r->kind) {
    case 20:
        return put(t, 61, level, copy(t, r->child[0]), 0, 0);
    case 24: case 32:
        a = at_level(t, r->child[0], level + 1);
        b = at_level(t, r->child[1], level + 2);
        return then(t, a, then(t, b, put(t, 63, level, 0, 0, r->mark)));
    case 33:
        a = at_level(t, r->child[0], level + 1);
        return then(t, a, put(t, 65, level, 0, 0, 0));
    case 34: case 35:
        return branch(t, r, level);
    default:
        a = at_level(t, r->child[0], level + 1);
        return then(t, a, put(t, 64, level, 0, 0, queries[r->kind]));
    }
}

static unsigned assertion(translator *t, const record *r)
{
    unsigned predicate = at_level(t, r->child[0], 0);
    return then(t, predicate, put(t, 67, 0, 0, 0, 0));
}

static unsigned statement(translator *t, unsigned n);

static unsigned let(translator *t, const record *r, unsigned n)
{
    unsigned saved = put(t, 60, 0, write(t, 10, r->mark, 0, 0, 0, 0), 0, 0);
    unsigned sized = put(t, 61, 1, write(t, 1, 0, 0, 0, 0, 1), 0, 0), stored = put(t, 68, 0, 0, 0, 0);
    unsigned body = statement(t, r->child[0]);
    t->statement = n;
    unsigned again = put(t, 60, 0, write(t, 10, r->mark, 0, 0, 0, 0), 0, 0), deleted = put(t, 69, 0, 0, 0, 0);
    unsigned list = then(t, saved, then(t, sized, then(t, stored, then(t, body, then(t, again, deleted)))));
    return put(t, 47, r->mark, list, 0, 0);
}

/* Kinds 44, 45 and 46 keep their form. */
static unsigned kept(translator *t, const record *r, unsigned n)
{
    unsigned a = r->kind == 44 ? statement(t, r->child[0]) : copy(t, r->child[0]), b = statement(t, r->child[1]);
    unsigned c = r->kind == 45 ? statement(t, r->child[2]) : 0;
    t->statement = n;
    return put(t, r->kind, 0, a, b, c);
}

static unsigned statement(translator *t, unsigned n)
{
    const record *r = &t->source[n];
    t->statement = n;
    switch (r->kind) {
    case 40: return put(t, 40, 0, 0, 0, 0);
    case 41: return take(t, r);
    case 42: return take_new(t, r);
    case 43: return release(t, r);
    case 47: return let(t, r, n);
    case 48: return assertion(t, r);
    default: return kept(t, r, n);
    }
}

/* How often a kind's translation has those of its children A and B, and how many records of its own. C comes once. */
typedef struct size {
    uint8_t a, b, own;
} size;

static const size sizes[] = {
    [1] = {0, 0, 1},   [2] = {1, 0, 1},   [3] = {1, 0, 1},   [4] = {1, 1, 1},  [5] = {1, 1, 1},  [10] = {0, 0, 1},
    [11] = {1, 0, 1},  [20] = {1, 0, 1},  [21] = {1, 0, 2},  [22] = {1, 0, 2}, [23] = {1, 0, 2}, [24] = {1, 1, 3},
    [30] = {1, 0, 2},  [31] = {1, 0, 2},  [32] = {1, 1, 3},  [33] = {1, 0, 2}, [34] = {1, 1, 3}, [35] = {1, 1, 3},
    [40] = {0, 0, 1},  [41] = {2, 1, 5},  [42] = {2, 2, 13}, [43] = {2, 0, 5}, [44] = {1, 1, 1}, [45] = {1, 1, 1},
    [46] = {1, 1, 1},  [47] = {1, 0, 14}, [48] = {1, 0, 2},
};

static unsigned records_needed(const record *source, unsigned count)
{
    uint16_t needed[SOURCE_RECORDS + 1];
    needed[0] = 0;
    for (unsigned n = 1; n <= count; n++) {
        const record *r = &source[n];
        const size *s = &sizes[r->kind];
        needed[n] = s->own + s->a * needed[r->child[0]] + s->b * needed[r->child[1]] + needed[r->child[2]];
    }
    return needed[count];
}

recorder_answer interpreter_translate(const uint8_t *table, size_t table_len, uint8_t *out, size_t out_len)
{
    recorder_answer checked = interpreter_check_source(table, table_len);
    if (checked.number != 0)
        return checked;
    unsigned count = table_len / sizeof(record);
    const record *source = (const record *)table - 1;
    if (records_needed(source, count) > out_len / sizeof(record))
        return (recorder_answer){20, 0, 0, 0};
    translator t = {.source = source, .out = (record *)out - 1};
    statement(&t, count);
    return (recorder_answer){0, t.count, 0, 0};
}
