/* Tables by hand: each function adds records, children first, and returns the number of the last one. */
#ifndef BUILDING_H
#define BUILDING_H

#include "layout.h"

#include <stdlib.h>

/* The table that is being built. */
extern record table[TARGET_RECORDS];
extern unsigned table_records;

enum { ADD = 1, SUBTRACT, MULTIPLY, DIVIDE, NEAREST, AT_MOST, EQUAL, SHIFT };

static inline unsigned add(uint8_t kind, uint8_t mark, unsigned a, unsigned b, unsigned c, int64_t literal)
{
    if (table_records == TARGET_RECORDS)
        abort();
    table[table_records++] = (record){kind, mark, {a, b, c}, literal};
    return table_records;
}

static inline unsigned literal(int64_t z) { return add(1, 0, 0, 0, 0, z); }
static inline unsigned variable(uint8_t v) { return add(10, v, 0, 0, 0, 0); }
static inline unsigned read_of(unsigned place) { return add(2, 0, place, 0, 0, 0); }
static inline unsigned value_of(uint8_t v) { return read_of(variable(v)); }
static inline unsigned pointed(unsigned e) { return add(11, 0, e, 0, 0, 0); }

static inline unsigned operated(uint8_t operator, unsigned a, unsigned b)
{
    return operator == SHIFT ? add(5, 0, a, b, 0, 0) : add(4, operator, a, b, 0, 0);
}

static inline unsigned take(unsigned place, unsigned e) { return add(41, 0, place, e, 0, 0); }
static inline unsigned take_new(unsigned place, unsigned size) { return add(42, 0, place, size, 0, 0); }
static inline unsigned release(unsigned e) { return add(43, 0, e, 0, 0, 0); }
static inline unsigned then(unsigned a, unsigned b) { return add(44, 0, a, b, 0, 0); }
static inline unsigned repeat(unsigned e, unsigned body) { return add(46, 0, e, body, 0, 0); }
static inline unsigned let(uint8_t v, unsigned body) { return add(47, v, body, 0, 0, 0); }
static inline unsigned assertion(unsigned predicate) { return add(48, 0, predicate, 0, 0, 0); }
static inline unsigned term(unsigned e) { return add(20, 0, e, 0, 0, 0); }

static inline unsigned set(uint8_t v, int64_t z)
{
    unsigned place = variable(v);
    return take(place, literal(z));
}

/* v = v + z */
static inline unsigned increase(uint8_t v, int64_t z)
{
    unsigned place = variable(v), a = value_of(v);
    return take(place, operated(ADD, a, literal(z)));
}

/* v at most z */
static inline unsigned at_most(uint8_t v, int64_t z)
{
    unsigned a = value_of(v);
    return operated(AT_MOST, a, literal(z));
}

/* *(v + i) as a place, i being a variable */
static inline unsigned element(uint8_t v, uint8_t i)
{
    unsigned a = value_of(v);
    return pointed(operated(SHIFT, a, value_of(i)));
}

/* The field at a literal offset from variable v. */
static inline unsigned field(uint8_t v, int64_t offset)
{
    unsigned a = value_of(v);
    return pointed(operated(SHIFT, a, literal(offset)));
}

/* v = 0; while v at most last do (body; v = v + 1): the pieces have to be added in this order. */
static inline unsigned loop_test(uint8_t v, int64_t last, unsigned *start)
{
    *start = set(v, 0);
    return at_most(v, last);
}

static inline unsigned loop_end(uint8_t v, unsigned start, unsigned test, unsigned body)
{
    unsigned whole = then(body, increase(v, 1));
    return then(start, repeat(test, whole));
}

#endif
