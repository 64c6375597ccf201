/* Expressions and places; terms and predicates of source tables. */
#ifndef EVALUATION_H
#define EVALUATION_H

#include "memory.h"

static inline int64_t divide(machine *m, int64_t a, int64_t b)
{
    if (b == 0)
        stop(m, 44);
    if (a == INT64_MIN && b == -1)
        stop(m, 43);
    return a / b;
}

/* To the nearest, a half to the even neighbour. */
static inline int64_t divide_nearest(machine *m, int64_t a, int64_t b)
{
    int64_t quotient = divide(m, a, b), left = a - quotient * b;
    uint64_t rest = left < 0 ? -(uint64_t)left : (uint64_t)left, divisor = b < 0 ? -(uint64_t)b : (uint64_t)b;
    if (rest > divisor - rest || (rest == divisor - rest && quotient % 2 != 0))
        quotient += (a < 0) == (b < 0) ? 1 : -1;
    return quotient;
}

static inline int64_t operate_integers(machine *m, unsigned operator, int64_t a, int64_t b)
{
    int64_t z;
    switch (operator) {
    case 1:
        if (__builtin_add_overflow(a, b, &z))
            stop(m, 43);
        return z;
    case 2:
        if (__builtin_sub_overflow(a, b, &z))
            stop(m, 43);
        return z;
    case 3:
        if (__builtin_mul_overflow(a, b, &z))
            stop(m, 43);
        return z;
    case 4: return divide(m, a, b);
    case 5: return divide_nearest(m, a, b);
    case 6: return a <= b;
    case 7: return a == b;
    default: stop(m, 40);
    }
}

static inline value shift(machine *m, value p, value by)
{
    if (!is_pointer(p) || is_pointer(by))
        stop(m, 40);
    if (__builtin_add_overflow(p.number, by.number, &p.number))
        stop(m, 43);
    return p;
}

/* Operators 7 and 8 where one operand at least is a pointer. The memory whose blocks these are knows the live ones. */
static inline value operate_pointers(machine *m, unsigned operator, value a, value b, const block *blocks)
{
    if (operator == 8)
        return shift(m, a, b);
    if (operator != 7 || !is_pointer(a) || !is_pointer(b))
        stop(m, 40);
    if (blocks[name_of(a) - 1].length == 0 || blocks[name_of(b) - 1].length == 0)
        stop(m, 47);
    return integer(a.word == b.word && a.number == b.number);
}

static inline value operate(machine *m, unsigned operator, value a, value b, const block *blocks)
{
    if (a.word == INTEGER && b.word == INTEGER)
        return integer(operate_integers(m, operator, a.number, b.number));
    return operate_pointers(m, operator, a, b, blocks);
}

static inline value held(machine *m, unsigned temporary)
{
    value v = m->temporaries[temporary];
    if (v.word == FREE)
        stop(m, 49);
    return v;
}

static inline const record *child(const machine *m, const record *r, unsigned i)
{
    return &m->table[r->child[i]];
}

/* The value of a literal or a variable. Most operands are one of these, and they are read without a call. */
static inline bool simple(machine *m, const record *r, value *v)
{
    if (r->kind == 1) {
        *v = integer(r->literal);
        return true;
    }
    if (r->kind != 2)
        return false;
    const record *place = child(m, r, 0);
    if (place->kind != 10)
        return false;
    *v = contents(m, m->homes[place->mark]);
    return true;
}

static value evaluate(machine *m, const record *r);
static value operation(machine *m, const record *r);

/* Any expression. */
static inline value operand(machine *m, const record *r)
{
    value v;
    return simple(m, r, &v) ? v : r->kind == 4 ? operation(m, r) : evaluate(m, r);
}

/* Kinds 4 and 5 where not both operands are simple: apart, so that the others save no registers. A simple one is read
 * once more here, which is cheap; what is not simple is worked out here only. */
static __attribute__((noinline)) value operation_on_any(machine *m, const record *r)
{
    value a = operand(m, child(m, r, 0)), b = operand(m, child(m, r, 1));
    return r->kind == 5 ? shift(m, a, b) : operate(m, r->mark, a, b, m->memory->blocks);
}

static __attribute__((noinline)) value operation(machine *m, const record *r)
{
    value a, b;
    if (!simple(m, child(m, r, 0), &a) || !simple(m, child(m, r, 1), &b))
        return operation_on_any(m, r);
    return operate(m, r->mark, a, b, m->memory->blocks);
}

static inline value shifted(machine *m, const record *r)
{
    value a, b;
    if (!simple(m, child(m, r, 0), &a) || !simple(m, child(m, r, 1), &b))
        return operation_on_any(m, r);
    return shift(m, a, b);
}

/* The pointer to a place of kind 11 or 12. */
static inline value pointed(machine *m, const record *place)
{
    if (place->kind == 12)
        return pointing(m, held(m, place->mark));
    const record *r = child(m, place, 0);
    return r->kind == 5 ? shifted(m, r) : pointing(m, operand(m, r));
}

/* The pointer to any place. */
static inline value address(machine *m, const record *place)
{
    return place->kind == 10 ? pointer(owner_of(m->homes[place->mark]), 0) : pointed(m, place);
}

static __attribute__((noinline)) value evaluate(machine *m, const record *r)
{
    const record *place;
    switch (r->kind) {
    case 1:
        return integer(r->literal);
    case 2:
        place = child(m, r, 0);
        return contents(m, place->kind == 10 ? m->homes[place->mark] : cell_at(m, pointed(m, place)));
    case 3:
        return address(m, child(m, r, 0));
    case 4:
        return operation(m, r);
    default:
        return shifted(m, r);
    }
}

/* Kinds 21 base address, 22 offset, 23 block length. */
static value query_memory(machine *m, unsigned kind, value p)
{
    const block *b = block_of(m, p);
    if (b->length == 0)
        stop(m, 47);
    return kind == 21 ? pointer(name_of(p), 0) : integer(kind == 22 ? p.number : b->length);
}

static value term(machine *m, const record *r)
{
    value a, b;
    switch (r->kind) {
    case 20:
        return operand(m, child(m, r, 0));
    case 24:
        a = term(m, child(m, r, 0));
        b = term(m, child(m, r, 1));
        return operate(m, r->mark, a, b, m->memory->blocks);
    default:
        return query_memory(m, r->kind, pointing(m, term(m, child(m, r, 0))));
    }
}

/* Kinds 30 and 31. */
static inline bool sound(machine *m, const record *r)
{
    value p = pointing(m, term(m, child(m, r, 0)));
    const block *b = block_of(m, p);
    if (r->kind == 30 || !inside(b, p))
        return inside(b, p);
    return (m->memory->cells[b->first + p.number].word & KIND_BITS) != UNDEFINED;
}

static bool holds(machine *m, const record *r)
{
    value a, b;
    for (;; r = child(m, r, 1))
        switch (r->kind) {
        case 30: case 31:
            return sound(m, r);
        case 32:
            a = term(m, child(m, r, 0));
            b = term(m, child(m, r, 1));
            return operate(m, r->mark, a, b, m->memory->blocks).number;
        case 33:
            return !holds(m, child(m, r, 0));
        default:
            if (holds(m, child(m, r, 0)) == (r->kind == 35))
                return r->kind == 35;
        }
}

#endif
