/* The nine calls by which a watched run reaches the observation memory. */
#ifndef OBSERVATION_H
#define OBSERVATION_H

#include "memory.h"

static inline block *recorded(const machine *m, value p)
{
    return &m->observation->blocks[name_of(p) - 1];
}

/* Kind 68. Free marks are zero already. */
static inline void store_block(machine *m, value p, int64_t n)
{
    block *b = recorded(m, p);
    if (p.number != 0 || b->state != NOT_RECORDED || n < 1 || n > CELLS)
        stop(m, 48);
    unsigned first = n == 1 ? lowest_free(&m->marks) : lowest_run(&m->marks, n);
    if (first >= CELLS)
        stop(m, 48);
    turn_over(&m->marks, first, n);
    *b = (block){.state = RECORDED, .first = first, .length = n};
}

/* Kind 69. */
static inline void delete_block(machine *m, value p)
{
    block *b = recorded(m, p);
    if (p.number != 0 || b->state != RECORDED)
        stop(m, 48);
    unsigned first = b->first, n = b->length;
    give_back(&m->marks, first, n);
    *b = (block){.state = DELETED};
    if (n == 1)
        m->observation->marks[first] = 0;
    else
        memset(&m->observation->marks[first], 0, n);
}

/* Kind 70. */
static inline void initialise(machine *m, value p)
{
    const block *b = recorded(m, p);
    if (!inside(b, p))
        stop(m, 48);
    m->observation->marks[b->first + p.number] = 1;
}

/* Kind 64: query 1 valid, 2 initialised, 3 base address, 4 offset, 5 length. */
static inline value query_observation(machine *m, unsigned query, value p)
{
    const block *b = recorded(m, p);
    if (query == 1)
        return integer(inside(b, p));
    if (query == 2)
        return integer(inside(b, p) && m->observation->marks[b->first + p.number]);
    if (b->length == 0)
        stop(m, 47);
    return query == 3 ? pointer(name_of(p), 0) : integer(query == 4 ? p.number : b->length);
}

#endif
