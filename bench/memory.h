/* A run's machine, and the execution memory in the host's bytes. */
#ifndef MEMORY_H
#define MEMORY_H

#include "places.h"

#include <setjmp.h>
#include <stdbool.h>
#include <string.h>

enum { FREE, UNDEFINED, INTEGER, POINTER };                  /* kinds of cells */
enum { UNUSED, FIXED, FREEABLE, DEAD };                      /* states of blocks */
enum { NOT_RECORDED, RECORDED, DELETED };                    /* states of blocks in the observation memory */

/* An integer or a pointer, in two registers. The word is a cell's without the owner, so an integer's is INTEGER, and a
 * temporary's is FREE while it is empty. */
typedef struct value {
    uint64_t word;
    int64_t number;
} value;

typedef struct machine {
    const record *table; /* record n is table[n] */
    execution_memory *memory;
    observation_memory *observation; /* none in a plain run */
    const record *at;                /* the innermost statement being run */
    uint32_t fuel, free_cells, names_given;
    places cells, marks;
    cell *homes[VARIABLES]; /* the cells of the variables in scope: a let's block cannot be freed */
    jmp_buf ending;
    value temporaries[TEMPORARIES];
} machine;

/* Ends the run. */
static __attribute__((cold, noinline, noreturn)) void stop(machine *m, int number)
{
    longjmp(m->ending, number);
}

static inline value integer(int64_t z)
{
    return (value){INTEGER, z};
}

static inline value pointer(uint64_t name, int64_t offset)
{
    return (value){POINTER | name << NAME_AT, offset};
}

static inline unsigned name_of(value p)
{
    return p.word >> NAME_AT;
}

static inline unsigned owner_of(const cell *c)
{
    return (c->word & OWNER_BITS) >> OWNER_AT;
}

static inline bool is_pointer(value v)
{
    return v.word != INTEGER;
}

/* What has to be an integer, and what has to be a pointer. */
static inline int64_t whole(machine *m, value v)
{
    if (v.word != INTEGER)
        stop(m, 40);
    return v.number;
}

static inline value pointing(machine *m, value v)
{
    if (!is_pointer(v))
        stop(m, 40);
    return v;
}

/* Whether a pointer is inside its block. One that is not live has length 0. */
static inline bool inside(const block *b, value p)
{
    return (uint64_t)p.number < b->length;
}

static inline const block *block_of(const machine *m, value p)
{
    return &m->memory->blocks[name_of(p) - 1];
}

/* The cell of a read or a store. */
static inline cell *cell_at(machine *m, value p)
{
    const block *b = block_of(m, p);
    if (!inside(b, p))
        stop(m, b->length == 0 ? 42 : 50);
    return &m->memory->cells[b->first + p.number];
}

static inline value contents(machine *m, const cell *c)
{
    if ((c->word & KIND_BITS) == UNDEFINED)
        stop(m, 41);
    return (value){c->word & ~OWNER_BITS, c->number};
}

static inline void put(cell *c, value v)
{
    c->word = (c->word & OWNER_BITS) | v.word;
    c->number = v.number;
}

/* A new block of n undefined cells, n being at least 1: its name. Free cells are zero already. */
static inline unsigned make_block(machine *m, uint8_t state, uint64_t n)
{
    if (m->names_given == NAMES)
        stop(m, 31);
    if (n > m->free_cells)
        stop(m, 30);
    unsigned first = n == 1 ? lowest_free(&m->cells) : lowest_run(&m->cells, n), name = ++m->names_given;
    if (first >= CELLS)
        stop(m, 30);
    turn_over(&m->cells, first, n);
    m->free_cells -= n;
    m->memory->blocks[name - 1] = (block){.state = state, .first = first, .length = n};
    for (unsigned i = 0; i < n; i++)
        m->memory->cells[first + i].word = UNDEFINED | (uint64_t)name << OWNER_AT;
    return name;
}

static inline void end_block(machine *m, unsigned name)
{
    block *b = &m->memory->blocks[name - 1];
    unsigned first = b->first, n = b->length;
    give_back(&m->cells, first, n);
    m->free_cells += n;
    *b = (block){.state = DEAD};
    memset(&m->memory->cells[first], 0, n * sizeof(cell));
}

static inline void free_block(machine *m, value p)
{
    if (p.number != 0 || block_of(m, p)->state != FREEABLE)
        stop(m, 46);
    end_block(m, name_of(p));
}

/* Let: a block of one cell, which becomes the variable's. */
static inline void enter_let(machine *m, unsigned variable)
{
    unsigned name = make_block(m, FIXED, 1);
    m->homes[variable] = &m->memory->cells[m->memory->blocks[name - 1].first];
}

static inline void leave_let(machine *m, unsigned variable)
{
    cell *home = m->homes[variable];
    m->memory->blocks[owner_of(home) - 1] = (block){.state = DEAD};
    give_back(&m->cells, home - m->memory->cells, 1);
    m->free_cells++;
    *home = (cell){0, 0};
}

#endif
