/* Which of 1,024 places are free, one bit for each, and the search for the lowest run of free ones. */
#ifndef PLACES_H
#define PLACES_H

#include "layout.h"

enum { PLACES = CELLS, WORDS = PLACES / 64 };

typedef struct places {
    uint64_t free[WORDS + 1]; /* the last word is always free, so that every search ends */
    unsigned lowest;          /* no place is free in a word below this one */
} places;

/* All places are free but the first n, which is below 320. */
static inline void start_places(places *p, unsigned n)
{
    for (unsigned w = 0; w <= WORDS; w++)
        p->free[w] = n <= w * 64 ? ~UINT64_C(0) : n >= w * 64 + 64 ? 0 : ~UINT64_C(0) << n % 64;
    p->lowest = 0;
}

/* The lowest free place; PLACES or more where there is none. */
static inline unsigned lowest_free(places *p)
{
    unsigned w = p->lowest;
    while (p->free[w] == 0)
        w++;
    p->lowest = w;
    return w * 64 + __builtin_ctzll(p->free[w]);
}

/* The lowest free place from a place on. */
static inline unsigned next_free(const places *p, unsigned from)
{
    unsigned w = from / 64;
    uint64_t here = p->free[w] >> from % 64;
    if (here != 0)
        return from + __builtin_ctzll(here);
    while (p->free[++w] == 0)
        ;
    return w * 64 + __builtin_ctzll(p->free[w]);
}

/* The lowest taken place from a free one on; any place from `enough` on where there is none below that. */
static inline unsigned next_taken(const places *p, unsigned from, unsigned enough)
{
    unsigned w = from / 64;
    uint64_t taken = ~p->free[w] >> from % 64;
    if (taken != 0)
        return from + __builtin_ctzll(taken);
    while (++w * 64 < enough)
        if (p->free[w] != ~UINT64_C(0))
            return w * 64 + __builtin_ctzll(~p->free[w]);
    return w * 64;
}

/* The first place of the lowest run of n free ones, n being at least 1; PLACES or more where there is none. */
static inline unsigned lowest_run(places *p, unsigned n)
{
    unsigned start = lowest_free(p);
    while (start + n <= PLACES) {
        unsigned end = next_taken(p, start, start + n);
        if (end >= start + n)
            return start;
        start = next_free(p, end);
    }
    return PLACES;
}

/* Takes n free places, or gives n taken ones back. */
static inline void turn_over(places *p, unsigned first, unsigned n)
{
    unsigned w = first / 64, shift = first % 64;
    for (; shift + n > 64; n -= 64 - shift, shift = 0)
        p->free[w++] ^= ~UINT64_C(0) << shift;
    p->free[w] ^= (~UINT64_C(0) >> (64 - n)) << shift;
}

static inline void give_back(places *p, unsigned first, unsigned n)
{
    turn_over(p, first, n);
    if (first / 64 < p->lowest)
        p->lowest = first / 64;
}

#endif
