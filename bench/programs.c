/* The tables that are run. */
#include "building.h"
#include "programs.h"

record table[TARGET_RECORDS];
unsigned table_records;

static void skip(void)
{
    add(40, 0, 0, 0, 0, 0);
}

static void count(void)
{
    unsigned start = set(1, 0), test = at_most(1, 199999);
    let(1, then(start, repeat(test, increase(1, 1))));
}

static void fill_and_sum(void)
{
    unsigned start[3], test[3], place, e, fill, sum, zero;
    test[0] = loop_test(1, 299, &start[0]);
    test[1] = loop_test(2, 199, &start[1]);
    place = element(4, 2);
    fill = loop_end(2, start[1], test[1], take(place, value_of(2)));
    zero = set(3, 0);
    test[2] = loop_test(2, 199, &start[2]);
    place = variable(3);
    e = value_of(3);
    sum = loop_end(2, start[2], test[2], take(place, operated(ADD, e, read_of(element(4, 2)))));
    e = loop_end(1, start[0], test[0], then(fill, then(zero, sum)));
    place = variable(4);
    let(1, let(2, let(3, let(4, then(take_new(place, literal(200)), e)))));
}

/* Two lets one in the other, each of which is given a number, in a loop. */
static unsigned lets_in_a_loop(unsigned turns)
{
    unsigned start, test, first, second, place, e;
    test = loop_test(1, turns - 1, &start);
    place = variable(3);
    first = take(place, value_of(1));
    place = variable(4);
    e = value_of(3);
    second = take(place, operated(MULTIPLY, e, literal(3)));
    return loop_end(1, start, test, let(3, let(4, then(first, second))));
}

static void lets(void)
{
    let(1, lets_in_a_loop(125));
}

/* Each let of 125 has a loop of 50 turns in it. */
static void lets_around_loops(void)
{
    unsigned start[2], test[2], place, e, taken, inner;
    test[0] = loop_test(1, 124, &start[0]);
    test[1] = loop_test(3, 49, &start[1]);
    place = variable(2);
    e = value_of(2);
    taken = take(place, operated(ADD, e, value_of(3)));
    inner = let(3, loop_end(3, start[1], test[1], taken));
    e = loop_end(1, start[0], test[0], inner);
    let(1, let(2, then(set(2, 0), e)));
}

/* A block of 8 cells, one of which is given a number, is made and freed in a loop. */
static unsigned new_and_free_in_a_loop(unsigned turns)
{
    unsigned start, test, place, made, filled;
    test = loop_test(1, turns - 1, &start);
    place = variable(2);
    made = take_new(place, literal(8));
    place = pointed(value_of(2));
    filled = take(place, value_of(1));
    return loop_end(1, start, test, then(made, then(filled, release(value_of(2)))));
}

static void new_and_free(void)
{
    let(1, let(2, new_and_free_in_a_loop(251)));
}

/* Each of 125 blocks of 8 cells is filled in a loop. */
static void new_fill_and_free(void)
{
    unsigned start[2], test[2], place, made, filled;
    test[0] = loop_test(1, 124, &start[0]);
    place = variable(2);
    made = take_new(place, literal(8));
    test[1] = loop_test(3, 7, &start[1]);
    place = element(2, 3);
    filled = loop_end(3, start[1], test[1], take(place, value_of(1)));
    let(1, let(2, let(3, loop_end(1, start[0], test[0], then(made, then(filled, release(value_of(2))))))));
}

/* Each turn asserts that *p is initialised and equal to the counter. */
static void assertions(void)
{
    unsigned start, test, place, stored, valid, marked, e, same, made;
    test = loop_test(1, 49999, &start);
    place = pointed(value_of(2));
    stored = take(place, value_of(1));
    valid = add(30, 0, term(value_of(2)), 0, 0, 0);
    marked = add(31, 0, term(value_of(2)), 0, 0, 0);
    e = term(read_of(pointed(value_of(2))));
    same = add(32, EQUAL, e, term(value_of(1)), 0, 0);
    e = loop_end(1, start, test, then(stored, assertion(add(34, 0, valid, add(34, 0, marked, same, 0, 0), 0, 0))));
    place = variable(2);
    made = take_new(place, literal(4));
    let(1, let(2, then(made, e)));
}

/* A list of 100 nodes of two cells, number and next, then 500 walks that sum the numbers. */
static void list(void)
{
    unsigned start, test, place, made, number, next, kept, built, head, again, sum, step, walk, zero;
    zero = set(3, 0);
    test = loop_test(1, 99, &start);
    place = variable(4);
    made = take_new(place, literal(2));
    place = field(4, 0);
    number = take(place, value_of(1));
    place = field(4, 1);
    next = take(place, value_of(3));
    place = variable(3);
    kept = take(place, value_of(4));
    built = loop_end(1, start, test, then(made, then(number, then(next, kept))));
    test = loop_test(1, 499, &start);
    place = variable(4);
    head = take(place, value_of(3));
    again = set(2, 0);
    unsigned inner_test = at_most(2, 99);
    place = variable(5);
    unsigned e = value_of(5);
    sum = take(place, operated(ADD, e, read_of(field(4, 0))));
    place = variable(4);
    step = take(place, read_of(field(4, 1)));
    walk = repeat(inner_test, then(sum, then(step, increase(2, 1))));
    walk = loop_end(1, start, test, then(head, then(again, walk)));
    sum = set(5, 0);
    let(1, let(2, let(3, let(4, let(5, then(zero, then(built, then(sum, walk))))))));
}

/* v takes a new block of n cells. */
static unsigned make(uint8_t v, int64_t n)
{
    unsigned place = variable(v);
    return take_new(place, literal(n));
}

/* Live blocks of 1,000 cells in all, less what the largest is made shorter by. Only the last one's pointer is kept. */
static unsigned five_blocks(int64_t shorter)
{
    unsigned all = make(2, 50);
    all = then(all, make(2, 250));
    all = then(all, make(2, 400 - shorter));
    all = then(all, make(2, 100));
    return then(all, make(2, 200));
}

/* The same above a hole: the block that the hole was is freed after the others were made. */
static unsigned five_blocks_above_a_hole(int64_t shorter, int64_t hole)
{
    unsigned low = make(5, hole), others = five_blocks(shorter);
    return then(low, then(others, release(value_of(5))));
}

/* 200 live blocks of 4 cells. */
static unsigned two_hundred_blocks(void)
{
    unsigned start, test = loop_test(1, 199, &start);
    return loop_end(1, start, test, make(2, 4));
}

static void lets_beside_cells(void)
{
    unsigned blocks = five_blocks(0);
    let(1, let(2, then(blocks, lets_in_a_loop(120))));
}

/* The hole is one cell, so the outer let takes it and the inner one has to look above all blocks. */
static void lets_beside_hole(void)
{
    unsigned blocks = five_blocks_above_a_hole(0, 1);
    let(1, let(2, let(5, then(blocks, lets_in_a_loop(120)))));
}

static void lets_beside_blocks(void)
{
    unsigned blocks = two_hundred_blocks();
    let(1, let(2, then(blocks, lets_in_a_loop(25))));
}

static void new_beside_cells(void)
{
    unsigned blocks = five_blocks(100);
    let(1, let(2, then(blocks, new_and_free_in_a_loop(240))));
}

/* The hole is 4 cells, too short for the new block, which is looked for above all blocks. */
static void new_beside_hole(void)
{
    unsigned blocks = five_blocks_above_a_hole(100, 4);
    let(1, let(2, let(5, then(blocks, new_and_free_in_a_loop(240)))));
}

static void new_beside_blocks(void)
{
    unsigned blocks = two_hundred_blocks();
    let(1, let(2, then(blocks, new_and_free_in_a_loop(50))));
}

/* Loops for ever, so that next to nothing is counted but what makes a block and ends it. */
static void lets_for_ever(void)
{
    unsigned test = literal(1);
    repeat(test, let(1, add(40, 0, 0, 0, 0, 0)));
}

static void new_and_free_for_ever(void)
{
    unsigned test = literal(1), made = make(1, 8);
    let(1, repeat(test, then(made, release(value_of(1)))));
}

#define RUNS (CALL(PLAIN) | CALL(WATCHED))

const program programs[PROGRAM_COUNT] = {
    {"one call (skip)", skip, .calls = RUNS},
    {"counting loop", count, .calls = RUNS},
    {"fill and sum, 200 cells", fill_and_sum, .calls = RUNS},
    {"lets in a loop", lets, .calls = RUNS},
    {"lets around loops", lets_around_loops, .calls = RUNS},
    {"new and free", new_and_free, .calls = RUNS},
    {"new, fill and free", new_fill_and_free, .calls = RUNS},
    {"assertions on *p", assertions, .calls = RUNS},
    {"linked list", list, .calls = RUNS},
    {"lets beside 1,000 cells", lets_beside_cells, .calls = RUNS},
    {"lets beside a low hole", lets_beside_hole, .calls = RUNS},
    {"lets beside 200 blocks", lets_beside_blocks, .calls = RUNS},
    {"new and free beside 900 cells", new_beside_cells, .calls = RUNS},
    {"new and free beside a low hole", new_beside_hole, .calls = RUNS},
    {"new and free beside 200 blocks", new_beside_blocks, .calls = RUNS},
    {"4,090 lets", lets_for_ever, .calls = RUNS, .turns = 4090},
    {"4,090 new and free", new_and_free_for_ever, .calls = RUNS, .turns = 4090},
    {"check one skip", skip, .calls = CALL(SOURCE) | CALL(TARGET)},
    {"check source, 256 records", build_source, .calls = CALL(SOURCE)},
    {"check target, 4,096 records", build_target, .calls = CALL(TARGET)},
    {"translate, 256 records", build_source, .calls = CALL(TRANSLATE)},
    {"translate, into 3,493 records", build_most_lets, .calls = CALL(TRANSLATE)},
};
