/* Times the proved library beside the same written in C, on the same tables in one run.
 * Each pair is run in turns and the best time of each counts, so that a busy machine does not decide.
 *   bench                    times and ratios
 *   bench rows               the rows: call and table, with a tab between them
 *   bench library|c CALL TABLE
 *                            one call, for counting instructions */
#include "building.h"
#include "interpreter.h"
#include "programs.h"

#include <stdio.h>
#include <string.h>
#include <time.h>

enum { FUEL = 2000000000, OUTPUT = MOST_RECORDS_EACH * 16 * SOURCE_RECORDS, TURNS = 40 };

/* Everything that a call may write to. */
typedef struct lent {
    uint8_t memory[RECORDER_MEMORY_BYTES], observation[RECORDER_OBSERVATION_BYTES], out[OUTPUT];
} lent;

/* What a call gets, and the number that it has to answer. */
typedef struct given {
    const uint8_t *table;
    size_t length;
    uint32_t fuel, number;
} given;

typedef recorder_answer call(const given *g, lent *to);

static const int64_t inputs[2] = {7, 9};
#define INPUTS_LENT (const uint8_t *)inputs, sizeof inputs

/* The five calls of one side, whose names begin alike. */
#define SIDE(side, named)                                                                                              \
    static recorder_answer side##_plain(const given *g, lent *to)                                                      \
    {                                                                                                                  \
        return named##_run_plain(g->table, g->length, INPUTS_LENT, g->fuel, to->memory, sizeof to->memory);            \
    }                                                                                                                  \
    static recorder_answer side##_watched(const given *g, lent *to)                                                    \
    {                                                                                                                  \
        return named##_run_watched(g->table, g->length, INPUTS_LENT, g->fuel, to->memory, sizeof to->memory,           \
                                   to->observation, sizeof to->observation);                                           \
    }                                                                                                                  \
    static recorder_answer side##_source(const given *g, lent *to)                                                     \
    {                                                                                                                  \
        (void)to;                                                                                                      \
        return named##_check_source(g->table, g->length);                                                              \
    }                                                                                                                  \
    static recorder_answer side##_target(const given *g, lent *to)                                                     \
    {                                                                                                                  \
        (void)to;                                                                                                      \
        return named##_check_target(g->table, g->length);                                                              \
    }                                                                                                                  \
    static recorder_answer side##_translate(const given *g, lent *to)                                                  \
    {                                                                                                                  \
        return named##_translate(g->table, g->length, to->out, sizeof to->out);                                        \
    }

SIDE(library, recorder)
SIDE(c, interpreter)

static const struct {
    const char *name;
    call *library, *c;
} calls[CALLS] = {
    [PLAIN] = {"plain", library_plain, c_plain},
    [WATCHED] = {"watched", library_watched, c_watched},
    [SOURCE] = {"source", library_source, c_source},
    [TARGET] = {"target", library_target, c_target},
    [TRANSLATE] = {"translate", library_translate, c_translate},
};

static double seconds(void)
{
    struct timespec t;
    clock_gettime(CLOCK_PROCESS_CPUTIME_ID, &t);
    return t.tv_sec + t.tv_nsec * 1e-9;
}

static double time_of(call *f, unsigned times, const given *g)
{
    static lent to;
    double begin = seconds();
    for (unsigned i = 0; i < times; i++)
        f(g, &to);
    return (seconds() - begin) / times;
}

/* Both give the answer asked for and write the same bytes. They get different ones where a run clears them. */
static void compare(const char *name, unsigned which, const given *g)
{
    static lent to[2];
    memset(to, 0xa5, sizeof to);
    if (which == PLAIN || which == WATCHED)
        memset(to[1].memory, 0x5a, sizeof to[1].memory);
    if (which == WATCHED)
        memset(to[1].observation, 0x5a, sizeof to[1].observation);
    recorder_answer a = calls[which].library(g, &to[0]), b = calls[which].c(g, &to[1]);
    if (a.number != g->number || memcmp(&a, &b, sizeof a) || memcmp(&to[0], &to[1], sizeof to[0])) {
        fprintf(stderr, "%s, %s: they differ: library %u %u %u %u, C %u %u %u %u\n", calls[which].name, name, a.number,
                a.record, a.fuel, a.free_cells, b.number, b.record, b.fuel, b.free_cells);
        exit(1);
    }
}

/* The library's best time. */
static double measure(const char *name, unsigned which, const given *g)
{
    call *library = calls[which].library, *c = calls[which].c;
    compare(name, which, g);
    double best[2] = {1e9, 1e9};
    unsigned times = 1 + 0.002 / time_of(c, 10, g);
    for (int turn = 0; turn < TURNS; turn++) {
        double x = time_of(library, times, g), y = time_of(c, times, g);
        best[0] = x < best[0] ? x : best[0];
        best[1] = y < best[1] ? y : best[1];
    }
    printf("%-9s %-31s %12.3f %12.3f %8.2f\n", calls[which].name, name, best[0] * 1e6, best[1] * 1e6,
           best[0] / best[1]);
    fflush(stdout);
    return best[0];
}

/* What a row's call gets: watched runs and the target checker the translation. */
static given build(const program *p, unsigned which)
{
    static uint8_t out[OUTPUT];
    table_records = 0;
    p->build();
    given g = {(const uint8_t *)table, table_records * sizeof(record), FUEL, RECORDER_DONE};
    if (p->turns != 0) {
        g.fuel = p->turns;
        g.number = RECORDER_NO_FUEL;
    }
    if ((which != WATCHED && which != TARGET) || p->calls == CALL(TARGET))
        return g;
    recorder_answer made = recorder_translate(g.table, g.length, out, sizeof out);
    g.table = out;
    g.length = made.record * sizeof(record);
    return g;
}

#define EACH_ROW(p, which)                                                                                             \
    for (const program *p = programs; p < programs + PROGRAM_COUNT; p++)                                               \
        for (unsigned which = 0; which < CALLS; which++)                                                               \
            if (p->calls & CALL(which))

static int list_rows(void)
{
    EACH_ROW(p, which)
        printf("%s\t%s\n", calls[which].name, p->name);
    return 0;
}

static int call_once(const char *side, const char *call_name, const char *name)
{
    static lent to;
    EACH_ROW(p, which)
        if (strcmp(call_name, calls[which].name) == 0 && strcmp(name, p->name) == 0) {
            given g = build(p, which);
            call *f = strcmp(side, "c") == 0 ? calls[which].c : calls[which].library;
            return f(&g, &to).number != g.number;
        }
    return 2;
}

static int time_rows(void)
{
    double best[PROGRAM_COUNT][CALLS];
    printf("%-9s %-31s %12s %12s %8s\n", "call", "table", "library µs", "C µs", "ratio");
    EACH_ROW(p, which) {
        given g = build(p, which);
        best[p - programs][which] = measure(p->name, which, &g);
    }
    printf("\n%-41s %8s\n", "the library's watched run / plain run", "ratio");
    EACH_ROW(p, which)
        if (which == WATCHED)
            printf("%-41s %8.2f\n", p->name, best[p - programs][WATCHED] / best[p - programs][PLAIN]);
    return 0;
}

int main(int argc, char **argv)
{
    return argc == 2 ? list_rows() : argc == 4 ? call_once(argv[1], argv[2], argv[3]) : time_rows();
}
