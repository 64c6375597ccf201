#include "arrivals.h"

#include <inttypes.h>
#include <stdio.h>
#include <time.h>
#include <unistd.h>

#include "record.h"

/* What is still to be looked at, the next last. Each record waits once, and a let again for its end. */
struct waiting {
    struct stop stops[2 * RECORDER_TARGET_RECORDS];
    size_t count;
};

static void wait_for(struct waiting *waiting, uint32_t statement, bool is_let_end)
{
    if (statement != 0)
        waiting->stops[waiting->count++] = (struct stop){statement, is_let_end};
}

static void order_stops(const struct table *table, struct arrivals *into)
{
    static struct waiting waiting;
    waiting.count = 0;
    into->count = 0;
    wait_for(&waiting, table_records(table), false);
    while (waiting.count > 0) {
        struct stop stop = waiting.stops[--waiting.count];
        struct record record = record_at(table->bytes, stop.statement);
        if (!is_statement(record.kind))
            continue;
        if (record.kind != 44 && record.kind != 46)
            into->stops[into->count++] = stop;
        if (stop.is_let_end)
            continue;
        /* What runs first is put last, and so taken first. */
        wait_for(&waiting, record.kind == 47 ? stop.statement : 0, true);
        wait_for(&waiting, has_child_c(record.kind) ? record.c : 0, false);
        wait_for(&waiting, record.b, false);
        wait_for(&waiting, record.a, false);
    }
}

static const char PROGRESS[] = "\rlooking for statement %" PRIu32 " of %" PRIu32;

/* At most once a second, so that short work shows nothing. */
static void show_progress(uint32_t done, uint32_t all, time_t *shown)
{
    time_t now = time(NULL);
    if (now == *shown)
        return;
    *shown = now;
    fprintf(stderr, PROGRESS, done, all);
}

static void clear_progress(void)
{
    fprintf(stderr, "\r%*s\r", (int)sizeof PROGRESS + 8, "");
}

void find_arrivals(const struct run_given *given, struct arrivals *into)
{
    static struct run_left left;
    bool is_terminal = isatty(STDERR_FILENO) == 1;
    time_t started = time(NULL);
    time_t shown = started;
    order_stops(given->table, into);
    for (uint32_t at = 0; at < into->count; at++) {
        if (is_terminal)
            show_progress(at + 1, into->count, &shown);
        into->how[at] = stop_at(given, into->stops[at], &left);
        into->used[at] = given->fuel - left.answer.fuel;
    }
    if (shown != started)
        clear_progress();
}
