#include <inttypes.h>

#include "block.h"
#include "ended.h"
#include "memories.h"
#include "record.h"

enum { RUNS_TOLD = 4 };

/* Whether run x comes before y where the longest come first. */
static bool is_before(struct cells x, struct cells y)
{
    return x.length > y.length || (x.length == y.length && x.first < y.first);
}

/* The free run that comes next behind another; its length is 0 where there is none. */
static struct cells next_longest(const uint8_t *memory, struct cells behind)
{
    struct cells best = {0, 0};
    struct cells run = free_run_from(memory, 0);
    for (; run.length > 0; run = free_run_from(memory, run.first + run.length))
        if (is_before(behind, run) && is_before(run, best))
            best = run;
    return best;
}

static size_t count_runs(const uint8_t *memory)
{
    size_t count = 0;
    struct cells run = free_run_from(memory, 0);
    for (; run.length > 0; run = free_run_from(memory, run.first + run.length))
        count++;
    return count;
}

static void print_run(struct phrase *into, struct cells run)
{
    print_places(into, "cell", run.first, run.first + run.length);
    phrase_add(into, " (%zu)", run.length);
}

static void explain_free_runs(const uint8_t *memory, int64_t size, struct phrase *into)
{
    size_t count = count_runs(memory);
    struct cells run = {0, RECORDER_CELLS + 1};
    phrase_add(into, count == 0 ? "no cell is free" : "free runs, longest first: ");
    for (size_t told = 0; told < count && told < RUNS_TOLD; told++) {
        run = next_longest(memory, run);
        phrase_add(into, told == 0 ? "" : ", ");
        print_run(into, run);
    }
    if (count > RUNS_TOLD)
        phrase_add(into, " and %zu more", count - RUNS_TOLD);
    phrase_add(into, "; %" PRId64 " cell%s asked for", size, size == 1 ? " was" : "s were");
}

/* Of a 42 the store is that of the new block's pointer. */
static void explain_access(const struct ended *ended, struct phrase *into)
{
    if (ended->stopped.record != ended->statement)
        phrase_add(into, "it was a read");
    else if (record_at(ended->at.table, ended->statement).kind == 42)
        phrase_add(into, "it was the store of the pointer to the new block, which stays");
    else
        phrase_add(into, "it was a store");
}

static void explain_sides(const struct ended *ended, struct phrase *into)
{
    bool left = is_live(block_at(ended->at.memory, ended->stopped.x.name));
    bool right = is_live(block_at(ended->at.memory, ended->stopped.y.name));
    if (!left && !right)
        phrase_add(into, "both sides of the comparison point into blocks that are not live");
    else
        phrase_add(into, "the %s side of the comparison points into a block that is not live", left ? "right" : "left");
}

static void explain_not_live(const struct ended *ended, struct phrase *into)
{
    switch (record_at(ended->at.table, ended->stopped.record).kind) {
    case 21:
        phrase_add(into, "the base address was asked for");
        break;
    case 22:
        phrase_add(into, "the offset was asked for");
        break;
    case 23:
        phrase_add(into, "the block length was asked for");
        break;
    default:
        explain_sides(ended, into);
    }
}

void explain_detail(const struct ended *ended, struct phrase *into)
{
    switch (ended->stopped.ending) {
    case RECORDER_NO_CELLS:
        explain_free_runs(ended->at.memory, ended->stopped.y.kind == VALUE_NONE ? 1 : ended->stopped.y.number, into);
        break;
    case RECORDER_DEAD_BLOCK: case RECORDER_OUTSIDE_BLOCK:
        explain_access(ended, into);
        break;
    case RECORDER_NOT_LIVE:
        explain_not_live(ended, into);
        break;
    default:
        break;
    }
}
