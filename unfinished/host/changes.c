#include "changes.h"

#include <stdbool.h>
#include <string.h>

#include "layout.h"
#include "memories.h"
#include "number.h"
#include "phrase.h"

/* How a memory's changes are read and told; its units are cells or marks. */
struct manner {
    uint8_t dead; /* a block's state; 0 is unused, and every other is live */
    const char *made, *ended;
    const char *unit;
    size_t unit_bytes;
    size_t content_at;    /* where what a unit holds goes on behind its byte 0 */
    const uint8_t *fresh; /* a unit of a new block */
    void (*print_change)(struct phrase *into, const uint8_t *before, const uint8_t *after);
};

static void print_cell_change(struct phrase *into, const uint8_t *before, const uint8_t *after)
{
    print_cell(into, before);
    phrase_add(into, " -> ");
    print_cell(into, after);
}

/* Within a live block a mark only ever becomes 1. */
static void print_mark_change(struct phrase *into, const uint8_t *before, const uint8_t *after)
{
    (void)before;
    (void)after;
    phrase_add(into, "initialised");
}

static const uint8_t FRESH_CELL[RECORDER_CELL_BYTES] = {1};
static const uint8_t FRESH_MARK[1] = {0};
static const struct manner EXECUTION = {
    3, "made", "ended", "cell", RECORDER_CELL_BYTES, POINTED_AT, FRESH_CELL, print_cell_change,
};
static const struct manner OBSERVATION = {
    2, "recorded", "deleted", "mark", 1, 1, FRESH_MARK, print_mark_change,
};

/* Two moments, and where the changes between them are told: as lines, or in a list where `json` is not NULL. */
struct comparison {
    const struct manner *manner;
    const uint8_t *before, *after;
    FILE *to;
    struct json *json;
};

static void tell(const struct comparison *comparison, const struct phrase *change)
{
    if (comparison->json != NULL)
        json_text(comparison->json, NULL, change->text);
    else
        fprintf(comparison->to, "    %s\n", change->text);
}

static bool is_live(const struct manner *manner, const uint8_t *memory, size_t name)
{
    uint8_t state = block_of(memory, name)[0];
    return state != 0 && state != manner->dead;
}

enum fate { FATE_NONE, FATE_MADE, FATE_ENDED, FATE_MADE_AND_ENDED };

static enum fate fate_of(const struct comparison *comparison, size_t name)
{
    uint8_t before = block_of(comparison->before, name)[0];
    uint8_t after = block_of(comparison->after, name)[0];
    bool is_dead = after == comparison->manner->dead;
    if (before == after)
        return FATE_NONE;
    if (before == 0)
        return is_dead ? FATE_MADE_AND_ENDED : FATE_MADE;
    return FATE_ENDED;
}

static void tell_made(const struct comparison *comparison, size_t name)
{
    const struct manner *manner = comparison->manner;
    const uint8_t *block = block_of(comparison->after, name);
    size_t length = block_length(comparison->after, name);
    struct phrase change = {0};
    phrase_add(&change, "block %zu %s: %zu %s%s from %s %zu", name, manner->made, length, manner->unit,
               length == 1 ? "" : "s", manner->unit, (size_t)number_from_bytes(block + FIRST_AT, 2));
    if (manner == &EXECUTION)
        phrase_add(&change, ", %s", block[0] == 1 ? "fixed" : "freeable");
    tell(comparison, &change);
}

/* Tells the blocks that were made or ended. */
static void tell_blocks(const struct comparison *comparison)
{
    const struct manner *manner = comparison->manner;
    size_t end = 0;
    for (size_t name = 1; name <= RECORDER_NAMES; name = end) {
        enum fate fate = fate_of(comparison, name);
        end = name + 1;
        if (fate == FATE_MADE)
            tell_made(comparison, name);
        if (fate == FATE_NONE || fate == FATE_MADE)
            continue;
        while (end <= RECORDER_NAMES && fate_of(comparison, end) == fate)
            end++;
        struct phrase change = {0};
        print_places(&change, "block", name, end);
        if (fate == FATE_MADE_AND_ENDED)
            phrase_add(&change, " %s and", manner->made);
        phrase_add(&change, " %s", manner->ended);
        tell(comparison, &change);
    }
}

/* A unit of a block at both moments; that of a new block starts as the block got it. */
struct unit {
    const uint8_t *before, *after;
};

static struct unit unit_at(const struct comparison *comparison, size_t name, size_t at)
{
    const struct manner *manner = comparison->manner;
    size_t start = RECORDER_BLOCKS_BYTES + at * manner->unit_bytes;
    bool is_old = is_live(manner, comparison->before, name);
    return (struct unit){is_old ? comparison->before + start : manner->fresh, comparison->after + start};
}

/* Whether two units hold the same. The owner is none of it. */
static bool hold_same(const struct manner *manner, const uint8_t *one, const uint8_t *other)
{
    size_t at = manner->content_at;
    return one[0] == other[0] && memcmp(one + at, other + at, manner->unit_bytes - at) == 0;
}

static bool change_same(const struct manner *manner, struct unit one, struct unit other)
{
    return hold_same(manner, one.before, other.before) && hold_same(manner, one.after, other.after);
}

/* Tells the units of a live block that hold something else than before. */
static void tell_units(const struct comparison *comparison, size_t name)
{
    const struct manner *manner = comparison->manner;
    size_t first = number_from_bytes(block_of(comparison->after, name) + FIRST_AT, 2);
    size_t end = first + block_length(comparison->after, name);
    size_t next = 0;
    /* No run leaves a block that passes the end; nothing beyond it is read all the same. */
    for (size_t at = first; at < end && end <= RECORDER_CELLS; at = next) {
        struct unit unit = unit_at(comparison, name, at);
        next = at + 1;
        if (hold_same(manner, unit.before, unit.after))
            continue;
        while (next < end && change_same(manner, unit, unit_at(comparison, name, next)))
            next++;
        struct phrase change = {0};
        print_places(&change, manner->unit, at, next);
        phrase_add(&change, " (block %zu, ", name);
        print_places(&change, "offset", at - first, next - first);
        phrase_add(&change, "): ");
        manner->print_change(&change, unit.before, unit.after);
        tell(comparison, &change);
    }
}

static void tell_changes(const struct comparison *comparison)
{
    tell_blocks(comparison);
    for (size_t name = 1; name <= RECORDER_NAMES; name++)
        if (is_live(comparison->manner, comparison->after, name))
            tell_units(comparison, name);
}

void print_execution_changes(FILE *to, const uint8_t *before, const uint8_t *after)
{
    tell_changes(&(struct comparison){&EXECUTION, before, after, to, NULL});
}

void print_observation_changes(FILE *to, const uint8_t *before, const uint8_t *after)
{
    tell_changes(&(struct comparison){&OBSERVATION, before, after, to, NULL});
}

static void tell_as_list(struct json *json, const char *key, const struct comparison *comparison)
{
    json_open_list(json, key);
    tell_changes(comparison);
    json_close_list(json);
}

void json_execution_changes(struct json *json, const char *key, const uint8_t *before, const uint8_t *after)
{
    tell_as_list(json, key, &(struct comparison){&EXECUTION, before, after, NULL, json});
}

void json_observation_changes(struct json *json, const char *key, const uint8_t *before, const uint8_t *after)
{
    tell_as_list(json, key, &(struct comparison){&OBSERVATION, before, after, NULL, json});
}
