#include "memories.h"

#include <inttypes.h>
#include <stdbool.h>
#include <stdio.h>
#include <string.h>

#include "layout.h"
#include "number.h"

/* How a memory's parts are read: its states, and its units (cells or marks) behind the block records. */
struct layout {
    const char *title;
    const char *states[4]; /* of live blocks; NULL for the other states */
    uint8_t dead;
    const char *unit;
    size_t unit_bytes;
    void (*print_unit)(struct phrase *into, const uint8_t *unit);
};

void print_cell(struct phrase *into, const uint8_t *cell)
{
    int64_t number = signed_from_bytes(cell + NUMBER_AT);
    switch (cell[0]) {
    case 0:
        phrase_add(into, "free");
        break;
    case 1:
        phrase_add(into, "undefined");
        break;
    case 2:
        phrase_add(into, "%" PRId64, number);
        break;
    default:
        phrase_add(into, "pointer to block %" PRIu64 ", offset %" PRId64, number_from_bytes(cell + POINTED_AT, 2),
                   number);
    }
}

static void print_mark(struct phrase *into, const uint8_t *mark)
{
    phrase_add(into, "%s", mark[0] == 0 ? "not initialised" : "initialised");
}

static const struct layout EXECUTION = {
    "execution memory", {NULL, "live and fixed", "live and freeable", NULL}, 3, "cell", RECORDER_CELL_BYTES, print_cell,
};
static const struct layout OBSERVATION = {
    "observation memory", {NULL, "live", NULL, NULL}, 2, "mark", 1, print_mark,
};

static const uint8_t *unit_at(const struct layout *layout, const uint8_t *memory, size_t index)
{
    return memory + RECORDER_BLOCKS_BYTES + index * layout->unit_bytes;
}

void print_places(struct phrase *into, const char *unit, size_t first, size_t end)
{
    if (end - first == 1)
        phrase_add(into, "%s %zu", unit, first);
    else
        phrase_add(into, "%ss %zu to %zu", unit, first, end - 1);
}

/* Prints a block's units, equal neighbours on one line. */
static void print_units(FILE *to, const struct layout *layout, const uint8_t *memory, size_t first, size_t end)
{
    while (first < end) {
        const uint8_t *unit = unit_at(layout, memory, first);
        size_t next = first + 1;
        while (next < end && memcmp(unit, unit_at(layout, memory, next), layout->unit_bytes) == 0)
            next++;
        struct phrase words = {0};
        print_places(&words, layout->unit, first, next);
        phrase_add(&words, ": ");
        layout->print_unit(&words, unit);
        fprintf(to, "    %s\n", words.text);
        first = next;
    }
}

const uint8_t *block_of(const uint8_t *memory, size_t name)
{
    return memory + (name - 1) * RECORDER_BLOCK_BYTES;
}

size_t block_length(const uint8_t *memory, size_t name)
{
    return number_from_bytes(block_of(memory, name) + LENGTH_AT, 2);
}

static void print_block(FILE *to, const struct layout *layout, const uint8_t *memory, size_t name)
{
    const uint8_t *block = block_of(memory, name);
    const char *state = block[0] < 4 ? layout->states[block[0]] : NULL;
    if (state == NULL)
        return;
    size_t first = number_from_bytes(block + FIRST_AT, 2);
    size_t end = first + block_length(memory, name);
    /* No run leaves a block that passes the end; nothing beyond it is read all the same. */
    if (first >= end || end > RECORDER_CELLS) {
        fprintf(to, "  block %zu: %s, not within the memory\n", name, state);
        return;
    }
    fprintf(to, "  block %zu: %s\n", name, state);
    print_units(to, layout, memory, first, end);
}

static bool is_dead(const struct layout *layout, const uint8_t *memory, size_t name)
{
    return name <= RECORDER_NAMES && block_of(memory, name)[0] == layout->dead;
}

static void print_dead_names(FILE *to, const struct layout *layout, const uint8_t *memory)
{
    const char *before = "  dead names:";
    for (size_t name = 1; name <= RECORDER_NAMES; name++) {
        if (!is_dead(layout, memory, name))
            continue;
        fprintf(to, "%s %zu", before, name);
        before = ",";
        if (is_dead(layout, memory, name + 1)) {
            while (is_dead(layout, memory, name + 1))
                name++;
            fprintf(to, " to %zu", name);
        }
    }
    fprintf(to, before[0] == ',' ? "\n" : "  dead names: none\n");
}

static void print_memory(FILE *to, const struct layout *layout, const uint8_t *memory)
{
    fprintf(to, "%s\n", layout->title);
    for (size_t name = 1; name <= RECORDER_NAMES; name++)
        print_block(to, layout, memory, name);
    print_dead_names(to, layout, memory);
}

void print_execution_memory(FILE *to, const uint8_t *memory)
{
    print_memory(to, &EXECUTION, memory);
}

void print_observation_memory(FILE *to, const uint8_t *observation)
{
    print_memory(to, &OBSERVATION, observation);
}

/* The units of a live block as a list: what each holds. */
static void json_block(struct json *json, const struct layout *layout, const uint8_t *memory, size_t name)
{
    const uint8_t *block = block_of(memory, name);
    const char *state = block[0] < 4 ? layout->states[block[0]] : NULL;
    if (state == NULL)
        return;
    size_t first = number_from_bytes(block + FIRST_AT, 2);
    size_t length = block_length(memory, name);
    json_open_object(json, NULL);
    json_number(json, "name", (int64_t)name);
    json_text(json, "state", state);
    json_number(json, "first", (int64_t)first);
    json_number(json, "length", (int64_t)length);
    json_open_list(json, "holds");
    for (size_t at = first; at < first + length && at < RECORDER_CELLS; at++) {
        struct phrase words = {0};
        layout->print_unit(&words, unit_at(layout, memory, at));
        json_text(json, NULL, words.text);
    }
    json_close_list(json);
    json_close_object(json);
}

static void json_memory(struct json *json, const char *key, const struct layout *layout, const uint8_t *memory)
{
    json_open_object(json, key);
    json_open_list(json, "blocks");
    for (size_t name = 1; name <= RECORDER_NAMES; name++)
        json_block(json, layout, memory, name);
    json_close_list(json);
    json_open_list(json, "dead");
    for (size_t name = 1; name <= RECORDER_NAMES; name++)
        if (is_dead(layout, memory, name))
            json_number(json, NULL, (int64_t)name);
    json_close_list(json);
    json_close_object(json);
}

void json_execution_memory(struct json *json, const char *key, const uint8_t *memory)
{
    json_memory(json, key, &EXECUTION, memory);
}

void json_observation_memory(struct json *json, const char *key, const uint8_t *observation)
{
    json_memory(json, key, &OBSERVATION, observation);
}
