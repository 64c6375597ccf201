#include "memories.h"

#include <inttypes.h>
#include <stdbool.h>
#include <stdio.h>
#include <string.h>

#include "layout.h"
#include "number.h"

/* How a memory's parts are read: its states, and its units (cells or marks) behind the block records. */
struct layout {
    const char *title;
    const char *states[4]; /* of live blocks; NULL for the other states */
    uint8_t dead;
    const char *unit;
    size_t unit_bytes;
    void (*print_unit)(const uint8_t *unit);
};

static void print_cell(const uint8_t *cell)
{
    int64_t number = signed_from_bytes(cell + NUMBER_AT);
    switch (cell[0]) {
    case 0:
        printf("free");
        break;
    case 1:
        printf("undefined");
        break;
    case 2:
        printf("%" PRId64, number);
        break;
    default:
        printf("pointer to block %" PRIu64 ", offset %" PRId64, number_from_bytes(cell + POINTED_AT, 2), number);
    }
}

static void print_mark(const uint8_t *mark)
{
    printf("%s", mark[0] == 0 ? "not initialised" : "initialised");
}

static const struct layout EXECUTION = {
    "execution memory", {NULL, "live and fixed", "live and freeable", NULL}, 3, "cell", RECORDER_CELL_BYTES, print_cell,
};
static const struct layout OBSERVATION = {
    "observation memory", {NULL, "live", NULL, NULL}, 2, "mark", 1, print_mark,
};

static const uint8_t *unit_at(const struct layout *layout, const uint8_t *memory, size_t index)
{
    return memory + RECORDER_BLOCKS_BYTES + index * layout->unit_bytes;
}

/* "cell 3" or "cells 3 to 7", `end` being the first that no longer counts. */
static void print_range(const char *unit, size_t first, size_t end)
{
    if (end - first == 1)
        printf("%s %zu", unit, first);
    else
        printf("%ss %zu to %zu", unit, first, end - 1);
}

/* Prints a block's units, equal neighbours on one line. */
static void print_units(const struct layout *layout, const uint8_t *memory, size_t first, size_t end)
{
    while (first < end) {
        const uint8_t *unit = unit_at(layout, memory, first);
        size_t next = first + 1;
        while (next < end && memcmp(unit, unit_at(layout, memory, next), layout->unit_bytes) == 0)
            next++;
        printf("    ");
        print_range(layout->unit, first, next);
        printf(": ");
        layout->print_unit(unit);
        printf("\n");
        first = next;
    }
}

static const uint8_t *block_of(const uint8_t *memory, size_t name)
{
    return memory + (name - 1) * RECORDER_BLOCK_BYTES;
}

size_t block_length(const uint8_t *memory, size_t name)
{
    return number_from_bytes(block_of(memory, name) + LENGTH_AT, 2);
}

static void print_block(const struct layout *layout, const uint8_t *memory, size_t name)
{
    const uint8_t *block = block_of(memory, name);
    const char *state = block[0] < 4 ? layout->states[block[0]] : NULL;
    if (state == NULL)
        return;
    size_t first = number_from_bytes(block + FIRST_AT, 2);
    size_t end = first + block_length(memory, name);
    /* No run leaves a block that passes the end; nothing beyond it is read all the same. */
    if (first >= end || end > RECORDER_CELLS) {
        printf("  block %zu: %s, not within the memory\n", name, state);
        return;
    }
    printf("  block %zu: %s\n", name, state);
    print_units(layout, memory, first, end);
}

static bool is_dead(const struct layout *layout, const uint8_t *memory, size_t name)
{
    return name <= RECORDER_NAMES && block_of(memory, name)[0] == layout->dead;
}

static void print_dead_names(const struct layout *layout, const uint8_t *memory)
{
    const char *before = "  dead names:";
    for (size_t name = 1; name <= RECORDER_NAMES; name++) {
        if (!is_dead(layout, memory, name))
            continue;
        printf("%s %zu", before, name);
        before = ",";
        if (is_dead(layout, memory, name + 1)) {
            while (is_dead(layout, memory, name + 1))
                name++;
            printf(" to %zu", name);
        }
    }
    printf(before[0] == ',' ? "\n" : "  dead names: none\n");
}

static void print_memory(const struct layout *layout, const uint8_t *memory)
{
    printf("%s\n", layout->title);
    for (size_t name = 1; name <= RECORDER_NAMES; name++)
        print_block(layout, memory, name);
    print_dead_names(layout, memory);
}

void print_execution_memory(const uint8_t *memory)
{
    print_memory(&EXECUTION, memory);
}

void print_observation_memory(const uint8_t *observation)
{
    print_memory(&OBSERVATION, observation);
}
