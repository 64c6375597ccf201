#include "evaluation.h"

#include <stddef.h>

#include "block.h"
#include "layout.h"
#include "number.h"
#include "record.h"

static const struct value NOTHING = {VALUE_NONE, 0, 0};

static struct outcome gives(struct value value)
{
    return (struct outcome){.value = value};
}

static struct outcome stops(uint32_t ending, uint32_t record, struct value x, struct value y)
{
    return (struct outcome){.ending = ending, .record = record, .x = x, .y = y};
}

/* What A gave, which the record asks to be of one kind. */
static struct outcome asked_for(enum value_kind kind, struct outcome a, uint32_t record)
{
    return a.ending != 0 || a.value.kind == kind ? a : stops(RECORDER_WRONG_SORT, record, a.value, NOTHING);
}

/* 42 where the pointer's block is dead, 50 where its offset is outside, 0 where it leads to a cell. */
static uint32_t nowhere_ending(const uint8_t *memory, struct value to)
{
    if (cell_led_to(memory, to.name, to.number) != NULL)
        return RECORDER_DONE;
    return is_live(block_at(memory, to.name)) ? RECORDER_OUTSIDE_BLOCK : RECORDER_DEAD_BLOCK;
}

static struct outcome read_at(const uint8_t *memory, struct outcome place, uint32_t record)
{
    if (place.ending != 0)
        return place;
    const uint8_t *cell = cell_led_to(memory, place.value.name, place.value.number);
    if (cell == NULL)
        return stops(nowhere_ending(memory, place.value), record, place.value, NOTHING);
    if (cell[0] == VALUE_UNDEFINED)
        return stops(RECORDER_UNDEFINED_READ, record, place.value, NOTHING);
    uint32_t name = (uint32_t)number_from_bytes(cell + POINTED_AT, 2);
    return gives((struct value){cell[0], name, signed_from_bytes(cell + NUMBER_AT)});
}

/* Queries as kinds 21 to 23, 30 and 31 ask them. */
static struct outcome query(const uint8_t *memory, uint8_t kind, struct outcome a, uint32_t record)
{
    if (a.ending != 0)
        return a;
    struct value of = a.value;
    const uint8_t *cell = cell_led_to(memory, of.name, of.number);
    if (kind == 30)
        return gives(integer_value(cell != NULL));
    if (kind == 31)
        return gives(integer_value(cell != NULL && cell[0] != VALUE_UNDEFINED));
    struct block block = block_at(memory, of.name);
    if (!is_live(block))
        return stops(RECORDER_NOT_LIVE, record, of, NOTHING);
    if (kind == 21)
        return gives(pointer_value(of.name, 0));
    return gives(integer_value(kind == 22 ? of.number : (int64_t)block.length));
}

/* Kinds 4, 5, 24 and 32. */
static struct outcome evaluate_operation(const struct moment *at, uint32_t number)
{
    struct record record = record_at(at->table, number);
    struct outcome a = evaluate(at, record.a);
    if (a.ending != 0)
        return a;
    struct outcome b = evaluate(at, record.b);
    if (b.ending != 0)
        return b;
    uint32_t operator = record.kind == 5 ? OPERATOR_SHIFT : record.mark;
    struct value result = NOTHING;
    uint32_t ending = operate(at->memory, operator, a.value, b.value, &result);
    return ending == 0 ? gives(result) : stops(ending, number, a.value, b.value);
}

/* Kinds 34 and 35, whose A may decide. */
static struct outcome evaluate_either(const struct moment *at, struct record record)
{
    struct outcome a = evaluate(at, record.a);
    bool decides = (a.value.number != 0) == (record.kind == 35);
    return a.ending != 0 || decides ? a : evaluate(at, record.b);
}

struct outcome evaluate(const struct moment *at, uint32_t number)
{
    struct record record = record_at(at->table, number);
    struct outcome a;
    switch (record.kind) {
    case 1:
        return gives(integer_value(record.literal));
    case 2:
        return read_at(at->memory, evaluate(at, record.a), number);
    case 3: case 20:
        return evaluate(at, record.a);
    case 4: case 5: case 24: case 32:
        return evaluate_operation(at, number);
    case 10:
        return gives(pointer_value(at->variables[record.mark], 0));
    case 11:
        return asked_for(VALUE_POINTER, evaluate(at, record.a), number);
    case 21: case 22: case 23: case 30: case 31:
        return query(at->memory, record.kind, asked_for(VALUE_POINTER, evaluate(at, record.a), number), number);
    case 33:
        a = evaluate(at, record.a);
        return a.ending != 0 ? a : gives(integer_value(a.value.number == 0));
    case 34: case 35:
        return evaluate_either(at, record);
    default:
        return stops(UNTOLD, number, NOTHING, NOTHING);
    }
}

uint32_t innermost_around(const uint8_t *table, uint32_t last, uint32_t number, uint8_t kind)
{
    for (uint32_t above = number + 1; above <= last; above++) {
        struct record record = record_at(table, above);
        if (record.a != number && record.b != number && (record.c != number || !has_child_c(record.kind)))
            continue;
        if (record.kind == kind)
            return above;
        number = above;
    }
    return 0;
}

/* The lets that run are those around the statement, and each has a live fixed block; inner ones have later names. So
 * the walk up ends at the outermost let, within the table. */
static void find_variables(struct moment *at, uint32_t statement)
{
    uint32_t let = statement;
    at->variables[0] = 1;
    for (uint32_t name = RECORDER_NAMES; name >= FIRST_LET_NAME; name--) {
        if (block_at(at->memory, name).state != STATE_FIXED)
            continue;
        let = innermost_around(at->table, RECORDER_TARGET_RECORDS, let, 47);
        if (let == 0)
            return;
        at->variables[record_at(at->table, let).mark] = name;
    }
}

struct moment moment_left(const uint8_t *table, uint32_t statement, uint32_t number, const uint8_t *memory)
{
    bool made = number == RECORDER_DEAD_BLOCK || number == RECORDER_OUTSIDE_BLOCK;
    struct moment at = {table, memory, made, {0}};
    find_variables(&at, statement);
    return at;
}

/* A 42 whose place and size are worked out, before its store. */
static struct outcome make_again(const struct moment *at, uint32_t statement, struct value place, struct value size)
{
    uint32_t ending = RECORDER_DONE;
    if (size.kind != VALUE_INTEGER)
        ending = RECORDER_WRONG_SORT;
    else if (size.number < 1)
        ending = RECORDER_BAD_SIZE;
    else if (!at->has_made_block)
        ending = new_block_ending(at->memory, size.number);
    return stops(ending, statement, place, size);
}

/* Kinds 41 and 42. */
static struct outcome store_again(const struct moment *at, uint32_t statement, struct record record)
{
    struct outcome a = evaluate(at, record.a);
    if (a.ending != 0)
        return a;
    struct outcome b = evaluate(at, record.b);
    if (b.ending != 0)
        return b;
    struct outcome made = make_again(at, statement, a.value, b.value);
    if (record.kind == 42 && made.ending != 0)
        return made;
    return stops(nowhere_ending(at->memory, a.value), statement, a.value, b.value);
}

static struct outcome free_again(const struct moment *at, uint32_t statement, struct outcome a)
{
    if (a.ending != 0)
        return a;
    bool is_first = a.value.number == 0 && block_at(at->memory, a.value.name).state == STATE_FREEABLE;
    return stops(is_first ? RECORDER_DONE : RECORDER_BAD_FREE, statement, a.value, NOTHING);
}

static struct outcome assert_again(uint32_t statement, struct outcome a)
{
    if (a.ending != 0)
        return a;
    return stops(a.value.number == 0 ? RECORDER_ASSERTION_FALSE : RECORDER_DONE, statement, a.value, NOTHING);
}

struct outcome run_again(const struct moment *at, uint32_t statement)
{
    struct record record = record_at(at->table, statement);
    switch (record.kind) {
    case 40: case 44:
        return gives(NOTHING);
    case 41: case 42:
        return store_again(at, statement, record);
    case 43:
        return free_again(at, statement, asked_for(VALUE_POINTER, evaluate(at, record.a), statement));
    case 45: case 46:
        return asked_for(VALUE_INTEGER, evaluate(at, record.a), statement);
    case 47:
        return stops(new_block_ending(at->memory, 1), statement, NOTHING, NOTHING);
    case 48:
        return assert_again(statement, evaluate(at, record.a));
    case 60: case 61:
        return evaluate(at, record.a);
    default:
        return stops(UNTOLD, statement, NOTHING, NOTHING);
    }
}
