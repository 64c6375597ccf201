#include "used_pointer.h"

#include <stddef.h>

#include "layout.h"
#include "number.h"

enum { VARIABLES = 64, FIRST_LET_NAME = 3 };

enum state { UNUSED, FIXED, FREEABLE, DEAD };

/* The kinds of cells, and so of values; STOPPED where evaluating ends the run. */
enum value_kind { FREE, UNDEFINED, INTEGER, POINTER, STOPPED };

/* The number is an integer or an offset. A stopped value has the pointer used, or name 0 where it stopped for another
 * reason. */
struct value {
    enum value_kind kind;
    uint32_t name;
    int64_t number;
};

struct record {
    uint8_t kind, mark;
    uint32_t a, b, c;
    int64_t literal;
};

struct block {
    enum state state;
    size_t first, length;
};

/* What evaluating looks at. */
struct moment {
    const uint8_t *table;
    const uint8_t *memory;
    uint32_t variables[VARIABLES]; /* the names of their blocks */
};

static struct record record_at(const uint8_t *table, uint32_t number)
{
    const uint8_t *bytes = table + (size_t)(number - 1) * RECORDER_RECORD_BYTES;
    return (struct record){
        .kind = bytes[0],
        .mark = bytes[1],
        .a = (uint32_t)number_from_bytes(bytes + 2, 2),
        .b = (uint32_t)number_from_bytes(bytes + 4, 2),
        .c = (uint32_t)number_from_bytes(bytes + 6, 2),
        .literal = signed_from_bytes(bytes + 8),
    };
}

static struct block block_at(const uint8_t *memory, uint32_t name)
{
    const uint8_t *bytes = memory + (size_t)(name - 1) * RECORDER_BLOCK_BYTES;
    size_t first = number_from_bytes(bytes + FIRST_AT, 2), length = number_from_bytes(bytes + LENGTH_AT, 2);
    return (struct block){bytes[0], first, length};
}

static bool is_live(struct block block)
{
    return block.state == FIXED || block.state == FREEABLE;
}

static struct value integer(int64_t number)
{
    return (struct value){INTEGER, 0, number};
}

static struct value pointer(uint32_t name, int64_t offset)
{
    return (struct value){POINTER, name, offset};
}

static struct value stopped_using(struct value used)
{
    return (struct value){STOPPED, used.name, used.number};
}

static struct value stopped_otherwise(void)
{
    return (struct value){STOPPED, 0, 0};
}

/* A value that has to be a pointer. */
static struct value pointing(struct value value)
{
    return value.kind == POINTER || value.kind == STOPPED ? value : stopped_otherwise();
}

static uint64_t magnitude(int64_t number)
{
    return number < 0 ? 0 - (uint64_t)number : (uint64_t)number;
}

/* Operator 4 toward zero, 5 to the nearest with halves to the even neighbour. */
static struct value divide(uint32_t operator, int64_t x, int64_t y)
{
    if (y == 0 || (x == INT64_MIN && y == -1))
        return stopped_otherwise();
    int64_t quotient = x / y;
    /* Twice the rest may pass 64 bits with a sign, so it is held against what is missing to a whole y. */
    uint64_t rest = magnitude(x % y), missing = magnitude(y) - rest;
    if (operator == 5 && (rest > missing || (rest == missing && quotient % 2 != 0)))
        quotient += (x < 0) == (y < 0) ? 1 : -1;
    return integer(quotient);
}

static struct value operate_on_integers(uint32_t operator, int64_t x, int64_t y)
{
    int64_t result = 0;
    switch (operator) {
    case 1:
        return __builtin_add_overflow(x, y, &result) ? stopped_otherwise() : integer(result);
    case 2:
        return __builtin_sub_overflow(x, y, &result) ? stopped_otherwise() : integer(result);
    case 3:
        return __builtin_mul_overflow(x, y, &result) ? stopped_otherwise() : integer(result);
    case 4:
    case 5:
        return divide(operator, x, y);
    case 6:
        return integer(x <= y);
    case 7:
        return integer(x == y);
    default:
        return stopped_otherwise();
    }
}

static struct value shift(struct value from, int64_t by)
{
    int64_t offset = 0;
    return __builtin_add_overflow(from.number, by, &offset) ? stopped_otherwise() : pointer(from.name, offset);
}

/* A comparison of pointers need not ask for live blocks: a run that ended 42 or 50 came past it. */
static struct value operate(uint32_t operator, struct value x, struct value y)
{
    if (x.kind == INTEGER && y.kind == INTEGER)
        return operate_on_integers(operator, x.number, y.number);
    if (operator == 7 && x.kind == POINTER && y.kind == POINTER)
        return integer(x.name == y.name && x.number == y.number);
    if (operator == 8 && x.kind == POINTER && y.kind == INTEGER)
        return shift(x, y.number);
    return stopped_otherwise();
}

/* The bytes of the cell that a pointer leads to, or NULL. */
static const uint8_t *cell_at(const uint8_t *memory, struct value to)
{
    struct block block = block_at(memory, to.name);
    if (!is_live(block) || to.number < 0 || (uint64_t)to.number >= block.length)
        return NULL;
    return memory + RECORDER_BLOCKS_BYTES + (block.first + (size_t)to.number) * RECORDER_CELL_BYTES;
}

static struct value read_from(const uint8_t *memory, struct value place)
{
    if (place.kind == STOPPED)
        return place;
    const uint8_t *cell = cell_at(memory, place);
    if (cell == NULL)
        return stopped_using(place);
    if (cell[0] == UNDEFINED)
        return stopped_otherwise();
    uint32_t name = (uint32_t)number_from_bytes(cell + POINTED_AT, 2);
    return (struct value){cell[0], name, signed_from_bytes(cell + NUMBER_AT)};
}

/* Queries as kinds 21 to 23, 30 and 31 ask them. */
static struct value query(const uint8_t *memory, uint8_t kind, struct value of)
{
    if (of.kind == STOPPED)
        return of;
    const uint8_t *cell = cell_at(memory, of);
    struct block block = block_at(memory, of.name);
    if (kind == 30)
        return integer(cell != NULL);
    if (kind == 31)
        return integer(cell != NULL && cell[0] != UNDEFINED);
    if (!is_live(block))
        return stopped_otherwise();
    return kind == 21 ? pointer(of.name, 0) : integer(kind == 22 ? of.number : (int64_t)block.length);
}

static struct value evaluate(const struct moment *at, uint32_t number);

/* Kinds 4, 5, 24 and 32. */
static struct value evaluate_operation(const struct moment *at, struct record record)
{
    struct value x = evaluate(at, record.a);
    if (x.kind == STOPPED)
        return x;
    struct value y = evaluate(at, record.b);
    return y.kind == STOPPED ? y : operate(record.kind == 5 ? 8 : record.mark, x, y);
}

/* Kinds 34 and 35, whose A may decide. */
static struct value evaluate_either(const struct moment *at, struct record record)
{
    struct value a = evaluate(at, record.a);
    bool decides = (a.number != 0) == (record.kind == 35);
    return a.kind == STOPPED || decides ? a : evaluate(at, record.b);
}

/* The value of an expression, term or predicate, and the pointer to a place. */
static struct value evaluate(const struct moment *at, uint32_t number)
{
    struct record record = record_at(at->table, number);
    struct value a;
    switch (record.kind) {
    case 1:
        return integer(record.literal);
    case 2:
        return read_from(at->memory, evaluate(at, record.a));
    case 3:
    case 20:
        return evaluate(at, record.a);
    case 10:
        return pointer(at->variables[record.mark], 0);
    case 11:
        return pointing(evaluate(at, record.a));
    case 21: case 22: case 23: case 30: case 31:
        return query(at->memory, record.kind, pointing(evaluate(at, record.a)));
    case 33:
        a = evaluate(at, record.a);
        return a.kind == STOPPED ? a : integer(a.number == 0);
    case 34: case 35:
        return evaluate_either(at, record);
    default:
        return evaluate_operation(at, record);
    }
}

/* The innermost let around a record. */
static uint32_t let_around(const uint8_t *table, uint32_t number)
{
    for (uint32_t above = number + 1; above <= RECORDER_SOURCE_RECORDS; above++) {
        struct record record = record_at(table, above);
        if (record.a != number && record.b != number && record.c != number)
            continue;
        if (record.kind == 47)
            return above;
        number = above;
    }
    return 0;
}

/* The lets that run are those around the statement, and each has a live fixed block; inner ones have later names. So
 * the walk up ends at the outermost let, within the table. */
static void find_variables(struct moment *at, uint32_t statement)
{
    uint32_t let = statement;
    at->variables[0] = 1;
    for (uint32_t name = RECORDER_NAMES; name >= FIRST_LET_NAME; name--) {
        if (block_at(at->memory, name).state != FIXED)
            continue;
        let = let_around(at->table, let);
        at->variables[record_at(at->table, let).mark] = name;
    }
}

/* What running the statement stops with: the place of a 41 or 42 is used last. */
static struct value run_again(const struct moment *at, uint32_t statement)
{
    struct record record = record_at(at->table, statement);
    struct value a = evaluate(at, record.a);
    if (a.kind == STOPPED || (record.kind != 41 && record.kind != 42))
        return a;
    struct value b = evaluate(at, record.b);
    return b.kind == STOPPED ? b : stopped_using(a);
}

bool used_pointer(const uint8_t *table, recorder_answer answer, const uint8_t *memory, struct used_pointer *used)
{
    if (answer.number != RECORDER_DEAD_BLOCK && answer.number != RECORDER_OUTSIDE_BLOCK)
        return false;
    struct moment at = {table, memory, {0}};
    find_variables(&at, answer.record);
    struct value end = run_again(&at, answer.record);
    *used = (struct used_pointer){end.name, end.number};
    return end.kind == STOPPED && end.name != 0;
}
