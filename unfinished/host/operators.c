#include "operators.h"

#include <stdbool.h>

#include "block.h"
#include "recorder.h"

struct value integer_value(int64_t number)
{
    return (struct value){VALUE_INTEGER, 0, number};
}

struct value pointer_value(uint32_t name, int64_t offset)
{
    return (struct value){VALUE_POINTER, name, offset};
}

static uint64_t magnitude(int64_t number)
{
    return number < 0 ? 0 - (uint64_t)number : (uint64_t)number;
}

/* Operator 4 toward zero, 5 to the nearest with halves to the even neighbour. */
static uint32_t divide(uint32_t operator, int64_t x, int64_t y, int64_t *quotient)
{
    if (y == 0)
        return RECORDER_ZERO_DIVISOR;
    if (x == INT64_MIN && y == -1)
        return RECORDER_OVERFLOW;
    *quotient = x / y;
    /* Twice the rest may pass 64 bits with a sign, so it is held against what is missing to a whole y. */
    uint64_t rest = magnitude(x % y), missing = magnitude(y) - rest;
    if (operator == OPERATOR_DIVIDE_TO_NEAREST && (rest > missing || (rest == missing && *quotient % 2 != 0)))
        *quotient += (x < 0) == (y < 0) ? 1 : -1;
    return RECORDER_DONE;
}

static uint32_t overflow_if(bool leaves)
{
    return leaves ? RECORDER_OVERFLOW : RECORDER_DONE;
}

static uint32_t operate_on_integers(uint32_t operator, int64_t x, int64_t y, int64_t *result)
{
    switch (operator) {
    case OPERATOR_ADD:
        return overflow_if(__builtin_add_overflow(x, y, result));
    case OPERATOR_SUBTRACT:
        return overflow_if(__builtin_sub_overflow(x, y, result));
    case OPERATOR_MULTIPLY:
        return overflow_if(__builtin_mul_overflow(x, y, result));
    case OPERATOR_DIVIDE:
    case OPERATOR_DIVIDE_TO_NEAREST:
        return divide(operator, x, y, result);
    case OPERATOR_AT_MOST:
        *result = x <= y;
        return RECORDER_DONE;
    case OPERATOR_EQUAL:
        *result = x == y;
        return RECORDER_DONE;
    default:
        return RECORDER_WRONG_SORT;
    }
}

static uint32_t compare_pointers(const uint8_t *memory, struct value x, struct value y, struct value *result)
{
    *result = integer_value(x.name == y.name && x.number == y.number);
    bool both_live = is_live(block_at(memory, x.name)) && is_live(block_at(memory, y.name));
    return both_live ? RECORDER_DONE : RECORDER_NOT_LIVE;
}

uint32_t operate(const uint8_t *memory, uint32_t operator, struct value x, struct value y, struct value *result)
{
    if (x.kind == VALUE_INTEGER && y.kind == VALUE_INTEGER) {
        *result = integer_value(0);
        return operate_on_integers(operator, x.number, y.number, &result->number);
    }
    if (operator == OPERATOR_EQUAL && x.kind == VALUE_POINTER && y.kind == VALUE_POINTER)
        return compare_pointers(memory, x, y, result);
    if (operator == OPERATOR_SHIFT && x.kind == VALUE_POINTER && y.kind == VALUE_INTEGER) {
        *result = pointer_value(x.name, 0);
        return overflow_if(__builtin_add_overflow(x.number, y.number, &result->number));
    }
    return RECORDER_WRONG_SORT;
}
