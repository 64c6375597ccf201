/* Values, and the operators on them. */
#ifndef HOST_OPERATORS_H
#define HOST_OPERATORS_H

#include <stdint.h>

/* As the kinds of cells: none stands in for a free one. */
enum value_kind { VALUE_NONE, VALUE_UNDEFINED, VALUE_INTEGER, VALUE_POINTER };

/* The number is an integer, or the offset of a pointer to the name. */
struct value {
    enum value_kind kind;
    uint32_t name;
    int64_t number;
};

enum operator {
    OPERATOR_ADD = 1,
    OPERATOR_SUBTRACT,
    OPERATOR_MULTIPLY,
    OPERATOR_DIVIDE,
    OPERATOR_DIVIDE_TO_NEAREST,
    OPERATOR_AT_MOST,
    OPERATOR_EQUAL,
    OPERATOR_SHIFT
};

struct value integer_value(int64_t number);
struct value pointer_value(uint32_t name, int64_t offset);

/* Operator 1 to 8 of x and y: the number of the ending that it comes to, or 0 with the result. The memory is asked
 * where pointers are compared. */
uint32_t operate(const uint8_t *memory, uint32_t operator, struct value x, struct value y, struct value *result);

#endif
