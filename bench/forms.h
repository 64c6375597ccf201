/* What each kind asks for, in tables that the checker reads. */
#ifndef FORMS_H
#define FORMS_H

#include <stdint.h>

/* An operator and a query stand in field C of 63 and 64, where a child stands elsewhere. */
enum sort { NONE, EXPRESSION, PLACE, TERM, PREDICATE, STATEMENT, OPERATOR, QUERY };

/* What a kind does with the variable in its mark. */
enum naming { NAMES_NONE, USES, LETS };

typedef struct form {
    uint64_t marks;      /* bit n for mark n; none at all where the language has no such kind */
    uint64_t zeros;      /* the bits of a record's first word that have to be 0: absent children, marks above 63 */
    uint64_t literals;   /* how many literals there are from the lowest on, less 1 */
    uint8_t lowest;      /* literal */
    uint8_t sort;
    uint8_t children[3]; /* their sorts */
    uint8_t naming;
    uint8_t below;       /* by how much the levels of a term's children are higher: A's in bits 0 to 3, B's in 4 to 7 */
    uint8_t highest;     /* temporary that its own target records name, above its level */
} form;

#define NO_MARK 1
#define MARKS_TO(n) (~UINT64_C(0) >> (63 - (n)))
#define OPERATORS(from, to) (MARKS_TO(to) & ~MARKS_TO((from) - 1))
#define ANY_LITERAL .literals = ~UINT64_C(0)

#define HIGH_MARKS UINT64_C(0xc000)
#define FIELD(i) (UINT64_C(0xffff) << (16 * (i) + 16))
#define NO_CHILDREN .zeros = FIELD(0) | FIELD(1) | FIELD(2) | HIGH_MARKS
#define ONE_CHILD(a) .zeros = FIELD(1) | FIELD(2) | HIGH_MARKS, .children = {a}
#define TWO_CHILDREN(a, b) .zeros = FIELD(2) | HIGH_MARKS, .children = {a, b}
#define THREE_CHILDREN(a, b, c) .zeros = HIGH_MARKS, .children = {a, b, c}
#define LAST_TWO(b, c) .zeros = FIELD(0) | HIGH_MARKS, .children = {NONE, b, c}
#define LAST_ONE(c) .zeros = FIELD(0) | FIELD(1) | HIGH_MARKS, .children = {NONE, NONE, c}

/* The kinds of both languages. STATEMENT_LITERALS is what the literal of a statement may be. */
#define FORMS_OF_BOTH                                                                                                  \
    [1] = {NO_MARK, .sort = EXPRESSION, NO_CHILDREN, ANY_LITERAL},                                                     \
    [2] = {NO_MARK, .sort = EXPRESSION, ONE_CHILD(PLACE)},                                                             \
    [3] = {NO_MARK, .sort = EXPRESSION, ONE_CHILD(PLACE)},                                                             \
    [4] = {OPERATORS(1, 7), .sort = EXPRESSION, TWO_CHILDREN(EXPRESSION, EXPRESSION)},                                 \
    [5] = {NO_MARK, .sort = EXPRESSION, TWO_CHILDREN(EXPRESSION, EXPRESSION)},                                         \
    [10] = {MARKS_TO(63), .sort = PLACE, NO_CHILDREN, .naming = USES},                                                 \
    [11] = {NO_MARK, .sort = PLACE, ONE_CHILD(EXPRESSION)},                                                            \
    [40] = {NO_MARK, .sort = STATEMENT, NO_CHILDREN, STATEMENT_LITERALS},                                              \
    [41] = {NO_MARK, .sort = STATEMENT, TWO_CHILDREN(PLACE, EXPRESSION), STATEMENT_LITERALS},                          \
    [42] = {NO_MARK, .sort = STATEMENT, TWO_CHILDREN(PLACE, EXPRESSION), STATEMENT_LITERALS},                          \
    [43] = {NO_MARK, .sort = STATEMENT, ONE_CHILD(EXPRESSION), STATEMENT_LITERALS},                                    \
    [44] = {NO_MARK, .sort = STATEMENT, TWO_CHILDREN(STATEMENT, STATEMENT), STATEMENT_LITERALS},                       \
    [45] = {NO_MARK, .sort = STATEMENT, THREE_CHILDREN(EXPRESSION, STATEMENT, STATEMENT), STATEMENT_LITERALS},         \
    [46] = {NO_MARK, .sort = STATEMENT, TWO_CHILDREN(EXPRESSION, STATEMENT), STATEMENT_LITERALS},                      \
    [47] = {MARKS_TO(63), .sort = STATEMENT, ONE_CHILD(STATEMENT), STATEMENT_LITERALS, .naming = LETS}

#define STATEMENT_LITERALS .lowest = 0
static const form source_forms[256] = {
    FORMS_OF_BOTH,
    [20] = {NO_MARK, .sort = TERM, ONE_CHILD(EXPRESSION)},
    [21] = {NO_MARK, .sort = TERM, ONE_CHILD(TERM), .below = 1, .highest = 1},
    [22] = {NO_MARK, .sort = TERM, ONE_CHILD(TERM), .below = 1, .highest = 1},
    [23] = {NO_MARK, .sort = TERM, ONE_CHILD(TERM), .below = 1, .highest = 1},
    [24] = {OPERATORS(1, 5) | 1 << 8, .sort = TERM, TWO_CHILDREN(TERM, TERM), .below = 0x21, .highest = 2},
    [30] = {NO_MARK, .sort = PREDICATE, ONE_CHILD(TERM), .below = 1, .highest = 1},
    [31] = {NO_MARK, .sort = PREDICATE, ONE_CHILD(TERM), .below = 1, .highest = 1},
    [32] = {OPERATORS(6, 7), .sort = PREDICATE, TWO_CHILDREN(TERM, TERM), .below = 0x21, .highest = 2},
    [33] = {NO_MARK, .sort = PREDICATE, ONE_CHILD(PREDICATE), .below = 1, .highest = 1},
    [34] = {NO_MARK, .sort = PREDICATE, TWO_CHILDREN(PREDICATE, PREDICATE)},
    [35] = {NO_MARK, .sort = PREDICATE, TWO_CHILDREN(PREDICATE, PREDICATE)},
    [48] = {NO_MARK, .sort = STATEMENT, ONE_CHILD(PREDICATE)},
};
#undef STATEMENT_LITERALS

#define STATEMENT_LITERALS .lowest = 1, .literals = 255
static const form target_forms[256] = {
    FORMS_OF_BOTH,
    [12] = {MARKS_TO(63), .sort = PLACE, NO_CHILDREN},
    [60] = {MARKS_TO(63), .sort = STATEMENT, ONE_CHILD(PLACE), STATEMENT_LITERALS},
    [61] = {MARKS_TO(63), .sort = STATEMENT, ONE_CHILD(EXPRESSION), STATEMENT_LITERALS},
    [63] = {MARKS_TO(61), .sort = STATEMENT, LAST_ONE(OPERATOR), STATEMENT_LITERALS},
    [64] = {MARKS_TO(62), .sort = STATEMENT, LAST_ONE(QUERY), STATEMENT_LITERALS},
    [65] = {MARKS_TO(62), .sort = STATEMENT, NO_CHILDREN, STATEMENT_LITERALS},
    [66] = {MARKS_TO(63), .sort = STATEMENT, LAST_TWO(STATEMENT, STATEMENT), STATEMENT_LITERALS},
    [67] = {MARKS_TO(63), .sort = STATEMENT, NO_CHILDREN, STATEMENT_LITERALS},
    [68] = {MARKS_TO(62), .sort = STATEMENT, NO_CHILDREN, STATEMENT_LITERALS},
    [69] = {MARKS_TO(63), .sort = STATEMENT, NO_CHILDREN, STATEMENT_LITERALS},
    [70] = {MARKS_TO(63), .sort = STATEMENT, NO_CHILDREN, STATEMENT_LITERALS},
};
#undef STATEMENT_LITERALS

#endif
