#include "kinds.h"

#include "recorder.h"

#define OPERATORS(low, high, also) {"operators", low, high, also}
#define QUERIES {"queries", 1, 5, 0}
#define EACH_VARIABLE {"variables", 0, 63, 0}
#define TEMPORARIES(high) {"temporaries", 0, high, 0}

/* In their order. The literal is not here: it hangs on the sort alone, but for kind 1. */
static const struct kind KINDS[] = {
    {1, BOTH, EXPRESSION, "literal", "%l", .children = {0}},
    {2, BOTH, EXPRESSION, "read", "%a", .children = {PLACE}},
    {3, BOTH, EXPRESSION, "address", "address of %a", .children = {PLACE}},
    {4, BOTH, EXPRESSION, "operation", "%m", .children = {EXPRESSION, EXPRESSION}, .mark = OPERATORS(1, 7, 0)},
    {5, BOTH, EXPRESSION, "pointer shift", "%A + %B", .children = {EXPRESSION, EXPRESSION}},
    {10, BOTH, PLACE, "variable", "%v", .children = {0}, .mark = EACH_VARIABLE},
    {11, BOTH, PLACE, "pointed to", "*%A", .children = {EXPRESSION}},
    {12, TARGET, PLACE, "pointed to by a temporary", "*%0", .children = {0}, .mark = TEMPORARIES(63)},
    {20, SOURCE, TERM, "value", "%a", .children = {EXPRESSION}},
    {21, SOURCE, TERM, "base", "base of %A", .children = {TERM}, .levels = {1, 0}},
    {22, SOURCE, TERM, "offset", "offset of %A", .children = {TERM}, .levels = {1, 0}},
    {23, SOURCE, TERM, "length", "length of %A", .children = {TERM}, .levels = {1, 0}},
    {24, SOURCE, TERM, "operation", "%m", .children = {TERM, TERM}, .mark = OPERATORS(1, 5, 8), .levels = {1, 2}},
    {30, SOURCE, PREDICATE, "valid", "valid %A", .children = {TERM}, .levels = {1, 0}},
    {31, SOURCE, PREDICATE, "initialised", "initialised %A", .children = {TERM}, .levels = {1, 0}},
    {32, SOURCE, PREDICATE, "comparison", "%m", .children = {TERM, TERM}, .mark = OPERATORS(6, 7, 0), .levels = {1, 2}},
    {33, SOURCE, PREDICATE, "not", "not %A", .children = {PREDICATE}, .levels = {1, 0}},
    {34, SOURCE, PREDICATE, "and", "%A and %B", .children = {PREDICATE, PREDICATE}},
    {35, SOURCE, PREDICATE, "or", "%A or %B", .children = {PREDICATE, PREDICATE}},
    {40, BOTH, STATEMENT, "skip", "skip", .children = {0}},
    {41, BOTH, STATEMENT, "store", "%a := %b", .children = {PLACE, EXPRESSION}},
    {42, BOTH, STATEMENT, "new block", "%a := new %B", .children = {PLACE, EXPRESSION}},
    {43, BOTH, STATEMENT, "free", "free %A", .children = {EXPRESSION}},
    {44, BOTH, STATEMENT, "sequence", "%x, then %y", .children = {STATEMENT, STATEMENT}},
    {45, BOTH, STATEMENT, "if", "if %a then %y else %z", .children = {EXPRESSION, STATEMENT, STATEMENT}},
    {46, BOTH, STATEMENT, "while", "while %a do %y", .children = {EXPRESSION, STATEMENT}},
    {47, BOTH, STATEMENT, "let", "let %v in %x", .children = {STATEMENT}, .mark = EACH_VARIABLE},
    {48, SOURCE, STATEMENT, "assert", "assert %a", .children = {PREDICATE}},
    {60, TARGET, STATEMENT, "address", "%0 := address of %a", .children = {PLACE}, .mark = TEMPORARIES(63)},
    {61, TARGET, STATEMENT, "value", "%0 := %a", .children = {EXPRESSION}, .mark = TEMPORARIES(63)},
    {63, TARGET, STATEMENT, "operation", "%0 := %c", .children = {0}, .mark = TEMPORARIES(61), .c = OPERATORS(1, 8, 0)},
    {64, TARGET, STATEMENT, "query", "%0 := %q %1", .children = {0}, .mark = TEMPORARIES(62), .c = QUERIES},
    {65, TARGET, STATEMENT, "not", "%0 := not %1", .children = {0}, .mark = TEMPORARIES(62)},
    {66, TARGET, STATEMENT, "if", "if %0 then %y else %z", .children = {0, STATEMENT, STATEMENT},
     .mark = TEMPORARIES(63)},
    {67, TARGET, STATEMENT, "assert", "assert %0", .children = {0}, .mark = TEMPORARIES(63)},
    {68, TARGET, STATEMENT, "store block", "store block %0 of %1 cells", .children = {0}, .mark = TEMPORARIES(62)},
    {69, TARGET, STATEMENT, "delete block", "delete block %0", .children = {0}, .mark = TEMPORARIES(63)},
    {70, TARGET, STATEMENT, "initialise", "initialise %0", .children = {0}, .mark = TEMPORARIES(63)},
};

enum { KIND_COUNT = sizeof KINDS / sizeof KINDS[0] };

const struct kind *kind_numbered(uint8_t number)
{
    for (size_t at = 0; at < KIND_COUNT; at++)
        if (KINDS[at].number == number)
            return &KINDS[at];
    return NULL;
}

bool is_in_language(const struct kind *kind, bool is_target)
{
    return kind != NULL && (kind->languages & (is_target ? TARGET : SOURCE)) != 0;
}

bool is_in_range(struct range range, uint32_t number)
{
    return (number >= range.low && number <= range.high) || (range.also != 0 && number == range.also);
}

void literal_bounds(const struct kind *kind, bool is_target, int64_t *low, int64_t *high)
{
    bool is_numbered = is_target && kind->sort == STATEMENT;
    *low = kind->number == 1 ? INT64_MIN : is_numbered ? 1 : 0;
    *high = kind->number == 1 ? INT64_MAX : is_numbered ? RECORDER_SOURCE_RECORDS : 0;
}

const char *sort_in_words(enum sort sort)
{
    static const char *const WORDS[] = {
        [NOTHING] = "nothing", [EXPRESSION] = "an expression", [PLACE] = "a place",
        [TERM] = "a term",     [PREDICATE] = "a predicate",    [STATEMENT] = "a statement",
    };
    return WORDS[sort];
}

void print_range(struct phrase *into, struct range range)
{
    phrase_add(into, "%s %u %s %u", range.word, range.low, range.high == range.low + 1 ? "or" : "to",
               range.high);
    if (range.also != 0)
        phrase_add(into, " or %u", range.also);
}

/* How many kinds of the language follow one another in number from this row on. */
static size_t run_from(size_t at, bool is_target)
{
    size_t count = 0;
    while (at + count < KIND_COUNT && is_in_language(&KINDS[at + count], is_target) &&
           KINDS[at + count].number == KINDS[at].number + count)
        count++;
    return count;
}

void print_kinds(struct phrase *into, bool is_target)
{
    const char *between = "";
    for (size_t at = 0; at < KIND_COUNT; at++) {
        size_t count = run_from(at, is_target);
        if (count == 0)
            continue;
        phrase_add(into, "%s%u", between, KINDS[at].number);
        if (count > 2) {
            phrase_add(into, "-%zu", KINDS[at].number + count - 1);
            at += count - 1;
        }
        between = ", ";
    }
}
