#include "printer.h"

#include <inttypes.h>

#include "kinds.h"
#include "record.h"

/* What is nested deeper, or comes when the line has grown so long, is told by its number. */
enum { DEEPEST = 10, LONGEST = 240 };

enum { READ = 2, VALUE = 20 }; /* kinds that are written as what they are of */
enum { NEAREST = 5 };          /* an operator */

static const char *const OPERATORS[] = {NULL, "+", "-", "*", "/", "/", "<=", "=", "+"};
static const char *const QUERIES[] = {NULL, "valid", "initialised", "base of", "offset of", "length of"};

/* A record that is being written. */
struct writing {
    struct phrase *into;
    const struct table *table;
    size_t start; /* where in the phrase the first one began */
    int depth;
    uint32_t number;
    struct record record;
};

static void write_record(const struct writing *writing);
static void write_field(const struct writing *writing, char field);

void print_variable(struct phrase *into, const struct table *table, uint8_t variable)
{
    if (variable < VARIABLES && table->names[variable][0] != '\0')
        phrase_add(into, "%s", table->names[variable]);
    else
        phrase_add(into, "v%u", variable);
}

/* Whether a record takes parentheses where it is an operand. */
static bool is_compound(const struct table *table, uint32_t number)
{
    struct record record = record_at(table->bytes, number);
    while (record.kind == READ || record.kind == VALUE) {
        if (record.a == 0 || record.a >= number)
            return false;
        number = record.a;
        record = record_at(table->bytes, number);
    }
    return record.kind != 1 && record.kind != 10 && record.kind != 11 && record.kind != 12;
}

/* Whether the line has room for a child. What has no children always fits; a read or a value adds no text itself. */
static bool has_room(const struct writing *writing, uint32_t child)
{
    const struct kind *kind = kind_numbered(record_at(writing->table->bytes, child).kind);
    if (phrase_is_full(writing->into))
        return false;
    if (kind == NULL || kind->children[0] == NOTHING)
        return true;
    bool is_silent = kind->number == READ || kind->number == VALUE;
    return writing->depth < (is_silent ? DEEPEST + 2 : DEEPEST) && writing->into->length - writing->start < LONGEST;
}

/* Children stand below their parent in every accepted table. In any other one they might lead in a circle, and are not
 * followed. */
static void write_child(const struct writing *writing, uint32_t child, bool is_operand)
{
    if (child == 0) {
        phrase_add(writing->into, "nothing");
        return;
    }
    if (child >= writing->number || !has_room(writing, child)) {
        phrase_add(writing->into, "#%" PRIu32, child);
        return;
    }
    struct writing below = *writing;
    below.depth++;
    below.number = child;
    below.record = record_at(writing->table->bytes, child);
    bool in_parentheses = is_operand && is_compound(writing->table, child);
    if (in_parentheses)
        phrase_add(writing->into, "(");
    write_record(&below);
    if (in_parentheses)
        phrase_add(writing->into, ")");
}

static void write_statement_number(const struct writing *writing, uint32_t child)
{
    if (child == 0)
        phrase_add(writing->into, "nothing");
    else
        phrase_add(writing->into, "%" PRIu32, child);
}

/* An operator between two fields. */
static void write_operation(const struct writing *writing, uint32_t operator, char left, char right)
{
    if (operator == NEAREST)
        phrase_add(writing->into, "nearest (");
    write_field(writing, left);
    if (operator >= 1 && operator < sizeof OPERATORS / sizeof OPERATORS[0])
        phrase_add(writing->into, " %s ", OPERATORS[operator]);
    else
        phrase_add(writing->into, " operator %" PRIu32 " ", operator);
    write_field(writing, right);
    if (operator == NEAREST)
        phrase_add(writing->into, ")");
}

static void write_query(const struct writing *writing, uint32_t query)
{
    if (query >= 1 && query < sizeof QUERIES / sizeof QUERIES[0])
        phrase_add(writing->into, "%s", QUERIES[query]);
    else
        phrase_add(writing->into, "query %" PRIu32 " of", query);
}

/* A field of a pattern in kinds.c: a and b children, A and B operands, x, y and z statements told by number, 0 to 2 the
 * temporaries from the mark on, m an operation on A and B by the mark, c one on temporaries by C. */
static void write_field(const struct writing *writing, char field)
{
    const struct record *record = &writing->record;
    switch (field) {
    case 'l': phrase_add(writing->into, "%" PRId64, record->literal); break;
    case 'v': print_variable(writing->into, writing->table, record->mark); break;
    case 'a': write_child(writing, record->a, false); break;
    case 'b': write_child(writing, record->b, false); break;
    case 'A': write_child(writing, record->a, true); break;
    case 'B': write_child(writing, record->b, true); break;
    case 'x': write_statement_number(writing, record->a); break;
    case 'y': write_statement_number(writing, record->b); break;
    case 'z': write_statement_number(writing, record->c); break;
    case 'm': write_operation(writing, record->mark, 'A', 'B'); break;
    case 'c': write_operation(writing, record->c, '1', '2'); break;
    case 'q': write_query(writing, record->c); break;
    default: phrase_add(writing->into, "t%d", record->mark + (field - '0')); break;
    }
}

static void write_record(const struct writing *writing)
{
    const struct record *record = &writing->record;
    const struct kind *kind = kind_numbered(record->kind);
    if (kind == NULL) {
        phrase_add(writing->into, "kind %u (mark %u, A %" PRIu32 ", B %" PRIu32 ", C %" PRIu32 ", literal %" PRId64 ")",
                   record->kind, record->mark, record->a, record->b, record->c, record->literal);
        return;
    }
    for (const char *at = kind->pattern; *at != '\0'; at++) {
        if (*at == '%')
            write_field(writing, *++at);
        else
            phrase_add(writing->into, "%c", *at);
    }
}

void print_record(struct phrase *into, const struct table *table, uint32_t number)
{
    if (number == 0 || number > table_records(table)) {
        phrase_add(into, "#%" PRIu32, number);
        return;
    }
    struct writing writing = {into, table, into->length, 0, number, record_at(table->bytes, number)};
    write_record(&writing);
}
