/* The largest tables, for the checkers and the translator. */
#include "building.h"
#include "interpreter.h"
#include "programs.h"

/* Joins a statement with skips until the table has this many records. A let of v makes up for an odd one. */
static void fill_up(unsigned statement, unsigned records, uint8_t v, int64_t literal)
{
    while (table_records + 2 <= records)
        statement = add(44, 0, statement, add(40, 0, 0, 0, 0, literal), 0, literal);
    if (table_records < records)
        add(47, v, statement, 0, 0, literal);
}

/* v = v + 3 * w */
static unsigned assignment(uint8_t v, uint8_t w)
{
    unsigned place = variable(v), a = value_of(v), three = literal(3);
    unsigned product = operated(MULTIPLY, three, value_of(w));
    return take(place, operated(ADD, a, product));
}

/* if v at most 5 then *v = new block of 4 cells, else free v */
static unsigned choice(uint8_t v)
{
    unsigned test = at_most(v, 5), place = pointed(value_of(v)), made = take_new(place, literal(4));
    return add(45, 0, test, made, release(value_of(v)), 0);
}

/* assert: v is valid, and not (its offset is its block's length) */
static unsigned claim(uint8_t v)
{
    unsigned valid = add(30, 0, term(value_of(v)), 0, 0, 0), offset = add(22, 0, term(value_of(v)), 0, 0, 0);
    unsigned length = add(23, 0, term(value_of(v)), 0, 0, 0), same = add(32, EQUAL, offset, length, 0, 0);
    return assertion(add(34, 0, valid, add(33, 0, same, 0, 0, 0), 0, 0));
}

/* let v in while v do (assignment; choice; claim; let w in assignment) */
static unsigned group(uint8_t v, uint8_t w)
{
    unsigned test = value_of(v), first = assignment(v, 0), second = choice(v), third = claim(v);
    unsigned body = then(first, then(second, then(third, let(w, assignment(w, v)))));
    return let(v, repeat(test, body));
}

/* 256 records of most kinds. */
void build_source(void)
{
    unsigned statement = group(1, 2);
    for (uint8_t v = 3; v < 9; v += 2)
        statement = then(statement, group(v, v + 1));
    fill_up(statement, SOURCE_RECORDS, 63, 0);
}

static unsigned nested_lets(unsigned count)
{
    unsigned statement = add(40, 0, 0, 0, 0, 0);
    for (unsigned v = 1; v <= count; v++)
        statement = let(v, statement);
    return statement;
}

/* The largest translation, 3,493 records: 249 lets, each of which gives 14, 4 skips and 3 that join them. */
void build_most_lets(void)
{
    unsigned statement = nested_lets(63);
    while (table_records < SOURCE_RECORDS) {
        unsigned left = SOURCE_RECORDS - table_records - 2; /* for a skip and the 44 */
        statement = then(statement, nested_lets(left < 63 ? left : 63));
    }
}

/* Adds a copy of a target table behind the records that are there. */
static unsigned append(const record *target, unsigned count)
{
    unsigned up = table_records;
    for (unsigned n = 0; n < count; n++) {
        record r = target[n];
        for (int i = 0; i < 3; i++)
            if (r.child[i] != 0 && r.kind != 63 && r.kind != 64) /* there C is no child */
                r.child[i] += up;
        add(r.kind, r.mark, r.child[0], r.child[1], r.child[2], r.literal);
    }
    return table_records;
}

/* 4,096 records: the translation of build_source's table, as often as there is room for it. */
void build_target(void)
{
    static record target[MOST_RECORDS_EACH * SOURCE_RECORDS];
    build_source();
    size_t length = table_records * sizeof(record);
    unsigned count = interpreter_translate((uint8_t *)table, length, (uint8_t *)target, sizeof target).record;
    table_records = 0;
    unsigned statement = append(target, count);
    while (table_records + count + 1 <= TARGET_RECORDS)
        statement = add(44, 0, statement, append(target, count), 0, 1);
    fill_up(statement, TARGET_RECORDS, 62, 1);
}
