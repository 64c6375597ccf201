#include <inttypes.h>

#include "explain_parts.h"
#include "kinds.h"

uint32_t field_of(const struct record *record, size_t at)
{
    return at == 0 ? record->a : at == 1 ? record->b : record->c;
}

char letter_of(size_t at)
{
    return "ABC"[at];
}

void explain_kind(const struct refused *refused, struct explanation *into)
{
    const char *language = refused->is_target ? "target" : "source";
    phrase_add(&into->detail, "its kind is %u; a %s table has ", refused->record.kind, language);
    print_kinds(&into->detail, refused->is_target);
    if (is_in_language(kind_numbered(refused->record.kind), !refused->is_target))
        phrase_add(&into->usual, "the table is a %s",
                   refused->is_target ? "source table, or has records of one" : "target table, which --target tells");
    else
        phrase_add(&into->usual, "the numbers of a line are in a wrong order: number kind mark A B C literal");
}

static const char HAS_NONE[] = "has none, so it must be 0";

/* Begins what is told of a field; there may be several. */
static struct phrase *fault(struct explanation *into)
{
    if (into->detail.length > 0)
        phrase_add(&into->detail, "; also ");
    return &into->detail;
}

static void add_kind(struct phrase *into, const struct kind *kind)
{
    phrase_add(into, "; kind %u (%s) ", kind->number, kind->word);
}

/* A number that is out of the range of its field. */
static void explain_number(struct explanation *into, const struct kind *kind, const char *field, uint32_t number,
                           struct range range)
{
    if (is_in_range(range, number))
        return;
    struct phrase *detail = fault(into);
    phrase_add(detail, "its %s is %" PRIu32, field, number);
    add_kind(detail, kind);
    if (range.word == NULL) {
        phrase_add(detail, "%s", HAS_NONE);
        return;
    }
    phrase_add(detail, "allows ");
    print_range(detail, range);
}

/* A child that is missing, or is there where the kind has none. */
static void explain_presence(struct explanation *into, const struct kind *kind, const struct record *record, size_t at)
{
    uint32_t child = field_of(record, at);
    enum sort asked = kind->children[at];
    if ((child != 0) == (asked != NOTHING))
        return;
    struct phrase *detail = fault(into);
    phrase_add(detail, "its child %c is %" PRIu32, letter_of(at), child);
    add_kind(detail, kind);
    if (asked == NOTHING)
        phrase_add(detail, "%s", HAS_NONE);
    else
        phrase_add(detail, "asks for %s", sort_in_words(asked));
}

static void explain_literal(struct explanation *into, const struct kind *kind, const struct refused *refused)
{
    int64_t low = 0, high = 0;
    literal_bounds(kind, refused->is_target, &low, &high);
    if (refused->record.literal >= low && refused->record.literal <= high)
        return;
    struct phrase *detail = fault(into);
    phrase_add(detail, "its literal is %" PRId64, refused->record.literal);
    if (high == 0) {
        add_kind(detail, kind);
        phrase_add(detail, "%s", HAS_NONE);
    } else {
        phrase_add(detail, "; a statement of a target table has %" PRId64 " to %" PRId64
                   ", the source statement that it came from", low, high);
        phrase_add(&into->usual, "that number is left out, or the table is a source table");
    }
}

void explain_fields(const struct refused *refused, struct explanation *into)
{
    const struct kind *kind = kind_numbered(refused->record.kind);
    if (kind == NULL)
        return;
    explain_number(into, kind, "mark", refused->record.mark, kind->mark);
    for (size_t at = 0; at < CHILDREN; at++) {
        if (letter_of(at) == 'C' && kind->c.word != NULL)
            explain_number(into, kind, "C", refused->record.c, kind->c);
        else
            explain_presence(into, kind, &refused->record, at);
    }
    explain_literal(into, kind, refused);
    if (into->usual.length == 0)
        phrase_add(&into->usual, "a number of the line is left out or stands one place off: "
                   "number kind mark A B C literal");
}

/* What people left out, by the sort that was asked for and the one that stands there. */
static const struct {
    enum sort asked, found;
    const char *usual;
} LEFT_OUT[] = {
    {EXPRESSION, PLACE, "a read is left out: kind 2 is what a place holds, kind 3 its address"},
    {PLACE, EXPRESSION, "the place is left out: kind 11 is what an expression points to"},
    {TERM, EXPRESSION, "a value is left out: kind 20 makes a term of an expression"},
    {TERM, PLACE, "a read and a value are left out: kind 2 is what a place holds, kind 20 makes a term of it"},
    {PREDICATE, TERM, "what is asked of the term is left out: valid (30), initialised (31), a comparison (32)"},
    {PREDICATE, EXPRESSION, "a comparison of expressions (4) stands for one of terms (32)"},
    {STATEMENT, PREDICATE, "the assertion is left out: kind 48 asserts a predicate"},
};

static const char *usual_of(enum sort asked, enum sort found)
{
    for (size_t at = 0; at < sizeof LEFT_OUT / sizeof LEFT_OUT[0]; at++)
        if (LEFT_OUT[at].asked == asked && LEFT_OUT[at].found == found)
            return LEFT_OUT[at].usual;
    return "the number of the child is one off, or two children are interchanged";
}

/* Tells one child; where it is wrong returns what people usually got wrong, else NULL. */
static const char *explain_child(const struct refused *refused, const struct kind *kind, size_t at,
                                 struct explanation *into)
{
    uint32_t child = field_of(&refused->record, at);
    enum sort asked = kind->children[at];
    if (child >= refused->number) {
        phrase_add(fault(into), "child %c is %" PRIu32 ", which is not below %" PRIu32, letter_of(at), child,
                   refused->number);
        return "a parent stands before its children: children come first";
    }
    const struct kind *found = kind_numbered(record_at(refused->table->bytes, child).kind);
    if (found == NULL || found->sort == asked)
        return NULL;
    struct phrase *detail = fault(into);
    phrase_add(detail, "child %c is record %" PRIu32 ", %s", letter_of(at), child, sort_in_words(found->sort));
    add_kind(detail, kind);
    phrase_add(detail, "asks for %s", sort_in_words(asked));
    return usual_of(asked, found->sort);
}

void explain_children(const struct refused *refused, struct explanation *into)
{
    const struct kind *kind = kind_numbered(refused->record.kind);
    for (size_t at = 0; kind != NULL && at < CHILDREN; at++) {
        if (kind->children[at] == NOTHING || field_of(&refused->record, at) == 0)
            continue;
        const char *usual = explain_child(refused, kind, at, into);
        if (usual != NULL && into->usual.length == 0)
            phrase_add(&into->usual, "%s", usual);
    }
}
