#include "caption.h"

#include <inttypes.h>
#include <string.h>

#include "mirror.h"
#include "picture.h"
#include "printer.h"
#include "svg.h"
#include "words.h"

enum { HEADING_Y = 40, ENDING_Y = 64, HEADING_CHARACTER_WIDTH = 11, STATEMENT_LINES = 3 };

/* What the number of a statement in the table that was read is called. */
static const char *unit_of(const struct run_given *run)
{
    return run->is_target ? "record" : "statement";
}

static void write_ending(struct phrase *into, const struct run_given *run, recorder_answer answer, uint32_t before)
{
    if (before != 0)
        phrase_add(into, "before %s %" PRIu32, unit_of(run), before);
    else
        phrase_add(into, "ending %" PRIu32 " (%s)", answer.number, number_in_words(answer.number));
    if (before == 0 && answer.number != RECORDER_DONE)
        phrase_add(into, " at statement %" PRIu32, answer.record);
    phrase_add(into, ", fuel left %" PRIu32 ", free cells %" PRIu32, answer.fuel, answer.free_cells);
}

/* The statement at which the run ended, or with which it would go on. */
static void write_statement(struct phrase *into, const struct run_given *run, uint32_t record)
{
    if (record == 0)
        return;
    phrase_add(into, "%s %" PRIu32 ": ", unit_of(run), record);
    print_record(into, run->table, record);
}

void caption_write(struct caption *into, const char *path, const struct run_given *run, const struct run_left *left,
                   uint32_t before, uint32_t record)
{
    memset(into, 0, sizeof *into);
    phrase_add(&into->file, "%s", strcmp(path, "-") == 0 ? "standard input" : path);
    write_ending(&into->ending, run, left->answer, before);
    write_statement(&into->statement, run, record);
    struct phrase difference = {0};
    if (is_mirror(left->memory, left->observation, &difference))
        phrase_add(&into->mirror, "The observation memory mirrors the execution memory.");
    else
        phrase_add(&into->mirror, "The observation memory does not mirror the execution memory: %s", difference.text);
}

int caption_paint(FILE *to, const struct caption *caption, int width)
{
    int room = width - 2 * MARGIN;
    size_t characters = (size_t)(room / CHARACTER_WIDTH);
    svg_lines(to, MARGIN, HEADING_Y, "heading", caption->file.text, (size_t)(room / HEADING_CHARACTER_WIDTH), 1);
    int y = ENDING_Y;
    y += svg_lines(to, MARGIN, y, "value", caption->ending.text, characters, 2) * LINE_HEIGHT;
    y += svg_lines(to, MARGIN, y, "value", caption->statement.text, characters, STATEMENT_LINES) * LINE_HEIGHT;
    y += svg_lines(to, MARGIN, y, "value", caption->mirror.text, characters, 2) * LINE_HEIGHT;
    return y;
}
