#include "commands.h"

#include <inttypes.h>
#include <stdio.h>
#include <string.h>

#include "caption.h"
#include "evaluation.h"
#include "files.h"
#include "json.h"
#include "paint.h"
#include "run.h"
#include "status.h"
#include "stops.h"
#include "svg.h"
#include "words.h"

static struct table read_in;
static struct run_left left;
static struct picture picture;
static struct caption caption;

/* Where a picture's lower parts stand, counted from below the caption. */
enum { TITLES_Y = 16, BLOCKS_Y = 24 };

/* What the picture tells those who do not see it. */
static void describe(struct phrase *into)
{
    phrase_add(into, "Left the execution memory, right the observation memory, each block at the same height: ");
    phrase_add(into, "%zu live blocks. %s. %s%s%s", picture.block_count + picture.left_out, caption.ending.text,
               caption.statement.text, caption.statement.length > 0 ? ". " : "", caption.mirror.text);
}

/* Paints what stands below the caption; its height. With `to` NULL nothing is painted. */
static int paint_body(FILE *to)
{
    if (to != NULL) {
        svg_text(to, MARGIN + LABEL_WIDTH, TITLES_Y, "title", "execution memory");
        svg_text(to, picture.observation_x, TITLES_Y, "title", "observation memory");
        paint_blocks(to, &picture);
        paint_arrows(to, &picture);
    }
    int y = picture.blocks_end + (picture.left_out > 0 ? ROW_HEIGHT : 0);
    return paint_legend(to, &picture, paint_dead_names(to, &picture, y)) + MARGIN;
}

static int height_of_picture(void)
{
    return caption_paint(NULL, &caption, picture.width) + paint_body(NULL);
}

static void paint(FILE *to)
{
    struct phrase description = {0};
    describe(&description);
    svg_open(to, picture.width, height_of_picture(), caption.file.text, description.text);
    svg_open_group(to, caption_paint(to, &caption, picture.width));
    paint_body(to);
    svg_close_group(to);
    svg_close(to);
}

/* The run, or its beginning where `--before` says so; the status of what keeps it from being drawn. */
static int run_to_draw(const struct arguments *given, const struct run_given *run)
{
    run_watched(run, &left);
    if (is_refusal(left.answer) || given->before == 0)
        return STATUS_DONE;
    switch (stop_at(run, (struct stop){given->before, false}, &left)) {
    case ARRIVAL_NEVER:
        fprintf(stderr, "recorder: draw: the run does not come to statement %" PRIu32 "\n", given->before);
        return STATUS_USAGE;
    case ARRIVAL_NO_ROOM:
        fprintf(stderr, "recorder: draw: the table has too many records to be stopped before statement %" PRIu32 "\n",
                given->before);
        return STATUS_USAGE;
    default:
        return STATUS_DONE;
    }
}

/* A stop on the way is no ending: only the counts are told. */
static void json_stop(struct json *json, const struct arguments *given)
{
    json_number(json, "before", given->before);
    json_number(json, "fuel", left.answer.fuel);
    json_number(json, "free_cells", left.answer.free_cells);
}

static void tell_as_json(FILE *to, const struct arguments *given, const struct run_given *run)
{
    bool is_drawn = !is_refusal(left.answer);
    struct json json = json_begin(to, "draw");
    json_text(&json, "file", given->words[0]);
    if (is_drawn) {
        json_text(&json, "output", given->words[1]);
        json_number(&json, "width", picture.width);
        json_number(&json, "height", height_of_picture());
    }
    if (is_drawn && given->before != 0)
        json_stop(&json, given);
    else
        json_run(&json, run, &left);
    json_end(&json);
}

static int tell_refused(const struct arguments *given, const struct run_given *run)
{
    FILE *to = status_lines(given->words[1]);
    if (!given->json)
        return tell_run(to, "watched run", run, &left);
    tell_as_json(to, given, run);
    return (int)left.answer.number;
}

/* A target table's statements may use temporaries, which stand in no memory. */
static struct used_pointer pointer_used(const struct arguments *given)
{
    struct used_pointer used = {0};
    if (given->target || given->before != 0 || !used_pointer(read_in.bytes, left.answer, left.memory, &used))
        used.name = 0;
    return used;
}

/* The record at which the run ended, or with which it would go on; 0 where it finished. A target table's is one that
 * the answer does not tell. */
static uint32_t record_come_to(const struct arguments *given, const struct run_given *run)
{
    if (given->before != 0 || left.answer.number == RECORDER_DONE)
        return given->before;
    return run->is_target ? record_ended(run) : left.answer.record;
}

/* The variables in scope there; variable 0 is block 1 throughout. */
static void find_variables(uint32_t record)
{
    struct moment at = {.variables = {1}};
    if (record != 0)
        at = moment_left(read_in.bytes, record, left.answer.number, left.memory);
    memcpy(picture.variables, at.variables, sizeof picture.variables);
    picture.table = &read_in;
}

static int write_picture(const struct arguments *given)
{
    FILE *file = NULL;
    int status = open_to_write(given->words[1], given->force, &file);
    if (status != STATUS_DONE)
        return status;
    paint(file);
    return close_written(given->words[1], file);
}

int draw_command(const struct arguments *given)
{
    int status = table_read(given->words[0], given->format, &read_in);
    if (status != STATUS_DONE)
        return status;
    struct run_given run = run_of(given, &read_in);
    status = run_to_draw(given, &run);
    if (status != STATUS_DONE)
        return status;
    if (is_refusal(left.answer))
        return tell_refused(given, &run);
    uint32_t record = record_come_to(given, &run);
    caption_write(&caption, given->words[0], &run, &left, given->before, record);
    picture_lay_out(&picture, left.memory, left.observation, pointer_used(given), BLOCKS_Y);
    find_variables(record);
    status = write_picture(given);
    if (status != STATUS_DONE)
        return status;
    FILE *to = status_lines(given->words[1]);
    if (given->json)
        tell_as_json(to, given, &run);
    else
        fprintf(to, "draw: %s, %d by %d\n", given->words[1], picture.width, height_of_picture());
    return STATUS_DONE;
}
