#include "layout.h"
#include "paint.h"
#include "svg.h"

enum { DEAD_LINES = 4, SWATCH = 40, SWATCH_HEIGHT = 18 };

/* How a memory tells of a name. */
typedef struct side side_function(const uint8_t *memory, size_t name);

static bool is_dead(side_function *side_of, const uint8_t *memory, size_t name)
{
    return side_of(memory, name).is_dead;
}

/* "dead names: 3, 5 to 302". */
static void print_dead_names(struct phrase *into, side_function *side_of, const uint8_t *memory)
{
    const char *before = "dead names:";
    for (size_t name = 1; name <= RECORDER_NAMES; name++) {
        if (!is_dead(side_of, memory, name))
            continue;
        phrase_add(into, "%s %zu", before, name);
        before = ",";
        if (!is_dead(side_of, memory, name + 1))
            continue;
        while (is_dead(side_of, memory, name + 1))
            name++;
        phrase_add(into, " to %zu", name);
    }
    if (into->length == 0)
        phrase_add(into, "dead names: none");
}

/* Asked of the names: the words may be cut. */
static bool have_equal_dead(const struct picture *picture)
{
    for (size_t name = 1; name <= RECORDER_NAMES; name++)
        if (is_dead(execution_side, picture->memory, name) != is_dead(observation_side, picture->observation, name))
            return false;
    return true;
}

int paint_dead_names(FILE *to, const struct picture *picture, int y)
{
    struct phrase execution = {0}, observation = {0};
    print_dead_names(&execution, execution_side, picture->memory);
    print_dead_names(&observation, observation_side, picture->observation);
    int cells_x = MARGIN + LABEL_WIDTH, x = picture->observation_x, first = y + LINE_HEIGHT;
    size_t room = (size_t)picture->cell_width / CHARACTER_WIDTH, mark_room = MARK_WIDTH / CHARACTER_WIDTH;
    int lines = svg_lines(to, cells_x, first, "dead", execution.text, room, DEAD_LINES);
    int mark_lines = svg_lines(to, x, first, "dead", observation.text, mark_room, DEAD_LINES);
    int end = first + (lines > mark_lines ? lines : mark_lines) * LINE_HEIGHT;
    if (have_equal_dead(picture))
        return end;
    int warning = first + mark_lines * LINE_HEIGHT;
    if (to != NULL) {
        svg_box(to, x - 10, y, MARK_WIDTH + 10, warning + 10 - y, "no-mirror");
        svg_text(to, x, warning, "warning", "no mirror here");
    }
    return (end > warning ? end : warning) + LINE_HEIGHT + 8;
}

/* The signs of the legend: each is painted with its upper left end at (x, y). */
static void undefined_sign(FILE *to, int x, int y)
{
    svg_box(to, x, y, SWATCH, SWATCH_HEIGHT, "undefined");
}

static void arrow_sign(FILE *to, int x, int y)
{
    int middle = y + SWATCH_HEIGHT / 2;
    svg_line(to, x + 10, middle, x + SWATCH - 4, middle, "arrow");
    svg_dot(to, x + SWATCH - 4, middle);
    svg_head(to, x, middle);
}

static void cross_sign(FILE *to, int x, int y)
{
    int middle = y + SWATCH_HEIGHT / 2;
    svg_line(to, x + 4, middle, x + SWATCH - 12, middle, "arrow");
    svg_dot(to, x + 4, middle);
    svg_cross(to, x + SWATCH - 7, middle);
}

static void outside_sign(FILE *to, int x, int y)
{
    svg_box(to, x, y, SWATCH, SWATCH_HEIGHT, "outside");
}

static void initialised_sign(FILE *to, int x, int y)
{
    svg_box(to, x + SWATCH - SIGN, y + 3, SIGN, SIGN, "initialised");
}

static void not_initialised_sign(FILE *to, int x, int y)
{
    svg_box(to, x + SWATCH - SIGN, y + 3, SIGN, SIGN, "not-initialised");
}

static void no_mirror_sign(FILE *to, int x, int y)
{
    svg_box(to, x + 2, y, SWATCH - 2, SWATCH_HEIGHT, "no-mirror");
}

static void stub_sign(FILE *to, int x, int y)
{
    int middle = y + SWATCH_HEIGHT / 2;
    svg_line(to, x + SWATCH - 26, middle, x + SWATCH, middle, "arrow");
    svg_dot(to, x + SWATCH - 26, middle);
}

static const struct {
    bool is_right;
    int row;
    void (*paint)(FILE *to, int x, int y);
    const char *words;
} SIGNS[] = {
    {false, 0, undefined_sign, "undefined: nothing stored yet"},
    {false, 1, arrow_sign, "a pointer and the cell to which it leads"},
    {false, 2, cross_sign, "a pointer into a dead block"},
    {false, 3, outside_sign, "an offset outside the block"},
    {true, 0, initialised_sign, "initialised"},
    {true, 1, not_initialised_sign, "not initialised"},
    {true, 2, no_mirror_sign, "the memories differ here"},
    {true, 3, stub_sign, "a pointer whose arrow is not drawn"},
};

enum { SIGN_COUNT = sizeof SIGNS / sizeof SIGNS[0], SIGN_ROWS = 4, SIGN_ROW_HEIGHT = 26, LEGEND_GAP = 14 };

int paint_legend(FILE *to, const struct picture *picture, int y)
{
    if (to != NULL)
        svg_line(to, MARGIN, y, picture->width - MARGIN, y, "rule");
    for (size_t at = 0; to != NULL && at < SIGN_COUNT; at++) {
        int x = (SIGNS[at].is_right ? picture->observation_x : MARGIN + LABEL_WIDTH) - SWATCH - 10;
        int sign_y = y + LEGEND_GAP + SIGNS[at].row * SIGN_ROW_HEIGHT;
        SIGNS[at].paint(to, x, sign_y);
        svg_text(to, x + SWATCH + 10, sign_y + 14, "value", SIGNS[at].words);
    }
    return y + LEGEND_GAP + SIGN_ROWS * SIGN_ROW_HEIGHT;
}
