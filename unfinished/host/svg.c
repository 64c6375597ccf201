#include "svg.h"

#include <stdbool.h>
#include <string.h>

#include "characters.h"

/* Shapes and patterns say everything; the colours (Okabe and Ito's) say it again. */
static const char STYLES[] =
    "<style>\n"
    "text { font-family: sans-serif; font-size: 13px; fill: #000 }\n"
    ".heading { font-size: 17px; font-weight: bold }\n"
    ".title { font-size: 15px; font-weight: bold }\n"
    ".name { font-weight: bold }\n"
    ".label, .span { text-anchor: end; fill: #444 }\n"
    ".span { font-size: 12px }\n"
    ".dead { fill: #767676 }\n"
    ".warning { font-weight: bold; fill: #a04000 }\n"
    ".page { fill: #fff }\n"
    ".cell, .mark { fill: #fff; stroke: #000; stroke-width: 1 }\n"
    ".undefined { fill: url(#hatching); stroke: #000; stroke-width: 1 }\n"
    ".paper { fill: #fff }\n"
    ".block { fill: none; stroke: #000; stroke-width: 2 }\n"
    ".outside { fill: none; stroke: #444; stroke-width: 1.5; stroke-dasharray: 5 4 }\n"
    ".no-mirror { fill: none; stroke: #d55e00; stroke-width: 4 }\n"
    ".initialised { fill: #007355; stroke: #000; stroke-width: 1.5 }\n"
    ".not-initialised { fill: #fff; stroke: #000; stroke-width: 1.5 }\n"
    ".arrow { fill: none; stroke: #0072b2; stroke-width: 1.5 }\n"
    ".dot, .head { fill: #0072b2 }\n"
    ".cross { fill: none; stroke: #d55e00; stroke-width: 3 }\n"
    ".rule { stroke: #999; stroke-width: 1 }\n"
    "</style>\n"
    "<defs>\n"
    "<pattern id=\"hatching\" width=\"7\" height=\"7\" patternUnits=\"userSpaceOnUse\" "
    "patternTransform=\"rotate(45)\">\n"
    "<rect width=\"7\" height=\"7\" fill=\"#fff\"/><rect width=\"2\" height=\"7\" fill=\"#999\"/>\n"
    "</pattern>\n"
    "</defs>\n";

/* Control characters beyond ASCII, and the two that XML rules out, are no text. */
static size_t writable_length(const unsigned char *text)
{
    size_t length = character_length(text);
    bool is_control = length == 2 && text[0] == 0xC2 && text[1] < 0xA0;
    bool is_ruled_out = length == 3 && text[0] == 0xEF && text[1] == 0xBF && text[2] >= 0xBE;
    return is_control || is_ruled_out ? 0 : length;
}

/* Writes one character; how many bytes of the text it took. */
static size_t write_character(FILE *to, const unsigned char *text)
{
    size_t length = writable_length(text);
    if (length == 0)
        fputc('?', to);
    else if (*text == '<')
        fputs("&lt;", to);
    else if (*text == '>')
        fputs("&gt;", to);
    else if (*text == '&')
        fputs("&amp;", to);
    else
        fwrite(text, 1, length, to);
    return length == 0 ? 1 : length;
}

static void write_text(FILE *to, const char *text, size_t length)
{
    for (size_t at = 0; at < length;)
        at += write_character(to, (const unsigned char *)text + at);
}

static void write_element(FILE *to, const char *name, const char *text)
{
    fprintf(to, "<%s>", name);
    write_text(to, text, strlen(text));
    fprintf(to, "</%s>\n", name);
}

void svg_open(FILE *to, int width, int height, const char *title, const char *description)
{
    fprintf(to,
            "<?xml version=\"1.0\" encoding=\"UTF-8\"?>\n"
            "<svg xmlns=\"http://www.w3.org/2000/svg\" role=\"img\" width=\"%d\" height=\"%d\" "
            "viewBox=\"0 0 %d %d\">\n",
            width, height, width, height);
    write_element(to, "title", title);
    write_element(to, "desc", description);
    fputs(STYLES, to);
    svg_box(to, 0, 0, width, height, "page");
}

void svg_close(FILE *to)
{
    fputs("</svg>\n", to);
}

void svg_open_group(FILE *to, int y)
{
    fprintf(to, "<g transform=\"translate(0 %d)\">\n", y);
}

void svg_close_group(FILE *to)
{
    fputs("</g>\n", to);
}

static void write_line(FILE *to, int x, int y, const char *style, const char *text, size_t length, const char *end)
{
    fprintf(to, "<text x=\"%d\" y=\"%d\" class=\"%s\">", x, y, style);
    write_text(to, text, length);
    fprintf(to, "%s</text>\n", end);
}

void svg_text(FILE *to, int x, int y, const char *style, const char *text)
{
    write_line(to, x, y, style, text, strlen(text), "");
}

/* How many bytes of the text a line of so many characters takes: up to a space, where there is one. */
static size_t line_length(const char *text, size_t characters)
{
    size_t length = 0, space = 0;
    for (size_t count = 0; count < characters; count++) {
        if (text[length] == '\0')
            return length;
        if (text[length] == ' ')
            space = length;
        size_t taken = writable_length((const unsigned char *)text + length);
        length += taken == 0 ? 1 : taken;
    }
    return text[length] == '\0' || text[length] == ' ' || space == 0 ? length : space;
}

int svg_lines(FILE *to, int x, int y, const char *style, const char *text, size_t characters, int most_lines)
{
    int count = 0;
    while (*text != '\0' && count < most_lines) {
        size_t length = line_length(text, characters);
        bool is_cut = count == most_lines - 1 && text[length] != '\0';
        if (to != NULL)
            write_line(to, x, y + count * LINE_HEIGHT, style, text, length, is_cut ? " .." : "");
        text += length;
        while (*text == ' ')
            text++;
        count++;
    }
    return count;
}

void svg_box(FILE *to, int x, int y, int width, int height, const char *style)
{
    fprintf(to, "<rect x=\"%d\" y=\"%d\" width=\"%d\" height=\"%d\" class=\"%s\"/>\n", x, y, width, height, style);
}

void svg_line(FILE *to, int from_x, int from_y, int to_x, int to_y, const char *style)
{
    fprintf(to, "<line x1=\"%d\" y1=\"%d\" x2=\"%d\" y2=\"%d\" class=\"%s\"/>\n", from_x, from_y, to_x, to_y, style);
}

void svg_dot(FILE *to, int x, int y)
{
    fprintf(to, "<circle cx=\"%d\" cy=\"%d\" r=\"4\" class=\"dot\"/>\n", x, y);
}

void svg_head(FILE *to, int x, int y)
{
    fprintf(to, "<path d=\"M%d %d l11 -5 v10 z\" class=\"head\"/>\n", x, y);
}

void svg_cross(FILE *to, int x, int y)
{
    fprintf(to, "<path d=\"M%d %d l10 10 m0 -10 l-10 10\" class=\"cross\"/>\n", x - 5, y - 5);
}
