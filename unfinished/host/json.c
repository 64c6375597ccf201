#include "json.h"

#include <inttypes.h>
#include <stddef.h>

#include "characters.h"

static void write_text(FILE *to, const char *text)
{
    const unsigned char *rest = (const unsigned char *)text;
    fputc('"', to);
    while (*rest != '\0') {
        size_t length = character_length(rest);
        if (*rest < 0x20 || *rest == 0x7F) {
            fprintf(to, "\\u%04x", *rest);
            length = 1;
        } else if (length == 0) {
            fputs("\\ufffd", to);
            length = 1;
        } else {
            if (*rest == '"' || *rest == '\\')
                fputc('\\', to);
            fwrite(rest, 1, length, to);
        }
        rest += length;
    }
    fputc('"', to);
}

static void begin_member(struct json *json, const char *key)
{
    if (!json->is_first)
        fputs(", ", json->to);
    json->is_first = false;
    if (key != NULL) {
        write_text(json->to, key);
        fputs(": ", json->to);
    }
}

static void open_part(struct json *json, const char *key, char bracket)
{
    begin_member(json, key);
    fputc(bracket, json->to);
    json->is_first = true;
}

static void close_part(struct json *json, char bracket)
{
    fputc(bracket, json->to);
    json->is_first = false;
}

struct json json_begin(FILE *to, const char *command)
{
    struct json json = {to, true};
    fputc('{', to);
    json_text(&json, "command", command);
    return json;
}

void json_end(struct json *json)
{
    fputs("}\n", json->to);
}

void json_text(struct json *json, const char *key, const char *text)
{
    begin_member(json, key);
    write_text(json->to, text);
}

void json_number(struct json *json, const char *key, int64_t number)
{
    begin_member(json, key);
    fprintf(json->to, "%" PRId64, number);
}

void json_truth(struct json *json, const char *key, bool truth)
{
    begin_member(json, key);
    fputs(truth ? "true" : "false", json->to);
}

void json_null(struct json *json, const char *key)
{
    begin_member(json, key);
    fputs("null", json->to);
}

void json_open_object(struct json *json, const char *key)
{
    open_part(json, key, '{');
}

void json_close_object(struct json *json)
{
    close_part(json, '}');
}

void json_open_list(struct json *json, const char *key)
{
    open_part(json, key, '[');
}

void json_close_list(struct json *json)
{
    close_part(json, ']');
}
