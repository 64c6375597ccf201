/* Objects of JSON, one a line. */
#ifndef HOST_JSON_H
#define HOST_JSON_H

#include <stdbool.h>
#include <stdint.h>
#include <stdio.h>

struct json {
    FILE *to;
    bool is_first; /* nothing stands before the next member, so no comma is due */
};

/* Begins a line's object with its member "command", and ends it. */
struct json json_begin(FILE *to, const char *command);
void json_end(struct json *json);

/* Members of the object that is open; in a list the key is NULL. A text may have any bytes: those that are no UTF-8
 * become U+FFFD. */
void json_text(struct json *json, const char *key, const char *text);
void json_number(struct json *json, const char *key, int64_t number);
void json_truth(struct json *json, const char *key, bool truth);
void json_null(struct json *json, const char *key);

/* An object or a list as a member. */
void json_open_object(struct json *json, const char *key);
void json_close_object(struct json *json);
void json_open_list(struct json *json, const char *key);
void json_close_list(struct json *json);

#endif
