/* A piece of text that is put together bit by bit. */
#ifndef HOST_PHRASE_H
#define HOST_PHRASE_H

#include <stdbool.h>
#include <stddef.h>

enum { PHRASE_ROOM = 4096 };

/* Starts as {0}. The text always ends in a NUL. */
struct phrase {
    char text[PHRASE_ROOM];
    size_t length;
};

/* Adds to the end, as printf would print it. What does not fit is left out, and the text then ends in "..". */
void phrase_add(struct phrase *phrase, const char *format, ...) __attribute__((format(printf, 2, 3)));

/* Whether nothing more fits. */
bool phrase_is_full(const struct phrase *phrase);

#endif
