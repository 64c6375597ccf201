#include "phrase.h"

#include <stdarg.h>
#include <stdio.h>
#include <string.h>

static const char CUT[] = "..";

bool phrase_is_full(const struct phrase *phrase)
{
    return phrase->length == PHRASE_ROOM - 1;
}

void phrase_add(struct phrase *phrase, const char *format, ...)
{
    size_t room = PHRASE_ROOM - phrase->length;
    va_list values;
    va_start(values, format);
    int wanted = vsnprintf(phrase->text + phrase->length, room, format, values);
    va_end(values);
    if (wanted >= 0 && (size_t)wanted < room) {
        phrase->length += (size_t)wanted;
        return;
    }
    phrase->length = PHRASE_ROOM - 1;
    memcpy(phrase->text + phrase->length - strlen(CUT), CUT, sizeof CUT);
}
