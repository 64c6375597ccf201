#include "number.h"

#include <ctype.h>
#include <errno.h>
#include <stdlib.h>
#include <string.h>

bool number_from_text(const char *text, int64_t low, int64_t high, int64_t *number)
{
    /* strtoll would pass over spaces and a plus sign. */
    const char *digits = text[0] == '-' ? text + 1 : text;
    if (!isdigit((unsigned char)digits[0]))
        return false;
    char *end = NULL;
    errno = 0;
    long long read = strtoll(text, &end, 10);
    if (errno != 0 || *end != '\0' || read < low || read > high)
        return false;
    *number = read;
    return true;
}

uint64_t number_from_bytes(const uint8_t *bytes, size_t width)
{
    uint64_t number = 0;
    for (size_t at = width; at > 0; at--)
        number = number << 8 | bytes[at - 1];
    return number;
}

int64_t signed_from_bytes(const uint8_t *bytes)
{
    uint64_t bits = number_from_bytes(bytes, sizeof bits);
    int64_t number;
    memcpy(&number, &bits, sizeof number);
    return number;
}

void number_to_bytes(int64_t number, uint8_t *bytes, size_t width)
{
    uint64_t bits = (uint64_t)number;
    for (size_t at = 0; at < width; at++)
        bytes[at] = (uint8_t)(bits >> (8 * at));
}
