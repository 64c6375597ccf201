#include "characters.h"

size_t character_length(const unsigned char *text)
{
    static const struct {
        unsigned char low, high; /* of the first byte */
        unsigned char second_low, second_high;
        size_t length;
    } FORMS[] = {
        {0x20, 0x7E, 0, 0, 1},       {0xC2, 0xDF, 0x80, 0xBF, 2}, {0xE0, 0xE0, 0xA0, 0xBF, 3},
        {0xE1, 0xEC, 0x80, 0xBF, 3}, {0xED, 0xED, 0x80, 0x9F, 3}, {0xEE, 0xEF, 0x80, 0xBF, 3},
        {0xF0, 0xF0, 0x90, 0xBF, 4}, {0xF1, 0xF3, 0x80, 0xBF, 4}, {0xF4, 0xF4, 0x80, 0x8F, 4},
    };
    for (size_t at = 0; at < sizeof FORMS / sizeof FORMS[0]; at++) {
        if (text[0] < FORMS[at].low || text[0] > FORMS[at].high)
            continue;
        size_t length = FORMS[at].length;
        if (length > 1 && (text[1] < FORMS[at].second_low || text[1] > FORMS[at].second_high))
            return 0;
        for (size_t rest = 2; rest < length; rest++)
            if (text[rest] < 0x80 || text[rest] > 0xBF)
                return 0;
        return length;
    }
    return 0;
}
