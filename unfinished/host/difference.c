#include "difference.h"

#include <string.h>

struct phrase *next_difference(struct phrase *differences)
{
    if (differences->length > 0)
        phrase_add(differences, "; ");
    return differences;
}

void compare_bytes(const char *name, const uint8_t *found, size_t found_length, const uint8_t *right,
                   size_t right_length, struct phrase *differences)
{
    size_t common = found_length < right_length ? found_length : right_length;
    size_t at = 0;
    if (memcmp(found, right, common) != 0) {
        while (found[at] == right[at])
            at++;
        phrase_add(next_difference(differences), "%s, byte %zu: %u where the rules give %u", name, at, found[at],
                   right[at]);
    } else if (found_length != right_length) {
        phrase_add(next_difference(differences), "%s: %zu bytes where the rules give %zu", name, found_length,
                   right_length);
    }
}
