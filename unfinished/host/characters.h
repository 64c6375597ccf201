/* Characters of UTF-8. */
#ifndef HOST_CHARACTERS_H
#define HOST_CHARACTERS_H

#include <stddef.h>

/* How many bytes the printable character at the text's start takes in UTF-8, 0 where it is none. */
size_t character_length(const unsigned char *text);

#endif
