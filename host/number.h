/* Numbers in text, and numbers in little-endian bytes. */
#ifndef HOST_NUMBER_H
#define HOST_NUMBER_H

#include <stdbool.h>
#include <stddef.h>
#include <stdint.h>

/* Reads a decimal number from low to high that is the whole text; false where it is none. */
bool number_from_text(const char *text, int64_t low, int64_t high, int64_t *number);

/* The first `width` bytes, at most 8, as an unsigned number. */
uint64_t number_from_bytes(const uint8_t *bytes, size_t width);

/* The eight bytes as a signed number. */
int64_t signed_from_bytes(const uint8_t *bytes);

/* Writes the number's lowest `width` bytes. */
void number_to_bytes(int64_t number, uint8_t *bytes, size_t width);

#endif
