/* Checksums by SHA-256, as FIPS 180-4 defines it. */
#ifndef HOST_SHA256_H
#define HOST_SHA256_H

#include <stddef.h>
#include <stdint.h>

enum { SHA256_BYTES = 32 };

/* Writes the SHA256_BYTES of the checksum to `sum`. */
void sha256(const uint8_t *bytes, size_t length, uint8_t *sum);

#endif
