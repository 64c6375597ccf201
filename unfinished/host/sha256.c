#include "sha256.h"

#include <string.h>

enum { BLOCK_BYTES = 64, GIVEN_WORDS = 16, ROUNDS = 64, STATE_WORDS = 8, LENGTH_BYTES = 8 };

/* FIPS 180-4, 4.2.2: of the cube roots of the first 64 primes. */
static const uint32_t CONSTANTS[ROUNDS] = {
    0x428a2f98, 0x71374491, 0xb5c0fbcf, 0xe9b5dba5, 0x3956c25b, 0x59f111f1, 0x923f82a4, 0xab1c5ed5,
    0xd807aa98, 0x12835b01, 0x243185be, 0x550c7dc3, 0x72be5d74, 0x80deb1fe, 0x9bdc06a7, 0xc19bf174,
    0xe49b69c1, 0xefbe4786, 0x0fc19dc6, 0x240ca1cc, 0x2de92c6f, 0x4a7484aa, 0x5cb0a9dc, 0x76f988da,
    0x983e5152, 0xa831c66d, 0xb00327c8, 0xbf597fc7, 0xc6e00bf3, 0xd5a79147, 0x06ca6351, 0x14292967,
    0x27b70a85, 0x2e1b2138, 0x4d2c6dfc, 0x53380d13, 0x650a7354, 0x766a0abb, 0x81c2c92e, 0x92722c85,
    0xa2bfe8a1, 0xa81a664b, 0xc24b8b70, 0xc76c51a3, 0xd192e819, 0xd6990624, 0xf40e3585, 0x106aa070,
    0x19a4c116, 0x1e376c08, 0x2748774c, 0x34b0bcb5, 0x391c0cb3, 0x4ed8aa4a, 0x5b9cca4f, 0x682e6ff3,
    0x748f82ee, 0x78a5636f, 0x84c87814, 0x8cc70208, 0x90befffa, 0xa4506ceb, 0xbef9a3f7, 0xc67178f2,
};

/* 5.3.3: of the square roots of the first eight. */
static const uint32_t START[STATE_WORDS] = {
    0x6a09e667, 0xbb67ae85, 0x3c6ef372, 0xa54ff53a, 0x510e527f, 0x9b05688c, 0x1f83d9ab, 0x5be0cd19,
};

static inline uint32_t rotate_right(uint32_t word, unsigned by)
{
    return word >> by | word << (32 - by);
}

static inline uint32_t word_from_bytes(const uint8_t *bytes)
{
    return (uint32_t)bytes[0] << 24 | (uint32_t)bytes[1] << 16 | (uint32_t)bytes[2] << 8 | bytes[3];
}

/* 6.2.2, step 1: the block's own 16 words, and 48 that follow from them. Those of a block of zeros are zeros, and a
 * memory has many such blocks. */
static inline const uint32_t *schedule(const uint8_t *block, uint32_t *words)
{
    static const uint32_t ZEROS[ROUNDS] = {0};
    if (memcmp(block, ZEROS, BLOCK_BYTES) == 0)
        return ZEROS;
    for (size_t at = 0; at < GIVEN_WORDS; at++)
        words[at] = word_from_bytes(block + 4 * at);
    for (size_t at = GIVEN_WORDS; at < ROUNDS; at++) {
        uint32_t near = words[at - 2], far = words[at - 15];
        uint32_t near_mixed = rotate_right(near, 17) ^ rotate_right(near, 19) ^ near >> 10;
        uint32_t far_mixed = rotate_right(far, 7) ^ rotate_right(far, 18) ^ far >> 3;
        words[at] = near_mixed + words[at - 7] + far_mixed + words[at - 16];
    }
    return words;
}

/* Step 3, one round. The letters are the standard's; instead of moving each word on, the caller names the next round's
 * words by other letters, so that only d and h change. */
static inline void turn(uint32_t a, uint32_t b, uint32_t c, uint32_t *d, uint32_t e, uint32_t f, uint32_t g,
                        uint32_t *h, uint32_t added)
{
    uint32_t chosen = g ^ (e & (f ^ g));
    uint32_t majority = (a & b) | (c & (a | b));
    uint32_t first = *h + (rotate_right(e, 6) ^ rotate_right(e, 11) ^ rotate_right(e, 25)) + chosen + added;
    *d += first;
    *h = first + (rotate_right(a, 2) ^ rotate_right(a, 13) ^ rotate_right(a, 22)) + majority;
}

static void add_block(uint32_t *state, const uint8_t *block)
{
    uint32_t room[ROUNDS];
    const uint32_t *words = schedule(block, room);
    uint32_t a = state[0], b = state[1], c = state[2], d = state[3];
    uint32_t e = state[4], f = state[5], g = state[6], h = state[7];
    for (size_t at = 0; at < ROUNDS; at += STATE_WORDS) {
        turn(a, b, c, &d, e, f, g, &h, CONSTANTS[at] + words[at]);
        turn(h, a, b, &c, d, e, f, &g, CONSTANTS[at + 1] + words[at + 1]);
        turn(g, h, a, &b, c, d, e, &f, CONSTANTS[at + 2] + words[at + 2]);
        turn(f, g, h, &a, b, c, d, &e, CONSTANTS[at + 3] + words[at + 3]);
        turn(e, f, g, &h, a, b, c, &d, CONSTANTS[at + 4] + words[at + 4]);
        turn(d, e, f, &g, h, a, b, &c, CONSTANTS[at + 5] + words[at + 5]);
        turn(c, d, e, &f, g, h, a, &b, CONSTANTS[at + 6] + words[at + 6]);
        turn(b, c, d, &e, f, g, h, &a, CONSTANTS[at + 7] + words[at + 7]);
    }
    const uint32_t turned[STATE_WORDS] = {a, b, c, d, e, f, g, h};
    for (size_t at = 0; at < STATE_WORDS; at++)
        state[at] += turned[at];
}

static void big_endian(uint64_t number, uint8_t *bytes, size_t width)
{
    for (size_t at = 0; at < width; at++)
        bytes[at] = (uint8_t)(number >> (8 * (width - 1 - at)));
}

void sha256(const uint8_t *bytes, size_t length, uint8_t *sum)
{
    uint32_t state[STATE_WORDS];
    memcpy(state, START, sizeof state);
    size_t whole = length - length % BLOCK_BYTES, rest = length - whole;
    for (size_t at = 0; at < whole; at += BLOCK_BYTES)
        add_block(state, bytes + at);
    /* 5.1.1: a bit 1, zeros, and the length in bits at the end of a block. */
    uint8_t last[2 * BLOCK_BYTES] = {0};
    memcpy(last, bytes + whole, rest);
    last[rest] = 0x80;
    size_t end = rest + 1 + LENGTH_BYTES <= BLOCK_BYTES ? BLOCK_BYTES : 2 * BLOCK_BYTES;
    big_endian((uint64_t)length * 8, last + end - LENGTH_BYTES, LENGTH_BYTES);
    for (size_t at = 0; at < end; at += BLOCK_BYTES)
        add_block(state, last + at);
    for (size_t at = 0; at < STATE_WORDS; at++)
        big_endian(state[at], sum + 4 * at, 4);
}
