/* The bytes of documents 01 and 02 as C structures, on a little-endian machine. Packed: the host may lend bytes at any
 * address. */
#ifndef LAYOUT_H
#define LAYOUT_H

#include <stdint.h>

enum { SOURCE_RECORDS = 256, TARGET_RECORDS = 4096, NAMES = 4095, CELLS = 1024, VARIABLES = 64, TEMPORARIES = 64 };
enum { INPUTS = 256, MOST_RECORDS_EACH = 14 };

#define LAID_OUT __attribute__((packed, may_alias))

typedef struct LAID_OUT record {
    uint8_t kind, mark;
    uint16_t child[3];
    int64_t literal;
} record;

typedef struct LAID_OUT block {
    uint8_t state, zero;
    uint16_t first, length, zeros; /* the length is 0 unless the block is live */
} block;

/* A cell's first word has its kind in byte 0, its owner in bytes 2-3 and the name that it points to in bytes 4-5. */
typedef struct LAID_OUT cell {
    uint64_t word;
    int64_t number;
} cell;

enum { OWNER_AT = 16, NAME_AT = 32 };
#define OWNER_BITS (UINT64_C(0xffff) << OWNER_AT)
#define KIND_BITS UINT64_C(0xff)

typedef struct LAID_OUT execution_memory {
    block blocks[NAMES];
    cell cells[CELLS];
} execution_memory;

typedef struct LAID_OUT observation_memory {
    block blocks[NAMES];
    uint8_t marks[CELLS];
} observation_memory;

_Static_assert(sizeof(record) == 16 && sizeof(execution_memory) == 49144 && sizeof(observation_memory) == 33784,
               "the layouts of documents 01 and 02");

#endif
