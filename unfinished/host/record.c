#include "record.h"

#include "number.h"
#include "recorder.h"

static size_t start_of(uint32_t number)
{
    return (size_t)(number - 1) * RECORDER_RECORD_BYTES;
}

struct record record_at(const uint8_t *table, uint32_t number)
{
    const uint8_t *bytes = table + start_of(number);
    return (struct record){
        .kind = bytes[0],
        .mark = bytes[1],
        .a = (uint32_t)number_from_bytes(bytes + 2, 2),
        .b = (uint32_t)number_from_bytes(bytes + 4, 2),
        .c = (uint32_t)number_from_bytes(bytes + 6, 2),
        .literal = signed_from_bytes(bytes + 8),
    };
}

void record_put(uint8_t *table, uint32_t number, struct record record)
{
    uint8_t *bytes = table + start_of(number);
    bytes[0] = record.kind;
    bytes[1] = record.mark;
    number_to_bytes(record.a, bytes + 2, 2);
    number_to_bytes(record.b, bytes + 4, 2);
    number_to_bytes(record.c, bytes + 6, 2);
    number_to_bytes(record.literal, bytes + 8, 8);
}

bool has_child_c(uint8_t kind)
{
    return kind != 63 && kind != 64;
}

bool is_statement(uint8_t kind)
{
    return (kind >= 40 && kind <= 48) || (kind >= 60 && kind <= 70 && kind != 62);
}
