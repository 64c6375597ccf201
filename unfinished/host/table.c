#include "table.h"

#include <inttypes.h>

#include "record.h"
#include "recorder.h"

uint32_t table_records(const struct table *table)
{
    return (uint32_t)(table->length / RECORDER_RECORD_BYTES);
}

void table_print(FILE *to, const char *in_front, const uint8_t *bytes, size_t length)
{
    for (uint32_t number = 1; (size_t)number * RECORDER_RECORD_BYTES <= length; number++) {
        struct record record = record_at(bytes, number);
        fprintf(to, "%s%" PRIu32 " %u %u %" PRIu32 " %" PRIu32 " %" PRIu32 " %" PRId64 "\n", in_front, number,
                record.kind, record.mark, record.a, record.b, record.c, record.literal);
    }
}
