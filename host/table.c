#include "table.h"

#include <errno.h>
#include <inttypes.h>
#include <string.h>

#include "number.h"
#include "recorder.h"
#include "status.h"
#include "text.h"

static int cannot(const char *what, const char *path, int status)
{
    fprintf(stderr, "recorder: cannot %s %s: %s\n", what, path, strerror(errno));
    return status;
}

int bytes_read(const char *path, uint8_t *bytes, size_t room, size_t *length)
{
    FILE *file = fopen(path, "rb");
    if (file == NULL)
        return cannot("open", path, STATUS_READ);
    *length = fread(bytes, 1, room, file);
    int status = STATUS_DONE;
    if (ferror(file)) {
        status = cannot("read", path, STATUS_READ);
    } else if (fgetc(file) != EOF) {
        fprintf(stderr, "recorder: %s is longer than %zu bytes\n", path, room);
        status = STATUS_TABLE;
    }
    fclose(file);
    return status;
}

static int text_read(const char *path, struct table *into)
{
    FILE *file = fopen(path, "r");
    if (file == NULL)
        return cannot("open", path, STATUS_READ);
    int status = table_from_text(file, path, into);
    if (ferror(file))
        status = cannot("read", path, STATUS_READ);
    fclose(file);
    return status;
}

int table_read(const char *path, struct table *into)
{
    const char *ending = strrchr(path, '.');
    if (ending != NULL && strcmp(ending, ".txt") == 0)
        return text_read(path, into);
    return bytes_read(path, into->bytes, sizeof into->bytes, &into->length);
}

int table_write(const char *path, const uint8_t *bytes, size_t length)
{
    FILE *file = fopen(path, "wb");
    if (file == NULL)
        return cannot("open", path, STATUS_WRITE);
    size_t written = fwrite(bytes, 1, length, file);
    /* What is still in the stream's buffer may fail to be written when it is closed. */
    if (fclose(file) != 0 || written != length)
        return cannot("write", path, STATUS_WRITE);
    return STATUS_DONE;
}

void table_print(const uint8_t *bytes, size_t length)
{
    for (size_t number = 1; number * RECORDER_RECORD_BYTES <= length; number++) {
        const uint8_t *record = bytes + (number - 1) * RECORDER_RECORD_BYTES;
        printf("%zu %u %u %" PRIu64 " %" PRIu64 " %" PRIu64 " %" PRId64 "\n", number, record[0], record[1],
               number_from_bytes(record + 2, 2), number_from_bytes(record + 4, 2), number_from_bytes(record + 6, 2),
               signed_from_bytes(record + 8));
    }
}
