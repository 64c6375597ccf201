#include "files.h"

#include <errno.h>
#include <string.h>
#include <sys/stat.h>

#include "status.h"
#include "text.h"

enum { CONTENT_ROOM = 4 << 20 };

static bool is_standard(const char *path)
{
    return strcmp(path, "-") == 0;
}

static int cannot(const char *what, const char *path, int status)
{
    fprintf(stderr, "recorder: cannot %s %s: %s\n", what, path, strerror(errno));
    return status;
}

/* Standard input is read once: a second reader would find it empty. */
static int open_standard_input(FILE **file)
{
    static bool is_taken;
    if (is_taken) {
        fprintf(stderr, "recorder: standard input (-) is named twice, and can be read once\n");
        return STATUS_USAGE;
    }
    is_taken = true;
    *file = stdin;
    return STATUS_DONE;
}

static int open_to_read(const char *path, FILE **file)
{
    if (is_standard(path))
        return open_standard_input(file);
    *file = fopen(path, "rb");
    return *file == NULL ? cannot("open", path, STATUS_READ) : STATUS_DONE;
}

int first_bytes_read(const char *path, uint8_t *bytes, size_t room, size_t *length, bool *is_longer)
{
    FILE *file = NULL;
    int status = open_to_read(path, &file);
    if (status != STATUS_DONE)
        return status;
    *length = fread(bytes, 1, room, file);
    *is_longer = *length == room && fgetc(file) != EOF;
    if (ferror(file))
        status = cannot("read", path, STATUS_READ);
    if (file != stdin)
        fclose(file);
    return status;
}

static int too_long(const char *path, size_t room)
{
    fprintf(stderr, "recorder: %s is longer than %zu bytes\n", path, room);
    return STATUS_TABLE;
}

int bytes_read(const char *path, uint8_t *bytes, size_t room, size_t *length)
{
    bool is_longer = false;
    int status = first_bytes_read(path, bytes, room, length, &is_longer);
    return status == STATUS_DONE && is_longer ? too_long(path, room) : status;
}

/* The bytes of a table, as they are. */
static int table_from_bytes(const uint8_t *content, size_t length, const char *path, struct table *into)
{
    if (length > sizeof into->bytes)
        return too_long(path, sizeof into->bytes);
    memcpy(into->bytes, content, length);
    into->length = length;
    memset(into->names, 0, sizeof into->names);
    return STATUS_DONE;
}

int table_read(const char *path, enum format format, struct table *into)
{
    static uint8_t content[CONTENT_ROOM];
    size_t length = 0;
    int status = bytes_read(path, content, sizeof content, &length);
    if (status != STATUS_DONE)
        return status;
    if (format == FORMAT_TEXT || (format == FORMAT_BY_CONTENT && is_text(content, length)))
        return table_from_text(content, length, path, into);
    return table_from_bytes(content, length, path, into);
}

/* Whether there is a file that would be lost; a device or a pipe has nothing to lose. */
static bool would_be_lost(const char *path)
{
    struct stat found;
    return stat(path, &found) == 0 && S_ISREG(found.st_mode);
}

int open_to_write(const char *path, bool force, FILE **file)
{
    if (is_standard(path)) {
        *file = stdout;
        return STATUS_DONE;
    }
    if (!force && would_be_lost(path)) {
        fprintf(stderr, "recorder: %s exists; --force overwrites it\n", path);
        return STATUS_WRITE;
    }
    *file = fopen(path, "wb");
    return *file == NULL ? cannot("open", path, STATUS_WRITE) : STATUS_DONE;
}

int close_written(const char *path, FILE *file)
{
    /* What is still in the stream's buffer may fail to be written when it is closed. */
    bool failed = ferror(file) != 0 || fflush(file) != 0;
    if (file != stdout)
        failed |= fclose(file) != 0;
    return failed ? cannot("write", path, STATUS_WRITE) : STATUS_DONE;
}

int bytes_write(const char *path, bool force, const uint8_t *bytes, size_t length)
{
    FILE *file = NULL;
    int status = open_to_write(path, force, &file);
    if (status != STATUS_DONE)
        return status;
    fwrite(bytes, 1, length, file);
    return close_written(path, file);
}

FILE *status_lines(const char *output)
{
    return output != NULL && is_standard(output) ? stderr : stdout;
}
