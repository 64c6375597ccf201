#include "entry.h"

#include <errno.h>
#include <fcntl.h>
#include <stdio.h>
#include <string.h>
#include <sys/stat.h>
#include <unistd.h>

#include "difference.h"
#include "recorder.h"
#include "status.h"

static int cannot(const char *what, const char *folder, const char *name)
{
    fprintf(stderr, "recorder: cannot %s %s%s%s: %s\n", what, folder, name == NULL ? "" : "/", name == NULL ? "" : name,
            strerror(errno));
    return STATUS_WRITE;
}

static bool write_all(int file, const uint8_t *bytes, size_t length)
{
    while (length > 0) {
        ssize_t written = write(file, bytes, length);
        if (written < 0 && errno == EINTR)
            continue;
        if (written <= 0)
            return false;
        bytes += written;
        length -= (size_t)written;
    }
    return true;
}

/* Writes a file of an open folder. */
static bool write_file(int folder, const char *name, const uint8_t *bytes, size_t length)
{
    int file = openat(folder, name, O_WRONLY | O_CREAT | O_TRUNC, 0666);
    if (file < 0)
        return false;
    bool written = write_all(file, bytes, length);
    return close(file) == 0 && written;
}

static int write_files(const char *path, int folder, const struct entry *entry)
{
    /* Old checksums would be those of a whole entry while this one is not. */
    unlinkat(folder, entry_file_name(ENTRY_CHECKSUMS), 0);
    for (enum entry_file file = 0; file < ENTRY_FILES; file++)
        if (!write_file(folder, entry_file_name(file), entry->bytes[file], entry->lengths[file]))
            return cannot("write", path, entry_file_name(file));
    return STATUS_DONE;
}

int entry_write(const char *folder, bool force, const struct entry *entry)
{
    bool is_there = mkdir(folder, 0777) != 0;
    if (is_there && errno != EEXIST)
        return cannot("make the folder", folder, NULL);
    if (is_there && !force) {
        fprintf(stderr, "recorder: %s exists; --force writes an entry over it\n", folder);
        return STATUS_WRITE;
    }
    int opened = open(folder, O_RDONLY | O_DIRECTORY);
    if (opened < 0)
        return cannot("open", folder, NULL);
    int status = write_files(folder, opened, entry);
    close(opened);
    return status;
}

/* The most bytes that a file of an entry can have. */
static size_t most_bytes(enum entry_file file)
{
    static const size_t MOST[ENTRY_FILES] = {
        [ENTRY_SOURCE] = RECORDER_SOURCE_RECORDS * RECORDER_RECORD_BYTES,
        [ENTRY_TARGET] = RECORDER_TRANSLATION_BYTES,
        [ENTRY_INPUTS] = RECORDER_INPUTS * RECORDER_INPUT_BYTES,
        [ENTRY_ANSWER] = 256,
        [ENTRY_MEMORY] = RECORDER_MEMORY_BYTES,
        [ENTRY_OBSERVATION] = RECORDER_OBSERVATION_BYTES,
        [ENTRY_ACCOUNT] = ENTRY_FILE_ROOM - 1,
        [ENTRY_CHECKSUMS] = 1024,
    };
    return MOST[file];
}

/* Reads at most `room` bytes; false where it cannot. */
static bool read_all(int file, uint8_t *bytes, size_t room, size_t *length)
{
    *length = 0;
    while (*length < room) {
        ssize_t got = read(file, bytes + *length, room - *length);
        if (got < 0 && errno == EINTR)
            continue;
        if (got < 0)
            return false;
        if (got == 0)
            break;
        *length += (size_t)got;
    }
    return true;
}

static void read_opened(int opened, enum entry_file file, struct entry *into, struct phrase *difference)
{
    const char *name = entry_file_name(file);
    struct stat found;
    if (fstat(opened, &found) != 0 || !S_ISREG(found.st_mode))
        phrase_add(next_difference(difference), "%s: no file", name);
    else if (!read_all(opened, into->bytes[file], most_bytes(file) + 1, &into->lengths[file]))
        phrase_add(next_difference(difference), "%s: cannot be read: %s", name, strerror(errno));
    else if (into->lengths[file] > most_bytes(file))
        phrase_add(next_difference(difference), "%s: longer than %zu bytes", name, most_bytes(file));
}

static void read_file(int folder, enum entry_file file, struct entry *into, struct phrase *difference)
{
    into->lengths[file] = 0;
    /* A pipe in a file's place would wait for a writer. */
    int opened = openat(folder, entry_file_name(file), O_RDONLY | O_NONBLOCK);
    if (opened < 0) {
        phrase_add(next_difference(difference), "%s: %s", entry_file_name(file),
                   errno == ENOENT ? "missing" : strerror(errno));
        return;
    }
    read_opened(opened, file, into, difference);
    close(opened);
}

void entry_read(const char *folder, struct entry *into, struct phrase *difference)
{
    int opened = open(folder, O_RDONLY | O_DIRECTORY);
    if (opened < 0) {
        phrase_add(next_difference(difference), "the folder cannot be opened: %s", strerror(errno));
        return;
    }
    for (enum entry_file file = 0; file < ENTRY_FILES; file++)
        read_file(opened, file, into, difference);
    close(opened);
}
