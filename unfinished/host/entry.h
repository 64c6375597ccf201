/* An entry of the archive: the files of its folder, as docs/ARCHIVE.md describes them. */
#ifndef HOST_ENTRY_H
#define HOST_ENTRY_H

#include <stdbool.h>
#include <stddef.h>
#include <stdint.h>

#include "derive.h"
#include "phrase.h"

/* In the order in which they are written: an entry that was not written to its end has no checksums. */
enum entry_file {
    ENTRY_SOURCE,
    ENTRY_TARGET,
    ENTRY_INPUTS,
    ENTRY_ANSWER,
    ENTRY_MEMORY,
    ENTRY_OBSERVATION,
    ENTRY_ACCOUNT,
    ENTRY_CHECKSUMS,
    ENTRY_FILES
};

enum { ENTRY_FILE_ROOM = 512 * 1024 }; /* more than the longest account */

struct entry {
    size_t lengths[ENTRY_FILES];
    uint8_t bytes[ENTRY_FILES][ENTRY_FILE_ROOM];
};

/* How a file of an entry is called. */
const char *entry_file_name(enum entry_file file);

/* Makes all files of a run's entry but the checksums; false where the account found no room. */
bool entry_of_run(const struct derived *derived, struct entry *into);

/* Makes the checksums, one line a file, as sha256sum does. */
void entry_add_checksums(struct entry *entry);

/* Adds what is wrong with the checksums of an entry that was read, which its other files decide. */
void entry_check_checksums(const struct entry *entry, struct phrase *difference);

/* Writes an entry to a new folder, or with `force` over the files of one that exists. The status is 0, or that of an
 * error that was told on standard error. */
int entry_write(const char *folder, bool force, const struct entry *entry);

/* Reads the files of a folder; adds what cannot be read, and then the rest counts for nothing. */
void entry_read(const char *folder, struct entry *into, struct phrase *difference);

#endif
