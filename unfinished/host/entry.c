#include "entry.h"

#include <stdio.h>
#include <string.h>

#include "account.h"
#include "answer_file.h"
#include "difference.h"
#include "recorder.h"
#include "sha256.h"

enum { DIGITS = 2 * SHA256_BYTES };

const char *entry_file_name(enum entry_file file)
{
    static const char *const NAMES[ENTRY_FILES] = {
        "source.table",     "target.table",       "inputs",      "answer.txt",
        "execution.memory", "observation.memory", "account.txt", "SHA256SUMS",
    };
    return NAMES[file];
}

static void put(struct entry *into, enum entry_file file, const void *bytes, size_t length)
{
    memcpy(into->bytes[file], bytes, length);
    into->lengths[file] = length;
}

static void put_answer(struct entry *into, const struct derived *derived)
{
    struct phrase lines = {0};
    struct answer_file file = answer_file_of(derived);
    answer_file_print(&lines, &file);
    put(into, ENTRY_ANSWER, lines.text, lines.length);
}

static bool put_account(struct entry *into, const struct derived *derived)
{
    FILE *account = fmemopen(into->bytes[ENTRY_ACCOUNT], ENTRY_FILE_ROOM, "w");
    if (account == NULL)
        return false;
    print_account(account, derived);
    bool has_room = fflush(account) == 0 && !ferror(account);
    into->lengths[ENTRY_ACCOUNT] = (size_t)ftell(account);
    fclose(account);
    return has_room;
}

bool entry_of_run(const struct derived *derived, struct entry *into)
{
    put(into, ENTRY_SOURCE, derived->source.bytes, derived->source.length);
    put(into, ENTRY_TARGET, derived->target.bytes, derived->target.length);
    put(into, ENTRY_INPUTS, derived->run.inputs, derived->run.inputs_length);
    put_answer(into, derived);
    put(into, ENTRY_MEMORY, derived->watched.memory, RECORDER_MEMORY_BYTES);
    put(into, ENTRY_OBSERVATION, derived->watched.observation, RECORDER_OBSERVATION_BYTES);
    return put_account(into, derived);
}

/* A file's line: 64 hexadecimal digits, two spaces, its name. */
static void print_checksum(struct phrase *into, const struct entry *entry, enum entry_file file)
{
    static const char HEXADECIMAL[] = "0123456789abcdef";
    uint8_t sum[SHA256_BYTES];
    char digits[DIGITS + 1] = {0};
    sha256(entry->bytes[file], entry->lengths[file], sum);
    for (size_t at = 0; at < SHA256_BYTES; at++) {
        digits[2 * at] = HEXADECIMAL[sum[at] >> 4];
        digits[2 * at + 1] = HEXADECIMAL[sum[at] & 15];
    }
    phrase_add(into, "%s  %s\n", digits, entry_file_name(file));
}

void entry_add_checksums(struct entry *entry)
{
    struct phrase lines = {0};
    for (enum entry_file file = 0; file < ENTRY_CHECKSUMS; file++)
        print_checksum(&lines, entry, file);
    put(entry, ENTRY_CHECKSUMS, lines.text, lines.length);
}

void entry_check_checksums(const struct entry *entry, struct phrase *difference)
{
    const uint8_t *found = entry->bytes[ENTRY_CHECKSUMS];
    size_t left = entry->lengths[ENTRY_CHECKSUMS];
    for (enum entry_file file = 0; file < ENTRY_CHECKSUMS; file++) {
        struct phrase line = {0};
        print_checksum(&line, entry, file);
        const char *name = entry_file_name(file);
        if (left < line.length || memcmp(found + DIGITS, line.text + DIGITS, line.length - DIGITS) != 0) {
            phrase_add(next_difference(difference), "SHA256SUMS, line %u: not a checksum and %s", file + 1, name);
            return;
        }
        if (memcmp(found, line.text, DIGITS) != 0)
            phrase_add(next_difference(difference), "%s: not the checksum that SHA256SUMS has", name);
        found += line.length;
        left -= line.length;
    }
    if (left > 0)
        phrase_add(next_difference(difference), "SHA256SUMS: %zu bytes behind its last line", left);
}
