#include "commands.h"

#include <stdio.h>

#include "derive.h"
#include "entry.h"
#include "files.h"
#include "json.h"
#include "run.h"
#include "status.h"
#include "table.h"
#include "words.h"

static struct table read_in;
static struct derived derived;
static struct entry entry;

/* Tells the answer as `run` does, and an entry that was written. */
static void tell(const struct arguments *given, const struct run_given *run, bool is_written)
{
    const char *folder = given->words[0];
    if (given->json) {
        struct json json = json_begin(stdout, "archive");
        json_text(&json, "file", given->words[1]);
        json_text(&json, "entry", folder);
        json_run(&json, run, &derived.plain);
        json_end(&json);
        return;
    }
    tell_run(stdout, is_written ? "both runs" : "plain run", run, &derived.plain);
    if (is_written)
        printf("%s: entry written\n", folder);
}

static int cannot_derive(const struct arguments *given, const struct run_given *run, const struct phrase *parting)
{
    if (is_refusal(derived.plain.answer)) {
        tell(given, run, false);
        return (int)derived.plain.answer.number;
    }
    fprintf(stderr, "recorder: %s: no entry is written: %s\n", given->words[1], parting->text);
    return STATUS_PARTED;
}

int archive_command(const struct arguments *given)
{
    struct phrase parting = {0};
    int status = table_read(given->words[1], given->format, &read_in);
    if (status != STATUS_DONE)
        return status;
    struct run_given run = run_of(given, &read_in);
    if (!derive(&run, &derived, &parting))
        return cannot_derive(given, &run, &parting);
    if (!entry_of_run(&derived, &entry)) {
        fprintf(stderr, "recorder: %s: no entry is written: its account is too long\n", given->words[1]);
        return STATUS_WRITE;
    }
    entry_add_checksums(&entry);
    status = entry_write(given->words[0], given->force, &entry);
    if (status == STATUS_DONE)
        tell(given, &run, true);
    return status;
}
