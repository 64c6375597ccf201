#include "account.h"

#include <inttypes.h>

#include "memories.h"
#include "mirror.h"
#include "number.h"
#include "printer.h"
#include "record.h"
#include "recorder.h"
#include "words.h"

static void print_title(FILE *to, const char *title)
{
    fprintf(to, "\n%s\n\n", title);
}

static void print_what_ran(FILE *to, const struct derived *derived)
{
    fprintf(to,
            "An entry of the recorder's archive\n\n"
            "A program was run: a source table of %" PRIu32 " records. It was checked, translated into a target table\n"
            "of %" PRIu32 " records, and run twice: the source table by the plain run, the target table by the\n"
            "watched run, which notes in an observation memory what the program did with the execution memory.\n"
            "Both runs came to the same answer and left the same execution memory.\n",
            table_records(&derived->source), table_records(&derived->target));
}

static void print_statements(FILE *to, const struct table *source)
{
    uint32_t count = table_records(source);
    print_title(to, "The program, statement by statement");
    for (uint32_t number = 1; number <= count; number++) {
        if (!is_statement(record_at(source->bytes, number).kind))
            continue;
        struct phrase words = {0};
        print_record(&words, source, number);
        fprintf(to, "  %" PRIu32 ": %s\n", number, words.text);
    }
    fprintf(to, "\nA statement has its record's number. The run begins at statement %" PRIu32 ".\n", count);
}

static void print_given(FILE *to, const struct run_given *run)
{
    print_title(to, "Inputs and fuel");
    for (size_t at = 0; at < run->inputs_length; at += RECORDER_INPUT_BYTES)
        fprintf(to, "  input %zu: %" PRId64 "\n", at / RECORDER_INPUT_BYTES, signed_from_bytes(run->inputs + at));
    fprintf(to, "  fuel: %" PRIu32 "\n", run->fuel);
}

/* What the answer says of the assertions. One whose working out stopped the run neither held nor was false. */
static void print_meaning(FILE *to, recorder_answer answer)
{
    static const char HELD[] = "Every assertion that the run worked out";
    if (answer.number == RECORDER_DONE)
        fprintf(to, "\nThe run finished. %s held.\n", HELD);
    else if (answer.number == RECORDER_ASSERTION_FALSE)
        fprintf(to, "\nThe assertion of statement %" PRIu32 " was false. %s before it held.\n", answer.record, HELD);
    else
        fprintf(to, "\nThe run stopped in statement %" PRIu32 " and went no further. %s until then held.\n",
                answer.record, HELD);
}

static void print_memories(FILE *to, const struct run_left *watched)
{
    print_title(to, "The memories that were left");
    print_execution_memory(to, watched->memory);
    print_observation_memory(to, watched->observation);
    fprintf(to, "\n%s\n",
            promises_mirror(watched->answer)
                ? "The observation memory mirrors the execution memory: the same blocks, marked where a value stands."
                : "After this ending the rules promise nothing of the observation memory.");
}

static const char FILES[] =
    "  source.table        the program: records of 16 bytes\n"
    "  target.table        its translation: records of 16 bytes\n"
    "  inputs              the inputs: 8 bytes each\n"
    "  answer.txt          versions of the rules and of the account, the fuel, and the answer, in seven lines\n"
    "  execution.memory    the memory in which the program stored, as the run left it\n"
    "  observation.memory  what the watched run noted of it\n"
    "  account.txt         this account\n"
    "  SHA256SUMS          checksums of the files above\n";

static const char VERIFYING[] =
    "  sha256sum -c SHA256SUMS   in this folder: no file has changed since the checksums were made\n"
    "  recorder verify FOLDER    all of the entry follows from source.table, inputs and the fuel\n"
    "\n"
    "docs/ARCHIVE.md describes each file byte by byte, and how to verify an entry without this program.\n"
    "docs/RULES.md has the rules.\n";

void print_account(FILE *to, const struct derived *derived)
{
    print_what_ran(to, derived);
    print_statements(to, &derived->source);
    print_given(to, &derived->run);
    print_title(to, "The answer");
    tell_run(to, "both runs", &derived->run, &derived->plain);
    print_meaning(to, derived->plain.answer);
    print_memories(to, &derived->watched);
    print_title(to, "The files of the entry");
    fputs(FILES, to);
    print_title(to, "To verify it");
    fputs(VERIFYING, to);
}
