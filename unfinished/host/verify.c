#include "commands.h"

#include <inttypes.h>
#include <stdio.h>
#include <string.h>
#include <unistd.h>

#include "account.h"
#include "answer_file.h"
#include "derive.h"
#include "difference.h"
#include "entry.h"
#include "json.h"
#include "status.h"
#include "words.h"

enum { ENTRIES_BETWEEN_PROGRESS = 100 };

static struct table source;
static struct derived derived;
static struct entry found, right;

/* What one entry came to. */
struct finding {
    bool has_answer; /* answer.txt could be read */
    struct answer_file answer;
    bool has_other_words; /* account.txt is of another wording, and was held to its checksum alone */
    struct phrase difference; /* empty where the entry holds */
};

/* The run that an entry says was made. */
static struct run_given run_of_entry(const struct answer_file *answer)
{
    memset(&source, 0, sizeof source);
    memcpy(source.bytes, found.bytes[ENTRY_SOURCE], found.lengths[ENTRY_SOURCE]);
    source.length = found.lengths[ENTRY_SOURCE];
    return (struct run_given){
        .table = &source,
        .inputs = found.bytes[ENTRY_INPUTS],
        .inputs_length = found.lengths[ENTRY_INPUTS],
        .fuel = answer->numbers[ANSWER_FUEL],
        .memory_length = RECORDER_MEMORY_BYTES,
        .observation_length = RECORDER_OBSERVATION_BYTES,
    };
}

static void add_refusal(recorder_answer answer, struct phrase *difference)
{
    enum entry_file file = answer.number == RECORDER_BAD_INPUTS ? ENTRY_INPUTS : ENTRY_SOURCE;
    phrase_add(next_difference(difference), "%s: refusal %" PRIu32, entry_file_name(file), answer.number);
    if (answer.record != 0)
        phrase_add(difference, " at record %" PRIu32, answer.record);
    phrase_add(difference, " (%s)", number_in_words(answer.number));
}

/* Holds the files that follow from the run to what it gives. */
static void compare_files(struct finding *finding)
{
    static const enum entry_file FOLLOWING[] = {ENTRY_TARGET, ENTRY_MEMORY, ENTRY_OBSERVATION, ENTRY_ACCOUNT};
    struct answer_file answer = answer_file_of(&derived);
    answer_file_compare(&finding->answer, &answer, &finding->difference);
    entry_of_run(&derived, &right);
    finding->has_other_words = finding->answer.numbers[ANSWER_WORDING] != ACCOUNT_WORDING;
    for (size_t at = 0; at < sizeof FOLLOWING / sizeof FOLLOWING[0]; at++) {
        enum entry_file file = FOLLOWING[at];
        if (file == ENTRY_ACCOUNT && finding->has_other_words)
            continue;
        compare_bytes(entry_file_name(file), found.bytes[file], found.lengths[file], right.bytes[file],
                      right.lengths[file], &finding->difference);
    }
}

/* Makes the run again. */
static void check_run(struct finding *finding)
{
    struct phrase parting = {0};
    struct run_given run = run_of_entry(&finding->answer);
    if (derive(&run, &derived, &parting))
        compare_files(finding);
    else if (is_refusal(derived.plain.answer))
        add_refusal(derived.plain.answer, &finding->difference);
    else
        phrase_add(next_difference(&finding->difference), "%s", parting.text);
}

static void verify_entry(const char *folder, struct finding *finding)
{
    memset(finding, 0, sizeof *finding);
    entry_read(folder, &found, &finding->difference);
    if (finding->difference.length > 0)
        return;
    entry_check_checksums(&found, &finding->difference);
    finding->has_answer = answer_file_read(found.bytes[ENTRY_ANSWER], found.lengths[ENTRY_ANSWER], &finding->answer,
                                           &finding->difference);
    if (!finding->has_answer)
        return;
    uint32_t version = finding->answer.numbers[ANSWER_VERSION];
    if (version == RECORDER_VERSION)
        check_run(finding);
    else
        phrase_add(next_difference(&finding->difference),
                   "answer.txt, version: %" PRIu32 ", and this program's rules are of %d", version, RECORDER_VERSION);
}

static void tell_as_json(const char *folder, const struct finding *finding)
{
    bool holds = finding->difference.length == 0;
    struct json json = json_begin(stdout, "verify");
    json_text(&json, "entry", folder);
    json_truth(&json, "holds", holds);
    json_truth(&json, "account_by_checksum", finding->has_other_words);
    if (finding->has_answer)
        json_answer(&json, "finished", answer_file_answer(&finding->answer));
    if (!holds)
        json_text(&json, "difference", finding->difference.text);
    json_end(&json);
}

static void tell_entry(const char *folder, const struct finding *finding)
{
    recorder_answer answer = answer_file_answer(&finding->answer);
    if (finding->difference.length > 0) {
        printf("%s: differs: %s\n", folder, finding->difference.text);
        return;
    }
    printf("%s: holds: ending %" PRIu32, folder, answer.number);
    if (answer.number != RECORDER_DONE)
        printf(" at statement %" PRIu32, answer.record);
    if (finding->has_other_words)
        printf("; account.txt has wording %" PRIu32 ", and was held to its checksum alone",
               finding->answer.numbers[ANSWER_WORDING]);
    printf("\n");
}

static void tell_sum(bool as_json, size_t entries, size_t hold)
{
    if (!as_json) {
        printf("verified %zu %s: %zu hold, %zu differ\n", entries, entries == 1 ? "entry" : "entries", hold,
               entries - hold);
        return;
    }
    struct json json = json_begin(stdout, "verify");
    json_number(&json, "entries", (int64_t)entries);
    json_number(&json, "hold", (int64_t)hold);
    json_number(&json, "differ", (int64_t)(entries - hold));
    json_end(&json);
}

/* A line that is written over; where the entries' own lines are seen it would only break them. */
static void tell_progress(size_t done, size_t of)
{
    if (done % ENTRIES_BETWEEN_PROGRESS == 0 || done == of)
        fprintf(stderr, "\rverified %zu of %zu entries%s", done, of, done == of ? "\n" : "");
}

int verify_command(const struct arguments *given)
{
    static struct finding finding;
    bool shows_progress = isatty(STDERR_FILENO) && !isatty(STDOUT_FILENO);
    size_t hold = 0;
    for (size_t at = 0; at < given->word_count; at++) {
        verify_entry(given->words[at], &finding);
        hold += finding.difference.length == 0;
        if (given->json)
            tell_as_json(given->words[at], &finding);
        else
            tell_entry(given->words[at], &finding);
        if (shows_progress)
            tell_progress(at + 1, given->word_count);
    }
    tell_sum(given->json, given->word_count, hold);
    return hold == given->word_count ? STATUS_DONE : STATUS_ENTRY;
}
