#include "commands.h"

#include <inttypes.h>
#include <stdio.h>

#include "derive.h"
#include "files.h"
#include "json.h"
#include "memories.h"
#include "mirror.h"
#include "run.h"
#include "status.h"
#include "table.h"
#include "words.h"

static struct table read_in;
static struct run_left left;
static struct derived derived;

/* Tells one run: its memories, unless it was refused, and its answer. */
static int tell(const struct arguments *given, const char *command, const struct run_given *run,
                const struct run_left *came_out, bool is_watched)
{
    bool has_memories = !is_refusal(came_out->answer);
    if (given->json) {
        struct json json = json_begin(stdout, command);
        json_text(&json, "file", given->words[0]);
        json_run(&json, run, came_out);
        if (has_memories)
            json_execution_memory(&json, "execution_memory", came_out->memory);
        if (has_memories && is_watched)
            json_observation_memory(&json, "observation_memory", came_out->observation);
        json_end(&json);
        return (int)came_out->answer.number;
    }
    if (has_memories)
        print_execution_memory(stdout, came_out->memory);
    if (has_memories && is_watched)
        print_observation_memory(stdout, came_out->observation);
    return tell_run(stdout, is_watched ? "watched run" : "plain run", run, came_out);
}

static int run_one(const struct arguments *given, const char *command, bool is_watched)
{
    int status = table_read(given->words[0], given->format, &read_in);
    if (status != STATUS_DONE)
        return status;
    struct run_given run = run_of(given, &read_in);
    if (is_watched)
        run_watched(&run, &left);
    else
        run_plain(&run, &left);
    return tell(given, command, &run, &left, is_watched);
}

int run_command(const struct arguments *given)
{
    return run_one(given, "run", false);
}

int watch_command(const struct arguments *given)
{
    return run_one(given, "watch", true);
}

/* Demand 3 seen on one table, where the runs did not part: what the observation memory is. */
static void add_agreement(struct phrase *words)
{
    struct phrase difference = {0};
    phrase_add(words, "both runs have the same answer and the same execution memory; ");
    if (is_mirror(derived.plain.memory, derived.watched.observation, &difference))
        phrase_add(words, "the observation memory is its mirror");
    else
        phrase_add(words, "after this ending no mirror is promised: %s", difference.text);
}

static void print_titled(const char *title, const struct table *table)
{
    printf("%s (number, kind, mark, A, B, C, literal)\n", title);
    table_print(stdout, "", table->bytes, table->length);
}

static void print_demo(const struct run_given *run, const struct phrase *agreement)
{
    print_titled("source table", &derived.source);
    printf("check: accepted, %" PRIu32 " records\n\n", table_records(&derived.source));
    print_titled("target table", &derived.target);
    printf("translation: done, %" PRIu32 " records\n\n", table_records(&derived.target));
    tell_run(stdout, "plain run", run, &derived.plain);
    tell_run(stdout, "watched run", run, &derived.watched);
    printf("\n");
    print_execution_memory(stdout, derived.plain.memory);
    print_observation_memory(stdout, derived.watched.observation);
    printf("\n%s\n", agreement->text);
}

static void demo_as_json(const char *file, const struct run_given *run, bool agree, const struct phrase *agreement)
{
    struct json json = json_begin(stdout, "demo");
    json_text(&json, "file", file);
    json_run(&json, run, &derived.plain);
    json_truth(&json, "agree", agree);
    json_text(&json, "agreement", agreement->text);
    json_execution_memory(&json, "execution_memory", derived.plain.memory);
    json_observation_memory(&json, "observation_memory", derived.watched.observation);
    json_end(&json);
}

int demo_command(const struct arguments *given)
{
    int status = table_read(given->words[0], given->format, &read_in);
    if (status != STATUS_DONE)
        return status;
    struct run_given run = run_of(given, &read_in);
    struct phrase agreement = {0};
    bool agree = derive(&run, &derived, &agreement);
    if (is_refusal(derived.plain.answer))
        return tell(given, "demo", &run, &derived.plain, false);
    if (agree)
        add_agreement(&agreement);
    if (given->json)
        demo_as_json(given->words[0], &run, agree, &agreement);
    else
        print_demo(&run, &agreement);
    return agree ? STATUS_DONE : STATUS_PARTED;
}
