#include "commands.h"

#include <inttypes.h>
#include <stdio.h>

#include "arrivals.h"
#include "changes.h"
#include "files.h"
#include "printer.h"
#include "status.h"
#include "words.h"

/* A run on its way: the memories at the stop that was told last, and at the one that comes next. */
struct trace {
    const struct arguments *given;
    struct run_given run;
    struct arrivals arrivals;
    struct run_left *before, *now;
    uint32_t told;
    bool is_cut; /* more stops were found than may be told */
};

static struct table read_in;
static struct run_left left[2]; /* all bytes 0 are the memories before a run */

static void json_changes(struct json *json, const struct trace *trace)
{
    json_execution_changes(json, "execution_changes", trace->before->memory, trace->now->memory);
    json_observation_changes(json, "observation_changes", trace->before->observation, trace->now->observation);
}

static void print_changes(const struct trace *trace)
{
    print_execution_changes(stdout, trace->before->memory, trace->now->memory);
    print_observation_changes(stdout, trace->before->observation, trace->now->observation);
}

static struct json begin_object(const struct trace *trace)
{
    struct json json = json_begin(stdout, "trace");
    json_text(&json, "file", trace->given->words[0]);
    return json;
}

/* What a stop is at, as JSON has it and as the text begins. */
enum stop_sort { AT_STATEMENT, AT_TEST, AT_LET_END };
static const char *const SORTS[] = {"statement", "test", "let_end"};
static const char *const SORT_WORDS[] = {"", "", "end of "};

static void stop_as_json(const struct trace *trace, enum stop_sort sort, uint32_t statement, uint32_t fuel,
                         const char *text)
{
    struct json json = begin_object(trace);
    json_number(&json, "stop", trace->told);
    json_text(&json, "at", SORTS[sort]);
    json_number(&json, "statement", statement);
    json_text(&json, "text", text);
    json_number(&json, "fuel", fuel);
    json_number(&json, "free_cells", trace->now->answer.free_cells);
    json_changes(&json, trace);
    json_end(&json);
}

/* Tells a stop at which so much fuel was used, if one more may be told. */
static bool tell_stop(struct trace *trace, enum stop_sort sort, uint32_t statement, uint32_t used)
{
    trace->is_cut = trace->told == trace->given->stops;
    if (trace->is_cut)
        return false;
    trace->told++;
    struct phrase text = {0};
    print_record(&text, trace->run.table, statement);
    uint32_t fuel = trace->run.fuel - used;
    if (trace->given->json) {
        stop_as_json(trace, sort, statement, fuel, text.text);
    } else {
        print_changes(trace);
        printf("%" PRIu32 ": %s%s [", statement, SORT_WORDS[sort], text.text);
        if (sort == AT_TEST)
            printf("test %" PRIu32 ", ", used + 1);
        printf("fuel left %" PRIu32 ", free cells %" PRIu32 "]\n", fuel, trace->now->answer.free_cells);
    }
    struct run_left *told = trace->now;
    trace->now = trace->before;
    trace->before = told;
    return true;
}

/* Tells the statements that were first come to with so much fuel used; false where the stops are cut. */
static bool tell_arrivals(struct trace *trace, uint32_t used)
{
    const struct arrivals *arrivals = &trace->arrivals;
    for (uint32_t at = 0; at < arrivals->count; at++) {
        if (arrivals->how[at] != ARRIVAL_REACHED || arrivals->used[at] != used)
            continue;
        struct stop stop = arrivals->stops[at];
        stop_at(&trace->run, stop, trace->now);
        if (!tell_stop(trace, stop.is_let_end ? AT_LET_END : AT_STATEMENT, stop.statement, used))
            return false;
    }
    return true;
}

/* Tells the while test before which so much fuel was used: with no more than that the run ends there. False where it
 * comes to no such test, or the stops are cut. */
static bool tell_test(struct trace *trace, uint32_t used)
{
    struct run_given run = trace->run;
    run.fuel = used;
    run_watched(&run, trace->now);
    if (trace->now->answer.number != RECORDER_NO_FUEL)
        return false;
    return tell_stop(trace, AT_TEST, run.is_target ? record_ended(&run) : trace->now->answer.record, used);
}

/* At the test with all fuel used the run itself ends. */
static void tell_stops(struct trace *trace)
{
    uint32_t used = 0;
    while (tell_arrivals(trace, used) && used < trace->run.fuel && tell_test(trace, used))
        used++;
}

/* Statements at which no stop can be put, where there are any. */
static void print_without_room(const struct arrivals *arrivals)
{
    const char *in_front = "no stop at statement ";
    for (uint32_t at = 0; at < arrivals->count; at++) {
        if (arrivals->how[at] != ARRIVAL_NO_ROOM)
            continue;
        struct stop stop = arrivals->stops[at];
        printf("%s%s%" PRIu32, in_front, stop.is_let_end ? SORT_WORDS[AT_LET_END] : "", stop.statement);
        in_front = ", ";
    }
    if (in_front[0] == ',')
        printf(": the table has no room for it\n");
}

static void json_without_room(struct json *json, const struct arrivals *arrivals)
{
    json_open_list(json, "no_room");
    for (uint32_t at = 0; at < arrivals->count; at++)
        if (arrivals->how[at] == ARRIVAL_NO_ROOM)
            json_number(json, NULL, arrivals->stops[at].statement);
    json_close_list(json);
}

static int tell_end(const struct trace *trace)
{
    if (!trace->given->json) {
        if (trace->is_cut)
            printf("more stops are left out (--stops %" PRIu32 ")\n", trace->given->stops);
        print_changes(trace);
        return tell_run(stdout, "watched run", &trace->run, trace->now);
    }
    struct json json = begin_object(trace);
    json_text(&json, "at", "end");
    json_run(&json, &trace->run, trace->now);
    json_changes(&json, trace);
    json_truth(&json, "cut", trace->is_cut);
    json_without_room(&json, &trace->arrivals);
    json_end(&json);
    return (int)trace->now->answer.number;
}

static int tell_refused(const struct trace *trace)
{
    if (!trace->given->json)
        return tell_run(stdout, "watched run", &trace->run, trace->now);
    struct json json = begin_object(trace);
    json_text(&json, "at", "end");
    json_run(&json, &trace->run, trace->now);
    json_end(&json);
    return (int)trace->now->answer.number;
}

/* Every stop is a test or comes behind as many tests as it used fuel, so the arrivals beyond --stops are not told. */
static void find_told_arrivals(struct trace *trace)
{
    struct run_given run = trace->run;
    if (run.fuel > trace->given->stops)
        run.fuel = trace->given->stops;
    find_arrivals(&run, &trace->arrivals);
}

int trace_command(const struct arguments *given)
{
    static struct trace trace;
    int status = table_read(given->words[0], given->format, &read_in);
    if (status != STATUS_DONE)
        return status;
    trace = (struct trace){.given = given, .run = run_of(given, &read_in), .before = &left[0], .now = &left[1]};
    struct run_given shortest = trace.run;
    shortest.fuel = 0;
    run_watched(&shortest, trace.now);
    if (is_refusal(trace.now->answer))
        return tell_refused(&trace);
    find_told_arrivals(&trace);
    if (!given->json) {
        printf("stops: each while test, and each statement and each let's end when the run first comes to it; below a "
               "stop, what changed until the next\n");
        print_without_room(&trace.arrivals);
        printf("start\n");
    }
    tell_stops(&trace);
    run_watched(&trace.run, trace.now);
    return tell_end(&trace);
}
