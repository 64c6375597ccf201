/* A whole host: checks a table, translates it, runs it plain and watched, and compares the two runs.
 *
 *     cc -std=c11 -o minimal minimal.c $(pkg-config --cflags --libs recorder)
 *     cc -std=c11 -o minimal minimal.c -Iinclude crates/recorder/out/librecorder.a
 *     recorder pack examples/P7.txt P7 && ./minimal P7
 */
#include <recorder.h>
#include <stdbool.h>
#include <stdio.h>
#include <stdlib.h>
#include <string.h>

enum { FUEL = 1000 };
static const uint8_t INPUTS[2 * RECORDER_INPUT_BYTES] = {7, [RECORDER_INPUT_BYTES] = 9};

/* Room for one record too many, so that too long a table is refused and not cut off. */
static uint8_t table[(RECORDER_SOURCE_RECORDS + 1) * RECORDER_RECORD_BYTES], target[RECORDER_TRANSLATION_BYTES];
static uint8_t memory[RECORDER_MEMORY_BYTES], second[RECORDER_MEMORY_BYTES], observation[RECORDER_OBSERVATION_BYTES];

static void must(bool holds, const char *what)
{
    if (holds)
        return;
    fprintf(stderr, "minimal: %s\n", what);
    exit(EXIT_FAILURE);
}

static recorder_answer accepted(const char *what, recorder_answer answer)
{
    if (answer.number == RECORDER_DONE)
        return answer;
    printf("%s: refused by %u at record %u\n", what, (unsigned)answer.number, (unsigned)answer.record);
    exit((int)answer.number);
}

static recorder_answer run_both(size_t length, size_t target_length)
{
    recorder_answer plain = recorder_run_plain(table, length, INPUTS, sizeof INPUTS, FUEL, memory, sizeof memory);
    recorder_answer watched = recorder_run_watched(target, target_length, INPUTS, sizeof INPUTS, FUEL, second,
                                                   sizeof second, observation, sizeof observation);
    must(memcmp(&plain, &watched, sizeof plain) == 0, "the answers differ");
    must(memcmp(memory, second, sizeof memory) == 0, "the memories differ");
    return plain;
}

int main(int count, char **words)
{
    must(recorder_version() == RECORDER_VERSION, "built for another version of the library");
    FILE *file = count == 2 ? fopen(words[1], "rb") : NULL;
    must(file != NULL, "it takes a file with a table's bytes");
    size_t length = fread(table, 1, sizeof table, file);
    must(ferror(file) == 0 && fclose(file) == 0, "the file cannot be read");
    accepted("source table", recorder_check_source(table, length));
    recorder_answer translated = accepted("translation", recorder_translate(table, length, target, sizeof target));
    size_t target_length = (size_t)translated.record * RECORDER_RECORD_BYTES;
    accepted("target table", recorder_check_target(target, target_length));
    recorder_answer ran = run_both(length, target_length);
    printf("both runs: number %u at statement %u, fuel left %u, free cells %u\n", (unsigned)ran.number,
           (unsigned)ran.record, (unsigned)ran.fuel, (unsigned)ran.free_cells);
}
