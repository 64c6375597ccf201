/* Every function with a null pointer and length 0 in place of each buffer, one by one and all at once: it is refused as
 * an empty buffer, and the other buffers are not written. tests/null.sh builds and runs it. */
#include <stdbool.h>
#include <stdio.h>
#include <stdlib.h>
#include <string.h>

#include "recorder.h"

enum { UNTOUCHED = 0xA5 };

/* A skip, as a source and as a target table. */
static const uint8_t SOURCE[RECORDER_RECORD_BYTES] = {40};
static const uint8_t TARGET[RECORDER_RECORD_BYTES] = {40, [8] = 1};
static const uint8_t INPUTS[RECORDER_INPUT_BYTES] = {7};
static uint8_t memory[RECORDER_MEMORY_BYTES], observation[RECORDER_OBSERVATION_BYTES];

static bool is_untouched(const uint8_t *bytes, size_t length)
{
    for (size_t at = 0; at < length; at++)
        if (bytes[at] != UNTOUCHED)
            return false;
    return true;
}

static void expect(uint32_t number, recorder_answer answer, const char *call)
{
    bool is_refused = answer.number == number && answer.record == 0 && answer.fuel == 0 && answer.free_cells == 0;
    if (is_refused && is_untouched(memory, sizeof memory) && is_untouched(observation, sizeof observation))
        return;
    fprintf(stderr, "null: number %u where %u was expected, or bytes were written: %s\n", (unsigned)answer.number,
            (unsigned)number, call);
    exit(EXIT_FAILURE);
}

#define EXPECT(number, call) expect(number, call, #call)
#define SOURCE_TABLE SOURCE, sizeof SOURCE
#define TARGET_TABLE TARGET, sizeof TARGET
#define GIVEN INPUTS, sizeof INPUTS
#define MEMORY memory, sizeof memory
#define OBSERVATION observation, sizeof observation
#define NOTHING NULL, 0

static void tables(void)
{
    EXPECT(RECORDER_BAD_LENGTH, recorder_check_source(NOTHING));
    EXPECT(RECORDER_BAD_LENGTH, recorder_check_target(NOTHING));
    EXPECT(RECORDER_BAD_LENGTH, recorder_translate(NOTHING, MEMORY));
    EXPECT(RECORDER_BAD_LENGTH, recorder_translate(NOTHING, NOTHING));
    EXPECT(RECORDER_SHORT_OUTPUT, recorder_translate(SOURCE_TABLE, NOTHING));
}

static void runs(void)
{
    EXPECT(RECORDER_BAD_LENGTH, recorder_run_plain(NOTHING, GIVEN, 1, MEMORY));
    EXPECT(RECORDER_BAD_INPUTS, recorder_run_plain(SOURCE_TABLE, NOTHING, 1, MEMORY));
    EXPECT(RECORDER_BAD_MEMORY, recorder_run_plain(SOURCE_TABLE, GIVEN, 1, NOTHING));
    EXPECT(RECORDER_BAD_LENGTH, recorder_run_plain(NOTHING, NOTHING, 1, NOTHING));
    EXPECT(RECORDER_BAD_LENGTH, recorder_run_watched(NOTHING, GIVEN, 1, MEMORY, OBSERVATION));
    EXPECT(RECORDER_BAD_INPUTS, recorder_run_watched(TARGET_TABLE, NOTHING, 1, MEMORY, OBSERVATION));
    EXPECT(RECORDER_BAD_MEMORY, recorder_run_watched(TARGET_TABLE, GIVEN, 1, NOTHING, OBSERVATION));
    EXPECT(RECORDER_BAD_OBSERVATION, recorder_run_watched(TARGET_TABLE, GIVEN, 1, MEMORY, NOTHING));
    EXPECT(RECORDER_BAD_LENGTH, recorder_run_watched(NOTHING, NOTHING, 1, NOTHING, NOTHING));
}

int main(void)
{
    memset(memory, UNTOUCHED, sizeof memory);
    memset(observation, UNTOUCHED, sizeof observation);
    tables();
    runs();
    return EXIT_SUCCESS;
}
