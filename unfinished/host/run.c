#include "run.h"

#include <string.h>

struct run_given run_of(const struct arguments *given, const struct table *table)
{
    return (struct run_given){
        .table = table,
        .is_target = given->target,
        .inputs = given->inputs,
        .inputs_length = given->inputs_length,
        .fuel = given->fuel,
        .memory_length = given->memory_length,
        .observation_length = given->observation_length,
    };
}

void run_plain(const struct run_given *given, struct run_left *left)
{
    memset(left, 0, sizeof *left);
    left->answer = recorder_run_plain(given->table->bytes, given->table->length, given->inputs, given->inputs_length,
                                      given->fuel, left->memory, given->memory_length);
}

void run_watched(const struct run_given *given, struct run_left *left)
{
    static uint8_t translation[RECORDER_TRANSLATION_BYTES];
    const uint8_t *target = given->table->bytes;
    size_t length = given->table->length;
    memset(left, 0, sizeof *left);
    if (!given->is_target) {
        left->answer = recorder_translate(target, length, translation, sizeof translation);
        if (left->answer.number != RECORDER_DONE)
            return;
        target = translation;
        length = (size_t)left->answer.record * RECORDER_RECORD_BYTES;
    }
    left->answer = recorder_run_watched(target, length, given->inputs, given->inputs_length, given->fuel, left->memory,
                                        given->memory_length, left->observation, given->observation_length);
}
