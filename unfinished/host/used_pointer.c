#include "used_pointer.h"

#include "evaluation.h"

bool used_pointer(const uint8_t *table, recorder_answer answer, const uint8_t *memory, struct used_pointer *used)
{
    if (answer.number != RECORDER_DEAD_BLOCK && answer.number != RECORDER_OUTSIDE_BLOCK)
        return false;
    struct moment at = moment_left(table, answer.record, answer.number, memory);
    struct outcome end = run_again(&at, answer.record);
    *used = (struct used_pointer){end.x.name, end.x.number};
    return end.ending == answer.number;
}
