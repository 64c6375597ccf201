/* Answers in words. */
#ifndef HOST_WORDS_H
#define HOST_WORDS_H

#include <stdbool.h>
#include <stdint.h>

#include "recorder.h"

/* Whether the answer is a refusal: neither 0 nor an ending. */
bool is_refusal(recorder_answer answer);

/* Prints a refusal, or nothing where the number is none; either way returns the exit status, which is the number. */
int tell_refusal(const char *what, recorder_answer answer);

/* Prints a run's answer, a refusal or an ending, and returns the exit status. `table` is the source table that was run,
 * or whose translation was, and `memory` the execution memory that the run left: from them endings 42 and 50 are told
 * with block and offset. `table` is NULL for a target table, whose temporaries no buffer has: the words are general. */
int tell_run(const char *what, recorder_answer answer, const uint8_t *table, const uint8_t *memory);

#endif
