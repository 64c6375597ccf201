/* Answers in words. */
#ifndef HOST_WORDS_H
#define HOST_WORDS_H

#include <stdbool.h>
#include <stdint.h>
#include <stdio.h>

#include "json.h"
#include "recorder.h"
#include "run.h"

/* Whether the answer is a refusal: neither 0 nor an ending. */
bool is_refusal(recorder_answer answer);

/* What a number means, in a few words. */
const char *number_in_words(uint32_t number);

/* Prints a refusal with its explanation, or nothing where the number is none; either way returns the exit status, which
 * is the number. `what` was refused: "check", "plain run". Each line begins with the words in front. */
int tell_refusal(FILE *to, const char *in_front, const char *what, recorder_answer answer, const struct table *table,
                 bool is_target);

/* Prints a run's answer, a refusal or an ending, with its explanation, and returns the exit status. */
int tell_run(FILE *to, const char *what, const struct run_given *given, const struct run_left *left);

/* An answer as a member "answer" of the object that is open. `done` are the words of 0: "accepted", "finished". */
void json_answer(struct json *json, const char *done, recorder_answer answer);

/* The same, and where the number is not 0 its explanation as a member "explanation". */
void json_checked(struct json *json, const char *done, recorder_answer answer, const struct table *table,
                  bool is_target);
void json_run(struct json *json, const struct run_given *given, const struct run_left *left);

#endif
