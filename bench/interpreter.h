/* The library's entry points written by hand in C, to be timed beside it. */
#ifndef INTERPRETER_H
#define INTERPRETER_H

#include "../include/recorder.h"

/* 0 and 0 for an accepted table, or a refusal from 1 to 8. */
recorder_answer interpreter_check_source(const uint8_t *table, size_t table_len);
recorder_answer interpreter_check_target(const uint8_t *table, size_t table_len);

recorder_answer interpreter_translate(const uint8_t *table, size_t table_len, uint8_t *out, size_t out_len);

recorder_answer interpreter_run_plain(const uint8_t *table, size_t table_len, const uint8_t *inputs, size_t inputs_len,
                                      uint32_t fuel, uint8_t *memory, size_t memory_len);

recorder_answer interpreter_run_watched(const uint8_t *table, size_t table_len, const uint8_t *inputs,
                                        size_t inputs_len, uint32_t fuel, uint8_t *memory, size_t memory_len,
                                        uint8_t *observation, size_t observation_len);

#endif
