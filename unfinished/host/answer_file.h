/* The answer of an entry as a file: seven lines, each a key and a decimal number. */
#ifndef HOST_ANSWER_FILE_H
#define HOST_ANSWER_FILE_H

#include <stdbool.h>
#include <stddef.h>
#include <stdint.h>

#include "derive.h"
#include "phrase.h"
#include "recorder.h"

enum answer_line {
    ANSWER_VERSION, /* RECORDER_VERSION */
    ANSWER_WORDING, /* ACCOUNT_WORDING */
    ANSWER_FUEL,
    ANSWER_NUMBER,
    ANSWER_STATEMENT,
    ANSWER_FUEL_LEFT,
    ANSWER_FREE_CELLS,
    ANSWER_LINES
};

/* A number for each line. */
struct answer_file {
    uint32_t numbers[ANSWER_LINES];
};

/* The file of a run, as this program writes it. */
struct answer_file answer_file_of(const struct derived *derived);

/* Adds the lines to a phrase. */
void answer_file_print(struct phrase *into, const struct answer_file *file);

/* Reads the lines; false where the bytes are anything else, and then the first line that is wrong is added. */
bool answer_file_read(const uint8_t *bytes, size_t length, struct answer_file *into, struct phrase *difference);

/* Adds every line from the fuel on in which what was read is not what the rules give. */
void answer_file_compare(const struct answer_file *read, const struct answer_file *right, struct phrase *difference);

/* The answer that a file tells. */
recorder_answer answer_file_answer(const struct answer_file *file);

#endif
