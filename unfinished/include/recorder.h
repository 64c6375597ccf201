/* The watched recorder for a C host: two checkers, a translator, a plain run and a watched run.
 *
 * A channel program comes as a source table. The plain run runs it. The translator turns it into a target table, and
 * the watched run runs that with an observation memory beside the execution memory. Link
 * crates/recorder/out/librecorder.a (`rt lib` in crates/recorder writes it; x86-64-v2), or after `make install` what
 * `pkg-config --libs recorder` says. examples/host/minimal.c is a whole host in sixty lines, host/ a program over this
 * header.
 *
 *     static uint8_t target[RECORDER_TRANSLATION_BYTES];
 *     static uint8_t memory[RECORDER_MEMORY_BYTES], observation[RECORDER_OBSERVATION_BYTES];
 *     recorder_answer answer = recorder_translate(table, table_len, target, sizeof target);
 *     if (answer.number == RECORDER_DONE)
 *         answer = recorder_run_watched(target, (size_t)answer.record * RECORDER_RECORD_BYTES, inputs, inputs_len,
 *                                       fuel, memory, sizeof memory, observation, sizeof observation);
 *
 * Every function but recorder_version
 *   - takes any bytes, of any length: a wrong table, wrong inputs and wrong buffers are refused by number;
 *   - returns one recorder_answer and, when it refuses, writes no lent byte;
 *   - allocates nothing, keeps nothing, and calls nothing but memcpy and memset. Calls may be made from several threads
 *     at once, each with buffers of its own to write to;
 *   - asks for buffers that do not overlap. Alignment does not matter. Lengths count bytes;
 *   - takes a null pointer with length 0 for an empty buffer, and refuses it as any other that is empty: a table by 1,
 *     inputs by 9, lent buffers by 20, 21 and 22. With any other length a null pointer must not be handed over;
 *   - comes to an end: the work of a run is bounded by its table and its fuel.
 *
 * What is proved begins at the buffers, as lists of bytes: no proof speaks of pointers that come from C. Of null with
 * length 0 it is known that the compiler is told of no pointer that it is not null, that the code touches no byte of an
 * empty buffer, and that every function answers so when it is called so (tests/null.c).
 *
 * Stack: 128 KiB are enough for the checkers and the translator, 384 KiB for the plain run and 2 MiB for the watched
 * run, whatever the table. Tests run the deepest tables in threads with so much; no proof speaks of the stack. A loop
 * takes no more stack for more turns.
 *
 * All numbers in tables, inputs and memories are little-endian. The layouts stand below; docs/RULES.md has the kinds of
 * records one by one, and every rule.
 */
#ifndef RECORDER_H
#define RECORDER_H

#include <stddef.h>
#include <stdint.h>

#ifdef __cplusplus
extern "C" {
#endif

/* Rises with every change of a layout, a size or a rule; 2 is document 01 as 02 §1 to §5 change it, block names having
 * two bytes. A host that has layouts of its own can assert it, one that keeps memories can write it beside them, and
 * every host can compare it at its start with recorder_version().
 */
#define RECORDER_VERSION 2

/* Sizes. */
enum {
    RECORDER_RECORD_BYTES = 16,
    RECORDER_SOURCE_RECORDS = 256,       /* at most, in a source table */
    RECORDER_TARGET_RECORDS = 4096,      /* at most, in a target table */
    RECORDER_TRANSLATION_BYTES = 57344,  /* hold any translation: at most 14 records from each source record */
    RECORDER_INPUT_BYTES = 8,            /* an input is a signed 64-bit number */
    RECORDER_INPUTS = 256,               /* at most; at least 1 */
    RECORDER_NAMES = 4095,               /* block names run from 1 to 4,095 */
    RECORDER_CELLS = 1024,               /* and as many marks */
    RECORDER_BLOCK_BYTES = 8,            /* a block record, in both memories */
    RECORDER_CELL_BYTES = 16,
    RECORDER_BLOCKS_BYTES = 32760,       /* 4,095 block records of 8: where the cells start, and the marks */
    RECORDER_MEMORY_BYTES = 49144,       /* the block records, then 1,024 cells of 16 */
    RECORDER_OBSERVATION_BYTES = 33784   /* the block records, then 1,024 marks of 1 */
};

/* A table: records of 16 bytes without a header, numbered from 1.
 *
 *   byte 0       kind
 *   byte 1       mark
 *   bytes 2-3    child A, a record number; 0 is none
 *   bytes 4-5    child B
 *   bytes 6-7    child C
 *   bytes 8-15   literal, signed
 *
 * Children have smaller numbers than their parent, the last record is a statement, and each other record is a child
 * exactly once. Fields that a kind does not name are zero. In a target table the literal of a statement is the number
 * of the source statement that it came from.
 *
 * Execution memory: a block record for each name, name 1 first, then the cells, cell 0 first.
 *
 *   block: byte 0     state: 0 unused, 1 live and fixed, 2 live and freeable, 3 dead
 *          byte 1     0
 *          bytes 2-3  first cell         (0 unless live)
 *          bytes 4-5  length in cells    (0 unless live)
 *          bytes 6-7  0
 *   cell:  byte 0     kind: 0 free, 1 undefined, 2 integer, 3 pointer
 *          byte 1     0
 *          bytes 2-3  owner: the name of its block       (0 when free)
 *          bytes 4-5  the name pointed to                (0 unless a pointer)
 *          bytes 6-7  0
 *          bytes 8-15 the integer, or the pointer's offset, signed
 *
 * Observation memory: block records with state 0 unused, 1 live, 2 dead, and otherwise alike, the first counting marks;
 * then the marks, 1 where the cell is initialised and else 0.
 *
 * Block 1 is variable 0: one cell, pointing to block 2, which holds the inputs. Neither can be freed.
 */

/* What every function returns, by value. */
typedef struct recorder_answer {
    uint32_t number;     /* 0, or the number of a refusal or an ending: enum recorder_number */
    uint32_t record;     /* the refused record, 0 where there is none; a translation's record count; or the source
                          * statement at which a run ended, 0 where it finished */
    uint32_t fuel;       /* a run's fuel left, else 0 */
    uint32_t free_cells; /* a run's free cells, else 0 */
} recorder_answer;

/* The numbers that an answer may carry. */
enum recorder_number {
    RECORDER_DONE = 0, /* accepted, translated, or the run finished */

    /* Refusals because of the input. They are tried in this order; within one number the lowest record is named, and 3
     * to 5 are tried record by record. 1, 2 and 9 name no record. */
    RECORDER_BAD_LENGTH = 1,       /* table: length 0 or no multiple of 16 */
    RECORDER_TOO_MANY_RECORDS = 2,
    RECORDER_BAD_KIND = 3,         /* kind not in the language */
    RECORDER_BAD_FIELD = 4,        /* mark, operator, query, literal or child presence against the rules */
    RECORDER_BAD_CHILD = 5,        /* child not smaller or of the wrong sort */
    RECORDER_BAD_SHAPE = 6,        /* the last record is no statement, or another is not a child exactly once */
    RECORDER_BAD_SCOPE = 7,        /* variable used out of scope, or let while in scope */
    RECORDER_TOO_DEEP = 8,         /* source table: a term or predicate needs a temporary above 63 */
    RECORDER_BAD_INPUTS = 9,       /* no multiple of 8 bytes, none, or over 256 */

    /* Refusals because of a lent buffer, tried after those. They name no record. */
    RECORDER_SHORT_OUTPUT = 20,    /* output shorter than the translation */
    RECORDER_BAD_MEMORY = 21,      /* execution memory not 49,144 bytes */
    RECORDER_BAD_OBSERVATION = 22, /* observation memory not 33,784 bytes */

    /* Endings of a run. */
    RECORDER_NO_CELLS = 30,        /* no run of free cells long enough */
    RECORDER_NO_NAMES = 31,        /* all names given */
    RECORDER_NO_FUEL = 32,         /* fuel is 0 at a while test */
    RECORDER_ASSERTION_FALSE = 33,
    RECORDER_WRONG_SORT = 40,      /* wrong sort of value */
    RECORDER_UNDEFINED_READ = 41,  /* undefined cell read */
    RECORDER_DEAD_BLOCK = 42,      /* read or store in a dead block */
    RECORDER_OVERFLOW = 43,
    RECORDER_ZERO_DIVISOR = 44,
    RECORDER_BAD_SIZE = 45,        /* size below 1 */
    RECORDER_BAD_FREE = 46,        /* free of a pointer to anything but the first cell of a live freeable block */
    RECORDER_NOT_LIVE = 47,        /* base, offset or length of a block not live, or a pointer into one compared */

    /* Endings of a watched run only, and never of a translation's. */
    RECORDER_CONTRADICTION = 48,   /* call that contradicts the observation memory's record */
    RECORDER_EMPTY_TEMPORARY = 49,

    /* An ending of both runs again, found after 42. */
    RECORDER_OUTSIDE_BLOCK = 50    /* read or store at an offset outside a live block */
};

/* The version that the library was built with. A host that was built for another finds out at its start:
 *
 *     if (recorder_version() != RECORDER_VERSION)
 *         return EXIT_FAILURE;
 *
 * One that does not ask is refused by 21 and 22 where its memories have other sizes.
 */
uint32_t recorder_version(void);

/* Checks a source or a target table: 0 with record 0 where it is accepted.
 * Refusals: 1 to 8 for a source table, 1 to 7 for a target table.
 */
recorder_answer recorder_check_source(const uint8_t *table, size_t table_len);
recorder_answer recorder_check_target(const uint8_t *table, size_t table_len);

/* Translates a source table into the lent output, child-first: 0 with the record count. Bytes past the translation stay
 * as they were. recorder_check_target accepts every translation.
 * Refusals: 1 to 8, then 20.
 */
recorder_answer recorder_translate(const uint8_t *table, size_t table_len, uint8_t *out, size_t out_len);

/* Runs a source table on 1 to 256 inputs, with fuel for its while tests: one unit goes for each. The run clears the
 * memory first, so what it held counts for nothing; afterwards it is as the run left it at its ending. Operator 5
 * divides to the nearest whole number, and an exact half goes to the even one: 5 by 2 is 2, 7 by 2 is 4. Operator 7
 * compares two integers, or two pointers into live blocks.
 * Refusals: 1 to 8, 9, then 21. Endings: 0, 30 to 33, 40 to 47, 50.
 */
recorder_answer recorder_run_plain(const uint8_t *table, size_t table_len, const uint8_t *inputs, size_t inputs_len,
                                   uint32_t fuel, uint8_t *memory, size_t memory_len);

/* Runs a target table, a translation or any other, on both memories, which it clears first.
 * Refusals: 1 to 7, 9, 21, then 22. Endings: 0, 30 to 33, 40 to 50.
 *
 * A run reaches the observation memory by nine calls: kinds 68, 69 and 70, the five queries, and whether a block is
 * live, which kind 63 asks where it compares pointers. A block never recorded is not live there.
 *
 * With the translation of an accepted source table, equal inputs and equal fuel the answer and the execution memory are
 * those of the plain run. At every ending but 42 and 50 the observation memory mirrors the execution memory: block
 * states 0, 1, 2, 3 there are 0, 1, 1, 2 here with equal first and length, and a mark is 1 where the cell holds an
 * integer or a pointer. A new block whose own store ends 42 or 50 stands in the execution memory alone.
 */
recorder_answer recorder_run_watched(const uint8_t *table, size_t table_len, const uint8_t *inputs, size_t inputs_len,
                                     uint32_t fuel, uint8_t *memory, size_t memory_len, uint8_t *observation,
                                     size_t observation_len);

#ifdef __cplusplus
}
#endif

#endif
