/* The tables that are timed, and the calls that each is for. */
#ifndef PROGRAMS_H
#define PROGRAMS_H

/* The calls of a table: both runs, both checkers, the translator. */
enum { PLAIN, WATCHED, SOURCE, TARGET, TRANSLATE, CALLS };
#define CALL(c) (1u << (c))

/* The build makes a source table, or a target table where the only call is TARGET. */
typedef struct program {
    const char *name;
    void (*build)(void);
    unsigned calls;
    unsigned turns; /* of a loop for ever: its run gets so much fuel and ends 32; 0 where a run finishes by itself */
} program;

#define PROGRAM_COUNT 22

extern const program programs[PROGRAM_COUNT];

/* In tables.c. */
void build_source(void);
void build_most_lets(void);
void build_target(void);

#endif
