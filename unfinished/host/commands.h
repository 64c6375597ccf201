/* What the program does: each command returns the exit status. */
#ifndef HOST_COMMANDS_H
#define HOST_COMMANDS_H

#include "arguments.h"

/* commands.c */
int check_command(const struct arguments *given);
int translate_command(const struct arguments *given);
int list_command(const struct arguments *given);
int pack_command(const struct arguments *given);
int unpack_command(const struct arguments *given);

/* run_commands.c */
int run_command(const struct arguments *given);
int watch_command(const struct arguments *given);
int demo_command(const struct arguments *given);

/* show.c, trace.c, draw.c, archive.c, verify.c */
int show_command(const struct arguments *given);
int trace_command(const struct arguments *given);
int draw_command(const struct arguments *given);
int archive_command(const struct arguments *given);
int verify_command(const struct arguments *given);

#endif
