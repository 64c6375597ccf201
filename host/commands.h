/* What the program does: each command returns the exit status. */
#ifndef HOST_COMMANDS_H
#define HOST_COMMANDS_H

#include "arguments.h"

int check_command(const struct arguments *given);
int translate_command(const struct arguments *given);
int list_command(const struct arguments *given);
int run_command(const struct arguments *given);
int watch_command(const struct arguments *given);
int demo_command(const struct arguments *given);
int pack_command(const struct arguments *given);

#endif
