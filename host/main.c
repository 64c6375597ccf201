/* The watched recorder on the command line. host/README.md has the commands and the exit statuses. */
#include <stdio.h>
#include <string.h>

#include "arguments.h"
#include "commands.h"
#include "status.h"

static const char USAGE[] =
    "usage: recorder COMMAND FILE [OUT] [OPTION..]\n"
    "\n"
    "  check FILE              check a source table, or with --target a target table\n"
    "  translate FILE [OUT]    translate a source table; write the target table's bytes to OUT\n"
    "  list FILE               print the translation, one line a record\n"
    "  run FILE                run a source table; print the memory and the ending\n"
    "  watch FILE              translate it and run the translation watched, or with --target\n"
    "                          run a target table; print both memories and the ending\n"
    "  demo FILE               check, translation, both runs and both memories\n"
    "  pack FILE OUT           write the table's bytes to OUT\n"
    "\n"
    "A FILE whose name ends in .txt is a table as text, one record a line:\n"
    "number kind mark A B C literal, and # before a comment. Any other holds the table's bytes.\n"
    "\n"
    "  --target                FILE is a target table\n"
    "  --inputs 7,9            the inputs of a run; 7,9 unless given\n"
    "  --inputs-file FILE      the inputs of a run as bytes, 8 to each\n"
    "  --fuel N                the fuel of a run, 0 to 4294967295; 1000 unless given\n"
    "  --output-bytes N        lend the translator N bytes, 0 to 65536\n"
    "  --memory-bytes N        lend a run N bytes of execution memory\n"
    "  --observation-bytes N   lend a watched run N bytes of observation memory\n"
    "\n"
    "The exit status is the number of the refusal or the ending, 0 where there is none;\n"
    "64 wrong usage, 65 a file is no table or too long, 66 a file cannot be read, 70 the runs of a\n"
    "demo part, 73 a file cannot be written.\n";

enum { RUN_OPTIONS = OPTION_INPUTS | OPTION_FUEL | OPTION_MEMORY };

static const struct command COMMANDS[] = {
    {"check", false, false, OPTION_TARGET, check_command},
    {"translate", true, false, OPTION_OUTPUT, translate_command},
    {"list", false, false, 0, list_command},
    {"run", false, false, RUN_OPTIONS, run_command},
    {"watch", false, false, RUN_OPTIONS | OPTION_OBSERVATION | OPTION_TARGET, watch_command},
    {"demo", false, false, OPTION_INPUTS | OPTION_FUEL, demo_command},
    {"pack", true, true, 0, pack_command},
};

static const struct command *command_named(const char *name)
{
    for (size_t at = 0; at < sizeof COMMANDS / sizeof COMMANDS[0]; at++)
        if (strcmp(COMMANDS[at].name, name) == 0)
            return &COMMANDS[at];
    return NULL;
}

/* The status, unless what was printed could not be written. */
static int finish(int status)
{
    if (fflush(stdout) != 0 || ferror(stdout)) {
        fprintf(stderr, "recorder: cannot write to standard output\n");
        return STATUS_WRITE;
    }
    return status;
}

int main(int count, char **words)
{
    if (count < 2) {
        fputs(USAGE, stderr);
        return STATUS_USAGE;
    }
    if (strcmp(words[1], "--help") == 0) {
        fputs(USAGE, stdout);
        return finish(STATUS_DONE);
    }
    const struct command *command = command_named(words[1]);
    if (command == NULL) {
        fprintf(stderr, "recorder: no such command: %s (recorder --help tells the usage)\n", words[1]);
        return STATUS_USAGE;
    }
    static struct arguments given;
    int status = arguments_read(command, count - 2, words + 2, &given);
    return finish(status != STATUS_DONE ? status : command->run(&given));
}
