/* The watched recorder on the command line. host/README.md has the commands and the exit statuses. */
#include <inttypes.h>
#include <stdint.h>
#include <stdio.h>
#include <string.h>

#include "arguments.h"
#include "commands.h"
#include "json.h"
#include "status.h"

enum {
    RUN_OPTIONS = OPTION_INPUTS | OPTION_FUEL | OPTION_FORMAT,
    LENT_OPTIONS = OPTION_MEMORY | OPTION_OBSERVATION
};

static const struct command COMMANDS[] = {
    {"check", "FILE..", 1, SIZE_MAX, OPTION_TARGET | OPTION_FORMAT, check_command,
     "check source tables, or with --target target tables"},
    {"show", "FILE", 1, 1, OPTION_TARGET | OPTION_FORMAT, show_command, "print a table in words, of either kind"},
    {"list", "FILE..", 1, SIZE_MAX, OPTION_FORMAT, list_command, "print the translation, one line a record"},
    {"translate", "FILE [OUT]", 1, 2, OPTION_OUTPUT | OPTION_FORMAT | OPTION_FORCE, translate_command,
     "translate a source table; write the target table's bytes to OUT"},
    {"run", "FILE", 1, 1, RUN_OPTIONS | OPTION_MEMORY, run_command,
     "run a source table; print the memory and the ending"},
    {"watch", "FILE", 1, 1, RUN_OPTIONS | LENT_OPTIONS | OPTION_TARGET, watch_command,
     "translate it and run the translation watched, or with --target run a\n"
     "                      target table; print both memories and the ending"},
    {"demo", "FILE", 1, 1, RUN_OPTIONS, demo_command,
     "check, translation, both runs, both memories, and whether they agree"},
    {"trace", "FILE", 1, 1, RUN_OPTIONS | OPTION_TARGET | OPTION_STOPS, trace_command,
     "tell a run step by step: each statement and what it changed"},
    {"draw", "FILE OUT", 2, 2, RUN_OPTIONS | OPTION_TARGET | OPTION_BEFORE | OPTION_FORCE, draw_command,
     "draw both memories after a run, or on its way, as a picture (SVG)"},
    {"pack", "FILE OUT", 2, 2, OPTION_FORMAT | OPTION_FORCE, pack_command, "write a table's bytes to OUT"},
    {"unpack", "FILE OUT", 2, 2, OPTION_FORMAT | OPTION_FORCE, unpack_command, "write a table as text to OUT"},
    {"archive", "DIR FILE", 2, 2, RUN_OPTIONS | OPTION_FORCE, archive_command,
     "run a table both ways and keep all of it in the new folder DIR"},
    {"verify", "DIR..", 1, SIZE_MAX, 0, verify_command, "derive anew what the folders of archive keep"},
};

enum { COMMAND_COUNT = sizeof COMMANDS / sizeof COMMANDS[0] };

static const char EXPLANATIONS[] =
    "A FILE is a table: as text, one record a line (number kind mark A B C literal, and # before a\n"
    "comment), or its bytes. Which it is, its first bytes tell. - is standard input or output.\n"
    "\n";

static const char STATUSES[] =
    "The exit status is the number of the refusal or the ending, 0 where there is none;\n"
    "64 wrong usage, 65 a file is no table or too long, 66 a file cannot be read, 69 the library\n"
    "has other sizes than this program, 70 the runs of a demo part, 71 an entry of the archive is\n"
    "not what the rules give, 73 a file cannot be written.\n"
    "\n"
    "The functions of the library are proved. This program around them is tested and not proved:\n"
    "how it reads and prints, its words and pictures.\n";

static void print_command(const struct command *command)
{
    int length = printf("  %s %s", command->name, command->operands);
    printf("%*s%s\n", length < 22 ? 22 - length : 1, "", command->summary);
}

static void print_usage(void)
{
    printf("usage: recorder COMMAND FILE.. [OPTION..]\n\n");
    for (size_t at = 0; at < COMMAND_COUNT; at++)
        print_command(&COMMANDS[at]);
    printf("  help [COMMAND]      this text, or that of a command; --help and -h too\n"
           "  --version [--json]  the versions of this program's header and of the library\n\n%s",
           EXPLANATIONS);
    print_options(NULL);
    printf("\n%s", STATUSES);
}

static int print_help(const struct command *command)
{
    printf("usage: recorder %s %s [OPTION..]\n\n", command->name, command->operands);
    print_command(command);
    printf("\n%s", EXPLANATIONS);
    print_options(command);
    printf("\n%s", STATUSES);
    return STATUS_DONE;
}

/* Told also where they differ, which the status then says. */
static int print_version(bool as_json)
{
    uint32_t library = recorder_version();
    if (as_json) {
        struct json object = json_begin(stdout, "version");
        json_number(&object, "header", RECORDER_VERSION);
        json_number(&object, "library", library);
        json_end(&object);
    } else {
        printf("recorder: header version %d, library version %" PRIu32 "\n", RECORDER_VERSION, library);
    }
    return library == RECORDER_VERSION ? STATUS_DONE : STATUS_LIBRARY;
}

static int version_asked(int count, char **words)
{
    bool as_json = count > 0 && strcmp(words[0], "--json") == 0;
    if (count <= as_json)
        return print_version(as_json);
    fprintf(stderr, "recorder: --version: one word too many: %s (recorder --help tells the usage)\n", words[as_json]);
    return STATUS_USAGE;
}

static int other_library(void)
{
    fprintf(stderr, "recorder: built for version %d of the library, and linked with version %" PRIu32 "\n",
            RECORDER_VERSION, recorder_version());
    return STATUS_LIBRARY;
}

static const struct command *command_named(const char *name)
{
    for (size_t at = 0; at < COMMAND_COUNT; at++)
        if (strcmp(COMMANDS[at].name, name) == 0)
            return &COMMANDS[at];
    return NULL;
}

static int no_such_command(const char *name)
{
    fprintf(stderr, "recorder: no such command: %s (recorder --help tells the usage)\n", name);
    return STATUS_USAGE;
}

static bool is_any(const char *word, const char *one, const char *other)
{
    return strcmp(word, one) == 0 || strcmp(word, other) == 0;
}

static int dispatch(int count, char **words)
{
    static struct arguments given;
    bool wants_help = is_any(words[1], "help", "--help") || strcmp(words[1], "-h") == 0;
    if (strcmp(words[1], "--version") == 0)
        return version_asked(count - 2, words + 2);
    if (recorder_version() != RECORDER_VERSION)
        return other_library();
    if (wants_help && count == 2) {
        print_usage();
        return STATUS_DONE;
    }
    const char *name = words[wants_help ? 2 : 1];
    const struct command *command = command_named(name);
    if (command == NULL)
        return no_such_command(name);
    int status = wants_help ? STATUS_DONE : arguments_read(command, count - 2, words + 2, &given, &wants_help);
    if (wants_help)
        return print_help(command);
    return status != STATUS_DONE ? status : command->run(&given);
}

int main(int count, char **words)
{
    if (count < 2) {
        fputs("usage: recorder COMMAND FILE.. [OPTION..] (recorder --help tells more)\n", stderr);
        return STATUS_USAGE;
    }
    int status = dispatch(count, words);
    if (fflush(stdout) != 0 || ferror(stdout)) {
        fprintf(stderr, "recorder: cannot write to standard output\n");
        return STATUS_WRITE;
    }
    return status;
}
