/* The program in one process, on tables, folders and options that the fuzzer chooses: the first two bytes of its data
 * choose the command and the options, and the rest is a file. The sanitizers are the judge, and the exit status, which
 * is one of those that host/README.md has. host/main.c is compiled with -Dmain=host_main. */
#include <dirent.h>
#include <stdbool.h>
#include <stdint.h>
#include <stdio.h>
#include <stdlib.h>
#include <string.h>
#include <sys/stat.h>
#include <unistd.h>

int host_main(int count, char **words);
int LLVMFuzzerInitialize(int *count, char ***words);
int LLVMFuzzerTestOneInput(const uint8_t *data, size_t size);

enum { PATH_ROOM = 512, MOST_FILES = 64, MOST_KEPT = 1 << 18, MOST_WORDS = 16 };

static char folder[PATH_ROOM / 4], table[PATH_ROOM], output[PATH_ROOM], entry[PATH_ROOM], second[PATH_ROOM];

/* The files of an entry, as archive wrote them. */
static struct kept {
    char path[PATH_ROOM];
    uint8_t *content;
    size_t length;
} kept[MOST_FILES];
static size_t kept_count;

static void must(bool holds, const char *what)
{
    if (holds)
        return;
    fprintf(stderr, "not so: %s\n", what);
    abort();
}

static void write_file(const char *path, const uint8_t *content, size_t length)
{
    FILE *file = fopen(path, "wb");
    must(file != NULL && fwrite(content, 1, length, file) == length && fclose(file) == 0, "a file can be written");
}

static void keep_file(const char *name)
{
    struct kept *file = &kept[kept_count];
    snprintf(file->path, sizeof file->path, "%s/%s", entry, name);
    FILE *from = fopen(file->path, "rb");
    struct stat found;
    if (from == NULL || fstat(fileno(from), &found) != 0 || !S_ISREG(found.st_mode) || kept_count + 1 == MOST_FILES) {
        if (from != NULL)
            fclose(from);
        return;
    }
    file->content = malloc(MOST_KEPT);
    must(file->content != NULL, "there is memory for an entry");
    file->length = fread(file->content, 1, MOST_KEPT, from);
    fclose(from);
    kept_count++;
}

/* Runs the program on words that it may move about. */
static int call(size_t count, const char *const *given)
{
    char *words[MOST_WORDS + 2] = {(char *)"recorder"};
    for (size_t at = 0; at < count; at++)
        words[at + 1] = (char *)given[at];
    return host_main((int)count + 1, words);
}

/* A loop, a new block and a store, so that an entry has something of each. */
static const char ENTRY_TABLE[] =
    "1 10 0 0 0 0 0\n2 1 0 0 0 0 2\n3 42 0 1 2 0 0\n4 1 0 0 0 0 1\n5 40 0 0 0 0 0\n6 46 0 4 5 0 0\n7 44 0 3 6 0 0\n";

static void make_entry(void)
{
    write_file(table, (const uint8_t *)ENTRY_TABLE, sizeof ENTRY_TABLE - 1);
    call(5, (const char *const[]){"archive", entry, table, "--fuel", "3"});
    DIR *listed = opendir(entry);
    if (listed == NULL)
        return;
    for (struct dirent *file = readdir(listed); file != NULL; file = readdir(listed))
        if (file->d_name[0] != '.')
            keep_file(file->d_name);
    closedir(listed);
}

/* The name of a kept file in the second entry. */
static void remove_second(const struct kept *file)
{
    char path[2 * PATH_ROOM];
    snprintf(path, sizeof path, "%s%s", second, strrchr(file->path, '/'));
    unlink(path);
}

static void remove_all(void)
{
    for (size_t at = 0; at < kept_count; at++) {
        unlink(kept[at].path);
        remove_second(&kept[at]);
    }
    rmdir(entry);
    rmdir(second);
    unlink(output);
    unlink(table);
    rmdir(folder);
}

int LLVMFuzzerInitialize(int *count, char ***words)
{
    (void)count;
    (void)words;
    snprintf(folder, sizeof folder, "/dev/shm/recorder-fuzz.XXXXXX");
    must(mkdtemp(folder) != NULL, "there is a folder in memory");
    snprintf(table, sizeof table, "%s/table", folder);
    snprintf(output, sizeof output, "%s/output", folder);
    snprintf(entry, sizeof entry, "%s/entry", folder);
    snprintf(second, sizeof second, "%s/second", folder);
    atexit(remove_all);
    make_entry();
    return 0;
}

/* One file of the entry is the fuzzer's for the time of a call. */
static int verify_damaged(uint8_t choice, bool is_json, const uint8_t *data, size_t size)
{
    if (kept_count == 0)
        return call(2, (const char *const[]){"verify", entry});
    const struct kept *file = &kept[choice % kept_count];
    write_file(file->path, data, size);
    int status = call(is_json ? 3 : 2, (const char *const[]){"verify", entry, "--json"});
    write_file(file->path, file->content, file->length);
    return status;
}

/* What archive writes, verify finds to hold. */
static int archive_and_verify(const uint8_t *data, size_t size)
{
    write_file(table, data, size);
    int status = call(5, (const char *const[]){"archive", second, table, "--force", "--fuel=10"});
    if (status == 0)
        must(call(2, (const char *const[]){"verify", second}) == 0, "a new entry holds");
    return status;
}

/* What each command takes behind FILE; options are chosen by the bits of the second byte. */
static const struct form {
    const char *command;
    bool has_output, runs, may_be_target;
    const char *words[2];
} FORMS[] = {
    {"check", false, false, true, {NULL}},
    {"list", false, false, false, {NULL}},
    {"show", false, false, true, {NULL}},
    {"translate", true, false, false, {NULL}},
    {"run", false, true, false, {NULL}},
    {"watch", false, true, true, {NULL}},
    {"demo", false, true, false, {NULL}},
    {"trace", false, true, true, {"--stops", "10"}},
    {"draw", true, true, true, {NULL}},
    {"draw", true, true, true, {"--before", "5"}},
    {"pack", true, false, false, {NULL}},
    {"unpack", true, false, false, {NULL}},
};

enum { FORM_COUNT = sizeof FORMS / sizeof FORMS[0] };

static int call_form(const struct form *form, uint8_t options)
{
    const char *words[MOST_WORDS] = {form->command, table};
    size_t count = 2;
    if (form->has_output) {
        words[count++] = output;
        words[count++] = "--force";
    }
    for (size_t at = 0; at < 2 && form->words[at] != NULL; at++)
        words[count++] = form->words[at];
    if (form->runs)
        words[count++] = "--fuel=10";
    if (form->runs && (options & 8) != 0)
        words[count++] = "--inputs=-9223372036854775808,9223372036854775807,0";
    if (form->may_be_target && (options & 1) != 0)
        words[count++] = "--target";
    if ((options & 2) != 0)
        words[count++] = "--json";
    if ((options & 4) != 0)
        words[count++] = (options & 16) != 0 ? "--text" : "--bytes";
    return call(count, words);
}

/* Accepted and refused tables, endings, what is no table, and entries that differ. Not wrong usage, wrong sizes, runs
 * that part, or files that cannot be read or written. */
static bool is_expected(int status)
{
    static const struct {
        int low, high;
    } RANGES[] = {{0, 9}, {20, 22}, {30, 33}, {40, 50}, {65, 65}, {71, 71}};
    for (size_t at = 0; at < sizeof RANGES / sizeof RANGES[0]; at++)
        if (status >= RANGES[at].low && status <= RANGES[at].high)
            return true;
    return false;
}

int LLVMFuzzerTestOneInput(const uint8_t *data, size_t size)
{
    if (size < 2)
        return 0;
    size_t form = data[0] % (FORM_COUNT + 2);
    int status = 0;
    if (form == FORM_COUNT) {
        status = verify_damaged(data[1] >> 1, (data[1] & 1) != 0, data + 2, size - 2);
    } else if (form == FORM_COUNT + 1) {
        status = archive_and_verify(data + 2, size - 2);
    } else {
        write_file(table, data + 2, size - 2);
        status = call_form(&FORMS[form], data[1]);
    }
    /* A table may have no statement to stop before, which is wrong usage. */
    bool may_be_wrong = form < FORM_COUNT && FORMS[form].has_output && FORMS[form].words[0] != NULL;
    must(is_expected(status) || (may_be_wrong && status == 64), "the status is one that the command may have");
    return 0;
}
