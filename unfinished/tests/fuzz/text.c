/* The text reader on any bytes: what it accepts prints as a text that reads back as the same table. */
#include <stdio.h>
#include <stdlib.h>
#include <string.h>

#include "status.h"
#include "text.h"

static void must(bool holds, const char *what)
{
    if (holds)
        return;
    fprintf(stderr, "not so: %s\n", what);
    abort();
}

/* The table's canonical text, to be freed. */
static char *text_of(const struct table *table, size_t *length)
{
    char *text = NULL;
    FILE *to = open_memstream(&text, length);
    must(to != NULL, "there is memory for a text");
    table_print(to, "", table->bytes, table->length);
    must(fclose(to) == 0, "the text is whole");
    return text;
}

int LLVMFuzzerTestOneInput(const uint8_t *data, size_t size);

int LLVMFuzzerTestOneInput(const uint8_t *data, size_t size)
{
    static struct table table, again;
    size_t length = 0, length_again = 0;
    is_text(data, size);
    if (table_from_text(data, size, "fuzzed", &table) != STATUS_DONE)
        return 0;
    char *text = text_of(&table, &length);
    must(is_text((const uint8_t *)text, length), "a table's text begins as a text");
    must(table_from_text((const uint8_t *)text, length, "printed", &again) == STATUS_DONE, "a printed text is read");
    must(table.length == again.length, "a printed text has the table's length");
    must(memcmp(table.bytes, again.bytes, table.length) == 0, "a printed text has the table's bytes");
    char *text_again = text_of(&again, &length_again);
    must(length == length_again && memcmp(text, text_again, length) == 0, "a printed text prints as it is");
    free(text);
    free(text_again);
    return 0;
}
