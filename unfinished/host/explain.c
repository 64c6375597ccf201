#include "explain.h"

static void print_part(FILE *to, const char *in_front, const char *title, const struct phrase *part)
{
    if (part->length > 0)
        fprintf(to, "%s  %s%s\n", in_front, title, part->text);
}

void print_explanation(FILE *to, const char *in_front, const struct explanation *explanation)
{
    print_part(to, in_front, "", &explanation->statement);
    print_part(to, in_front, "", &explanation->operation);
    print_part(to, in_front, "", &explanation->block);
    print_part(to, in_front, "", &explanation->detail);
    print_part(to, in_front, "usually: ", &explanation->usual);
}

static void json_part(struct json *json, const char *key, const struct phrase *part)
{
    if (part->length > 0)
        json_text(json, key, part->text);
}

void json_explanation(struct json *json, const struct explanation *explanation)
{
    json_open_object(json, "explanation");
    json_part(json, "statement", &explanation->statement);
    json_part(json, "operation", &explanation->operation);
    json_part(json, "block", &explanation->block);
    json_part(json, "detail", &explanation->detail);
    json_part(json, "usual", &explanation->usual);
    json_close_object(json);
}
