#include "derive.h"

#include <string.h>

#include "mirror.h"
#include "recorder.h"
#include "words.h"

static void copy_bytes(const struct table *from, struct table *into)
{
    memset(into, 0, sizeof *into);
    memcpy(into->bytes, from->bytes, from->length);
    into->length = from->length;
}

/* The target table's own run, so that the table which is kept is the one that ran. */
static void run_target(struct derived *into)
{
    struct run_given given = into->run;
    given.table = &into->target;
    given.is_target = true;
    run_watched(&given, &into->watched);
}

static bool agree(const struct derived *derived, struct phrase *parting)
{
    const struct run_left *plain = &derived->plain, *watched = &derived->watched;
    if (memcmp(&plain->answer, &watched->answer, sizeof plain->answer) != 0) {
        phrase_add(parting, "plain and watched run have different answers");
        return false;
    }
    if (memcmp(plain->memory, watched->memory, RECORDER_MEMORY_BYTES) != 0) {
        phrase_add(parting, "plain and watched run leave different execution memories");
        return false;
    }
    struct phrase difference = {0};
    if (!promises_mirror(plain->answer) || is_mirror(plain->memory, watched->observation, &difference))
        return true;
    phrase_add(parting, "the observation memory is no mirror: %s", difference.text);
    return false;
}

bool derive(const struct run_given *given, struct derived *into, struct phrase *parting)
{
    copy_bytes(given->table, &into->source);
    into->run = *given;
    into->run.table = &into->source;
    run_plain(&into->run, &into->plain);
    if (is_refusal(into->plain.answer))
        return false;
    /* What the plain run accepts is translated, and finds room. */
    memset(&into->target, 0, sizeof into->target);
    recorder_answer translated =
        recorder_translate(into->source.bytes, into->source.length, into->target.bytes, sizeof into->target.bytes);
    into->target.length = (size_t)translated.record * RECORDER_RECORD_BYTES;
    run_target(into);
    return agree(into, parting);
}
