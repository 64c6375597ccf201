/* What follows from a source table, inputs and fuel: the translation, and both runs held against each other. */
#ifndef HOST_DERIVE_H
#define HOST_DERIVE_H

#include <stdbool.h>

#include "phrase.h"
#include "run.h"
#include "table.h"

struct derived {
    struct table source; /* its bytes alone: how a text calls its variables is no part of a run */
    struct table target;
    struct run_given run;           /* of the source */
    struct run_left plain, watched; /* equal but for the observation memory, which the plain run leaves zero */
};

/* Works it all out. False where the table or the inputs are refused: then the plain run's answer is that refusal. False
 * too where the runs part or the observation memory is no mirror where one is promised, which demand 3 rules out: that
 * is added to `parting`. `given` is a run of a source table. */
bool derive(const struct run_given *given, struct derived *into, struct phrase *parting);

#endif
