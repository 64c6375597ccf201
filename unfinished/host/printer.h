/* Records as a person would write them. */
#ifndef HOST_PRINTER_H
#define HOST_PRINTER_H

#include <stdint.h>

#include "phrase.h"
#include "table.h"

/* Adds what a record says: "assert initialised (p + 1)", "t0 := address of *p", "p + 1". Its children are written out
 * with it, but for statements below a statement, which are told by number ("22, then 29"), and for what is nested
 * deeper than a line can show, which is "#12". The table may be any bytes, in either language: what is no record of an
 * accepted table is told as far as it can be. */
void print_record(struct phrase *into, const struct table *table, uint32_t number);

/* How a variable is called: as the table's text calls it, else "v" and its number. */
void print_variable(struct phrase *into, const struct table *table, uint8_t variable);

#endif
