/* The account of an entry: all of it in plain words. */
#ifndef HOST_ACCOUNT_H
#define HOST_ACCOUNT_H

#include <stdio.h>

#include "derive.h"

/* Rises with every change of the account's words, also of those that other files print for it: of statements, of
 * explanations, of memories. An account in other words than this program's is held to its checksum alone. */
enum { ACCOUNT_WORDING = 1 };

/* Prints the account. It has no date, machine or user: the same run gives the same account, byte for byte. */
void print_account(FILE *to, const struct derived *derived);

#endif
