/*
 * clauses.h: tables that break exactly one clause of document 01's "The table"
 */
#ifndef CLAUSES_H
#define CLAUSES_H

#include "sets.h"

/* How many clauses there are, and what each broken one is called. */
unsigned clauses(void);
const char *clause_name(unsigned which);

/* The image of some set that is well formed but for this clause. */
void break_clause(struct chance *c, unsigned which, uint8_t image[CS_TABLE_SIZE]);

#endif
