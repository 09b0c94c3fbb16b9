#ifndef SALVAGE_H
#define SALVAGE_H

#include "checks.h"

/* R353: over a text, from its start: each record that is placed, with 0 or 7, is the next one of the copy, and where the walk stops though the text
   goes on, the next of the stretches begins, and ends as is asked for. Adds up how many pieces there are of each kind. */
void check_pieces(const char *name, const char *copied, const char *stretches, size_t *records, size_t *left_out);

#endif
