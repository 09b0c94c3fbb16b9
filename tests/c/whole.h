#ifndef WHOLE_H
#define WHOLE_H

#include "checks.h"

/* R271 to R276: every question of a file in the format of tests/vectors/W12/whole.txt, with texts NNNNN.sao of the folder. How many there are. */
size_t check_wholes(const char *folder, const char *file);

/* R274: over a text, by each of the rules, one call for a record answers as its sixty groups do in turn: at every place of the walk, where it stops,
   at the text's end and behind it. Rewriting is asked there too (R321, R326). Adds to what was met. */
struct met {
    size_t read;    /* records of which all groups are read */
    size_t refused; /* records with a group that is refused */
    size_t broken;  /* records that break a rule on counts */
    size_t none;    /* places at which no record is placed */
};

void check_in_turn(const char *name, struct met *met);

#endif
