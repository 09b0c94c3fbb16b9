#ifndef SINCE_H
#define SINCE_H

#include "checks.h"

/* R330 to R336: every question of a file in the format of tests/vectors/W8/first.txt, with texts NNNNN.sao of the folder. How many were asked; a
   question for a number below 0 can't be, and is left out. */
size_t check_firsts(const char *folder, const char *file);

/* R330: over a text, by each of the rules, the answer is that of going through all records of the walk: to the date of each, to a second before and
   behind it within its minute, and to the first and the last of all dates. What stands behind the record that is found is replaced, and the answer
   stays (R336). How many dates of records and of these two were asked for. */
size_t check_from_each(const char *name);

#endif
