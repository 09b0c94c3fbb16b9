#ifndef PARTS_H
#define PARTS_H

#include "checks.h"

/* R285 to R287, R297: prints the answer to each question of a file in the format of tests/vectors/W7/parts.txt, with texts NNNNN.sao of the folder;
   `left out` for one with a record that has not 80 counts. Checks that nothing else of what is lent is altered. */
void answer_questions(const char *folder, const char *file);

/* R288: every record of the walk over a text, placed by each of the rules, answers every question as its place does. How many records there are. */
size_t check_placed(const char *name);

#endif
