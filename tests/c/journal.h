#ifndef JOURNAL_H
#define JOURNAL_H

#include <stdint.h>

/* Every line of a file of scripts (tests/vectors/README.md), asked by these rules where a script doesn't say what a count of group 40 counts; and
   the journal's functions where a pointer with length 0 is NULL. */
void check_journal(const char *file, uint32_t told);
void check_no_memory(void);

#endif
