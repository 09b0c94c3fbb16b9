#ifndef VECTORS_H
#define VECTORS_H

#include <stdint.h>

/* Every line of a file of write questions, asked by these rules where the line doesn't say what a count of group 40 counts; and every answer about
   a text, by the files that have them, `-` where there is none (tests/vectors/README.md). */
void check_writes(const char *file, uint32_t told);
void check_text(const char *name, const char *list, const char *rewrite, const char *dump);

#endif
