/* What the programs of examples/ take from <stdlib.h>, for a compiler without a C library's headers. */
#ifndef PLAIN_STDLIB_H
#define PLAIN_STDLIB_H
#include <stddef.h>
void *malloc(size_t);
void *realloc(void *, size_t);
char *realpath(const char *, char *);
int mkstemp(char *);
void free(void *);
#endif
