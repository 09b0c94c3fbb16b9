/* What the programs of examples/ take from <string.h>, for a compiler without a C library's headers. */
#ifndef PLAIN_STRING_H
#define PLAIN_STRING_H
#include <stddef.h>
void *memcpy(void *, const void *, size_t);
int memcmp(const void *, const void *, size_t);
int strcmp(const char *, const char *);
char *strrchr(const char *, int);
char *strtok(char *, const char *);
#endif
