/* What the programs of examples/ take from <stdio.h>, for a compiler without a C library's headers. */
#ifndef PLAIN_STDIO_H
#define PLAIN_STDIO_H
#include <stddef.h>
#define EOF (-1)
#define _IOLBF 1
#define SEEK_SET 0
typedef struct _IO_FILE FILE;
extern FILE *stdin, *stdout, *stderr;
FILE *fopen(const char *, const char *);
FILE *fdopen(int, const char *);
int fclose(FILE *);
int setvbuf(FILE *, char *, int, size_t);
int fflush(FILE *);
int fileno(FILE *);
int feof(FILE *);
int ferror(FILE *);
void rewind(FILE *);
int getc(FILE *);
int getchar(void);
size_t fread(void *, size_t, size_t, FILE *);
size_t fwrite(const void *, size_t, size_t, FILE *);
int printf(const char *, ...);
int fprintf(FILE *, const char *, ...);
int snprintf(char *, size_t, const char *, ...);
void perror(const char *);
int rename(const char *, const char *);
int remove(const char *);
#endif
