/* Files that outlive a power failure: read whole, locked, flushed with their folders, replaced in one step. What fails is told on standard error
   by the file's name; the answer is then 0, or what is said below. */
#ifndef FILES_H
#define FILES_H

#include <stdint.h>
#include <stdio.h>

enum { MOST_PATH = 4096 };

enum lock { LOCKED, HELD, NOT_LOCKED };
enum replaced { NOT_REPLACED, NOT_FLUSHED, REPLACED };

int failed(const char *name);

/* The path behind all symbolic links, in memory of its own; NULL. */
char *resolved(const char *name);

/* All bytes of a file, in memory of their own, which is the caller's to free. */
int read_all(FILE *file, const char *name, uint8_t **bytes, size_t *length);

/* What was written so far is on disk. */
int flushed(FILE *file);

/* A new or renamed file is found again only once its folder is on disk too. */
int flushed_folder(const char *path);

/* One process alone has a file locked, until it ends or closes any stream of that file. Nobody waits: another one is told that it is held. */
enum lock lock_file(FILE *file);

/* The path leads to the very file that is open. */
int leads_to(const char *path, FILE *file);

/* A new file beside the old one, with its mode, and on disk but for its folder. Its name, which no file had before, is the old one's with a point
   and six letters. */
int written_beside(const char *path, FILE *old, const uint8_t *bytes, size_t length, char name[MOST_PATH]);

/* Writes a new file beside the old one, which it then replaces at once. The old one is as it was (NOT_REPLACED); or it is replaced, and a power
   failure may bring it back (NOT_FLUSHED), or can't any more (REPLACED). */
enum replaced replace_file(const char *path, FILE *old, const uint8_t *bytes, size_t length);

#endif
