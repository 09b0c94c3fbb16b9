/* What the programs of examples/ take from <unistd.h>, for a compiler without a C library's headers; on x86-64 Linux. */
#ifndef PLAIN_UNISTD_H
#define PLAIN_UNISTD_H
#include <stddef.h>
#define STDIN_FILENO 0
typedef long off_t, ssize_t;
typedef unsigned uid_t, gid_t;
int close(int);
int fchown(int, uid_t, gid_t);
int fsync(int);
int ftruncate(int, off_t);
ssize_t read(int, void *, size_t);
#endif
