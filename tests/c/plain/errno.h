/* What the programs of examples/ take from <errno.h>, for a compiler without a C library's headers; on x86-64 Linux. */
#ifndef PLAIN_ERRNO_H
#define PLAIN_ERRNO_H
int *__errno_location(void);
#define errno (*__errno_location())
#define EIO 5
#define EAGAIN 11
#define EACCES 13
#define ENAMETOOLONG 36
#endif
