/* What the programs of examples/ take from <fcntl.h>, for a compiler without a C library's headers; on x86-64 Linux. */
#ifndef PLAIN_FCNTL_H
#define PLAIN_FCNTL_H
#define O_RDONLY 0
#define F_SETLK 6
#define F_WRLCK 1
struct flock {
    short l_type, l_whence;
    long l_start, l_len;
    int l_pid;
};
int open(const char *, int, ...);
int fcntl(int, int, ...);
#endif
