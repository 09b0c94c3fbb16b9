/* What the programs of examples/ take from <sys/stat.h>, for a compiler without a C library's headers; on x86-64 Linux. */
#ifndef PLAIN_SYS_STAT_H
#define PLAIN_SYS_STAT_H
struct stat {
    unsigned long st_dev, st_ino, st_nlink;
    unsigned st_mode, st_uid, st_gid, between;
    long behind[13];
};
int stat(const char *, struct stat *);
int fstat(int, struct stat *);
int fchmod(int, unsigned);
#endif
