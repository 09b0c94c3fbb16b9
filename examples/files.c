/* See files.h. */
#define _XOPEN_SOURCE 700
#include "files.h"
#include <errno.h>
#include <fcntl.h>
#include <stdlib.h>
#include <string.h>
#include <sys/stat.h>
#include <unistd.h>

int failed(const char *name)
{
    fprintf(stderr, "edit: ");
    perror(name);
    return 0;
}

char *resolved(const char *name)
{
    char *path = realpath(name, NULL);
    if (path == NULL)
        failed(name);
    return path;
}

int read_all(FILE *file, const char *name, uint8_t **bytes, size_t *length)
{
    size_t room = 0, got = 1;
    for (*bytes = NULL, *length = 0; got > 0; *length += got) {
        if (*length == room) {
            uint8_t *larger = realloc(*bytes, room = 2 * room + 65536);
            if (larger == NULL)
                return failed(name);
            *bytes = larger;
        }
        got = fread(*bytes + *length, 1, room - *length, file);
    }
    return !ferror(file) || failed(name);
}

int flushed(FILE *file)
{
    return fflush(file) == 0 && fsync(fileno(file)) == 0;
}

int flushed_folder(const char *path)
{
    char folder[MOST_PATH];
    const char *slash = strrchr(path, '/');
    size_t length = slash == NULL ? 0 : (size_t)(slash - path) + 1;
    int opened, right;
    if (length + 2 > sizeof folder) {
        errno = ENAMETOOLONG;
        return failed(path);
    }
    memcpy(folder, path, length);
    memcpy(folder + length, ".", 2);
    opened = open(folder, O_RDONLY);
    right = opened >= 0 && fsync(opened) == 0;
    if (!right)
        failed(folder);
    if (opened >= 0)
        close(opened);
    return right;
}

enum lock lock_file(FILE *file)
{
    struct flock whole = {.l_type = F_WRLCK, .l_whence = SEEK_SET};
    if (fcntl(fileno(file), F_SETLK, &whole) == 0)
        return LOCKED;
    return errno == EACCES || errno == EAGAIN ? HELD : NOT_LOCKED;
}

int leads_to(const char *path, FILE *file)
{
    struct stat named, opened;
    return stat(path, &named) == 0 && fstat(fileno(file), &opened) == 0 && named.st_dev == opened.st_dev && named.st_ino == opened.st_ino;
}

/* A file that was not there before, open for its owner alone. */
static FILE *new_beside(const char *path, char name[MOST_PATH])
{
    int put = snprintf(name, MOST_PATH, "%s.XXXXXX", path), opened = -1;
    FILE *file;
    if (put > 0 && put < MOST_PATH)
        opened = mkstemp(name);
    else
        errno = ENAMETOOLONG;
    file = opened < 0 ? NULL : fdopen(opened, "wb");
    if (file == NULL)
        failed(path);
    if (file == NULL && opened >= 0) {
        close(opened);
        remove(name);
    }
    return file;
}

/* The mode is kept. So are owner and group as far as the system lets us, which may be not at all. */
static int with_mode_of(FILE *old, FILE *file)
{
    struct stat was;
    int to = fileno(file), owned;
    if (fstat(fileno(old), &was) != 0)
        return 0;
    owned = fchown(to, was.st_uid, was.st_gid) == 0 || fchown(to, (uid_t)-1, was.st_gid) == 0;
    (void)owned;
    return fchmod(to, was.st_mode & 07777) == 0;
}

int written_beside(const char *path, FILE *old, const uint8_t *bytes, size_t length, char name[MOST_PATH])
{
    FILE *file = new_beside(path, name);
    int written;
    if (file == NULL)
        return 0;
    written = (with_mode_of(old, file) && fwrite(bytes, 1, length, file) == length && flushed(file)) || failed(name);
    fclose(file);
    if (!written)
        remove(name);
    return written;
}

enum replaced replace_file(const char *path, FILE *old, const uint8_t *bytes, size_t length)
{
    char name[MOST_PATH];
    if (!written_beside(path, old, bytes, length, name))
        return NOT_REPLACED;
    if (rename(name, path) != 0) {
        failed(path);
        remove(name);
        return NOT_REPLACED;
    }
    return flushed_folder(path) ? REPLACED : NOT_FLUSHED;
}
