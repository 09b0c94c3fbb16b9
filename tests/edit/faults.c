/* Linked into examples/edit.c in place of four functions of the C library, which fail, or end the program, as the variable FAULT says:

     stopped     it stops itself before the renaming, and says so
     unrenamed   it is killed before the renaming
     renamed     it is killed behind the renaming
     fixed       the renaming fails
     emptying    it is killed where the journal would be emptied
     full        the journal can't be emptied
     flush1      the first flush fails; and so on up to flush9
     loading     before the first lock, that of the journal, the file OTHER replaces the file REPLACED
     saving      the same before the second lock, that of the day
     unlocked    the second lock fails

   Otherwise they do what they do; on x86-64 Linux. */
#include <errno.h>
#include <fcntl.h>
#include <stdlib.h>
#include <string.h>
#include <unistd.h>

char *getenv(const char *);
int kill(int, int);
int getpid(void);
long write(int, const void *, size_t);
long syscall(long, ...);

enum { SYSCALL_FCNTL = 72, SYSCALL_FSYNC = 74, SYSCALL_FTRUNCATE = 77, SYSCALL_RENAME = 82, KILLED = 9, STOPPED = 19 };

static int flushes, locks;

static int fault_is(const char *name)
{
    const char *fault = getenv("FAULT");
    return fault != NULL && strcmp(fault, name) == 0;
}

static int fails(void)
{
    errno = EIO;
    return -1;
}

static void killed_if(const char *name)
{
    if (fault_is(name))
        kill(getpid(), KILLED);
}

int rename(const char *from, const char *to)
{
    int answer;
    killed_if("unrenamed");
    if (fault_is("fixed"))
        return fails();
    if (fault_is("stopped") && write(2, "stopped\n", 8) == 8)
        kill(getpid(), STOPPED);
    answer = (int)syscall(SYSCALL_RENAME, from, to);
    killed_if("renamed");
    return answer;
}

int fsync(int file)
{
    char name[] = "flush0";
    name[5] = (char)(name[5] + ++flushes);
    if (fault_is(name))
        return fails();
    return (int)syscall(SYSCALL_FSYNC, file);
}

int fcntl(int file, int command, ...)
{
    __builtin_va_list words;
    void *word;
    __builtin_va_start(words, command);
    word = __builtin_va_arg(words, void *);
    __builtin_va_end(words);
    locks += command == F_SETLK;
    if (command == F_SETLK && ((fault_is("loading") && locks == 1) || (fault_is("saving") && locks == 2)))
        syscall(SYSCALL_RENAME, getenv("OTHER"), getenv("REPLACED"));
    if (command == F_SETLK && fault_is("unlocked") && locks == 2)
        return fails();
    return (int)syscall(SYSCALL_FCNTL, file, command, word);
}

int ftruncate(int file, off_t length)
{
    killed_if("emptying");
    if (fault_is("full"))
        return fails();
    return (int)syscall(SYSCALL_FTRUNCATE, file, length);
}
