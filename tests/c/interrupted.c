/* Loaded before the C library: every second call of open and read is interrupted, and a read gives at most seven bytes.
   At the end it says on standard error how often, so that nobody trusts a program that it was not loaded into. */
#define _GNU_SOURCE

#include <errno.h>
#include <fcntl.h>
#include <stdbool.h>
#include <stdio.h>
#include <sys/syscall.h>
#include <unistd.h>

static unsigned calls;

static bool interrupted(void)
{
    errno = EINTR;
    return calls++ % 2 == 0;
}

int open(const char *path, int flags, ...)
{
    return interrupted() ? -1 : (int)syscall(SYS_openat, AT_FDCWD, path, flags);
}

ssize_t read(int file, void *to, size_t most)
{
    return interrupted() ? -1 : (ssize_t)syscall(SYS_read, file, to, most < 7 ? most : 7);
}

__attribute__((destructor)) static void say(void)
{
    fprintf(stderr, "interrupted %u times\n", (calls + 1) / 2);
}
