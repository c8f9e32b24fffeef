/* Calls of the system that fail. tests/programs/run links the programs with them, so that a fault needs no tool that traces a process:
   FAULT="read 2 5" has the second call of read answer -1 with errno 5, and FAULT="fsync 0 22" every fsync with 22. Calls on standard output and
   standard error do not count. SHORT=7 has each read bring 7 bytes at most. */
#include <errno.h>
#include <stdio.h>
#include <stdlib.h>
#include <string.h>
#include <sys/types.h>

static int fails(const char *call)
{
    static int calls;
    char name[16] = "";
    int which = -1, number = 0;
    const char *fault = getenv("FAULT");
    if (!fault || sscanf(fault, "%15s %d %d", name, &which, &number) != 3 || strcmp(name, call)) return 0;
    calls++;
    if (which != 0 && which != calls) return 0;
    errno = number;
    return 1;
}

ssize_t __real_read(int fd, void *bytes, size_t count);
ssize_t __real_write(int fd, const void *bytes, size_t count);
int __real_fsync(int fd);
int __real_fchmod(int fd, mode_t mode);
int __real_rename(const char *from, const char *to);

ssize_t __wrap_read(int fd, void *bytes, size_t count)
{
    const char *most = getenv("SHORT");
    if (fails("read")) return -1;
    return __real_read(fd, bytes, most && strtoul(most, NULL, 10) < count ? strtoul(most, NULL, 10) : count);
}

ssize_t __wrap_write(int fd, const void *bytes, size_t count)
{
    if (fd > 2 && fails("write")) return -1;
    return __real_write(fd, bytes, count);
}

int __wrap_fsync(int fd) { return fails("fsync") ? -1 : __real_fsync(fd); }
int __wrap_fchmod(int fd, mode_t mode) { return fails("fchmod") ? -1 : __real_fchmod(fd, mode); }
int __wrap_rename(const char *from, const char *to) { return fails("rename") ? -1 : __real_rename(from, to); }
