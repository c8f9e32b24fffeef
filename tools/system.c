/* What the kit's library `os` asks of the system beside the C library's own functions, for a program that is compiled for another machine than x86-64,
   as far as the programs over traces ask it: the words that the program was called with (glibc hands them to constructors), and errno. */
#include <errno.h>
#include <stddef.h>
#include <string.h>
#include <sys/types.h>

static size_t count;
static char **words;

__attribute__((constructor)) static void keep(int given, char **each)
{
    count = (size_t)given;
    words = each;
}

size_t rattle_arg_count(void) { return count; }

/* Word i into the first `room` bytes of the buffer: its length, -1 if there is none, -2 if it does not fit, and then the buffer is full. */
ssize_t rattle_arg(size_t i, char *buffer, size_t room)
{
    if (i >= count) return -1;
    size_t length = strlen(words[i]);
    memcpy(buffer, words[i], length < room ? length : room);
    return length <= room ? (ssize_t)length : -2;
}

int rattle_errno(void) { return errno; }
void rattle_set_errno(int number) { errno = number; }
