/* The program's arguments for a program of the kit, on a processor other than x86-64, for which the kit has its library os compiled:
   the three functions of that library's C that our programs call. glibc hands the arguments to every function that it runs before main. */
#include <errno.h>
#include <stddef.h>
#include <stdint.h>
#include <string.h>

static size_t count;
static char **words;

__attribute__((constructor)) static void keep(int argc, char **argv)
{
    count = (size_t)argc;
    words = argv;
}

/* Argument i put at the start of the buffer; its length, -1 where there is none, -2 where it does not fit, and the buffer is full then. */
ptrdiff_t rattle_arg(size_t i, uint8_t *buffer, size_t room)
{
    size_t length;
    if (i >= count)
        return -1;
    length = strlen(words[i]);
    memcpy(buffer, words[i], length < room ? length : room);
    return length > room ? -2 : (ptrdiff_t)length;
}

void rattle_set_errno(int32_t error)
{
    errno = error;
}

int32_t rattle_errno(void)
{
    return errno;
}
