/* A program's arguments, as the toolchain's library `os` asks C for them. The toolchain brings this compiled for x86-64 alone: a program
 * that host/native compiles for another processor is linked with it. */
#include <errno.h>
#include <stddef.h>
#include <stdint.h>
#include <sys/types.h>

static size_t count;
static char **words;

/* The GNU C library hands a program's arguments to what runs before its main. */
__attribute__((constructor)) static void keep(int argc, char **argv)
{
    count = (size_t)argc;
    words = argv;
}

size_t rattle_arg_count(void)
{
    return count;
}

/* Puts argument i into buf and answers its length; -1 where there is none, -2 where it does not fit, with buf full of its first bytes. */
ssize_t rattle_arg(size_t i, uint8_t *buf, size_t room)
{
    if (i >= count || words[i] == NULL)
        return -1;
    size_t n = 0;
    for (; words[i][n] != '\0'; n++) {
        if (n == room)
            return -2;
        buf[n] = (uint8_t)words[i][n];
    }
    return (ssize_t)n;
}

void rattle_set_errno(int error)
{
    errno = error;
}
