/* What the program on aarch64 asks of the system beside the C library: the kit has it for x86-64 alone. Each function does
 * what the kit's library `os` says of its name. Nothing proves it. */
#include <errno.h>
#include <stddef.h>
#include <stdint.h>
#include <sys/types.h>

enum { NO_ARGUMENT = -1, NO_ROOM = -2 };

static char **words;
static size_t count;

__attribute__((constructor)) static void keep(int given, char **its)
{
    count = (size_t)given;
    words = its;
}

/* Copies an argument without its end, and returns its length, or why not: then what there is room for is copied. */
ssize_t rattle_arg(size_t at, char *to, size_t room)
{
    size_t length = 0;
    if (at >= count || words[at] == NULL) return NO_ARGUMENT;
    for (; words[at][length] != '\0'; length++) {
        if (length == room) return NO_ROOM;
        to[length] = words[at][length];
    }
    return (ssize_t)length;
}

int32_t rattle_errno(void)
{
    return errno;
}

void rattle_set_errno(int32_t error)
{
    errno = error;
}
