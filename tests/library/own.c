/* Calls each function of tools/malloc.c and tools/os.c, or of the kit's C code, which they stand in for, and writes what comes
 * of it: the arguments by rooms that are too small too, what memory holds after it has moved, and the system's errors. */
#include <errno.h>
#include <stdint.h>
#include <stdio.h>
#include <string.h>
#include <sys/types.h>

enum { ROOM = 8, KEPT = 100, ALIGNMENT = 8 };

struct memory {
    size_t is_there;
    unsigned char *at;
};

struct memory rattle_alloc(size_t bytes, size_t alignment);
struct memory rattle_realloc(void *at, size_t kept, size_t bytes, size_t alignment);
void rattle_dealloc(void *at);
ssize_t rattle_arg(size_t at, char *to, size_t room);
int32_t rattle_errno(void);
void rattle_set_errno(int32_t error);

static void print_arguments(size_t count)
{
    for (size_t at = 0; at <= count + 1; at++)
        for (size_t room = 0; room <= ROOM; room++) {
            char to[] = "........";
            ssize_t length = rattle_arg(at, to, room);
            /* (the first is the program's own name) */
            if (at > 0) printf("%zu %zu: %zd %s\n", at, room, length, to);
        }
}

/* Prints what a call returned, and whether the place is aligned. */
static void print_memory(const char *name, size_t bytes, struct memory its)
{
    printf("%s %zu: %zu, %s\n", name, bytes, its.is_there, (uintptr_t)its.at % ALIGNMENT == 0 ? "aligned" : "not aligned");
}

/* Prints how many bytes are as they were written. */
static void print_kept(const unsigned char *at)
{
    size_t kept = 0;
    while (kept < KEPT && at[kept] == kept) kept++;
    printf("%zu kept\n", kept);
}

static void try_memory(void)
{
    const size_t sizes[] = {0, 1, KEPT, 1 << 20};
    for (size_t i = 0; i < sizeof sizes / sizeof *sizes; i++) {
        struct memory its = rattle_alloc(sizes[i], ALIGNMENT);
        print_memory("alloc", sizes[i], its);
        memset(its.at, 1, sizes[i]);
        rattle_dealloc(its.at);
    }
    struct memory its = rattle_alloc(KEPT, ALIGNMENT);
    for (size_t i = 0; i < KEPT; i++) its.at[i] = (unsigned char)i;
    const size_t moved[] = {1 << 20, KEPT, 1 << 22};
    for (size_t i = 0; i < sizeof moved / sizeof *moved; i++) {
        its = rattle_realloc(its.at, KEPT, moved[i], ALIGNMENT);
        print_memory("realloc", moved[i], its);
        print_kept(its.at);
    }
    printf("%zu\n", rattle_realloc(its.at, KEPT, SIZE_MAX / 2, ALIGNMENT).is_there);
    print_kept(its.at);
    its = rattle_realloc(its.at, KEPT, 0, ALIGNMENT);
    print_memory("realloc", 0, its);
    rattle_dealloc(its.at);
    printf("%zu\n", rattle_alloc(SIZE_MAX / 2, ALIGNMENT).is_there);
}

static void try_errors(void)
{
    rattle_set_errno(ENOENT);
    printf("%d %d\n", rattle_errno(), errno == ENOENT);
    errno = EINTR;
    printf("%d\n", rattle_errno() == EINTR);
}

int main(int count, char **words)
{
    (void)words;
    print_arguments((size_t)count);
    try_memory();
    try_errors();
    return 0;
}
