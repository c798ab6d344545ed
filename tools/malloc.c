/* The heap of libchipfire and of the program on aarch64, over the C library's: the kit has its own for x86-64 alone. Nothing
 * proves it.
 *
 * A call returns whether there is memory, and where. For no bytes at all it takes as many as the alignment, so that they
 * have a place of their own; where there is no memory, the place is one that nobody reads. */
#include <stdlib.h>

struct memory {
    size_t is_there;
    void *at;
};

static char nothing;

static struct memory memory_at(void *at)
{
    return (struct memory){at != NULL, at != NULL ? at : &nothing};
}

struct memory rattle_alloc(size_t bytes, size_t alignment)
{
    return memory_at(malloc(bytes != 0 ? bytes : alignment));
}

struct memory rattle_realloc(void *at, size_t kept, size_t bytes, size_t alignment)
{
    (void)kept;
    return memory_at(realloc(at, bytes != 0 ? bytes : alignment));
}

void rattle_dealloc(void *at)
{
    free(at);
}
