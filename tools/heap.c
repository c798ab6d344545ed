/* The heap of chipfire.wasm, over the memory of the module: what the kit's heap defines over the C library's malloc.
 *
 * Free blocks are a list by their addresses, and each block begins with its size. Where no free block is large enough
 * the memory grows; where it cannot, there is no memory, as of malloc. The module has one thread. Nothing here is
 * proved. */
typedef unsigned long long word;
/* (as wide as a pointer) */
typedef unsigned long size;

struct block {
    size bytes; /* of the whole block */
    struct block *next;
};

/* What the kit's functions return: whether there is memory, and where. */
struct given {
    word has;
    word at;
};

enum { HEAD = 16, LEAST = 32, PAGE = 65536, STEP = 16 };

/* More than any engine gives, and few enough pages for 32-bit addresses. */
#define MOST (1ull << 34)
/* What memory.grow returns if it fails, once addresses have 32 bits; with 64 it is more. */
#define FAILED 0xffffffff

extern unsigned char __heap_base;
static struct block first;
static size end;

static size rounded(size bytes)
{
    return (bytes + HEAD - 1) & ~(size)(HEAD - 1);
}

static struct block *block_of(void *at)
{
    return (struct block *)((char *)at - HEAD);
}

static int is_beside(struct block *it, struct block *next)
{
    return (char *)it + it->bytes == (char *)next;
}

/* Takes the next block of the list into this one, if it lies beside it. */
static void join(struct block *it)
{
    if (!it->next || !is_beside(it, it->next)) return;
    it->bytes += it->next->bytes;
    it->next = it->next->next;
}

void rattle_dealloc(void *at)
{
    struct block *it = block_of(at);
    struct block *before = &first;
    while (before->next && before->next < it) before = before->next;
    it->next = before->next;
    before->next = it;
    join(it);
    if (before != &first) join(before);
}

static int grew(size pages)
{
    return __builtin_wasm_memory_grow(0, pages) < FAILED;
}

/* Makes a free block of some more bytes than these, by which the memory grows; first of what it has besides data and
 * stack. Returns whether it could. */
static int grow(size bytes)
{
    size pages = bytes / PAGE + 1;
    size from = end ? end : rounded((size)&__heap_base);
    int has_grown = !end || (pages < STEP && grew(STEP)) || grew(pages);
    if (!has_grown) return 0;
    end = __builtin_wasm_memory_size(0) * (size)PAGE;
    if (end - from < LEAST) return 1;
    struct block *it = (struct block *)from;
    it->bytes = end - from;
    rattle_dealloc((char *)it + HEAD);
    return 1;
}

/* Takes a block out of the list, after the one before it, and gives back what is more than these bytes. */
static void *cut(struct block *before, size bytes)
{
    struct block *it = before->next;
    if (it->bytes - bytes < LEAST) {
        before->next = it->next;
        return (char *)it + HEAD;
    }
    struct block *rest = (struct block *)((char *)it + bytes);
    rest->bytes = it->bytes - bytes;
    rest->next = it->next;
    it->bytes = bytes;
    before->next = rest;
    return (char *)it + HEAD;
}

/* Returns memory for the bytes that are asked for, or 0 where there is none. */
static void *take(word asked)
{
    if (asked > MOST) return 0;
    size bytes = rounded((size)asked + HEAD);
    if (bytes < LEAST) bytes = LEAST;
    do {
        for (struct block *before = &first; before->next; before = before->next)
            if (before->next->bytes >= bytes) return cut(before, bytes);
    } while (grow(bytes));
    return 0;
}

/* (LLVM returns two words through a pointer, which it passes first) */
void rattle_alloc(struct given *given, word bytes, word align)
{
    void *at = align > HEAD ? 0 : take(bytes ? bytes : align);
    given->has = at != 0;
    given->at = (word)(size)(at ? at : &first);
}

void rattle_realloc(struct given *given, void *at, word kept, word bytes, word align)
{
    word asked = bytes ? bytes : align;
    size had = block_of(at)->bytes - HEAD;
    if (asked <= had && asked >= had / 2) {
        given->has = 1;
        given->at = (word)(size)at;
        return;
    }
    rattle_alloc(given, asked, align);
    if (!given->has) return;
    __builtin_memcpy((void *)(size)given->at, at, kept < asked ? kept : asked);
    rattle_dealloc(at);
}

/* Memory for the caller's own arrays; 0 where there is none. */
void *chipfire_room(word bytes)
{
    return take(bytes);
}

void chipfire_free(void *at)
{
    rattle_dealloc(at);
}

/* The low 128 bits of a product, which LLVM calls by this name where the machine has no such product. */
unsigned __int128 __multi3(unsigned __int128 x, unsigned __int128 y)
{
    word a = (word)x, b = (word)y;
    word a_low = a & 0xffffffff, a_high = a >> 32;
    word b_low = b & 0xffffffff, b_high = b >> 32;
    word low = a_low * b_low;
    word one = a_high * b_low + (low >> 32);
    word two = a_low * b_high + (one & 0xffffffff);
    word high = a_high * b_high + (one >> 32) + (two >> 32) + a * (word)(y >> 64) + (word)(x >> 64) * b;
    return (unsigned __int128)high << 64 | (two << 32 | (low & 0xffffffff));
}
