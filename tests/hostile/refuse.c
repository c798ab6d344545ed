/* A library that is loaded before the C library's own calls and has some of them fail, as the environment says.
 *
 * HOSTILE_PLAN is clauses `KIND FROM TO HOW` with `;` between them: the calls of this kind with these numbers, from 1,
 * are met, and the first clause that names a call counts. KIND is `alloc`, `read`, `out`, `err` or `file` (a write to
 * standard output, to standard error, or elsewhere), `open` or `thread`. HOW is the error that is reported, or 0 where a
 * read or write moves nothing and says so, or -1 where it moves one byte.
 *
 * HOSTILE_TALLY names a file of two numbers of 64 bits for each kind, in the order above: how many calls there were,
 * and how many of them failed by the plan.
 */
#define _GNU_SOURCE
#include <dlfcn.h>
#include <errno.h>
#include <fcntl.h>
#include <pthread.h>
#include <stdarg.h>
#include <stdio.h>
#include <stdlib.h>
#include <string.h>
#include <sys/mman.h>
#include <sys/syscall.h>
#include <sys/uio.h>
#include <unistd.h>

enum kind { ALLOC, READ, OUT, ERR, ELSEWHERE, OPEN, THREAD, KINDS };
enum { MAX_CLAUSES = 8, ONE_BYTE = -1, GOES_ON = -2 };

struct clause {
    enum kind kind;
    long from, to;
    int how;
};

static const char *const names[KINDS] = {"alloc", "read", "out", "err", "file", "open", "thread"};
static struct clause clauses[MAX_CLAUSES];
static int clause_count;
static long own_tally[2 * KINDS];
static long *tally = own_tally;
static int is_ready;

extern void *__libc_malloc(size_t);
extern void *__libc_calloc(size_t, size_t);
extern void *__libc_realloc(void *, size_t);
extern void *__libc_memalign(size_t, size_t);

static enum kind kind_of(const char *name)
{
    int kind = 0;
    while (kind < KINDS && strcmp(names[kind], name) != 0)
        kind++;
    return kind;
}

static void fail(const char *why)
{
    fprintf(stderr, "refuse: %s\n", why);
    _exit(125);
}

static void read_plan(const char *plan)
{
    char name[8];
    int read = 0;
    while (*plan != '\0') {
        struct clause *next = &clauses[clause_count];
        if (clause_count == MAX_CLAUSES
            || sscanf(plan, "%7s %ld %ld %d%n", name, &next->from, &next->to, &next->how, &read) != 4)
            fail("the plan is wrong");
        next->kind = kind_of(name);
        if (next->kind == KINDS)
            fail("the plan names no such kind");
        clause_count++;
        plan += read;
        plan += *plan == ';';
    }
}

__attribute__((constructor)) static void begin(void)
{
    const char *plan = getenv("HOSTILE_PLAN"), *path = getenv("HOSTILE_TALLY");
    if (path != NULL) {
        int file = open(path, O_RDWR | O_CLOEXEC);
        tally = mmap(NULL, sizeof own_tally, PROT_READ | PROT_WRITE, MAP_SHARED, file, 0);
        if (file < 0 || tally == MAP_FAILED)
            fail("no tally");
        close(file);
    }
    if (plan != NULL)
        read_plan(plan);
    is_ready = 1;
}

/* What the plan has for the next call of a kind: how it is met, or that it goes on. */
static int next_call(enum kind kind)
{
    if (!is_ready)
        return GOES_ON;
    long number = __atomic_add_fetch(&tally[2 * kind], 1, __ATOMIC_SEQ_CST);
    for (int i = 0; i < clause_count; i++)
        if (clauses[i].kind == kind && clauses[i].from <= number && number <= clauses[i].to) {
            if (clauses[i].how != ONE_BYTE)
                __atomic_add_fetch(&tally[2 * kind + 1], 1, __ATOMIC_SEQ_CST);
            return clauses[i].how;
        }
    return GOES_ON;
}

static int is_refused(void)
{
    int how = next_call(ALLOC);
    if (how == GOES_ON)
        return 0;
    errno = how;
    return 1;
}

void *malloc(size_t size)
{
    return is_refused() ? NULL : __libc_malloc(size);
}

void *calloc(size_t count, size_t size)
{
    return is_refused() ? NULL : __libc_calloc(count, size);
}

void *realloc(void *old, size_t size)
{
    return is_refused() ? NULL : __libc_realloc(old, size);
}

void *memalign(size_t alignment, size_t size)
{
    return is_refused() ? NULL : __libc_memalign(alignment, size);
}

void *aligned_alloc(size_t alignment, size_t size)
{
    return memalign(alignment, size);
}

int posix_memalign(void **at, size_t alignment, size_t size)
{
    void *made = memalign(alignment, size);
    if (made == NULL)
        return ENOMEM;
    *at = made;
    return 0;
}

/* A read or write of `size` bytes under the plan. */
static ssize_t moved(enum kind kind, long call, int file, void *bytes, size_t size)
{
    int how = next_call(kind);
    if (how > 0) {
        errno = how;
        return -1;
    }
    if (how == 0)
        return 0;
    return syscall(call, file, bytes, how == ONE_BYTE && size > 1 ? 1 : size);
}

ssize_t read(int file, void *bytes, size_t size)
{
    return moved(READ, SYS_read, file, bytes, size);
}

ssize_t write(int file, const void *bytes, size_t size)
{
    enum kind kind = file == STDOUT_FILENO ? OUT : file == STDERR_FILENO ? ERR : ELSEWHERE;
    return moved(kind, SYS_write, file, (void *)bytes, size);
}

ssize_t __write(int file, const void *bytes, size_t size)
{
    return write(file, bytes, size);
}

/* (a write of several pieces may always end with the first one that is not empty) */
ssize_t writev(int file, const struct iovec *pieces, int count)
{
    int first = 0;
    while (first < count && pieces[first].iov_len == 0)
        first++;
    return first == count ? 0 : write(file, pieces[first].iov_base, pieces[first].iov_len);
}

static int opened(int folder, const char *path, int flags, int mode)
{
    int how = next_call(OPEN);
    if (how >= 0) {
        errno = how;
        return -1;
    }
    return syscall(SYS_openat, folder, path, flags, mode);
}

/* The mode of a call that may have one, after its flags. */
#define MODE(flags)                                             \
    ({                                                          \
        va_list rest;                                           \
        va_start(rest, flags);                                  \
        int mode = flags & O_CREAT ? va_arg(rest, int) : 0;     \
        va_end(rest);                                           \
        mode;                                                   \
    })

int open(const char *path, int flags, ...)
{
    return opened(AT_FDCWD, path, flags, MODE(flags));
}

int open64(const char *path, int flags, ...)
{
    return opened(AT_FDCWD, path, flags, MODE(flags));
}

int openat(int folder, const char *path, int flags, ...)
{
    return opened(folder, path, flags, MODE(flags));
}

int pthread_create(pthread_t *thread, const pthread_attr_t *how, void *(*body)(void *), void *given)
{
    int refused = next_call(THREAD);
    if (refused >= 0)
        return refused;
    int (*start)(pthread_t *, const pthread_attr_t *, void *(*)(void *), void *) = dlsym(RTLD_NEXT, "pthread_create");
    return start(thread, how, body, given);
}
