/* Counts by work stealing in how many ways queens stand on a board, none attacked by another, and sees by the books of
 * libchipfire when it is over.
 *
 * A part is a deque of tasks with a team of threads. A thread whose part has no task steals one of another part, and
 * that is a message from there. The root has the first task and no team, so no message leads to it.
 *
 *     cc -pthread steal.c $(pkg-config --cflags --libs chipfire) -o steal */
#include <chipfire.h>
#include <inttypes.h>
#include <pthread.h>
#include <sched.h>
#include <stdatomic.h>
#include <stdbool.h>
#include <stdio.h>
#include <stdlib.h>

enum { SIDE = 8, PARTS = 3, TEAM = 2, ROOT = PARTS, ROOM = 32 };

/* Queens on the first lines, and the squares of the next line that they attack: straight, and by both diagonals. */
struct task {
    unsigned lines, straight, left, right;
};

struct part {
    pthread_mutex_t lock;                              /* held by who reads or writes what follows */
    struct chipfire_tally ins[PARTS + 1], outs[PARTS]; /* edges from all parts, and to all but the root */
    struct chipfire_books books;                       /* over both */
    struct task tasks[ROOM];                           /* a ring */
    unsigned oldest, count, busy;                      /* where it begins, how many tasks, threads that work on one */
};

static struct part parts[PARTS + 1];
static _Atomic uint64_t acked[(PARTS + 1) * PARTS];    /* on each edge so far: its head writes, its tail reads */
static atomic_bool is_over;
static _Atomic uint64_t ways;

static uint64_t edge_of(int tail, int head)
{
    return (uint64_t)(tail * PARTS + head);
}

/* A call refuses what the books do not allow, and changes nothing: then this program keeps them wrong. */
static void must(uint64_t refusal)
{
    if (refusal == 0) return;
    fprintf(stderr, "refusal %" PRIu64 ": `chipfire explain %" PRIu64 "` says more\n", refusal, refusal);
    exit(1);
}

/* Acknowledges all that may be, by a thread that holds the lock. */
static void acknowledge(struct part *me)
{
    bool passive = me->count == 0 && me->busy == 0;
    for (int tail = 0; tail <= PARTS; tail++) {
        uint64_t edge = me->ins[tail].edge, count, word;
        must(chipfire_books_acknowledge(&me->books, edge, passive, &count, &word));
        atomic_store(&acked[edge], word);
    }
}

/* Settles what the heads have acknowledged, by a thread that holds the lock. */
static void settle(struct part *me)
{
    for (int head = 0; head < PARTS; head++) {
        uint64_t edge = me->outs[head].edge, more;
        must(chipfire_books_settled(&me->books, edge, atomic_load(&acked[edge]), &more));
    }
}

/* Adds a task to a part, if there is room. */
static bool put(struct part *me, struct task task)
{
    pthread_mutex_lock(&me->lock);
    bool has_room = me->count < ROOM;
    if (has_room) me->tasks[(me->oldest + me->count++) % ROOM] = task;
    pthread_mutex_unlock(&me->lock);
    return has_room;
}

/* Takes the newest task of the thread's own part, if there is one. */
static bool take(struct part *me, struct task *task)
{
    pthread_mutex_lock(&me->lock);
    bool has_task = me->count > 0;
    if (has_task) {
        *task = me->tasks[(me->oldest + --me->count) % ROOM];
        me->busy++;
    }
    pthread_mutex_unlock(&me->lock);
    return has_task;
}

/* Takes the oldest task of another part, if there is one. That part sends it: with a task it is not passive. */
static bool steal(struct part *me, struct part *victim, struct task *task)
{
    uint64_t edge = edge_of((int)(victim - parts), (int)(me - parts));
    pthread_mutex_lock(&victim->lock);
    bool has_task = victim->count > 0;
    if (has_task) {
        must(chipfire_books_sent(&victim->books, edge));
        *task = victim->tasks[victim->oldest++ % ROOM];
        victim->count--;
    }
    pthread_mutex_unlock(&victim->lock);
    if (!has_task) return false;
    pthread_mutex_lock(&me->lock);
    must(chipfire_books_got(&me->books, edge));
    me->busy++;
    pthread_mutex_unlock(&me->lock);
    return true;
}

/* Tries each square of the next line. What follows is a task for any thread, or done here if there is no room. */
static void search(struct part *me, struct task at)
{
    if (at.lines == SIDE) ways++;
    for (unsigned square = 1; at.lines < SIDE && square < 1u << SIDE; square <<= 1) {
        if ((at.straight | at.left | at.right) & square) continue;
        struct task next = {at.lines + 1, at.straight | square, (at.left | square) << 1, (at.right | square) >> 1};
        if (!put(me, next)) search(me, next);
    }
}

/* One thread of a team: it takes or steals a task, works on it, and keeps the books, until it is over. */
static void *work(void *its_part)
{
    struct part *me = its_part;
    while (!is_over) {
        struct task task;
        bool has_task = take(me, &task);
        for (int i = 1; i <= PARTS && !has_task; i++)
            has_task = steal(me, &parts[(me - parts + i) % (PARTS + 1)], &task);
        if (has_task) search(me, task);
        pthread_mutex_lock(&me->lock);
        me->busy -= has_task;
        settle(me);
        acknowledge(me);
        pthread_mutex_unlock(&me->lock);
        if (!has_task) sched_yield();
    }
    return NULL;
}

/* Says whether it is over: the root has given its task away, and all that came of it is acknowledged. */
static bool ask(struct part *root)
{
    uint64_t over;
    pthread_mutex_lock(&root->lock);
    settle(root);
    must(chipfire_books_is_over(&root->books, root->count == 0, &over));
    pthread_mutex_unlock(&root->lock);
    return over;
}

/* Makes the books of all parts, to which nothing happened yet. */
static void begin(void)
{
    for (int part = 0; part <= PARTS; part++) {
        struct part *me = &parts[part];
        size_t tails = part == ROOT ? 0 : PARTS + 1;
        pthread_mutex_init(&me->lock, NULL);
        for (size_t tail = 0; tail < tails; tail++) me->ins[tail].edge = edge_of((int)tail, part);
        for (int head = 0; head < PARTS; head++) me->outs[head].edge = edge_of(part, head);
        me->books = (struct chipfire_books){me->ins, tails, me->outs, PARTS, CHIPFIRE_NEUTRAL, 0, 0};
        must(chipfire_books_open(&me->books));
    }
}

int main(void)
{
    pthread_t threads[PARTS * TEAM];
    begin();
    put(&parts[ROOT], (struct task){0});
    for (int i = 0; i < PARTS * TEAM; i++)
        if (pthread_create(&threads[i], NULL, work, &parts[i % PARTS]) != 0) return 1;
    while (!ask(&parts[ROOT])) sched_yield();
    is_over = true;
    for (int i = 0; i < PARTS * TEAM; i++) pthread_join(threads[i], NULL);
    printf("%" PRIu64 " ways\n", ways);
    return 0;
}
