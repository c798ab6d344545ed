/* Runs examples/c/steal.c many times, or what an edit makes of it, and compares when it ends with the truth: how many
 * tasks there are, counted under a lock of their own, which the books know nothing of.
 *
 *     soak RUNS EARLY FOLDER
 *
 * There are RUNS runs, or fewer if EARLY of them ended early. It writes the number of runs; how many ended early, while
 * there were tasks; how many were missed, which had not ended 10 seconds after the last task; and how many of the others
 * found a wrong number of ways. The first runs leave logs for `chipfire judge` in the folder: a part is a
 * process, and an edge a channel. The test edits calls of `opened`, `received` and `finished` into the example, and uses
 * of `late` into one that is wrong. */
#define _POSIX_C_SOURCE 200809L
#include <chipfire.h>
#include <inttypes.h>
#include <pthread.h>
#include <stdbool.h>
#include <stdio.h>
#include <string.h>
#include <time.h>

enum { MISSED_AFTER = 10, LOGS = 100, NO_EDGE = -1 };

struct part;
static void opened(struct part *me);
static void received(struct part *me, uint64_t edge);
static void finished(struct part *me);
static _Thread_local int64_t late = NO_EDGE;

/* Draws a number below `many`: others in each thread. */
static unsigned drawn(unsigned many)
{
    static _Atomic uint64_t threads = 0;
    static _Thread_local uint64_t draw = 0;
    if (draw == 0) draw = UINT64_C(0x9E3779B97F4A7C15) * ++threads;
    draw = draw * UINT64_C(6364136223846793005) + UINT64_C(1442695040888963407);
    return (unsigned)(draw >> 33) % many;
}

/* Lets other threads go first, for less than `most` microseconds. (Where others work beside, a thread that sleeps comes
 * back sooner than one that yields.) */
static void linger(unsigned most)
{
    nanosleep(&(struct timespec){0, 1000 * (long)drawn(most)}, NULL);
}

/* Lets them go first now and then. */
static void pause_at_times(void)
{
    if (drawn(8) == 0) linger(10);
}

/* The truth, and the log of this run, if it has one. Who writes a row holds the lock. */
static pthread_mutex_t truth = PTHREAD_MUTEX_INITIALIZER;
static long tasks, early, missed;
static time_t last_task;
static FILE *rows;

/* Writes the row `count` times. */
static void write_rows(uint64_t count, uint64_t part, const char *kind, uint64_t edge)
{
    while (rows != NULL && count-- > 0) fprintf(rows, "%" PRIu64 ",%s,%" PRIu64 "\n", part, kind, edge);
}

/* Keeps the books, between pauses: rows of what others then see come before, and rows of what was seen after. */
static uint64_t sent(struct chipfire_books *books, uint64_t edge);
static uint64_t acknowledged(struct chipfire_books *books, uint64_t edge, uint64_t passive, uint64_t *count, uint64_t *word);
static uint64_t settled(struct chipfire_books *books, uint64_t edge, uint64_t word, uint64_t *more);
static uint64_t judged(const struct chipfire_books *books, uint64_t ended, uint64_t *over);

#define chipfire_books_sent sent
#define chipfire_books_got(...) (pause_at_times(), (chipfire_books_got)(__VA_ARGS__))
#define chipfire_books_acknowledge acknowledged
#define chipfire_books_settled settled
#define chipfire_books_is_over judged
#define main example
#include "steal.c"
#undef main
#undef chipfire_books_sent
#undef chipfire_books_got
#undef chipfire_books_acknowledge
#undef chipfire_books_settled
#undef chipfire_books_is_over

/* How many tasks each part has, which wait or are worked on. */
static unsigned tasks_of[PARTS + 1];

/* Notes that a part has a task fewer, by a thread that holds the truth. */
static void closed(uint64_t part)
{
    if (--tasks_of[part] == 0) write_rows(1, part, "passive", 0);
}

static void opened(struct part *me)
{
    pause_at_times();
    pthread_mutex_lock(&truth);
    if (tasks++ == 0) write_rows(1, ROOT, "active", 0);
    tasks_of[me - parts]++;
    pthread_mutex_unlock(&truth);
    pause_at_times();
}

static void received(struct part *me, uint64_t edge)
{
    pthread_mutex_lock(&truth);
    write_rows(1, (uint64_t)(me - parts), "receive", edge);
    tasks_of[me - parts]++;
    pthread_mutex_unlock(&truth);
}

/* Notes a message at last, if one was got. */
static void got_late(struct part *me)
{
    if (late == NO_EDGE) return;
    linger(3000);
    pthread_mutex_lock(&me->lock);
    must(chipfire_books_got(&me->books, (uint64_t)late));
    pthread_mutex_unlock(&me->lock);
    late = NO_EDGE;
}

static void finished(struct part *me)
{
    got_late(me);
    if (drawn(8) == 0) linger(100);
    pthread_mutex_lock(&truth);
    tasks--;
    closed((uint64_t)(me - parts));
    last_task = time(NULL);
    pthread_mutex_unlock(&truth);
    pause_at_times();
}

static uint64_t sent(struct chipfire_books *books, uint64_t edge)
{
    pause_at_times();
    pthread_mutex_lock(&truth);
    write_rows(1, edge / PARTS, "send", edge);
    closed(edge / PARTS);
    pthread_mutex_unlock(&truth);
    return chipfire_books_sent(books, edge);
}

static uint64_t acknowledged(struct chipfire_books *books, uint64_t edge, uint64_t passive, uint64_t *count, uint64_t *word)
{
    pause_at_times();
    uint64_t refusal = chipfire_books_acknowledge(books, edge, passive, count, word);
    pthread_mutex_lock(&truth);
    if (refusal == 0) write_rows(*count, edge % PARTS, "tell", edge);
    pthread_mutex_unlock(&truth);
    return refusal;
}

static uint64_t settled(struct chipfire_books *books, uint64_t edge, uint64_t word, uint64_t *more)
{
    pause_at_times();
    uint64_t refusal = chipfire_books_settled(books, edge, word, more);
    pthread_mutex_lock(&truth);
    if (refusal == 0) write_rows(*more, edge / PARTS, "hear", edge);
    pthread_mutex_unlock(&truth);
    return refusal;
}

/* Asks the root, and judges what it returns. A run that is missed ends here. */
static uint64_t judged(const struct chipfire_books *books, uint64_t ended, uint64_t *over)
{
    pthread_mutex_lock(&truth);
    uint64_t refusal = chipfire_books_is_over(books, ended, over);
    write_rows(refusal == 0 && *over != 0, ROOT, "over", 0);
    if (*over != 0 && tasks > 0) early++;
    if (*over == 0 && tasks == 0 && time(NULL) > last_task + MISSED_AFTER) {
        missed++;
        *over = 1;
    }
    pthread_mutex_unlock(&truth);
    return refusal;
}

/* Begins the log of a run in a folder, in the place of the one LOGS runs before. */
static bool begin_log(const char *folder, long run)
{
    char path[4096];
    if (snprintf(path, sizeof path, "%s/%ld.csv", folder, run % LOGS) >= (int)sizeof path) return false;
    rows = fopen(path, "w");
    return rows != NULL && fputs("process,kind,channel\n", rows) >= 0;
}

int main(int count, char **words)
{
    if (count != 4) return 1;
    long runs = atol(words[1]), most = atol(words[2]), run = 0, wrong = 0;
    for (; run < runs && early < most; run++) {
        long before = early + missed;
        memset(parts, 0, sizeof parts);
        memset(acked, 0, sizeof acked);
        memset(tasks_of, 0, sizeof tasks_of);
        is_over = false;
        ways = 0;
        tasks = 0;
        if (!begin_log(words[3], run)) return 1;
        if (example() != 0) return 1;
        if (fclose(rows) != 0) return 1;
        rows = NULL;
        wrong += early + missed == before && ways != WAYS;
    }
    printf("%ld %ld %ld %ld\n", run, early, missed, wrong);
    return 0;
}
