/* Plays games that standard input has, one after another, each by one call, and writes what the call returns.
 *
 * A game is a row of numbers: the vertices, the sink, the limit, the number of edges, the three columns of the edges, how
 * many chips there are, and the chips. What is written is a row too: the status, the place, the chips, the counts, and how
 * many vertices the limit stopped. */
#include <chipfire.h>
#include <inttypes.h>
#include <stdio.h>

enum { MOST = 100 };

static uint64_t number(void)
{
    uint64_t it = 0;
    return scanf("%" SCNu64, &it) == 1 ? it : 0;
}

static void read_numbers(uint64_t *to, size_t length)
{
    for (size_t at = 0; at < length; at++) to[at] = number();
}

static void write_numbers(const uint64_t *its, size_t length)
{
    for (size_t at = 0; at < length; at++) printf(" %" PRIu64, its[at]);
}

int main(void)
{
    uint64_t vertices;
    while (scanf("%" SCNu64, &vertices) == 1) {
        uint64_t tails[MOST], heads[MOST], mults[MOST], chips[MOST], fired[MOST] = {0}, stopped = 0, place = 0;
        uint64_t sink = number(), limit = number();
        size_t edges = number();
        if (edges > MOST) return 2;
        read_numbers(tails, edges);
        read_numbers(heads, edges);
        read_numbers(mults, edges);
        size_t length = number();
        if (length > MOST) return 2;
        read_numbers(chips, length);
        uint64_t status = chipfire_stabilize_all(vertices, sink, tails, edges, heads, edges, mults, edges, limit, NULL, 0,
                                                 chips, length, fired, length, &stopped, 1, &place);
        printf("%" PRIu64 " %" PRIu64, status, place);
        write_numbers(chips, length);
        write_numbers(fired, length);
        printf(" %" PRIu64 "\n", stopped);
    }
    return 0;
}
