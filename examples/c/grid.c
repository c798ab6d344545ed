/* Drops chips in the middle of a grid, shows what is left on each square, and then what single chips set off.
 *
 *     cc grid.c $(pkg-config --cflags --libs chipfire) -o grid */
#include <chipfire.h>
#include <inttypes.h>
#include <stdio.h>

enum { SIDE = 7, SINK = SIDE * SIDE, VERTICES = SINK + 1, MIDDLE = SINK / 2, EDGES = 4 * SINK, DROPS = 5 };

/* A graph as the library takes it. */
struct graph {
    uint64_t tails[EDGES], heads[EDGES], mults[EDGES];
    size_t edges;
};

/* Joins each square to those beside it, and each one on the border to the sink: squares outside are the sink. */
static void make_grid(struct graph *grid)
{
    static const int lines[] = {-1, 0, 0, 1}, columns[] = {0, -1, 1, 0};
    grid->edges = 0;
    for (int square = 0; square < SINK; square++) {
        for (int side = 0; side < 4; side++) {
            int line = square / SIDE + lines[side], column = square % SIDE + columns[side];
            int is_inside = line >= 0 && line < SIDE && column >= 0 && column < SIDE;
            grid->tails[grid->edges] = (uint64_t)square;
            grid->heads[grid->edges] = is_inside ? (uint64_t)(SIDE * line + column) : SINK;
            grid->mults[grid->edges] = 1;
            grid->edges++;
        }
    }
}

/* Prints a fault, and returns the status of the program. */
static int say(uint64_t fault, uint64_t place)
{
    fprintf(stderr, "fault %" PRIu64 " at %" PRIu64 ": `chipfire explain %" PRIu64 "` says more\n", fault, place, fault);
    return 1;
}

int main(void)
{
    struct graph grid;
    uint64_t chips[VERTICES] = {[MIDDLE] = 100}, fired[VERTICES], stopped[1], place, fault, firings = 0;
    uint64_t none[1] = {0}, at[DROPS] = {MIDDLE, MIDDLE, MIDDLE, MIDDLE, 0}, amounts[DROPS] = {1, 1, 1, 1, 4};
    uint64_t sizes[DROPS], extents[DROPS], losts[DROPS], limit = UINT64_C(1) << 40;
    make_grid(&grid);
    fault = chipfire_stabilize_all(VERTICES, SINK, grid.tails, grid.edges, grid.heads, grid.edges, grid.mults, grid.edges,
                                   limit, none, 0, chips, VERTICES, fired, VERTICES, stopped, 1, &place);
    if (fault != 0) return say(fault, place);
    for (int square = 0; square < SINK; square++) {
        firings += fired[square];
        printf("%" PRIu64 "%s", chips[square], square % SIDE == SIDE - 1 ? "\n" : "");
    }
    printf("%" PRIu64 " firings, %" PRIu64 " chips lost\n", firings, chips[SINK]);
    fault = chipfire_avalanches(VERTICES, SINK, grid.tails, grid.edges, grid.heads, grid.edges, grid.mults, grid.edges,
                                limit, at, DROPS, amounts, DROPS, chips, VERTICES, sizes, DROPS, extents, DROPS,
                                losts, DROPS, &place);
    if (fault != 0) return say(fault, place);
    for (int drop = 0; drop < DROPS; drop++)
        printf("%" PRIu64 " on square %" PRIu64 ": %" PRIu64 " firings of %" PRIu64 " squares, %" PRIu64 " lost\n",
               amounts[drop], at[drop], sizes[drop], extents[drop], losts[drop]);
    return 0;
}
