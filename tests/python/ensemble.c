/* What drops on a square set off on average, by a program that shares nothing with chipfire.
 *
 *     ensemble SIDE DROPS SEED
 *
 * A square with four chips fires: a chip goes to each neighbour, or over the border. The grid is empty at first, and ten
 * chips a square are dropped before anything is measured. Each line has a mean over the drops and its error, by 32 blocks
 * of them: of the firings, of their square, of the rounds, in each of which every legal square fires once, and of
 * whether squares on two opposite borders fired. */
#include <math.h>
#include <stdint.h>
#include <stdio.h>
#include <stdlib.h>

enum { MOST = 256, BLOCKS = 32, MEANS = 4 };

static int side, chips[MOST * MOST], now[MOST * MOST], next[MOST * MOST];
static uint64_t state;

/* A random square, by xorshift64*. */
static int draw_square(void)
{
    state ^= state >> 12;
    state ^= state << 25;
    state ^= state >> 27;
    return (int)((state * 0x2545f4914f6cdd1dULL >> 33) % (uint64_t)(side * side));
}

/* Lets the first `count` squares of `now` fire. Returns how many are legal then: those are in `now`. A square fires with
 * at most seven chips, since it gets at most four in a round. */
static int make_round(int count, int *borders)
{
    static const int down[4] = {-1, 1, 0, 0}, right[4] = {0, 0, -1, 1};
    int more = 0;
    for (int i = 0; i < count; i++) chips[now[i]] -= 4;
    for (int i = 0; i < count; i++) {
        for (int to = 0; to < 4; to++) {
            const int row = now[i] / side + down[to], column = now[i] % side + right[to];
            if (row < 0 || row == side || column < 0 || column == side) *borders |= 1 << to;
            else if (++chips[row * side + column] == 4) next[more++] = row * side + column;
        }
    }
    for (int i = 0; i < more; i++) now[i] = next[i];
    return more;
}

/* Drops a chip, and adds to the sums what it sets off. */
static void drop(double *sums)
{
    int borders = 0, firings = 0, rounds = 0;
    int count = ++chips[now[0] = draw_square()] == 4;
    while (count > 0) {
        firings += count;
        rounds++;
        count = make_round(count, &borders);
    }
    sums[0] += firings;
    sums[1] += (double)firings * firings;
    sums[2] += rounds;
    sums[3] += (borders & 3) == 3 || (borders & 12) == 12;
}

int main(int words, char **word)
{
    double blocks[BLOCKS][MEANS] = {{0}}, unused[MEANS] = {0};
    if (words != 4) return 2;
    side = atoi(word[1]);
    state = strtoull(word[3], NULL, 10);
    const int each = atoi(word[2]) / BLOCKS;
    if (side < 1 || side > MOST || each < 1 || state == 0) return 2;
    for (int i = 0; i < 10 * side * side; i++) drop(unused);
    for (int i = 0; i < each * BLOCKS; i++) drop(blocks[i / each]);
    for (int what = 0; what < MEANS; what++) {
        double mean = 0, square = 0;
        for (int block = 0; block < BLOCKS; block++) mean += blocks[block][what] / each / BLOCKS;
        for (int block = 0; block < BLOCKS; block++) square += pow(blocks[block][what] / each - mean, 2);
        printf("%.17g %.17g\n", mean, sqrt(square / BLOCKS / (BLOCKS - 1)));
    }
    return 0;
}
