/* Calls each function once with success and once for each fault, on the triangle: 0 and 1 beside the sink 2. All numbers
 * are worked out by hand. It writes what is wrong, and ends with status 0 if nothing is. */
#include <chipfire.h>
#include <inttypes.h>
#include <stdio.h>
#include <string.h>

enum { N = 3, EDGES = 4, GAMES = 2, DROPS = 3, GUARD = 77 };

/* The triangle, and what calls are given and write. */
struct call {
    uint64_t vertices, sink, tails[EDGES], heads[EDGES], mults[EDGES], limit;
    size_t edges, heads_len;
    uint64_t guesses[GAMES * N], chips[GAMES * N], fired[GAMES * N], stopped[GAMES];
    size_t guesses_len, chips_len, fired_len, games;
    uint64_t at[DROPS], amounts[DROPS], sizes[DROPS], extents[DROPS], losts[DROPS];
    size_t amounts_len, sizes_len, drops;
    uint64_t place;
};

static int wrong = 0;

/* Two games, and three drops on the first: 4 chips on 0 fire 0, 0, 1 and leave 1, 0, 3. */
static struct call begin(void)
{
    struct call c = {
        .vertices = N, .sink = 2, .tails = {0, 0, 1, 1}, .heads = {1, 2, 0, 2}, .mults = {1, 1, 1, 1},
        .limit = UINT64_C(1) << 40, .edges = EDGES, .heads_len = EDGES,
        .chips = {4, 0, 0, 1, 1, 5}, .fired = {GUARD, GUARD, GUARD, GUARD, GUARD, GUARD}, .stopped = {GUARD, GUARD},
        .chips_len = GAMES * N, .fired_len = GAMES * N, .games = GAMES,
        .at = {2, 0, 1}, .amounts = {1, 1, 2}, .sizes = {GUARD, GUARD, GUARD}, .extents = {GUARD, GUARD, GUARD},
        .losts = {GUARD, GUARD, GUARD}, .amounts_len = DROPS, .sizes_len = DROPS, .drops = DROPS, .place = GUARD,
    };
    return c;
}

static uint64_t stabilize_all(struct call *c)
{
    return chipfire_stabilize_all(c->vertices, c->sink, c->tails, c->edges, c->heads, c->heads_len, c->mults, c->edges,
                                  c->limit, c->guesses, c->guesses_len, c->chips, c->chips_len, c->fired, c->fired_len,
                                  c->stopped, c->games, &c->place);
}

static uint64_t avalanches(struct call *c)
{
    return chipfire_avalanches(c->vertices, c->sink, c->tails, c->edges, c->heads, c->heads_len, c->mults, c->edges, c->limit,
                               c->at, c->drops, c->amounts, c->amounts_len, c->chips, c->chips_len, c->sizes, c->sizes_len,
                               c->extents, c->drops, c->losts, c->drops, &c->place);
}

static uint64_t verify(struct call *c)
{
    static const uint64_t chips[N] = {4, 0, 0};
    return chipfire_verify(c->vertices, c->sink, c->tails, c->edges, c->heads, c->heads_len, c->mults, c->edges, c->limit,
                           chips, N, c->fired, c->fired_len, c->chips, c->chips_len, &c->place);
}

/* Writes the line of a check that fails. */
static void expect(int is_so, int line)
{
    if (!is_so) {
        printf("calls.c:%d: it is not so\n", line);
        wrong = 1;
    }
}

/* Checks that a call has a fault at a place, and has written nothing else. */
static void expect_fault(uint64_t (*call)(struct call *), struct call c, uint64_t fault, uint64_t place, int line)
{
    struct call before = c;
    uint64_t status = call(&c);
    if (status != fault || c.place != place) {
        printf("calls.c:%d: status %" PRIu64 " at %" PRIu64 ", and not %" PRIu64 " at %" PRIu64 "\n", line, status, c.place,
               fault, place);
        wrong = 1;
    }
    before.place = c.place;
    expect(memcmp(&before, &c, sizeof c) == 0, line);
}

static int are(const uint64_t *found, size_t length, const uint64_t *wanted)
{
    return memcmp(found, wanted, length * sizeof *found) == 0;
}

#define NUMBERS(...) ((const uint64_t[]){__VA_ARGS__})
#define EXPECT(is_so) expect(is_so, __LINE__)
/* Looks for a fault of what `start` becomes by an edit. */
#define FAULT(function, edit, fault, place) \
    do { struct call c = start; edit; expect_fault(function, c, fault, place, __LINE__); } while (0)

/* The faults of lengths and of graphs, which all calls have. */
static void try_graphs(uint64_t (*function)(struct call *), struct call start)
{
    FAULT(function, c.heads_len = 3, 12, 0);
    FAULT(function, (c.sink = 3), 2, 0);
    FAULT(function, (c.heads[1] = 3), 4, 1);
    FAULT(function, (c.tails[3] = UINT64_MAX), 4, 3);
    FAULT(function, (c.mults[2] = 0), 5, 2);
    FAULT(function, (c.mults[2] = (1 << 20) + 1), 5, 2);
    FAULT(function, (c.heads[0] = 0), 6, 0);
    FAULT(function, (c.tails[1] = 2, c.heads[1] = 0), 7, 1);
    FAULT(function, (c.heads[1] = 1, c.heads[3] = 0), 8, 0);
}

static void try_games(void)
{
    const struct call start = begin();
    struct call c = start;
    EXPECT(stabilize_all(&c) == 0 && c.place == 0);
    EXPECT(are(c.chips, 6, NUMBERS(1, 0, 3, 1, 1, 5)) && are(c.fired, 6, NUMBERS(2, 1, 0, 0, 0, 0)));
    EXPECT(are(c.stopped, 2, NUMBERS(0, 0)));
    c = start, c.guesses_len = 6, c.guesses[0] = 9, c.guesses[4] = UINT64_MAX;
    EXPECT(stabilize_all(&c) == 0 && are(c.fired, 6, NUMBERS(2, 1, 0, 0, 0, 0)));
    c = start, c.limit = 1;
    EXPECT(stabilize_all(&c) == 0 && are(c.chips, 6, NUMBERS(2, 1, 1, 1, 1, 5)) && are(c.stopped, 2, NUMBERS(1, 0)));
    c = start, c.games = 0, c.chips_len = 0, c.fired_len = 0;
    EXPECT(stabilize_all(&c) == 0 && c.place == 0);
    c = start, c.vertices = 1, c.sink = 0, c.edges = 0, c.heads_len = 0, c.chips_len = 2, c.fired_len = 2;
    EXPECT(stabilize_all(&c) == 0 && are(c.chips, 2, NUMBERS(4, 0)) && are(c.fired, 2, NUMBERS(0, 0)));
    try_graphs(stabilize_all, start);
    FAULT(stabilize_all, (c.vertices = 0, c.chips_len = 0, c.fired_len = 0), 1, 0);
    FAULT(stabilize_all, c.chips_len = 5, 12, 0);
    FAULT(stabilize_all, c.fired_len = 5, 12, 0);
    FAULT(stabilize_all, c.guesses_len = 3, 12, 0);
    FAULT(stabilize_all, c.games = 1, 12, 0);
    FAULT(stabilize_all, (c.games = 1, c.sink = 9), 12, 0);
    FAULT(stabilize_all, (c.chips[3] = UINT64_C(1) << 40), 10, 1);
    FAULT(stabilize_all, (c.chips[1] = UINT64_MAX), 10, 0);
    FAULT(stabilize_all, (c.limit = (UINT64_C(1) << 40) + 1), 11, 0);
}

/* After the play 1, 0, 3 lie there. A chip on the sink does nothing; one on 0 fires it once, which leaves 0, 1, 5; two on 1
 * fire it, and then 0 has one chip. */
static void try_drops(void)
{
    struct call start = begin(), c;
    start.chips_len = N;
    c = start;
    EXPECT(avalanches(&c) == 0 && c.place == 0);
    EXPECT(are(c.chips, 3, NUMBERS(1, 1, 6)) && are(c.sizes, 3, NUMBERS(0, 1, 1)));
    EXPECT(are(c.extents, 3, NUMBERS(0, 1, 1)) && are(c.losts, 3, NUMBERS(0, 1, 1)));
    c = start, c.drops = 0, c.amounts_len = 0, c.sizes_len = 0;
    EXPECT(avalanches(&c) == 0 && are(c.chips, 3, NUMBERS(1, 0, 3)));
    try_graphs(avalanches, start);
    FAULT(avalanches, c.chips_len = 2, 9, 0);
    FAULT(avalanches, (c.chips_len = 2, c.heads[1] = 3), 4, 1);
    FAULT(avalanches, (c.amounts_len = 2), 12, 0);
    FAULT(avalanches, (c.sizes_len = 2), 12, 0);
    FAULT(avalanches, (c.chips[2] = UINT64_C(1) << 40), 10, 0);
    FAULT(avalanches, (c.limit = (UINT64_C(1) << 40) + 1), 11, 0);
    FAULT(avalanches, (c.limit = 1), 13, 0);
    FAULT(avalanches, (c.limit = 2), 13, 1);
    FAULT(avalanches, (c.at[2] = 3), 26, 2);
    FAULT(avalanches, (c.amounts[1] = UINT64_C(1) << 40), 10, 1);
    FAULT(avalanches, (c.at[1] = 3, c.amounts[0] = UINT64_MAX), 10, 0);
}

static uint64_t find_burning(struct call *c)
{
    return chipfire_burning(c->vertices, c->sink, c->tails, c->edges, c->heads, c->heads_len, c->mults, c->edges,
                            c->fired, c->fired_len, c->chips, c->chips_len, &c->place);
}

static uint64_t are_recurrent(struct call *c)
{
    return chipfire_are_recurrent(c->vertices, c->sink, c->tails, c->edges, c->heads, c->heads_len, c->mults, c->edges,
                                  c->chips, c->chips_len, c->stopped, c->games, &c->place);
}

static uint64_t recurrent(struct call *c)
{
    return chipfire_recurrent(c->vertices, c->sink, c->tails, c->edges, c->heads, c->heads_len, c->mults, c->edges,
                              c->games, c->chips, c->chips_len, &c->place);
}

static uint64_t superstable(struct call *c)
{
    return chipfire_superstable(c->vertices, c->sink, c->tails, c->edges, c->heads, c->heads_len, c->mults, c->edges,
                                c->games, c->chips, c->chips_len, &c->place);
}

static uint64_t inverse(struct call *c)
{
    return chipfire_inverse(c->vertices, c->sink, c->tails, c->edges, c->heads, c->heads_len, c->mults, c->edges,
                            c->games, c->chips, c->chips_len, &c->place);
}

static uint64_t identity(struct call *c)
{
    return chipfire_identity(c->vertices, c->sink, c->tails, c->edges, c->heads, c->heads_len, c->mults, c->edges,
                             c->chips, c->chips_len, &c->place);
}

static uint64_t draw(struct call *c)
{
    return chipfire_random_recurrent(c->vertices, c->sink, c->tails, c->edges, c->heads, c->heads_len, c->mults, c->edges,
                                     UINT64_C(5), 0, c->games, c->chips, c->chips_len, &c->place);
}

/* Chips a, b beside the sink are in the class of a + 2b modulo 3. Its recurrent configurations are 1, 1 and 1, 0 and 0, 1,
 * and its superstable ones 0, 0 and 1, 0 and 0, 1, in the order of the classes. */
static void try_groups(void)
{
    const struct call start = begin();
    struct call one = start, c;
    one.chips_len = one.fired_len = N;
    c = one;
    EXPECT(find_burning(&c) == 0 && c.place == 0 && are(c.fired, 3, NUMBERS(1, 1, 0)) && are(c.chips, 3, NUMBERS(1, 1, 0)));
    c = one;
    EXPECT(identity(&c) == 0 && c.place == 0 && are(c.chips, 3, NUMBERS(1, 1, 0)));
    c = start;
    EXPECT(are_recurrent(&c) == 0 && c.place == 0 && are(c.stopped, 2, NUMBERS(0, 1)));
    c = start;
    EXPECT(recurrent(&c) == 0 && c.place == 0 && are(c.chips, 6, NUMBERS(1, 0, 0, 1, 1, 0)));
    c = start;
    EXPECT(superstable(&c) == 0 && c.place == 0 && are(c.chips, 6, NUMBERS(1, 0, 0, 0, 0, 0)));
    c = start;
    EXPECT(inverse(&c) == 0 && c.place == 0 && are(c.chips, 6, NUMBERS(0, 1, 0, 1, 1, 0)));
    c = start;
    EXPECT(draw(&c) == 0 && c.place == 0 && are_recurrent(&c) == 0 && are(c.stopped, 2, NUMBERS(1, 1)));
    try_graphs(find_burning, one);
    try_graphs(are_recurrent, start);
    try_graphs(recurrent, start);
    try_graphs(superstable, start);
    try_graphs(inverse, start);
    try_graphs(identity, one);
    try_graphs(draw, start);
    FAULT(find_burning, c.fired_len = 6, 12, 0);
    FAULT(are_recurrent, c.games = 1, 12, 0);
    FAULT(recurrent, c.chips_len = 5, 12, 0);
    FAULT(superstable, c.games = 3, 12, 0);
    FAULT(inverse, (c.games = 1, c.sink = 9), 12, 0);
    FAULT(identity, c.chips_len = 6, 12, 0);
    FAULT(draw, c.games = 1, 12, 0);
    FAULT(recurrent, (c.chips[3] = UINT64_C(1) << 40), 10, 1);
    FAULT(superstable, (c.chips[1] = UINT64_MAX), 10, 0);
    FAULT(inverse, (c.chips[4] = UINT64_C(1) << 40), 10, 1);
    /* (on the sink they do not count) */
    c = start, c.chips[2] = UINT64_MAX;
    EXPECT(recurrent(&c) == 0 && are(c.chips, 6, NUMBERS(1, 0, 0, 1, 1, 0)));
    /* (on the path to the sink the farther vertex fires twice for each chip on it) */
    c = start, c.edges = c.heads_len = 3, c.tails[1] = 1, c.heads[1] = 0, c.tails[2] = 1, c.heads[2] = 2;
    c.chips[0] = 0, c.chips[3] = (UINT64_C(1) << 40) - 1, c.chips[4] = 0;
    const struct call far = c;
    do { struct call start = far; FAULT(recurrent, c.place = GUARD, 13, 1); } while (0);
}

static uint64_t pile_new(struct chipfire_pile *pile, struct call *c)
{
    return chipfire_pile_new(pile, c->vertices, c->sink, c->tails, c->edges, c->heads, c->heads_len, c->mults, c->edges,
                             c->limit, c->chips, c->chips_len, &c->place);
}

/* The pile on which faults are tried: it has 1, 0, 3 chips, and has fired 2, 1, 0. */
static struct chipfire_pile kept = {0};

static uint64_t pile_new_in_place(struct call *c)
{
    return pile_new(&kept, c);
}

static uint64_t pile_drops(struct chipfire_pile *pile, struct call *c)
{
    return chipfire_pile_drops(pile, c->at, c->drops, c->amounts, c->amounts_len, c->sizes, c->sizes_len, c->extents,
                               c->drops, c->losts, c->drops, &c->place);
}

static uint64_t pile_drops_in_place(struct call *c)
{
    return pile_drops(&kept, c);
}

/* Checks that a pile has these chips and counts. */
static void expect_pile(struct chipfire_pile *pile, const uint64_t *chips, const uint64_t *fired, int line)
{
    uint64_t now[N] = {GUARD, GUARD, GUARD};
    expect(chipfire_pile_chips(pile, now, N) == 0 && are(now, N, chips), line);
    expect(chipfire_pile_fired(pile, now, N) == 0 && are(now, N, fired), line);
}

#define EXPECT_PILE(pile, chips, fired) expect_pile(pile, chips, fired, __LINE__)

static uint64_t pile_draw(struct chipfire_pile *pile, struct call *c)
{
    return chipfire_pile_random_recurrent(pile, UINT64_C(5), 0, c->games, c->chips, c->chips_len, &c->place);
}

/* What there is no pile for. */
static void try_no_pile(void)
{
    struct chipfire_pile pile = {0};
    uint64_t size = GUARD, extent = GUARD, lost = GUARD, chips[N] = {GUARD, GUARD, GUARD};
    EXPECT(chipfire_pile_put(&pile, 9, chips, N) == 14);
    EXPECT(chipfire_pile_play(&pile, 1, &size) == 14);
    EXPECT(chipfire_pile_drop(&pile, 0, 1, &size, &extent, &lost) == 14);
    EXPECT(chipfire_pile_chips(&pile, chips, N) == 14 && chipfire_pile_fired(&pile, chips, N) == 14);
    struct call c = begin();
    c.at[0] = 3;
    c.amounts_len = 2;
    EXPECT(pile_drops(&pile, &c) == 14 && c.place == 0 && are(c.sizes, DROPS, NUMBERS(GUARD, GUARD, GUARD)));
    EXPECT(pile_draw(&pile, &c) == 14 && c.place == 0);
    EXPECT(chipfire_pile_size(&pile) == 0);
    EXPECT(size == GUARD && extent == GUARD && lost == GUARD && are(chips, N, NUMBERS(GUARD, GUARD, GUARD)));
    chipfire_pile_free(&pile);
    EXPECT(pile.has_pile == 0 && pile.pile == NULL);
}

/* The drops of try_drops, one call after another. */
static void try_piles(void)
{
    struct call c = begin();
    uint64_t size = GUARD, extent = GUARD, lost = GUARD;
    c.chips_len = N;
    EXPECT(pile_new(&kept, &c) == 0 && c.place == 0);
    EXPECT_PILE(&kept, NUMBERS(4, 0, 0), NUMBERS(0, 0, 0));
    EXPECT(chipfire_pile_drop(&kept, 2, 1, &size, &extent, &lost) == 0 && size == 0 && extent == 0 && lost == 0);
    EXPECT_PILE(&kept, NUMBERS(1, 0, 4), NUMBERS(2, 1, 0));
    EXPECT(chipfire_pile_drop(&kept, 0, 1, &size, &extent, &lost) == 0 && size == 1 && extent == 1 && lost == 1);
    EXPECT_PILE(&kept, NUMBERS(0, 1, 5), NUMBERS(3, 1, 0));
    EXPECT(chipfire_pile_drop(&kept, 1, 2, &size, &extent, &lost) == 0 && size == 1 && extent == 1 && lost == 1);
    EXPECT_PILE(&kept, NUMBERS(1, 1, 6), NUMBERS(3, 2, 0));
    EXPECT(chipfire_pile_put(&kept, c.limit, NUMBERS(4, 0, 0), N) == 0);
    EXPECT_PILE(&kept, NUMBERS(4, 0, 0), NUMBERS(0, 0, 0));
    EXPECT(chipfire_pile_drop(&kept, 2, 0, &size, &extent, &lost) == 0 && size == 0);
    EXPECT_PILE(&kept, NUMBERS(1, 0, 3), NUMBERS(2, 1, 0));
}

/* A play of four chips by no visit, which does nothing, by one visit after another, and as a whole; the limit stops one. */
static void try_plays_of_piles(void)
{
    struct call c = begin();
    uint64_t left = GUARD;
    EXPECT(chipfire_pile_put(&kept, c.limit, NUMBERS(4, 0, 0), N) == 0);
    EXPECT(chipfire_pile_play(&kept, 0, &left) == 0 && left == 1);
    EXPECT_PILE(&kept, NUMBERS(4, 0, 0), NUMBERS(0, 0, 0));
    for (int call = 0; left != 0 && call < 5; call++) EXPECT(chipfire_pile_play(&kept, 1, &left) == 0);
    EXPECT(left == 0);
    EXPECT_PILE(&kept, NUMBERS(1, 0, 3), NUMBERS(2, 1, 0));
    EXPECT(chipfire_pile_play(&kept, 1, &left) == 0 && left == 0);
    EXPECT(chipfire_pile_put(&kept, 1, NUMBERS(4, 0, 0), N) == 0);
    left = GUARD;
    EXPECT(chipfire_pile_play(&kept, UINT64_MAX, &left) == 13 && left == GUARD);
    EXPECT_PILE(&kept, NUMBERS(2, 1, 1), NUMBERS(1, 0, 0));
    EXPECT(chipfire_pile_play(&kept, 1, &left) == 13 && left == GUARD);
}

/* The same drops by one call, then none, and then one that the limit stops after two. */
static void try_drops_on_piles(void)
{
    struct call c = begin();
    EXPECT(chipfire_pile_put(&kept, c.limit, NUMBERS(4, 0, 0), N) == 0);
    EXPECT(pile_drops(&kept, &c) == 0 && c.place == 0);
    EXPECT(are(c.sizes, DROPS, NUMBERS(0, 1, 1)) && are(c.extents, DROPS, NUMBERS(0, 1, 1)));
    EXPECT(are(c.losts, DROPS, NUMBERS(0, 1, 1)));
    EXPECT_PILE(&kept, NUMBERS(1, 1, 6), NUMBERS(3, 2, 0));
    EXPECT(chipfire_pile_put(&kept, 2, NUMBERS(4, 0, 0), N) == 0);
    EXPECT(chipfire_pile_drops(&kept, NULL, 0, NULL, 0, NULL, 0, NULL, 0, NULL, 0, &c.place) == 0 && c.place == 0);
    EXPECT_PILE(&kept, NUMBERS(1, 0, 3), NUMBERS(2, 1, 0));
    c = begin();
    c.at[1] = 1;
    c.at[2] = 0;
    EXPECT(pile_drops(&kept, &c) == 13 && c.place == 2);
    EXPECT(are(c.sizes, DROPS, NUMBERS(0, 0, GUARD)) && are(c.extents, DROPS, NUMBERS(0, 0, GUARD)));
    EXPECT(are(c.losts, DROPS, NUMBERS(0, 0, GUARD)));
    EXPECT_PILE(&kept, NUMBERS(3, 1, 4), NUMBERS(2, 1, 0));
    c = begin();
    EXPECT(pile_drops(&kept, &c) == 13 && c.place == 0 && are(c.sizes, DROPS, NUMBERS(GUARD, GUARD, GUARD)));
    EXPECT_PILE(&kept, NUMBERS(3, 1, 4), NUMBERS(2, 1, 0));
    EXPECT(chipfire_pile_put(&kept, c.limit, NUMBERS(4, 0, 0), N) == 0);
    EXPECT(chipfire_pile_drops(&kept, NULL, 0, NULL, 0, NULL, 0, NULL, 0, NULL, 0, &c.place) == 0);
    EXPECT(chipfire_pile_size(&kept) == 3 * 76 + 4 * 48);
}

/* From 1, 1 chips the first drop fires 0, 1; the second nothing; the third 0 twice, and then both together. Then there is no
 * room for the second. */
static void try_measures_on_piles(void)
{
    uint64_t sizes[3], extents[3], losts[3], durations[3], ends[3], vertices[7], times[7], place = GUARD;
    const uint64_t at[3] = {0, 2, 0}, amounts[3] = {1, 1, 5};
    for (int i = 0; i < 7; i++) vertices[i] = times[i] = GUARD;
    EXPECT(chipfire_pile_put(&kept, UINT64_C(1) << 40, NUMBERS(1, 1, 0), N) == 0);
    EXPECT(chipfire_pile_measure(&kept, at, 3, amounts, 3, 0, NULL, 0, sizes, 3, extents, 3, losts, 3, durations, 3, ends, 3,
                                 vertices, 7, times, 7, &place) == 0 && place == 3);
    EXPECT(are(sizes, 3, NUMBERS(2, 0, 4)) && are(extents, 3, NUMBERS(2, 0, 2)) && are(losts, 3, NUMBERS(2, 0, 4)));
    EXPECT(are(durations, 3, NUMBERS(2, 0, 3)) && are(ends, 3, NUMBERS(2, 2, 4)));
    EXPECT(are(vertices, 7, NUMBERS(0, 1, 0, 1, GUARD, GUARD, GUARD)));
    EXPECT(are(times, 7, NUMBERS(1, 1, 3, 1, GUARD, GUARD, GUARD)));
    EXPECT_PILE(&kept, NUMBERS(1, 1, 7), NUMBERS(4, 2, 0));
    EXPECT(chipfire_pile_measure(&kept, at, 3, amounts, 3, 0, NULL, 0, sizes, 3, extents, 3, losts, 3, NULL, 0, ends, 3,
                                 vertices, 4, times, 4, &place) == 0 && place == 1);
    EXPECT_PILE(&kept, NUMBERS(1, 0, 9), NUMBERS(5, 3, 0));
    EXPECT(chipfire_pile_measure(&kept, at, 3, amounts, 3, 0, NULL, 0, sizes, 3, extents, 3, losts, 3, NULL, 0, ends, 3,
                                 vertices, 4, times, 3, &place) == 12 && place == 0);
    EXPECT(chipfire_pile_put(&kept, UINT64_C(1) << 40, NUMBERS(4, 0, 0), N) == 0);
    EXPECT(chipfire_pile_measure(&kept, NULL, 0, NULL, 0, 1, NULL, 0, NULL, 0, NULL, 0, NULL, 0, NULL, 0, NULL, 0, NULL, 0,
                                 NULL, 0, &place) == 0 && place == 0);
}

/* The pile draws what the graph alone gives, and stays as it is. */
static void try_draws_on_piles(void)
{
    struct call c = begin(), alone = begin();
    EXPECT_PILE(&kept, NUMBERS(1, 0, 3), NUMBERS(2, 1, 0));
    EXPECT(draw(&alone) == 0 && pile_draw(&kept, &c) == 0 && c.place == 0 && are(c.chips, 6, alone.chips));
    c = begin();
    c.games = 1;
    EXPECT(pile_draw(&kept, &c) == 12 && c.place == 0 && are(c.chips, 6, NUMBERS(4, 0, 0, 1, 1, 5)));
    EXPECT_PILE(&kept, NUMBERS(1, 0, 3), NUMBERS(2, 1, 0));
}

/* How many of three drops are made, if these end a run: the first fires nothing, the second 0 and 1 once, which loses 2
 * chips, and the third nothing. */
static uint64_t made_until(uint64_t loses, const uint64_t *marks, size_t marks_len)
{
    uint64_t sizes[3], extents[3], losts[3], place = GUARD;
    const uint64_t at[3] = {2, 0, 2}, amounts[3] = {1, 1, 1};
    EXPECT(chipfire_pile_put(&kept, UINT64_C(1) << 40, NUMBERS(1, 1, 0), N) == 0);
    const uint64_t fault = chipfire_pile_measure(&kept, at, 3, amounts, 3, loses, marks, marks_len, sizes, 3, extents, 3, losts,
                                                 3, NULL, 0, NULL, 0, NULL, 0, NULL, 0, &place);
    return fault == 0 ? place : 100 + fault;
}

static void try_ends_of_runs(void)
{
    EXPECT(made_until(0, NULL, 0) == 3 && made_until(1, NULL, 0) == 2 && made_until(7, NUMBERS(0, 0, 31), N) == 2);
    EXPECT(made_until(0, NUMBERS(0, 1, 0), N) == 2 && made_until(0, NUMBERS(32, 33, 0), N) == 2);
    EXPECT(made_until(0, NUMBERS(2, 4, 0), N) == 2 && made_until(0, NUMBERS(0, 24, 0), N) == 2);
    EXPECT(made_until(0, NUMBERS(2, 0, 4), N) == 3 && made_until(0, NUMBERS(2, 8, 0), N) == 3);
    EXPECT(made_until(0, NUMBERS(4, 16, 31), N) == 3 && made_until(0, NUMBERS(32, 64, 31), N) == 3);
    EXPECT(made_until(0, NUMBERS(1, 1, 1, 1), 4) == 112 && made_until(0, NUMBERS(1, 1), 2) == 112);
}

/* Faults leave the pile as it was. */
static void try_faults_of_piles(void)
{
    struct call start = begin();
    uint64_t size = GUARD, extent = GUARD, lost = GUARD, few[2] = {GUARD, GUARD};
    start.chips_len = N;
    try_graphs(pile_new_in_place, start);
    FAULT(pile_new_in_place, c.chips_len = 2, 9, 0);
    FAULT(pile_new_in_place, (c.chips[2] = UINT64_C(1) << 40), 10, 0);
    FAULT(pile_new_in_place, (c.limit = (UINT64_C(1) << 40) + 1), 11, 0);
    EXPECT(chipfire_pile_put(&kept, 9, NUMBERS(4, 0), 2) == 9);
    EXPECT(chipfire_pile_put(&kept, 9, NUMBERS(4, 0, UINT64_C(1) << 40), N) == 10);
    EXPECT(chipfire_pile_put(&kept, (UINT64_C(1) << 40) + 1, NUMBERS(4, 0, 0), N) == 11);
    EXPECT(chipfire_pile_drop(&kept, 3, UINT64_MAX, &size, &extent, &lost) == 26);
    EXPECT(chipfire_pile_drop(&kept, 2, UINT64_MAX, &size, &extent, &lost) == 10);
    EXPECT(chipfire_pile_drop(&kept, 2, (UINT64_C(1) << 40) - 3, &size, &extent, &lost) == 10);
    EXPECT(chipfire_pile_chips(&kept, few, 2) == 12 && chipfire_pile_fired(&kept, few, 2) == 12);
    start = begin();
    FAULT(pile_drops_in_place, (c.amounts_len = 2, c.at[0] = 3), 12, 0);
    FAULT(pile_drops_in_place, (c.sizes_len = 2), 12, 0);
    FAULT(pile_drops_in_place, c.at[2] = 3, 26, 2);
    FAULT(pile_drops_in_place, (c.at[2] = 3, c.amounts[1] = UINT64_MAX), 10, 1);
    FAULT(pile_drops_in_place, (c.at[1] = 3, c.amounts[1] = UINT64_MAX), 26, 1);
    FAULT(pile_drops_in_place, c.amounts[2] = (UINT64_C(1) << 40) - 5, 10, 2);
    EXPECT(size == GUARD && extent == GUARD && lost == GUARD && are(few, 2, NUMBERS(GUARD, GUARD)));
    EXPECT_PILE(&kept, NUMBERS(1, 0, 3), NUMBERS(2, 1, 0));
    EXPECT(chipfire_pile_drop(&kept, 2, (UINT64_C(1) << 40) - 4, &size, &extent, &lost) == 0 && size == 0);
    EXPECT(chipfire_pile_drop(&kept, 2, 1, &size, &extent, &lost) == 10);
}

/* The limit stops the play of the game, and then that of a drop. Then a pile is put there anew, and freed twice. */
static void try_stopped_piles(void)
{
    uint64_t size = GUARD, extent = GUARD, lost = GUARD;
    EXPECT(chipfire_pile_put(&kept, 1, NUMBERS(4, 0, 0), N) == 0);
    EXPECT(chipfire_pile_drop(&kept, 2, 1, &size, &extent, &lost) == 13);
    EXPECT_PILE(&kept, NUMBERS(2, 1, 1), NUMBERS(1, 0, 0));
    EXPECT(chipfire_pile_put(&kept, 2, NUMBERS(4, 0, 0), N) == 0);
    EXPECT(chipfire_pile_drop(&kept, 2, 1, &size, &extent, &lost) == 0 && size == 0 && extent == 0 && lost == 0);
    size = extent = lost = GUARD;
    EXPECT(chipfire_pile_drop(&kept, 0, 1, &size, &extent, &lost) == 13);
    EXPECT_PILE(&kept, NUMBERS(2, 0, 4), NUMBERS(2, 1, 0));
    EXPECT(chipfire_pile_drop(&kept, 2, 0, &size, &extent, &lost) == 13);
    EXPECT(chipfire_pile_drop(&kept, 3, 0, &size, &extent, &lost) == 26);
    EXPECT(size == GUARD && extent == GUARD && lost == GUARD);
    EXPECT_PILE(&kept, NUMBERS(2, 0, 4), NUMBERS(2, 1, 0));
    EXPECT(chipfire_pile_put(&kept, 2, NUMBERS(4, 0, 0), N) == 0);
    EXPECT(chipfire_pile_drop(&kept, 2, 1, &size, &extent, &lost) == 0);
    chipfire_pile_free(&kept);
    EXPECT(kept.has_pile == 0 && kept.pile == NULL);
    chipfire_pile_free(&kept);
    EXPECT(chipfire_pile_put(&kept, 2, NUMBERS(4, 0, 0), N) == 14);
}

/* The end of the first game, as a claim. */
static struct call claim(void)
{
    struct call c = begin();
    memcpy(c.chips, NUMBERS(1, 0, 3), sizeof(uint64_t[3]));
    memcpy(c.fired, NUMBERS(2, 1, 0), sizeof(uint64_t[3]));
    c.chips_len = c.fired_len = N;
    return c;
}

static void try_claims(void)
{
    const struct call start = claim();
    struct call c = start;
    EXPECT(verify(&c) == 0 && c.place == 0);
    try_graphs(verify, start);
    FAULT(verify, c.fired_len = 2, 12, 0);
    FAULT(verify, c.chips_len = 2, 12, 0);
    FAULT(verify, c.limit = (UINT64_C(1) << 40) + 1, 11, 0);
    FAULT(verify, c.fired[1] = 0, 53, 1);
    FAULT(verify, c.chips[2] = 2, 53, 2);
    FAULT(verify, c.limit = 1, 53, 0);
}

/* Part A of the small run in docs/DETECTOR.md: the edges 1 and 3 lead to it, and 0 out of it. */
static void try_detector(void)
{
    struct chipfire_tally ins[] = {{1, 0, 0}, {3, 0, 0}}, outs[] = {{0, 0, 0}}, twice[] = {{2, 0, 0}, {2, 0, 0}};
    uint64_t parent = CHIPFIRE_NEUTRAL, result = GUARD;
    EXPECT(chipfire_books_check(ins, 2, outs, 1, parent) == 0 && chipfire_books_check(twice, 2, outs, 1, parent) == 46);
    EXPECT(chipfire_got(ins, 2, &parent, 3) == 0 && parent == 3 && ins[1].messages == 1);
    EXPECT(chipfire_got(ins, 2, &parent, 2) == 46 && parent == 3);
    EXPECT(chipfire_sent(outs, 1, 0) == 0 && outs[0].messages == 1 && chipfire_sent(outs, 1, 1) == 46);
    EXPECT(chipfire_got(ins, 2, &parent, 1) == 0 && parent == 3);
    EXPECT(chipfire_may_ack(ins, 2, outs, 1, parent, 2, 1, &result) == 46 && result == GUARD);
    EXPECT(chipfire_may_ack(ins, 2, outs, 1, parent, 1, 0, &result) == 0 && result == 1);
    EXPECT(chipfire_acked(ins, 2, outs, 1, &parent, 1, 0, 2) == 46 && ins[0].answered == 0);
    EXPECT(chipfire_acked(ins, 2, outs, 1, &parent, 1, 0, 1) == 0 && ins[0].answered == 1 && parent == 3);
    EXPECT(chipfire_acked(ins, 2, outs, 1, &parent, 3, 1, 1) == 47 && ins[1].answered == 0 && parent == 3);
    EXPECT(chipfire_deficit(outs, 1, &result) == 0 && result == 1);
    EXPECT(chipfire_is_over(outs, 1, 1, &result) == 0 && result == 0);
    result = GUARD;
    EXPECT(chipfire_settled(outs, 1, 0, 2, &result) == 46 && result == GUARD && outs[0].answered == 0);
    EXPECT(chipfire_settled(outs, 1, 0, 1, &result) == 0 && result == 1 && outs[0].answered == 1);
    EXPECT(chipfire_settled(outs, 1, 0, 0, &result) == 0 && result == 0 && outs[0].answered == 1);
    EXPECT(chipfire_acked(ins, 2, outs, 1, &parent, 3, 0, 1) == 47);
    EXPECT(chipfire_acked(ins, 2, outs, 1, &parent, 3, 7, 1) == 0 && parent == CHIPFIRE_NEUTRAL);
    EXPECT(chipfire_is_over(outs, 1, 0, &result) == 0 && result == 0);
    EXPECT(chipfire_is_over(outs, 1, 9, &result) == 0 && result == 1);
    EXPECT(chipfire_books_check(ins, 2, outs, 1, parent) == 0);
    outs[0].answered = result = GUARD;
    EXPECT(chipfire_deficit(outs, 1, &result) == 46 && chipfire_is_over(outs, 1, 1, &result) == 46 && result == GUARD);
    EXPECT(chipfire_sent(outs, 1, 0) == 46 && outs[0].messages == 1);
}

/* The same part by the calls that keep sums, and then books that are not sound or have other sums. */
static void try_sums(void)
{
    struct chipfire_tally ins[] = {{1, 0, 0}, {3, 0, 0}}, outs[] = {{0, 0, 0}};
    struct chipfire_books books = {ins, 2, outs, 1, CHIPFIRE_NEUTRAL, GUARD, GUARD};
    uint64_t result = GUARD, word = GUARD;
    EXPECT(chipfire_books_verify(&books) == 46 && chipfire_books_open(&books) == 0 && chipfire_books_verify(&books) == 0);
    EXPECT(books.ins == ins && books.ins_len == 2 && books.outs == outs && books.outs_len == 1);
    EXPECT(books.parent == CHIPFIRE_NEUTRAL && books.owed == 0 && books.deficit == 0);
    EXPECT(chipfire_books_got(&books, 3) == 0 && books.parent == 3 && books.owed == 1 && ins[1].messages == 1);
    EXPECT(chipfire_books_got(&books, 2) == 46 && books.parent == 3 && books.owed == 1);
    EXPECT(chipfire_books_sent(&books, 0) == 0 && books.deficit == 1 && outs[0].messages == 1);
    EXPECT(chipfire_books_sent(&books, 1) == 46 && books.deficit == 1);
    EXPECT(chipfire_books_got(&books, 1) == 0 && books.parent == 3 && books.owed == 2);
    EXPECT(chipfire_books_acknowledge(&books, 2, 1, &result, &word) == 46 && result == GUARD && word == GUARD);
    EXPECT(chipfire_books_acknowledge(&books, 3, 1, &result, &word) == 0 && result == 0 && word == 0);
    EXPECT(chipfire_books_acknowledge(&books, 1, 0, &result, &word) == 0 && result == 1 && word == 1);
    EXPECT(ins[0].answered == 1 && books.owed == 1 && books.parent == 3);
    EXPECT(chipfire_books_acknowledge(&books, 3, 1, &result, &word) == 0 && result == 0 && books.parent == 3);
    EXPECT(chipfire_books_is_over(&books, 1, &result) == 0 && result == 0);
    result = GUARD;
    EXPECT(chipfire_books_settled(&books, 0, 2, &result) == 46 && result == GUARD);
    EXPECT(outs[0].answered == 0 && books.deficit == 1);
    EXPECT(chipfire_books_settled(&books, 0, 1, &result) == 0 && result == 1);
    EXPECT(outs[0].answered == 1 && books.deficit == 0);
    EXPECT(chipfire_books_settled(&books, 0, 0, &result) == 0 && result == 0 && books.deficit == 0);
    EXPECT(chipfire_books_acknowledge(&books, 3, 0, &result, &word) == 0 && result == 0 && word == 0 && books.owed == 1);
    EXPECT(chipfire_books_acknowledge(&books, 3, 7, &result, &word) == 0 && result == 1 && word == 1);
    EXPECT(books.parent == CHIPFIRE_NEUTRAL && books.owed == 0 && ins[1].answered == 1);
    EXPECT(chipfire_books_is_over(&books, 0, &result) == 0 && result == 0);
    EXPECT(chipfire_books_is_over(&books, 9, &result) == 0 && result == 1);
    EXPECT(chipfire_books_verify(&books) == 0 && books.ins == ins && books.outs == outs && books.outs_len == 1);
    books.deficit = UINT64_MAX;
    EXPECT(chipfire_books_verify(&books) == 46 && chipfire_books_sent(&books, 0) == 46 && outs[0].messages == 1);
    outs[0].answered = 2;
    EXPECT(chipfire_books_open(&books) == 46 && books.deficit == UINT64_MAX);
}

/* Arrays of length 0 that are null: all of them, on the sink alone, and those that games and drops on the triangle may leave
 * out. Vertices without chips are fault 9, and books without edges have none. */
static void try_nulls(void)
{
    struct call c = begin();
    uint64_t parent = CHIPFIRE_NEUTRAL, result = GUARD, place = GUARD;
    EXPECT(chipfire_stabilize_all(1, 0, NULL, 0, NULL, 0, NULL, 0, 9, NULL, 0, NULL, 0, NULL, 0, NULL, 0, &place) == 0);
    EXPECT(place == 0);
    EXPECT(chipfire_stabilize_all(c.vertices, c.sink, c.tails, EDGES, c.heads, EDGES, c.mults, EDGES, c.limit, NULL, 0,
                                  c.chips, GAMES * N, c.fired, GAMES * N, c.stopped, GAMES, &place) == 0);
    EXPECT(are(c.chips, 6, NUMBERS(1, 0, 3, 1, 1, 5)) && are(c.fired, 6, NUMBERS(2, 1, 0, 0, 0, 0)));
    EXPECT(chipfire_avalanches(1, 0, NULL, 0, NULL, 0, NULL, 0, 9, NULL, 0, NULL, 0, NULL, 0, NULL, 0, NULL, 0, NULL, 0,
                               &place) == 9);
    c = begin();
    EXPECT(chipfire_avalanches(c.vertices, c.sink, c.tails, EDGES, c.heads, EDGES, c.mults, EDGES, c.limit, NULL, 0, NULL, 0,
                               c.chips, N, NULL, 0, NULL, 0, NULL, 0, &place) == 0);
    EXPECT(are(c.chips, 3, NUMBERS(1, 0, 3)));
    EXPECT(chipfire_avalanches(1, 0, NULL, 0, NULL, 0, NULL, 0, 9, NUMBERS(0), 1, NUMBERS(2), 1, c.chips, 1, c.sizes, 1,
                               c.extents, 1, c.losts, 1, &place) == 0);
    EXPECT(c.chips[0] == 3 && c.sizes[0] == 0 && c.extents[0] == 0 && c.losts[0] == 0);
    struct chipfire_pile pile = {0};
    EXPECT(chipfire_pile_new(&pile, 1, 0, NULL, 0, NULL, 0, NULL, 0, 9, NULL, 0, &place) == 9);
    EXPECT(chipfire_pile_new(&pile, 1, 0, NULL, 0, NULL, 0, NULL, 0, 9, NUMBERS(4), 1, &place) == 0);
    EXPECT(chipfire_pile_put(&pile, 9, NULL, 0) == 9 && chipfire_pile_chips(&pile, NULL, 0) == 12);
    EXPECT(chipfire_pile_drops(&pile, NULL, 0, NULL, 0, NULL, 0, NULL, 0, NULL, 0, &place) == 0);
    EXPECT(chipfire_pile_chips(&pile, c.chips, 1) == 0 && c.chips[0] == 4);
    chipfire_pile_free(&pile);
    EXPECT(chipfire_verify(1, 0, NULL, 0, NULL, 0, NULL, 0, 9, NULL, 0, NULL, 0, NULL, 0, &place) == 9);
    EXPECT(chipfire_verify(1, 0, NULL, 0, NULL, 0, NULL, 0, 9, NUMBERS(4), 1, NUMBERS(0), 1, NUMBERS(4), 1, &place) == 0);
    EXPECT(chipfire_recurrent(1, 0, NULL, 0, NULL, 0, NULL, 0, 0, NULL, 0, &place) == 0 && place == 0);
    EXPECT(chipfire_are_recurrent(1, 0, NULL, 0, NULL, 0, NULL, 0, NULL, 0, NULL, 0, &place) == 0);
    EXPECT(chipfire_sent(NULL, 0, 0) == 46 && chipfire_got(NULL, 0, &parent, 0) == 46);
    EXPECT(chipfire_may_ack(NULL, 0, NULL, 0, 0, 0, 1, &result) == 46);
    EXPECT(chipfire_acked(NULL, 0, NULL, 0, &parent, 0, 1, 0) == 46);
    EXPECT(chipfire_settled(NULL, 0, 0, 0, &result) == 46 && parent == CHIPFIRE_NEUTRAL && result == GUARD);
    EXPECT(chipfire_deficit(NULL, 0, &result) == 0 && result == 0);
    EXPECT(chipfire_is_over(NULL, 0, 1, &result) == 0 && result == 1);
    EXPECT(chipfire_books_check(NULL, 0, NULL, 0, CHIPFIRE_NEUTRAL) == 0 && chipfire_books_check(NULL, 0, NULL, 0, 0) == 46);
    struct chipfire_books none = {NULL, 0, NULL, 0, CHIPFIRE_NEUTRAL, GUARD, GUARD};
    EXPECT(chipfire_books_open(&none) == 0 && none.owed == 0 && none.deficit == 0 && chipfire_books_verify(&none) == 0);
    result = GUARD;
    EXPECT(chipfire_books_sent(&none, 0) == 46 && chipfire_books_got(&none, 0) == 46);
    EXPECT(chipfire_books_acknowledge(&none, 0, 1, &result, &place) == 46);
    EXPECT(chipfire_books_settled(&none, 0, 0, &result) == 46);
    EXPECT(result == GUARD && chipfire_books_is_over(&none, 1, &result) == 0 && result == 1 && none.ins == NULL);
}

/* A part without edges out acknowledges the message that engages it, and then the root, which has none into it, is over. */
static void try_one_side(void)
{
    struct chipfire_tally ins[] = {{4, 0, 0}}, outs[] = {{4, 0, 0}};
    uint64_t parent = CHIPFIRE_NEUTRAL, result = GUARD;
    EXPECT(chipfire_sent(outs, 1, 4) == 0 && chipfire_got(ins, 1, &parent, 4) == 0 && parent == 4);
    EXPECT(chipfire_books_check(ins, 1, NULL, 0, 4) == 0);
    EXPECT(chipfire_books_check(NULL, 0, outs, 1, CHIPFIRE_NEUTRAL) == 0);
    EXPECT(chipfire_may_ack(ins, 1, NULL, 0, parent, 4, 1, &result) == 0 && result == 1);
    EXPECT(chipfire_acked(ins, 1, NULL, 0, &parent, 4, 1, 1) == 0 && parent == CHIPFIRE_NEUTRAL);
    EXPECT(chipfire_settled(outs, 1, 4, 1, &result) == 0 && result == 1);
}

int main(void)
{
    EXPECT(chipfire_version() > 0);
    try_nulls();
    try_one_side();
    try_games();
    try_drops();
    try_no_pile();
    try_piles();
    try_plays_of_piles();
    try_drops_on_piles();
    try_ends_of_runs();
    try_measures_on_piles();
    try_draws_on_piles();
    try_faults_of_piles();
    try_stopped_piles();
    try_claims();
    try_groups();
    try_detector();
    try_sums();
    return wrong;
}
