/* libchipfire: chip-firing games (abelian sandpiles), played by proved functions, and a termination detector for your
 * own computation.
 *
 * A graph is its number of vertices, its sink, and three arrays with one number per edge, like a sparse matrix in
 * coordinate format: the tail, the head, and how many chips one firing of the tail sends to the head. An array is
 * passed as a pointer and a length, which is the number of its elements. Elements are uint64_t.
 *
 *     vertices     1 to 2^21, numbered from 0
 *     sink         a vertex: it has no edge out, and never fires
 *     tails, heads up to 2^23 edges. No edge is a loop, and from each vertex a walk leads to the sink
 *     mults        1 to 2^20 each
 *     chips        one number per vertex, including the sink: up to 2^40 in all
 *     limit        how often each vertex may fire, 0 to 2^40
 *
 * Each call returns a status: 0 for success, else the number of the first fault, which `chipfire explain NUMBER`
 * explains. On a fault, all arrays are unchanged, except on fault 13 of some calls on a pile. *place says where the
 * fault is, or is 0 if the fault has no place.
 *
 *     1 vertices, 2 sink, 3 number of edges                              no place
 *     4 end of an edge, 5 mult, 6 loop, 7 edge out of the sink           the edge, from 0
 *     8 no walk leads to the sink                                        the least such vertex
 *     9 chips are not one number per vertex; with many games: 12         no place
 *     10 more than 2^40 chips, 11 limit                                  the game, drop or configuration, from 0
 *     12 arrays that belong together have different lengths              no place
 *     13 the limit stopped the play of a drop, or of the game before it  the drop, or 0; or the configuration
 *     14 there is no pile                                                no place
 *     26 a drop on a vertex that does not exist                          the drop
 *     53 the game does not end as claimed                                the least vertex that differs
 *     90 memory ran out                                                  no place
 *
 * The first fault is the first of these: 12; 1, 2, 3; for the first edge with a fault, 4, 5, 6, 7; 8; for the first
 * game with a fault, 9, 10, 11; for the game on which drops fall, 13; for the first drop with a fault, 26, 10, 13; 53.
 * Fault 90 never replaces 12, 1, 2 or 3: finding these allocates nothing. On a pile, 14 comes first, and 13 comes after
 * 26 and 10, since all drops are checked before the first one falls.
 *
 * The caller must ensure the following, which no call can check:
 *
 *   - Each array has the length that is passed with it. Memory that a call writes overlaps no other memory of the call.
 *     Only an array of length 0 may be null.
 *   - While a call writes memory, no other call uses this memory. Otherwise, calls may run at the same time on any
 *     threads: only piles are kept from one call to the next.
 *   - In a signal handler, or in the forked child of a process with threads, only these calls are made:
 *     chipfire_version, chipfire_strerror and the calls on books. They allocate nothing. */
#ifndef CHIPFIRE_H
#define CHIPFIRE_H

#include <stddef.h>
#include <stdint.h>

#ifdef __cplusplus
extern "C" {
#endif

/* The version of this header (the macro) and of the library (the function): 1000000 * major + 1000 * minor + patch. */
#define CHIPFIRE_VERSION UINT64_C(13001)
uint64_t chipfire_version(void);

/* What calls return: success, or a fault by its name in `chipfire explain`. */
enum chipfire_status {
    CHIPFIRE_OK = 0,
    CHIPFIRE_FAULT_VERTICES = 1,
    CHIPFIRE_FAULT_SINK = 2,
    CHIPFIRE_FAULT_EDGE_COUNT = 3,
    CHIPFIRE_FAULT_ENDPOINT = 4,
    CHIPFIRE_FAULT_MULT = 5,
    CHIPFIRE_FAULT_LOOP = 6,
    CHIPFIRE_FAULT_FROM_SINK = 7,
    CHIPFIRE_FAULT_UNREACHED = 8,
    CHIPFIRE_FAULT_START_LENGTH = 9,
    CHIPFIRE_FAULT_TOTAL = 10,
    CHIPFIRE_FAULT_LIMIT = 11,
    CHIPFIRE_FAULT_LENGTHS = 12,
    CHIPFIRE_FAULT_STOPPED = 13,
    CHIPFIRE_FAULT_NO_PILE = 14,
    CHIPFIRE_FAULT_VERTEX = 26,
    CHIPFIRE_FAULT_BOOKS = 46,
    CHIPFIRE_FAULT_NOT_YET = 47,
    CHIPFIRE_FAULT_DIFFERS = 53,
    CHIPFIRE_FAULT_NO_MEMORY = 90
};

/* Returns the meaning of a status, as text in static memory. */
static inline const char *chipfire_strerror(uint64_t status)
{
    switch (status) {
    case CHIPFIRE_OK: return "success";
    case CHIPFIRE_FAULT_VERTICES: return "the graph has no vertices, or more than 2097152";
    case CHIPFIRE_FAULT_SINK: return "the sink is not a vertex";
    case CHIPFIRE_FAULT_EDGE_COUNT: return "the graph has more than 8388608 edges";
    case CHIPFIRE_FAULT_ENDPOINT: return "an end of the edge is not a vertex";
    case CHIPFIRE_FAULT_MULT: return "the edge sends no chips, or more than 1048576";
    case CHIPFIRE_FAULT_LOOP: return "the edge is a loop";
    case CHIPFIRE_FAULT_FROM_SINK: return "the edge leaves the sink";
    case CHIPFIRE_FAULT_UNREACHED: return "no walk leads from the vertex to the sink";
    case CHIPFIRE_FAULT_START_LENGTH: return "the chips are not one number for each vertex";
    case CHIPFIRE_FAULT_TOTAL: return "there are more than 1099511627776 chips in all";
    case CHIPFIRE_FAULT_LIMIT: return "the firing limit is above 1099511627776";
    case CHIPFIRE_FAULT_LENGTHS: return "arrays that belong together have different lengths";
    case CHIPFIRE_FAULT_STOPPED: return "the limit stopped the play";
    case CHIPFIRE_FAULT_NO_PILE: return "there is no pile";
    case CHIPFIRE_FAULT_VERTEX: return "the drop falls on no vertex";
    case CHIPFIRE_FAULT_BOOKS: return "no such edge, a count is too high, or the books of the process are not sound";
    case CHIPFIRE_FAULT_NOT_YET: return "not all of these messages may be acknowledged yet";
    case CHIPFIRE_FAULT_DIFFERS: return "what was claimed is not how the game ends";
    case CHIPFIRE_FAULT_NO_MEMORY: return "memory ran out";
    default: return "no call returns this status";
    }
}

/* Plays many games on one graph, each to its end, or until the limit stops every vertex that could fire.
 *
 * chips    the chips of all games, one game after another: those at the start are replaced by those at the end
 * guesses  none; or as many as chips: counts of firings at which the play of each game may begin. Any guesses give
 *          the same result; guesses near the final counts give it sooner
 * fired    as many as chips: gets how often each vertex of each game fired
 * stopped  one per game: gets how many vertices could fire at the end, but had fired as often as the limit allows */
uint64_t chipfire_stabilize_all(uint64_t vertices, uint64_t sink,
                                const uint64_t *tails, size_t tails_len,
                                const uint64_t *heads, size_t heads_len,
                                const uint64_t *mults, size_t mults_len,
                                uint64_t limit,
                                const uint64_t *guesses, size_t guesses_len,
                                uint64_t *chips, size_t chips_len,
                                uint64_t *fired, size_t fired_len,
                                uint64_t *stopped, size_t stopped_len,
                                uint64_t *place);

/* Plays a game to its end. Then, for each i in order, drops amounts[i] chips on vertex at[i] and plays to the end.
 *
 * chips    one number per vertex: the chips at the start are replaced by those at the end
 * sizes    one number per drop: gets the number of firings
 * extents  one number per drop: gets the number of vertices that fired (the area)
 * losts    one number per drop: gets the number of chips that firings moved to the sink (dissipated). A chip dropped
 *          on the sink does not count
 *
 * The limit holds for all plays together. If it stops a play, the call returns fault 13 and no result. */
uint64_t chipfire_avalanches(uint64_t vertices, uint64_t sink,
                             const uint64_t *tails, size_t tails_len,
                             const uint64_t *heads, size_t heads_len,
                             const uint64_t *mults, size_t mults_len,
                             uint64_t limit,
                             const uint64_t *at, size_t at_len,
                             const uint64_t *amounts, size_t amounts_len,
                             uint64_t *chips, size_t chips_len,
                             uint64_t *sizes, size_t sizes_len,
                             uint64_t *extents, size_t extents_len,
                             uint64_t *losts, size_t losts_len,
                             uint64_t *place);

/* Verifies that a game ends with these counts and chips: returns 0 if chipfire_stabilize_all gives the same counts and
 * chips. Right counts and chips need no long play.
 *
 * chips    at the start
 * fired    how often each vertex is claimed to fire
 * ends     the claimed chips at the end */
uint64_t chipfire_verify(uint64_t vertices, uint64_t sink,
                         const uint64_t *tails, size_t tails_len,
                         const uint64_t *heads, size_t heads_len,
                         const uint64_t *mults, size_t mults_len,
                         uint64_t limit,
                         const uint64_t *chips, size_t chips_len,
                         const uint64_t *fired, size_t fired_len,
                         const uint64_t *ends, size_t ends_len,
                         uint64_t *place);

/* ---- Recurrent configurations
 *
 * These calls take configurations on one graph: numbers of chips by vertex, one configuration after another. Numbers at
 * the sink do not count, and the calls write 0 there. Each call stabilizes configurations, given ones or others. Each
 * configuration that it stabilizes may have up to 2^40 chips off the sink, and each vertex may fire up to 2^40 times.
 * Otherwise the call returns fault 10 or 13, with the place of the given configuration, or with place 0. On a fault,
 * all arrays are unchanged. */

/* Finds the least burning script: how often each vertex fires when a recurrent configuration burns.
 *
 * script   one number per vertex: gets how often the vertex fires
 * chips    one number per vertex: gets how many chips the vertex loses on balance */
uint64_t chipfire_burning(uint64_t vertices, uint64_t sink,
                          const uint64_t *tails, size_t tails_len,
                          const uint64_t *heads, size_t heads_len,
                          const uint64_t *mults, size_t mults_len,
                          uint64_t *script, size_t script_len,
                          uint64_t *chips, size_t chips_len,
                          uint64_t *place);

/* Writes which configurations are recurrent.
 *
 * chips    the configurations
 * flags    one number per configuration: gets 1 if the configuration is recurrent, else 0 */
uint64_t chipfire_are_recurrent(uint64_t vertices, uint64_t sink,
                                const uint64_t *tails, size_t tails_len,
                                const uint64_t *heads, size_t heads_len,
                                const uint64_t *mults, size_t mults_len,
                                const uint64_t *chips, size_t chips_len,
                                uint64_t *flags, size_t flags_len,
                                uint64_t *place);

/* Replaces each configuration by the one recurrent configuration equivalent to it.
 *
 * rows     the number of configurations
 * chips    the configurations */
uint64_t chipfire_recurrent(uint64_t vertices, uint64_t sink,
                            const uint64_t *tails, size_t tails_len,
                            const uint64_t *heads, size_t heads_len,
                            const uint64_t *mults, size_t mults_len,
                            size_t rows,
                            uint64_t *chips, size_t chips_len,
                            uint64_t *place);

/* Replaces each configuration by the one superstable configuration equivalent to it.
 *
 * rows     the number of configurations
 * chips    the configurations */
uint64_t chipfire_superstable(uint64_t vertices, uint64_t sink,
                              const uint64_t *tails, size_t tails_len,
                              const uint64_t *heads, size_t heads_len,
                              const uint64_t *mults, size_t mults_len,
                              size_t rows,
                              uint64_t *chips, size_t chips_len,
                              uint64_t *place);

/* Replaces each configuration by its inverse in the sandpile group. The inverse of a recurrent configuration is the
 * recurrent configuration whose sum with it stabilizes to the identity. Any other configuration is replaced by the
 * inverse of the recurrent configuration equivalent to it.
 *
 * rows     the number of configurations
 * chips    the configurations */
uint64_t chipfire_inverse(uint64_t vertices, uint64_t sink,
                          const uint64_t *tails, size_t tails_len,
                          const uint64_t *heads, size_t heads_len,
                          const uint64_t *mults, size_t mults_len,
                          size_t rows,
                          uint64_t *chips, size_t chips_len,
                          uint64_t *place);

/* Finds the identity of the sandpile group.
 *
 * chips    one number per vertex: gets the identity */
uint64_t chipfire_identity(uint64_t vertices, uint64_t sink,
                           const uint64_t *tails, size_t tails_len,
                           const uint64_t *heads, size_t heads_len,
                           const uint64_t *mults, size_t mults_len,
                           uint64_t *chips, size_t chips_len,
                           uint64_t *place);

/* Draws random recurrent configurations, with 0 at the sink. They have the numbers first, first + 1, and so on. Each
 * depends only on the graph, the seed and its number.
 *
 * If each edge that does not lead to the sink has a reverse edge of the same multiplicity, all recurrent configurations
 * are equally probable (not proved). On other graphs, the configurations drawn are recurrent, but not uniform.
 *
 * seed     any number
 * rows     the number of configurations
 * chips    gets the configurations */
uint64_t chipfire_random_recurrent(uint64_t vertices, uint64_t sink,
                                   const uint64_t *tails, size_t tails_len,
                                   const uint64_t *heads, size_t heads_len,
                                   const uint64_t *mults, size_t mults_len,
                                   uint64_t seed, uint64_t first, size_t rows,
                                   uint64_t *chips, size_t chips_len,
                                   uint64_t *place);

/* ---- Piles
 *
 * A pile is a game that is kept from one call to the next, and on which chips are dropped. Its graph is made once.
 * Drops on a pile have the same avalanches as the drops of one call of chipfire_avalanches.
 *
 *     struct chipfire_pile pile = {0};        no pile yet
 *     chipfire_pile_new(&pile, ..);           makes one
 *     chipfire_pile_play(&pile, ..);          plays it, in portions if you like; else the first drop plays it
 *     chipfire_pile_drop(&pile, ..);          drops chips, as often as you like; or many drops at a time:
 *     chipfire_pile_drops(&pile, ..);
 *     chipfire_pile_measure(&pile, ..);       the same, and writes which vertices fired
 *     chipfire_pile_free(&pile);              frees it
 *
 * The game and all drops since chipfire_pile_new or chipfire_pile_put share the limit. Together they have at most 2^40
 * chips, including those on the sink.
 *
 * Each call returns 0 or the number of the first fault; 14 precedes all others. On a fault other than 13, the pile and
 * all arrays are unchanged. Fault 13 means that the limit stopped a play or a drop. Then the graph and the limit stay,
 * and the chips and counts are those where the play stopped. Until chipfire_pile_put, every later play returns 13, and
 * so does every drop with no other fault.
 *
 * The caller must also ensure the following, which no call can check:
 *
 *   - At first the struct is all zeros, and then only these calls write it. After the struct was passed to a call, no
 *     copy of it is used. Otherwise, the behavior is undefined.
 *   - Only one call at a time uses a pile, even to read it. Different threads may call if a lock, the start of a thread
 *     or a join orders their calls.
 *   - Each pile is freed, or its memory leaks. */
struct chipfire_pile {
    uint64_t has_pile;  /* only these calls read and write both members */
    void *pile;
};

/* Makes a pile of a graph and its chips, one number per vertex. The new pile replaces the one in the struct, if there
 * is one. The call plays nothing. */
uint64_t chipfire_pile_new(struct chipfire_pile *pile,
                           uint64_t vertices, uint64_t sink,
                           const uint64_t *tails, size_t tails_len,
                           const uint64_t *heads, size_t heads_len,
                           const uint64_t *mults, size_t mults_len,
                           uint64_t limit,
                           const uint64_t *chips, size_t chips_len,
                           uint64_t *place);

/* Replaces all chips and the limit, and sets all counts to 0. The call plays nothing. */
uint64_t chipfire_pile_put(struct chipfire_pile *pile, uint64_t limit, const uint64_t *chips, size_t chips_len);

/* Plays on for about this number of visits to vertices and edges, unless the play ends before. *left gets 1 if the play
 * has not ended, else 0; on a fault, *left is unchanged. With one visit or more, a vertex fires or the play ends. So
 * calls in a loop reach the end, and UINT64_MAX visits are a whole play. Between two portions, the chips and counts are
 * those that the play has reached, and the counts never fall. A portion may exceed its number by at most 161 visits of
 * each vertex and edge: a search for counts begins with up to 160. */
uint64_t chipfire_pile_play(struct chipfire_pile *pile, uint64_t visits, uint64_t *left);

/* Plays to the end, drops amount chips on a vertex, and plays to the end again. Writes the three numbers that
 * chipfire_avalanches writes for this drop. */
uint64_t chipfire_pile_drop(struct chipfire_pile *pile, uint64_t vertex, uint64_t amount,
                            uint64_t *size, uint64_t *extent, uint64_t *lost);

/* Plays to the end. Then, for each i in order, drops amounts[i] chips on vertex at[i], as chipfire_pile_drop does. The
 * other arrays get what they get from chipfire_avalanches. Only plays allocate memory. Without drops, the call only
 * plays.
 *
 * All drops are checked before the first one falls: faults 12, 26 and 10 change nothing. If the limit stops a play, the
 * call returns 13. Then *place is the number of drops made, and only their numbers are written. */
uint64_t chipfire_pile_drops(struct chipfire_pile *pile,
                             const uint64_t *at, size_t at_len,
                             const uint64_t *amounts, size_t amounts_len,
                             uint64_t *sizes, size_t sizes_len,
                             uint64_t *extents, size_t extents_len,
                             uint64_t *losts, size_t losts_len,
                             uint64_t *place);

/* Makes drops as chipfire_pile_drops does, writes more measures of each drop into four arrays, and may stop after a
 * drop. An array that you do not ask for has length 0.
 *
 * loses      if not 0, the call stops after the first drop that loses a chip (dissipates it)
 * marks      one number per vertex, or none: the call stops after the first drop that fires a vertex whose mark has
 *            bit 1; or one with bit 2 and one with bit 4; or one with bit 8 and one with bit 16. Other bits mean
 *            nothing
 * durations  one number per drop, or none: gets the number of rounds of the drop. In a round, each legal vertex fires
 *            once. If nothing fires, the number is 0
 * ends       one number per drop, or none: gets the index in vertices after the last vertex that the drop fires. The
 *            vertices of the next drop begin at this index, and those of the first drop at 0
 * vertices   gets the vertices that fire, each once in a drop, in any order; has length 0 if ends has
 * times      as many numbers as vertices: gets how often each of these vertices fires in the drop
 *
 * With ends, the call stops before a drop if vertices has room left for fewer numbers than the graph has vertices. So a
 * call makes at least one drop if vertices has as many numbers as the graph has vertices.
 *
 * On success, *place is the number of drops made: all drops, those up to the first drop after which the call stops, or
 * those before the first drop without room. The pile is as these drops left it. The faults are those of
 * chipfire_pile_drops. Array elements that belong to no drop made are unchanged.
 *
 * Durations require a play in rounds, in which a vertex with many chips fires again and again. Apart from this, asking
 * for durations changes only the order of vertices. */
uint64_t chipfire_pile_measure(struct chipfire_pile *pile,
                               const uint64_t *at, size_t at_len,
                               const uint64_t *amounts, size_t amounts_len,
                               uint64_t loses,
                               const uint64_t *marks, size_t marks_len,
                               uint64_t *sizes, size_t sizes_len,
                               uint64_t *extents, size_t extents_len,
                               uint64_t *losts, size_t losts_len,
                               uint64_t *durations, size_t durations_len,
                               uint64_t *ends, size_t ends_len,
                               uint64_t *vertices, size_t vertices_len,
                               uint64_t *times, size_t times_len,
                               uint64_t *place);

/* Draws what chipfire_random_recurrent draws on the graph of the pile, and returns the same faults. The pile is
 * unchanged, even on fault 13. */
uint64_t chipfire_pile_random_recurrent(struct chipfire_pile *pile,
                                        uint64_t seed, uint64_t first, size_t rows,
                                        uint64_t *chips, size_t chips_len,
                                        uint64_t *place);

/* Copies the chips of each vertex. Before the first play, they are the chips put there. */
uint64_t chipfire_pile_chips(struct chipfire_pile *pile, uint64_t *chips, size_t chips_len);

/* Copies how often each vertex has fired since chipfire_pile_new or chipfire_pile_put. */
uint64_t chipfire_pile_fired(struct chipfire_pile *pile, uint64_t *fired, size_t fired_len);

/* Returns the number of bytes in the arrays of the pile: 76 per vertex (20 for the graph, 56 for the play) and 48 per
 * edge. Returns 0 if there is no pile. Not counted are some hundred bytes outside the arrays, the overhead of malloc,
 * and the memory that a long play takes while it runs. */
uint64_t chipfire_pile_size(struct chipfire_pile *pile);

/* Frees the pile, if there is one, and fills the struct with zeros, so a second call is harmless. */
void chipfire_pile_free(struct chipfire_pile *pile);

/* ---- The end of your own computation
 *
 * These calls detect when your own computation is over: no message of its processes is in transit, and no process is at
 * work. The method is that of Dijkstra and Scholten. docs/DETECTOR.md explains it, and docs/tasks/detect-your-own.md
 * lists the duties of a process.
 *
 * The books of a process are its parent edge and two arrays of tallies. One array has a tally for each edge into the
 * process, and the other array a tally for each edge out of it. The books are in your memory: the library keeps nothing
 * from one call to the next. At first, all counts are 0, and the parent is CHIPFIRE_NEUTRAL.
 *
 *     edge    its number, below 2^64 - 1. Each array is in ascending order of edges, names no edge twice, and has at
 *             most 2^23 + 1 tallies
 *     counts  up to 2^40
 *     flags   0 is false, and any other number is true. Calls write 0 or 1
 *
 * Each call returns 0, 46 or 47. A call that returns 46 or 47 has changed nothing:
 *
 *     46      there is no such edge, a count is too high, or the call finds that the books are not sound
 *     47      not all of these messages may be acknowledged yet
 *
 * A call that returns 0 keeps sound books sound. chipfire_books_check says whether books are sound. On books that are
 * not sound, a call touches no memory but theirs. chipfire_deficit and chipfire_is_over read all of outs. If the edge
 * is the parent, chipfire_may_ack and chipfire_acked read all of ins and outs. These four calls return 46 if a tally
 * that they read has more answered than messages, or more than 2^40 messages, or if there are too many tallies.
 *
 * The caller must also ensure the following, which no call can check:
 *
 *   - One call at a time works on the books of one process.
 *   - Each message is noted as sent before it can be received, and as got before the process works on it. No message is
 *     lost or comes twice.
 *   - The tail of an edge learns how many messages were acknowledged only after chipfire_acked, or
 *     chipfire_books_acknowledge, has returned 0.
 *   - A process that says it is passive sends nothing, and only a message makes it active again. Only the root begins
 *     at work, and no edge leads to the root. */
struct chipfire_tally {
    uint64_t edge;      /* the number of the edge */
    uint64_t messages;  /* the number of messages got on the edge (in), or sent on it (out) */
    uint64_t answered;  /* how many of these are acknowledged (in), or known to be acknowledged (out) */
};

/* The parent of a neutral process: the number of no edge. */
#define CHIPFIRE_NEUTRAL UINT64_MAX

/* Notes a message sent on the edge. */
uint64_t chipfire_sent(struct chipfire_tally *outs, size_t outs_len, uint64_t edge);

/* Notes a message got on the edge. If the process is neutral, the message engages it: the edge becomes its parent. */
uint64_t chipfire_got(struct chipfire_tally *ins, size_t ins_len, uint64_t *parent, uint64_t edge);

/* Writes how many more messages of the edge may be acknowledged now. */
uint64_t chipfire_may_ack(const struct chipfire_tally *ins, size_t ins_len,
                          const struct chipfire_tally *outs, size_t outs_len,
                          uint64_t parent, uint64_t edge, uint64_t passive, uint64_t *count);

/* Notes that count messages of the edge are acknowledged. count is at most the number that chipfire_may_ack writes. */
uint64_t chipfire_acked(struct chipfire_tally *ins, size_t ins_len,
                        const struct chipfire_tally *outs, size_t outs_len,
                        uint64_t *parent, uint64_t edge, uint64_t passive, uint64_t count);

/* Notes that the head of the edge has acknowledged word messages in all, and writes how many of these are new. word may
 * come from any report of the head, not only from the latest. */
uint64_t chipfire_settled(struct chipfire_tally *outs, size_t outs_len, uint64_t edge, uint64_t word, uint64_t *more);

/* Writes the number of acknowledgements that the process waits for. */
uint64_t chipfire_deficit(const struct chipfire_tally *outs, size_t outs_len, uint64_t *count);

/* For the root: writes whether the computation is over. It is over when the root has ended, so that it sends no more,
 * and the root waits for no acknowledgement. */
uint64_t chipfire_is_over(const struct chipfire_tally *outs, size_t outs_len, uint64_t ended, uint64_t *over);

/* Returns 0 if the books of a process are sound, else 46. */
uint64_t chipfire_books_check(const struct chipfire_tally *ins, size_t ins_len,
                              const struct chipfire_tally *outs, size_t outs_len, uint64_t parent);

/* Books with two sums: the number of messages owed on all edges, and the deficit. Of the calls above, chipfire_deficit
 * and chipfire_is_over add up all tallies, and so do chipfire_may_ack and chipfire_acked on the parent edge. A call on
 * this struct only searches for its edge, and chipfire_books_is_over takes no longer for many edges than for one edge.
 *
 *     struct chipfire_books books = {ins, ins_len, outs, outs_len, CHIPFIRE_NEUTRAL, 0, 0};
 *     chipfire_books_open(&books);            fills in the sums
 *     chipfire_books_sent(&books, edge);      and so on
 *
 * These calls change the tallies as the calls above do. They return 0 or 46, and on 46 have changed nothing. They write
 * the tallies, parent, owed and deficit. You may read all of these between calls. You may also add an edge with counts
 * 0 to an array, and even move the array to other memory, without chipfire_books_open. If the sums are not those of the
 * tallies, the result of a call means nothing. But even then, the call touches no other memory, and no sum wraps below
 * 0 or above 2^64 - 1. */
struct chipfire_books {
    struct chipfire_tally *ins;   /* the edges into the process */
    size_t ins_len;
    struct chipfire_tally *outs;  /* the edges out of it */
    size_t outs_len;
    uint64_t parent;              /* the parent edge, or CHIPFIRE_NEUTRAL */
    uint64_t owed;                /* the number of messages got and not acknowledged, on all edges */
    uint64_t deficit;             /* the number of messages sent and not known to be acknowledged, on all edges */
};

/* Fills in the sums, if the books are sound. It reads all tallies. */
uint64_t chipfire_books_open(struct chipfire_books *books);

/* Returns 0 if the books are sound and the sums are those of the tallies, else 46. It reads all tallies. */
uint64_t chipfire_books_verify(const struct chipfire_books *books);

/* Notes a message sent on the edge. */
uint64_t chipfire_books_sent(struct chipfire_books *books, uint64_t edge);

/* Notes a message got on the edge. It engages a neutral process. */
uint64_t chipfire_books_got(struct chipfire_books *books, uint64_t edge);

/* Acknowledges as many messages of the edge as chipfire_may_ack would write. Writes into count how many these are,
 * which may be 0. Writes into word how many messages of the edge are acknowledged in all, for chipfire_books_settled of
 * the tail. */
uint64_t chipfire_books_acknowledge(struct chipfire_books *books, uint64_t edge, uint64_t passive,
                                    uint64_t *count, uint64_t *word);

/* Notes that the head of the edge has acknowledged word messages in all, and writes how many of these are new. word may
 * come from any report of the head, not only from the latest. */
uint64_t chipfire_books_settled(struct chipfire_books *books, uint64_t edge, uint64_t word, uint64_t *more);

/* For the root: writes whether the computation is over. Always returns 0. */
uint64_t chipfire_books_is_over(const struct chipfire_books *books, uint64_t ended, uint64_t *over);

#ifdef __cplusplus
}
#endif

#endif
