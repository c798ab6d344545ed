#!/usr/bin/env python3
"""Times the plays of libchipfire.so, apart from the making of the graph, beside a plain work list in C (library/plain.c).

    bench/library/plays [--turns N] [--game NAME].. [--drawn N] [--old LIB] [--program FILE]

A play is one call less the same call without chips, which is what the graph takes and has a row of its own. The next
two rows are a call that puts the chips on a pile that is kept, and the call that plays it, by itself. In each turn each
library makes the calls, in a process of its own, which is stopped after a time in which it has not ended; short ones it
makes several times. The row of a graph with lists is of a program in C that also keeps what a graph of chipfire has. What counts is the least time of the processor of each call, and all libraries must
return the same numbers. LIB is another libchipfire.so, as of an older version, beside which the same is timed. Drops are
one a call on a pile that is kept, and one a call with its graph.

With --drawn N small games are timed instead, of each family and load in turn (drawn.py): how many plays of the library
take at most 2.5 and 3.5 times that of the quicker of the others, and a row for each that takes more than 2.5. A play that
takes less than 20 microseconds counts as that.

What is printed is Markdown, for docs/BENCHMARKS.md. By default FILE is the program that ./chipfire built; the library
lies beside it. The status is 1 if two results differ.
"""
import contextlib
import ctypes
import hashlib
import multiprocessing
import os
import random
import time

import library  # (before the next, which has Python find that of tools/)
import drawn
import frame
import inputs

PATIENCE = 120.0
#: How long and how often a short call is made again in a turn, and what a play counts at least.
AGAIN, MOST = 0.02, 20
LEAST = 20e-6
#: How near plays are counted.
NEAR = 2.5, 3.5


def ring_one_way(draw):
    """A ring whose edges go one way, with a chip a vertex at random, which dissipates one of 1,000 chips at vertex
    0."""
    length = 4000
    edges = [(0, 1, 999), (0, length, 1)]
    edges += [(v, (v + 1) % length, 1) for v in range(1, length)]
    chips = [0] * (length + 1)
    for _ in range(length):
        chips[draw.randrange(length)] += 1
    return length + 1, length, edges, chips


def on_grid(side, chips):
    """Returns a grid with chips, a list of those on its squares or a few by their vertices."""
    vertices, sink, edges, _ = inputs.grid(side, {})
    if isinstance(chips, dict):
        return vertices, sink, edges, [chips.get(v, 0) for v in range(vertices)]
    return vertices, sink, edges, [*chips, 0]


def heap_at_edge(_):
    return on_grid(1000, {500: 2**16})


def heap_in_middle(_):
    return on_grid(1000, {500_500: 2**16})


def up_to_four(draw):
    return on_grid(1000, [draw.randint(0, 4) for _ in range(1000 * 1000)])


def all_but_one(draw):
    """Stable but for one vertex."""
    chips = [draw.randint(0, 3) for _ in range(1000 * 1000)]
    chips[500_500] = 4
    return on_grid(1000, chips)


def clique_with_tail(_):
    """A clique of 100 vertices with 100 chips each, and a path of 200 from one of them, which ends in the sink."""
    edges = [(u, v, 1) for u in range(100) for v in range(100) if u != v]
    edges += [(v, v + 1, 1) for v in range(99, 299)]
    edges += [(v, v - 1, 1) for v in range(100, 299)]
    return 300, 299, edges, [100] * 100 + [0] * 200


#: What is timed, and what it is called.
GAMES = {
    "ring of 4,000, one way": ring_one_way,
    "2^16 chips at the edge of 1,000 by 1,000": heap_at_edge,
    "2^16 chips in the middle of 1,000 by 1,000": heap_in_middle,
    "1,000 by 1,000, 0 to 4 each": up_to_four,
    "1,000 by 1,000, stable but for one vertex": all_but_one,
    "clique of 100 with a tail of 200": clique_with_tail,
}
#: What is asked for the graph with lists.
LISTS = "1,000 by 1,000, with lists of edges"
#: The sides of the squares on which one chip is dropped a call, and how many calls are timed.
DROPS = {"one drop a call, 64 by 64": (64, 20_000), "one drop a call, 256 by 256": (256, 2000)}


class Game:
    """A game in memory, which the processes that play it have too: chips on a graph, and vertices to drop on."""

    def __init__(self, vertices, sink, edges, chips, at=()):
        self.vertices = vertices
        self.columns = [library.array(column) for column in zip(*edges)]
        self.words = [library.WORD(vertices), library.WORD(sink), *library.words(*self.columns)]
        self.chips, self.at = library.array(chips), library.array(at)

    def copied(self):
        """The chips in memory of their own."""
        numbers = library.array([0] * self.vertices)
        ctypes.memmove(numbers[0], self.chips[0], 8 * self.vertices)
        return numbers


def stabilized(lib, game, start):
    """Returns the least seconds of a call, which is made again while it is short, and the numbers that it returns."""
    none, numbers = library.array([]), [
        library.array([0] * it) for it in (game.vertices,) * 2 + (1,)
    ]
    arrays = library.words(none, *numbers)
    least, begun = float("inf"), time.process_time()
    for _ in range(MOST):
        ctypes.memmove(numbers[0][0], start[0], 8 * game.vertices)
        now, limit, place = time.process_time(), library.WORD(library.LIMIT), library.WORD()
        status = lib.chipfire_stabilize_all(*game.words, limit, *arrays, ctypes.byref(place))
        least = min(least, time.process_time() - now)
        if time.process_time() - begun > AGAIN:
            break
    return least, bytes([status]) + b"".join(bytes(memory) for memory, _ in numbers)


def of_game(lib, _, game):
    """Returns the seconds of the graph and of the play, and the numbers."""
    graph, none = stabilized(lib, game, library.array([0] * game.vertices))
    both, numbers = stabilized(lib, game, game.chips)
    return (graph, max(both - graph, LEAST)), none + numbers


def of_lists(lib, driver, game):
    """Returns the seconds of the graph, of which plain C makes lists as well, and the numbers of no play."""
    ctypes.c_int.in_dll(driver, "with_lists").value = 1
    seconds, numbers = stabilized(lib, game, library.array([0] * game.vertices))
    return (seconds,), numbers


def of_pile(lib, _, game):
    """Returns the least seconds of putting the chips on a pile and of playing it, and the numbers that it has then."""
    limit, place, left = library.WORD(library.LIMIT), library.WORD(), library.WORD()
    pile, to_the_end = (library.WORD * 2)(), library.WORD(2**64 - 1)
    none, start = library.array([0] * game.vertices), library.words(game.chips)
    lib.chipfire_pile_new(pile, *game.words, limit, *library.words(none), ctypes.byref(place))
    puts, plays, begun = [], [], time.process_time()
    while not plays or time.process_time() - begun < AGAIN and len(plays) < MOST:
        before = time.process_time()
        lib.chipfire_pile_put(pile, limit, *start)
        between = time.process_time()
        status = lib.chipfire_pile_play(pile, to_the_end, ctypes.byref(left))
        puts.append(between - before)
        plays.append(time.process_time() - between)
    chips, fired = (library.array([0] * game.vertices) for _ in range(2))
    lib.chipfire_pile_chips(pile, *library.words(chips))
    lib.chipfire_pile_fired(pile, *library.words(fired))
    lib.chipfire_pile_free(pile)
    return (min(puts), min(plays)), bytes([status]) + b"".join(
        bytes(it) for it, _ in (chips, fired)
    )


def of_drops(lib, driver, game):
    """Drops one chip a call. Returns the seconds of a call that makes the graph, and of one on a pile; and the numbers."""
    limit, place = library.WORD(library.LIMIT), library.WORD()
    at, count = library.words(game.at)
    with_graph = float("inf")
    for _ in range(MOST):
        numbers, columns = game.copied(), [library.array([0]) for _ in range(3)]
        first = [at, ctypes.c_size_t(1), *library.words(library.array([1]), numbers, *columns)]
        begun = time.process_time()
        lib.chipfire_avalanches(*game.words, limit, *first, ctypes.byref(place))
        with_graph = min(with_graph, time.process_time() - begun)
    pile, sums = (library.WORD * 2)(), (library.WORD * 3)()
    start = library.words(game.chips)
    lib.chipfire_pile_new(pile, *game.words, limit, *start, ctypes.byref(place))
    begun = time.process_time()
    driver.drop_each(lib.chipfire_pile_drop, pile, at, count, sums)
    each = (time.process_time() - begun) / count.value
    lib.chipfire_pile_free(pile)
    return (with_graph, each), b"".join(bytes(it) for it in (numbers[0], sums))


def called(timed, path, plain, game, to):
    """Times a game, and sends the seconds and a sum of the numbers."""
    seconds, numbers = timed(library.loaded(path), ctypes.CDLL(plain), game)
    to.send((seconds, hashlib.sha256(numbers).digest()))


def asked_for(timed, path, plain, game):
    """Returns what a process of its own sends of a game, or None if it is stopped."""
    end, to = multiprocessing.Pipe(duplex=False)
    process = multiprocessing.Process(target=called, args=(timed, path, plain, game, to))
    process.start()
    to.close()
    sent = None
    if end.poll(PATIENCE):
        with contextlib.suppress(EOFError):
            sent = end.recv()
    process.terminate()
    process.join()
    return sent


def least_of(name, timed, paths, game, turns):
    """Returns the least seconds of each library, of the graph and of the play; None of one that was stopped."""
    least = [(float("inf"),) * 2 for _ in paths]
    for _ in range(turns):
        sums = set()
        for which, path in enumerate(paths):
            sent = asked_for(timed, path, paths[1], game) if least[which] else None
            if sent is None:
                least[which] = None
                continue
            least[which] = tuple(map(min, least[which], sent[0]))
            sums.add(sent[1])
        if len(sums) > 1:
            frame.stop(f"{name}: two libraries return other numbers")
    return least


def shown(seconds):
    if seconds is None:
        return f"> {PATIENCE:.0f} s"
    return f"{seconds:.3f} s" if seconds >= 0.01 else f"{seconds * 1e6:,.1f} us"


def print_row(name, seconds):
    """Prints a row: the seconds of each library, and how many times those of the quickest of the others the first takes."""
    others = [it for it in seconds[1:] if it is not None]
    ratio = f"{seconds[0] / min(others):.2f}" if seconds[0] and others else ""
    print(f"| {' | '.join([name, *map(shown, seconds), ratio])} |", flush=True)


def print_game(name, paths, turns):
    """Prints the rows of a game: its graph and its play."""
    draw = random.Random(name)
    if name in DROPS:
        side, calls = DROPS[name]
        at = [draw.randrange(side * side) for _ in range(calls)]
        game = Game(*on_grid(side, [3] * side * side), at)
        parts = {of_drops: ("{}, each with its graph", "{}, on a pile")}
    elif name == LISTS:
        game, parts = Game(*on_grid(1000, {})), {of_lists: ("the graph of: {}",)}
    else:
        game = Game(*GAMES[name](draw))
        parts = {
            of_game: ("the graph of: {}", "{}"),
            of_pile: ("putting on a pile: {}", "{}, on a pile"),
        }
    for timed, words in parts.items():
        least = least_of(name, timed, paths, game, turns)
        for which, word in enumerate(words):
            print_row(word.format(name), [it and it[which] for it in least])


def time_drawn(count, paths, turns):
    """Times drawn games, and prints how many plays are near the quickest of the others, and the others of them."""
    ratios = []
    for name, game in drawn.games(count):
        least = [it and it[1] for it in least_of(name, of_game, paths, Game(*game), turns)]
        others = [it for it in least[1:] if it is not None]
        if not others:
            print_row(f"{name}, which nobody ends", least)
            continue
        ratios.append(float("inf") if least[0] is None else least[0] / min(others))
        if ratios[-1] > NEAR[0]:
            print_row(name, least)
    near = [f"{sum(it <= most for it in ratios):,} within {most}" for most in NEAR]
    print(f"\nof {len(ratios):,} plays {', '.join(near)}; the farthest {max(ratios):.2f}")


def main():
    words = frame.parser(__doc__, turns=3)
    words.add_argument("--game", action="append", choices=[*GAMES, LISTS, *DROPS])
    words.add_argument("--drawn", type=int, metavar="N")
    words.add_argument("--old", type=os.path.realpath, metavar="LIB")
    asked = frame.read_words(words)
    plain = frame.compiled(library.COMPILE, "library/plain.c", "libplain.so")
    paths = [f"{os.path.dirname(asked.program)}/libchipfire.so", plain]
    heads = ["library", "plain C"]
    if asked.old:
        paths, heads = [*paths, asked.old], [*heads, "old"]
    print(f"| A play | {' | '.join(heads)} | library : quickest other |")
    print(f"|---|{'---:|' * (len(heads) + 1)}")
    if asked.drawn:
        time_drawn(asked.drawn, paths, asked.turns)
        return
    for name in asked.game or [*GAMES, LISTS, *DROPS]:
        print_game(name, paths, asked.turns)


if __name__ == "__main__":
    main()
