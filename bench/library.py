#!/usr/bin/env python3
"""Times libchipfire.so beside plain C of the same interface (plain.c), both called by ctypes, and beside the Python
package, which calls the library or starts the program.

    bench/library/run [--turns N] [--game NAME].. [--program FILE]

In each turn the two libraries play the same, one after the other, and must return the same numbers. What counts is the
best turn. `single` is a call for each game, `batch` one call for all, `graph` a call for a game without chips, where
all that takes time is the graph; `drops` is one call for all drops, one chip each, on a grid that is recurrent. In
Python these are `plain`, `stabilize_many` and `drops`. The last line is of `is_recurrent`, a call for each of 10,000
grids of 10 by 10 with 1 to 3 chips on a vertex, and of `are_recurrent`, a call for all. What is printed is Markdown,
for docs/BENCHMARKS.md. By default FILE is the program that ./chipfire built; the library lies beside it. The status is
1 if two results differ.
"""
import ctypes
import os
import random
import time

import frame  # (it has Python find the next)
import chipfire
import inputs

COMPILE = ["gcc", "-std=c11", "-O2", "-fPIC", "-shared", f"-I{frame.ROOT}/include"]
WORD, LIMIT = ctypes.c_uint64, 2**40
#: What is timed: the side of the grid, the most chips on a vertex, how many games or drops, and how many plays the program
#: makes for its rate, if it is timed.
GAMES = {
    "10 by 10, single": ("single", 10, 7, 2000, 100),
    "10 by 10, batch": ("batch", 10, 7, 10_000, 0),
    "20 by 20, single": ("single", 20, 7, 500, 100),
    "20 by 20, batch": ("batch", 20, 7, 1000, 0),
    "60 by 60, single": ("single", 60, 7, 20, 20),
    "60 by 60, batch": ("batch", 60, 7, 20, 0),
    "60 by 60, 0 to 4 chips, single": ("single", 60, 4, 200, 20),
    "10 by 10, graph": ("graph", 10, 0, 2000, 0),
    "60 by 60, graph": ("graph", 60, 0, 200, 0),
    "255 by 255, graph": ("graph", 255, 0, 10, 0),
    "1000 by 1000, graph": ("graph", 1000, 0, 1, 0),
    "20 by 20, drops": ("drops", 20, 0, 500_000, 500_000),
    "60 by 60, drops": ("drops", 60, 0, 200_000, 200_000),
    "255 by 255, drops": ("drops", 255, 0, 10_000, 10_000),
}


def array(numbers):
    numbers = list(numbers)
    return (WORD * max(1, len(numbers)))(*numbers), len(numbers)


def words(*arrays):
    """Returns the words of a call for arrays: the address and the length of each."""
    return [
        word
        for memory, length in arrays
        for word in (ctypes.c_void_p(ctypes.addressof(memory)), ctypes.c_size_t(length))
    ]


class Play:
    """What is played on a grid: the same for each library."""

    def __init__(self, kind, side, most, count):
        vertices, sink, edges, _ = inputs.grid(side, {})
        draw = random.Random(f"{kind} {side} {most}")
        self.kind, self.side, self.count, self.vertices = kind, side, count, vertices
        self.edges = [array(column) for column in zip(*edges)]
        self.graph = [WORD(vertices), WORD(sink), *words(*self.edges), WORD(LIMIT)]
        games = 1 if kind in ("graph", "drops") else count
        first = [3] * sink + [0] if kind == "drops" else None
        self.games = [
            first or [draw.randint(0, most) for _ in range(sink)] + [0] for _ in range(games)
        ]
        self.drops = [draw.randrange(sink) for _ in range(count if kind == "drops" else 0)]
        self.dropped_at = array(self.drops), array([1] * len(self.drops))
        self.chips = array(it for game in self.games for it in game)
        self.none, self.place = array([]), WORD()

    def dropped(self, library):
        """Returns the seconds of one call for all drops, and the numbers that it returns."""
        chips, columns = array(self.chips[0]), [array([0] * self.count) for _ in range(3)]
        given = words(*self.dropped_at, chips, *columns)
        begun = time.perf_counter()
        status = library.chipfire_avalanches(*self.graph, *given, ctypes.byref(self.place))
        return time.perf_counter() - begun, [
            status,
            *map(bytes, (chips[0], *(it for it, _ in columns))),
        ]

    def played(self, library):
        """Returns the seconds of calls for all games, and the numbers that they return."""
        if self.kind == "drops":
            return self.dropped(library)
        calls = self.count if self.kind != "batch" else 1
        each = len(self.games) if self.kind == "batch" else 1
        chips, fired, stopped = (
            array([0] * n) for n in (each * self.vertices, each * self.vertices, each)
        )
        given = words(self.none, chips, fired, stopped)
        size, found = ctypes.sizeof(chips[0]), []
        begun = time.perf_counter()
        for call in range(calls):
            ctypes.memmove(
                chips[0], ctypes.addressof(self.chips[0]) + size * (call % len(self.games)), size
            )
            status = library.chipfire_stabilize_all(*self.graph, *given, ctypes.byref(self.place))
            if call % 100 == 0:
                found += [status, bytes(chips[0]), bytes(fired[0]), bytes(stopped[0])]
        return time.perf_counter() - begun, found

    def asked(self, plays, program=None):
        """Returns how many games or drops in a second the package plays, by the library or by this program."""
        grid = chipfire.grid(self.side, self.side)
        begun = time.perf_counter()
        if self.kind == "drops":
            chipfire.drops(grid, self.games[0], self.drops, program=program)
        elif self.kind == "batch":
            chipfire.stabilize_many(grid, self.games, program=program)
        else:
            for call in range(plays):
                chipfire.plain(grid, self.games[call % len(self.games)], program=program)
        return plays / (time.perf_counter() - begun)


def recurrent(turns):
    """Prints of how many grids in a second the package says whether they are recurrent."""
    draw, grid, count = random.Random("recurrent"), chipfire.grid(10, 10), 10_000
    rows, best = [[draw.randint(1, 3) for _ in range(100)] + [0] for _ in range(count)], [
        float("inf")
    ] * 2
    for _ in range(turns):
        results, begun = [], time.perf_counter()
        for which, ask in enumerate(
            (
                lambda: [chipfire.is_recurrent(grid, row) for row in rows],
                lambda: chipfire.are_recurrent(grid, rows),
            )
        ):
            results.append(ask())
            now = time.perf_counter()
            best[which], begun = min(best[which], now - begun), now
        if results[0] != results[1]:
            frame.stop("is_recurrent and are_recurrent differ")
    print(f"\nis_recurrent: {shown(count / best[0])}, are_recurrent: {shown(count / best[1])}")


def shown(rate):
    return f"{rate:,.0f}" if rate >= 100 else f"{rate:.2f}"


def loaded(path):
    library = ctypes.CDLL(path)
    for name in ("chipfire_stabilize_all", "chipfire_avalanches"):
        getattr(library, name).restype = WORD
    return library


def least_of(play, libraries, turns, name):
    """Returns the least seconds of each library over the turns, once all have returned the same numbers."""
    least = [float("inf")] * len(libraries)
    for _ in range(turns):
        results = []
        for which, library in enumerate(libraries):
            seconds, numbers = play.played(library)
            least[which] = min(least[which], seconds)
            results.append(numbers)
        if results[0] != results[1] or results[0][0] != 0:
            frame.stop(f"{name}: the two libraries return other numbers")
    return least


def row(name, libraries, program, turns):
    """Returns the row of a game."""
    *how, plays = GAMES[name]
    play = Play(*how)
    rates = [play.count / it for it in least_of(play, libraries, turns, name)]
    package = shown(max(play.asked(play.count) for _ in range(turns)))
    process = shown(play.asked(plays, program)) if plays else ""
    cells = [name, *map(shown, rates), f"{rates[1] / rates[0]:.2f}", package, process]
    return f"| {' | '.join(cells)} |"


def main():
    words = frame.parser(__doc__, turns=5)
    words.add_argument("--game", action="append", choices=GAMES)
    asked = frame.read_words(words)
    plain = frame.compiled(COMPILE, "library/plain.c", "libplain.so")
    os.environ.pop("CHIPFIRE", None)
    chipfire.library.find_program = lambda: asked.program
    libraries = [loaded(f"{os.path.dirname(asked.program)}/libchipfire.so"), loaded(plain)]
    print(
        "| In a second | library | plain C | time, library : C | Python | program |\n|---|---|---|---|---|---|"
    )
    for name in asked.game or GAMES:
        print(row(name, libraries, asked.program, asked.turns), flush=True)
    recurrent(asked.turns)


if __name__ == "__main__":
    main()
