#!/usr/bin/env python3
"""Times the Python package's `chains`, a drop, beside a plain work list in C (library/plain.c); and `random_recurrent`.

    bench/library/chains [--turns N] [--side N].. [--program FILE]

Four chains make about as many firings on squares of each side, in one thread; the sides are 64, 128 and 256 if none is
said. `fired` and `durations` are the same with what these words ask for, and `histogram` with `collect="histogram"`.
The C program makes the same drops on the same starts; its time is that of a call less that of the same call without
drops. In each turn all are played, one after the other, and must have the same sizes. What counts is the least time of
the processor. Below are those of `random_recurrent` on 200 by 200 and 1,000 by 1,000 squares: of a graph's first call,
and of a later one.

What is printed is Markdown. By default FILE is the program that ./chipfire built; the library lies beside it. The
status is 1 if two results differ. It takes NumPy.
"""
import collections
import os
import time
from array import array

import library  # (before the next, which has Python find that of tools/)
import chipfire
import frame
import groups

CHAINS = 4
#: About how many firings a turn has.
FIRINGS = 2**22
ASKED = {
    "chains": {},
    "fired": {"fired": True},
    "durations": {"durations": True},
    "histogram": {"collect": "histogram"},
}


class Game:
    """Drops on a square: the starts of the chains, and the vertices of each."""

    def __init__(self, side):
        self.grid = chipfire.grid(side, side)
        self.drops = max(FIRINGS // (CHAINS * side * side // 27), 1)
        begun = chipfire.chains(self.grid, CHAINS, 0, seed=1)
        self.starts = begun.chips
        names = (chipfire.random_drops(self.grid, self.drops, seed) for seed in begun.seeds)
        self.at = [array("Q", it) for it in names]

    def by_package(self, options):
        """Returns the seconds of the package, and the histogram of the sizes."""
        begun = time.process_time()
        found = chipfire.chains(
            self.grid, CHAINS, self.drops, seed=1, chips=self.starts, workers=1, **options
        )
        seconds = time.process_time() - begun
        return seconds, found.total() if "collect" in options else found.histogram()

    def by_plain(self, plain):
        """Returns the seconds of the C program, and the histogram of the sizes."""
        calls = groups.Calls(plain, self.grid.vertices, self.grid.sink, self.grid.edges)
        seconds, sizes = 0.0, []
        for start, at in zip(self.starts, self.at):
            for sign, drops in ((-1, array("Q")), (1, at)):
                chips, ones = array("Q", map(int, start)), array("Q", [1]) * len(drops)
                columns = [array("Q", bytes(8 * len(drops))) for _ in range(3)]
                given = (drops, ones, chips, *columns)
                seconds += sign * calls.call("avalanches", *given, limit=(library.LIMIT,))
                sizes += columns[0]
        return seconds, dict(sorted(collections.Counter(sizes).items()))


def row_of_chains(side, plain, turns):
    """Returns the row of a square."""
    game = Game(side)
    least = dict.fromkeys([*ASKED, "C"], float("inf"))
    for _ in range(turns):
        results = []
        for name in least:
            made = game.by_plain(plain) if name == "C" else game.by_package(ASKED[name])
            least[name] = min(least[name], made[0])
            results.append(made[1])
        if any(it != results[0] for it in results):
            frame.stop(f"{side} by {side}: two results differ")
    each = {name: seconds / (CHAINS * game.drops) for name, seconds in least.items()}
    cells = [f"{each[name] * 1e6:.1f}, {each[name] / each['C']:.2f}" for name in ASKED]
    return f"| {side} by {side} | {' | '.join(cells)} | {each['C'] * 1e6:.1f} |"


def row_of_draws(side, turns):
    """Returns the row of random configurations."""
    firsts, laters = [], []
    for turn in range(turns):
        grid = chipfire.grid(side, side)
        for times in (firsts, laters, laters):
            begun = time.process_time()
            chipfire.random_recurrent(grid, turn)
            times.append(time.process_time() - begun)
    return f"| {side:,} by {side:,} | {min(firsts) * 1e3:.1f} | {min(laters) * 1e3:.1f} |"


def main():
    words = frame.parser(__doc__, turns=3)
    words.add_argument("--side", action="append", type=int)
    asked = frame.read_words(words)
    plain = library.loaded(frame.compiled(library.COMPILE, "library/plain.c", "libplain.so"))
    os.environ.pop("CHIPFIRE", None)
    chipfire.library.find_program = lambda: asked.program
    print(
        f"| A drop, us, and to C | {' | '.join(ASKED)} | C, us |\n|---|{'---:|' * (len(ASKED) + 1)}"
    )
    for side in asked.side or (64, 128, 256):
        print(row_of_chains(side, plain, asked.turns), flush=True)
    print("\n| `random_recurrent` | first, ms | later, ms |\n|---|---:|---:|")
    for side in (200, 1000):
        print(row_of_draws(side, asked.turns), flush=True)


if __name__ == "__main__":
    main()
