#!/usr/bin/env python3
"""Times the package for browsers and Node beside libchipfire.so, whose functions it has as WebAssembly.

    bench/library/web [--turns N] [--game NAME].. [--program FILE]

In each turn both play the same, one after the other: the library by ctypes, and the package in one process of Node.
They must return the same numbers. What counts is the best turn. A call makes its graph of the edges, too. What is
printed is Markdown, for docs/BENCHMARKS.md. By default FILE is the program that ./chipfire built; the library lies
beside it, and the package in the folder js there. The status is 1 if two results differ.
"""
import ctypes
import hashlib
import json
import os
import random
import subprocess
import time

import library  # (before the next, which has Python find that of tools/)
import frame
import inputs


class Game:
    """What is played on a grid: calls with chips, or with drops on them."""

    def __init__(self, side, chips, calls=1, drops=None):
        self.vertices, self.sink, edges, _ = inputs.grid(side, {})
        self.columns = [list(column) for column in zip(*edges)]
        self.chips, self.calls, self.drops = chips, calls, drops

    def text(self):
        """Returns what Node is asked for."""
        graph = {"vertices": self.vertices, "sink": self.sink, "columns": self.columns}
        return json.dumps({**graph, "chips": self.chips, "at": self.drops, "calls": self.calls})

    def numbers(self):
        """Returns the arrays that a call reads, and those that it writes."""
        chips = library.array(self.chips)
        if self.drops is None:
            return [library.array([])], [
                chips,
                *(library.array([0] * n) for n in (self.vertices, 1)),
            ]
        drops = [library.array(self.drops), library.array([1] * len(self.drops))]
        return drops, [chips, *(library.array([0] * len(self.drops)) for _ in range(3))]

    def by_library(self, lib):
        """Returns the seconds of the calls of the library, and a sum of the numbers of the last."""
        edges = [library.array(column) for column in self.columns]
        ends = library.WORD(self.vertices), library.WORD(self.sink)
        graph = [*ends, *library.words(*edges), library.WORD(library.LIMIT)]
        call = lib.chipfire_stabilize_all if self.drops is None else lib.chipfire_avalanches
        seconds, place = 0.0, library.WORD()
        for _ in range(self.calls):
            given, found = self.numbers()
            words = library.words(*given, *found)
            begun = time.perf_counter()
            status = call(*graph, *words, ctypes.byref(place))
            seconds += time.perf_counter() - begun
            if status != 0:
                frame.stop(f"the library returns fault {status}")
        total = hashlib.sha256()
        for memory, _ in found[: 2 if self.drops is None else 4]:
            total.update(bytes(memory))
        return seconds, total.hexdigest()


def heap(side, chips):
    start = [0] * (side * side + 1)
    start[side * side // 2] = chips
    return Game(side, start)


def dropped(side, drops):
    draw = random.Random("web: drops")
    return Game(
        side, [3] * (side * side) + [0], drops=[draw.randrange(side * side) for _ in range(drops)]
    )


def called(side, calls):
    draw = random.Random("web: calls")
    return Game(side, [draw.randint(0, 7) for _ in range(side * side)] + [0], calls=calls)


#: What is timed, and what it is called.
GAMES = {
    "255 by 255 squares, 2^17 chips in the middle": lambda: heap(255, 2**17),
    "60 by 60 squares, 100,000 drops": lambda: dropped(60, 100_000),
    "10 by 10 squares, a call": lambda: called(10, 2000),
}


def by_node(node, text):
    """Returns the seconds of the calls of the package, and a sum of the numbers of the last."""
    node.stdin.write(f"{text}\n")
    node.stdin.flush()
    reply = json.loads(node.stdout.readline())
    return reply["seconds"], reply["sum"]


def row(name, lib, node, turns):
    """Returns the row of a game."""
    game = GAMES[name]()
    text, least = game.text(), [float("inf")] * 2
    for _ in range(turns):
        results = game.by_library(lib), by_node(node, text)
        least = [min(before, seconds) for before, (seconds, _) in zip(least, results)]
        if results[0][1] != results[1][1]:
            frame.stop(f"{name}: library and package return other numbers")
    cells = [f"{1000 * it / game.calls:,.3f} ms" for it in least]
    return f"| {' | '.join([name, *cells, f'{least[1] / least[0]:.2f}'])} |"


def main():
    words = frame.parser(__doc__, turns=5)
    words.add_argument("--game", action="append", choices=GAMES)
    asked = frame.read_words(words)
    folder = os.path.dirname(asked.program)
    package = f"{folder}/js/chipfire.js"
    if not os.path.isfile(package):
        frame.stop(f"{package} is not there: tools/webassembly.py makes it")
    lib = library.loaded(f"{folder}/libchipfire.so")
    script = ["node", f"{frame.BENCH}/library/web.mjs", f"file://{package}"]
    print("| A call | library | package in Node | package : library |\n|---|---:|---:|---:|")
    pipes = {"stdin": subprocess.PIPE, "stdout": subprocess.PIPE, "encoding": "utf-8"}
    with subprocess.Popen(script, **pipes) as node:
        for name in asked.game or GAMES:
            print(row(name, lib, node, asked.turns), flush=True)


if __name__ == "__main__":
    main()
