#!/usr/bin/env python3
"""Times the calls of libchipfire.so on recurrent configurations, each beside stabilizing by the same library.

    bench/library/groups [--turns N] [--rows N] [--side N].. [--program FILE]

In each turn both are called, one after the other; what counts is the least time of the processor of each. What is printed
is Markdown, for docs/BENCHMARKS.md, with a row for each of these:

    are_recurrent   of N configurations, drawn with a chip less than the degree at most, beside `stabilize_all` of the same
                    with the chips of the burning script; on 10 by 10 squares, and on directed graphs whose least script
                    has many firings, which the call finds, too
    burning         the least script of these graphs, beside the play that finds it: of a chip less on each vertex than
                    edges lead in
    identity        of squares of these sides, 200 and 1,000 if none is said, beside the two plays that find it: of twice
                    the maximal stable configuration, and of that less what came of it

By default FILE is the program that ./chipfire built; the library lies beside it. The status is 1 if two results differ.
"""
import ctypes
import os
import random
import time
from array import array

import library  # (before the next, which has Python find that of tools/)
import frame
import inputs
import plays

#: The sides of the squares whose identities are found.
SIDES = (200, 1000)


class Calls:
    """The calls on a graph."""

    def __init__(self, lib, vertices, sink, edges):
        self.lib, self.vertices, self.sink = lib, vertices, sink
        self.degrees, self.entering = self.zeros(), self.zeros()
        for tail, head, mult in edges:
            self.degrees[tail] += mult
            self.entering[head] += mult
        self.columns = [array("Q", column) for column in zip(*edges)]
        self.place = library.WORD()

    def call(self, name, *arrays, limit=()):
        """Makes a call, and returns its seconds."""
        arguments = [array_of(it) for it in (*self.columns, *arrays)]
        words = [word for it in arguments for word in it]
        graph = [library.WORD(self.vertices), library.WORD(self.sink), *words[:6]]
        limits = [library.WORD(it) for it in limit]
        begun = time.process_time()
        function = getattr(self.lib, f"chipfire_{name}")
        status = function(*graph, *limits, *words[6:], ctypes.byref(self.place))
        seconds = time.process_time() - begun
        if status:
            frame.stop(f"{name}: fault {status}")
        return seconds

    def zeros(self, rows=1):
        return array("Q", [0]) * (rows * self.vertices)

    def stabilized(self, chips, rows=1):
        """Stabilizes rows of chips where they stand, and returns the seconds."""
        counts = [array("Q"), chips, self.zeros(rows), array("Q", [0]) * rows]
        return self.call("stabilize_all", *counts, limit=(library.LIMIT,))

    def without_sink(self, chips):
        chips[self.sink :: self.vertices] = array("Q", [0]) * (len(chips) // self.vertices)
        return chips


def array_of(numbers):
    """The words of a call for an array."""
    at, length = numbers.buffer_info()
    return ctypes.c_void_p(at), ctypes.c_size_t(length)


def of_flags(calls, rows, fuel):
    """Returns the seconds of asking which rows are recurrent, and of stabilizing them with the script's chips."""
    count = len(rows) // calls.vertices
    flags = array("Q", [0]) * count
    asked = calls.call("are_recurrent", rows, flags)
    burnt = array("Q", map(int.__add__, rows, fuel * count))
    played = calls.stabilized(burnt, count)
    calls.without_sink(burnt)
    width = calls.vertices
    same = [burnt[at : at + width] == rows[at : at + width] for at in range(0, len(rows), width)]
    if [*map(bool, flags)] != same:
        frame.stop("are_recurrent and the plays differ")
    return asked, played


def of_script(calls):
    """Returns the seconds of finding the burning script, and of the play."""
    asked = calls.call("burning", calls.zeros(), calls.zeros())
    start = array("Q", [max(it - 1, 0) for it in calls.entering])
    return asked, calls.stabilized(start)


def of_identity(calls):
    """Returns the seconds of finding the identity, and of the two plays."""
    found = calls.zeros()
    asked = calls.call("identity", found)
    twice = array("Q", [2 * max(degree - 1, 0) for degree in calls.degrees])
    left = twice[:]
    played = calls.stabilized(left)
    calls.without_sink(left)
    identity = array("Q", map(int.__sub__, twice, left))
    played += calls.stabilized(identity)
    if calls.without_sink(identity) != found:
        frame.stop("the identity and the two plays differ")
    return asked, played


def uphill(length):
    """A chain that sends two chips back for one that it sends on: its script has 2^length firings."""
    edges = [(v, v + 1, 1) for v in range(length)] + [(v, v - 1, 2) for v in range(1, length)]
    return length + 1, length, edges


def graphs():
    """The graphs on which rows are asked about: their names, and what they are made of."""
    yield "10 by 10", inputs.grid(10, {})[:3]
    yield "a chain uphill of 16", uphill(16)
    yield "a chain uphill of 24", uphill(24)
    yield "a ring of 4,000, one way", plays.ring_one_way(random.Random(1))[:3]
    yield "4,096 vertices, directed, drawn", inputs.random_graph(random.Random(1))[:3]


def row(name, turns, timed):
    """Prints the row of what is timed: the least seconds of both, and their ratio."""
    least = [min(pair) for pair in zip(*(timed() for _ in range(turns)))]
    cells = [name, *(f"{it * 1000:.2f} ms" for it in least), f"{least[0] / least[1]:.2f}"]
    print(f"| {' | '.join(cells)} |", flush=True)


def on_graphs(lib, turns, rows):
    """Prints the rows of flags and scripts."""
    for name, graph in graphs():
        draw, calls = random.Random(name), Calls(lib, *graph)
        script, fuel = calls.zeros(), calls.zeros()
        calls.call("burning", script, fuel)
        count = rows if calls.vertices < 1000 else max(rows // 1000, 1)
        drawn = [draw.randrange(max(degree, 1)) for _ in range(count) for degree in calls.degrees]
        chips = calls.without_sink(array("Q", drawn))
        row(f"are_recurrent of {count:,}, {name}", turns, lambda: of_flags(calls, chips, fuel))
        row(f"burning of {sum(script):,} firings, {name}", turns, lambda: of_script(calls))


def main():
    words = frame.parser(__doc__, turns=5)
    words.add_argument("--rows", type=int, default=10_000)
    words.add_argument("--side", type=int, action="append")
    asked = frame.read_words(words)
    lib = library.loaded(f"{os.path.dirname(asked.program)}/libchipfire.so")
    for name in ("burning", "are_recurrent", "identity"):
        getattr(lib, f"chipfire_{name}").restype = library.WORD
    print("| A call | the call | plays | call : plays |\n|---|---:|---:|---:|")
    on_graphs(lib, asked.turns, asked.rows)
    for side in asked.side or SIDES:
        calls = Calls(lib, *inputs.grid(side, {})[:3])
        row(f"identity of {side:,} by {side:,}", asked.turns, lambda: of_identity(calls))


if __name__ == "__main__":
    main()
