#!/usr/bin/env python3
"""Times chipfire's Python package beside SageMath on the same questions, and compares their results.

    sage -python bench/sagemath.py [--turns N]

What counts is the least time of N turns (3 by default), in seconds of processors, the program's among them, so a busy
machine changes little. Each turn makes its graph anew, since Sage keeps what it has found. What is printed is Markdown,
for docs/BENCHMARKS.md. The status is 1 if two results differ.
"""
import os
import platform

import frame  # (it has Python find the next)
import chipfire
from sage.all import SandpileConfig, sandpiles, version


def numbers(graph, configuration):
    """Returns the chips of a configuration of chipfire as Sage lists them: without the sink."""
    return [configuration[vertex] for vertex in range(graph.vertices - 1)]


def identity(side):
    graph = chipfire.grid(side, side)
    return numbers(graph, chipfire.identity(graph))


def stabilized(side, chips):
    graph = chipfire.grid(side, side)
    report = chipfire.plain(graph, {side * side // 2: chips})
    return numbers(graph, report.configuration), list(report.fired[:-1])


def stabilized_by_sage(side, chips):
    pile = sandpiles.Grid(side, side)
    middle = (side // 2 + 1, side // 2 + 1)
    heap = SandpileConfig(pile, {it: chips * (it == middle) for it in pile.nonsink_vertices()})
    stable, fired = heap.stabilize(True)
    return stable.values(), fired.values()


def factors_by_sage(side):
    return tuple(it for it in sandpiles.Grid(side, side).invariant_factors() if it > 1)


#: What is asked, and the calls of chipfire and of Sage that return it.
QUESTIONS = {
    "the identity of 30 by 30 squares": (
        lambda: identity(30),
        lambda: sandpiles.Grid(30, 30).identity().values(),
    ),
    "the invariant factors of 20 by 20 squares": (
        lambda: chipfire.invariant_factors(chipfire.grid(20, 20)),
        lambda: factors_by_sage(20),
    ),
    "63 by 63 squares, 2^13 in the middle": (
        lambda: stabilized(63, 2**13),
        lambda: stabilized_by_sage(63, 2**13),
    ),
}


def timed(ask):
    """Returns a result, and the seconds of processors that it took."""
    before = sum(os.times()[:4])
    result = ask()
    return result, sum(os.times()[:4]) - before


def main():
    turns = frame.read_words(frame.parser(__doc__, turns=3)).turns
    print(
        f"{version()}, chipfire {chipfire.__version__}, {platform.processor() or platform.machine()}\n"
    )
    print("| Question | chipfire | SageMath | ratio |\n|---|---:|---:|---:|")
    for name, asks in QUESTIONS.items():
        least = []
        for ask in asks:
            taken = [timed(ask) for _ in range(turns)]
            least.append((taken[0][0], min(seconds for _, seconds in taken)))
        (ours, seconds), (theirs, others) = least
        print(f"| {name} | {seconds:.2f} s | {others:.2f} s | {seconds / others:.3f} |", flush=True)
        if ours != theirs:
            frame.stop(f"{name}: the results differ")


if __name__ == "__main__":
    main()
