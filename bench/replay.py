#!/usr/bin/env python3
"""Times `chipfire replay` on recorded runs of up to a million rows, and checks that the result fits the run.

    bench/replay [--turns N] [--program FILE] [--seed S]

The runs are those of bench/traces.py. What counts is the least time of a whole process. The lines that come must be the
firings of each vertex in its own order. What is printed is Markdown, for docs/BENCHMARKS.md. By default FILE is the
program that ./chipfire built. The status is 1 where the program failed or its result does not fit.
"""
import subprocess
import time

import frame
from frame import ROOM


def firings(lines, separator, vertex, count):
    """How often each vertex fired at a time, in its order."""
    found = {}
    for line in lines:
        fields = line.split(separator)
        if "fire" in fields:
            found.setdefault(fields[vertex], []).append(fields[count])
    return found


def main():
    words = frame.parser(__doc__, turns=5, program=frame.STARTER)
    words.add_argument("--seed", default="1")
    words = frame.read_words(words)
    ran = subprocess.run(
        [f"{frame.BENCH}/traces.py", ROOM, words.seed],
        stdout=subprocess.PIPE,
        check=True,
        text=True,
    )
    print("| Run | Rows | Time | For each row |\n| --- | ---: | ---: | ---: |")
    for name, rows in map(str.split, ran.stdout.splitlines()):
        files = [f"{ROOM}/{name}.json", f"{ROOM}/{name}.csv", f"{ROOM}/{name}.trace.csv"]
        least = float("inf")
        for _ in range(words.turns):
            begun = time.perf_counter()
            result = subprocess.run(
                [words.program, "replay", *files], stdout=subprocess.PIPE, check=True, text=True
            ).stdout
            least = min(least, time.perf_counter() - begun)
        with open(files[2], encoding="ascii") as file:
            recorded = firings(file.read().splitlines(), ",", 0, 3)
        if firings(result.splitlines(), " ", 1, 2) != recorded:
            frame.stop(f"{name}: the result does not fit the run")
        print(
            f"| {name} | {int(rows):,} | {least * 1000:.0f} ms | {least / int(rows) * 1e9:.0f} ns |",
            flush=True,
        )


if __name__ == "__main__":
    main()
