#!/usr/bin/env python3
"""Times `chipfire avalanches` beside a loop in C++ (plain.cpp): chips dropped at random, one after another.

    bench/drops [--turns N] [--game NAME].. [--program FILE] [--python]

Each game begins with as many chips on each vertex as it can keep, so it is recurrent from the start. Both play the same
drops once a turn, one after the other, and must write the same rows, to the byte. What counts is the least time of a
whole process. `read` is the same with all drops on the sink: they are read and have their rows, and nothing is played.
`--python` times `chipfire.drops` instead, from the vertices to the columns. What is printed is Markdown, for
docs/BENCHMARKS.md; the files are made anew in target/bench. By default FILE is the program that ./chipfire built. The
status is 1 where a player failed or two results differ.
"""
import math
import random
import subprocess
import time

import frame
import inputs
from frame import ROOM, bytes_of, stop

COMPILE = ["g++", "-O3", "-std=c++17", "-DLARGE"]

# The graph of each game, and how many chips are dropped.
GAMES = {
    "20 by 20": (lambda: inputs.grid(20, {}), 1_000_000),
    "60 by 60": (lambda: inputs.grid(60, {}), 1_000_000),
    "255 by 255": (lambda: inputs.grid(255, {}), 100_000),
    "random graph": (lambda: inputs.random_graph(random.Random("drops")), 1_000_000),
}


def write(name, graph, count):
    """Writes the files of a game: its chips, its drops, and as many on the sink."""
    vertices, sink, edges, _ = graph
    kept, draw = [-1] * vertices, random.Random(f"drops on {name}")
    for tail, _, mult in edges:
        kept[tail] += mult
    rows = {"chips": enumerate(kept[:sink] + [0] + kept[sink + 1 :])}
    inner = [v for v in range(vertices) if v != sink]
    rows |= {
        "drops": ((v, 1) for v in draw.choices(inner, k=count)),
        "read": ((sink, 1) for _ in range(count)),
    }
    inputs.write_graph(f"{ROOM}/graph.json", vertices, sink, edges)
    for what, them in rows.items():
        inputs.write_rows(f"{ROOM}/{what}.csv", "vertex,chips", them)


def play(words, out):
    """The seconds of a command, its output into a file."""
    with open(out, "wb") as file:
        begun = time.perf_counter()
        if subprocess.run(words, stdout=file, check=False).returncode:
            stop(f"{' '.join(words)} failed")
        return time.perf_counter() - begun


def least_times(program, turns):
    """The least seconds of the program and of C++, each with the drops and with those on the sink."""
    files = [f"{ROOM}/graph.json", f"{ROOM}/chips.csv"]
    players = [[program, "avalanches", "--large", *files], [f"{ROOM}/drops-plain", "drops", *files]]
    commands = [[*player, f"{ROOM}/{what}.csv"] for what in ("drops", "read") for player in players]
    least = [math.inf] * len(commands)
    for _ in range(turns):
        for i, words in enumerate(commands):
            least[i] = min(least[i], play(words, f"{ROOM}/rows-{i}"))
        if any(bytes_of(f"{ROOM}/rows-{i}") != bytes_of(f"{ROOM}/rows-{i + 1}") for i in (0, 2)):
            stop("the rows differ")
    return least


def in_python(program, name, turns):
    """The row of a game that Python plays."""
    import chipfire

    graph, count = chipfire.Graph.read(f"{ROOM}/graph.json"), GAMES[name][1]
    drops = [
        int(row.partition(",")[0])
        for row in bytes_of(f"{ROOM}/drops.csv").decode().splitlines()[1:]
    ]
    times = []
    for _ in range(turns):
        begun = time.perf_counter()
        chipfire.drops(graph, f"{ROOM}/chips.csv", drops, program=program)
        times.append(time.perf_counter() - begun)
    return f"| {name} | {count:,} | {min(times):.2f} s | {count / min(times):,.0f} |"


def shown(name, times):
    """The row of a game."""
    ours, loop, our_read, its_read = times
    count, cells = GAMES[name][1], [f"{it:.3f} s" for it in times]
    parts = [
        f"{count / ours:,.0f}",
        f"{ours / loop:.2f}",
        f"{(ours - our_read) / (loop - its_read):.2f}",
    ]
    return f"| {name} | {count:,} | {' | '.join(cells)} | {' | '.join(parts)} |"


def main():
    words = frame.parser(__doc__, turns=5)
    words.add_argument("--game", action="append", choices=GAMES)
    words.add_argument("--python", action="store_true")
    asked = frame.read_words(words)
    frame.compiled(COMPILE, "plain.cpp", "drops-plain")
    if asked.python:
        print("| Game | Drops | Time | Drops a second |\n|---|---:|---:|---:|")
    else:
        print(
            "| Game | Drops | chipfire | C++ | chipfire, read | C++, read | Drops a second | to C++ | without read |"
        )
        print("|---|---:|---:|---:|---:|---:|---:|---:|---:|")
    for name in asked.game or GAMES:
        graph, count = GAMES[name]
        write(name, graph(), count)
        if asked.python:
            print(in_python(asked.program, name, asked.turns), flush=True)
        else:
            print(shown(name, least_times(asked.program, asked.turns)), flush=True)


if __name__ == "__main__":
    main()
