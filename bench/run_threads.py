#!/usr/bin/env python3
"""Times `chipfire run` and `chipfire run --dealt` beside C++ programs of ours that play by the same steps: crew.cpp,
whose threads share the actors by such a queue, and net.cpp, whose threads each keep their own.

    bench/run-threads [--turns N] [--workers W].. [--ring R].. [--game G].. [--busy B] [--program FILE] [--seed S]

Each game is played by each program once a turn, one after the other, so that all have their share of a busy machine;
what counts is the least time of a whole process, from its start to its end. Every report must be that of `chipfire
plain`, to the byte. One worker, and rings of more than one cell, play the large games only dealt out, and so does
everyone the huge one: with the queue that would take minutes. At the end 64 workers share two processors. With --busy
B processes that take a processor each run beside all this. What is printed is Markdown, for docs/BENCHMARKS.md;
the files are made anew in target/bench. By default FILE is the program that ./chipfire built. The status is 1 where a
program failed or a report differs.
"""
import contextlib
import math
import random
import subprocess
import sys
import time

import frame
from frame import ROOM, stop
from inputs import grid, grid_six, random_graph, write

COMPILE = ["g++", "-O2", "-std=c++17", "-pthread", "-DLARGE"]
SIDE, LARGE_SIDE, HUGE_SIDE, VERTICES, CROWDED_SIDE = 31, 63, 255, 1024, 8
GAMES = {
    "run-six": lambda _: grid(SIDE, {v: 6 for v in range(SIDE * SIDE)}),
    "run-peak": lambda _: grid(SIDE, {SIDE * SIDE // 2: 2**12}),
    "run-random": lambda draw: random_graph(draw, VERTICES),
    "grid-six": grid_six,
    "large-peak": lambda _: grid(LARGE_SIDE, {LARGE_SIDE * LARGE_SIDE // 2: 2**14}),
    "random-graph": random_graph,
    "huge-six": lambda _: grid(HUGE_SIDE, {v: 6 for v in range(HUGE_SIDE * HUGE_SIDE)}),
}
#: The games that one worker, and rings of more than one cell, play only dealt out.
LARGE = {"grid-six", "large-peak", "random-graph"}
LIKES = ["crew", "net"]
CROWD = ["taskset", "-c", "0,1"]
BUSY = [sys.executable, "-c", "while True: pass"]


@contextlib.contextmanager
def beside(count):
    """Runs `count` processes that take a processor each."""
    busy = [subprocess.Popen(BUSY) for _ in range(count)]
    try:
        yield
    finally:
        for process in busy:
            process.kill()


def play(words):
    """What a command writes, and its seconds."""
    begun = time.perf_counter()
    process = subprocess.run(words, stdout=subprocess.PIPE, check=False)
    seconds = time.perf_counter() - begun
    if process.returncode:
        stop(f"{' '.join(words)} ended with status {process.returncode}")
    return process.stdout, seconds


def least_of(commands, report, turns):
    """Of each command the least seconds, once all have written the report."""
    least = [math.inf] * len(commands)
    for _ in range(turns):
        for i, words in enumerate(commands):
            out, seconds = play(words)
            if out != report:
                stop(f"{' '.join(words)} has another report than chipfire plain")
            least[i] = min(least[i], seconds)
    return least


def in_ms(seconds):
    return f"{seconds * 1000:,.0f} ms"


def compared(pair):
    """Our time, that of C++, and how they compare."""
    return [*map(in_ms, pair), f"{pair[0] / pair[1]:.2f}"]


def commands(program, files, ring, workers):
    """The programs with all their words: by a queue, in chipfire and in C++, and dealt out, in both."""
    ours = [program, "run", "--large", *files, "--ring", str(ring), "--workers", str(workers)]
    by_queue, dealt = ([f"{ROOM}/{name}", *files, str(ring), str(workers)] for name in LIKES)
    return [ours, by_queue, [*ours, "--dealt"], dealt]


def crowd(program, turns):
    """64 workers on two processors."""
    write(ROOM, "run-crowd", *grid(CROWDED_SIDE, {v: 6 for v in range(CROWDED_SIDE**2)}))
    files = [f"{ROOM}/run-crowd.json", f"{ROOM}/run-crowd.csv"]
    report, _ = play([program, "plain", *files])
    shown = map(
        in_ms, least_of([CROWD + it for it in commands(program, files, 1, 64)], report, turns)
    )
    print(
        f"\n64 workers on two processors, the {CROWDED_SIDE} by {CROWDED_SIDE} grid with 6 chips each:",
        end=" ",
    )
    print("{}, in C++ {}; dealt out {}, in C++ {}.".format(*shown))


def row(program, game, report, ring, workers, turns):
    """A row of the table."""
    files = [f"{ROOM}/{game}.json", f"{ROOM}/{game}.csv"]
    words = commands(program, files, ring, workers)
    if game.startswith("huge-") or game in LARGE and (workers == 1 or ring > 1):
        return ["", "", "", *compared(least_of(words[2:], report, turns)), ""]
    least = least_of(words, report, turns)
    return [*compared(least[:2]), *compared(least[2:]), f"{least[2] / least[0]:.2f}"]


def play_all(words, program):
    """Plays the games that the words name, and the crowd."""
    heads = [
        "Ring",
        "Workers",
        "run",
        "C++",
        "run to C++",
        "run --dealt",
        "C++",
        "--dealt to C++",
        "--dealt to run",
    ]
    print(f"| Game | {' | '.join(heads)} |")
    print(f"| --- |{' ---: |' * len(heads)}")
    for game in words.game or GAMES:
        write(ROOM, game, *GAMES[game](random.Random(f"{game} {words.seed}")))
        report, _ = play([program, "plain", "--large", f"{ROOM}/{game}.json", f"{ROOM}/{game}.csv"])
        for ring in words.ring or [1, 64]:
            for workers in words.workers or [1, 2, 4]:
                shown = row(program, game, report, ring, workers, words.turns)
                print(f"| {game} | {ring} | {workers} | {' | '.join(shown)} |", flush=True)
    crowd(program, words.turns)


def main():
    words = frame.parser(__doc__, turns=5, program=None)
    words.add_argument("--workers", action="append", type=int)
    words.add_argument("--ring", action="append", type=int)
    words.add_argument("--game", action="append", choices=list(GAMES))
    words.add_argument("--busy", type=int, default=0)
    words.add_argument("--seed", default="1")
    words = frame.read_words(words)

    program = words.program or frame.built_program()
    for name in LIKES:
        frame.compiled(COMPILE, f"{name}.cpp", name)
    with beside(words.busy):
        play_all(words, program)


if __name__ == "__main__":
    main()
