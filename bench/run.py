#!/usr/bin/env python3
"""Times chipfire beside the C++ players of plain.cpp, on the same games in the same run, and compares their reports.

    bench/run [--turns N] [--game NAME].. [--growth | --paths] [--program FILE] [--rounds FILE] [--seed S]
              [--patience SECONDS]

Each game is played by each player once a turn, the players one after the other, so that all have their share of a busy
machine; what counts is the least time of a whole process, from its start to its end. Every report must be the same to
the byte. A player that is not done in SECONDS (10 by default) is stopped, and plays that game no more. `--growth` plays
heaps in the middle of grids of several sides and sizes instead, and `--paths` those of 1,500 to 8,000 chips in the
middle of two paths, of which it shows the three that take chipfire longest. What is printed is Markdown, for
docs/BENCHMARKS.md; the files are made anew in target/bench. By default FILE is the program that ./chipfire built. The
one of `--rounds` plays by rounds alone: a copy of the program in which FIRST_VISITS of crates/chip_fire/src/tuning.rt is
u64::MAX. The status is 1 where a player failed or two reports differ.
"""
import os
import platform
import subprocess

import frame
import inputs
from frame import ROOM, ROOT, bytes_of, stop

COMPILE = ["g++", "-O3", "-std=c++17"]
PLAYERS = ["list", "passes", "rounds"]
# Games that are also played with a limit that stops many of their vertices.
LIMITS = {"grid-six": [100, 300], "star": [200_000], "random-graph": [200_000, 500_000, 1_000_000]}
GROWTH = [(15, 20), (31, 20), (63, 20), (63, 25), (63, 30), (63, 40)]
PATHS = [2047, 4095]
HEAPS = range(1500, 8001, 50)


def least_times(commands, turns, patience):
    """The least seconds of each command over the turns. All have to write the same, with the same status.

    None stands for a command that was stopped."""
    least = [float("inf")] * len(commands)
    first = None
    for _ in range(turns):
        for i, words in enumerate(commands):
            if least[i] is None:
                continue
            out = f"{ROOM}/output"
            played = frame.play(words, out, patience)
            if played.status is None:
                least[i] = None
                continue
            least[i] = min(least[i], played.seconds)
            came = (played.status, bytes_of(out))
            first = first or came
            if played.status not in (0, 2):
                stop(f"{' '.join(words)} ended with status {played.status}")
            if came != first:
                stop(f"{' '.join(words)} and {' '.join(commands[0])} have different results")
    return least


def line(*cells):
    print(f"| {' | '.join(cells)} |", flush=True)


def in_ms(seconds):
    return "not done" if seconds is None else f"{seconds * 1000:.1f} ms"


def ratio(ours, other):
    return "" if ours is None or other is None else f"{ours / other:.3f}"


def said_by(*words):
    """The first line that a command prints."""
    return subprocess.run(words, stdout=subprocess.PIPE, check=True, text=True).stdout.splitlines()[
        0
    ]


def cpu():
    with open("/proc/cpuinfo", encoding="utf-8") as file:
        found = [it.partition(":")[2].strip() for it in file if it.startswith("model name")]
    return found[0] if found else platform.machine()


def play_all(name, game, limit, words, program):
    """Plays a game by each player, and prints its line of the table."""
    ours = [program, "plain", *game] + (["--limit", str(limit)] if limit else [])
    theirs = [[f"{ROOM}/plain", way, *game] + ([str(limit)] if limit else []) for way in PLAYERS]
    rounds = [[os.path.realpath(words.rounds), *ours[1:]]] if words.rounds else []
    times = least_times([ours, *rounds, *theirs], words.turns, words.patience)
    line(
        f"{name}, limit {limit:,}" if limit else name,
        *map(in_ms, times),
        *(ratio(times[0], it) for it in times[1:]),
    )


def grown():
    """Writes grids of several sides with heaps of several sizes in their middle, and names them."""
    for side, power in GROWTH:
        name = f"grid of {side} by {side} with 2^{power}"
        inputs.write(ROOM, name, *inputs.grid(side, {side * side // 2: 2**power}))
        yield name


def slowest_heaps(words, program):
    """Writes heaps on paths, and names the three of each path that take the program longest."""
    for vertices in PATHS:
        seconds = {}
        for chips in HEAPS:
            name = f"path of {vertices:,} with {chips:,}"
            inputs.write(ROOM, name, *inputs.path_of(vertices, chips))
            command = [program, "plain", f"{ROOM}/{name}.json", f"{ROOM}/{name}.csv"]
            [seconds[name]] = least_times([command], words.turns, words.patience)
        yield from sorted(seconds, key=lambda it: seconds[it] or float("inf"))[-3:]


def written(words, program):
    """Writes the games that are asked for, and returns their names."""
    if words.growth:
        return [*grown()]
    if words.paths:
        return [*slowest_heaps(words, program)]
    command = [f"{frame.BENCH}/inputs.py", ROOM, words.seed]
    ran = subprocess.run(command, stdout=subprocess.PIPE, check=True, text=True)
    return ["start-up", *(it for it in ran.stdout.split() if not words.game or it in words.game)]


def main():
    words = frame.parser(__doc__, turns=7, program=None)
    words.add_argument(
        "--game",
        action="append",
        help="one of the games that bench/inputs.py names; may be repeated",
    )
    words.add_argument("--growth", action="store_true")
    words.add_argument("--paths", action="store_true")
    words.add_argument("--rounds")
    words.add_argument("--seed", default="1")
    words.add_argument("--patience", type=float, default=10)
    words = frame.read_words(words)

    program = words.program or frame.built_program()
    frame.compiled(COMPILE, "plain.cpp", "plain")
    names = written(words, program)

    print(f"{cpu()}, {os.cpu_count()} processors; {said_by(COMPILE[0], '--version')},", end=" ")
    print(f"`{' '.join(COMPILE[1:])}`; {said_by('rt', 'version')}.")
    print(f"The least of {words.turns} turns of the whole process.\n")
    players = (["rounds"] if words.rounds else []) + [f"C++ {it}" for it in PLAYERS]
    line("Game", "chipfire", *players, *(f"to {it}" for it in players))
    line("---", *["---:"] * (1 + 2 * len(players)))
    for name in names:
        game = f"{ROOT}/examples/triangle/graph.json", f"{ROOT}/examples/triangle/chips.csv"
        if name != "start-up":
            game = f"{ROOM}/{name}.json", f"{ROOM}/{name}.csv"
        for limit in [None, *LIMITS.get(name, [])]:
            play_all(name, game, limit, words, program)


if __name__ == "__main__":
    main()
