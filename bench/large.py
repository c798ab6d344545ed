#!/usr/bin/env python3
"""Times `chipfire plain --large` beside the C++ player of plain.cpp, which plays by even and odd rounds with its limits
lifted, on grids that dissipate chips at their borders.

    bench/large [--turns N] [--game NAME].. [--program FILE] [--patience SECONDS] [--guesses]

Each game is played by both once a turn, one after the other. What counts is the least time of a whole process, and the
most memory that one had. The reports must be the same to the byte. A player that is not done in SECONDS (300 by
default) is stopped, and plays that game no more. `read` plays nothing: there is one chip. `--guesses` plays games
(peak-1000 by default) with guesses instead, beside `check`, `verify` and the play without one: with true counts, and
with counts that are off by one at one vertex in a hundred. What is printed is Markdown, for docs/BENCHMARKS.md; the
files are made anew in target/bench. By default FILE is the program that ./chipfire built. The status is 1 where a
player failed or two reports differ.
"""
import json
import math
import random

import frame
from frame import ROOM, bytes_of, stop

COMPILE = ["g++", "-O3", "-std=c++17", "-DLARGE"]

# The side of each grid, and how many chips lie on each vertex and how many more in the middle.
GAMES = {
    "read": (1000, 0, 1),
    "peak-255": (255, 0, 2**17),
    "peak-511": (511, 0, 2**19),
    "four-511": (511, 4, 0),
    "peak-1000": (1000, 0, 2**16),
    "full-1000": (1000, 3, 1),
    "full-300": (300, 3, 100),
    "million": (1001, 0, 1_000_000),
}


def rows_of(side, line):
    """The edges out of a line of a grid, as text; the sink takes what has no neighbour."""
    sink = side * side
    for column in range(side):
        beside = [(line - 1, column), (line, column - 1), (line, column + 1), (line + 1, column)]
        inside = [a * side + b for a, b in beside if 0 <= a < side and 0 <= b < side]
        yield from (f"[{line * side + column},{head},1]" for head in inside)
        if len(inside) < 4:
            yield f"[{line * side + column},{sink},{4 - len(inside)}]"


def chips_of(side, each, middle):
    """The chips of each vertex that has some, in order."""
    for vertex in range(side * side):
        count = each + (middle if vertex == side // 2 * side + side // 2 else 0)
        if count:
            yield vertex, count


def write(name, side, each, middle):
    """Writes the files of a game."""
    sink = side * side
    with open(f"{ROOM}/{name}.json", "w", encoding="ascii") as file:
        file.write('{"edges":[')
        for line in range(side):
            file.write(("," if line else "") + ",".join(rows_of(side, line)))
        file.write(f'],"sink":{sink},"version":1,"vertices":{sink + 1}}}\n')
    with open(f"{ROOM}/{name}.csv", "w", encoding="ascii") as file:
        file.write("vertex,chips\n")
        file.writelines(f"{vertex},{count}\n" for vertex, count in chips_of(side, each, middle))


def play(words, out, patience):
    """The seconds and the megabytes of a command, its output into a file; None if it was stopped."""
    played = frame.play(words, out, patience)
    if played.status:
        stop(f"{' '.join(words)} failed")
    return None if played.status is None else (played.seconds, played.megabytes)


def best_of(players, turns, patience):
    """Of each player the least seconds and the most megabytes, or None where it was not done in time."""
    best = [(math.inf, 0.0)] * len(players)
    for _ in range(turns):
        for i, words in enumerate(players):
            played = best[i] and play(words, f"{ROOM}/large-{i}", patience)
            best[i] = played and (min(best[i][0], played[0]), max(best[i][1], played[1]))
        if all(best) and len({bytes_of(f"{ROOM}/large-{i}") for i in range(len(players))}) > 1:
            stop("the reports differ")
    return best


def shown(name, best):
    """The row of a game."""
    ours, rounds = best
    cells = [f"{ours[0]:.2f} s", f"{ours[1]:.0f} MB"] if ours else ["not done", ""]
    cells += [f"{rounds[0]:.2f} s", f"{rounds[1]:.0f} MB"] if rounds else ["not done", ""]
    cells.append(f"{ours[0] / rounds[0]:.3f}" if ours and rounds else "")
    return f"| {name} | {' | '.join(cells)} |"


def guessed(name, program, turns, patience):
    """The rows of a game with guesses: the command, its least seconds, and how often that is those of `check`."""
    files = [f"{ROOM}/{name}.json", f"{ROOM}/{name}.csv"]
    play([program, "plain", "--large", *files], f"{ROOM}/report.json", patience)
    fired, draw = json.loads(bytes_of(f"{ROOM}/report.json"))["fired"], random.Random(name)
    with open(f"{ROOM}/guess.csv", "w", encoding="ascii") as file:
        file.write("vertex,fired\n")
        for vertex, count in enumerate(fired[:-1]):
            by = draw.choice([-1, 1]) if draw.random() < 0.01 else 0
            file.write(f"{vertex},{max(count + by, 0)}\n")
    words = {"check": ["check", files[0]], "plain": ["plain", *files]}
    words |= {"true counts": [*words["plain"], "--guess", f"{ROOM}/report.json"]}
    words |= {"off by one": [*words["plain"], "--guess", f"{ROOM}/guess.csv"]}
    words |= {"verify": ["verify", *files, f"{ROOM}/report.json"]}
    least = dict.fromkeys(words, math.inf)
    for _ in range(turns):
        for what, command in words.items():
            seconds, _ = play([program, *command, "--large"], f"{ROOM}/result", patience) or (
                math.inf,
                0,
            )
            least[what] = min(least[what], seconds)
            is_report = command[0] == "plain" and seconds < math.inf
            if is_report and bytes_of(f"{ROOM}/result") != bytes_of(f"{ROOM}/report.json"):
                stop("the reports differ")
    for what, seconds in least.items():
        yield f"| {name} | {what} | {seconds:.2f} s | {seconds / least['check']:.2f} |"


def main():
    words = frame.parser(__doc__, turns=3)
    words.add_argument("--game", action="append", choices=GAMES)
    words.add_argument("--patience", type=float, default=300, metavar="SECONDS")
    words.add_argument("--guesses", action="store_true")
    asked = frame.read_words(words)
    if asked.guesses:
        print("| Game | Command | Time | to check |\n|---|---|---:|---:|")
        for name in asked.game or ["peak-1000"]:
            write(name, *GAMES[name])
            print(*guessed(name, asked.program, asked.turns, asked.patience), sep="\n", flush=True)
        return
    frame.compiled(COMPILE, "plain.cpp", "large-plain")
    print(
        "| Game | chipfire | memory | C++ rounds | memory | to rounds |\n|---|---:|---:|---:|---:|---:|"
    )
    for name in asked.game or GAMES:
        write(name, *GAMES[name])
        files = [f"{ROOM}/{name}.json", f"{ROOM}/{name}.csv"]
        ours = [asked.program, "plain", "--large", *files]
        rounds = [f"{ROOM}/large-plain", "rounds", *files]
        print(shown(name, best_of([ours, rounds], asked.turns, asked.patience)), flush=True)


if __name__ == "__main__":
    main()
