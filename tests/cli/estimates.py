"""Games whose counts are searched for long: by how many chips a try is off, as `--progress` reports it.

A line comes once a second at most. So each program is stopped for a second time and again, and reports whenever it goes
on. Each search lasts some ten times as long as a program runs between two stops. The chips are at least 1 and at most
those of the game.
"""
import functools
import json
import os
import re
import signal
import subprocess
import tempfile
import time

SECONDS, RUN, STOPPED, TRIES = 120, 0.02, 1.02, 5
GUESSING = re.compile(rb"chipfire: progress: guessing, [0-9]+ steps, this try is off by ([0-9]+) chips\n")


def grid(rows, columns):
    """The edges of a grid that dissipates chips at its border, to the sink."""
    sink, edges = rows * columns, []
    for v in range(sink):
        row, column = divmod(v, columns)
        for a, b in (row - 1, column), (row, column - 1), (row, column + 1), (row + 1, column):
            edges.append([v, columns * a + b if 0 <= a < rows and 0 <= b < columns else sink, 1])
    return edges, sink


#: The rows and columns of a grid, and its chips.
GAMES = {
    "a heap on a grid": ((250, 250), {125 * 251: 2**17}),
    "four on each square": ((150, 150), {v: 4 for v in range(150 * 150)}),
    "two heaps on a strip": ((60, 2000), {30 * 2000 + 500: 2**18, 30 * 2000 + 1500: 2**18}),
}


def write(game, room):
    """Writes the files of a game."""
    sides, chips = game
    edges, sink = grid(*sides)
    os.mkdir(room)
    with open(f"{room}/graph.json", "w", encoding="ascii") as file:
        json.dump({"edges": edges, "sink": sink, "version": 1, "vertices": sink + 1}, file)
    with open(f"{room}/chips.csv", "w", encoding="ascii") as file:
        file.write("vertex,chips\n" + "".join(f"{v},{count}\n" for v, count in chips.items()))


def slowly(processes):
    """Stops the processes for a second time and again until they end."""
    until = time.monotonic() + SECONDS
    while any(process.poll() is None for process in processes) and time.monotonic() < until:
        for how, seconds in (signal.SIGSTOP, STOPPED), (signal.SIGCONT, RUN):
            for process in processes:
                process.send_signal(how)
            time.sleep(seconds)


def progress(program):
    """What each game reports, and its status, by the names of the games."""
    words = [program, "plain", "graph.json", "chips.csv", "--large", "--progress"]
    how = {"stdout": subprocess.DEVNULL, "stderr": subprocess.PIPE}
    with tempfile.TemporaryDirectory(prefix="chipfire-estimates-") as room:
        rooms, said, statuses = {name: f"{room}/{number}" for number, name in enumerate(GAMES)}, {}, {}
        for name, folder in rooms.items():
            write(GAMES[name], folder)
        # (on a busy machine a search may end before its program is stopped)
        for _ in range(TRIES):
            left = [name for name in GAMES if not GUESSING.search(said.get(name, b""))]
            processes = {name: subprocess.Popen(words, cwd=rooms[name], **how) for name in left}
            slowly(processes.values())
            said |= {name: process.communicate()[1] for name, process in processes.items()}
            statuses |= {name: process.returncode for name, process in processes.items()}
    return said, statuses


def faults_of(program):
    """What is wrong with the reports of the games, which are played side by side."""
    said, statuses = progress(program)
    wrong = []
    for name, (_, chips) in GAMES.items():
        off, total = [int(it) for it in GUESSING.findall(said[name])], sum(chips.values())
        wrong += [] if off and statuses[name] == 0 else [f"{name}: status {statuses[name]} after {said[name]!r}"]
        wrong += [f"{name}: off by {it} of {total} chips" for it in off if not 1 <= it <= total]
    return wrong


def tests(program):
    yield "by how many chips a try is off", functools.partial(faults_of, program)
