"""Chips dropped one after another by `avalanches`: random games, the triangle by hand, and a million on a grid.

The random games are small: directed with multiplicities, one-way, or with an edge to the sink from each vertex. What
must come of them is known from examples/play.py and from player.c, which share nothing with the program and with each
other: each row, and the report of all chips together. Of the million the mean size is known by Dhar's formula.
"""
import functools
import json
import math
import os
import random
import resource
import statistics
import subprocess
import sys
import tempfile

import chains
import large
import listed
import paced
import play
from largest import Room, rows_of
from paths import HERE

GAMES = 300
NO_LIMIT = 2**40
CHIPS, ROWS = ("vertex", "chips"), ("vertex", "chips", "size", "extent", "lost")
ASKED = "avalanches graph.json chips.csv drops.csv"
# Starts a program under limits of the system.
LIMITED = [sys.executable, f"{HERE}/hostile/limited.py"]
SIDE, NOT_COUNTED, COUNTED, BLOCK = 20, 10_000, 1_000_000, 1_000
# Sizes of files and memory, in bytes and in MiB, that do not suffice for the million, or do.
FILE_SIZES, MEMORIES = [0, 20, 65_536, 100_000, 5_000_000], [4, 8, 16, 32, 64, 256]


class Game:
    """A graph with its chips."""

    def __init__(self, edges, sink, vertices, chips):
        self.of_file = {"edges": edges, "sink": sink, "version": 1, "vertices": vertices}
        self.chips = chips

    def graph(self):
        return json.dumps(self.of_file)


def random_game(draw):
    """A random game, and drops on it: of no chip, of one and of many, on the sink too, and at last on every vertex."""
    graph, chips = chains.random_game(draw)
    sink, vertices = graph["sink"], graph["vertices"]
    order = [sink, *draw.sample([v for v in range(vertices) if v != sink], vertices - 1)]
    leaks = [[v, sink, draw.randint(1, 3)] for v in order[1:]]
    one_way = [[v, draw.choice(order[:at]), draw.randint(1, 4)] for at, v in enumerate(order) if at for _ in range(3)]
    edges = draw.choice([graph["edges"], graph["edges"] + leaks, one_way])
    drops = [(draw.randrange(vertices), draw.choice([0, 1, 1, 1, 2, 50])) for _ in range(draw.randint(0, 30))]
    return Game(edges, sink, vertices, chips), drops + [(v, 1) for v in range(vertices)]


def slow_result(game, drops, draw):
    """The rows of some drops and the report, by examples/play.py."""
    graph, left, rows = game.of_file, list(game.chips), []
    fired = play.play(graph, left, NO_LIMIT, draw)
    for vertex, count in drops:
        left[vertex] += count
        before = left[graph["sink"]]
        now = play.play(graph, left, NO_LIMIT, draw)
        rows.append((vertex, count, sum(now), sum(map(bool, now)), left[graph["sink"]] - before))
        fired = [one + other for one, other in zip(fired, now)]
    return rows_of(ROWS, rows), play.report(graph, left, fired) + "\n"


def result(room):
    """The rows and the report by player.c."""
    words = [large.player(), "graph.json", "chips.csv", str(NO_LIMIT), "drops.csv"]
    how = {"stdout": subprocess.PIPE, "encoding": "ascii", "check": True, "timeout": large.SECONDS}
    text = subprocess.run(words, cwd=room.folder, **how).stdout
    rows = text[: text.index("{")]
    return rows, text[len(rows) :]


def faults_of(draw, program):
    """What is wrong with the rows and the reports of a random game."""
    with tempfile.TemporaryDirectory(prefix="chipfire-drops-") as folder:
        return wrong_drops(program, folder, draw)


def wrong_drops(program, folder, draw):
    """What is wrong with the rows and the reports of a random game, in a folder."""
    game, drops = random_game(draw)
    room = Room(program, folder, game)
    room.write("drops.csv", rows_of(CHIPS, drops))
    rows, report = slow_result(game, drops, draw)
    other = result(room)
    if other != (rows, report):
        return [f"the players do not agree: {(rows, report)} and {other}"]
    faults = room.faults_of(f"{ASKED} --report report.json", rows) + room.faults_of(ASKED, rows)
    written = room.read("report.json")
    faults += [] if written == report else [f"expected the report {report}, got {written}"]
    room.write("chips.csv", rows_of(CHIPS, [*enumerate(together(game.chips, drops))]))
    return faults + room.faults_of("plain graph.json chips.csv", report)


def together(chips, drops):
    """The chips with all that are dropped."""
    found = list(chips)
    for vertex, count in drops:
        found[vertex] += count
    return found


def by_hand(program):
    """Drops on the triangle, whose vertices 0 and 1 send a chip to each other and one to the sink 2: arguments and
    faults.

    Of 4 chips on vertex 0 the play leaves 1 and 0 on both. A chip on 0 makes that 2 and 0: 0 fires, 0 and 1. A chip on
    1: 0 and 2, 1 fires, 1 and 0. No chip, or chips on the sink: nothing. A chip on 1: 1 and 1. One more: 1 and 2, 1
    fires, 2 and 0, 0 fires, 0 and 1. Five on 0: 5 and 1, 0 fires twice, 1 and 3, 1 fires, 2 and 1, 0 fires, 0 and 2, 1
    fires, 1 and 0.
    """
    rows = [(0, 1, 1, 1, 1), (1, 1, 1, 1, 1), (0, 0, 0, 0, 0), (2, 7, 0, 0, 0), (1, 1, 0, 0, 0), (1, 1, 2, 2, 2)]
    rows.append((0, 5, 5, 2, 5))
    with tempfile.TemporaryDirectory(prefix="chipfire-drops-") as folder:
        room = Room(program, folder, Game([[0, 1, 1], [0, 2, 1], [1, 0, 1], [1, 2, 1]], 2, 3, [4, 0, 0]))
        room.write("drops.csv", rows_of(CHIPS, [row[:2] for row in rows]))
        yield ASKED, room.faults_of(ASKED, rows_of(ROWS, rows))
        room.write("drops.csv", "vertex,chips\n")
        yield ASKED, room.faults_of(ASKED, rows_of(ROWS, []))


def stopped(program):
    """A play that a limit stops: its drop has no row and is the last, and after the first play there is none. Arguments
    and faults.

    For each chip that vertex 0 sends to the sink it sends 2^20 to vertex 1, which sends each back by a firing of its
    own: of 2^38 chips it has soon fired 2^40 times.
    """
    edges, drops = [[0, 1, 2**20], [0, 2, 1], [1, 0, 1]], [(2, 1), (1, 1), (0, 2**38), (0, 1)]
    with tempfile.TemporaryDirectory(prefix="chipfire-drops-") as folder:
        for chips, rows, done in [([0] * 3, [(2, 1, 0, 0, 0), (1, 1, 1, 1, 0)], 3), ([2**39, 0, 0], [], 0)]:
            room = Room(program, folder, Game(edges, 2, 3, chips))
            room.write("chips.csv", rows_of(CHIPS, enumerate(together(chips, drops[:done]))))
            room.write("drops.csv", "vertex,chips\n")
            _, report = result(room)
            room.write("chips.csv", rows_of(CHIPS, enumerate(chips)))
            room.write("drops.csv", rows_of(CHIPS, drops))
            yield ASKED, room.faults_of(ASKED, rows_of(ROWS, rows), 2)
            yield ASKED, room.faults_of(f"{ASKED} --report report.json", rows_of(ROWS, rows), 2)
            written = room.read("report.json")
            yield "the report", [] if written == report else [f"expected {report}, got {written}"]


def grid():
    """A grid of SIDE by SIDE squares with 3 chips on each, which lose chips at the border."""
    edges, sink = [], SIDE * SIDE
    for v in range(sink):
        row, column = divmod(v, SIDE)
        beside = [(row - 1, column), (row, column - 1), (row, column + 1), (row + 1, column)]
        edges += [[v, SIDE * a + b if 0 <= a < SIDE and 0 <= b < SIDE else sink, 1] for a, b in beside]
    return Game(edges, sink, sink + 1, [3] * sink + [0])


def mean_size():
    """The mean size of an avalanche on the grid, by Dhar: the sum of all entries of the inverse of the reduced
    Laplacian, which is known by its eigenvectors, divided by the number of squares. Only eigenvectors with odd numbers
    have a sum other than 0."""
    angles = [math.pi * number / (2 * (SIDE + 1)) for number in range(1, SIDE + 1, 2)]
    squares = [2 / (SIDE + 1) / math.tan(angle) ** 2 for angle in angles]
    values = [4 * math.sin(angle) ** 2 for angle in angles]
    pairs = [(one * other, a + b) for one, a in zip(squares, values) for other, b in zip(squares, values)]
    return sum(weight / value for weight, value in pairs) / SIDE**2


def wrong_mean(rows):
    """What is wrong with the mean size of the counted drops, by blocks whose means are almost independent."""
    sizes = [int(row.split(",")[2]) for row in rows.splitlines()[1 + NOT_COUNTED :]]
    means = [statistics.fmean(sizes[at : at + BLOCK]) for at in range(0, COUNTED, BLOCK)]
    found, error = statistics.fmean(means), statistics.stdev(means) / math.sqrt(len(means))
    said = f"the mean is {found:.3f} with an error of {error:.3f}, and must be {mean_size():.3f}"
    return [] if abs(found - mean_size()) < 4 * error < 1 else [said]


def million(program):
    """A million drops on the grid, where everything suffices and where it does not: arguments and faults."""
    draw = random.Random("a million")
    with tempfile.TemporaryDirectory(prefix="chipfire-drops-") as folder:
        room = Room(program, folder, grid())
        drops = ((v, 1) for v in draw.choices(range(SIDE * SIDE), k=NOT_COUNTED + COUNTED))
        room.write("drops.csv", rows_of(CHIPS, drops))
        rows, report = result(room)
        arguments = f"{ASKED} --report report.json"
        yield arguments, room.faults_of(arguments, rows)
        yield "the report", [] if room.read("report.json") == report else ["another report"]
        yield "the mean size", wrong_mean(rows)
        for size in FILE_SIZES:
            yield f"{ASKED} into {size} bytes", cut(program, folder, rows, size)
        yield f"{ASKED} into a pipe", held_back(program, folder, rows)
        outcomes = {(rows, "", 0), ("", "chipfire: fault 90 NoMemory\n", 1)}
        got = {size: room.ran(ASKED, [*LIMITED, f"AS={size << 20}"]) for size in MEMORIES}
        for size, one in got.items():
            yield f"{ASKED} in {size} MiB", [] if one in outcomes else [f"{one[1:]} and {len(one[0])} bytes"]
        yield "an outcome of each kind", [] if outcomes == {*got.values()} else ["there is one kind"]


def held_back(program, folder, rows):
    """What is wrong with rows that nobody reads until the program waits for that: most drops are not played by then."""
    before = sum(resource.getrusage(resource.RUSAGE_CHILDREN)[:2])
    with subprocess.Popen([program, *ASKED.split(" ")], stdout=subprocess.PIPE, cwd=folder) as process:
        paced.waits(process)
        with open(f"/proc/{process.pid}/stat", encoding="ascii") as file:
            user, system = file.read().rpartition(") ")[2].split()[11:13]
        written = process.communicate(timeout=large.SECONDS)[0].decode("ascii")
    then = (int(user) + int(system)) / os.sysconf("SC_CLK_TCK")
    end = sum(resource.getrusage(resource.RUSAGE_CHILDREN)[:2]) - before
    wrong = [] if (written, process.returncode) == (rows, 0) else [f"status {process.returncode} and {len(written)} bytes"]
    return wrong + ([] if then < end / 2 else [f"the first rows came after {then} of {end} seconds of a processor"])


def cut(program, folder, rows, size):
    """What is wrong with the output where the file that it goes to may not be larger."""
    with open(f"{folder}/rows.csv", "wb") as out:
        words = [*LIMITED, f"FSIZE={size}", program, *ASKED.split(" ")]
        ran = subprocess.run(words, stdout=out, stderr=subprocess.PIPE, cwd=folder, timeout=large.SECONDS)
    with open(f"{folder}/rows.csv", encoding="ascii", newline="") as file:
        written = file.read()
    wanted = f"chipfire: fault 93 Write {size}\n".encode(), 1, rows[:size]
    is_well = (ran.stderr, ran.returncode, written) == wanted
    return [] if is_well else [f"status {ran.returncode}, {ran.stderr!r} and {len(written)} bytes"]


def tests(program):
    yield from listed.drawn(GAMES, "drops", faults_of, program)
    for name, play_all in [("by hand", by_hand), ("stopped", stopped), ("a million", million)]:
        yield name, functools.partial(listed.joined, play_all, program)
