"""Games of the largest size, whose results are known by arithmetic: 4,096 vertices, 65,536 edges, rings of 64 cells, 64
workers, a chip that goes 4,095 steps, a schedule of 180,000 events, and outputs of more than a mebibyte.

A command may always say that memory ran out, so that no contract refuses one which gives up at such sizes.
"""
import functools
import itertools
import json
import subprocess
import tempfile

import listed

SECONDS = 120
VERTICES = 4096
EDGES = 65_536
LAST = VERTICES - 1
PASSED_ON = 30
ROWS = 64
EVENTS = 180_000


def compact(value):
    return json.dumps(value, separators=(",", ":"), sort_keys=True)


def rows_of(header, rows):
    return "".join(f"{','.join(map(str, row))}\n" for row in [header, *rows])


def report(chips, fired, over=(), prior=None):
    """The report of a game that stopped so, of version 2 where there are stages before."""
    more = {"version": 1} if prior is None else {"prior": prior, "version": 2}
    end = {"chips": chips, "closed": not over, "fired": fired, "over": list(over), "sealed": []}
    return compact({**end, **more}) + "\n"


class Fan:
    """Each vertex has the same number of edges to the sink, the last vertex; vertex 0 has as many more."""

    def __init__(self, vertices, edges):
        self.vertices, self.edges, self.last = vertices, edges, vertices - 1
        self.fan_out = edges // vertices
        self.degrees = [2 * self.fan_out] + [self.fan_out] * (self.last - 1)
        self.chips = [vertex * 7919 % 1000 for vertex in range(self.last)] + [5]

    def tail(self, edge):
        """The vertex that an edge leads from."""
        return edge // self.fan_out % self.last

    def graph(self):
        rows = (",".join([f"[{tail},{self.last},1]"] * self.fan_out) for tail in [*range(self.last), 0])
        return f'{{"edges":[{",".join(rows)}],"sink":{self.last},"version":1,"vertices":{self.vertices}}}'

    def stopped(self, chips, limit):
        """Chips, counts and the vertices that the limit stopped, where a game goes on from these chips."""
        fired = [min(limit, count // degree) for count, degree in zip(chips, self.degrees)] + [0]
        sent = [times * degree for times, degree in zip(fired, self.degrees)]
        left = [count - gone for count, gone in zip(chips, sent)] + [chips[self.last] + sum(sent)]
        return left, fired, [vertex for vertex in range(self.last) if left[vertex] >= self.degrees[vertex]]

    def shown(self):
        """What `check` writes."""
        lines = [f"vertex {vertex} degree {degree} distance 1" for vertex, degree in enumerate(self.degrees)]
        head = [f"vertices {self.vertices}", f"edges {self.edges}", f"sink {self.last}"]
        return "".join(f"{line}\n" for line in [*head, *lines, f"vertex {self.last} degree 0 distance 0"])


class Path:
    """Each vertex has one edge, to the next one; the last vertex is the sink, and vertex 0 has all chips."""

    edges = [[tail, tail + 1, 1] for tail in range(LAST)]
    chips = [PASSED_ON] + [0] * LAST
    end = report([0] * LAST + [PASSED_ON], [PASSED_ON] * LAST + [0])

    def graph(self):
        return compact({"edges": self.edges, "sink": LAST, "version": 1, "vertices": VERTICES})

    def shown(self):
        """What `check` writes."""
        lines = [f"vertex {vertex} degree 1 distance {LAST - vertex}" for vertex in range(LAST)]
        head = [f"vertices {VERTICES}", f"edges {LAST}", f"sink {LAST}"]
        return "".join(f"{line}\n" for line in [*head, *lines, f"vertex {LAST} degree 0 distance 0"])

    def trace(self):
        """A run in which each vertex takes one chip at a time and passes it on."""
        yield (0, "take", len(self.edges), PASSED_ON)
        yield from itertools.repeat((0, "fire", 0, 1), PASSED_ON)
        for vertex in range(1, LAST):
            for _ in range(PASSED_ON):
                yield (vertex, "take", vertex - 1, 1)
                yield (vertex, "fire", 0, 1)
        yield from itertools.repeat((LAST, "take", LAST - 1, 1), PASSED_ON)

    def faults_of_firings(self, text):
        """Whether these lines are a play of this game to its end, each firing legal where it stands."""
        chips, fired = list(self.chips), [0] * VERTICES
        for line in text.splitlines():
            word, vertex, count = line.split(" ")
            vertex, count = int(vertex), int(count)
            if word != "fire" or not 0 <= vertex < LAST or not 1 <= count <= chips[vertex]:
                return [f"no legal firing: {line}"]
            chips[vertex] -= count
            chips[vertex + 1] += count
            fired[vertex] += count
        return [] if report(chips, fired) == self.end else ["the firings do not end the game"]


class Room:
    """A folder with the files of a game, in which the program is run."""

    def __init__(self, program, folder, game):
        self.program, self.folder = program, folder
        self.write("graph.json", game.graph())
        self.write("chips.csv", rows_of(("vertex", "chips"), enumerate(game.chips)))

    def write(self, name, text):
        with open(f"{self.folder}/{name}", "w", encoding="ascii", newline="") as file:
            file.write(text)

    def read(self, name):
        with open(f"{self.folder}/{name}", encoding="ascii", newline="") as file:
            return file.read()

    def ran(self, arguments, under=()):
        """Runs the program, or `under` with it. Returns its standard output, its standard error, and its status."""
        how = {"stdin": subprocess.DEVNULL, "stdout": subprocess.PIPE, "stderr": subprocess.PIPE, "timeout": SECONDS}
        done = subprocess.run([*under, self.program, *arguments.split(" ")], cwd=self.folder, **how)
        written, errors = (text.decode(errors="backslashreplace") for text in (done.stdout, done.stderr))
        return written, errors, done.returncode

    def faults_of(self, arguments, wanted, status=0):
        """Runs the program, and returns what of its output is not as it must be."""
        written, errors, ended = self.ran(arguments)
        if (errors, ended) != ("", status):
            return [f"expected status {status}, got {ended} and {errors[:200]!r}"]
        if written != wanted:
            places = (at for at, (one, other) in enumerate(zip(written, wanted)) if one != other)
            at = next(places, min(len(written), len(wanted)))
            return [f"byte {at}: expected {wanted[at:][:80]!r}, got {written[at:][:80]!r}"]
        return []


def play_fan(room, fan):
    """The runs on the widest graph: arguments and faults."""
    first, last = fan.stopped(fan.chips, 3), fan.stopped(fan.chips, 2**40)
    assert first[2] and not last[2]
    second = fan.stopped(first[0], 2**40)
    room.write("first.json", report(*first))
    room.write("none.csv", "vertex,chips\n")
    room.write("takes.csv", rows_of(("event", "at", "count"), (("take", at % EDGES, 0) for at in range(EVENTS))))
    empty = "empty\n" * EVENTS + "root closed\n" + report(*last)
    wanted = {
        "check graph.json": (fan.shown(), 0),
        "plain graph.json chips.csv": (report(*last), 0),
        "plain graph.json chips.csv --limit 3": (report(*first), 2),
        "resume graph.json first.json": (report(*second, prior=first[1]), 0),
        "simulate graph.json chips.csv takes.csv --rounds 100": (empty, 0),
        "simulate graph.json chips.csv takes.csv --rounds 100 --ring 64": (empty, 0),
        "run graph.json chips.csv": (report(*last), 0),
        "run graph.json chips.csv --ring 64 --workers 64": (report(*last), 0),
        "run graph.json chips.csv --dealt --workers 64": (report(*last), 0),
        "run graph.json chips.csv --limit 3 --workers 4": (report(*first), 2),
        "run graph.json none.csv --feed chips.csv": (report(*last), 0),
        "run graph.json none.csv --feed chips.csv --ring 64 --workers 64": (report(*last), 0),
    }
    for arguments, (text, status) in wanted.items():
        yield arguments, room.faults_of(arguments, text, status)


def play_trace(room, fan):
    """Runs on threads whose trace has room for all rows but the sink's: arguments and faults."""
    for way in ("", " --dealt"):
        arguments = f"run graph.json chips.csv --workers 4 --trace trace.csv --trace-rows {ROWS}{way}"
        yield arguments, wrong_trace(room, fan, arguments)


def wrong_trace(room, fan, arguments):
    """What is wrong with such a run and its trace."""
    chips, fired, over = fan.stopped(fan.chips, 2**40)
    written, errors, ended = room.ran(arguments)
    faults = [] if written == report(chips, fired, over) else ["another report"]
    faults += [] if (errors, ended) == ("chipfire: trace cut\n", 0) else [f"got status {ended} and {errors[:200]!r}"]
    rows = room.read("trace.csv").splitlines()
    wanted = ["vertex,kind,edge,count"]
    for vertex in range(LAST):
        wanted += [f"{vertex},take,{EDGES + vertex},{fan.chips[vertex]}"] * (fan.chips[vertex] > 0)
        wanted += [f"{vertex},fire,0,{fired[vertex]}"] * (fired[vertex] > 0)
    faults += [] if rows[:-ROWS] == wanted else ["other rows of the vertices that fire"]
    taken = [row.split(",") for row in rows[-ROWS:]]
    own = [f"{EDGES + LAST}", f"{fan.chips[LAST]}"]
    known = ([edge, f"{fired[fan.tail(int(edge))]}"] if edge != own[0] else own for _, _, edge, _ in taken)
    is_well = all(row == [f"{LAST}", "take", *edge] for row, edge in zip(taken, known))
    return faults if is_well else [*faults, "other rows of the sink"]


def play_path(room, path):
    """The commands on the longest way to the sink: arguments and faults."""
    yield "check graph.json", room.faults_of("check graph.json", path.shown())
    yield "plain graph.json chips.csv", room.faults_of("plain graph.json chips.csv", path.end)
    room.write("trace.csv", rows_of(("vertex", "kind", "edge", "count"), path.trace()))
    arguments = "replay graph.json chips.csv trace.csv"
    written, errors, ended = room.ran(arguments)
    faults = path.faults_of_firings(written)
    yield arguments, faults if (errors, ended) == ("", 0) else [f"got status {ended} and {errors[:200]!r}"]


def faults_of(program, game, play):
    """What is wrong with the runs on one of these games."""
    with tempfile.TemporaryDirectory(prefix="chipfire-largest-") as folder:
        return listed.joined(play, Room(program, folder, game), game)


def tests(program):
    fan = Fan(VERTICES, EDGES)
    for name, game, play in (("fan", fan, play_fan), ("trace", fan, play_trace), ("path", Path(), play_path)):
        yield name, functools.partial(faults_of, program, game, play)
