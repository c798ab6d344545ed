"""Large games, which are played by `--large`: random ones of 10,000 to 200,000 vertices, a heap on a grid of 255 by 255
squares, and the largest that there are, of 2,097,152 vertices and 8,388,608 edges.

Each random game is played on one thread and, but for chains, on two. On one-way graphs a game of few chips is played
too, and its trace replayed. What must come of them is known from player.c, which shares nothing with the program and is
built by `cc`. It takes half a minute for the heap, so the digest of its report stands here; a long run of the tests has
it found once more, and plays more games. The results of the largest games are known by arithmetic.
"""
import functools
import hashlib
import itertools
import json
import os
import random
import subprocess
import sys
import tempfile
from collections import Counter

import listed
from largest import Fan, Room, report, rows_of
from paths import HERE

NO_LIMIT = 2**40
# How long player.c may take.
SECONDS = 900
FEW_GAMES, MANY_GAMES = 12, 200
LEAST, MOST = 10_000, 200_000
KINDS = ["chain", "star", "scattered", "one_way"]
# On these no vertex but the sink has a greater in-degree than out-degree.
BOTH_WAYS = ["chain", "star"]
MOST_BYTES = 16_777_216
VERTICES, EDGES = 2**21, 2**23
PASSED_ON = 30
SIDE, HEAP = 255, 2**17
# The SHA-256 of the report of HEAP chips in the middle of a grid of SIDE by SIDE squares, as player.c writes it.
DIGEST = "ca5f0187d9f6d99870dc255c4a31be8fd5ab855fef8b6e65367e1ad75a870b79"

# That of no bytes.
EMPTY = hashlib.sha256(b"").hexdigest()
# Starts a program under limits of the system.
LIMITED = f"{HERE}/hostile/limited.py"
# How many MiB the heap is given: too few to read it, enough to play it, and enough to search its counts too.
MEMORIES = [8, 12, 16, 32, 48]
# By two threads, each of which keeps vertices of its own.
THREADS = "run graph.json chips.csv --large --dealt --workers 2"
# How many rows of each vertex are recorded.
ROWS = 256
# How many MiB a trace is given that wants more.
TRACE_MEMORY = 512


def graph_text(edges, sink, vertices):
    """The text of a graph. player.c takes its members in this order."""
    rows = ",".join([f"[{tail},{head},{mult}]" for tail, head, mult in edges])
    return f'{{"edges":[{rows}],"sink":{sink},"version":1,"vertices":{vertices}}}'


def shown(edges, sink, degrees, distances):
    """What `check` writes."""
    lines = [f"vertex {v} degree {degree} distance {far}\n" for v, (degree, far) in enumerate(zip(degrees, distances))]
    return "".join([f"vertices {len(degrees)}\n", f"edges {edges}\n", f"sink {sink}\n", *lines])


class RandomGame:
    """A random game of one of four kinds."""

    def __init__(self, draw, kind):
        self.draw = draw
        self.vertices = int(LEAST * (MOST / LEAST) ** draw.random())
        self.order = list(range(self.vertices))
        draw.shuffle(self.order)
        self.sink = self.order[0]
        self.chips = []
        self.edges = list(getattr(self, kind)())

    def below(self, count):
        """A number below this one, drawn in the quickest way."""
        return int(count * self.draw.random())

    def chain(self):
        """A walk both ways, in which heaps sink between vertices that mostly have room for more chips."""
        self.chips = [self.below(2) * self.below(2) for _ in self.order]
        for _ in range(50):
            self.chips[self.below(self.vertices)] = self.below(100)
        for one, other in zip(self.order, self.order[1:]):
            yield other, one, 1
            if one != self.sink:
                yield one, other, 1

    def star(self):
        """A vertex with edges to all others and back. About half of the others have an edge to the sink, too."""
        centre, *rays = self.order[1:]
        self.chips = [self.below(6) for _ in self.order]
        self.chips[centre] = self.below(20 * self.vertices)
        yield centre, self.sink, 1 + self.below(3)
        for ray in rays:
            yield centre, ray, 1
            yield ray, centre, 1
            if self.below(2):
                yield ray, self.sink, 1 + self.below(3)

    def scattered(self):
        """Edges from anywhere to anywhere, and a tenth of them to the sink."""
        self.chips = [self.below(9) for _ in self.order]
        for place, tail in enumerate(self.order[1:], 1):
            yield tail, self.order[self.below(place)], 1 + self.below(2)
            for _ in range(self.below(4)):
                head = self.order[self.below(self.vertices)] if self.below(10) else self.sink
                if head != tail:
                    yield tail, head, 1 + self.below(4)

    def one_way(self):
        """Edges that lead ever nearer to the sink, by long steps or by short ones, and some very high heaps."""
        self.chips = [self.below(5) for _ in self.order]
        for _ in range(20):
            self.chips[self.below(self.vertices)] = self.below(2**30)
        reach = self.draw.choice([self.vertices, 5000])
        for place, tail in enumerate(self.order[1:], 1):
            for _ in range(1 + self.below(3)):
                yield tail, self.order[place - 1 - self.below(min(place, reach))], 1 + self.below(5)

    def graph(self):
        return graph_text(self.edges, self.sink, self.vertices)

    def shown(self):
        """What `check` writes."""
        degrees, tails, distances = [0] * self.vertices, [[] for _ in self.order], [None] * self.vertices
        for tail, head, mult in self.edges:
            degrees[tail] += mult
            tails[head].append(tail)
        reached, distances[self.sink] = [self.sink], 0
        for head in reached:
            for tail in tails[head]:
                if distances[tail] is None:
                    distances[tail] = distances[head] + 1
                    reached.append(tail)
        return shown(len(self.edges), self.sink, degrees, distances)


class Heap:
    """A heap in the middle of a grid, each square of which sends four chips, to the sink where it has no neighbour."""

    def __init__(self):
        self.sink = SIDE * SIDE
        self.chips = [0] * (self.sink + 1)
        self.chips[self.sink // 2] = HEAP

    def edges(self):
        for row, column in itertools.product(range(SIDE), repeat=2):
            beside = [(row - 1, column), (row, column - 1), (row, column + 1), (row + 1, column)]
            inside = [SIDE * a + b for a, b in beside if 0 <= a < SIDE and 0 <= b < SIDE]
            yield from ((SIDE * row + column, head, 1) for head in inside)
            if len(inside) < 4:
                yield SIDE * row + column, self.sink, 4 - len(inside)

    def graph(self):
        return graph_text(self.edges(), self.sink, self.sink + 1)


class Walk:
    """One edge from each vertex, over all even ones and then over all odd ones, of which the last is the sink."""

    def __init__(self):
        self.way = [*range(0, VERTICES, 2), *range(1, VERTICES, 2)]
        self.sink = VERTICES - 1
        self.chips = [PASSED_ON] + [0] * self.sink
        self.end = report([0] * self.sink + [PASSED_ON], [PASSED_ON] * self.sink + [0])

    def graph(self):
        return graph_text(((tail, head, 1) for tail, head in zip(self.way, self.way[1:])), self.sink, VERTICES)

    def shown(self):
        """What `check` writes."""
        distances = dict(zip(reversed(self.way), range(VERTICES)))
        return shown(self.sink, self.sink, [1] * self.sink + [0], map(distances.get, range(VERTICES)))


def status_of(text):
    """The exit status that goes with a report."""
    return 0 if '"closed":true' in text else 2


@functools.cache
def player():
    """The program of player.c, built once."""
    path = f"{listed.folder('chipfire-player-')}/player"
    subprocess.run(["cc", "-O2", "-o", path, f"{HERE}/cli/player.c"], check=True, timeout=SECONDS)
    return path


def played(room, limit=NO_LIMIT):
    """The report that player.c writes of the game in a room."""
    how = {"cwd": room.folder, "stdout": subprocess.PIPE, "encoding": "ascii", "check": True, "timeout": SECONDS}
    return subprocess.run([player(), "graph.json", "chips.csv", str(limit)], **how).stdout


def stages(room, game, kind, whole):
    """A play in two stages, the first of which has a limit, and the counts of both as guesses: arguments and faults."""
    limit = 1 + game.below(3)
    first = played(room, limit)
    for command in ["plain graph.json chips.csv --large", THREADS]:
        arguments = f"{command} --limit {limit}"
        yield arguments, room.faults_of(arguments, first, status_of(first))
    yield from guessed(room, kind, first, whole)
    room.write("report.json", first)
    before, end = json.loads(first)["fired"], json.loads(whole)
    fired = [one - other for one, other in zip(end["fired"], before)]
    arguments = "resume --large graph.json report.json"
    yield arguments, room.faults_of(arguments, report(end["chips"], fired, prior=before))


def guessed(room, kind, first, whole):
    """Counts of all kinds as a guess: arguments and faults. Where edges go both ways, the counts at the end of a play are
    certified, and from its other counts the play goes on."""
    true, some = (json.loads(text)["fired"] for text in (whole, first))
    uses = {"certified": true, "played on" if some != true else "certified": some}
    other = [count // 2 if v % 2 else count + 1 for v, count in enumerate(true)]
    for use, counts in [*uses.items(), (None, other)]:
        room.write("guess.csv", rows_of(("vertex", "fired"), enumerate(counts)))
        arguments = "plain graph.json chips.csv --large --guess guess.csv --progress"
        written, lines, status = room.ran(arguments)
        faults = [] if (written, status) == (whole, 0) else [f"status {status}, or another report"]
        if use and kind in BOTH_WAYS and f"chipfire: progress: guess {use}\n" not in lines:
            faults.append(f"the counts are not {use}: {lines!r}")
        yield arguments, faults


def traced(room, game):
    """A play of few chips on threads: in its trace each vertex fires as often as the report says. Arguments and faults.
    On a one-way graph a chip passes a vertex at most once, so a vertex has at most two rows for each chip."""
    chips = [(game.below(game.vertices), ROWS // 8) for _ in range(4)]
    room.write("chips.csv", rows_of(("vertex", "chips"), sorted(dict(chips).items())))
    whole = played(room)
    arguments = f"{THREADS} --trace trace.csv --trace-rows {ROWS}"
    yield arguments, room.faults_of(arguments, whole)
    # (all messages are taken, and in the second trace all but those of vertices that do not fire)
    header, *rows = (line.split(",") for line in room.read("trace.csv").splitlines())
    sent = Counter(int(vertex) for vertex, kind, _, _ in rows if kind == "fire")
    room.write("cut.csv", rows_of(header, (row for row in rows if int(row[0]) in sent)))
    for trace, left in [("trace.csv", []), ("cut.csv", left_at_rest(game, sent, dict(chips)))]:
        arguments = f"replay graph.json chips.csv {trace} --large --complete"
        written, errors, status = room.ran(arguments)
        lines, fired = written.splitlines(), [0] * game.vertices
        at = len(lines) - len(left)
        for line in lines[:at]:
            _, vertex, times = line.split(" ")
            fired[int(vertex)] += int(times)
        is_well = (errors, status, fired) == ("", 2 if left else 0, json.loads(whole)["fired"]) and lines[at:] == left
        yield arguments, [] if is_well else [f"status {status}, standard error {errors!r}, or other firings or rests"]


def left_at_rest(game, sent, chips):
    """What is left if vertices that do not fire take nothing: all messages on each edge to such a vertex. A tail sends one
    on each of its edges for each row of firings."""
    counts = [0 if head in sent else sent[tail] for tail, head, _ in game.edges]
    counts += [int(v not in sent and chips.get(v, 0) > 0) for v in range(game.vertices)]
    return [f"left: edge {edge} has {count} messages" for edge, count in enumerate(counts) if count]


def looked_at(room, game):
    """What `check` writes of a graph: arguments and faults."""
    yield "check graph.json --large", room.faults_of("check graph.json --large", game.shown())


def refused(room, arguments, fault):
    """A game that is too large: arguments and faults."""
    ran, wanted = room.ran(arguments), ("", f"chipfire: fault {fault}\n", 1)
    yield arguments, [] if ran == wanted else [f"expected {wanted}, got {ran}"]


def play_random(program, number):
    """A random game and what else is asked of it: arguments and faults."""
    kind = KINDS[number % len(KINDS)]
    game = RandomGame(random.Random(f"large {number}"), kind)
    with tempfile.TemporaryDirectory(prefix="chipfire-large-") as folder:
        room = Room(program, folder, game)
        whole = played(room)
        yield "plain --large graph.json chips.csv", room.faults_of("plain --large graph.json chips.csv", whole)
        # (a heap sinks along a chain in many rounds of turns; the other kinds show as much in less time)
        if kind != "chain":
            yield THREADS, room.faults_of(THREADS, whole)
        turn = number // len(KINDS) % 3
        if turn == 0:
            yield from stages(room, game, kind, whole)
        elif turn == 1:
            yield from looked_at(room, game)
        else:
            is_long = os.path.getsize(f"{folder}/graph.json") > MOST_BYTES
            yield from refused(room, "plain graph.json chips.csv", "30 TooLong" if is_long else "1 Vertices")
        if kind == "one_way":
            yield from traced(room, game)


def play_heap(program, is_anew):
    """The heap on the grid: arguments and faults."""
    with tempfile.TemporaryDirectory(prefix="chipfire-large-") as folder:
        room = Room(program, folder, Heap())
        if is_anew:
            found = hashlib.sha256(played(room).encode()).hexdigest()
            yield "the digest", [] if found == DIGEST else [f"player.c says {found}"]
        written, errors, status = room.ran("plain graph.json chips.csv --large")
        got = hashlib.sha256(written.encode()).hexdigest(), errors, status
        yield "plain graph.json chips.csv --large", [] if got == (DIGEST, "", 0) else [f"the report is {got}"]
        yield from refused(room, "plain graph.json chips.csv", "1 Vertices")


def play_heap_in_little_memory(program):
    """The heap on the grid in ever more memory, in which it is the same report or fault 90: arguments and faults."""
    outcomes = {(DIGEST, "", 0): "a report", (EMPTY, "chipfire: fault 90 NoMemory\n", 1): "no memory"}
    arguments, got = "plain graph.json chips.csv --large", set()
    with tempfile.TemporaryDirectory(prefix="chipfire-large-") as folder:
        room = Room(program, folder, Heap())
        for size in MEMORIES:
            written, errors, status = room.ran(arguments, [sys.executable, LIMITED, f"AS={size << 20}"])
            outcome = hashlib.sha256(written.encode()).hexdigest(), errors, status
            got.add(outcomes.get(outcome))
            yield f"{arguments} in {size} MiB", [] if outcome in outcomes else [f"the outcome is {outcome}"]
    yield "an outcome of each kind", [] if got >= set(outcomes.values()) else [f"there were {got}"]


def trace_in_little_memory(program):
    """A trace of the heap that needs more memory than there is: fault 90, and an empty file. Arguments and faults."""
    arguments, wanted = f"{THREADS} --trace trace.csv --trace-rows 1048576", ("", "chipfire: fault 90 NoMemory\n", 1)
    with tempfile.TemporaryDirectory(prefix="chipfire-large-") as folder:
        room = Room(program, folder, Heap())
        room.write("trace.csv", "an old text")
        got = room.ran(arguments, [sys.executable, LIMITED, f"AS={TRACE_MEMORY << 20}"])
        left = room.read("trace.csv")
    yield arguments, [] if (got, left) == (wanted, "") else [f"the outcome is {got}, and the trace {left[:80]!r}"]


def play_widest(program):
    """As many vertices and edges as there may be, each edge to the sink: arguments and faults."""
    fan = Fan(VERTICES, EDGES)
    with tempfile.TemporaryDirectory(prefix="chipfire-large-") as folder:
        room = Room(program, folder, fan)
        first, end = fan.stopped(fan.chips, 60), fan.stopped(fan.chips, NO_LIMIT)
        assert first[2] and not end[2]
        arguments = "plain graph.json chips.csv --large --limit 60"
        yield arguments, room.faults_of(arguments, report(*first), 2)
        room.write("report.json", report(*first))
        second = fan.stopped(first[0], NO_LIMIT)
        assert second[0] == end[0]
        arguments = "resume graph.json report.json --large"
        yield arguments, room.faults_of(arguments, report(*second, prior=first[1]))
        yield from refused(room, "plain graph.json chips.csv", "30 TooLong")


def play_longest(program):
    """A walk over as many vertices as there may be: arguments and faults."""
    walk = Walk()
    with tempfile.TemporaryDirectory(prefix="chipfire-large-") as folder:
        room = Room(program, folder, walk)
        yield from looked_at(room, walk)
        yield "plain graph.json chips.csv --large", room.faults_of("plain graph.json chips.csv --large", walk.end)


def tests(program, is_long):
    for number in range(MANY_GAMES if is_long else FEW_GAMES):
        yield str(number), functools.partial(listed.joined, play_random, program, number)
    yield "heap", functools.partial(listed.joined, play_heap, program, is_long)
    others = {
        "heap, little memory": play_heap_in_little_memory,
        "heap, a trace": trace_in_little_memory,
        "fan": play_widest,
        "walk": play_longest,
    }
    for name, play in others.items():
        yield name, functools.partial(listed.joined, play, program)
