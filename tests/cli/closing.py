"""It closes: schedules that ask for everything often enough close the root, whatever stands between.

Each random game is fed or not, gets some random events and, where it is fed, the end of feeding. Then it is closed in
one of three ways in chipfire.model; docs/PROVED.md says what has to come of each.

- By stretches with random events among them: of each edge a take, an acknowledgement, a settle and a put, of each
  vertex a firing and a halt, and of each edge of the graph a look and later a claim. They stand in random order, in the
  one that serves the game worst, or what does nothing is always asked for first. A firing is of one, or of all that the
  chips allow. A stretch in which no step counts and no claim is refused leaves the root closed.
- By rounds of whole turns. A round in which no step counts leaves it closed. Once all are passive and nothing is on its
  way, as many rounds as the tree of engaged vertices is deep, and one more, close it.
- By events each of which does something, any of them, or as long as it goes none that acknowledges or settles. They are
  few, and once there is none the root is closed.

The steps that count are as few as the counts of examples/play.py allow. Afterwards nothing counts. If nothing was
sealed, the report is that of examples/play.py for all chips that were given. The program has to print the same.

On a chain with one chip at its far end, each stretch asks in the order that serves the chip worst: settles and
acknowledgements first, then puts, claims, firings, and takes last. One takes the chip to the far end. Along each edge
it goes by a firing, a claim, and a put with its take, one stretch for each. Then an acknowledgement comes back along
the edges, one stretch for each and one for the root's, and in the last stretch the root settles it: 4 * LENGTH + 3 in
all.

Rounds of the program's own close each example in as many rounds as its distances allow.
"""
import functools
import itertools
import json
import subprocess
import tempfile

import answers
import listed
import play
from boards import OPEN, Schedule
from chains import NO_LIMIT, SECONDS, faults_of, status_of
from paths import EXAMPLES, model

GAMES = 300
LENGTH = 10
MOST_ROUNDS = 2**40


def counts(kind, reply):
    """Whether a step counts, or is a claim that a seal refused."""
    if kind in ("clear", "seal", "read") or reply.split()[0] in ("not-now", "empty"):
        return False
    return kind not in ("settle", "end") or reply != "done 0"


def stretch_of(edges, vertices):
    """Kinds and places of what a stretch asks for, in the order in which each waits for the next: the worst."""
    asked = [(kind, edge) for kind in ("settle", "ack", "put") for edge in range(edges + vertices)]
    asked += [(kind, edge) for edge in range(edges) for kind in ("clear", "claim")]
    asked += [(kind, vertex) for kind in ("fire", "halt") for vertex in range(vertices)]
    return asked + [("take", edge) for edge in range(edges + vertices)]


class Asking(Schedule):
    """A random game, and on it a schedule that closes it."""

    def begin(self):
        """The game, how many steps count or are refused, and the rows and replies so far."""
        self.limit, self.ring = self.draw.choice([NO_LIMIT, self.draw.randint(0, 4)]), self.draw.randint(1, 3)
        self.fed = self.draw.random() < 0.5
        self.core = model().Core(self.graph, self.chips, self.limit, self.ring, self.fed)
        self.rows, self.lines, self.counted, self.refused, self.feeds = ["event,at,count"], [], 0, 0, 0
        step = self.core.step

        def noted(kind, at, count=0):
            reply = step(kind, at, count)
            self.rows.append(f"{kind},{at},{count}")
            self.lines.append(reply)
            self.counted += counts(kind, reply)
            self.refused += (kind, reply) == ("claim", "sealed")
            self.feeds += kind == "feed" and reply.startswith("sent")
            return reply

        self.core.step = noted
        self.junk()
        while self.fed and self.draw.random() < 0.9:
            edge = self.core.graph_edges + self.draw.randrange(self.graph["vertices"])
            for kind, count in (("clear", 0), ("feed", self.draw.randint(1, 30)), ("put", 0)):
                if self.draw.random() < 0.9:
                    self.core.step(kind, edge, count)
            self.junk()
        if self.fed:
            self.core.step("end", 0)

    def junk(self):
        """Some random events."""
        for event in itertools.islice(self.events(), self.draw.choice([0, 0, 3, 30])):
            self.core.step(*event)

    def most(self):
        """How many steps can count or be refused, and how many messages there can be, of all chips that were given."""
        given = [sum(edge.sent) for edge in self.core.edges[self.core.graph_edges :]]
        self.whole = list(given)
        self.fired = play.play(self.graph, self.whole, self.limit, self.draw)
        messages = sum(self.fired[tail] for tail, _, _ in self.graph["edges"]) + self.feeds
        starters = sum(1 for it in self.chips if it)
        counted = sum(self.fired) + 5 * messages + 3 * starters + len(given)
        return counted + len(self.graph["edges"]), messages

    def ordered(self, order):
        """What a stretch asks for, one after another; a claim only after its look."""
        left = stretch_of(len(self.graph["edges"]), self.graph["vertices"])
        if order == "random":
            self.draw.shuffle(left)
        looked = set()
        while left:
            due = {it[:2] for it in self.core.enabled()} if order == "against" else ()
            now = next((it for it in left if it not in due), left[0]) if due else left[0]
            left.remove(now)
            kind, at = now
            if kind in ("clear", "claim"):
                kind = "claim" if at in looked else "clear"
                looked.add(at)
            yield kind, at

    def by_stretches(self):
        order, batches = self.draw.choice(["random", "worst", "against"]), self.draw.random() < 0.5
        core, most, stretches = self.core, self.most()[0], 0
        while not core.is_closed():
            before, stretches = self.counted, stretches + 1
            for kind, at in self.ordered(order):
                vertex = core.vertices[at] if kind == "fire" and at != core.sink else None
                whole = min(vertex.chips // core.degree(at), core.limit - vertex.fired) if vertex and batches else 1
                core.step(kind, at, max(whole, 1) if kind == "fire" else 0)
                if self.draw.random() < 0.02:
                    self.junk()
            if not core.is_closed() and (self.counted == before or stretches > most):
                return [f"open after {stretches} stretches, {order}"]
        return []

    def depth(self):
        """How deep the tree of engaged vertices is."""
        def level(vertex):
            return 0 if vertex < 0 else 1 + level(self.core.edges[self.core.vertices[vertex].parent].tail)
        return max((level(at) for at, it in enumerate(self.core.vertices) if it.parent is not None), default=0)

    def by_rounds(self):
        core, most, rounds, last = self.core, self.most()[0] - len(self.graph["edges"]) + 1, 0, None
        root_edges, order = range(core.graph_edges, len(core.edges)), list(range(self.graph["vertices"]))
        for edge in root_edges:
            core.step("put", edge)
        while not core.is_closed():
            delivered = all(len(it.sent) == it.delivered for it in core.edges)
            if last is None and delivered and all(map(core.is_passive, order)):
                last = rounds + self.depth() + 1
            counted, rounds = self.counted - self.refused, rounds + 1
            self.draw.shuffle(order)
            for vertex in order:
                core.turn(vertex)
            for edge in root_edges:
                core.step("settle", edge)
            idle = self.counted - self.refused == counted
            if not core.is_closed() and (idle or rounds >= min(most, last or most)):
                return [f"open after {rounds} rounds"]
        return []

    def by_steps(self):
        (most, messages), steps, lazy = self.most(), 0, self.draw.random() < 0.5
        most += messages + 2 * len(self.graph["edges"])
        while (due := self.core.enabled()) and steps <= most:
            wanted = [it for it in due if it[0] not in ("ack", "settle")] if lazy else []
            self.core.step(*self.draw.choice(wanted or due))
            steps += 1
        is_well = self.core.is_closed() and steps <= most
        return [] if is_well else [f"{steps} steps of {most}, closed: {self.core.is_closed()}"]

    def closing(self):
        """What is not as it must be: how it closed, what came then, or what the program prints."""
        self.begin()
        most = self.most()[0]
        faults = self.draw.choice([self.by_stretches, self.by_stretches, self.by_rounds, self.by_steps])()
        if faults:
            return faults
        edges = len(self.graph["edges"])
        if self.counted - self.refused > most - edges or self.refused > edges:
            return [f"{self.counted} steps counted, {self.refused} of them refused; {most} can, {edges} of them refused"]
        before, report = self.counted, self.core.report()
        for kind, at in self.ordered("random"):
            self.core.step(kind, at, int(kind == "fire"))
        if (self.counted, self.core.report()) != (before, report):
            return ["something stirred after the root was closed"]
        if not any(it.sealed for it in self.core.edges):
            whole = play.report(self.graph, self.whole, self.fired)
            faults = [] if report == whole else [f"{report}, and all chips at once result in {whole}"]
        self.write("schedule.csv", "".join(f"{row}\n" for row in self.rows))
        wanted = "".join(f"{line}\n" for line in [*self.lines, "root closed", report])
        words = ["simulate", "graph.json", "chips.csv", "schedule.csv", *["--fed"] * self.fed]
        words += ["--limit", str(self.limit), "--ring", str(self.ring)]
        return faults + self.differences(words, wanted, status_of(report))[1]


def last_line_of(program, words, room):
    """The status of a run, and the line of its output that says whether the root is closed."""
    ran = subprocess.run([program, "simulate", *words], cwd=room, stdout=subprocess.PIPE, timeout=SECONDS)
    return ran.returncode, [it for it in ran.stdout.decode().splitlines() if it.startswith("root ")]


def wrong_chain(program, stretches, wanted):
    """What is wrong with a chain by this number of stretches that ask in the worst order."""
    vertices = LENGTH + 1
    graph = {"edges": [[it, it + 1, 1] for it in range(LENGTH)], "sink": LENGTH, "version": 1, "vertices": vertices}
    stretch = [f"{kind},{at},{int(kind == 'fire')}" for kind, at in stretch_of(LENGTH, vertices)]
    with tempfile.TemporaryDirectory(prefix="chipfire-chain-") as room:
        texts = {"graph.json": json.dumps(graph), "chips.csv": "vertex,chips\n0,1\n"}
        texts["schedule.csv"] = "\n".join(["event,at,count", *stretch * stretches, ""])
        for name, text in texts.items():
            with open(f"{room}/{name}", "w", encoding="utf-8") as file:
                file.write(text)
        got = last_line_of(program, ["graph.json", "chips.csv", "schedule.csv"], room)
    return [] if got == wanted else [f"{got}, not {wanted}"]


def rounds_to_close(graph, chips):
    """How many rounds of turns surely close a game, by the distance of its vertices from the sink."""
    edges, vertices, total = graph["edges"], graph["vertices"], sum(chips)
    degrees, in_degrees = ([sum(edge[2] for edge in edges if edge[end] == it) for it in range(vertices)] for end in (0, 1))
    has_few_in = all(map(int.__ge__, degrees, in_degrees[: graph["sink"]] + [0] + in_degrees[graph["sink"] + 1 :]))
    near, distance = {graph["sink"]}, 0
    while len(near) < vertices:
        near |= {tail for tail, head, _ in edges if head in near}
        distance += 1
    most = 0
    for _ in range(distance):
        most = total + (most if has_few_in else max(degrees) * most)
    return (vertices + 5 * len(edges)) * min(NO_LIMIT, most) + 5 * total + vertices + 1


def wrong_rounds(program, name):
    """What is wrong with an example by rounds of turns alone, as many as surely close it, or as `--rounds` takes."""
    game = f"{EXAMPLES}/{name}"
    with open(f"{game}/graph.json", encoding="utf-8") as file:
        graph = json.load(file)
    with open(f"{game}/chips.csv", encoding="utf-8") as file:
        chips = [int(row.split(",")[1]) for row in file.read().split()[1:]]
    rounds = min(rounds_to_close(graph, chips), MOST_ROUNDS)
    with tempfile.NamedTemporaryFile("w", suffix=".csv", encoding="utf-8") as schedule:
        schedule.write("event,at,count\n")
        schedule.flush()
        words = [f"{game}/graph.json", f"{game}/chips.csv", schedule.name, "--rounds", str(rounds)]
        got = last_line_of(program, words, game)
    return [] if got == (0, ["root closed"]) else [f"{got} after {rounds} rounds"]


def tests(program):
    """Yields random games, and then the chain, open after one stretch fewer than it takes, and the examples by rounds."""
    yield from listed.drawn(GAMES, "closing", faults_of, program, Asking, Asking.closing)
    needed = 4 * LENGTH + 3
    for stretches, wanted in ((needed - 1, (OPEN, ["root open"])), (needed, (0, ["root closed"]))):
        yield f"a chain after {stretches} stretches", functools.partial(wrong_chain, program, stretches, wanted)
    for name in answers.games():
        yield f"{name} by rounds", functools.partial(wrong_rounds, program, name)
