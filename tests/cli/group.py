"""`recurrent` and `identity` on random games, by the definitions.

The graphs are small, so that all recurrent configurations are known: those that the greatest stable one leads to, by a
chip on some vertex and a play to the end, again and again. The identity is the only one whose stabilized sum with itself
is itself, and the representative of chips is their stabilized sum with it. Each play is by examples/play.py.
"""

import functools
import tempfile

import chains
import drops
import largest
import listed
import play

GAMES = 200
MOST_RECURRENT = 300
NO_LIMIT = 2**40
CHIPS = ("vertex", "chips")


class Group:
    """The recurrent configurations of a graph. Each has 0 on the sink."""

    def __init__(self, graph, draw):
        self.graph, self.draw = graph, draw
        degrees = play.degrees(graph)
        self.most = tuple(max(degree - 1, 0) for degree in degrees)
        self.recurrent = {self.most}

    def stabilized(self, chips):
        """The stabilization of chips."""
        left = list(chips)
        play.play(self.graph, left, NO_LIMIT, self.draw)
        left[self.graph["sink"]] = 0
        return tuple(left)

    def added(self, one, other):
        """The stabilized sum of two configurations."""
        return self.stabilized(a + b for a, b in zip(one, other))

    def grow(self):
        """Finds all that are recurrent, and says whether they are few."""
        new = [self.most]
        vertices = range(self.graph["vertices"])
        while new and len(self.recurrent) <= MOST_RECURRENT:
            last = new.pop()
            more = {self.added(last, [int(v == at) for v in vertices]) for at in vertices}
            new += more - self.recurrent
            self.recurrent |= more
        return not new

    def identity(self):
        """The one that is its own stabilized sum with itself."""
        (found,) = (one for one in self.recurrent if self.added(one, one) == one)
        return found


def some_group(draw):
    """A random graph with few recurrent configurations, and chips."""
    while True:
        graph, chips = chains.random_game(draw)
        group = Group(graph, draw)
        if group.grow():
            return group, chips


def faults_of(draw, program):
    """What is wrong with what the commands write of a random game."""
    group, chips = some_group(draw)
    sink, identity = group.graph["sink"], group.identity()
    recurrent = [*draw.choice(sorted(group.recurrent))]
    recurrent[sink] = draw.randint(0, 9)
    faults = []
    for start in (chips, recurrent, [*group.most]):
        with tempfile.TemporaryDirectory(prefix="chipfire-group-") as folder:
            game = drops.Game(group.graph["edges"], sink, group.graph["vertices"], start)
            room = largest.Room(program, folder, game)
            wanted = group.added(start, identity)
            status = 0 if all(start[v] == wanted[v] for v in range(len(start)) if v != sink) else 2
            text = largest.rows_of(CHIPS, enumerate(wanted))
            faults += room.faults_of("recurrent graph.json chips.csv", text, status)
            text = largest.rows_of(CHIPS, enumerate(identity))
            faults += room.faults_of("identity graph.json", text)
    return faults


def on_the_way(program):
    """Too many chips on the way, and just not: arguments and faults.

    Vertex 0 has edges to the sink of 2^20 chips each. Twice the greatest stable chips are 2^40 - 2 if there are 2^19
    edges, and above 2^40 if there is one more. Fewer than 2^39 chips are recurrent then: nothing leads in.
    """
    few, many = [
        drops.Game([[0, 1, 2**20]] * count, 1, 2, [5, 0]) for count in (2**19, 2**19 + 1)
    ]
    with tempfile.TemporaryDirectory(prefix="chipfire-group-") as folder:
        room = largest.Room(program, folder, few)
        text = largest.rows_of(CHIPS, [(0, 0), (1, 0)])
        yield "identity", room.faults_of("identity graph.json --large", text)
        text = largest.rows_of(CHIPS, [(0, 5), (1, 0)])
        yield "recurrent", room.faults_of("recurrent graph.json chips.csv --large", text)
        room = largest.Room(program, folder, many)
        refusal = ("", "chipfire: fault 10 Total\n", 1)
        for words in ("identity graph.json --large", "recurrent graph.json chips.csv --large"):
            got = room.ran(words)
            yield words, [] if got == refusal else [f"expected {refusal}, got {got}"]


def tests(program):
    yield from listed.drawn(GAMES, "groups", faults_of, program)
    yield "on the way", functools.partial(listed.joined, on_the_way, program)
