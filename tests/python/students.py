"""Detectors as students hand them in, each with its true verdict: for the tests of `explore` and of `grade`.

`STUDENTS` has a row for each class of this file: `Student(make, verdict, game)`. The verdict is

    RIGHT      it is right in all schedules of each game: status 0
    EARLY      the root is closed too early in some schedule: 2
    MISSED     the root can miss the end: it can never be closed any more, or only if a schedule favours it: 3
    NOT_LOCAL  the root closes with knowledge that no message carried: 5
    REFUSED    it cannot be tried, and an error says why: 1

`game` is the name of a game in `GAMES` on which a wrong one shows; a right one is right on all. The verdicts follow from
what the classes do; test_explore.py compares them with a search of its own.
"""
import random
import threading
import time
from fractions import Fraction
from typing import Any, NamedTuple

import chipfire
from chipfire.model import Core

RIGHT = "right"
EARLY = "early"
MISSED = "missed"
NOT_LOCAL = "not local"
REFUSED = "refused"
#: The status with which the command `explore` ends for each verdict.
STATUSES = {RIGHT: 0, EARLY: 2, MISSED: 3, NOT_LOCAL: 5, REFUSED: 1}

_TRIANGLE = chipfire.Graph(3, 2, ((0, 1), (0, 2), (1, 0), (1, 2)))
_FORK = chipfire.Graph(3, 2, ((0, 1), (1, 0), (0, 2)))
_PAIR = chipfire.Graph(2, 1, ((0, 1), (0, 1)))
GAMES = {
    "pair": chipfire.Setting(_PAIR, (2, 0)),
    "triangle": chipfire.Setting(_TRIANGLE, (4, 0, 0)),
    "two starts": chipfire.Setting(_TRIANGLE, (1, 2, 0)),
    "fork": chipfire.Setting(_FORK, (2, 2, 0)),
    "five": chipfire.Setting(_TRIANGLE, (5, 0, 0)),
}


class Student(NamedTuple):
    """A class, its verdict, and the name of a game on which it shows."""

    make: Any
    verdict: str
    game: str = "triangle"


# Right ones.


class Plain(Core):
    """The detector of Dijkstra and Scholten, as it is."""


class InAnyOrder(Core):
    """Acknowledges the engaging message before others."""

    def may_let_go(self, edge):
        return self.is_passive(edge.head) and self.deficit(self.outs(edge.head)) == 0


class CountsSends(Core):
    """Counts a message when it is sent: the repaired form of CountsPuts."""

    def waits(self, v):
        return sum(len(e.sent) - e.settled for e in self.outs(v))

    def may_let_go(self, edge):
        return self.is_passive(edge.head) and self.waits(edge.head) == 0


class Signals(Core):
    """Acknowledges one message at a time, and sees one at a time."""

    def may_ack(self, edge):
        return min(super().may_ack(edge), 1)

    def settle(self, at):
        edge = self.edge(at)
        seen = min(edge.acked - edge.settled, 1)
        edge.settled += seen
        return f"done {seen}"


class ParentFirst(Core):
    """The parent of a vertex is the first edge in its dict of what it owes: the order of the dict counts."""

    def __init__(self, graph, *rest):
        self.owed = [{} for _ in range(graph["vertices"])]
        super().__init__(graph, *rest)

    def on_take(self, edge):
        owed = self.owed[edge.head]
        owed[edge.number] = owed.get(edge.number, 0) + 1

    def may_ack(self, edge):
        owed = self.owed[edge.head]
        if edge.number not in owed:
            return 0
        if next(iter(owed)) != edge.number or self.is_free(edge.head):
            return owed[edge.number]
        return owed[edge.number] - 1

    def is_free(self, v):
        return self.is_passive(v) and self.deficit(self.outs(v)) == 0 and len(self.owed[v]) == 1

    def ack(self, at):
        edge = self.edge(at)
        many = self.may_ack(edge)
        edge.acked += many
        owed = self.owed[edge.head]
        owed[at] -= many
        if owed[at] == 0:
            del owed[at]
        return f"done {many}"


class SharedBoxes(Core):
    """Each vertex holds a list of what it owes, which `boxes` of the game holds too: both are the same object."""

    def __init__(self, graph, *rest):
        self.boxes = [[] for _ in range(graph["vertices"])]
        super().__init__(graph, *rest)
        for vertex, box in zip(self.vertices, self.boxes):
            vertex.box = box

    def on_take(self, edge):
        self.vertices[edge.head].box.append(edge.number)

    def may_ack(self, edge):
        box = self.boxes[edge.head]
        owed = box.count(edge.number)
        if not owed or box[0] != edge.number:
            return owed
        is_free = self.is_passive(edge.head) and self.deficit(self.outs(edge.head)) == 0
        return owed if is_free and len(box) == owed else owed - 1

    def ack(self, at):
        edge = self.edge(at)
        many = self.may_ack(edge)
        edge.acked += many
        box = self.boxes[edge.head]
        kept = len(box) - many
        for place in range(len(box) - 1, -1, -1):  # (the oldest stays: it is the parent)
            if box[place] == at and len(box) > kept:
                del box[place]
        return f"done {many}"


class OnObjects(Core):
    """The books of a vertex are an object of a class of the student's, with a set and a dict."""

    class Books:
        def __init__(self):
            self.parent = set()
            self.owed = {}

    def __init__(self, graph, *rest):
        self.books = tuple(self.Books() for _ in range(graph["vertices"]))
        super().__init__(graph, *rest)

    def on_take(self, edge):
        books = self.books[edge.head]
        books.parent = books.parent or {edge.number}
        books.owed[edge.number] = books.owed.get(edge.number, 0) + 1

    def may_ack(self, edge):
        books = self.books[edge.head]
        owed = books.owed.get(edge.number, 0)
        if edge.number not in books.parent:
            return owed
        others = sum(count for number, count in books.owed.items() if number != edge.number)
        is_free = self.is_passive(edge.head) and self.deficit(self.outs(edge.head)) == 0 and not others
        return owed if is_free else max(owed - 1, 0)

    def ack(self, at):
        edge = self.edge(at)
        books = self.books[edge.head]
        many = self.may_ack(edge)
        edge.acked += many
        books.owed[at] -= many
        if not any(books.owed.values()):
            books.parent = set()
            books.owed = {}
        return f"done {many}"


class Looks(Core):
    """Has an event of its own that does nothing."""

    def own_events(self):
        yield "look", 0, 0

    def look(self, at):
        return "done"

    def tells(self, kind, at):
        return []


class _Silent(Core):
    """Acknowledges nothing."""

    def on_take(self, edge):
        """Nobody is engaged."""

    def may_ack(self, edge):
        return 0


class Token(_Silent):
    """Safra's token, with the counts and colours on the vertices, and what is on the token in a dict."""

    def __init__(self, graph, *rest):
        self.root_count = 0
        self.token = {"at": graph["vertices"], "sum": 0, "black": True}
        super().__init__(graph, *rest)
        for vertex in self.vertices:
            vertex.count = 0
            vertex.black = False

    def on_send(self, edge):
        if edge.tail < 0:
            self.root_count += 1
        else:
            self.vertices[edge.tail].count += 1

    def on_take(self, edge):
        self.vertices[edge.head].count -= 1
        self.vertices[edge.head].black = True

    def own_events(self):
        at = self.token["at"]
        if at == len(self.vertices):
            if not self.is_closed():
                yield "send_token", at, 0
        elif self.is_passive(at):
            yield "pass_token", at, 0

    def send_token(self, at):
        self.token = {"at": at - 1, "sum": 0, "black": False}
        return "done"

    def pass_token(self, at):
        vertex = self.vertices[at]
        self.token["sum"] += vertex.count
        self.token["black"] = self.token["black"] or self.blackens(vertex)
        self.token["at"] = at - 1 if at else len(self.vertices)
        vertex.black = False
        return "done"

    def blackens(self, vertex):
        return vertex.black

    def tells(self, kind, at):
        return [(at, at - 1 if at else len(self.vertices))]

    def is_closed(self):
        is_back = self.token["at"] == len(self.vertices) and not self.token["black"]
        return self.ended and is_back and self.token["sum"] + self.root_count == 0


class Weights(_Silent):
    """Credit: each vertex and each edge has what it holds as an attribute; a vertex keeps half with each message."""

    def __init__(self, *game):
        self.held = Fraction(1)
        super().__init__(*game)

    def on_send(self, edge):
        holder = self if edge.tail < 0 else self.vertices[edge.tail]
        holder.held = holder.held / 2
        edge.carried = [*getattr(edge, "carried", []), holder.held]

    def on_take(self, edge):
        vertex = self.vertices[edge.head]
        vertex.held = getattr(vertex, "held", 0) + edge.carried.pop(0)

    def may_give(self, v):
        return self.is_passive(v)

    def own_events(self):
        for number, vertex in enumerate(self.vertices):
            if getattr(vertex, "held", 0) and self.may_give(number):
                yield "give_back", number, 0

    def give_back(self, at):
        self.held += self.vertices[at].held
        self.vertices[at].held = 0
        return "done"

    def tells(self, kind, at):
        return [(at, len(self.vertices))]

    def is_closed(self):
        return self.ended and self.held == 1


class Waves(_Silent):
    """Four counters: the root asks one vertex after the other, and closes if two waves find as many sent as taken."""

    def __init__(self, *game):
        self.next = 0
        self.starts = 0
        self.sums = [(0, 0)]  # (of each wave what was sent and taken; the root's own messages stand there at first)
        super().__init__(*game)

    def on_send(self, edge):
        if edge.tail < 0:
            self.starts += 1
            self.sums = [(self.starts, 0)]

    def sent_by(self, v):
        return sum(len(e.sent) for e in self.outs(v))

    def may_ask(self, v):
        return self.is_passive(v)

    def own_events(self):
        if not self.is_closed() and self.may_ask(self.next):
            yield "ask", self.next, 0

    def ask(self, at):
        taken = sum(e.delivered for e in self.ins(at))
        sent, got = self.sums[-1]
        self.sums[-1] = (sent + self.sent_by(at), got + taken)
        self.next += 1
        if self.next == len(self.vertices):
            self.next = 0
            self.sums = [*self.sums[-2:], (self.starts, 0)]
        return "done"

    def tells(self, kind, at):
        root = len(self.vertices)
        return [(root, at), (at, root)]

    def waves(self):
        return self.sums[:-1]

    def is_closed(self):
        waves = self.waves()
        is_level = len({count for wave in waves[-2:] for count in wave}) == 1
        return self.ended and self.next == 0 and len(waves) >= 2 and is_level


# Too early.


class CountsPuts(Core):
    """Counts a message only when it is put: between the claim and the put it seems to wait for nothing."""

    def waits(self, v):
        return sum(e.put - e.settled for e in self.outs(v))

    def may_let_go(self, edge):
        v = edge.head
        return not self.is_pending(v) and not self.is_legal(v) and self.waits(v) == 0


class WavesByPuts(Waves):
    """Four counters that count what is put, and ask a vertex that still has something to put."""

    def sent_by(self, v):
        return sum(e.put for e in self.outs(v))

    def may_ask(self, v):
        return not self.is_pending(v) and not self.is_legal(v)


class AtOnce(Core):
    """Acknowledges each message as soon as it is taken."""

    def may_let_go(self, edge):
        return True


class BusyLetsGo(Core):
    """Does not ask whether the vertex is passive."""

    def may_let_go(self, edge):
        return self.deficit(self.outs(edge.head)) == 0


class NoDeficit(Core):
    """Does not ask what the vertex waits for."""

    def may_let_go(self, edge):
        return self.is_passive(edge.head) and self.others_owed(edge) == 0


class FirstEdgeOnly(Core):
    """A vertex waits only for what it sent on its first edge."""

    def may_let_go(self, edge):
        first = self.outs(edge.head)[:1]
        return self.is_passive(edge.head) and self.deficit(first) == 0


class OneStart(Core):
    """A root that waits for its first edge alone."""

    def is_closed(self):
        used = [e for e in self.edges[self.graph_edges :] if e.sent]
        return self.ended and self.deficit(used[:1]) == 0


class OneWave(Waves):
    """Closes after the first wave that finds as many sent as taken."""

    def is_closed(self):
        waves = self.waves()
        return self.ended and self.next == 0 and bool(waves) and waves[-1][0] == waves[-1][1]


class Colourless(Token):
    """A token without colours."""

    def blackens(self, vertex):
        return False


class GivesTooSoon(Weights):
    """Gives its credit back while it is at work."""

    def may_give(self, v):
        return True


class GivesUp(Core):
    """Gives up waiting after two ticks."""

    ticks = 0

    def own_events(self):
        if self.ticks < 2:
            yield "tick", 0, 0

    def tick(self, at):
        self.ticks += 1
        return "done"

    def tells(self, kind, at):
        return []

    def may_let_go(self, edge):
        return self.ticks == 2 or super().may_let_go(edge)


class LostWakeup(Core):
    """Keeps a flag that a vertex is idle, which a message on another edge than the parent does not clear."""

    def is_idle(self, v):
        return getattr(self.vertices[v], "idle", False)

    def on_take(self, edge):
        super().on_take(edge)
        if self.vertices[edge.head].parent == edge.number:
            self.vertices[edge.head].idle = False

    def own_events(self):
        for v, vertex in enumerate(self.vertices):
            if vertex.parent is not None and not self.is_idle(v) and self.is_passive(v):
                yield "rest", v, 0

    def rest(self, at):
        self.vertices[at].idle = True
        return "done"

    def tells(self, kind, at):
        return []

    def may_let_go(self, edge):
        v = edge.head
        return self.is_idle(v) and self.deficit(self.outs(v)) == 0 and self.others_owed(edge) == 0


# Those that miss the end.


class NeverLetsGo(Core):
    """Never acknowledges the message that engaged a vertex."""

    def may_let_go(self, edge):
        return False


class Polls(Core):
    """The same, and polls for ever."""

    def own_events(self):
        yield "poll", 0, 0

    def poll(self, at):
        return "done"

    def tells(self, kind, at):
        return []

    def may_let_go(self, edge):
        return False


class LosesOne(Core):
    """Sees one acknowledgement of an edge at most."""

    def settle(self, at):
        edge = self.edge(at)
        more = edge.acked - edge.settled
        edge.settled = min(edge.acked, 1)
        return f"done {more}"


class AlwaysBlack(Token):
    """A token that each vertex blackens in each round."""

    def blackens(self, vertex):
        return True


class ThreeInARow(Core):
    """The root closes only if it is asked three times in a row, and polls come between."""

    asked = 0

    def own_events(self):
        if not self.is_closed():
            yield "ask", 0, 0
            yield "poll", 0, 0

    def ask(self, at):
        self.asked = min(self.asked + 1, 3) if super().is_closed() else 0
        return "done"

    def poll(self, at):
        self.asked = 0
        return "done"

    def tells(self, kind, at):
        return []

    def is_closed(self):
        return self.asked == 3


# Those that know what no message carried.


class GlobalLeft(_Silent):
    """Reads all parts at once."""

    def is_closed(self):
        return not self.left()


class AllPassiveAllTaken(_Silent):
    """The root closes when all vertices are passive and all messages are taken."""

    def is_closed(self):
        is_taken = all(e.delivered == len(e.sent) for e in self.edges)
        return self.ended and is_taken and all(self.is_passive(v) for v in range(len(self.vertices)))


class AtOnceIfAlone(Core):
    """A vertex acknowledges at once if no vertex is at work and no message is in transit."""

    def may_let_go(self, edge):
        is_taken = all(e.delivered == len(e.sent) for e in self.edges)
        return is_taken and all(self.is_passive(v) for v in range(len(self.vertices)))


class ReadsAcknowledged(Core):
    """A tail reads what the head acknowledged, before it settles it."""

    def may_let_go(self, edge):
        outs = self.outs(edge.head)
        return self.is_passive(edge.head) and all(len(e.sent) == e.acked for e in outs)


class RootReads(Core):
    """The root reads what is acknowledged on all edges, before it settles its own."""

    def is_closed(self):
        return self.ended and all(len(e.sent) == e.acked for e in self.edges)


class Snapshot(_Silent):
    """An event in which the root reads all vertices, and gets nothing from anybody."""

    over = False

    def own_events(self):
        if not self.over:
            yield "look", 0, 0

    def look(self, at):
        is_taken = all(e.delivered == len(e.sent) for e in self.edges)
        self.over = is_taken and all(self.is_passive(v) for v in range(len(self.vertices)))
        return "done"

    def tells(self, kind, at):
        return []

    def is_closed(self):
        return self.ended and self.over


# Those that cannot be tried.


class HelperCause(Core):
    """A helper with a name of the model's: vertices halt by it."""

    def cause(self, v):
        return "waiting"


class NothingLeft(Core):
    """Says that nothing is left, and closes."""

    def left(self):
        return []

    def is_closed(self):
        return True


class LeftEdges(Core):
    """A helper `left` that returns edges."""

    def left(self):
        return [e for e in self.edges if e.delivered < len(e.sent)]


class KeepsLeft(Core):
    """Keeps a number under the name of a method of the model."""

    def __init__(self, *game):
        super().__init__(*game)
        self.has_unput = 0


class TakesChips(Core):
    """Takes the chips of a vertex away."""

    def on_take(self, edge):
        super().on_take(edge)
        self.vertices[edge.head].chips = 0


class TakesMessages(Core):
    """Takes all messages of an edge at once."""

    def on_take(self, edge):
        super().on_take(edge)
        for e in self.edges:
            e.delivered = len(e.sent)


class EndsItself(Core):
    """Halts a vertex that it does not want to wait for."""

    def on_take(self, edge):
        super().on_take(edge)
        self.vertices[edge.head].halt = "over"


class AnswersNotNow(Core):
    """Refuses an event of the game."""

    def on_take(self, edge):
        super().on_take(edge)
        self.need("Zero", len(edge.sent) < 2)


class OpensAgain(Core):
    """A root that closes, opens and closes."""

    doubts = 0

    def own_events(self):
        yield "doubt", 0, 0

    def doubt(self, at):
        self.doubts = (self.doubts + 1) % 2
        return "done"

    def tells(self, kind, at):
        return []

    def is_closed(self):
        return super().is_closed() and self.doubts == 0


class Lies(_Silent):
    """One event in which all vertices tell the root something."""

    over = False

    def own_events(self):
        if not self.over:
            yield "look", 0, 0

    def look(self, at):
        is_taken = all(e.delivered == len(e.sent) for e in self.edges)
        self.over = is_taken and all(self.is_passive(v) for v in range(len(self.vertices)))
        return "done"

    def tells(self, kind, at):
        return [(v, len(self.vertices)) for v in range(len(self.vertices))]

    def is_closed(self):
        return self.ended and self.over


class WithoutTells(Core):
    """Has an event of its own and does not say who sends to whom."""

    def own_events(self):
        yield "look", 0, 0

    def look(self, at):
        return "done"


class InItsClass(Core):
    """Keeps a list in the class."""

    seen = []

    def on_take(self, edge):
        self.seen.append(edge.number)
        super().on_take(edge)


class InADefault(Core):
    """Keeps a list in the default of an argument."""

    def on_take(self, edge, seen=[]):  # noqa: B006 (that is what students write)
        seen.append(edge.number)
        super().on_take(edge)

    def may_let_go(self, edge):
        return len(type(self).on_take.__defaults__[0]) > 3 or super().may_let_go(edge)


TAKEN = []


class InAGlobal(Core):
    """Keeps a list that is a global."""

    def on_take(self, edge):
        TAKEN.append(edge.number)
        super().on_take(edge)

    def may_let_go(self, edge):
        return len(TAKEN) > 3 or super().may_let_go(edge)


class ByChance(Core):
    """Lets go by chance."""

    def may_let_go(self, edge):
        return random.random() < 0.5 or super().may_let_go(edge)


class BySmallChance(Core):
    """Lets go by a chance that no few replays meet."""

    def may_let_go(self, edge):
        return random.random() < 1e-9 or super().may_let_go(edge)


class ByTheClock(Core):
    """Lets go by the clock."""

    def may_let_go(self, edge):
        return time.perf_counter_ns() // 100 % 2 == 0 or super().may_let_go(edge)


class WithALock(Core):
    """Holds a lock."""

    def __init__(self, *game):
        super().__init__(*game)
        self.lock = threading.Lock()


class HidesItsState(Core):
    """Names in `not_state` what decides."""

    not_state = ("got",)
    got = 0

    def on_take(self, edge):
        self.got += 1
        super().on_take(edge)

    def may_let_go(self, edge):
        return self.got > 3 or super().may_let_go(edge)


class Raises(Core):
    """Divides by zero once a vertex waits for nothing."""

    def may_let_go(self, edge):
        return 1 / self.deficit(self.outs(edge.head)) < 1


class RaisesAtFirst(Core):
    """Takes no game."""

    def __init__(self):
        super().__init__()


class MisspeltEvent(Core):
    """Yields an event that has no method."""

    def own_events(self):
        yield "pol", 0, 0

    def poll(self, at):
        return "done"


STUDENTS = [
    *(Student(it, RIGHT) for it in (Plain, InAnyOrder, CountsSends, Signals, ParentFirst, SharedBoxes, OnObjects)),
    *(Student(it, RIGHT) for it in (Looks, Token, Weights, Waves)),
    *(Student(it, EARLY) for it in (CountsPuts, WavesByPuts, AtOnce, BusyLetsGo, NoDeficit, OneWave, Colourless)),
    *(Student(it, EARLY) for it in (GivesTooSoon, GivesUp, FirstEdgeOnly)),
    Student(OneStart, EARLY, "two starts"),
    Student(LostWakeup, EARLY, "five"),
    *(Student(it, MISSED, "pair") for it in (NeverLetsGo, Polls, AlwaysBlack, ThreeInARow)),
    Student(LosesOne, MISSED),
    *(Student(it, NOT_LOCAL, "pair") for it in (GlobalLeft, AllPassiveAllTaken, AtOnceIfAlone, ReadsAcknowledged)),
    *(Student(it, NOT_LOCAL, "pair") for it in (RootReads, Snapshot)),
    *(Student(it, REFUSED) for it in (HelperCause, NothingLeft, LeftEdges, KeepsLeft, TakesChips, TakesMessages)),
    *(Student(it, REFUSED) for it in (EndsItself, AnswersNotNow, OpensAgain, Lies, WithoutTells)),
    *(Student(it, REFUSED) for it in (InItsClass, InADefault, InAGlobal, ByChance, BySmallChance, ByTheClock)),
    *(Student(it, REFUSED) for it in (WithALock, HidesItsState, Raises, RaisesAtFirst, MisspeltEvent)),
]
