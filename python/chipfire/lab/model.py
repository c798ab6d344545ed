"""The machine and its detector the plain way: what `chipfire simulate` must report, and a model to change and to try.

    python3 python/chipfire/lab/model.py GRAPH CHIPS SCHEDULE [--limit F] [--ring R] [--rounds N] [--books] [--fed]

It shares nothing with chipfire: an edge keeps all its messages in a row, and what was put, delivered, acknowledged and
settled are numbers beside it. It expects files that are right, and checks nothing. It is not proved.

A `Core` is one game. `step` makes an event, `enabled` lists those that would do something now, and `left` says what is
still to do. The detector's rule is in `may_ack` and `is_closed`; `chipfire.detectors` has others.
"""

from __future__ import annotations

import argparse
import csv
import itertools
import json
from collections.abc import Iterable, Iterator, Mapping, Sequence
from typing import Any, Union

RULES = {
    "NoSuch": 1,
    "Sink": 2,
    "Halted": 3,
    "Pending": 4,
    "Zero": 5,
    "Limit": 6,
    "NotLegal": 7,
    "NothingPending": 8,
    "Refused": 9,
    "Unput": 10,
    "NotCleared": 11,
    "NotClaimed": 12,
    "NoCause": 13,
    "NothingOwed": 14,
    "Engaged": 15,
    "NotClosed": 16,
    "Ended": 17,
    "TooMuch": 18,
}

#: What a detector may have in another way than `Core`; every other name of the model is the game's.
HOOKS = (
    "__init__",
    "on_send",
    "on_take",
    "may_let_go",
    "may_ack",
    "ack",
    "settle",
    "is_closed",
    "own_events",
    "tells",
    "not_state",
)

#: The events that have a count.
COUNTED = ("fire", "feed", "work")

#: How many firings at a time are listed at most, and how many events of a detector's own.
MOST_FIRINGS = 1_000_000
MOST_EVENTS = 1_000_000

#: A kind of event, the edge or vertex that it is at, and a count.
Event = tuple[str, int, int]


class NotNow(Exception):
    """A rule is not met: its name."""


class TooManyFirings(ValueError):
    """A vertex may fire more often at a time than is listed."""


class TooManyEvents(ValueError):
    """A detector has more events of its own at a time than are listed."""


class Edge:
    """An edge with the chips of all its messages; those of the root have -1 as their tail."""

    #: Attributes that are never set anew: they are not in its `__dict__`.
    HELD: tuple[str, ...] = ("number", "tail", "head", "mult")
    __slots__ = (*HELD, "__dict__")

    def __init__(self, number: int, tail: int, head: int, mult: int) -> None:
        self.number = number
        self.tail = tail
        self.head = head
        self.mult = mult
        self.sent: tuple[int, ...] = ()
        self.put = self.delivered = self.acked = self.settled = self.pending = 0
        self.clear = self.refused = self.sealed = False


class Vertex:
    """A vertex: its chips and firings, why it halted, and the number of the edge that engaged it."""

    def __init__(self) -> None:
        self.chips = self.fired = 0
        self.halt: Union[str, None] = None
        self.parent: Union[int, None] = None


class Core:
    """A game, with the detector of Dijkstra and Scholten.

    A detector of your own has other `HOOKS`. What it keeps stands in attributes of the game, of its edges or of its
    vertices, under any name that the model has not: they are the state that `chipfire.explore` compares with others.
    Classes, globals, chance and the clock are no part of it. A detector may write the model's `acked`, `settled` and
    `parent`.
    """

    #: Attributes that say nothing of what will happen, such as a count of polls: they are no part of the state.
    not_state: tuple[str, ...] = ()
    #: Attributes that are never set anew: they are not in its `__dict__`.
    HELD: tuple[str, ...] = (
        "sink",
        "limit",
        "ring",
        "graph_edges",
        "vertices",
        "edges",
        "_ins",
        "_outs",
        "_degrees",
    )
    __slots__ = (*HELD, "__dict__")

    def __init__(
        self,
        graph: Mapping[str, Any],
        chips: Sequence[int],
        limit: int = 2**40,
        ring: int = 1,
        fed: bool = False,
    ) -> None:
        self.sink: int = graph["sink"]
        self.limit = limit
        self.ring = ring
        self.ended = not fed
        self.vertices = [Vertex() for _ in range(graph["vertices"])]
        rows = [*graph["edges"], *((-1, vertex, 0) for vertex in range(graph["vertices"]))]
        self.edges = [Edge(number, *row) for number, row in enumerate(rows)]
        self.graph_edges = len(graph["edges"])
        self._ins: list[list[Edge]] = [[] for _ in self.vertices]
        # The last one is the root's.
        self._outs: list[list[Edge]] = [[] for _ in [*self.vertices, None]]
        for e in self.edges:
            self._ins[e.head].append(e)
            self._outs[e.tail].append(e)
        self._degrees = [sum(e.mult for e in outs) for outs in self._outs]
        for vertex, e in enumerate(self.edges[self.graph_edges :]):
            if chips[vertex]:
                e.sent = (chips[vertex],)
                e.put = 1
                self.on_send(e)

    def ins(self, v: int) -> list[Edge]:
        return self._ins[v]

    def outs(self, v: int) -> list[Edge]:
        return self._outs[v]

    def degree(self, v: int) -> int:
        return self._degrees[v]

    def is_legal(self, v: int) -> bool:
        return v != self.sink and self.vertices[v].chips >= self._degrees[v]

    def is_pending(self, v: int) -> bool:
        # This is asked most often, and a list is quicker.
        return any([e.pending for e in self._outs[v]])

    def has_unput(self, v: int) -> bool:
        return any([e.put < len(e.sent) for e in self._outs[v]])

    def is_passive(self, v: int) -> bool:
        """Whether a vertex has nothing to do until another message comes."""
        done = self.vertices[v].halt is not None or not (self.is_pending(v) or self.is_legal(v))
        return done and not self.has_unput(v)

    def deficit(self, edges: Iterable[Edge]) -> int:
        return sum([len(e.sent) - e.settled for e in edges])

    def others_owed(self, e: Edge) -> int:
        """What the head of an edge owes on all others."""
        return sum([it.delivered - it.acked for it in self.ins(e.head) if it is not e])

    # The rule of the detector.

    def on_send(self, e: Edge) -> None:
        """What the detector does when a message is sent: nothing, since the messages of an edge are counted anyway."""

    def on_take(self, e: Edge) -> None:
        """What it does when a message is taken: a neutral vertex is engaged by the edge."""
        if self.vertices[e.head].parent is None:
            self.vertices[e.head].parent = e.number

    def may_let_go(self, e: Edge) -> bool:
        """Whether a vertex may acknowledge the message that engaged it, which came on this edge."""
        return (
            self.is_passive(e.head)
            and self.deficit(self.outs(e.head)) == 0
            and self.others_owed(e) == 0
        )

    def may_ack(self, e: Edge) -> int:
        """How many messages of an edge may be acknowledged now."""
        owed = e.delivered - e.acked
        is_free = self.vertices[e.head].parent != e.number or self.may_let_go(e)
        return owed if is_free else max(owed - 1, 0)

    def is_closed(self) -> bool:
        """Whether the root says that all is over."""
        return self.ended and self.deficit(self.edges[self.graph_edges :]) == 0

    def own_events(self) -> Iterator[Event]:
        """The events of a detector of another kind that would do something now."""
        return iter(())

    def tells(self, kind: str, at: int) -> Iterable[tuple[int, int]]:
        """Who sends to whom in such an event, as pairs; the root is the part after the vertices. `chipfire.explore` and
        `chipfire.model_log` ask it. An event is at one part or between two."""
        raise ValueError(
            f"{kind} is an event of {type(self).__name__}, whose `tells` does not say who sends to whom"
        )

    # What may happen, and what is left.

    def enabled(self, most: int = MOST_EVENTS) -> list[Event]:
        """The events that would do something now, at most `most` of the detector's own; nothing is sealed or fed by
        itself."""
        found: list[Event] = [] if self.ended else [("end", 0, 0)]
        for e in self.edges:
            number = e.number
            sent = len(e.sent)
            delivered = e.delivered
            if delivered < e.put:
                found.append(("take", number, 0))
            if e.acked < delivered and self.may_ack(e) > 0:
                found.append(("ack", number, 0))
            if e.settled < e.acked:
                found.append(("settle", number, 0))
            if (e.pending or e.clear) and e.tail >= 0 and self.vertices[e.tail].halt is None:
                if e.pending and not (e.clear or e.refused) and sent - delivered < self.ring:
                    found.append(("clear", number, 0))
                if e.clear:
                    found.append(("claim", number, 0))
            if e.put < sent:
                found.append(("put", number, 0))
        own = list(itertools.islice(self.own_events(), most + 1))
        if len(own) > most:
            raise TooManyEvents(f"{type(self).__name__}.own_events lists more than {most} events")
        return [*found, *self.works(), *own]

    def works(self) -> list[Event]:
        """The events in which vertices go on of themselves."""
        found: list[Event] = []
        for v, vertex in enumerate(self.vertices):
            if v == self.sink or vertex.halt is not None or self.has_unput(v):
                continue
            if vertex.chips >= self._degrees[v] and not self.is_pending(v):
                most = min(vertex.chips // self._degrees[v], self.limit - vertex.fired)
                if most > MOST_FIRINGS:
                    raise TooManyFirings(
                        f"vertex {v} may fire any number of times up to {most}, which are too many to list"
                    )
                found += [("fire", v, count) for count in range(1, most + 1)]
            if self.cause(v):
                found.append(("halt", v, 0))
        return found

    def left(self) -> list[str]:
        """What is still to do, in words; nothing if the game is over."""
        found = []
        for e in self.edges:
            count = len(e.sent) - e.delivered
            if count:
                found.append(f"edge {e.number} has {count} message" + "s" * (count > 1))
            if e.pending and self.vertices[e.tail].halt is None:
                found.append(
                    f"edge {e.number} has {e.pending} chip" + "s" * (e.pending > 1) + " pending"
                )
        found += [
            f"vertex {v} {todo}" for v in range(len(self.vertices)) if (todo := self.at_work(v))
        ]
        return found if self.ended else [*found, "the end of feeding is not noted"]

    def at_work(self, v: int) -> str:
        """What a vertex still does of itself, in words."""
        vertex = self.vertices[v]
        return (
            "can fire"
            if vertex.halt is None and self.is_legal(v) and vertex.fired < self.limit
            else ""
        )

    def cause(self, v: int) -> Union[str, None]:
        """What makes a vertex halt."""
        if any([e.refused for e in self._outs[v]]):
            return "sealed"
        is_over = (
            self.vertices[v].fired == self.limit and self.is_legal(v) and not self.is_pending(v)
        )
        return "over" if is_over else None

    def step(self, kind: str, at: int, count: int = 0) -> str:
        """Makes an event, if its rules are met, and returns the reply, as a line."""
        try:
            made: str = (
                getattr(self, kind)(at, count) if kind in COUNTED else getattr(self, kind)(at)
            )
        except NotNow as unmet:
            return f"not-now {RULES[unmet.args[0]]}"
        return made or "done"

    def need(self, rule: str, is_met: bool) -> None:
        if not is_met:
            raise NotNow(rule)

    def edge(self, at: int, most: Union[int, None] = None) -> Edge:
        self.need("NoSuch", at < (len(self.edges) if most is None else most))
        return self.edges[at]

    def vertex(self, at: int) -> Vertex:
        self.need("NoSuch", at < len(self.vertices))
        return self.vertices[at]

    def take(self, at: int) -> str:
        e = self.edge(at)
        if e.delivered == e.put:
            return "empty"
        place = e.delivered
        count = e.sent[e.delivered]
        e.delivered += 1
        self.vertices[e.head].chips += count
        self.on_take(e)
        return f"got {place} {count}"

    def ack(self, at: int) -> str:
        e = self.edge(at)
        self.need("NothingOwed", e.delivered > e.acked)
        many = self.may_ack(e)
        self.need("Engaged", many > 0)
        e.acked += many
        if self.vertices[e.head].parent == at and e.acked == e.delivered:
            self.vertices[e.head].parent = None
        return f"done {many}"

    def fire(self, at: int, count: int) -> str:
        vertex = self.vertex(at)
        self.need("Sink", at != self.sink)
        self.need("Halted", vertex.halt is None)
        self.need("Pending", not self.is_pending(at) and not self.has_unput(at))
        self.need("Zero", count >= 1)
        self.need("Limit", vertex.fired + count <= self.limit)
        self.need("NotLegal", vertex.chips >= count * self.degree(at))
        vertex.chips -= count * self.degree(at)
        vertex.fired += count
        for e in self.outs(at):
            e.pending = count * e.mult
        return f"done {vertex.fired}"

    def clear(self, at: int) -> str:
        e = self.edge(at)
        if at < self.graph_edges:
            self.need("Halted", self.vertices[e.tail].halt is None)
            self.need("Refused", not e.refused)
            self.need("NothingPending", e.pending > 0)
        else:
            self.need("Ended", not self.ended)
            self.need("Unput", e.put == len(e.sent))
        e.clear = len(e.sent) - e.delivered < self.ring
        return f"done {len(e.sent)}" if e.clear else "full"

    def claim(self, at: int) -> str:
        e = self.edge(at, self.graph_edges)
        self.need("Halted", self.vertices[e.tail].halt is None)
        self.need("NotCleared", e.clear)
        e.clear = False
        if e.sealed:
            e.refused = True
            return "sealed"
        e.sent = (*e.sent, e.pending)
        e.pending = 0
        self.on_send(e)
        return f"sent {len(e.sent) - 1} {e.sent[-1]}"

    def put(self, at: int) -> str:
        e = self.edge(at)
        self.need("NotClaimed", e.put < len(e.sent))
        e.put += 1
        return f"done {e.sent[-1]}"

    def halt(self, at: int) -> str:
        vertex = self.vertex(at)
        self.need("Sink", at != self.sink)
        self.need("Halted", vertex.halt is None)
        self.need("Unput", not self.has_unput(at))
        self.need("NoCause", self.cause(at) is not None)
        vertex.halt = self.cause(at)
        return f"done {1 if vertex.halt == 'over' else 0}"

    def settle(self, at: int) -> str:
        e = self.edge(at)
        more = e.acked - e.settled
        e.settled = e.acked
        return f"done {more}"

    def seal(self, at: int) -> str:
        e = self.edge(at, self.graph_edges)
        e.sealed = True
        return f"done {len(e.sent)}"

    def read(self, at: int) -> str:
        fired = self.vertex(at).fired
        self.need("NotClosed", self.is_closed())
        return f"done {fired}"

    def feed(self, at: int, count: int) -> str:
        self.need("NoSuch", self.graph_edges <= at)
        e = self.edge(at)
        self.need("Ended", not self.ended)
        self.need("Zero", count >= 1)
        self.need(
            "TooMuch", sum(sum(it.sent) for it in self.edges[self.graph_edges :]) + count <= 2**40
        )
        self.need("NotCleared", e.clear)
        e.sent = (*e.sent, count)
        e.clear = False
        self.on_send(e)
        return f"sent {len(e.sent) - 1} {count}"

    def end(self, _at: int) -> str:
        self.ended = True
        return self.settle(self.graph_edges)

    def turn(self, v: int) -> None:
        """One turn of a vertex, as docs/CORE.md describes it."""
        vertex = self.vertices[v]
        for e in self.ins(v):
            self.step("take", e.number)
        for e in self.outs(v):
            self.step("settle", e.number)
        idle = not self.is_pending(v) and not self.has_unput(v)
        if vertex.halt is None and idle and self.is_legal(v) and vertex.fired < self.limit:
            self.step("fire", v, min(vertex.chips // self.degree(v), self.limit - vertex.fired))
        self.send(v)
        if vertex.halt is None and self.cause(v) == "over":
            self.step("halt", v)
        self.acknowledge(v)

    def send(self, v: int) -> None:
        """A vertex puts what it claimed and sends what is pending, as far as there is room; at a seal it halts."""
        vertex = self.vertices[v]
        if vertex.halt is not None:
            return
        for e in self.outs(v):
            if e.put < len(e.sent):
                self.step("put", e.number)
        if any(e.refused for e in self.outs(v)):
            self.step("halt", v)
        for e in self.outs(v):
            if vertex.halt is None and e.pending and self.step("clear", e.number) != "full":
                if self.step("claim", e.number) == "sealed":
                    self.step("halt", v)
                else:
                    self.step("put", e.number)

    def acknowledge(self, v: int) -> None:
        """A vertex acknowledges on each edge what it may, and then once more on its parent edge."""
        for e in self.ins(v):
            if self.may_ack(e):
                self.step("ack", e.number)
        parent = self.vertices[v].parent
        if parent is not None and self.may_ack(self.edges[parent]):
            self.step("ack", parent)

    def drive(self, rounds: int) -> None:
        for _ in range(rounds):
            if self.is_closed():
                return
            for v in range(len(self.vertices)):
                self.turn(v)
            for e in range(self.graph_edges, len(self.edges)):
                self.step("settle", e)

    def board(self) -> str:
        """The books: the root's deficit, and of each engaged vertex its parent, its deficit and what it owes."""
        lines = [f"  root deficit {self.deficit(self.edges[self.graph_edges :])}"]
        for v, vertex in enumerate(self.vertices):
            if vertex.parent is not None:
                owes = "".join(
                    f" {e.number}:{e.delivered - e.acked}"
                    for e in self.ins(v)
                    if e.delivered > e.acked
                )
                lines.append(
                    f"  vertex {v} parent {vertex.parent} deficit {self.deficit(self.outs(v))} owes{owes}"
                )
        return "\n".join(lines)

    def report(self) -> str:
        fired = [v.fired for v in self.vertices]
        start = [sum(e.sent) for e in self.edges[self.graph_edges :]]
        chips = [given - self.degree(v) * fired[v] for v, given in enumerate(start)]
        for e in self.edges[: self.graph_edges]:
            chips[e.head] += e.mult * fired[e.tail]
        over, sealed = (
            [v for v, it in enumerate(self.vertices) if it.halt == why]
            for why in ("over", "sealed")
        )
        said = {
            "chips": chips,
            "closed": not over + sealed,
            "fired": fired,
            "over": over,
            "sealed": sealed,
        }
        return json.dumps({**said, "version": 1}, separators=(",", ":"))


def rows(file_name: str) -> list[dict[str, str]]:
    with open(file_name, encoding="utf-8", newline="") as file:
        return list(csv.DictReader(file))


def main() -> None:
    words = argparse.ArgumentParser(description="What chipfire simulate must report.")
    for name in ("graph", "chips", "schedule"):
        words.add_argument(name)
    for name, least in (("limit", 2**40), ("ring", 1), ("rounds", 0)):
        words.add_argument(f"--{name}", type=int, default=least)
    words.add_argument(
        "--books", action="store_true", help="what stands in the books after each reply"
    )
    words.add_argument(
        "--fed", action="store_true", help="the root may feed chips until the end is noted"
    )
    asked = words.parse_args()
    with open(asked.graph, encoding="utf-8") as file:
        graph = json.load(file)
    chips = [0] * graph["vertices"]
    for row in rows(asked.chips):
        chips[int(row["vertex"])] = int(row["chips"])
    core = Core(graph, chips, asked.limit, asked.ring, asked.fed)
    for row in rows(asked.schedule):
        print(core.step(row["event"], int(row["at"]), int(row["count"])))
        if asked.books:
            print(core.board())
    core.drive(asked.rounds)
    print(f"root closed\n{core.report()}" if core.is_closed() else "root open")


if __name__ == "__main__":
    main()
