"""Detectors to try on `chipfire.model`: the right one with a condition left out, and two of another kind.

`DETECTORS` has each by its name, with a small game on which `chipfire.explore` finds what is wrong. None is proved;
`explore` tries all schedules of one game.
"""

from __future__ import annotations

from collections.abc import Iterator, Mapping, Sequence
from fractions import Fraction
from typing import Any, NamedTuple

from chipfire.graphs.graph import Graph
from chipfire.lab.machine import Setting
from chipfire.lab.model import Core, Edge, Event


class AtOnce(Core):
    """Acknowledges each message as soon as it is taken."""

    def may_let_go(self, e: Edge) -> bool:
        return True


class WithoutPassive(Core):
    """Acknowledges the engaging message last, but also while the vertex is at work."""

    def may_let_go(self, e: Edge) -> bool:
        return self.deficit(self.outs(e.head)) == 0 and self.others_owed(e) == 0


class WithoutDeficit(Core):
    """Acknowledges the engaging message when the vertex is passive, whatever it waits for."""

    def may_let_go(self, e: Edge) -> bool:
        return self.is_passive(e.head) and self.others_owed(e) == 0


class AnyOrder(Core):
    """Acknowledges the engaging message before others: the one condition that can be left out."""

    def may_let_go(self, e: Edge) -> bool:
        return self.is_passive(e.head) and self.deficit(self.outs(e.head)) == 0


class OneEdge(Core):
    """A root that reads the first edge alone on which it sent something."""

    def is_closed(self) -> bool:
        used = [e for e in self.edges[self.graph_edges :] if e.sent]
        return self.ended and self.deficit(used[:1]) == 0


class _Otherwise(Core):
    """A detector of another kind: messages are not acknowledged."""

    def on_take(self, e: Edge) -> None:
        """Nobody is engaged."""

    def may_ack(self, e: Edge) -> int:
        return 0


class Probe(NamedTuple):
    """What each part sent less what it took, the root last; which are black; who has the token, and what is on it."""

    counts: tuple[int, ...]
    black: frozenset[int]
    at: int
    sum: int = 0
    is_black: bool = True


class Safra(_Otherwise):
    """A token goes round: from the root to the last vertex, down to vertex 0, and back. It adds up what each part sent
    less what it took. A part that takes a message is black until it passes the token on, and blackens it. The root
    closes when a white token comes back and the sum is 0, its own count with it. Else it sends another.
    """

    own: Probe

    def __init__(self, graph: Mapping[str, Any], chips: Sequence[int], *options: Any) -> None:
        root = graph["vertices"]
        self.own = Probe((0,) * (root + 1), frozenset(), root)
        super().__init__(graph, chips, *options)

    def _count(self, part: int, more: int) -> None:
        counts = list(self.own.counts)
        counts[part] += more
        self.own = self.own._replace(counts=tuple(counts))

    def on_send(self, e: Edge) -> None:
        self._count(e.tail if e.tail >= 0 else len(self.vertices), 1)

    def on_take(self, e: Edge) -> None:
        self._count(e.head, -1)
        self.own = self.own._replace(black=self.own.black | {e.head})

    def own_events(self) -> Iterator[Event]:
        at = self.own.at
        root = len(self.vertices)
        if at < root and self.is_passive(at) or at == root and not self.is_closed():
            yield "pass_on", at, 0

    def pass_on(self, at: int) -> str:
        """Whoever has the token sends it to the next, a vertex once it is passive."""
        if ("pass_on", at, 0) not in self.own_events():
            return "not-now"
        own = self.own
        root = len(self.vertices)
        if at == root:
            self.own = own._replace(at=root - 1, sum=0, is_black=False)
        else:
            self.own = own._replace(
                at=at - 1 if at else root,
                sum=own.sum + own.counts[at],
                black=own.black - {at},
                is_black=own.is_black or self.blackens(at),
            )
        return "done"

    def tells(self, kind: str, at: int) -> list[tuple[int, int]]:
        return [(at, (at or len(self.vertices) + 1) - 1)]

    def blackens(self, at: int) -> bool:
        return at in self.own.black

    def is_closed(self) -> bool:
        own = self.own
        root = len(self.vertices)
        return (
            self.ended and own.at == root and not own.is_black and own.sum + own.counts[root] == 0
        )


class SafraColourless(Safra):
    """Safra's token without colours: one that goes round once and adds up."""

    def blackens(self, at: int) -> bool:
        return False


class Shares(NamedTuple):
    """What a detector by credit keeps: the credit of each vertex, of the messages of each edge, and of the root."""

    vertices: tuple[Fraction, ...]
    messages: tuple[tuple[Fraction, ...], ...]
    root: Fraction


class Credit(_Otherwise):
    """The root has a credit of 1 and gives some with each message. A vertex adds what it takes, gives half of what it
    has with each message, and gives back all when it is passive. The root closes when it has 1 again.
    """

    own: Shares

    def __init__(self, graph: Mapping[str, Any], chips: Sequence[int], *options: Any) -> None:
        edges = len(graph["edges"]) + graph["vertices"]
        self.own = Shares((Fraction(0),) * graph["vertices"], ((),) * edges, Fraction(1))
        super().__init__(graph, chips, *options)

    def _set_credit(self, vertex: int, credit: Fraction) -> None:
        """Sets the credit of a vertex, or of the root if the vertex is -1."""
        if vertex < 0:
            self.own = self.own._replace(root=credit)
        else:
            held = self.own.vertices
            self.own = self.own._replace(vertices=(*held[:vertex], credit, *held[vertex + 1 :]))

    def _set_messages(self, e: Edge, credits: tuple[Fraction, ...]) -> None:
        """Sets the credits of the messages of an edge, the first one first."""
        held = self.own.messages
        self.own = self.own._replace(messages=(*held[: e.number], credits, *held[e.number + 1 :]))

    def on_send(self, e: Edge) -> None:
        half = (self.own.root if e.tail < 0 else self.own.vertices[e.tail]) / 2
        self._set_credit(e.tail, half)
        self._set_messages(e, (*self.own.messages[e.number], half))

    def on_take(self, e: Edge) -> None:
        first, *rest = self.own.messages[e.number]
        self._set_credit(e.head, self.own.vertices[e.head] + first)
        self._set_messages(e, tuple(rest))

    def own_events(self) -> Iterator[Event]:
        return (
            ("give_back", v, 0)
            for v, it in enumerate(self.own.vertices)
            if it and self.is_passive(v)
        )

    def give_back(self, at: int) -> str:
        """A passive vertex gives its credit back to the root."""
        if ("give_back", at, 0) not in self.own_events():
            return "not-now"
        back = self.own.root + self.own.vertices[at]
        self._set_credit(at, Fraction(0))
        self._set_credit(-1, back)
        return "done"

    def tells(self, kind: str, at: int) -> list[tuple[int, int]]:
        return [(at, len(self.vertices))]

    def is_closed(self) -> bool:
        return self.ended and self.own.root == 1


_TRIANGLE = Graph(3, 2, ((0, 1), (0, 2), (1, 0), (1, 2)))


class Known(NamedTuple):
    """A detector, what it does in words, and a small game on which it shows what it does."""

    make: type[Core]
    says: str
    game: Setting = Setting(_TRIANGLE, (4, 0, 0))


DETECTORS = {
    "right": Known(Core, "the detector of Dijkstra and Scholten"),
    "at-once": Known(AtOnce, "a vertex acknowledges each message as soon as it has taken it"),
    "without-passive": Known(
        WithoutPassive,
        "a vertex acknowledges the engaging message last, but also while it is at work",
    ),
    "without-deficit": Known(
        WithoutDeficit, "a passive vertex acknowledges the engaging message, whatever it waits for"
    ),
    "any-order": Known(
        AnyOrder, "a passive vertex that waits for nothing acknowledges in any order"
    ),
    "one-edge": Known(
        OneEdge,
        "the root reads the first edge alone on which it sent something",
        Setting(_TRIANGLE, (1, 2, 0)),
    ),
    "safra": Known(Safra, "Safra's token"),
    "safra-colourless": Known(
        SafraColourless, "a token that adds up what was sent and taken, without colours"
    ),
    "credit": Known(Credit, "credit that the root gives out and gets back"),
}


def known_detector(name: str | type[Core]) -> Known:
    """The detector of a name; of a class, what its docstring says."""
    if not isinstance(name, str):
        if not (isinstance(name, type) and issubclass(name, Core)):
            raise TypeError(
                f"a detector is a name or a class that is made of chipfire.model.Core, and not {name!r}"
            )
        return Known(name, (name.__doc__ or name.__name__).strip().partition("\n")[0].rstrip("."))
    if name not in DETECTORS:
        raise ValueError(f"there is no detector {name!r}, but {', '.join(DETECTORS)}")
    return DETECTORS[name]
