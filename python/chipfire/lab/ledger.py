"""The state after each event of a simulation: a game of the model that is compared with the program's results.

A `Ledger` plays the schedule on `chipfire.model`, and shows what stands in vertices, edges and books. It compares each
reply with the program's (`note`), after each event the books (`compare`), and at the end the report (`close`).
"""

from __future__ import annotations

from typing import Any, Union

from chipfire.backend.report import Report
from chipfire.lab.computations import Computed
from chipfire.lab.machine import Board, Books, Event, Reply
from chipfire.lab.schedules import Detector, Game, opened

#: One fact that an event changed: "root", "vertices" or "edges", the number there, the fact's name, its new value.
Change = tuple[str, int, str, Any]

#: The facts of the root, of each vertex and of each edge.
State = dict[str, list[dict[str, Any]]]

#: The facts that are the books of acknowledgements, as they are where none are kept.
_NO_BOOKS: dict[str, Any] = {
    "deficit": 0,
    "parent": None,
    "acknowledged": 0,
    "settled": 0,
    "owed": 0,
}

#: What stopped a vertex, by the model's word for it.
_HALTS = {None: None, "sealed": "seal", "over": "limit"}


class Disagreement(Exception):
    """Two results of the program do not fit together, or not with the model."""


class Ledger:
    """The state of a game, event by event."""

    #: Whether the detector keeps books of acknowledgements.
    keeps_books = True

    def __init__(self, setting: Game, detector: Detector = "right") -> None:
        self.core = opened(setting, detector)
        #: The books of the engaged vertices.
        self._books: dict[int, Books] = {}
        self.refresh()

    def refresh(self) -> None:
        """Takes all facts from the game, which somebody else has changed."""
        self.facts: State = {
            "root": [self._root(0)],
            "vertices": list(map(self._vertices, range(len(self.core.vertices)))),
            "edges": list(map(self._edges, range(len(self.core.edges)))),
        }

    def state(self) -> State:
        """All facts, as they stand now."""
        return {kind: list(rows) for kind, rows in self.facts.items()}

    def _root(self, _: int) -> dict[str, Any]:
        core = self.core
        deficit = core.deficit(core.edges[core.graph_edges :])
        return {"deficit": deficit, "ended": core.ended, "closed": core.is_closed()}

    def _vertices(self, vertex: int) -> dict[str, Any]:
        """A vertex: its chips and firings, what halted it, the edge that engaged it, and its deficit."""
        its = self.core.vertices[vertex]
        deficit = self.core.deficit(self.core.outs(vertex))
        halted = _HALTS[its.halt]
        return {
            "chips": its.chips,
            "fired": its.fired,
            "halted": halted,
            "parent": its.parent,
            "deficit": deficit,
        }

    def _edges(self, edge: int) -> dict[str, Any]:
        """An edge: its chips, its messages, those in cells as (place, chips), and what its ends noted of them."""
        its = self.core.edges[edge]
        return {
            "pending": its.pending,
            "claimed": self._carried(its.sent[its.put :]),
            "cells": [
                (at, self._carried(its.sent[at : at + 1])) for at in range(its.delivered, its.put)
            ],
            "clear": its.clear,
            "refused": its.refused,
            "sealed": its.sealed,
            "sent": len(its.sent),
            "taken": its.delivered,
            "acknowledged": its.acked,
            "settled": its.settled,
            "owed": its.delivered - its.acked,
        }

    def _carried(self, loads: tuple[Any, ...]) -> Any:
        """What messages carry in all."""
        return sum(loads)

    def note(self, event: Event, reply: Reply) -> list[Change]:
        """Makes an event that has this reply, and returns what it changed."""
        self._agree(f"{event.kind} {event.at}", str(reply), self.core.step(*event))
        if not reply.is_done:
            return []
        core = self.core
        if event.kind in ("fire", "halt", "read"):
            edges = core.outs(event.at)
            vertices = [event.at]
        else:
            edge = core.edges[core.graph_edges if event.kind == "end" else event.at]
            edges = [edge]
            vertices = [vertex for vertex in (edge.head, edge.tail) if vertex >= 0]
        touched = [
            *(("edges", edge.number) for edge in edges),
            *(("vertices", it) for it in vertices),
            ("root", 0),
        ]
        return self._changes(touched)

    def _changes(self, touched: list[tuple[str, int]]) -> list[Change]:
        """What has changed of these facts: edges, vertices, and the root."""
        changes = []
        for kind, index in touched:
            before = self.facts[kind][index]
            now = getattr(self, f"_{kind}")(index)
            changes += [
                (kind, index, name, value)
                for name, value in now.items()
                if before.get(name) != value
            ]
            self.facts[kind][index] = now
            if kind == "vertices":
                self._books.pop(index, None)
                if now["parent"] is not None:
                    owing = (edge for edge in self.core.ins(index) if edge.delivered > edge.acked)
                    owed = {edge.number: edge.delivered - edge.acked for edge in owing}
                    self._books[index] = Books(now["parent"], now["deficit"], owed)
        return changes

    def compare(self, board: Board) -> None:
        """Compares what the detector has in its books with what the program says that it has."""
        self._agree("the root's deficit", board.root_deficit, self.facts["root"][0]["deficit"])
        self._agree("the books", board.engaged, self._books)
        # (most books of the next board are the very objects of this one, and so are equal at a glance)
        self._books = dict(board.engaged)

    def close(self, report: Union[Report, None]) -> None:
        """Compares the end with the report, which comes exactly if the root is closed."""
        self._agree(
            "the end",
            report and report.text().strip(),
            self.core.report() if self.core.is_closed() else None,
        )

    @staticmethod
    def _agree(what: str, said: Any, known: Any) -> None:
        if said != known:
            raise Disagreement(f"{what}: the program says {said}, and the model {known}")


class ModelLedger(Ledger):
    """The same of a run that the model alone plays. Loads and states of other computations are words, and so is what a
    detector of another kind keeps: they are facts of the root. Of one that keeps no books none are shown.
    """

    def __init__(
        self, setting: Game, detector: Detector = "right", keeps_books: bool = True
    ) -> None:
        self.keeps_books = keeps_books
        super().__init__(setting, detector)

    def _kept(self, facts: dict[str, Any]) -> dict[str, Any]:
        """Facts, without those of books that nobody keeps."""
        return (
            facts
            if self.keeps_books
            else {name: _NO_BOOKS.get(name, value) for name, value in facts.items()}
        )

    def _root(self, _: int) -> dict[str, Any]:
        own = [f"{name} {value}" for name, value in vars(self.core).items() if name != "ended"]
        return {**self._kept(super()._root(0)), **({"own": "; ".join(own)} if own else {})}

    def _vertices(self, vertex: int) -> dict[str, Any]:
        facts = self._kept(super()._vertices(vertex))
        core = self.core
        if isinstance(core, Computed):
            facts["chips"] = core.computation.show(core.vertices[vertex])
        return facts

    def _edges(self, edge: int) -> dict[str, Any]:
        return self._kept(super()._edges(edge))

    def _carried(self, loads: tuple[Any, ...]) -> Any:
        return ", ".join(map(str, loads)) if isinstance(self.core, Computed) else sum(loads)

    def note(self, event: Event, reply: Reply) -> list[Change]:
        """Makes an event, and returns what it changed."""
        self.core.step(*event)
        return self._changes(
            [(kind, index) for kind, rows in self.facts.items() for index in range(len(rows))]
        )
