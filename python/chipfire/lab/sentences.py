"""Events, replies and changed facts in plain words, for the page of a run. The words stand in web/words.json."""

from __future__ import annotations

from collections.abc import Iterable
from typing import Any

from chipfire.graphs.graph import Graph
from chipfire.lab.ledger import Change
from chipfire.lab.machine import Event, Reply, WORDS
from chipfire.lab.model import Core
from chipfire.lab.schedules import EVENTS, WORK
from chipfire.utils import with_unit

_COUNTED = ("chip", "firing", "message", "acknowledgement")


def _numbers(count: Any) -> dict[str, str]:
    """A number with the name of each thing that is counted: "3 chips" by "chips", and so on. Other values have none."""
    if not isinstance(count, int):
        return {}
    return {f"{word}s": with_unit(count, word) for word in _COUNTED}


class Sentences:
    """The words for what happens on a graph: in chip-firing, or in a computation without a sink and with any loads."""

    def __init__(self, graph: Graph, is_firing: bool = True) -> None:
        self.graph = graph
        self.is_firing = is_firing
        own = (
            {}
            if is_firing
            else {name: said for name, said in WORDS["computation"].items() if name in WORDS}
        )
        self.words: dict[str, dict[str, str]] = {
            **WORDS,
            **{name: {**WORDS[name], **own[name]} for name in own},
        }

    def vertex(self, vertex: int) -> str:
        """What a vertex is called."""
        name = self.graph.names[vertex]
        if vertex == self.graph.sink and self.is_firing:
            return "the sink" if name == "sink" else f"the sink {name}"
        return f"vertex {name}"

    def ends(self, edge: int) -> tuple[str, str]:
        """Who sends on an edge, and who takes."""
        if edge >= len(self.graph.edges):
            return "the root", self.vertex(edge - len(self.graph.edges))
        tail, head, _ = self.graph.edges[edge]
        return self.vertex(tail), self.vertex(head)

    def part(self, part: int) -> str:
        """What a vertex is called, or the root, which comes after them."""
        return "the root" if part == self.graph.vertices else self.vertex(part)

    def event(
        self, event: Event, reply: Reply | None = None, tells: Iterable[tuple[int, int]] = ()
    ) -> str:
        """What happens, or what is tried, if the reply says that it was refused or found nothing; of an event of the
        detector's own who sends to whom."""
        if event.kind == WORK:
            return f"Vertex {self.graph.names[event.at]} goes on, in way {event.count}."
        if event.kind not in EVENTS:
            said = " and ".join(f"{self.part(it)} sends to {self.part(to)}" for it, to in tells)
            said = said or "the detector has an event of its own"
            return f"{said[0].upper()}{said[1:]} ({event.kind} {event.at})."
        is_idle = reply is not None and reply.kind in ("not-now", "empty")
        return self._said(self.words["tries" if is_idle else "events"][event.kind], event) + "."

    def ask(self, event: Event) -> str | None:
        """What can be asked about an event before its reply is known; None if there is nothing to ask."""
        asked = self.words["asks"].get(event.kind)
        return asked and self._said(asked, event)

    def reasons(self, event: Event, core: Core) -> list[tuple[str, str]]:
        """Why the rule of the right detector forbids an acknowledgement: the names of the reasons, with their words."""
        if event.kind != "ack" or event.at >= len(core.edges):
            return []
        edge = core.edges[event.at]
        if edge.delivered == edge.acked:
            return [("nothing", self.words["reasons"]["nothing"])]
        is_last = core.vertices[edge.head].parent == event.at and edge.delivered == edge.acked + 1
        return self._waits(event.at, core) if is_last else []

    def send(self, event: Event, chips: int) -> str:
        """What a put is, together with the clear and the claim before it."""
        return self._said(self.words["send"]["put"], event._replace(count=chips)) + "."

    def _said(self, words: str, event: Event) -> str:
        """Words with what they say of an event, and a capital letter."""
        kind, at, count = event
        times = {1: "once", 2: "twice"}.get(count) or with_unit(count, "time")
        facts = {"at": str(at), "times": times, **_numbers(count)}
        if kind in ("fire", "halt", "read"):
            facts["vertex"] = self.vertex(at)
        elif kind != "end":
            facts["tail"], facts["head"] = self.ends(at)
        said = words.format(**facts)
        return f"{said[0].upper()}{said[1:]}"

    def reply(self, event: Event, reply: Reply, core: Core | None = None) -> str:
        """What the reply to an event was; with the game before it, also why exactly it was refused."""
        if event.kind not in EVENTS and not reply.numbers:
            return "Done." if reply.is_done else "Refused. Nothing was done."
        kind = event.kind if reply.kind == "done" else reply.kind
        last = reply.numbers[-1] if reply.numbers else 0
        why = (
            "; ".join(it for _, it in self.reasons(event, core))
            if core and reply.name == "Engaged"
            else ""
        )
        place = str([*reply.numbers, 0][0])
        words = {
            "number": str(last),
            "why": why or str(reply.why),
            "place": place,
            **_numbers(last),
        }
        if event.kind in ("settle", "end"):
            words["acknowledgements"] = with_unit(last, "new acknowledgement")
        return self.words["replies"][f"halt {last}" if kind == "halt" else kind].format(**words)

    def _waits(self, edge: int, core: Core) -> list[tuple[str, str]]:
        """What a vertex has still to do, or to wait for, before it may acknowledge the message that engaged it."""
        vertex = core.edges[edge].head
        waits = self.words["waits"]
        outs = core.outs(vertex)
        runs = core.vertices[vertex].halt is None
        pending = sum(out.pending for out in outs) if runs else 0
        deficit = core.deficit(outs)
        heads = dict.fromkeys(
            self.ends(out.number)[1] for out in outs if len(out.sent) > out.settled
        )
        found = [("work", waits["chips"])] if runs and not pending and core.is_legal(vertex) else []
        found += [("work", waits["pending"].format(**_numbers(pending)))] if pending else []
        found += [("work", waits["claimed"])] if core.has_unput(vertex) else []
        if deficit:
            found.append(
                ("deficit", waits["deficit"].format(heads=" and ".join(heads), **_numbers(deficit)))
            )
        for other in core.ins(vertex):
            owed = other.delivered - other.acked
            if owed and other.number != edge:
                found.append(("owed", waits["owed"].format(at=other.number, **_numbers(owed))))
        return found

    def load(self, load: Any) -> str:
        """What a message carries."""
        return with_unit(load, "chip") if self.is_firing else str(load)

    def change(self, change: Change) -> str:
        """What one fact has become."""
        kind, index, name, value = change
        known = self.words["changes"]
        key = f"root {name}" if kind == "root" else name
        words = {"value": str(value), **_numbers(value)}
        if name == "parent" and value is not None:
            words["tail"] = self.ends(value)[0]
        if name == "cells":
            words["cells"] = " and ".join(
                f"{self.load(load)} at place {place}" for place, load in value
            )
            value = list(value)
        said = (known.get(f"{key} {value}") or known[key]).format(**words)
        if kind == "root":
            return said
        of = self.vertex(index) if kind == "vertices" else f"edge {index}"
        return f"{of}: {said}"
