"""The distributed machine: schedules, replies, books and traces, and the result of a schedule.

docs/CORE.md says what each event does, docs/DETECTOR.md what stands in the books, and docs/TRACES.md what a trace is.
"""

from __future__ import annotations

import functools
import json
import os
from collections.abc import Callable, Iterable, Mapping, Sequence
from dataclasses import dataclass, field
from typing import Any, NamedTuple

from chipfire.backend.report import Report
from chipfire.graphs.graph import Graph
from chipfire.lab import model
from chipfire.utils import (
    as_int,
    FileName,
    has_header,
    MAX_LIMIT,
    MAX_VERTICES,
    no_graph,
    package_text,
    read_rows,
    rows_text,
    VertexNumber,
    write_text,
)

SCHEDULE_HEADER = ("event", "at", "count")
NOTED_HEADER = (*SCHEDULE_HEADER, "note")
TRACE_HEADER = ("vertex", "kind", "edge", "count")

#: The words for what happens; of each rule what it says, and what is so if it is not met, as `chipfire explain rule`.
WORDS: dict[str, Any] = json.loads(package_text("web", "words.json"))

#: What each rule says that the reply `not-now N` names; docs/FORMATS.md has the table.
RULES: dict[int, str] = {number: met for number, (met, _) in enumerate(WORDS["rules"], 1)}

#: What it is called and what is so if it is not met.
UNMET = {
    number: (name, str(unmet))
    for (name, number), (_, unmet) in zip(model.RULES.items(), WORDS["rules"])
}


class Event(NamedTuple):
    """A row of a schedule; docs/CORE.md says what each event does."""

    kind: str
    at: int
    count: int = 0  # type: ignore[assignment]


def _event(kind: str, says: str) -> Callable[[Schedule, int], Schedule]:
    """A method of schedules that adds an event of a kind, of which it says what happens."""

    def add(self: Schedule, at: int) -> Schedule:
        self.append(Event(kind, at))
        return self

    add.__name__ = kind
    add.__doc__ = says
    return add


class Schedule(list[Event]):
    """A list of events, with a method that adds one for each kind. Notes to events are for readers alone."""

    def __init__(self, events: Iterable[Sequence[Any]] = ()) -> None:
        super().__init__(Event(*event) for event in events)
        #: Whether nothing more was to come. A random schedule that is cut is not ended.
        self.ended = bool(getattr(events, "ended", True))
        #: The notes, by the index of their event.
        self.notes: dict[int, str] = dict(getattr(events, "notes", {}))

    take = _event("take", "The head of this edge takes the next message, if there is one.")
    ack = _event("ack", "The head of this edge acknowledges what it may acknowledge there now.")
    claim = _event("claim", "The tail of this edge claims the next place for all that is pending.")
    put = _event("put", "The tail of this edge puts the message that it claimed into its cell.")
    halt = _event("halt", "This vertex halts, if it has a cause.")
    settle = _event(
        "settle",
        "The tail of this edge, or the root, reads how many of its messages are acknowledged.",
    )
    seal = _event("seal", "Nothing is sent on this edge from now on.")
    read = _event("read", "The root reads how often this vertex fired, once it is closed.")

    def clear(self, edge: int) -> Schedule:  # type: ignore[override]
        """The tail of this edge reads whether the next cell is empty."""
        self.append(Event("clear", edge))
        return self

    def fire(self, vertex: int, count: int = 1) -> Schedule:
        """A vertex fires `count` times in a row."""
        self.append(Event("fire", vertex, count))
        return self

    def send(self, edge: int) -> Schedule:
        """What a tail does to send: clear, claim and put."""
        return self.clear(edge).claim(edge).put(edge)

    def feed(self, edge: int, count: int) -> Schedule:
        """What the root does to feed chips on one of its edges: clear, feed and put."""
        self.clear(edge).append(Event("feed", edge, count))
        return self.put(edge)

    def end(self) -> Schedule:
        """The root notes that nothing more is fed; before that it never closes in a simulation that is `fed`."""
        self.append(Event("end", 0))
        return self

    def note(self, text: str) -> Schedule:
        """Puts a note to the last event."""
        self.notes[len(self) - 1] = text
        return self


class TraceRow(NamedTuple):
    """A row of a trace file: what one vertex took ("take") or fired ("fire"), by its number; docs/TRACES.md."""

    vertex: int
    kind: str
    edge: int
    count: int  # type: ignore[assignment]


class Firing(NamedTuple):
    """`count` firings in a row of the vertex that has this number."""

    vertex: int
    count: int  # type: ignore[assignment]


def trace_text(trace: Iterable[Sequence[Any]]) -> str:
    return rows_text(TRACE_HEADER, (TraceRow(*row) for row in trace))


def write_schedule(
    file: FileName, schedule: Iterable[Sequence[Any]], *, notes: bool = True
) -> None:
    """Writes a schedule: a row for each event, which is a tuple of a kind, an edge or a vertex, and perhaps a count.
    Notes are a fourth column, which only this package reads (the program: fault 23), and left out without `notes`.
    """
    events = Schedule(schedule)
    noted = ((*event, events.notes.get(index, "")) for index, event in enumerate(events))
    write_text(
        file,
        rows_text(NOTED_HEADER, noted)
        if events.notes and notes
        else rows_text(SCHEDULE_HEADER, events),
    )


def has_notes(file: FileName) -> bool:
    """Whether a file is there and begins as a schedule with notes does."""
    return os.path.isfile(file) and has_header(file, NOTED_HEADER)


def read_schedule(file: FileName) -> Schedule:
    """The events of a schedule, with their notes."""
    schedule = Schedule()
    for kind, at, count, *notes in read_rows(
        file, NOTED_HEADER if has_notes(file) else SCHEDULE_HEADER
    ):
        schedule.append(Event(kind, int(at), int(count)))
        if any(notes):
            schedule.note(notes[0])
    return schedule


def write_trace(file: FileName, trace: Iterable[Sequence[Any]]) -> None:
    """Writes a trace file: a row for each take and each fire."""
    write_text(file, trace_text(trace))


def read_trace(file: FileName) -> list[TraceRow]:
    """The rows of a trace file."""
    rows = read_rows(file, TRACE_HEADER)
    return [
        TraceRow(VertexNumber(vertex), kind, int(edge), int(count))
        for vertex, kind, edge, count in rows
    ]


@dataclass(frozen=True)
class Reply:
    """The reply to an event: "done", "got", "sent", "empty", "full", "sealed" or "not-now", and numbers after it."""

    kind: str
    numbers: tuple[int, ...] = ()

    @property
    def is_done(self) -> bool:
        """Whether the event happened: each rule of it was met."""
        return self.kind != "not-now"

    @property
    def rule(self) -> str | None:
        """The first rule that was not met, in words."""
        return None if self.is_done else RULES[self.numbers[0]]

    @property
    def name(self) -> str | None:
        """What that rule is called: "Engaged" of `not-now 15`."""
        return None if self.is_done else UNMET[self.numbers[0]][0]

    @property
    def why(self) -> str | None:
        """What is so, since the rule is not met."""
        return None if self.is_done else UNMET[self.numbers[0]][1]

    def __str__(self) -> str:
        return " ".join([self.kind, *map(str, self.numbers)])


@dataclass(frozen=True)
class Books:
    """The books of an engaged vertex: its parent edge, how many acknowledgements it awaits, and owes on each edge."""

    parent: int | None
    deficit: int
    owed: dict[int, int]


@dataclass(frozen=True)
class Board:
    """What stands in all books after an event: the root's deficit, and the books of each engaged vertex, by its number."""

    root_deficit: int
    engaged: dict[int, Books]

    @classmethod
    def parse(cls, lines: Sequence[str]) -> Board:
        """The board of its lines: that of the root, and one for each engaged vertex."""
        return cls(int(lines[0].split()[2]), dict(map(_engaged, lines[1:])))


@functools.lru_cache(maxsize=MAX_VERTICES)
def _engaged(line: str) -> tuple[int, Books]:
    """A vertex and its books, of their line. Most lines of a board are those of the board before it."""
    _, vertex, _, parent, _, deficit, _, *owed = line.split()
    counts = (map(int, word.split(":")) for word in owed)
    return VertexNumber(vertex), Books(
        int(parent), int(deficit), {edge: count for edge, count in counts}
    )


@dataclass(frozen=True)
class Setting:
    """A game that a schedule plays: the graph, the chips at the start, which may have any form, how often each vertex
    may fire, how many cells the ring of each edge has, and whether the schedule may feed chips."""

    graph: Graph
    chips: tuple[int, ...]
    limit: int = MAX_LIMIT
    ring: int = 1
    fed: bool = False

    def __post_init__(self) -> None:
        if not isinstance(self.graph, Graph):
            raise no_graph(self.graph, "the graph of a setting is a chipfire.Graph")
        self.graph.refuse_loops()
        object.__setattr__(self, "chips", self.graph.chips(self.chips))
        object.__setattr__(self, "limit", as_int(self.limit, "limit", 0, MAX_LIMIT))
        object.__setattr__(self, "ring", as_int(self.ring, "ring", 1, 64))


@dataclass(frozen=True)
class Simulation:
    """The result of a schedule: a reply for each event, the report if the root closed, and a board for each reply if
    the books were asked for. The rest is what was asked, and `made_up` says which events were added to the schedule.

    A closed root says that all is over; `report.closed` says besides that no limit and no seal stopped a vertex.
    """

    replies: tuple[Reply, ...]
    report: Report | None
    boards: tuple[Board, ...] = ()
    schedule: tuple[Event, ...] = field(default=(), compare=False, repr=False)
    notes: Mapping[int, str] = field(default_factory=dict, compare=False, repr=False)
    rounds: int = field(default=0, compare=False, repr=False)
    made_up: str = field(default="", compare=False, repr=False)
    setting: Setting | None = field(default=None, compare=False, repr=False)

    @classmethod
    def parse(cls, text: str, graph: Graph | None = None) -> Simulation:
        """The simulation of a text as the program writes it."""
        lines = text.splitlines()
        report = Report.parse(lines.pop(), graph) if "root closed" in lines[-2:] else None
        replies: list[Reply] = []
        boards: list[list[str]] = []
        for line in lines[:-1]:
            if line.startswith(" "):
                boards[-1].append(line)
            else:
                kind, *numbers = line.split()
                replies.append(Reply(kind, tuple(map(int, numbers))))
                boards.append([])
        return cls(tuple(replies), report, tuple(Board.parse(board) for board in boards if board))

    @property
    def root_closed(self) -> bool:
        return self.report is not None

    @property
    def game(self) -> Setting:
        """The setting, if `simulate` returned this simulation."""
        if self.setting is None:
            raise ValueError(
                "this simulation does not know what was asked: take what `simulate` returns"
            )
        return self.setting
