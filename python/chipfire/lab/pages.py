"""A page that shows a run of the machine event by event: one file of HTML, which asks for nothing else.

Replies and books are the program's, but for what `play` played on the model alone. All else is the model's, also the
events that are added to rounds and to recorded runs: a `Ledger` compares each reply, the books after each event, and
the report at the end. The page simulates nothing: it gets the facts that each event changed.
"""

from __future__ import annotations

import html
import itertools
import json
import string
from collections import deque
from collections.abc import Collection, Iterable, Iterator, Mapping, Sequence
from dataclasses import replace
from typing import Any

from chipfire.backend.commands import (
    AnyGraph,
    AnyProgram,
    known_chips,
    known_graph,
    replay,
    simulate,
)
from chipfire.configurations.configuration import Chips
from chipfire.lab.detectors import known_detector
from chipfire.lab.layout import places_of, Point
from chipfire.lab.ledger import Disagreement, Ledger, ModelLedger
from chipfire.lab.machine import (
    Event,
    read_trace,
    Reply,
    Schedule,
    Setting,
    Simulation,
    TraceRow,
    WORDS,
)
from chipfire.lab.model import Core
from chipfire.lab.schedules import Detector, EVENTS, Game, game_of, is_early, Play, WORK
from chipfire.lab.sentences import Sentences
from chipfire.utils import (
    FILE,
    FileName,
    MAX_LIMIT,
    package_text,
    PAGE_POLICY,
    with_unit,
    write_text,
)

#: The sizes of rings that are tried for a trace, which does not say its own.
RINGS = (1, 2, 4, 8, 16, 32, 64)

#: How many rows of a schedule or a trace a page shows at most, and how many events of rounds.
MOST_ROWS = 10_000
_SAYS: dict[str, str] = WORDS["pages"]


def page(
    simulation: Simulation | Play,
    file: FileName,
    *,
    title: str = "A run of chipfire",
    positions: Mapping[Any, Point] | None = None,
    program: AnyProgram = None,
) -> None:
    """Writes a page on which a run can be watched, event by event.

    Parameters
    ----------
    simulation : Simulation or Play
        What `simulate`, `recorded` or `play` returned, with at most 10,000 rows. The program runs a simulation again,
        with books and with the events of rounds. For a `Play`, the program is not run.
    file : path
        The page to write, one HTML file that loads nothing else.
    title : str, optional
        The title of the page.
    positions : mapping of names to (right, down), optional
        Where the vertices are drawn. By default, a grid is drawn as a grid, and any other graph by the distances of its
        vertices to the sink.
    program : path, optional
        The program to run. By default, the program that the package finds.

    Raises
    ------
    ValueError
        There are too many rows, or the model disagrees with the program.

    See Also
    --------
    simulate, recorded, play, wrong_page

    Notes
    -----
    Proved: the replies and the books of a simulation. Not proved: the page, and its chips and messages, which come from
    the model in Python.

    Examples
    --------
    >>> triangle = chipfire.Graph(3, 2, [(0, 1), (0, 2), (1, 0), (1, 2)])
    >>> chipfire.page(chipfire.simulate(triangle, [4, 0, 0], [("take", 4, 0), ("fire", 0, 2)]), "run.html")
    """
    write_text(file, page_text(simulation, title=title, positions=positions, program=program))


def page_text(
    simulation: Simulation | Play,
    *,
    title: str = "A run of chipfire",
    positions: Mapping[Any, Point] | None = None,
    program: AnyProgram = None,
) -> str:
    """The text of the page that `page` writes."""
    # The rows of a recorded run are counted already.
    if isinstance(simulation, Play) or not simulation.made_up:
        refuse_more(simulation.schedule)
    if isinstance(simulation, Play):
        words = Words(simulation.game)
        data = model_data(simulation, words, positions) | {"words": list(words.numbers)}
        return filled(title, data, model_parts(simulation), "run-model.html", "drawing.html")
    run = spelled_out(simulation, program)
    ledger = Ledger(run.game)
    words = Words(run.game)
    steps = [words.step(ledger, *row) for row in compared(run, ledger)]
    ledger.close(run.report)
    for index, note in run.notes.items():
        steps[index]["note"] = note
    parts = {
        "events": with_unit(len(steps), "event"),
        "made_up": f"<p>{html.escape(run.made_up)}</p>",
    }
    parts["end"] = _SAYS["report" if run.report else "no report"]
    data = page_data(run, positions)
    data |= {
        "steps": steps,
        "words": list(words.numbers),
        "end": {"text": _end(run, ledger), "isWrong": False},
    }
    return filled(title, data, parts, "run-proved.html", "drawing.html")


def model_data(run: Play, words: Words, positions: Mapping[Any, Point] | None) -> dict[str, Any]:
    """What the page of a run shows that the model alone played."""
    done = {event.kind for event, reply in zip(run.schedule, run.replies) if reply.is_done}
    ledger = ModelLedger(run.game, run.detector, keeps_books(run.detector, done))
    game = run.game
    start = ledger.state()
    roots = ledger.core.outs(-1)
    shown = (
        game
        if isinstance(game, Setting)
        else Setting(game.graph, tuple(int(e.put > 0) for e in roots))
    )
    data = page_data(
        Simulation(run.replies, None, (), tuple(run.schedule), setting=shown), positions
    )
    if shown is not game:  # (what is called a sink is a vertex as any other)
        data |= {it: WORDS["computation"][it] for it in ("titles", "hidden", "opening")}
        data |= {"edges": [(*edge[:2], 1) for edge in data["edges"]]}
        data |= {} if data["places"]["frame"] else {"sink": -1}
    if not ledger.keeps_books:
        data["hidden"] = [*data.get("hidden", ()), *WORDS["books"]]
    steps: list[dict[str, Any]] = []
    early = [0] * is_early(ledger.core)
    for number, row in enumerate(zip(run.schedule, run.replies), 1):
        steps.append(words.step(ledger, *row))
        early += [number] * is_early(ledger.core)
    for index, note in run.schedule.notes.items():
        steps[index]["note"] = note
    end = (
        closed_end(run.left) if run.root_closed else {"text": "The root is open.", "isWrong": False}
    )
    if early and not end["isWrong"]:
        end = {"text": _SAYS["early"].format(event=early[0]), "isWrong": True}
    return {**data, "start": start, "steps": steps, "end": end}


def keeps_books(detector: Detector, done: Collection[str]) -> bool:
    """Whether a detector keeps books of acknowledgements: not if it neither closes by them, nor gives any on a page.
    `done` has the kinds of the page's events that did something."""
    make = known_detector(detector).make
    return "ack" in done or make.may_ack is Core.may_ack or make.is_closed is Core.is_closed


def closed_end(left: Iterable[str]) -> dict[str, Any]:
    """The verdict on a root that is closed: it is wrong if something is left."""
    still = " and ".join(
        it.replace(" can ", " can still ").replace(" is ", " is still ") for it in left
    )
    return {
        "text": f"The root is closed; {still}." if still else _SAYS["closed"],
        "isWrong": bool(still),
    }


def model_parts(run: Play) -> dict[str, str]:
    """What such a page says of the detector and the computation."""
    known = known_detector(run.detector)
    game = type(run.game)
    names = [f"{made.__module__}.{made.__qualname__}" for made in (known.make, game)]
    parts = {
        "says": known.says,
        "kind": names[0],
        "game": "chip-firing" if game is Setting else names[1],
    }
    return {name: html.escape(text) for name, text in parts.items()}


def refuse_more(rows: Sequence[Any] | FileName) -> None:
    """Refuses a schedule or a trace that is too long for a page, before it is played."""
    if isinstance(rows, FILE):
        with open(rows, encoding="utf-8") as file:
            count = sum(1 for _ in itertools.islice(file, MOST_ROWS + 2)) - 1
    else:
        count = len(rows)
    if count > MOST_ROWS:
        raise ValueError(
            f"a page shows at most {MOST_ROWS:,} rows of a schedule or a trace, and here are more"
        )


def filled(
    title: str, data: Mapping[str, Any], parts: Mapping[str, str], proved: str, drawings: str
) -> str:
    """The page of a run: what it says about proofs and its drawings come from files of the folder web, with parts."""
    # (in a script of HTML no text may look like a tag)
    text = json.dumps(data, separators=(",", ":")).replace("<", "\\u003c")
    held = {
        "title": html.escape(title),
        "data": text,
        "policy": PAGE_POLICY,
        "style": package_text("web", "run.css"),
    }
    held |= {
        "script": package_text("web", "run.js"),
        "proved": string.Template(package_text("web", proved)).substitute(parts),
    }
    held["drawings"] = string.Template(package_text("web", drawings)).substitute(parts)
    return string.Template(package_text("web", "run.html")).substitute(held)


def _end(run: Simulation, ledger: Ledger) -> str:
    """The verdict at the end of a run."""
    if run.report is not None:
        return _SAYS["closed" if run.report.closed else "stopped"]
    waits = with_unit(ledger.facts["root"][0]["deficit"], "acknowledgement")
    return _SAYS["open" if ledger.core.ended else "not ended"].format(acknowledgements=waits)


def recorded(
    graph: AnyGraph,
    chips: Chips,
    trace: Iterable[Sequence[Any]] | FileName,
    *,
    limit: int | None = None,
    ring: int | None = None,
    program: AnyProgram = None,
) -> Simulation:
    """Returns a run on threads, rebuilt from its trace, as a simulation with books.

    Parameters
    ----------
    graph : Graph or path
        The graph, or the name of its file.
    chips : Chips
        The chips at the start, in any form that `Graph.chips` takes, or the name of a chips file.
    trace : iterable of rows, or path
        The rows (vertex, kind, edge, count) that `run` recorded, or the name of their file.
    limit : int, optional
        How often each vertex may fire, from 0 to 2^40, which is the default.
    ring : int, optional
        The length of the rings of the run. By default the least of 1, 2, 4 and so on that plays all rows.
    program : path, optional
        The program to run. By default, the program that the package finds.

    Returns
    -------
    Simulation
        The simulation, for `page`.

    Raises
    ------
    Fault
        The rows have no possible order (fault 70), or are refused.

    See Also
    --------
    run, replay, page

    Notes
    -----
    A trace does not say when a vertex sent or acknowledged messages, or how the rows of different vertices interleave.
    The missing events are added as early as possible.

    Proved: the replies and the books. Not proved: which events are added.

    Examples
    --------
    >>> triangle = chipfire.Graph(3, 2, [(0, 1), (0, 2), (1, 0), (1, 2)])
    >>> report = chipfire.run(triangle, [4, 0, 0], trace="trace.csv")
    >>> chipfire.recorded(triangle, [4, 0, 0], "trace.csv").report.fired
    (2, 1, 0)
    """
    if isinstance(trace, FILE):
        refuse_more(trace)
    rows = read_trace(trace) if isinstance(trace, FILE) else [TraceRow(*row) for row in trace]
    refuse_more(rows)
    known = known_graph(graph, program)
    start = known_chips(known, chips, program)
    replay(known, start, rows, limit=limit, program=program)
    setting = Setting(known, start, MAX_LIMIT if limit is None else limit)
    rings = RINGS if ring is None else [ring]
    for cells in rings:
        events = spell_trace(replace(setting, ring=cells), rows)
        if events is None:
            continue
        simulation = simulate(
            known, start, events, limit=limit, ring=cells, books=True, program=program
        )
        sizes = {"rows": with_unit(len(rows), "row"), "cells": with_unit(cells, "cell")}
        return replace(simulation, made_up=_SAYS["recorded"].format(**sizes))
    raise ValueError(
        f"the rows of the trace cannot be played over rings of {rings[-1]} cells: which ring had the run?"
    )


class _Spelled(Core):
    """A game that writes its events down, but for reads that find nothing."""

    def __init__(self, *words: Any) -> None:
        super().__init__(*words)
        self.events = Schedule()

    def step(self, kind: str, at: int, count: int = 0) -> str:
        reply = super().step(kind, at, count)
        if reply not in ("empty", "full") and (kind, reply) != ("settle", "done 0"):
            self.events.append(Event(kind, at, count))
        return reply


def spell_rounds(setting: Setting, schedule: Sequence[Event], rounds: int) -> tuple[Event, ...]:
    """A schedule, and after it the events of `rounds` rounds of turns, or of those until the root is closed."""
    core = game_of(setting, _Spelled)
    for event in schedule:
        core.step(*event)
    core.events = Schedule()
    before = -1
    while rounds and len(core.events) > before:
        before = len(core.events)
        rounds = rounds - 1
        core.drive(1)
        if len(core.events) > MOST_ROWS:
            raise ValueError(
                f"a page shows at most {MOST_ROWS:,} events of rounds, and here are more"
            )
    return (*schedule, *core.events)


class _Recorded(_Spelled):
    """Plays the rows of a trace, each vertex its own in their order."""

    rows: list[deque[TraceRow]]

    def turn(self, v: int) -> None:
        """Takes and fires as long as the next rows fit, sends, and acknowledges."""
        rows = self.rows[v]
        for e in self.outs(v):
            self.step("settle", e.number)
        while rows and self._fits(rows[0]):
            row = rows.popleft()
            if row.kind == "take":
                self.step("take", row.edge)
            else:
                self.step("fire", v, row.count)
                self.send(v)
        self.send(v)
        if not rows and self.vertices[v].halt is None and self.cause(v):
            self.step("halt", v)
        self.acknowledge(v)

    def _fits(self, row: TraceRow) -> bool:
        if row.kind == "take":
            return self.edges[row.edge].delivered < self.edges[row.edge].put
        return not self.is_pending(row.vertex) and not self.has_unput(row.vertex)


def spell_trace(setting: Setting, trace: Sequence[TraceRow]) -> tuple[Event, ...] | None:
    """Events in which each vertex takes and fires what its rows in a trace say; None if the rings are too small."""
    core = game_of(setting, _Recorded)
    made = -1
    core.rows = [deque() for _ in core.vertices]
    for row in trace:
        core.rows[row.vertex].append(row)
    while made < len(core.events):
        made = len(core.events)
        core.drive(1)
    return None if any(core.rows) else tuple(core.events)


def spelled_out(simulation: Simulation, program: AnyProgram = None) -> Simulation:
    """What the program returns for a simulation now, with books, and the events of its rounds spelled out. If the
    simulation has anything else, that is a Disagreement."""
    setting = simulation.game
    schedule = simulation.schedule
    made_up = simulation.made_up
    if simulation.rounds:
        schedule = spell_rounds(setting, schedule, simulation.rounds)
        made_up = _SAYS["rounds"].format(events=with_unit(len(simulation.schedule), "event"))
    now = asked(setting, schedule, program)
    if now.report != simulation.report:
        raise Disagreement("the program reports another end than before")
    for index, (reply, before) in enumerate(zip(now.replies, simulation.replies)):
        if reply != before:
            raise Disagreement(f"event {index}: the program replies {reply}, and not {before}")
    if now.boards[: len(simulation.boards)] != simulation.boards:
        raise Disagreement("the program has other books than the simulation")
    return replace(now, made_up=made_up, notes=simulation.notes)


def asked(
    setting: Setting, schedule: Iterable[Sequence[Any]], program: AnyProgram = None
) -> Simulation:
    """What the program returns for a schedule, with its books."""
    options: dict[str, Any] = {"limit": setting.limit, "ring": setting.ring, "fed": setting.fed}
    return simulate(setting.graph, setting.chips, schedule, books=True, program=program, **options)


def page_data(run: Simulation, positions: Mapping[Any, Point] | None) -> dict[str, Any]:
    """What the page shows but for the events: the graph and its places, and the opening."""
    setting = run.game
    graph = run.game.graph
    events = zip(run.schedule, run.replies)
    fed = {
        event.at - len(graph.edges)
        for event, reply in events
        if event.kind == "feed" and reply.is_done
    }
    started = sorted(fed | {vertex for vertex, count in enumerate(setting.chips) if count})
    places = places_of(graph, started, positions)
    return {
        "names": [str(name) for name in graph.names],
        "sink": graph.sink,
        "edges": [*graph.edges, *((None, vertex, 1) for vertex in range(graph.vertices))],
        "graphEdges": len(graph.edges),
        "rootEdges": [graph.root_edge(vertex) for vertex in started],
        "places": vars(places),
        "mayTurn": positions is None and places.frame is None,
        "start": Ledger(setting).state(),
        "opening": _SAYS["opening"].format(chips=with_unit(sum(setting.chips), "chip")),
        "answers": WORDS["answers"],
        "reasons": list(WORDS["reasons"].values()),
    }


def compared(run: Simulation, ledger: Ledger) -> Iterator[tuple[Event, Reply]]:
    """The events with their replies; after each the ledger is compared with the books."""
    for event, reply, board in zip(run.schedule, run.replies, run.boards):
        yield event, reply
        ledger.compare(board)


def messages_of(core: Core, event: Event) -> list[tuple[int, int]]:
    """Who sends to whom in an event of a detector's own, the root after the vertices, if its `tells` says so."""
    if event.kind in (*EVENTS, WORK):
        return []
    try:
        pairs = list(core.tells(event.kind, event.at))
    except ValueError:
        return []
    parts = range(len(core.vertices) + 1)
    return [(it, to) for it, to in pairs if it != to and it in parts and to in parts]


class Words:
    """The sentences of a page, each once, by numbers."""

    def __init__(self, setting: Game) -> None:
        self.sentences = Sentences(setting.graph, isinstance(setting, Setting))
        self.numbers: dict[str, int] = {}

    def number(self, text: str) -> int:
        return self.numbers.setdefault(text, len(self.numbers))

    def step(self, ledger: Ledger, event: Event, reply: Reply) -> dict[str, Any]:
        """Notes an event, and returns the numbers of its words and what it changed."""
        says = self.sentences
        question = self.sentences.ask(event)
        if event.kind == "ack" and not ledger.keeps_books:
            question = None  # (no rule is about it)
        step: dict[str, Any] = {"kind": event.kind, "at": event.at, "done": reply.is_done}
        tells = messages_of(ledger.core, event) if reply.is_done else []
        if tells:
            root = len(ledger.core.vertices)
            step["tells"] = [[None if it == root else it for it in pair] for pair in tells]
        step["event"] = self.number(says.event(event, reply, tells))
        step["reply"] = self.number(says.reply(event, reply, ledger.core))
        if question is not None:
            # (of a wrong detector too it is asked what the rule allows)
            is_idle = (
                reply.kind in ("empty", "full") or event.kind == "settle" and reply.numbers == (0,)
            )
            is_ack = event.kind == "ack" and event.at < len(ledger.core.edges)
            why = says.reasons(event, ledger.core)
            step |= {
                "ask": self.number(question),
                "yes": not why if is_ack else reply.is_done and not is_idle,
            }
            if why:
                step["why"] = sorted({[*WORDS["reasons"]].index(reason) for reason, _ in why})
        if event.kind == "put" and reply.is_done:
            step["send"] = self.number(says.send(event, reply.numbers[0]))
        changes = ledger.note(event, reply)
        return {
            **step,
            "changes": [[*change, self.number(says.change(change))] for change in changes],
        }
