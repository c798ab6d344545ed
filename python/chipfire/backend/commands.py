"""The commands of the program as functions, and as methods of a program that is named once."""

from __future__ import annotations

import functools
import inspect
import os
from array import array
from collections.abc import Callable, Hashable, Iterable, Sequence
from dataclasses import replace
from typing import Any, cast, NamedTuple, TYPE_CHECKING, TypeVar, Union

from chipfire.backend import library
from chipfire.backend.finding import find_program
from chipfire.backend.kept import KeptPile
from chipfire.backend.plays import play
from chipfire.backend.process import ask, Fault, Input, Kept
from chipfire.backend.report import Report
from chipfire.configurations.configuration import (
    Chips,
    CHIPS_HEADER,
    chips_text,
    Configuration,
    GUESS_HEADER,
    in_words,
)
from chipfire.ensembles.drops import (
    columns_of,
    dropped_on,
    Drops,
    measured_drops,
    parts_of,
    ROWS_HEADER,
    without_library,
)
from chipfire.graphs.graph import Graph
from chipfire.lab.logs import judge_log
from chipfire.lab.machine import (
    Firing,
    has_notes,
    read_schedule,
    Schedule,
    SCHEDULE_HEADER,
    Setting,
    Simulation,
    trace_text,
)
from chipfire.progress import AnyProgress, Progress
from chipfire.utils import (
    as_int,
    FILE,
    FileName,
    in_column,
    MAX_CHIPS,
    MAX_LIMIT,
    no_graph,
    rows_text,
    VertexNumber,
    write_text,
)

if TYPE_CHECKING:
    from typing_extensions import Concatenate, ParamSpec

    P = ParamSpec("P")

T = TypeVar("T")

#: A graph, or the name of its file; the name of a program, or None for the one that is found.
AnyGraph = Union[Graph, str, "os.PathLike[str]"]
AnyProgram = Union[FileName, None]

#: The least and the most that options may be which are whole numbers.
_RANGES = {
    "limit": (0, MAX_LIMIT),
    "ring": (1, 64),
    "workers": (1, 64),
    "turns": (1, 2**40),
    "trace_rows": (0, 2**20),
    "rounds": (0, 2**40),
}

#: How often a vertex fired at most in the stages of a play before the last one.
MAX_PRIOR = 2**60

#: The options that are there or not.
_FLAGS = {"progress", "dealt", "books", "fed"}


class Check(NamedTuple):
    """What `check` says of a graph.

    Attributes
    ----------
    vertices, edges, sink : int
        The numbers of vertices and edges, and the number of the sink.
    degrees : tuple of int
        For each vertex, by numbers, how many chips it sends when it fires.
    distances : tuple of int
        For each vertex the least number of edges from it to the sink.

    See Also
    --------
    check

    Notes
    -----
    Proved: the numbers. Not proved: that Python passes them on.

    Examples
    --------
    >>> chipfire.check(chipfire.path(3)).distances
    (1, 2, 1, 0)
    """

    vertices: int
    edges: int
    sink: int
    degrees: tuple[int, ...]
    distances: tuple[int, ...]


def known_graph(graph: AnyGraph, program: AnyProgram = None) -> Graph:
    """A graph, or that of a file. The program says what is wrong with a file."""
    if isinstance(graph, Graph):
        return graph
    if not isinstance(graph, FILE):
        raise no_graph(graph, "a graph is a chipfire.Graph or the name of a file")
    try:
        return Graph.read(graph)
    except (OSError, RecursionError, TypeError, ValueError):
        check(graph, program=program)
        raise


def known_chips(graph: Graph, chips: Chips, program: AnyProgram = None) -> tuple[int, ...]:
    """Chips by the numbers of the vertices, from a file or any other form; the latter may be below 0."""
    return (
        read_chips(chips, graph, program=program)
        if isinstance(chips, FILE)
        else graph.numbers(chips)
    )


def _input(kind: str, given: Any, text: Callable[[Any], str]) -> Input:
    """What is given, if it is the name of a file, and else its text."""
    return kind, given if isinstance(given, FILE) else Kept([text(given).encode()])


class _Question:
    """What the program is asked about a graph.

    given  the graph as it was given, perhaps the name of its file
    own    the graph if no file has it, or None: a fault names its vertices
    """

    def __init__(self, graph: AnyGraph, program: AnyProgram) -> None:
        self.program = program
        self.given = graph
        self.own = None if isinstance(graph, FILE) else known_graph(graph)

    @functools.cached_property
    def graph(self) -> Graph:
        return self.own or known_graph(self.given, self.program)

    def numbers(self, given: Chips, of: str = "chips") -> Any:
        """What is given by the numbers of the vertices, in an array, if it is not the name of a file."""
        return given if isinstance(given, FILE) else in_words(self.graph.column(given, 0, of))

    def chips(
        self, chips: Chips, kind: str = "chips", header: Sequence[str] = CHIPS_HEADER
    ) -> Input:
        of = "chips" if header is CHIPS_HEADER else "firings"
        return _input(kind, self.numbers(chips, of), lambda numbers: chips_text(numbers, header))

    def ask(self, command: str, inputs: Sequence[Input], *begins: str, **options: Any) -> str:
        """What a command writes about the graph; `begins` and the options are as in `process.ask`."""
        for name, value in options.items():
            if name in _RANGES and value is not None:
                options[name] = as_int(value, name, *_RANGES[name])
            elif name in _FLAGS:
                options[name] = bool(value)
        words = {name.replace("_", "-"): value for name, value in options.items()}
        file = self.given if isinstance(self.given, FILE) else self.graph.kept
        return ask(self.program, command, [("graph", file), *inputs], words, self.own, *begins)


def check(graph: AnyGraph, *, program: AnyProgram = None) -> Check:
    """Checks that a graph is one that chipfire takes, and returns its degrees and distances.

    Parameters
    ----------
    graph : Graph or path
        The graph, or the name of its file.
    program : path, optional
        The program to run. By default, the program that the package finds.

    Returns
    -------
    Check
        The size of the graph and its sink, and the degree of each vertex and its distance to the sink.

    Raises
    ------
    Fault
        The graph is refused. The fault's number and place say why.

    See Also
    --------
    Graph, explain

    Notes
    -----
    Proved: the numbers. Not proved: that Python passes them on.

    Examples
    --------
    >>> chipfire.check(chipfire.path(2))
    Check(vertices=3, edges=4, sink=2, degrees=(2, 2, 0), distances=(1, 1, 0))
    """
    lines = [
        line.split()
        for line in _Question(graph, program).ask("check", [], "vertices ").splitlines()
    ]
    vertices, edges, sink = (int(words[1]) for words in lines[:3])
    degrees, distances = (tuple(int(words[place]) for words in lines[3:]) for place in (3, 5))
    return Check(vertices, edges, VertexNumber(sink), degrees, distances)


def plain(
    graph: AnyGraph,
    chips: Chips,
    *,
    limit: int | None = None,
    guess: Chips | Report | None = None,
    progress: bool = False,
    program: AnyProgram = None,
) -> Report:
    """Stabilizes chips on one thread.

    It plays until no vertex can fire, or until each vertex that can fire has already fired `limit` times.

    Parameters
    ----------
    graph : Graph or path
        The graph, or the name of its file.
    chips : Chips
        The chips at the start, in any form that `Graph.chips` takes, or the name of a chips file.
    limit : int, optional
        How often each vertex may fire, from 0 to 2^40, which is the default.
    guess : Chips or Report, optional
        An initial guess of how often each vertex fires. It changes no result, but a guess that is nearly right saves
        most of the play.
    progress : bool, optional
        Whether to show progress, by tqdm or in lines on `sys.stderr`: how often vertices have fired so far. With a
        guess, this is shown only at the end.
    program : path, optional
        The program to run. By default, the program that the package finds.

    Returns
    -------
    Report
        The chips at the end, and how often each vertex fired (the odometer).

    Raises
    ------
    ValueError
        The graph or the chips are refused, by the package or by the program (`Fault`).
    KeyError
        No vertex has a given name.

    See Also
    --------
    stabilize, resume, verify, run

    Notes
    -----
    Proved: the chips and the odometer, which are those of every firing sequence that ends within the limit.
    Not proved: that Python passes them on.

    Examples
    --------
    >>> triangle = chipfire.Graph(3, 2, [(0, 1), (0, 2), (1, 0), (1, 2)])
    >>> report = chipfire.plain(triangle, [4, 0, 0])
    >>> report.chips, report.fired
    ((1, 0, 3), (2, 1, 0))
    """
    if isinstance(graph, Graph) and graph.loops:
        less = graph.without_loops(known_chips(graph, chips, program))
        free = plain(
            graph.loop_free, less, limit=limit, guess=guess, progress=progress, program=program
        )
        return replace(free, chips=tuple(graph.with_loops(free.chips)), graph=graph)
    question = _Question(graph, program)
    start: Any = question.numbers(chips)
    counts: Any = array("Q")
    if guess is not None:
        counts = question.numbers(guess.total if isinstance(guess, Report) else guess, "firings")
    is_in_memory = not isinstance(start, FILE) and not isinstance(counts, FILE)
    if question.own and is_in_memory:
        if found := _played(question.own, start, program, _limit(limit), counts, progress):
            return found
    files = [
        question.chips(start),
        *([] if guess is None else [question.chips(counts, "--guess", GUESS_HEADER)]),
    ]
    return Report.parse(
        question.ask("plain", files, limit=limit, progress=progress), question.graph
    )


def _played(
    graph: Graph,
    chips: array[int],
    program: AnyProgram,
    limit: int,
    guess: array[int],
    progress: bool,
) -> Report | None:
    """The report of a play in this process; None if the program plays."""
    if program is not None or library.loaded() is None:
        return None

    def between(pile: KeptPile) -> None:
        if shown.is_due:
            shown.show(sum(pile.fired()))

    with Progress(progress, None, "firings") as shown:
        found = play(graph, chips, program, limit, guess, between)
        if not found:
            return None
        left, fired, stopped = found
        if progress:
            shown.show(sum(fired), is_last=True)
    over = _legal(graph, left) if stopped else ()
    return Report(tuple(left), tuple(fired), over, graph=graph)


def _limit(limit: int | None) -> int:
    """The limit of a play."""
    return MAX_LIMIT if limit is None else as_int(limit, "limit", *_RANGES["limit"])


def _legal(graph: Graph, chips: Sequence[int]) -> tuple[int, ...]:
    """The vertices that could fire."""
    return tuple(at for at, degree in enumerate(graph.degrees()) if 0 < degree <= chips[at])


def verify(
    graph: AnyGraph,
    chips: Chips,
    report: Report | Chips,
    *,
    limit: int | None = None,
    progress: bool = False,
    program: AnyProgram = None,
) -> bool:
    """Returns whether a report, or an odometer, is what `plain` finds for a game.

    Parameters
    ----------
    graph : Graph or path
        The graph, or the name of its file.
    chips : Chips
        The chips at the start, in any form that `Graph.chips` takes, or the name of a chips file.
    report : Report, path or Chips
        A report, the name of its file, or the odometer in any form of chips.
    limit : int, optional
        How often each vertex may fire, from 0 to 2^40, which is the default.
    progress : bool, optional
        Whether to show progress, as `plain` does, if the game has to be played.
    program : path, optional
        The program to run. By default, the program that the package finds.

    Returns
    -------
    bool
        Whether the report or the odometer is right. If a smaller limit stopped the play of a report, this is False,
        although the report may be correct.

    Raises
    ------
    ValueError
        The graph or the chips are refused, by the package or by the program (`Fault`).
    KeyError
        No vertex has a given name.

    See Also
    --------
    plain, resume

    Notes
    -----
    Proved: the verdict on a file, and the verdict of the library on the counts and chips of a report. Without that
    verdict, the play is proved. Not proved: Python's comparisons.

    Examples
    --------
    >>> chipfire.verify(chipfire.path(1), {0: 3}, {0: 1}), chipfire.verify(chipfire.path(1), {0: 3}, {0: 2})
    (True, False)
    """
    question = _Question(graph, program)
    if isinstance(report, FILE):
        files = [question.chips(chips), ("report", report)]
        try:
            question.ask("verify", files, "verified\n", limit=limit, progress=progress)
        except Fault as fault:
            if fault.name == "Differs":
                return False
            raise
        return True
    told = report if isinstance(report, Report) else None
    counts = question.graph.numbers(told.total if told else report, of="firings")
    if min((*counts, *(told.chips if told else ())), default=0) < 0:
        return False
    start = question.numbers(chips)
    own = question.own
    if told and own and not own.loops and not isinstance(start, FILE):
        ends = in_words(told.chips)
        is_end = library.is_end(own, start, in_words(counts), ends, program, _limit(limit))
        if is_end is not None:
            return is_end and told == replace(
                told, over=_legal(own, told.chips), sealed=(), graph=own
            )
    found = plain(graph, start, limit=limit, guess=counts, progress=progress, program=program)
    return found == replace(told, fired=counts, prior=None) if told else found.fired == counts


def drops(
    graph: AnyGraph,
    chips: Chips,
    vertices: Iterable[Hashable] | FileName,
    *,
    amounts: Iterable[int] | None = None,
    fired: bool = False,
    durations: bool = False,
    progress: AnyProgress = None,
    partial: bool = False,
    program: AnyProgram = None,
) -> Drops:
    """Drops chips one after another, and returns the numbers of all avalanches in columns.

    The chips at the start are stabilized before the first drop. Each drop falls on the chips that the drop before it
    left.

    Parameters
    ----------
    graph : Graph or path
        The graph, or the name of its file.
    chips : Chips
        The chips at the start, in any form that `Graph.chips` takes, or the name of a chips file.
    vertices : iterable of hashable, array or path
        The names of the vertices in the order of the drops, such as `random_drops` returns; or the name of a file of
        rows ``vertex,chips``.
    amounts : iterable of int, optional
        The number of chips of each drop. By default one.
    fired : bool, optional
        Whether to return which vertices each drop fires, and how often. This needs the library and NumPy.
    durations : bool, optional
        Whether to return the duration of each drop: its number of rounds. In a round, every legal vertex fires once.
        This needs the library. An interrupt during a long drop is raised within a second. A thread finishes the drop,
        and the result is discarded.
    progress : bool or callable, optional
        True shows how many drops have been made, by tqdm or in lines on `sys.stderr`. A function is called with the
        number of drops made and the number of all drops. If the program makes the drops, it writes lines and calls no
        function.
    partial : bool, optional
        Whether an interrupt returns the drops made until then, instead of raising KeyboardInterrupt, as in `chains`.
        This needs the library. The drops of the library's last call, which takes about a tenth of a second, may be
        missing. An interrupt while the chips at the start are stabilized is raised, and so is a second interrupt.
    program : path, optional
        The program to run. By default, the program that the package finds.

    Returns
    -------
    Drops
        The columns `size`, `area` and `lost`, the other measures that were asked for, and one report for the start and
        all drops.

    Raises
    ------
    ValueError
        The graph or the chips are refused, by the package or by the program (`Fault`).
    KeyError
        No vertex has a given name.

    See Also
    --------
    avalanches, chains, Pile, random_drops

    Notes
    -----
    Proved: each row, and the report. Not proved: that Python passes them on, and the histogram.

    Examples
    --------
    >>> found = chipfire.drops(chipfire.path(2), {0: 1, 1: 1}, [0, 1])
    >>> list(found.size), list(found.lost), found.configuration
    ([2, 0], [2, 0], {0: 1, 1: 1})
    """
    if isinstance(graph, Graph) and graph.loops:
        less = graph.without_loops(known_chips(graph, chips, program))
        free = drops(
            graph.loop_free,
            less,
            vertices,
            amounts=amounts,
            fired=fired,
            durations=durations,
            progress=progress,
            partial=partial,
            program=program,
        )
        left = tuple(graph.with_loops(free.report.chips))
        return replace(free, report=replace(free.report, chips=left, graph=graph))
    if fired or durations or partial:
        asked = (bool(fired), bool(durations), progress, partial)
        return _measured(graph, chips, vertices, amounts, asked, program)
    question = _Question(graph, program)
    rows = cast(Any, vertices)
    start: Any = question.numbers(chips)
    if not isinstance(vertices, FILE):
        at, many = dropped_on(question.graph, vertices, amounts)
        if question.own and program is None and not isinstance(start, FILE):
            if found := measured_drops(question.own, start, at, many, progress=progress):
                return found
        rows = Kept(parts_of(at, many))
    elif amounts is not None:
        raise ValueError("a file of drops says itself how many chips each has")
    report = Kept([])
    files: list[Input] = [question.chips(start), ("drops", rows), ("--report", report)]
    size, extent, lost = columns_of(
        question.ask("avalanches", files, ROWS_HEADER, progress=progress)
    )
    return Drops(size, extent, lost, Report.parse(report.text(), question.graph))


def _measured(
    graph: AnyGraph,
    chips: Chips,
    vertices: Any,
    amounts: Iterable[int] | None,
    asked: tuple[bool, bool, AnyProgress, bool],
    program: AnyProgram,
) -> Drops:
    """Drops by the library, with what is asked of them, in the order of `measured_drops`."""
    if isinstance(vertices, FILE):
        raise ValueError("what some drops did is measured for vertices, and not for a file of them")
    if program is not None:
        raise ValueError("what some drops did is measured by the library, and not by a program")
    known = known_graph(graph, program)
    at, many = dropped_on(known, vertices, amounts)
    if isinstance(chips, FILE):
        chips = read_chips(chips, known)
    begun = in_words(known.column(chips, 0))
    found = measured_drops(known, begun, at, many, *asked)
    if found is None:
        raise without_library()
    return found


def run(
    graph: AnyGraph,
    chips: Chips,
    *,
    limit: int | None = None,
    ring: int | None = None,
    workers: int | None = None,
    dealt: bool = False,
    turns: int | None = None,
    feed: Chips | None = None,
    trace: FileName | None = None,
    trace_rows: int | None = None,
    progress: bool = False,
    program: AnyProgram = None,
) -> Report:
    """Stabilizes chips on many threads, with an actor for each vertex.

    Parameters
    ----------
    graph : Graph or path
        The graph, or the name of its file.
    chips : Chips
        The chips at the start, in any form that `Graph.chips` takes, or the name of a chips file.
    limit : int, optional
        How often each vertex may fire, from 0 to 2^40, which is the default.
    ring : int, optional
        How many messages each edge holds, from 1, which is the default, to 64. Longer rings are slower.
    workers : int, optional
        The number of threads, from 1 to 64.
    dealt : bool, optional
        Whether each thread has its own vertices. By default, all threads share one queue of vertices. On large graphs,
        it is faster to deal the vertices to as many threads as there are processors.
    turns : int, optional
        How many turns each thread may make.
    feed : Chips, optional
        Chips that the vertices get while they play. The report is the same as if all of these chips were there at the
        start.
    trace : path, optional
        A file into which the run writes what each vertex takes and fires.
    trace_rows : int, optional
        How many rows of the trace each vertex has room for. If a vertex has more rows, the warning `TraceCut` says so.
    progress : bool, optional
        Whether to write a line to `sys.stderr` about once a second that says how far the play has come.
    program : path, optional
        The program to run. By default, the program that the package finds.

    Returns
    -------
    Report
        The report that `plain` returns.

    Raises
    ------
    Fault
        The program refuses the game, or the threads did not finish within their turns (fault 61).

    Warns
    -----
    TraceCut
        A vertex has more rows than its trace has room for.

    See Also
    --------
    plain, replay, recorded

    Notes
    -----
    `plain` is faster. Use `run` to record traces, to feed chips, or to watch the machine.

    Proved: the report, for every schedule of the threads. Not proved: that a run ends, and that Python passes the
    report on.

    Examples
    --------
    >>> chipfire.run(chipfire.grid(7, 7), {24: 100}, workers=2) == chipfire.plain(chipfire.grid(7, 7), {24: 100})
    True
    """
    question = _Question(graph, program)
    files = [question.chips(chips), *([] if feed is None else [question.chips(feed, "--feed")])]
    told = question.ask(
        "run",
        files,
        limit=limit,
        ring=ring,
        workers=workers,
        turns=turns,
        trace_rows=trace_rows,
        dealt=dealt,
        progress=progress,
        trace=None if trace is None else os.path.abspath(trace),
    )
    return Report.parse(told, question.graph)


def simulate(
    graph: AnyGraph,
    chips: Chips,
    schedule: Iterable[Sequence[Any]] | FileName,
    *,
    limit: int | None = None,
    ring: int | None = None,
    rounds: int | None = None,
    books: bool = False,
    fed: bool = False,
    program: AnyProgram = None,
) -> Simulation:
    """Runs a schedule of events on the distributed machine, on one thread.

    Parameters
    ----------
    graph : Graph or path
        The graph, or the name of its file.
    chips : Chips
        The chips at the start, in any form that `Graph.chips` takes, or the name of a chips file.
    schedule : iterable of (kind, at, count), or path
        The events, or the name of a file of them.
    limit : int, optional
        How often each vertex may fire, from 0 to 2^40, which is the default.
    ring : int, optional
        How many messages each edge holds, from 1, which is the default, to 64.
    rounds : int, optional
        How many rounds of turns may follow the schedule. They end when the root is closed.
    books : bool, optional
        Whether to report the books of the detector after each event.
    fed : bool, optional
        Whether the schedule may feed more chips to the vertices, on the root edges.
    program : path, optional
        The program to run. By default, the program that the package finds.

    Returns
    -------
    Simulation
        A reply for each event, and the report if the root is closed at the end.

    Raises
    ------
    Fault
        The program refuses the game or the schedule.

    See Also
    --------
    run, page, play

    Notes
    -----
    Proved: the replies, the books and the report. Not proved: that Python passes them on.

    Examples
    --------
    >>> triangle = chipfire.Graph(3, 2, [(0, 1), (0, 2), (1, 0), (1, 2)])
    >>> chipfire.simulate(triangle, [4, 0, 0], [], rounds=9).report.fired
    (2, 1, 0)
    """
    question = _Question(graph, program)
    if not isinstance(schedule, FILE):
        schedule = Schedule(schedule)
    elif has_notes(schedule):
        schedule = read_schedule(schedule)
    chips = chips if isinstance(chips, FILE) else question.graph.chips(chips)
    files = [
        question.chips(chips),
        _input("schedule", schedule, lambda events: rows_text(SCHEDULE_HEADER, events)),
    ]
    text = question.ask(
        "simulate", files, "", limit=limit, ring=ring, rounds=rounds, books=books, fed=fed
    )
    given = {
        name: int(value) for name, value in (("limit", limit), ("ring", ring)) if value is not None
    }
    setting = Setting(question.graph, known_chips(question.graph, chips, program), fed=fed, **given)
    events = read_schedule(schedule) if isinstance(schedule, FILE) else schedule
    told = Simulation.parse(text, question.graph)
    return replace(
        told, schedule=tuple(events), notes=events.notes, rounds=int(rounds or 0), setting=setting
    )


def replay(
    graph: AnyGraph,
    chips: Chips,
    trace: Iterable[Sequence[Any]] | FileName,
    *,
    limit: int | None = None,
    program: AnyProgram = None,
) -> list[Firing]:
    """Returns the firings of a recorded run, in an order in which all of its rows fit together.

    Parameters
    ----------
    graph : Graph or path
        The graph, or the name of its file.
    chips : Chips
        The chips at the start, in any form that `Graph.chips` takes, or the name of a chips file.
    trace : iterable of rows, or path
        The rows (vertex, kind, edge, count) that `run` recorded, or the name of their file.
    limit : int, optional
        How often each vertex may fire, from 0 to 2^40, which is the default.
    program : path, optional
        The program to run. By default, the program that the package finds.

    Returns
    -------
    list of Firing
        The firings. Each has the number of its vertex, and a count.

    Raises
    ------
    Fault
        The rows have no possible order (fault 70), or are refused.

    See Also
    --------
    run, recorded

    Notes
    -----
    Proved: that all rows fit together in this order and, on fault 70, in no order. Not proved: that Python passes the
    order on.

    Examples
    --------
    >>> triangle = chipfire.Graph(3, 2, [(0, 1), (0, 2), (1, 0), (1, 2)])
    >>> [tuple(it) for it in chipfire.replay(triangle, [4, 0, 0], [(0, "take", 4, 4), (0, "fire", 0, 2)])]
    [(0, 2)]
    """
    question = _Question(graph, program)
    files = [question.chips(chips), _input("trace", trace, trace_text)]
    lines = question.ask("replay", files, "", limit=limit).splitlines()
    return [Firing(VertexNumber(vertex), int(count)) for _, vertex, count in map(str.split, lines)]


def resume(
    graph: AnyGraph,
    report: Report | FileName,
    *,
    limit: int | None = None,
    progress: bool = False,
    program: AnyProgram = None,
) -> Report:
    """Continues a play that a limit or a seal stopped.

    Parameters
    ----------
    graph : Graph or path
        The graph, or the name of its file.
    report : Report or path
        The report of that play, or the name of its file.
    limit : int, optional
        How often each vertex may fire in this stage, from 0 to 2^40, which is the default.
    progress : bool, optional
        Whether to show progress, as `plain` does.
    program : path, optional
        The program to run. By default, the program that the package finds.

    Returns
    -------
    Report
        The report. Its `total` has the firings of all stages.

    Raises
    ------
    Fault
        The program refuses the report.
    ValueError
        The report is that of another graph, or is impossible on this graph.

    See Also
    --------
    plain, verify

    Notes
    -----
    The `prior` of the report is not checked.

    Proved: the result, from the chips of the report. Not proved: that Python passes it on.

    Examples
    --------
    >>> triangle = chipfire.Graph(3, 2, [(0, 1), (0, 2), (1, 0), (1, 2)])
    >>> first = chipfire.plain(triangle, [5, 0, 0], limit=1)
    >>> chipfire.resume(triangle, first).total
    (3, 1, 0)
    """
    if not isinstance(report, (Report, *FILE)):
        raise TypeError(
            f"a report is a chipfire.Report or the name of a file, and not of {type(report).__name__}"
        )
    question = _Question(graph, program)
    own = None if isinstance(report, FILE) else report
    if own and question.own and (found := _resumed(question.own, own, program, limit, progress)):
        return found
    text = question.ask(
        "resume", [_input("report", report, Report.text)], limit=limit, progress=progress
    )
    found = Report.parse(text, question.graph)
    if own:
        _refuse_other(question.graph, own)
    return found


def _resumed(
    graph: Graph, report: Report, program: AnyProgram, limit: int | None, progress: bool
) -> Report | None:
    """The report of a play in this process that goes on; None if the program plays, or says what is wrong."""
    chips = in_column(report.chips)
    if program is not None or chips is None or len(chips) != graph.vertices:
        return None
    is_known = sum(chips) <= MAX_CHIPS and max(report.total) <= MAX_PRIOR
    if not is_known or graph.loops or graph.wrong:
        return None
    _refuse_other(graph, report)
    found = _played(graph, chips, program, _limit(limit), array("Q"), progress)
    return found and replace(found, prior=report.total)


def _refuse_other(graph: Graph, report: Report) -> None:
    """Refuses a report of another graph."""
    if not (report.graph.is_like(graph) if report.graph else report.fits(graph)):
        raise ValueError("the report is one of another graph")


def explain(number: int | None = None, *, program: AnyProgram = None) -> str:
    """Returns what a fault means and what to do about it.

    Parameters
    ----------
    number : int, optional
        The number of the fault. By default the table of all faults is returned.
    program : path, optional
        The program to run. By default, the program that the package finds.

    Returns
    -------
    str
        The text that ``chipfire explain`` prints.

    Raises
    ------
    Fault
        No fault has this number.

    See Also
    --------
    Fault

    Notes
    -----
    None of this is proved: texts are only tested.

    Examples
    --------
    >>> chipfire.explain(25).splitlines()[0]
    'fault 25 Number i: a field of row i is not a number'
    """
    words: list[Input] = (
        [] if number is None else [("number", str(as_int(number, "a fault's number")))]
    )
    return ask(program, "explain", words, begins="fault ")


def identity(graph: AnyGraph, *, program: AnyProgram = None) -> Configuration:
    """Returns the identity of the sandpile group: the recurrent configuration equivalent to zero.

    Parameters
    ----------
    graph : Graph or path
        The graph, or the name of its file.
    program : path, optional
        The program to run. By default, the program that the package finds.

    Returns
    -------
    Configuration
        The identity.

    Raises
    ------
    ValueError
        The graph is refused, by the package or by the program (`Fault`).

    See Also
    --------
    add, inverse, recurrent_representative

    Notes
    -----
    Proved: the identity, if the library finds it in one call. For a long play, or without the library, the
    stabilizations are proved. Not proved: that Python passes the identity on or, without such a call, the difference
    between the stabilizations.

    Examples
    --------
    >>> chipfire.identity(chipfire.complete(4))
    {1: 2, 2: 2, 3: 2}
    """
    return known_graph(graph, program).identity(program=program)


def write_chips(file: FileName, graph: Graph, chips: Chips) -> None:
    """Writes a chips file.

    Parameters
    ----------
    file : path
        The file to write. It gets a row for each vertex that has a chip.
    graph : Graph
        The graph.
    chips : Chips
        The chips, in any form that `Graph.chips` takes.

    Raises
    ------
    ValueError
        The chips are not those of this graph.
    OSError
        The file cannot be written.

    See Also
    --------
    read_chips, Graph.write

    Notes
    -----
    None of this is proved.

    Examples
    --------
    >>> chipfire.write_chips("chips.csv", chipfire.grid(2, 2), {0: 4})
    """
    if not isinstance(graph, Graph):
        raise no_graph(graph, "a graph is a chipfire.Graph")
    write_text(file, chips_text(graph.chips(chips)))


def read_chips(file: FileName, graph: Graph, *, program: AnyProgram = None) -> tuple[int, ...]:
    """Reads a chips file.

    Parameters
    ----------
    file : path
        The file, with the header ``vertex,chips``.
    graph : Graph
        The graph.
    program : path, optional
        The program to run. By default, the program that the package finds.

    Returns
    -------
    tuple of int
        The chips of each vertex, by numbers.

    Raises
    ------
    Fault
        The program refuses the file.

    See Also
    --------
    write_chips

    Notes
    -----
    Proved: the numbers. Not proved: that Python passes them on.

    Examples
    --------
    >>> grid = chipfire.grid(2, 1)
    >>> chipfire.write_chips("chips.csv", grid, {0: 4})
    >>> chipfire.read_chips("chips.csv", grid)
    (4, 0, 0)
    """
    if not isinstance(graph, Graph):
        raise no_graph(graph, "a graph is a chipfire.Graph")
    if not isinstance(file, FILE):
        raise TypeError(f"a file of chips has a name, and is not of {type(file).__name__}")
    return plain(graph.loop_free, file, limit=0, program=program).chips


def _method(function: Callable[P, T]) -> Callable[Concatenate[Program, P], T]:
    """A command as a method: the program is that of the object."""

    @functools.wraps(function)
    def method(self: Program, /, *arguments: P.args, **options: P.kwargs) -> T:
        return function(*arguments, **{**options, "program": self.path})  # type: ignore[arg-type]

    told = inspect.signature(function)
    own = inspect.Parameter("self", inspect.Parameter.POSITIONAL_ONLY)
    others = [it for name, it in told.parameters.items() if name != "program"]
    method.__signature__ = told.replace(parameters=[own, *others])  # type: ignore[attr-defined]
    return method


class Program:
    """The program with this name, or the program that the package finds, with its commands as methods.

    Each call starts the program. An option that is None is left out, so the program uses its default.

    Parameters
    ----------
    program : path, optional
        The name of the program.

    Raises
    ------
    ProgramNotFound
        There is no program.

    See Also
    --------
    plain, run, simulate

    Notes
    -----
    Proved: what is proved of the function of the same name. Not proved: that Python passes results on.

    Examples
    --------
    >>> chipfire.Program().plain(chipfire.path(1), [3]).fired
    (1, 0)
    """

    def __init__(self, program: AnyProgram = None) -> None:
        self.path = find_program() if program is None else os.fspath(program)

    check = _method(check)
    plain = _method(plain)
    verify = _method(verify)
    drops = _method(drops)
    run = _method(run)
    simulate = _method(simulate)
    replay = _method(replay)
    resume = _method(resume)
    explain = _method(explain)
    identity = _method(identity)
    judge_log = _method(judge_log)
