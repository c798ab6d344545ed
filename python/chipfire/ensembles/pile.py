"""Piles: a graph with chips that is kept, on which chips are dropped one call after another."""

from __future__ import annotations

import contextlib
import operator
import os
import threading
from array import array
from collections.abc import Hashable, Iterable, Iterator, Sequence
from typing import Any, NamedTuple

from chipfire.backend import kept, library
from chipfire.backend.commands import AnyGraph, AnyProgram, drops, known_graph, plain, read_chips
from chipfire.backend.process import refused
from chipfire.backend.report import Report
from chipfire.configurations.configuration import Chips, Configuration, in_words
from chipfire.ensembles.drops import dropped_on, Drops, Measured, shown, without_library
from chipfire.graphs.graph import Graph
from chipfire.utils import as_int, FILE, MAX_CHIPS, MAX_LIMIT


class Drop(NamedTuple):
    """What one drop on a pile caused: the number of firings, the number of different vertices that fired, and the
    number of chips that firings sent to the sink."""

    size: int
    extent: int
    lost: int

    @property
    def area(self) -> int:
        """How many different vertices fired: `extent` by the name that the field has for it."""
        return self.extent


class _Fork:
    """The lock under which a forked child makes its piles its own."""

    lock = threading.Lock()

    @classmethod
    def in_child(cls) -> None:
        cls.lock = threading.Lock()


if hasattr(os, "register_at_fork"):
    os.register_at_fork(after_in_child=_Fork.in_child)


class Pile:
    """Chips on a graph that are kept stable, and on which you drop more chips.

    The graph is made once, so a drop costs only its firings. A pile is a context manager: the end of its block, or
    `close`, frees the memory.

    Parameters
    ----------
    graph : Graph or path
        The graph, or the name of its file.
    chips : Chips, optional
        The chips at the start, which are stabilized. By default none.
    limit : int, optional
        How often each vertex may fire in all plays together, from 0 to 2^40, which is the default. If the limit stops a
        play, `is_stopped` is true, and each later drop raises a `Fault` with number 13, until `put`.
    program : path, optional
        The program to run. By default, the program that the package finds.

    Raises
    ------
    Fault
        The graph or the chips are refused.

    See Also
    --------
    drops, avalanches, Drops

    Notes
    -----
    If the library is there, it keeps the pile in this process and plays in portions. An interrupt takes effect between
    two portions, and leaves the pile as it was before the call. Without the library, the program plays, with the same
    results. Threads may share a pile: one call waits for another. A forked child continues with its own pile. A copy or
    a pickle has the graph, the chips, the counts and the limit.

    Proved: the chips, the counts and the numbers of each drop. Not proved: that Python passes them on, and its sums.

    Examples
    --------
    >>> with chipfire.Pile(chipfire.path(2), {0: 1, 1: 1}) as pile:
    ...     size, area, lost = pile.drop(0)
    ...     print(size, area, lost, pile.chips)
    2 2 2 (1, 0, 2)
    """

    def __init__(
        self,
        graph: AnyGraph,
        chips: Chips | None = None,
        limit: int | None = None,
        *,
        program: AnyProgram = None,
    ) -> None:
        self.graph: Graph = known_graph(graph, program)
        self._program = program
        self._begin_state(self._start_of(chips), _limit(limit, MAX_LIMIT))
        self._ready()

    def _begin_state(self, start: array[int], limit: int) -> None:
        """The state of a pile of which nothing is known but its chips and its limit."""
        self._lock = threading.Lock()
        self._process = os.getpid()
        names = self.graph.names
        #: The vertices whose names are their numbers.
        self._numbered = names if isinstance(names, range) else range(0)
        #: The chips at the start with all that were dropped, and the limit: all else follows from these.
        self._game = (start, limit)
        self._is_closed = False
        self._forget()

    def _forget(self) -> None:
        """Forgets what follows from the game: the library's pile, or the chips and counts at the end."""
        self._kept: kept.KeptPile | None = None
        #: The chips and counts from which the library's pile goes on, if it is made anew.
        self._from: tuple[array[int], array[int]] | None = None
        self._end: tuple[Sequence[int], Sequence[int]] | None = None
        self._is_stopped = False
        self._total = sum(self._game[0])

    @property
    def is_stopped(self) -> bool:
        """Whether the limit has stopped a play."""
        with self._alone():
            self._ready()
            return self._is_stopped

    @property
    def chips(self) -> tuple[int, ...]:
        """The chips of each vertex, in the order of the numbers."""
        with self._alone():
            return tuple(self.graph.with_loops(self._ends()[0]))

    @property
    def fired(self) -> tuple[int, ...]:
        """How often each vertex has fired since the pile was made or `put` was called, in the order of the numbers."""
        with self._alone():
            return tuple(self._ends()[1])

    @property
    def configuration(self) -> Configuration:
        """The chips of all vertices but the sink, by names."""
        return Configuration(self.graph, self.chips)

    @property
    def report(self) -> Report:
        """The report of the play of all chips together: those at the start, and those that were dropped."""
        with self._alone():
            return self._report()

    def put(self, chips: Chips, limit: int | None = None) -> None:
        """Replaces all chips by others, stabilizes them, and counts firings from 0. Without a limit, the old limit
        stays. Chips that are refused change nothing."""
        start = self._start_of(chips)
        with self._alone():
            _refuse_more(start, self.graph)
            old = self._kept
            self._game = (start, _limit(limit, self._game[1]))
            self._forget()
            self._ready(old)

    def drop(self, vertex: Hashable, amount: int = 1) -> Drop:
        """Drops chips on a vertex, and plays on to the end."""
        # (a call for what is an int of a range takes longer than to see that)
        is_number = type(vertex) is int and vertex in self._numbered
        at: Any = vertex if is_number else self.graph.number(vertex)
        if type(amount) is not int or amount < 0:
            amount = as_int(amount, "the number of chips")
        with self._own_lock():
            pile = self._kept
            is_ready = pile is not None and pile.is_there and not self._is_stopped
            if not is_ready or self._total + amount > MAX_CHIPS:
                self._refuse_closed()
                pile = self._before([amount])
            if pile:
                return self._one_by_library(pile, at, amount)
            found = self._by_program(array("Q", [at]), array("Q", [amount]))
            if not len(found):
                raise refused(kept.STOPPED, 0, self.graph)
            return Drop(*(int(column[0]) for column in (found.size, found.extent, found.lost)))

    def drops(
        self,
        vertices: Any,
        *,
        amounts: Iterable[int] | None = None,
        fired: bool = False,
        durations: bool = False,
    ) -> Drops:
        """Makes drops on these vertices one after another, as `chipfire.drops` does: one chip each, or as many as
        `amounts` say. `fired` and `durations` need the library. If the limit stops the play of a drop, this drop is the
        last, and has no row. Then `report.closed` is false.
        """
        at, many = dropped_on(self.graph, vertices, amounts)
        with self._alone():
            pile = self._before(many)
            if pile:
                return self._by_library(pile, at, many, fired, durations)
            if fired or durations:
                raise without_library()
            return self._by_program(at, many)

    def close(self) -> None:
        """Frees the memory. After this, the pile cannot be used."""
        with self._alone(is_open=False):
            self._is_closed = True
            pile = self._kept
            self._kept = self._from = self._end = None
            if pile is not None and pile.is_own:
                self._end_of(pile)

    def __enter__(self) -> Pile:
        return self

    def __exit__(self, *_: object) -> None:
        self.close()

    def __getstate__(self) -> tuple[Graph, AnyProgram, array[int], int]:
        with self._alone():
            start, limit = self._game
            return self.graph, self._program, start[:], limit

    def __setstate__(self, state: tuple[Graph, AnyProgram, array[int], int]) -> None:
        self.graph, self._program, start, limit = state
        self._begin_state(start, limit)

    def __repr__(self) -> str:
        kind = "closed" if self._is_closed else f"{self._total:,} chips"
        return f"<Pile of {self.graph.vertices} vertices: {kind}>"

    @contextlib.contextmanager
    def _alone(self, is_open: bool = True) -> Iterator[None]:
        """One thread at a time."""
        with self._own_lock():
            if is_open:
                self._refuse_closed()
            yield

    def _own_lock(self) -> threading.Lock:
        """The lock of one thread at a time. In a forked child nobody else has it, and the pile of the parent is left alone."""
        if self._process != os.getpid():
            with _Fork.lock:
                if self._process != os.getpid():
                    self._lock = threading.Lock()
                    self._forget()
                    self._process = os.getpid()
        return self._lock

    def _refuse_closed(self) -> None:
        if self._is_closed:
            raise ValueError("the pile is closed")

    def _start_of(self, chips: Chips | None) -> array[int]:
        """Chips as plays of the graph without loops begin."""
        if isinstance(chips, FILE):
            chips = read_chips(chips, self.graph, program=self._program)
        numbers = self.graph.column(0 if chips is None else chips, 0)
        return in_words(self.graph.without_loops(numbers))

    def _ready(self, old: kept.KeptPile | None = None) -> kept.KeptPile | None:
        """The library's pile, played to the end. None if the program plays; then chips and counts are known."""
        if self._kept is not None and self._kept.is_there:
            return self._kept
        self._kept = None
        if self._end is None:
            start, limit = self._game
            self._kept = self._played(start, limit, old)
            if self._kept is None:
                told = plain(self._free, list(start), limit=limit, program=self._program)
                self._end = told.chips, told.fired
                self._is_stopped = not told.closed
        return self._kept

    def _played(
        self, start: array[int], limit: int, old: kept.KeptPile | None
    ) -> kept.KeptPile | None:
        """The library's pile with these chips, played to the end; None if that is the program's to do."""
        found = library.loaded() if self._program is None else None
        if found is None:
            return None
        own = old if old is not None and old.is_own else None
        if own is None:
            if self._from:
                return self._made_from(found, *self._from)
            own = self._made(found, start, limit)
        elif number := own.put(start, limit):
            raise refused(number, 0, self.graph)
        self._is_stopped = self._stops(own.play())
        return own

    def _made_from(self, found: Any, chips: array[int], fired: array[int]) -> kept.KeptPile:
        """A pile of the library at the end of a play, with these chips and counts."""
        own = kept.KeptPile(found, self._free, chips, self._game[1])
        if number := own.put(chips, None, fired):
            raise refused(number, 0, self.graph)
        self._from = None
        return own

    def _made(self, found: Any, start: array[int], limit: int) -> kept.KeptPile:
        """A pile of the library."""
        return kept.KeptPile(found, self._free, start, limit)

    def _end_of(self, pile: kept.KeptPile) -> None:
        """What becomes of it at the end."""
        pile.free()

    @property
    def _free(self) -> Graph:
        return self.graph.loop_free

    def _stops(self, number: int) -> bool:
        """Whether the limit has stopped a play of the library's pile. Another fault is raised."""
        if number not in (0, kept.STOPPED):
            raise refused(number, 0, self.graph)
        return number != 0

    def _before(self, amounts: Sequence[int]) -> kept.KeptPile | None:
        """The library's pile before drops of these amounts, which are refused if they are too many or the limit has
        stopped a play."""
        _refuse_more(amounts, self.graph, self._total)
        pile = self._ready()
        if self._is_stopped:
            raise refused(kept.STOPPED, 0, self.graph)
        return pile

    def _add(self, vertex: int, amount: int) -> None:
        """Notes a drop."""
        self._game[0][vertex] += amount
        self._total += amount

    def _add_all(self, at: Sequence[int], amounts: Sequence[int]) -> None:
        """Notes drops, all at once: a fork in between sees none of them."""
        start, limit = self._game
        start = start[:]
        for vertex, amount in zip(at, amounts):
            start[vertex] += amount
        self._total += sum(amounts)
        self._game = (start, limit)

    def ends(self) -> tuple[Sequence[int], Sequence[int]]:
        """The chips that lie there and the counts, by the numbers of the vertices, as the pile has them: with no call of
        Python for each."""
        with self._alone():
            left, fired = self._ends()
            return (self.graph.with_loops(left) if self.graph.loops else left), fired

    def _ends(self) -> tuple[Sequence[int], Sequence[int]]:
        """The chips and the counts at the end, without loops."""
        pile = self._ready()
        if pile:
            return pile.chips(), pile.fired()
        assert self._end is not None
        return self._end

    def _report(self) -> Report:
        left, fired = self._ends()
        degrees = self._free.degrees()
        over = [at for at, degree in enumerate(degrees) if 0 < degree <= left[at]]
        chips = tuple(self.graph.with_loops(left))
        return Report(chips, tuple(fired), tuple(over), graph=self.graph)

    def _one_by_library(self, pile: kept.KeptPile, at: int, amount: int) -> Drop:
        """A drop on the library's pile."""
        start, total = self._game[0], self._total
        there = start[at]
        try:
            number = pile.drop(at, amount)
            if number:
                self._is_stopped = self._stops(number)
            start[at] = there + amount
            self._total = total + amount
            found = Drop._make(pile.told)
        except BaseException:
            start[at], self._total, self._is_stopped = there, total, False
            if pile.is_own and sum(pile.chips()) != total:
                pile.free()  # (the drop was made: all is played again without it)
            raise
        if self._is_stopped:
            raise refused(kept.STOPPED, 0, self.graph)
        return found

    def _by_library(
        self,
        pile: kept.KeptPile,
        at: array[int],
        amounts: array[int],
        fired: bool,
        durations: bool,
    ) -> Drops:
        """Drops on the library's pile."""
        measured = Measured(self.graph, len(at), fired, durations)
        before = pile.chips(), pile.fired()
        game, total = self._game, self._total
        try:
            measured.play(pile, at, amounts)
            found = Drops(report=self._report(), **measured.told())
            self._is_stopped = self._stops(measured.number)
            fallen = measured.made + self._is_stopped
            self._add_all(at[:fallen], amounts[:fallen])
            return found
        except BaseException:
            self._game, self._total, self._is_stopped = game, total, False
            if pile.is_own:
                chips, counts = before
                pile.put(chips, None, counts)
            else:
                # (a thread ends its drop; to make another pile takes long, and so the next call does that)
                self._kept, self._from = None, before
            raise

    def _by_program(self, at: array[int], amounts: array[int]) -> Drops:
        """Drops that the program plays."""
        start, limit = self._game
        before = (start[:], limit), self._total, self._end
        try:
            return self._all_by_program(at, amounts)
        except BaseException:
            self._game, self._total, self._end = before
            self._is_stopped = False
            raise

    def _all_by_program(self, at: array[int], amounts: array[int]) -> Drops:
        """The same, of which an error may leave some."""
        assert self._end is not None
        (left, fired), (_, limit) = self._end, self._game
        names = [self._free.names[vertex] for vertex in at]
        found = drops(self._free, list(left), names, amounts=amounts, program=self._program)
        counts = [*map(operator.add, fired, found.report.fired)]
        if found.report.closed and max(counts, default=0) <= limit:
            self._add_all(at, amounts)
            self._end = found.report.chips, counts
            return Drops(found.size, found.extent, found.lost, self._report())
        return self._one_by_one(at, amounts)

    def _one_by_one(self, at: array[int], amounts: array[int]) -> Drops:
        """Drops of which the limit may stop one: the play of all chips together says of each what it adds."""
        columns = [array("Q") for _ in range(3)]
        for vertex, amount in zip(at, amounts):
            assert self._end is not None
            left, fired = self._end
            self._add(vertex, amount)
            start, limit = self._game
            told = plain(self._free, list(start), limit=limit, guess=fired, program=self._program)
            self._end = told.chips, told.fired
            self._is_stopped = not told.closed
            if self._is_stopped:
                break
            more = [*map(operator.sub, told.fired, fired)]
            sink = self.graph.sink
            brought = told.chips[sink] - left[sink] - (amount if vertex == sink else 0)
            for column, count in zip(columns, (sum(more), sum(map(bool, more)), brought)):
                column.append(count)
        size, extent, lost = shown(columns)
        return Drops(size, extent, lost, self._report())


class LentPile(Pile):
    """A pile for one call: that which the graph keeps, and has again at the end."""

    def _made(self, found: Any, start: array[int], limit: int) -> kept.KeptPile:
        return kept.taken(found, self._free, start, limit)

    def _end_of(self, pile: kept.KeptPile) -> None:
        kept.give_back(self._free, pile)


def _limit(limit: int | None, usual: int) -> int:
    return usual if limit is None else as_int(limit, "limit", 0, MAX_LIMIT)


def _refuse_more(amounts: Sequence[int], graph: Graph, total: int = 0) -> None:
    """Refuses the first of these amounts with which there are too many chips, with those that are there."""
    if total + sum(amounts) > MAX_CHIPS:
        for place, amount in enumerate(amounts):
            total += amount
            if total > MAX_CHIPS:
                raise refused(10, place, graph)
