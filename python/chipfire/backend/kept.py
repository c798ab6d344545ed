"""Piles that the library keeps in this process: whose their memory is, and the calls on them."""

from __future__ import annotations

import contextlib
import ctypes
import operator
import os
import struct
import threading
import time
import weakref
from array import array
from collections.abc import Callable, Sequence
from typing import Any, NamedTuple, TYPE_CHECKING, TypeVar

from chipfire.backend import library
from chipfire.backend.interrupts import GRACE
from chipfire.backend.portions import apart, PORTION
from chipfire.backend.process import refused
from chipfire.utils import numpy_in_use

if TYPE_CHECKING:
    from chipfire.graphs.graph import Graph

T = TypeVar("T")

#: The numbers of the faults that a call on a pile may have here: the limit has stopped a play; there is no memory.
STOPPED, NO_MEMORY = 13, 90

#: How many bytes a pile may take that a graph keeps between calls.
_MOST_BYTES = 2**26

#: Reads the first three numbers of some memory.
_three_of = struct.Struct("3Q").unpack_from

_NO_NUMBERS = array("Q")
_NO_ROOM = (_NO_NUMBERS, _NO_NUMBERS, _NO_NUMBERS)

#: How many visits the first portion of a play makes, and each at most.
_FIRST_VISITS, _MOST_VISITS = 2**22, 2**40

#: A drop has few chips if these are at most the first number, or the second one divided by the number of vertices.
_FEW_CHIPS, _LIGHT = 2**8, 2**18

#: On a graph with more vertices the first drop is made in portions, even one of few chips.
_MANY_VERTICES = 2**10


#: On a graph with more vertices one random configuration may take a tenth of a second.
_SLOW_DRAWS = 2**16


class Until(NamedTuple):
    """The drop that ends a run: the first that loses a chip, if `loses` is true; that fires a vertex with bit 1 in its mark;
    or that fires one with bit 2 and one with bit 4, or one with bit 8 and one with bit 16. There is one mark per vertex, or
    none."""

    loses: bool = False
    marks: Any = _NO_NUMBERS


#: No drop ends the run.
NEVER = Until()


class _Struct(ctypes.Structure):
    """What C has of a pile."""

    _fields_ = [("has_pile", ctypes.c_uint64), ("pile", ctypes.c_void_p)]


def _free(found: Any, struct: _Struct, process: int) -> None:
    """Frees a pile, if it is one of this process."""
    if os.getpid() == process:
        found.chipfire_pile_free(ctypes.addressof(struct))


def nothing(*_: object) -> None:
    """What is done between two portions, if nobody says what."""


class KeptPile:
    """A pile that the library keeps: a graph with chips, on which drops make no graph.

    Its memory belongs to the process that made it (`is_own`): a child has a copy, which it neither uses nor frees. It is
    freed when nothing refers to this object any more, by whatever thread finds that, or by `free`. One thread at a time
    may call it; who shares it has a lock. A call returns the number of a fault, or 0.

    A play is made in portions. Between two of them an interrupt is seen, and `between` is called with the pile. Drops whose
    durations are measured are made by a thread, if the main thread asks for them and they may be long.

    A drop is made in one call, which no interrupt ends, or in portions, which take passes over the graph. It is made in
    portions if it has many chips, or if the drop before it was long. Then all chips are put on the library's pile, whose
    counts begin with 0 again, and this object keeps the counts from before. Each vertex may fire as often as the highest
    of these leaves of the limit. If that stops a play, all chips are played from the beginning on, with the whole limit.
    """

    def __init__(self, found: Any, graph: Graph, chips: array[int], limit: int) -> None:
        self._found = found
        self._struct = _Struct()
        self._at = ctypes.addressof(self._struct)
        self._told = (ctypes.c_uint64 * 4)()
        at = ctypes.addressof(self._told)
        self._words = [at + 8 * it for it in range(4)]
        self._call_drop = found.chipfire_pile_drop
        #: What that takes, made once: the pile, vertex and amount, and where to write the drop's numbers.
        self._vertex, self._amount = ctypes.c_uint64(), ctypes.c_uint64()
        pile, *to = (ctypes.c_void_p(it) for it in (self._at, *self._words[:3]))
        self._of_drop = (pile, self._vertex, self._amount, *to)
        self._process = os.getpid()
        #: Whether it is neither freed nor left to a thread.
        self.is_there = True
        # (the graph may keep the pile)
        self._graph = weakref.ref(graph)
        self.vertices = graph.vertices
        self.between: Callable[[KeptPile], object] = nothing
        #: The most chips with which the next drop is made in one call.
        self.light = 0
        #: How often each vertex may fire in all, and how often it had fired when the library's pile got its chips.
        self._limit = limit
        self._before: array[int] | None = None
        self._begin()
        edges = [
            word for column in graph.long_columns for word in library.slice_of("edges", column)
        ]
        of_chips = library.slice_of("chips", chips)
        ends = (graph.vertices, graph.sink)
        number = found.chipfire_pile_new(self._at, *ends, *edges, limit, *of_chips, self._words[3])
        if number:
            raise refused(number, self._told[3], graph)
        self.finalizer = weakref.finalize(self, _free, found, self._struct, self._process)
        # (a thread may be in a call when the process ends, and then its memory goes anyway)
        self.finalizer.atexit = False

    @property
    def is_own(self) -> bool:
        """Whether this process made it, and it is there."""
        return self.is_there and self._process == os.getpid()

    def free(self) -> None:
        """Gives the memory back."""
        self.is_there = False
        self.finalizer()

    @property
    def size(self) -> int:
        """How many bytes it takes."""
        return int(self._found.chipfire_pile_size(self._at))

    def put(
        self, chips: array[int], limit: int | None = None, fired: array[int] | None = None
    ) -> int:
        """Puts other chips in place of all that are there, and sets the limit, if one is given. `fired` is how often each
        vertex had fired before, which counts towards the limit."""
        limit = self._limit if limit is None else limit
        within = limit if fired is None else limit - max(fired)
        words = library.slice_of("chips", chips)
        number = int(self._found.chipfire_pile_put(self._at, within, *words))
        if not number:
            self._limit, self._before = limit, fired
            self._begin()
        return number

    def _begin(self) -> None:
        """Forgets how long drops took. On a small graph the next one is taken for a short one."""
        self.light = 0
        self._few = max(_LIGHT // max(self.vertices, 1), _FEW_CHIPS)
        if self.vertices <= _MANY_VERTICES:
            self.note(1, 0)

    def note(self, drops: int, seconds: float) -> None:
        """Decides how the next drop is made, by the seconds that some drops took. If one took longer than a portion, the
        next one is made in portions; else in one call, if it has few chips. Several drops decide nothing.
        """
        if drops == 1:
            self.light = 0 if seconds > PORTION else self._few

    def play(self) -> int:
        """Plays to the end, in portions."""
        visits = _FIRST_VISITS
        while True:
            begun = time.monotonic()
            number = self._portion(visits)
            if number or not self._told[0]:
                return number
            self.between(self)
            is_short = time.monotonic() - begun < PORTION
            visits = min(2 * visits, _MOST_VISITS) if is_short else max(visits // 2, 1)

    def ends_soon(self) -> bool:
        """Plays for about the time of a portion; whether it reaches the end."""
        end = time.monotonic() + PORTION
        while time.monotonic() < end:
            if self._portion(_FIRST_VISITS):
                return False
            if not self._told[0]:
                return True
        return False

    def _portion(self, visits: int) -> int:
        return int(self._found.chipfire_pile_play(self._at, visits, self._words[0]))

    def drop(self, vertex: int, amount: int) -> int:
        """Makes a drop, after which `told` has its numbers."""
        if amount > self.light:
            return self.pour(vertex, amount)[0]
        self._vertex.value, self._amount.value = vertex, amount
        begun = time.monotonic()
        number: int = self._call_drop(*self._of_drop)
        self.light = self._few if time.monotonic() - begun <= PORTION else 0
        if number == STOPPED and self.is_before(vertex, amount):
            return self.drop(vertex, amount)
        return number

    def pour(self, vertex: int, amount: int) -> tuple[int, Sequence[int]]:
        """Makes a drop in portions, on a pile that is at its end. Returns the number of a fault, and how often each vertex
        fires. An interrupt leaves the pile as it was before."""
        begun = time.monotonic()
        left, fired = self.chips(), self.fired()
        start = left[:]
        start[vertex] += amount
        try:
            number = self.put(start, None, fired) or self.play()
            if number == STOPPED:
                number = self.put(self._start()) or self.play()
        except BaseException:
            self.put(left, None, fired)
            raise
        more = _differences(self.fired(), fired)
        brought = self.chips()[self._sink] - start[self._sink]
        self._told[:3] = [sum(more), len(more) - more.count(0), brought]
        self.note(1, time.monotonic() - begun)
        return number, more

    def is_before(self, vertex: int, amount: int) -> bool:
        """Whether a drop that the limit has stopped may be made again, since the library's pile lacked counts from before.
        The pile is then as it was before the drop, and has all counts. An interrupt frees it."""
        if self._before is None:
            return False
        start = self._start()
        start[vertex] -= amount
        try:
            return (self.put(start) or self.play()) == 0
        except BaseException:
            self.free()
            raise

    def _start(self) -> array[int]:
        """All chips that were put there or dropped, each on its first vertex."""
        graph = self._graph()
        assert graph is not None
        return array("Q", graph.position_after(self.chips(), [-it for it in self.fired()]))

    @property
    def _sink(self) -> int:
        graph = self._graph()
        assert graph is not None
        return graph.sink

    @property
    def told(self) -> tuple[int, int, int]:
        """The size, the area and the loss of the last drop."""
        size, extent, lost = _three_of(self._told)
        return size, extent, lost

    def measure(
        self,
        at: Any,
        amounts: Any,
        columns: Sequence[Any],
        room: Sequence[Any] = _NO_ROOM,
        until: Until = NEVER,
    ) -> tuple[int, int]:
        """Makes many drops, none of them in portions. Returns the number of a fault, and how many were made, or its place.

        Their numbers go into the columns: size, area and loss, and the duration if there is a fourth. What they fire goes
        into the room, if there is one: where each drop ends, the vertices, and their counts. Not all drops are made if the
        limit stops one, if the room has no place for all vertices, or if a drop ends the run."""
        *three, duration = columns if len(columns) > 3 else (*columns, _NO_NUMBERS)
        drops, others = (
            [word for it in slices for word in library.slice_of("drops", it)]
            for slices in ((at, amounts), (until.marks, *three, duration, *room))
        )
        words = (*drops, until.loses, *others, self._words[3])
        held = (at, amounts, until, columns, room)

        def call() -> tuple[int, Any]:
            return int(self._found.chipfire_pile_measure(self._at, *words)), held

        number, _ = self._apart(call) if len(duration) and self._may_be_long(amounts) else call()
        return number, self._told[3]

    def _may_be_long(self, amounts: Any) -> bool:
        """Whether the main thread asks for drops of these amounts, of which one may be long."""
        if threading.current_thread() is not threading.main_thread():
            return False
        return self.vertices > _MANY_VERTICES or max(amounts, default=0) > self.light

    def _apart(self, call: Callable[[], T]) -> T:
        """Has a thread make a call, so that an interrupt is seen, and what `between` raises. A call that goes on for long after
        that has the pile alone, and what it writes to."""
        is_over = threading.Event()

        def work() -> T:
            try:
                return call()
            finally:
                is_over.set()

        try:
            return apart(work, lambda: self.between(self))
        except BaseException:
            self.is_there = False
            self.is_there = is_over.wait(GRACE)
            raise

    def draw(self, seed: int, first: int, chips: array[int]) -> tuple[int, int]:
        """Fills the chips with random recurrent configurations of the graph, from this number on; and the place of a fault. A
        thread draws on a large graph, if the main thread asks."""
        rows = len(chips) // self.vertices
        words = (*library.slice_of("chips", chips), self._words[3])

        def call() -> tuple[int, Any]:
            draw = self._found.chipfire_pile_random_recurrent
            return int(draw(self._at, seed, first, rows, *words)), chips

        is_large = self.vertices > _SLOW_DRAWS and self._may_be_long(())
        number, _ = self._apart(call) if is_large else call()
        return number, self._told[3]

    def chips(self) -> array[int]:
        """The chips of each vertex."""
        return self._copied(self._found.chipfire_pile_chips)

    def copy_chips(self, numbers: Any) -> None:
        """Writes the chips of each vertex over as many other numbers."""
        self._found.chipfire_pile_chips(self._at, *library.slice_of("numbers", numbers))

    def fired(self) -> array[int]:
        """How often each vertex has fired in all."""
        found = self._copied(self._found.chipfire_pile_fired)
        return found if self._before is None else _sums(found, self._before)

    def _copied(self, call: Any) -> array[int]:
        numbers = array("Q", bytes(8 * self.vertices))
        call(self._at, *library.slice_of("numbers", numbers))
        return numbers


def _sums(counts: array[int], more: array[int]) -> array[int]:
    """The sum of two counts of each vertex."""
    numpy = numpy_in_use()
    if not numpy:
        return array("Q", map(operator.add, counts, more))
    found = counts[:]
    together = numpy.frombuffer(found, "u8")
    together += numpy.frombuffer(more, "u8")
    return found


def _differences(counts: array[int], less: array[int]) -> array[int]:
    """The first count of each vertex less the second, which is not higher."""
    numpy = numpy_in_use()
    if not numpy:
        return array("Q", map(operator.sub, counts, less))
    found = counts[:]
    apart = numpy.frombuffer(found, "u8")
    apart -= numpy.frombuffer(less, "u8")
    return found


def take(graph: Graph, chips: array[int], limit: int) -> KeptPile | None:
    """A pile with these chips, as `taken` has it; None without the library."""
    found = library.loaded()
    return None if found is None else taken(found, graph, chips, limit)


def taken(found: Any, graph: Graph, chips: array[int], limit: int) -> KeptPile:
    """A pile with these chips: the one that the graph keeps, if no other thread has it, or a new one. Chips that are none,
    and want of memory, are refused."""
    pile = _kept_by(graph)
    if pile is None:
        return KeptPile(found, graph, chips, limit)
    number = pile.put(chips, limit)
    if number:
        give_back(graph, pile)
        raise refused(number, 0, graph)
    return pile


def _kept_by(graph: Graph) -> KeptPile | None:
    """The pile that the graph keeps, with any chips; None if it keeps none, or another thread has it."""
    kept: list[KeptPile] = graph.answers.setdefault("piles", [])
    with contextlib.suppress(IndexError):
        pile = kept.pop()
        return pile if pile.is_own else None
    return None


def give_back(graph: Graph, pile: KeptPile) -> None:
    """Has the graph keep a pile until the next call, if it keeps none and this one is not large."""
    kept: list[KeptPile] = graph.answers.setdefault("piles", [])
    pile.between = nothing
    if not kept and pile.is_own and pile.size <= _MOST_BYTES:
        kept.append(pile)


def random_recurrents(graph: Graph, seed: int, first: int, count: int) -> array[int] | None:
    """Random recurrent configurations of a seed, from the one with number `first` on, one after another; or None if
    there is no library."""
    found = library.loaded()
    if found is None:
        return None
    pile = _kept_by(graph) or KeptPile(found, graph, _no_chips(graph.vertices), 0)
    chips = _no_chips(count * graph.vertices)
    try:
        number, place = pile.draw(seed, first, chips)
    finally:
        give_back(graph, pile)
    if number:
        raise refused(number, place, graph)
    return chips


def _no_chips(vertices: int) -> array[int]:
    return array("Q", (0,)) * vertices
