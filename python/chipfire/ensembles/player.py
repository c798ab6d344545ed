"""How chains are played: a plan of them, a table for their numbers, and what plays a part of the plan into the table."""

from __future__ import annotations

import contextlib
import itertools
import math
import operator
import random
import threading
from array import array
from collections import Counter
from collections.abc import Iterator, Mapping, Sequence
from dataclasses import dataclass, field, replace
from typing import Any, TypeVar, Union

from chipfire.backend import kept, library
from chipfire.backend.portions import Stopped
from chipfire.backend.process import refused
from chipfire.ensembles.drops import COLUMNS, in_calls, names_of, PART, TIMED_COLUMNS
from chipfire.ensembles.firings import (
    ends_inside,
    ends_run,
    fall,
    offsets_of,
    Piece,
    places_on_grid,
    Room,
    shape_of,
)
from chipfire.ensembles.wilson import recurrent_rows
from chipfire.graphs.graph import Graph
from chipfire.utils import import_optional, MAX_LIMIT

T = TypeVar("T")

#: How many drops are drawn first of a chain that may end with any of them.
_FEW = 2**10


@dataclass(frozen=True)
class Places:
    """The vertices on which chips fall at random.

    vertices  their numbers
    weights   how probable each one is, added up from the first one on; None if all are equally probable
    """

    vertices: array[int]
    weights: tuple[float, ...] | None = None

    def drawn(self, draw: random.Random, count: int) -> list[int]:
        """`count` of them, as `random.Random.choices` draws."""
        return draw.choices(self.vertices, cum_weights=self.weights, k=count)

    def at(self, chances: Any) -> Any:
        """Those that NumPy's numbers from 0 to 1 stand for: those that `drawn` has for the same numbers."""
        numpy = import_optional("numpy")
        count = len(self.vertices)
        if self.weights is None:
            found = (chances * count).astype("i8")
        else:
            found = numpy.searchsorted(self.weights, chances * self.weights[-1], "right")
            found = numpy.minimum(found, count - 1)
        return numpy.frombuffer(self.vertices, "u8")[found]


def places_of(graph: Graph, on: Any) -> Places:
    """The vertices on which chips fall: all but the sink, those in a sequence of names, or names with their weights."""
    if on is None:
        inner = [it for it in range(graph.vertices) if it != graph.sink]
        return Places(array("Q", inner))
    is_weighted = isinstance(on, Mapping) or hasattr(on, "items")
    names = [*on.keys()] if is_weighted else [*names_of(on, "a series")]
    vertices = array("Q", map(graph.number, names))
    if not vertices:
        raise ValueError("chips fall on vertices that `on` names, and it names none")
    if len({*vertices}) < len(vertices) or graph.sink in vertices:
        raise ValueError("chips fall on different vertices, of which none is the sink")
    if not is_weighted:
        return Places(vertices)
    weights = [float(weight) for _, weight in on.items()]
    if not all(0 <= weight < math.inf for weight in weights) or sum(weights) <= 0:
        raise ValueError("the weights of vertices are numbers from 0 on, and not all are 0")
    return Places(vertices, tuple(itertools.accumulate(weights)))


@dataclass(frozen=True)
class Plan:
    """Chains to play: those from `first` to `first + n - 1` of a seed.

    drops    how many drops each makes at most
    places   where chips fall
    amounts  how many chips each drop has: one number if all have as many
    starts   the stable chips from which chains begin, by numbers and without those of loops, one chain after another;
             None if each begins with a random recurrent configuration
    burn_in  how many chips are drawn to play each start in
    until    after which drop a chain ends: "loss", "spans" or None
    fired    whether it is asked what fired
    timed    whether it is asked for durations
    counted  whether it is asked for histograms alone
    """

    graph: Graph
    seed: int | float | str | bytes
    first: int
    n: int
    drops: int
    places: Places
    amounts: array[int] | int
    starts: array[int] | None = None
    burn_in: int = 0
    until: str | None = None
    fired: bool = False
    timed: bool = False
    counted: bool = False

    @property
    def seeds(self) -> tuple[str, ...]:
        """The seed of each chain."""
        seed = str(self.seed)
        return tuple(f"{seed} {self.first + chain}" for chain in range(self.n))

    def amounts_of(self, start: int, stop: int) -> array[int]:
        """How many chips these drops have."""
        if isinstance(self.amounts, int):
            return array("Q", [self.amounts]) * (stop - start)
        return self.amounts[start:stop]

    def part(self, start: int, stop: int) -> Plan:
        """The chains in these places."""
        width = self.graph.vertices
        starts = None if self.starts is None else self.starts[start * width : stop * width]
        return replace(self, first=self.first + start, n=stop - start, starts=starts)


@dataclass
class Table:
    """The numbers of chains, flat and of 64 bits, those of one chain after those of another.

    columns  the size, area and loss of each drop, and its duration if that is asked for
    made     how many drops each chain made
    chips    what lies on each vertex, without the chips of loops
    fired    pieces of what fired
    parts    the pieces that parts of this table have, by the numbers of their first chains
    """

    drops: int
    width: int
    columns: list[Any]
    made: Any
    chips: Any
    fired: list[Piece] = field(default_factory=list)
    parts: dict[int, list[Piece]] = field(default_factory=dict)

    @classmethod
    def of(cls, plan: Plan) -> Table:
        """A table for a plan, in which no drop is made."""
        width = 3 + plan.timed
        counts = [plan.n * plan.drops] * width + [plan.n, plan.n * plan.graph.vertices]
        *columns, made, chips = map(_zeros, counts)
        return cls(plan.drops, plan.graph.vertices, columns, made, chips)

    def part(self, start: int, stop: int) -> Table:
        """The rows of these chains, in the memory of this table, which has what they fire too."""
        return Table(
            self.drops,
            self.width,
            [memoryview(it)[start * self.drops : stop * self.drops] for it in self.columns],
            memoryview(self.made)[start:stop],
            memoryview(self.chips)[start * self.width : stop * self.width],
            self.parts.setdefault(start, []),
        )

    def chips_of(self, chain: int) -> memoryview:
        """What lies on each vertex after the last drop of a chain."""
        return memoryview(self.chips)[chain * self.width : (chain + 1) * self.width]

    def rows(self, count: int) -> list[Any]:
        """Room by columns for the numbers of `count` drops until they are taken."""
        return [_zeros(count) for _ in self.columns]

    def add(self, chain: int, rows: list[Any], made: int) -> None:
        """Takes the first drops whose numbers stand in rows, which a chain made after those before."""
        first = chain * self.drops + int(self.made[chain])
        for numbers, row in zip(self.columns, rows):
            _copy(memoryview(numbers)[first : first + made], row[:made])
        self.made[chain] += made

    def put(self, start: int, stop: int, other: Table) -> None:
        """Takes the numbers of a table of the chains in these places."""
        part = self.part(start, stop)
        mine = [*part.columns, part.made, part.chips]
        for numbers, given in zip(mine, [*other.columns, other.made, other.chips]):
            _copy(numbers, given)
        self.parts[start] = other.fired

    def cut(self, start: int, stop: int) -> Table:
        """The rows of these chains, and what they fired, if this table has what all its chains fired, in one part."""
        part = self.part(start, stop)
        for _, ((vertices, counts),) in self.fired:
            first, last = offsets_of(self.columns[1])[[start * self.drops, stop * self.drops]]
            part.fired.append((0, [(vertices[first:last], counts[first:last])]))
        return part

    def taken(self) -> list[Piece]:
        """The pieces of what all chains fired, which are no longer in the table."""
        found = self.fired
        while self.parts:
            chain, pieces = self.parts.popitem()
            found += [(first + chain * self.drops, parts) for first, parts in pieces]
        return found


@dataclass
class Tally:
    """Histograms of chains, and what lies there at their end.

    counts  of each chain and column, how many drops have each number; the durations are the last, if they are asked for
    sums    of each chain, the sums of the products of two columns, as `pairs_of` has them
    made    how many drops each chain made
    chips   what lies on each vertex, without the chips of loops
    """

    width: int
    counts: list[list[Counter[int]]]
    sums: list[list[int]]
    made: Any
    chips: Any

    @classmethod
    def of(cls, plan: Plan) -> Tally:
        """A tally for a plan, in which no drop is made."""
        width = plan.graph.vertices
        names = TIMED_COLUMNS if plan.timed else COLUMNS
        return cls(
            width,
            [[Counter() for _ in names] for _ in range(plan.n)],
            [[0 for _ in pairs_of(names)] for _ in range(plan.n)],
            _zeros(plan.n),
            _zeros(plan.n * width),
        )

    def part(self, start: int, stop: int) -> Tally:
        """The tally of these chains, in the memory of this one."""
        return Tally(
            self.width,
            self.counts[start:stop],
            self.sums[start:stop],
            memoryview(self.made)[start:stop],
            memoryview(self.chips)[start * self.width : stop * self.width],
        )

    def chips_of(self, chain: int) -> memoryview:
        """What lies on each vertex after the last drop of a chain."""
        return memoryview(self.chips)[chain * self.width : (chain + 1) * self.width]

    def rows(self, count: int) -> list[Any]:
        """Room by columns for the numbers of `count` drops until they are counted."""
        return [_zeros(count) for _ in self.counts[0]]

    def add(self, chain: int, rows: list[Any], made: int) -> None:
        """Counts the first drops whose numbers stand in rows, which are made."""
        self.made[chain] += made
        columns = [row[:made].tolist() for row in rows]
        for counts, column in zip(self.counts[chain], columns):
            counts.update(column)
        for place, (one, other) in enumerate(pairs_of(columns)):
            products = map(operator.mul, one, other)
            self.sums[chain][place] += sum(products)

    def put(self, start: int, stop: int, other: Tally) -> None:
        """Takes the tally of the chains in these places."""
        self.counts[start:stop] = other.counts
        self.sums[start:stop] = other.sums
        part = self.part(start, stop)
        _copy(part.made, other.made)
        _copy(part.chips, other.chips)


def pairs_of(columns: Sequence[T]) -> list[tuple[T, T]]:
    """The pairs of columns, or of their names, whose products are added up."""
    pairs = itertools.combinations_with_replacement(columns, 2)
    return [(one, other) for one, other in pairs]


def _copy(numbers: Any, given: Any) -> None:
    """Writes numbers of 64 bits over as many others."""
    if len(given):  # (no view of none of them can be cast)
        memoryview(numbers).cast("B")[:] = memoryview(given).cast("B")


def _zeros(count: int) -> Any:
    """`count` zeros of 64 bits: of NumPy, which takes memory as it is written, or the standard library's."""
    numpy = import_optional("numpy")
    return numpy.zeros(count, "u8") if numpy else array("Q", bytes(8 * count))


AnyTable = Union[Table, Tally]


class Watch:
    """What the threads that play have in common: how many drops are made, and whether they are to stop."""

    def __init__(self) -> None:
        self._lock = threading.Lock()
        self._locks: list[threading.Lock] = []
        self.made = 0
        self.is_stopped = False
        #: Whether the tables are as they will be, although threads may not have ended their calls.
        self.is_left = False
        #: How many drops the first call of the next chain makes.
        self.drops_of_call = 1

    def add(self, made: int) -> None:
        """Counts drops that are made."""
        with self._lock:
            self.made += made

    def lock(self) -> threading.Lock:
        """A lock that one thread holds while it writes to its table, unless that `is_left`."""
        self._locks.append(threading.Lock())
        return self._locks[-1]

    def leave(self) -> None:
        """Has no thread write to a table any more. Those that write finish that first."""
        self.is_left = True
        for lock in self._locks:
            with lock:
                pass


def table_of(plan: Plan) -> AnyTable:
    """What is asked for, in which no drop is made."""
    return Tally.of(plan) if plan.counted else Table.of(plan)


def begin(plan: Plan, table: AnyTable) -> None:
    """Puts the chips into a table from which chains begin."""
    starts = plan.starts
    if starts is None:
        starts = recurrent_rows(plan.graph, plan.seed, plan.n, plan.first)
    _copy(table.chips, starts)


def play(plan: Plan, table: AnyTable, watch: Watch) -> AnyTable:
    """Plays chains into a table, which has their starts."""
    _Player(plan, table, watch).play()
    return table


def played(plan: Plan) -> AnyTable:
    """Plays chains to their ends, in a process of their own."""
    if why := library.why_none():
        raise RuntimeError(f"a worker has no library of chipfire: {why}")
    table = table_of(plan)
    begin(plan, table)
    return play(plan, table, Watch())


class _Player:
    """Plays one chain of a plan after another into their table, each on a pile that the library keeps."""

    def __init__(self, plan: Plan, table: Any, watch: Watch) -> None:
        self.plan = plan
        self.table = table
        self.watch = watch
        self.lock = watch.lock()
        self.graph = plan.graph.loop_free
        self.seeds = plan.seeds
        self.draw = random.Random(0)
        self.twister: Any = None
        is_asked = plan.fired or plan.until == "spans"
        self.room = Room(self.graph.vertices, plan.fired) if is_asked else None
        self.until = _until(self.graph, plan.until)
        self.anywhere = Places(array("Q", range(self.graph.vertices)))
        #: The number of the next drop among those of all chains, and whether the chain has ended.
        self.next = 0
        self.is_over = False

    def play(self) -> None:
        """Plays all chains to their ends, or until they are to stop."""
        pile = None
        for chain in range(self.plan.n):
            start = array("Q", bytes(self.table.chips_of(chain)))
            if pile is None:
                found = library.loaded()
                pile = kept.KeptPile(found, self.graph, start, MAX_LIMIT)
                pile.between = self._go_on
            else:
                self._put(pile, start)
            if self._play_in(pile, chain):
                self._play_on(pile, chain)
            if self.watch.is_stopped:
                break
        if pile is not None:
            pile.free()

    def _go_on(self, _: kept.KeptPile) -> None:
        """Ends a long drop, if all is to stop."""
        if self.watch.is_stopped:
            raise Stopped

    def _put(self, pile: kept.KeptPile, chips: array[int]) -> None:
        """The start of the next chain, whose drops are as long as those of the one before."""
        light = pile.light
        if number := pile.put(chips, MAX_LIMIT):
            raise refused(number, 0, self.graph)
        pile.light = light

    def _seed(self, seed: str) -> None:
        """Has `_drawn` begin with a seed, by NumPy's twister, which is Python's."""
        self.draw = random.Random(seed)
        numpy = import_optional("numpy")
        if numpy:
            self.twister = self.twister or numpy.random.RandomState(0)
            state = self.draw.getstate()[1]
            self.twister.set_state(("MT19937", state[:-1], state[-1]))

    def _drawn(self, places: Places, count: int) -> Any:
        """The next vertices of some places, as `random_drops` draws them."""
        if self.twister is None:
            return array("Q", places.drawn(self.draw, count))
        return places.at(self.twister.random_sample(count))

    def _play_in(self, pile: kept.KeptPile, chain: int) -> bool:
        """Plays the start of a chain in, whose chips may all fall together; whether that is done, and no thread is to stop."""
        if not self.plan.burn_in:
            return True
        self._seed(self.seeds[chain] + " burn-in")
        start = array("Q", bytes(self.table.chips_of(chain)))
        for part in range(0, self.plan.burn_in, PART):
            drawn = self._drawn(self.anywhere, min(PART, self.plan.burn_in - part))
            _add_ones(start, drawn)
            if self.watch.is_stopped:
                return False
        self._put(pile, start)
        with contextlib.suppress(Stopped):
            if number := pile.play():
                raise refused(number, 0, self.graph)
            return self._has_begun(pile, chain)
        return False

    def _has_begun(self, pile: kept.KeptPile, chain: int) -> bool:
        """Has a chain begin with what the pile has, and writes that to the table, unless that is left. The sink has what it had
        before, and all counts begin with 0."""
        start, there = pile.chips(), self.table.chips_of(chain)
        start[self.graph.sink] = there[self.graph.sink]
        self._put(pile, start)
        with self.lock:
            if not self.watch.is_left:
                _copy(there, start)
            return not self.watch.is_left

    def _play_on(self, pile: kept.KeptPile, chain: int) -> None:
        """Plays a chain, some drops at a time."""
        self._seed(self.seeds[chain])
        self.next = chain * self.plan.drops
        self.is_over = False
        for start, stop in _stretches(self.plan):
            made = self._drops(pile, chain, self.plan.amounts_of(start, stop))
            if made < stop - start or self.is_over:
                break

    def _drops(self, pile: kept.KeptPile, chain: int, amounts: array[int]) -> int:
        """Makes the next drops of a chain, which have these amounts, until they are to stop; how many were made. The first
        call has as many as the last one before."""
        made = 0

        def call(where: Any, many: Any, rows: list[Any]) -> bool:
            nonlocal made
            if self.watch.is_stopped:
                return False
            more = self._call(pile, chain, where, many, rows)
            made += more
            self.watch.add(more)
            return not self.is_over and not self.watch.is_stopped

        at, rows = self._drawn(self.plan.places, len(amounts)), self.table.rows(len(amounts))
        of_call = in_calls(call, at, amounts, rows, self.watch.drops_of_call)
        self.watch.drops_of_call = of_call or self.watch.drops_of_call
        return made

    def _call(self, pile: kept.KeptPile, chain: int, at: Any, amounts: Any, rows: list[Any]) -> int:
        """Makes drops up to one that ends the chain, or one that is stopped, and writes to the table what came of them,
        unless that is left; how many."""
        number, made = fall(pile, self.room, at, amounts, rows, self.until)
        if number:
            raise refused(number, made, self.graph)
        with self.lock:
            if self.watch.is_left:
                return 0
            self.table.add(chain, rows, made)
            pile.copy_chips(self.table.chips_of(chain))
            if self.room and self.plan.fired:
                self.table.fired.append((self.next, self.room.taken()))
        self.is_over = ends_run(self.until, self.room, rows, made)
        self.next += made
        return made


def _add_ones(chips: array[int], vertices: Any) -> None:
    """Adds a chip for each of these vertices."""
    numpy = import_optional("numpy")
    if numpy:
        there = numpy.frombuffer(chips, "u8")
        there += numpy.bincount(vertices.astype("i8"), minlength=len(chips)).astype("u8")
        return
    for vertex in vertices:
        chips[vertex] += 1


def _stretches(plan: Plan) -> Iterator[tuple[int, int]]:
    """The drops that are drawn at a time: of a chain that may end before the last, a few at first, and then as many as all
    before."""
    stop, size = 0, _FEW if plan.until else PART
    while stop < plan.drops:
        start, stop = stop, min(stop + size, plan.drops)
        yield start, stop
        size = min(max(size, stop), PART)


def _until(graph: Graph, until: str | None) -> kept.Until:
    """The drop that ends a chain, as the library takes it."""
    if until is None:
        return kept.NEVER
    if until == "loss":
        return kept.Until(loses=True)
    return kept.Until(marks=spanning(graph))


def spanning(graph: Graph) -> Any:
    """The marks that end a run with a drop that fires vertices at two opposite borders of the grid (`kept.Until`)."""
    height, width = shape_of(graph, "nothing spans it")
    numpy = import_optional("numpy")
    places = places_on_grid(numpy, graph, width)
    _refuse_layers(numpy, graph, places, (height, width))
    marks = numpy.zeros(graph.vertices, "u8")
    for bit, (way, end) in zip((2, 4, 8, 16), _ends_of(height, width)):
        is_there = places[:, way] == end
        is_there[graph.sink] = False
        marks[is_there] |= numpy.uint64(bit)
    return marks


def _refuse_layers(numpy: Any, graph: Graph, places: Any, shape: tuple[int, int]) -> None:
    """Refuses a grid of more directions than two. Its picture has layers below each other, so all edges stay in a column
    that lead farther than to a neighbour, or across joined borders."""
    tails, heads = ends_inside(numpy, graph)
    steps = abs(places[tails] - places[heads])
    is_far = ((steps > 1) & (steps < numpy.array(shape) - 1)).any(1)
    if is_far.any() and not steps[is_far, 1].any():
        raise ValueError("the graph is no grid of two directions, so nothing spans it")


def _ends_of(height: int, width: int) -> list[tuple[int, int]]:
    """The first and the last row, then the first and the last column."""
    return [(0, 0), (0, height - 1), (1, 0), (1, width - 1)]
