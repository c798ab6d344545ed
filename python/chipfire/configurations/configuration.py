"""Configurations: the chips of all vertices but the sink, and what the program is asked about them."""

from __future__ import annotations

import functools
import itertools
import json
import operator
from array import array
from collections.abc import Callable, Hashable, Iterator, Mapping, Sequence
from typing import Any, TYPE_CHECKING, TypeVar, Union

from chipfire.backend import library
from chipfire.backend.kept import nothing
from chipfire.backend.plays import Between, is_short, play, represents_soon
from chipfire.backend.process import ask, Kept
from chipfire.configurations import smith
from chipfire.pictures.picture import Drawn
from chipfire.utils import as_int, as_tuple, FileName, in_column, MAX_CHIPS, no_graph, with_unit

if TYPE_CHECKING:
    from chipfire.graphs.graph import Graph

T = TypeVar("T")
AnySums = TypeVar("AnySums", bound="Sums")
CHIPS_HEADER = ("vertex", "chips")
GUESS_HEADER = ("vertex", "fired")

#: Numbers of vertices: by their names, as a dict or a Series of pandas; as an array of the graph's shape; one for each
#: vertex, or for each but the sink; one for all; what a report has; or the name of a chips file. A vertex that is not
#: named has 0.
Chips = Union[int, Sequence[Any], Mapping[Any, int], Any]


def capped(counts: Sequence[int]) -> Sequence[int]:
    """Counts of chips or firings. Each that is above the most, and so refused, becomes the least that is."""
    return (
        counts
        if max(counts, default=0) <= MAX_CHIPS
        else [min(count, MAX_CHIPS + 1) for count in counts]
    )


def in_words(counts: Sequence[int]) -> array[int]:
    """Counts of chips or firings, from 0 on, as an array of 64-bit numbers: the same array, if it is one. Numbers that
    do not fit become `capped` ones."""
    if isinstance(counts, array) and counts.typecode == "Q":
        return counts
    try:
        return array("Q", counts)
    except OverflowError:
        return array("Q", capped(counts))


def chips_text(chips: Sequence[int], header: Sequence[str] = CHIPS_HEADER) -> str:
    """The text of a chips file, or of a guess."""
    return "".join(
        [
            ",".join(header),
            "\n",
            *(f"{at},{count}\n" for at, count in enumerate(capped(chips)) if count),
        ]
    )


class Sums(Mapping[Hashable, int]):
    """Chips by the names of vertices, as they are added and multiplied. They may be below 0, and are never changed."""

    __array_ufunc__ = None  # (so that an array of NumPy and these are added here)

    def __init__(self, graph: Graph, chips: Chips) -> None:
        if not hasattr(graph, "loop_free"):
            raise no_graph(graph, "a graph is a chipfire.Graph")
        self.graph: Graph = graph
        self.numbers: tuple[int, ...] = self._numbers(graph, chips)

    @classmethod
    def _numbers(cls, graph: Graph, chips: Chips) -> tuple[int, ...]:
        """Chips by the numbers of the vertices."""
        return graph.numbers(chips)

    def __add__(self: AnySums, other: Chips) -> AnySums:
        return type(self)(
            self.graph, list(map(operator.add, self.numbers, self._numbers(self.graph, other)))
        )

    __radd__ = __add__

    def __sub__(self: AnySums, other: Chips) -> AnySums:
        return self + -type(self)(self.graph, other)

    def __rsub__(self: AnySums, other: Chips) -> AnySums:
        return -self + other

    def __mul__(self: AnySums, times: int) -> AnySums:
        times = as_int(times, "how many times", None)
        return type(self)(self.graph, [times * count for count in self.numbers])

    __rmul__ = __mul__

    def __neg__(self: AnySums) -> AnySums:
        return self * -1

    def __eq__(self, other: object) -> bool:
        if isinstance(other, type(self)) and other.graph is self.graph:
            return self.numbers == other.numbers
        return super().__eq__(other)

    def __hash__(self) -> int:
        return hash(frozenset(self.items()))

    def __repr__(self) -> str:
        said = f"<{type(self).__name__} of {len(self)} vertices: {with_unit(self.degree, 'chip')}>"
        return repr(dict(self)) if len(self) <= 20 else said

    @property
    def degree(self) -> int:
        """How many chips there are."""
        return sum(self.numbers)


class Configuration(Drawn, Sums):
    """The chips of all vertices of a graph but the sink: a mapping from names to numbers, which may be below 0.

    ``~c`` is the stabilization of c, and ``c & d`` is the stabilization of the sum, as in SageMath. ``c + d`` is the
    sum itself. A configuration never changes.

    Parameters
    ----------
    graph : Graph
        The graph.
    chips : Chips
        The chips, in any form that `Graph.chips` takes.

    Attributes
    ----------
    graph : Graph
        The graph.
    numbers : tuple of int
        The chips in the order of the vertices' numbers, 0 for the sink.

    Raises
    ------
    ValueError
        The chips are not those of this graph.

    See Also
    --------
    stabilize, is_recurrent, Divisor

    Notes
    -----
    NumPy takes a configuration as the array of its picture. pandas takes it as a Series, or in a DataFrame as
    ``dict(configuration)``.

    Proved: what is proved of the functions that its methods call. Not proved: sums and differences.

    Examples
    --------
    >>> c = chipfire.Configuration(chipfire.complete(3), {1: 1})
    >>> c + c, c & c
    ({1: 2, 2: 0}, {1: 0, 2: 1})
    """

    graph: Graph

    @classmethod
    def of_array(cls, graph: Graph, chips: array[int]) -> Configuration:
        """The configuration with a whole number for each vertex, 0 for the sink, which nobody has to read one by one."""
        found = cls.__new__(cls)
        found.graph, found.numbers = graph, as_tuple(chips)
        return found

    @classmethod
    def _numbers(cls, graph: Graph, chips: Chips) -> tuple[int, ...]:
        found = graph.column(chips)
        if graph.sink < graph.vertices:
            found[graph.sink] = 0
        return as_tuple(found)

    def __getitem__(self, name: Hashable) -> int:
        vertex = self.graph.number(name)
        if vertex == self.graph.sink:
            raise KeyError(f"a configuration says nothing of the sink {name!r}")
        return self.numbers[vertex]

    def __iter__(self) -> Iterator[Hashable]:
        return (name for vertex, name in enumerate(self.graph.names) if vertex != self.graph.sink)

    def __len__(self) -> int:
        return self.graph.vertices - 1

    def __invert__(self) -> Configuration:
        return self.stabilize()

    def __and__(self, other: Chips) -> Configuration:
        return (self + other).stabilize()

    __rand__ = __and__

    def stabilize(self, *, program: FileName | None = None) -> Configuration:
        """The configuration when no vertex can fire any more: `chipfire.stabilize`."""
        return Configuration(self.graph, stabilized(self, program)[0])

    def is_stable(self) -> bool:
        """Whether no vertex can fire: `chipfire.is_stable`."""
        return all(map(operator.le, self.numbers, most_stable(self.graph)))

    def is_recurrent(self, *, program: FileName | None = None) -> bool:
        """Whether it is recurrent: `chipfire.is_recurrent`."""
        return burning_test(self.graph, self.numbers, program)[0]

    def is_superstable(self, *, program: FileName | None = None) -> bool:
        """Whether it is superstable: `chipfire.is_superstable`."""
        return (self.graph.max_stable() - self).is_recurrent(program=program)

    def equivalent_recurrent(self, *, program: FileName | None = None) -> Configuration:
        """The recurrent configuration equivalent to this one: `chipfire.recurrent_representative`."""
        return representative("recurrent", self, program)

    def equivalent_superstable(self, *, program: FileName | None = None) -> Configuration:
        """The superstable configuration equivalent to this one: `chipfire.superstable_representative`."""
        return representative("superstable", self, program)

    def inverse(self, *, program: FileName | None = None) -> Configuration:
        """The recurrent configuration whose stable sum with it is the identity: `chipfire.inverse`."""
        return representative("inverse", self, program)

    def order(self) -> int:
        """The least number of copies whose sum is equivalent to zero. None of this is proved."""
        return smith.order_of(smith.reduced(self.graph), dict(enumerate(self.values())))

    def _values(self, of: str) -> Sequence[int]:
        if of != "chips":
            raise ValueError(f"a configuration has chips, and no {of}")
        return self.numbers

    def _title(self, of: str) -> str:
        return with_unit(self.degree, "chip")


def stabilized(
    chips: Configuration, program: FileName | None = None
) -> tuple[Sequence[int], Sequence[int]]:
    """What lies there when no vertex can fire any more, and how often each fired, by numbers."""
    refuse_below_none(chips)
    return stabilized_rows(chips.graph, in_words(chips.numbers), program)


def refuse_below_none(chips: Configuration) -> None:
    """Refuses chips below 0 where something is to be played."""
    if min(chips.numbers, default=0) < 0:
        name = next(name for name, count in chips.items() if count < 0)
        others = "recurrent_representative and superstable_representative take such chips"
        raise ValueError(
            f"the chips of vertex {name!r} are below 0, so nothing is played; {others}"
        )


def stabilized_rows(
    graph: Graph, chips: array[int], program: FileName | None, between: Between = nothing
) -> tuple[array[int], array[int]]:
    """The same of the chips of one game after another; `between` is called between two portions of one, and may end it."""
    if graph.loops:
        start = in_words(graph.without_loops(chips))
        left, fired = stabilized_rows(graph.loop_free, start, program, between)
        return graph.with_loops(left), fired
    found = play(graph, chips, program, between=between)
    left, fired, stopped = found or _by_program(graph, chips, program)
    if stopped:
        raise ValueError("a vertex fired 2^40 times, and the chips are not stable then")
    return left, fired


def _by_program(
    graph: Graph, chips: array[int], program: FileName | None
) -> tuple[array[int], array[int], int]:
    """What `play` finds, by a process for each game."""
    left, fired, stopped = array("Q"), array("Q"), 0
    if not chips:
        ask(program, "check", [("graph", graph.kept)], graph=graph, begins="vertices ")
    for start in range(0, len(chips), graph.vertices or 1):
        text = chips_text(chips[start : start + graph.vertices])
        files = [("graph", graph.kept), ("chips", Kept([text.encode()]))]
        report = json.loads(ask(program, "plain", files, graph=graph))
        left.extend(report["chips"])
        fired.extend(report["fired"])
        stopped += len(report["over"])
    return left, fired, stopped


def burning_test(graph: Graph, chips: Sequence[int], program: FileName | None) -> list[bool]:
    """Which configurations, one after another, are recurrent. What they have at the sink does not count."""
    if graph.loops:
        less = [*map(operator.sub, chips, itertools.cycle(graph.loops))]
        return burning_test(graph.loop_free, less, program)
    width = graph.vertices or 1
    played, poor = _from_none_on(chips, graph.sink, width)
    flags: Sequence[int] | None = None
    if burns_soon(graph, program):
        flags = library.are_recurrent(graph, played, program)
    if flags is None:
        flags = _come_back(graph, played, program)
    return [bool(flag) and at not in poor for flag, at in zip(flags, range(0, len(played), width))]


def _from_none_on(chips: Sequence[int], sink: int, width: int) -> tuple[array[int], set[int]]:
    """The chips of configurations, 0 at the sink, and where those begin that have fewer than 0 chips somewhere. In
    their place there are none, since no play returns to them."""
    none = [0] * (len(chips) // width)
    found = in_column(chips)
    if found is not None:
        found[sink::width] = array("Q", none)
        return found, set()
    numbers = [*chips]
    numbers[sink::width] = none
    poor = {at for at in range(0, len(numbers), width) if min(numbers[at : at + width]) < 0}
    for at in poor:
        numbers[at : at + width] = [0] * width
    return in_words(numbers), poor


def _come_back(graph: Graph, chips: array[int], program: FileName | None) -> list[bool]:
    """Which configurations come back if the burning configuration is added and the sum is stabilized."""
    width = graph.vertices or 1
    fuel = burning(graph, program)[1]
    burnt = [*map(operator.add, chips, itertools.cycle(fuel))]
    left, _ = stabilized_rows(graph, in_words(burnt), program)
    left[graph.sink :: width] = chips[graph.sink :: width]
    return [left[at : at + width] == chips[at : at + width] for at in range(0, len(chips), width)]


def most_stable(graph: Graph) -> Sequence[int]:
    """The chips of the maximal stable configuration, by numbers; the graph keeps them."""
    if "most stable" not in graph.answers:
        graph.answers["most stable"] = graph.max_stable().numbers
    found: Sequence[int] = graph.answers["most stable"]
    return found


def cached_on_graph(
    question: Callable[[Graph, FileName | None], T]
) -> Callable[[Graph, FileName | None], T]:
    """A question that is asked once of each graph and program; the graph keeps the result."""

    @functools.wraps(question)
    def result(graph: Graph, program: FileName | None) -> T:
        known = graph.answers
        key = (question.__name__, program)
        found: T = known[key] if key in known else known.setdefault(key, question(graph, program))
        return found

    return result


@cached_on_graph
def burning(graph: Graph, program: FileName | None) -> tuple[Sequence[int], Sequence[int]]:
    """The least burning script, and the chips that it takes away, by numbers; `chipfire.burning_script` says how."""
    none = [0] * graph.vertices
    graph = graph.loop_free
    if burns_soon(graph, program) and (found := library.burning(graph, program)):
        return found
    start = _kindling(graph)
    fired = none if start.is_stable() else stabilized(start, program)[1]
    script = Configuration(graph, [count + 1 for count in fired]).numbers
    left = Configuration(graph, graph.position_after(none, script))
    return script, (-left).numbers


@cached_on_graph
def burns_soon(graph: Graph, program: FileName | None) -> bool:
    """Whether the library finds the least burning script soon, or refuses the graph. Stable chips then burn soon too."""
    return bool(graph.wrong) or is_short(graph, program, _kindling(graph).numbers)


def _kindling(graph: Graph) -> Configuration:
    """The chips with which the play begins that finds the least burning script."""
    # (each vertex fires once from as many chips as that takes, so what lies there then came in)
    entering = graph.position_after(graph.degrees(), [1] * graph.vertices)
    return Configuration(graph, [max(count - 1, 0) for count in entering])


@cached_on_graph
def identity(graph: Graph, program: FileName | None) -> Sequence[int]:
    """The recurrent identity, by numbers: with `m` the most stable chips, 2m less its stabilization, stabilized."""
    if not graph.loops and represents_soon(graph, program, [0] * graph.vertices):
        if found := library.identity(graph, program):
            return found
    twice = 2 * graph.max_stable()
    return (twice - twice.stabilize(program=program)).stabilize(program=program).numbers


def representative(form: str, held: Configuration, program: FileName | None) -> Configuration:
    """The `recurrent` or the `superstable` configuration that is equivalent to this one, or the `inverse` of the first;
    `chipfire.recurrent_representative` and those beside it say how."""
    graph = held.graph
    if min(held.numbers) < 0:
        # (one chip more than is stable, less what these become, is equivalent to zero, and 1 on each vertex at least)
        full = graph.max_stable() + 1
        lift = full - full.stabilize(program=program)
        pairs = zip(held.numbers, lift.numbers)
        held += max(-(count // more) for count, more in pairs if more) * lift
    if not graph.loops and represents_soon(graph, program, held.numbers):
        chips = library.representative(graph, form, in_words(held.numbers), program)
        if chips is not None:
            return Configuration(graph, chips)
    if form == "superstable":
        most = graph.max_stable()
        return most - representative("recurrent", most - held, program)
    if form == "inverse":
        return representative("recurrent", -held, program)
    # (a sum is recurrent if one of the two is, and no chips of the other are below 0)
    found = (held + identity(graph, program)).stabilize(program=program)
    if not found.is_recurrent(program=program):
        raise RuntimeError("what was found is not recurrent, by a mistake of this package")
    return found
