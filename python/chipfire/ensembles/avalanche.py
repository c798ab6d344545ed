"""Single avalanches, and vertices to drop on that are drawn at random."""

from __future__ import annotations

import functools
import itertools
import operator
from collections.abc import Hashable, Iterable, Iterator, Sequence
from dataclasses import dataclass, field
from typing import Any

from chipfire.backend.commands import AnyGraph, AnyProgram, known_graph
from chipfire.configurations.configuration import Chips, Configuration, refuse_below_none
from chipfire.configurations.stabilization import as_configuration
from chipfire.ensembles.drops import names_of, PART
from chipfire.ensembles.pile import LentPile
from chipfire.graphs.graph import Graph
from chipfire.utils import as_int, random_generator, WithArea


def random_drops(
    graph: AnyGraph, count: int, seed: Any, *, program: AnyProgram = None
) -> Iterator[Hashable]:
    """Yields the names of random vertices, drawn uniformly from all vertices but the sink.

    Parameters
    ----------
    graph : Graph or path
        The graph, or the name of its file.
    count : int
        The number of names.
    seed : int, float, str, bytes, None, numpy.random.Generator or numpy.random.SeedSequence
        The seed of a `random.Random`. A float like 3.0 is the same seed as 3, but the text "3" is a different seed.
        With None, each call draws other names. A Generator gives each call its next number of 64 bits. A SeedSequence
        gives every call the same number.
    program : path, optional
        The program to run. By default, the program that the package finds.

    Returns
    -------
    iterator of hashable
        The names, one after the other.

    Raises
    ------
    ValueError
        The graph is refused, or the count is below 0.
    TypeError
        The seed has another type.

    See Also
    --------
    drops, avalanches, chains

    Notes
    -----
    None of this is proved: Python draws the vertices.

    Examples
    --------
    >>> list(chipfire.random_drops(chipfire.path(1), 3, seed=1))
    [0, 0, 0]
    """
    known = known_graph(graph, program)
    count = as_int(count, "the number of drops")
    inner = [name for vertex, name in enumerate(known.names) if vertex != known.sink]
    if count and not inner:
        raise ValueError("the graph has only its sink, and so no vertex to drop on")
    draw = random_generator(seed)
    parts = (draw.choices(inner, k=min(PART, count - done)) for done in range(0, count, PART))
    return itertools.chain.from_iterable(parts)


@dataclass(frozen=True, eq=False)
class Avalanche(WithArea):
    """The avalanche of one chip dropped on a stable configuration.

    Attributes
    ----------
    vertex : hashable
        The name of the vertex that got the chip.
    size : int
        The number of firings.
    extent, area : int
        The number of different vertices that fired.
    lost : int
        The number of chips that firings sent to the sink (dissipated).
    fired : dict of hashable to int
        How often each vertex fired, by names, without the vertices that did not fire.
    configuration : Configuration
        The chips after the avalanche.

    See Also
    --------
    avalanche, avalanches, Drops

    Notes
    -----
    Proved: the numbers. Not proved: that Python passes them on.

    Examples
    --------
    >>> chipfire.avalanche(chipfire.path(2), {0: 1, 1: 1}, 0).fired
    {0: 1, 1: 1}
    """

    vertex: Hashable
    size: int
    extent: int
    lost: int
    _graph: Graph = field(repr=False)
    _left: Sequence[int] = field(repr=False)
    _counts: tuple[Sequence[int], Sequence[int]] = field(repr=False)

    @functools.cached_property
    def fired(self) -> dict[Hashable, int]:
        more = map(operator.sub, self._counts[1], self._counts[0])
        return {name: count for name, count in zip(self._graph.names, more) if count}

    @functools.cached_property
    def configuration(self) -> Configuration:
        return Configuration(self._graph, self._left)


def avalanche(
    graph: AnyGraph, chips: Chips, vertex: Hashable, *, program: AnyProgram = None
) -> Avalanche:
    """Drops one chip on a vertex of a stable configuration, and returns the avalanche.

    Parameters
    ----------
    graph : Graph or path
        The graph, or the name of its file.
    chips : Chips
        A stable configuration, in any form that `Graph.chips` takes.
    vertex : hashable
        The name of the vertex that gets the chip.
    program : path, optional
        The program to run. By default, the program that the package finds.

    Returns
    -------
    Avalanche
        Its firings, area and dissipated chips, and the configuration after it.

    Raises
    ------
    KeyError
        No vertex has this name.
    ValueError
        The configuration is not stable.

    See Also
    --------
    avalanches, drops, Pile

    Notes
    -----
    Proved: the play that the chip causes, and its numbers. Not proved: that Python passes them on.

    Examples
    --------
    >>> found = chipfire.avalanche(chipfire.path(2), {0: 1, 1: 1}, 0)
    >>> found.size, found.area, found.lost, found.configuration
    (2, 2, 2, {0: 1, 1: 0})
    """
    return next(avalanches(graph, chips, [vertex], program=program))


def avalanches(
    graph: AnyGraph, chips: Chips, vertices: Iterable[Hashable], *, program: AnyProgram = None
) -> Iterator[Avalanche]:
    """Drops one chip after another, and yields each avalanche.

    Parameters
    ----------
    graph : Graph or path
        The graph, or the name of its file.
    chips : Chips
        A stable configuration, on which the first chip falls.
    vertices : iterable of hashable
        The names of the vertices on which chips fall. Each name is read when its avalanche is asked for.
    program : path, optional
        The program to run. By default, the program that the package finds.

    Returns
    -------
    iterator of Avalanche
        An avalanche for each chip. Each chip falls on the configuration that the avalanche before it left.

    Raises
    ------
    KeyError
        No vertex has such a name.
    ValueError
        The configuration is not stable.

    See Also
    --------
    avalanche, drops, Pile

    Notes
    -----
    `drops` returns the numbers of all avalanches in columns, and is faster.

    Proved: the play that each chip causes, and its numbers. Not proved: that Python passes them on.

    Examples
    --------
    >>> [it.size for it in chipfire.avalanches(chipfire.path(2), {0: 1, 1: 1}, [0, 1])]
    [2, 0]
    """
    start = as_configuration(graph, chips, program)
    if not start.is_stable():
        raise ValueError("the chips are not stable: stabilize them first")
    names = names_of(vertices, "avalanches")

    def dropped() -> Iterator[Avalanche]:
        refuse_below_none(start)
        with LentPile(start.graph, start, program=program) as pile:
            _, fired = pile.ends()
            for name in names:
                size, extent, lost = pile.drop(name)
                left, later = pile.ends()
                yield Avalanche(name, size, extent, lost, start.graph, left, (fired, later))
                fired = later

    return dropped()
