"""The sandpile group as a product of cyclic groups: from configurations to their coordinates in it, and back."""

from __future__ import annotations

import functools
import math
import operator
from collections.abc import Sequence

from chipfire.backend.commands import AnyGraph, AnyProgram, known_graph
from chipfire.configurations import smith
from chipfire.configurations.configuration import Chips, Configuration, identity
from chipfire.graphs.graph import Graph
from chipfire.utils import as_int, as_ints, listed

#: The most vertices, the sink among them.
MAX_GROUP_VERTICES = 401


class Group:
    """The sandpile group of a graph, as a product of cyclic groups.

    Parameters
    ----------
    graph : Graph or path
        The graph, with up to 401 vertices including the sink.

    Attributes
    ----------
    graph : Graph
        The graph.
    factors : tuple of int
        The invariant factors of the group, above 1 and ascending: each divides the next.
    identity : Configuration
        The identity.
    generators : tuple of Configuration
        A recurrent generator for each factor.

    Raises
    ------
    ValueError
        The graph has more than 401 vertices, or is refused.

    See Also
    --------
    invariant_factors, order, identity

    Notes
    -----
    Finding the generators takes 0.1 s for 20 by 20 squares, and 2 s as configurations. It takes 4 s for a random graph
    of 400 vertices and degree 4.

    None of this is proved except the plays of `element`.

    Examples
    --------
    >>> group = chipfire.Group(chipfire.complete(3))
    >>> group.factors, group.coordinates({}), group.element([0])
    ((3,), (0,), {1: 1, 2: 1})
    """

    def __init__(self, graph: AnyGraph) -> None:
        self.graph: Graph = known_graph(graph)
        as_int(
            self.graph.vertices,
            "the number of vertices of a graph with its group",
            1,
            MAX_GROUP_VERTICES,
        )
        #: The coordinates of a chip on each vertex but the sink; and for each coordinate the chips that have a 1 there
        #: and else 0.
        factors, parts, self._units = smith.cyclic(smith.reduced(self.graph))
        self._parts = [parts[place] for place in range(self.graph.vertices - 1)]
        self.factors = tuple(factors)

    def __repr__(self) -> str:
        return f"<Group of {' x '.join(f'Z/{factor}' for factor in self.factors) or 'one element'}>"

    def coordinates(self, chips: Chips) -> tuple[int, ...]:
        """The coordinates of chips: for each generator a multiple, from 0 to the generator's order minus 1. Chips may
        be below 0. The coordinates of a sum are the sums of the coordinates, modulo the orders. Two configurations have
        the same coordinates exactly if they are equivalent. This is the discrete logarithm."""
        counts = [*Configuration(self.graph, chips).values()]
        found = []
        for place, factor in enumerate(self.factors):
            column = [part[place] for part in self._parts]
            found.append(sum(map(operator.mul, counts, column)) % factor)
        return tuple(found)

    def element(self, coordinates: Sequence[int], *, program: AnyProgram = None) -> Configuration:
        """The recurrent configuration with these coordinates: a number for each factor.

        Plays compute it from the identity. Each play multiplies the chips by 4, adds chips and stabilizes. There are as
        many plays as the largest factor has digits in base 4. Proved: the plays. Not proved: which chips are added.
        """
        times = as_ints(
            listed(coordinates, "coordinates stand in a list"), lambda at: f"coordinate {at}", None
        )
        if len(times) != len(self.factors):
            raise ValueError(
                f"there are {len(times)} coordinates, and the group has {len(self.factors)} factors"
            )
        counts = [0] * (self.graph.vertices - 1)
        for count, unit in zip(times, self._units):
            for place, many in unit.items():
                counts[place] = (counts[place] + count * many) % self.factors[-1]
        found = Configuration(self.graph, identity(self.graph, program))
        for digit in reversed(range((max(counts, default=0).bit_length() + 1) // 2)):
            found = (4 * found + [(count >> 2 * digit) % 4 for count in counts]).stabilize(
                program=program
            )
        return found

    @functools.cached_property
    def identity(self) -> Configuration:
        """The element whose coordinates are all 0. `chipfire.identity` says what is proved of it."""
        return self.graph.identity()

    @functools.cached_property
    def generators(self) -> tuple[Configuration, ...]:
        """The recurrent configurations that generate the group: each has one coordinate 1, and all others 0."""
        places = range(len(self.factors))
        return tuple(self.element([int(at == place) for at in places]) for place in places)

    def order(self, chips: Chips) -> int:
        """The order of chips in the group: the least number of copies whose sum is equivalent to zero."""
        pairs = zip(self.coordinates(chips), self.factors)
        return math.lcm(*(factor // math.gcd(count, factor) for count, factor in pairs))
