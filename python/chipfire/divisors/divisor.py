"""Divisors of undirected graphs: chips on all vertices, the sink among them, which any vertex gives and takes.

Proved: the stabilizations, which are the program's. Not proved: sums and ranks; tests compare them with definitions.
"""

from __future__ import annotations

from collections.abc import Callable, Hashable, Iterator, Sequence
from typing import Any

from chipfire.backend.commands import AnyGraph, AnyProgram, known_graph
from chipfire.configurations import smith
from chipfire.configurations.configuration import Chips, Sums
from chipfire.configurations.recurrent import superstable_representative
from chipfire.graphs.graph import Graph
from chipfire.utils import as_int, AsArray, with_unit

#: How many divisors are visited to find a rank, by default.
MOST = 100_000


class Divisor(AsArray, Sums):
    """The chips of all vertices of an undirected graph, including the sink: a mapping from names to numbers.

    The numbers may be below 0. Divisors can be added and subtracted, and multiplied by numbers. A divisor never
    changes.

    Parameters
    ----------
    graph : Graph or path
        An undirected graph: a family, `Graph.undirected`, or a graph of another tool.
    chips : Chips
        The chips, in any form that `Graph.chips` takes, but with a number for the sink too. A single number is for all
        vertices.

    Attributes
    ----------
    graph : Graph
        The graph.
    numbers : tuple of int
        The chips by the numbers of the vertices.
    degree : int
        The sum of the chips.

    Raises
    ------
    ValueError
        The graph is directed or has loops, or the chips are not those of this graph.

    See Also
    --------
    canonical_divisor, genus, Configuration

    Notes
    -----
    NumPy takes a divisor as the array of its numbers, and pandas as a Series.

    Proved: the stabilizations that its methods need. Not proved: the sums between them, and the rank.

    Examples
    --------
    >>> divisor = chipfire.Divisor(chipfire.complete(3), {0: 2})
    >>> divisor.degree, divisor.rank(), divisor.is_equivalent({1: 1, 2: 1})
    (2, 1, True)
    """

    def __init__(self, graph: AnyGraph, chips: Chips) -> None:
        super().__init__(known_graph(graph), chips)
        smith.undirected(self.graph)

    @classmethod
    def _numbers(cls, graph: Graph, chips: Chips) -> tuple[int, ...]:
        return graph.numbers(chips, with_sink=True)

    def __getitem__(self, name: Hashable) -> int:
        return self.numbers[self.graph.number(name)]

    def __iter__(self) -> Iterator[Hashable]:
        return iter(self.graph.names)

    def __len__(self) -> int:
        return self.graph.vertices

    def _for_array(self) -> Sequence[Any]:
        return self.numbers

    def is_effective(self) -> bool:
        """Whether every vertex has at least 0 chips."""
        return min(self.numbers) >= 0

    def fire(self, counts: Chips) -> Divisor:
        """The divisor after these firings of the vertices, including the sink, legal or not. Counts below 0 undo
        firings."""
        left = list(self.numbers)
        for count, row in zip(Divisor(self.graph, counts).numbers, smith.undirected(self.graph)):
            for vertex, less in row.items():
                left[vertex] -= count * less
        return Divisor(self.graph, left)

    def reduced(self, vertex: Hashable = None, *, program: AnyProgram = None) -> Divisor:
        """The equivalent divisor that is q-reduced, where q is the given vertex, or by default the sink. No vertex but
        q is below 0. If any set of vertices without q fires together, one of these vertices falls below 0. Proved: the
        stabilizations. Not proved: the sums between them."""
        graph = self.graph
        if vertex is not None:
            sink = graph.number(vertex)
            rows = enumerate(smith.undirected(graph))
            edges = [
                (u, v, -less) for u, row in rows if u != sink for v, less in row.items() if less < 0
            ]
            graph = Graph(graph.vertices, sink, edges, graph.names, from_sink=None)
        left = [*superstable_representative(graph, self.numbers, program=program).numbers]
        left[graph.sink] = self.degree - sum(left)
        return Divisor(self.graph, left)

    def is_equivalent(self, other: Chips, *, program: AnyProgram = None) -> bool:
        """Whether firings, forward or backward and also of the sink, lead from this divisor to the other (linear
        equivalence). Proved and not proved: as for `reduced`."""
        return not any((self - other).reduced(program=program).numbers)

    def effective(self, *, program: AnyProgram = None) -> Divisor | None:
        """The equivalent divisor that is effective and reduced at the sink; None if no equivalent divisor is effective.
        Proved and not proved: as for `reduced`."""
        found = self.reduced(program=program)
        return found if found.is_effective() else None

    def rank(self, *, most: int = MOST) -> int:
        """The rank of Baker and Norine: the greatest r such that, whichever r chips are taken away, the rest is
        equivalent to an effective divisor. It is -1 if this divisor is equivalent to no effective divisor.

        By the theorem of Riemann and Roch, r(D) - r(K - D) = degree - genus + 1, where K is the canonical divisor. The
        search begins at D or K - D, whichever has the lower degree. It takes chips away one by one, and visits the
        divisors that are left, up to equivalence: at most `order(graph)` of each degree. More than `most` in all raise
        a ValueError. The default of 100,000 takes about 15 s on 5 by 5 squares, and suffices for each graph with up to
        10,000 spanning trees and a genus up to 10. None of this is proved, and the program is not run.
        """
        most = as_int(most, "the most divisors", 1)
        other = canonical_divisor(self.graph) - self
        if other.degree < self.degree:
            return self.degree - genus(self.graph) + 1 + other.rank(most=most)
        return -1 if self.degree < 0 else searched_rank(self, most)


def genus(graph: AnyGraph) -> int:
    """Returns the genus of an undirected graph: the number of edges minus the number of vertices, plus 1.

    Parameters
    ----------
    graph : Graph or path
        An undirected graph, or the name of its file.

    Returns
    -------
    int
        The genus.

    Raises
    ------
    ValueError
        The graph is directed, or has loops.

    See Also
    --------
    canonical_divisor, Divisor

    Notes
    -----
    None of this is proved: Python counts edges.

    Examples
    --------
    >>> chipfire.genus(chipfire.complete(4))
    3
    """
    rows = smith.undirected(known_graph(graph))
    return sum(row[vertex] for vertex, row in enumerate(rows)) // 2 - len(rows) + 1


def canonical_divisor(graph: AnyGraph) -> Divisor:
    """Returns the canonical divisor of an undirected graph: the degree of each vertex minus 2.

    Parameters
    ----------
    graph : Graph or path
        An undirected graph, or the name of its file.

    Returns
    -------
    Divisor
        The divisor, of degree ``2 * genus(graph) - 2``.

    Raises
    ------
    ValueError
        The graph is directed, or has loops.

    See Also
    --------
    Divisor, genus

    Notes
    -----
    None of this is proved: Python counts edges.

    Examples
    --------
    >>> chipfire.canonical_divisor(chipfire.complete(4))
    {0: 1, 1: 1, 2: 1, 3: 1}
    """
    known = known_graph(graph)
    return Divisor(known, [row[vertex] - 2 for vertex, row in enumerate(smith.undirected(known))])


def searched_rank(divisor: Divisor, most: int = MOST) -> int:
    """The rank of a divisor, by its definition: chips are taken away one by one."""
    sink = divisor.graph.sink
    reduced = _reducer(divisor.graph)
    level = {reduced([*divisor.numbers])}
    rank = -1
    seen = 1
    while all(chips[sink] >= 0 for chips in level):  # (what is reduced has most chips on the sink)
        rank = rank + 1
        less = set[tuple[int, ...]]()
        for chips in level:
            for vertex in range(len(chips)):
                less.add(reduced([count - (at == vertex) for at, count in enumerate(chips)]))
            if seen + len(less) > most:
                raise ValueError(
                    f"the rank is {rank} or more, and {with_unit(most, 'divisor')} do not show which"
                )
        level = less
        seen = seen + len(less)
    return rank


def _reducer(graph: Graph) -> Callable[[list[int]], tuple[int, ...]]:
    """What makes small chips reduced at the sink, by Dhar."""
    rows = smith.undirected(graph)
    sink = graph.sink

    def fire(chips: list[int], vertices: Sequence[int], times: int) -> None:
        for vertex in vertices:
            for other, less in rows[vertex].items():
                chips[other] -= times * less

    def unburnt(chips: list[int]) -> dict[int, int]:
        """The vertices that a fire from the sink leaves, each with its edges to those that burn."""
        left = dict.fromkeys(range(len(rows)), 0)
        waiting = [sink]
        for vertex in waiting:
            if left.pop(vertex, None) is not None:
                for other, less in rows[vertex].items():
                    if other in left:
                        left[other] -= less
                        waiting += [other] * (chips[other] < left[other])
        return left

    def reduced(chips: list[int]) -> tuple[int, ...]:
        while poor := [
            vertex for vertex, count in enumerate(chips) if count < 0 and vertex != sink
        ]:
            for vertex in poor:
                fire(chips, [vertex], chips[vertex] // rows[vertex][vertex])
        while left := unburnt(chips):
            times = min(chips[vertex] // edges for vertex, edges in left.items() if edges)
            fire(chips, [*left], times)
        return tuple(chips)

    return reduced
