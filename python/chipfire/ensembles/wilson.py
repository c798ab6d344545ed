"""Random recurrent configurations, by Wilson's algorithm and the burning bijection."""

from __future__ import annotations

import itertools
from array import array
from bisect import bisect
from collections.abc import Iterator, Sequence
from typing import Any, overload

from chipfire.backend import kept
from chipfire.backend.commands import AnyGraph, known_graph
from chipfire.backend.portions import Portions
from chipfire.configurations.configuration import Configuration
from chipfire.graphs.graph import Graph, NO_EDGE_IS_ONE_WAY
from chipfire.progress import AnyProgress, Progress
from chipfire.utils import as_int, import_optional, numpy_in_use, random_generator, require_memory

#: Of each vertex the heads of its edges, and how many chips one firing sends on the edges up to each of them.
Outs = list[tuple[list[int], list[int]]]

#: From how many edges on it saves time to import NumPy for them.
_MANY_EDGES = 2**19

#: Numbers have 64 bits.
_MASK = 2**64 - 1

#: By how much the numbers differ of which arrows of one stack, and the stacks of a seed, are made.
_STRIDE = 0x9E3779B97F4A7C15


@overload
def random_recurrent(
    graph: AnyGraph, seed: Any, count: None = ..., *, progress: AnyProgress = ...
) -> Configuration:
    ...


@overload
def random_recurrent(
    graph: AnyGraph, seed: Any, count: int, *, progress: AnyProgress = ..., partial: bool = ...
) -> list[Configuration]:
    ...


def random_recurrent(
    graph: AnyGraph,
    seed: Any,
    count: int | None = None,
    *,
    progress: AnyProgress = None,
    partial: bool = False,
) -> Configuration | list[Configuration]:
    """Returns random recurrent configurations of an undirected graph, drawn uniformly.

    Parameters
    ----------
    graph : Graph or path
        An undirected graph, or the name of its file.
    seed : int, float, str, bytes, None, numpy.random.Generator or numpy.random.SeedSequence
        The seed, as in `random_drops`.
    count : int, optional
        How many configurations to return, as a list. By default, one configuration, not in a list.
    progress : bool or callable, optional
        True shows how many configurations have been drawn, by a bar of tqdm if it is installed, else by lines on
        standard error. A function is called with the number drawn and the number of all.
    partial : bool, optional
        Whether an interrupt returns the list of the configurations drawn until then, instead of raising
        KeyboardInterrupt, as in `chains`. Without `count` there is no list, so KeyboardInterrupt is raised.

    Returns
    -------
    Configuration or list of Configuration
        The configurations.

    Raises
    ------
    ValueError
        The graph is directed. Edges into the sink need no reverse edges.

    See Also
    --------
    recurrents, chains, drops

    Notes
    -----
    Wilson's algorithm [1]_ draws a spanning tree, and the burning bijection of Majumdar and Dhar [2]_ turns the tree
    into chips. The library draws the configurations. Without the library, Python draws the same ones, but slower.

    Proved: each configuration that the library draws is recurrent. Not proved: that the configurations are drawn
    uniformly.

    References
    ----------
    .. [1] D. B. Wilson, "Generating random spanning trees more quickly than the cover time", STOC (1996).
    .. [2] S. N. Majumdar and D. Dhar, "Equivalence between the Abelian sandpile model and the q -> 0 limit of the Potts
       model", Physica A 185 (1992).

    Examples
    --------
    >>> grid = chipfire.grid(5, 5)
    >>> chipfire.is_recurrent(grid, chipfire.random_recurrent(grid, seed=1))
    True
    """
    known = known_graph(graph)
    n = 1 if count is None else as_int(count, "the number of configurations")
    require_memory(8 * n * known.vertices, f"{n:,} configurations")
    found: list[Configuration] = []
    try:
        with Progress(progress, n, "configurations") as shown:
            for part in _parts(known, seed, n, progress=shown):
                found += _configurations(known, part)
    except KeyboardInterrupt:
        if not partial or count is None:
            raise
    return found[0] if count is None else found


def _configurations(graph: Graph, rows: array[int]) -> Iterator[Configuration]:
    """The configurations with these chips, one row after another, without those of the graph's loops."""
    chips, width = graph.with_loops(rows) if graph.loops else rows, graph.vertices
    for start in range(0, len(chips), width):
        row = chips if len(chips) == width else chips[start : start + width]
        yield Configuration.of_array(graph, row)


def recurrent_rows(graph: Graph, seed: Any, n: int, first: int = 0) -> array[int]:
    """The chips of n random recurrent configurations of a seed, from the one with number `first` on, one after another,
    without those of the graph's loops."""
    rows = array("Q")
    for part in _parts(graph, seed, n, first):
        rows.extend(part)
    return rows


def _parts(
    graph: Graph, seed: Any, n: int, first: int = 0, progress: Progress | None = None
) -> Iterator[array[int]]:
    """The chips that `recurrent_rows` has, some configurations at a time."""
    plain = graph.loop_free
    require_undirected(plain)
    base = random_generator(seed).getrandbits(64)
    for some in Portions(n):
        number, count = first + some.start, some.stop - some.start
        found = kept.random_recurrents(plain, base, number, count)
        yield _drawn(plain, base, number, count) if found is None else found
        if progress is not None:
            progress.show(some.stop, some.stop == n)


def _drawn(graph: Graph, base: int, first: int, count: int) -> array[int]:
    """What the library would draw."""
    graph.require()
    outs = _outs(graph)
    seeds = (_mixed(_mixed(base) + it & _MASK) for it in range(first, first + count))
    rows = (_left_by(outs, *_tree(graph.sink, outs, it)) for it in seeds)
    return array("Q", itertools.chain.from_iterable(rows))


def require_undirected(graph: Graph) -> None:
    """Refuses a graph with an edge that has none back, but for those to the sink, by the names of its ends."""
    if not is_undirected(graph):
        graph.require()
        edge = _first_one_way(graph)
        assert edge is not None
        raise ValueError(f"the graph is directed: {_ways_of(graph, edge)}")


def is_undirected(graph: Graph) -> bool:
    """Whether each edge has one back, but for those to the sink."""
    if NO_EDGE_IS_ONE_WAY not in graph.answers:
        graph.answers[NO_EDGE_IS_ONE_WAY] = _first_one_way(graph) is None
    return bool(graph.answers[NO_EDGE_IS_ONE_WAY])


def _first_one_way(graph: Graph) -> int | None:
    """The first edge between two vertices, none of them the sink, that send each other different numbers of chips. None if
    there is no such edge; what is no graph to play on may have others."""
    numpy = import_optional("numpy") if len(graph.columns.tails) >= _MANY_EDGES else numpy_in_use()
    return _first_by_sort(numpy, graph) if numpy else _first_by_sums(graph)


def _first_by_sort(numpy: Any, graph: Graph) -> int | None:
    """The same, by NumPy: it sorts the edges by the vertices that they join."""
    columns = [numpy.asarray(column) for column in graph.columns]
    inside = numpy.flatnonzero(columns[1] != graph.sink)
    tails, heads, mults = (column[inside] for column in columns)
    pairs = numpy.minimum(tails, heads).astype("i8") << 32 | numpy.maximum(tails, heads)
    order = numpy.argsort(pairs, kind="stable")
    starts = numpy.flatnonzero(numpy.diff(pairs[order], prepend=-1))
    sent = numpy.where(tails < heads, mults, -mults)[order]
    more = numpy.add.reduceat(sent, starts, dtype="i8")
    found = order[starts[more != 0]]
    return int(inside[found.min()]) if len(found) else None


def _first_by_sums(graph: Graph) -> int | None:
    """The same, without NumPy."""
    sink = graph.sink
    #: How many chips more go from the lower vertex of a pair to the higher one than back, where that is not 0.
    more: dict[int, int] = {}
    for tail, head, mult in zip(*graph.columns):
        if head != sink:
            pair, sent = (tail << 32 | head, mult) if tail < head else (head << 32 | tail, -mult)
            sent += more.pop(pair, 0)
            if sent:
                more[pair] = sent
    if not more:
        return None
    pairs = (min(ends) << 32 | max(ends) for ends in zip(*graph.columns[:2]))
    return next(edge for edge, pair in enumerate(pairs) if pair in more)


def _ways_of(graph: Graph, edge: int) -> str:
    """How many chips the ends of an edge send each other, by their names."""
    tails, heads, _ = graph.columns
    ends = (tails[edge], heads[edge])
    sent, got = (
        sum(mult for tail, head, mult in zip(*graph.columns) if (tail, head) == way)
        for way in (ends, ends[::-1])
    )
    tail, head = (graph.names[vertex] for vertex in ends)
    return f"vertex {tail!r} sends {sent} to {head!r} and gets {got} back"


def _outs(graph: Graph) -> Outs:
    """The edges out of each vertex."""
    outs: Outs = [([], []) for _ in range(graph.vertices)]
    for tail, head, mult in zip(*graph.columns):
        heads, ends = outs[tail]
        heads.append(head)
        ends.append(mult + (ends[-1] if ends else 0))
    return outs


def _mixed(number: int) -> int:
    """A number all of whose bits depend on all bits of this one (Steele, Lea and Flood, 2014)."""
    number = (number ^ number >> 30) * 0xBF58476D1CE4E5B9 & _MASK
    number = (number ^ number >> 27) * 0x94D049BB133111EB & _MASK
    return number ^ number >> 31


def _tree(sink: int, outs: Outs, seed: int) -> tuple[list[int], list[int]]:
    """A random spanning tree: which of its chips goes to the next vertex, and one more than how many edges lead to the sink.
    Arrows follow from seed, vertex and their number in the vertex's stack (Propp and Wilson, 1998).
    """
    stacks = [_mixed(seed + vertex * _STRIDE & _MASK) for vertex in range(len(outs))]
    steps = [0] * len(outs)
    depths = [0] * len(outs)
    depths[sink] = 1
    for start in range(len(outs)):
        at = start
        while not depths[at]:
            heads, ends = outs[at]
            steps[at] = step = _mixed(stacks[at]) % ends[-1]
            stacks[at] = stacks[at] + _STRIDE & _MASK
            at = heads[bisect(ends, step)]
        path = []
        passed = start
        while passed != at:
            path.append(passed)
            heads, ends = outs[passed]
            passed = heads[bisect(ends, steps[passed])]
        for depth, vertex in enumerate(reversed(path), depths[at] + 1):
            depths[vertex] = depth
    return steps, depths


def _left_by(outs: Outs, steps: Sequence[int], depths: Sequence[int]) -> list[int]:
    """The chips with which each vertex burns in the step after its next one, whose edges have an order."""
    found = [0] * len(outs)
    for vertex, (heads, ends) in enumerate(outs):
        following = depths[vertex] - 1
        left = ends[-1] if ends else 0
        start = 0
        for head, end in zip(heads, ends):
            got_from = start if depths[head] < following else max(start, steps[vertex])
            if depths[head] <= following:
                left -= max(end - got_from, 0)
            start = end
        found[vertex] = left
    return found
