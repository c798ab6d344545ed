"""Polynomials of small graphs, as dicts from powers to coefficients: `sympy.Poly.from_dict` takes each of them.

Proved: the avalanches, which are the program's. Not proved: all else; tests compare it with sums over all cases.
"""

from __future__ import annotations

import itertools
import math
import operator
from collections import Counter, defaultdict
from collections.abc import Callable, Iterator, Sequence
from typing import Any, Literal, overload, TypeVar

from chipfire.backend.commands import AnyGraph, AnyProgram, known_graph
from chipfire.configurations import smith
from chipfire.configurations.configuration import in_words, stabilized_rows
from chipfire.configurations.laplacian import order
from chipfire.configurations.recurrent import recurrents, superstables
from chipfire.graphs.graph import Graph
from chipfire.progress import AnyProgress, Progress
from chipfire.utils import as_int, with_unit

Power = TypeVar("Power", int, tuple[int, int], tuple[int, ...])

#: Coefficients by two powers.
Terms = Counter[tuple[int, int]]

#: What takes the last vertex out of a graph.
Step = Callable[[int], Iterator[tuple[int, int, int]]]

#: How many smaller graphs, or configurations, are visited, by default.
MOST = 100_000


def tutte_polynomial(
    graph: AnyGraph, *, most: int = MOST, progress: AnyProgress = None
) -> dict[tuple[int, int], int]:
    """Returns the Tutte polynomial of an undirected graph.

    Parameters
    ----------
    graph : Graph or path
        An undirected graph, or the name of its file.
    most : int, optional
        The greatest allowed number of different minors with the same number of vertices. The minors are counted first,
        which takes seconds.
    progress : bool or callable, optional
        True shows how many minors are done, by tqdm or in lines. A function is called with the number done and the
        number of all.

    Returns
    -------
    dict of (int, int) to int
        The coefficient of ``x ** i * y ** j`` at (i, j).

    Raises
    ------
    ValueError
        The graph is directed or has loops, or there are more than `most` minors.

    See Also
    --------
    level_polynomial, order

    Notes
    -----
    The edges are deleted and contracted, vertex by vertex, and equal minors are merged. A complete graph of 8 vertices
    takes 0.01 s, and a grid of 4 by 4 squares takes 1 s.

    Ctrl-C ends a call at once. The next call on the same graph continues after the last vertex that was finished.

    None of this is proved, and the program is not run.

    Examples
    --------
    The Tutte polynomial of the triangle is x^2 + x + y:

    >>> chipfire.tutte_polynomial(chipfire.cycle(3)) == {(2, 0): 1, (1, 0): 1, (0, 1): 1}
    True
    """
    found: Terms = Counter()
    for (i, j), count in _whitney(known_graph(graph), most, False, progress).items():
        for power in range(i + 1):  # (x - 1 to the power i)
            found[power, j] += count * math.comb(i, power) * (-1) ** (i - power)
    return _sorted(found)


def level_polynomial(
    graph: AnyGraph, *, most: int = MOST, program: AnyProgram = None, progress: AnyProgress = None
) -> dict[int, int]:
    """Returns how many recurrent configurations have each level.

    The level of a configuration is the number of its chips, minus the least number of chips of a recurrent
    configuration.

    Parameters
    ----------
    graph : Graph or path
        The graph, or the name of its file.
    most : int, optional
        The greatest allowed number of recurrent configurations of a directed graph, or of minors of an undirected
        graph.
    program : path, optional
        The program to run. By default, the program that the package finds.
    progress : bool or callable, optional
        True shows how many minors are done, by tqdm or in lines. A function is called with the number done and the
        number of all.

    Returns
    -------
    dict of int to int
        The number of configurations by their level.

    Raises
    ------
    ValueError
        There are more configurations or minors than `most`.

    See Also
    --------
    tutte_polynomial, avalanche_polynomial, recurrents

    Notes
    -----
    On an undirected graph, the result is the Tutte polynomial at x = 1, by a theorem of Merino [1]_. It is computed by
    deletion and contraction. On a directed graph, all recurrent configurations are visited. Loops are left out.

    None of this is proved except the burning script of a directed graph.

    References
    ----------
    .. [1] C. Merino, "Chip firing and the Tutte polynomial", Annals of Combinatorics 1 (1997).

    Examples
    --------
    The Tutte polynomial of the triangle is x^2 + x + y:

    >>> chipfire.level_polynomial(chipfire.complete(3)) == {0: 2, 1: 1}
    True
    """
    known = known_graph(graph, program).loop_free
    if smith.is_undirected(known):
        return _sorted(
            {j: count for (_, j), count in _whitney(known, most, True, progress).items()}
        )
    _require_few(known, most)
    degrees = Counter(chips.degree for chips in superstables(known, program=program))
    return _sorted({max(degrees) - degree: count for degree, count in degrees.items()})


@overload
def avalanche_polynomial(
    graph: AnyGraph,
    *,
    multivariable: Literal[False] = ...,
    most: int = ...,
    program: AnyProgram = ...,
) -> dict[int, int]:
    ...


@overload
def avalanche_polynomial(
    graph: AnyGraph, *, multivariable: Literal[True], most: int = ..., program: AnyProgram = ...
) -> dict[tuple[int, ...], int]:
    ...


@overload
def avalanche_polynomial(
    graph: AnyGraph, *, multivariable: bool, most: int = ..., program: AnyProgram = ...
) -> dict[int, int] | dict[tuple[int, ...], int]:
    ...


def avalanche_polynomial(
    graph: AnyGraph, *, multivariable: bool = False, most: int = MOST, program: AnyProgram = None
) -> dict[int, int] | dict[tuple[int, ...], int]:
    """Returns how many avalanches have each size, over all recurrent configurations and all vertices.

    Each avalanche is caused by one chip, dropped on a vertex of a recurrent configuration.

    Parameters
    ----------
    graph : Graph or path
        The graph, or the name of its file.
    multivariable : bool, optional
        Whether to count avalanches by their odometers instead of their sizes.
    most : int, optional
        The greatest allowed number of recurrent configurations.
    program : path, optional
        The program to run. By default, the program that the package finds.

    Returns
    -------
    dict
        The number of avalanches by their size; or, if `multivariable`, by the tuple of the firings of each vertex but
        the sink.

    Raises
    ------
    ValueError
        There are more than `most` recurrent configurations.

    See Also
    --------
    level_polynomial, recurrents

    Notes
    -----
    Proved: the play that each chip causes. Not proved: that these are all avalanches, and the sums.

    Examples
    --------
    >>> chipfire.avalanche_polynomial(chipfire.complete(3)) == {0: 2, 1: 2, 2: 2}
    True
    """
    known = known_graph(graph, program)
    _require_few(known, most)
    width = known.vertices
    sink = known.sink
    inner = [vertex for vertex in range(width) if vertex != sink]
    found: Counter[Any] = Counter()
    for chips in recurrents(known, program=program):
        dropped = (
            [count + (at == vertex) for at, count in enumerate(chips.numbers)] for vertex in inner
        )
        _, fired = stabilized_rows(
            known, in_words([*itertools.chain.from_iterable(dropped)]), program
        )
        odometers = ([fired[at + vertex] for vertex in inner] for at in range(0, len(fired), width))
        found.update(tuple(counts) if multivariable else sum(counts) for counts in odometers)
    return _sorted(found)


def _require_few(graph: Graph, most: int) -> None:
    """Refuses a graph with too many recurrent configurations."""
    count = order(graph)
    if count > as_int(most, "the most configurations", 1):
        raise ValueError(
            f"at most {most:,} recurrent configurations are visited, and there are {count:,}"
        )


def _sorted(polynomial: dict[Power, int]) -> dict[Power, int]:
    """The terms by ascending powers, without those of coefficient 0."""
    return {power: count for power, count in sorted(polynomial.items()) if count}


def _whitney(graph: Graph, most: int, is_one: bool, progress: AnyProgress) -> Terms:
    """T(x, y) by powers of x - 1 and of y; at x = 1, if `is_one`.

    The last vertex is contracted into one of its neighbours, after its edges to those after that are deleted. Of the
    m edges between the two, one is contracted, and the others become loops or are deleted: 1 + y + .. + y^(m - 1). Or
    all edges of the vertex are deleted: x - 1. The graphs alone are made first, since their terms take far longer.

    After an interrupt the graph keeps those with fewer vertices that were made last, from which the next call goes on.
    """
    start, steps = _steps(graph, is_one)
    counts = _count_graphs(start, steps, as_int(most, "the most smaller graphs", 1))
    begun = ("graphs with fewer vertices", is_one)
    taken_out, graphs = graph.answers.get(begun, (0, {start: Counter({(0, 0): 1})}))
    done, total = sum(counts[:taken_out]), sum(counts)
    with Progress(progress, total, "graphs") as shown:
        for number, step in enumerate(steps[taken_out:], taken_out + 1):
            smaller: dict[int, Terms] = defaultdict(Counter)
            for joined, terms in graphs.items():
                for after, of_x, mult in step(joined):
                    _add(smaller[after], terms, of_x, mult)
                done += 1
                shown.show(done, done == total)
            graphs = smaller
            graph.answers[begun] = number, graphs
    graph.answers.pop(begun, None)
    found: Terms = graphs[0]
    return found


def _count_graphs(start: int, steps: Sequence[Step], most: int) -> list[int]:
    """How many graphs each vertex is taken out of. More than `most` with one number of vertices are refused."""
    graphs = {start}
    counts = []
    for step in steps:
        counts.append(len(graphs))
        smaller: set[int] = set()
        for joined in graphs:
            smaller.update(after for after, _, _ in step(joined))
            if len(smaller) > most:
                shown = f"{with_unit(len(smaller), 'smaller graph')} come out"
                raise ValueError(f"at least {shown}, and {most:,} at most are visited")
        graphs = smaller
    return counts


def _steps(graph: Graph, is_one: bool) -> tuple[int, list[Step]]:
    """A graph as one number, which says how often each two vertices are joined, and how each vertex is taken out, from
    the last one on. The pairs of a vertex with those before it come after the pairs of the vertices before it.
    """
    joined = _joined(graph)
    beside: list[set[int]] = [set() for _ in range(graph.vertices)]
    for low, high in joined:
        beside[high].add(low)
    # What the last one is contracted into may be joined with all that are beside it.
    for some in reversed(beside):
        for low, high in itertools.combinations(sorted(some), 2):
            beside[high].add(low)
    pairs = [
        (low, last) for last in reversed(range(graph.vertices)) for low in sorted(beside[last])
    ]
    bits = sum(joined.values()).bit_length()
    places = dict(zip(pairs, itertools.count()))
    steps = []
    for last in range(graph.vertices - 1, 0, -1):
        lower = sorted(beside[last])
        first = len(lower) + min((places[low, last] for low in lower), default=0)
        shifts = [
            [bits * (places[pair, into] - first) for pair in lower[:at]]
            for at, into in enumerate(lower)
        ]
        steps.append(_step(bits, shifts, is_one))
    return sum(count << bits * places[pair] for pair, count in joined.items()), steps


def _step(bits: int, shifts: Sequence[Sequence[int]], is_one: bool) -> Step:
    """What comes out if the last vertex is taken out: graphs, each with the power of x - 1 and the m of its terms.
    `shifts` has of each vertex beside the last one where its pairs with those before it stand then.
    """
    places = [bits * place for place in range(len(shifts))]
    mask = 2**bits - 1

    def step(joined: int) -> Iterator[tuple[int, int, int]]:
        rest = joined >> bits * len(places)
        counts = [joined >> place & mask for place in places]
        if not is_one:
            yield rest, 1, 1
        for mult, row in zip(counts, shifts):
            if mult:
                yield rest + sum(map(operator.lshift, counts, row)), 0, mult

    return step


def _joined(graph: Graph) -> dict[tuple[int, int], int]:
    """How often each pair of vertices is joined, the lower first, of an undirected graph. The sink has place 0, so that
    it is the last vertex that is left."""
    sink = graph.sink
    found = {}
    for tail, row in enumerate(smith.undirected(graph)):
        for head, less in row.items():
            if less < 0:
                first, second = sorted(0 if it == sink else it + (it < sink) for it in (tail, head))
                found[first, second] = -less
    return found


def _add(found: Terms, terms: Terms, of_x: int, mult: int) -> None:
    """Adds terms, times a power of x - 1 and 1 + y + .. + y^(mult - 1)."""
    for (i, j), count in terms.items():
        for more in range(mult):
            found[i + of_x, j + more] += count
