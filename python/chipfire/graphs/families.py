"""Families of graphs: paths, cycles, wheels, tori, complete graphs."""

from __future__ import annotations

import itertools
import math
from collections.abc import Iterable
from typing import Any, overload

from chipfire.graphs.graph import Graph
from chipfire.graphs.lattices import sizes_of
from chipfire.utils import as_int, MAX_LARGE_EDGES, MAX_LARGE_VERTICES


def _both_ways(
    vertices: int, sink: int, pairs: Iterable[tuple[int, int]], shape: Any = None
) -> Graph:
    """The graph with an edge each way for each pair, but none out of the sink."""
    rows = sorted(
        (tail, head, 1) for u, v in pairs for tail, head in ((u, v), (v, u)) if tail != sink
    )
    return Graph(vertices, sink, rows, shape=shape, from_sink=None)


def path(length: int) -> Graph:
    """Returns a path in which each of the two ends has an edge to the sink.

    Parameters
    ----------
    length : int
        The number of vertices without the sink, 1 or more.

    Returns
    -------
    Graph
        The graph. The sink is its last vertex.

    Raises
    ------
    ValueError
        The length is below 1, or too large.

    See Also
    --------
    cycle, grid

    Notes
    -----
    None of this is proved: Python makes the graph, and each play checks that it is valid.

    Examples
    --------
    >>> chipfire.plain(chipfire.path(3), {1: 2}).chips
    (1, 0, 1, 0)
    """
    length = as_int(length, "the length of a path", 1, MAX_LARGE_VERTICES - 1)
    edges = [(v, u, 1) for v in range(length) for u in (v - 1, v + 1) if 0 <= u < length]
    edges += [(0, length, 1), (length - 1, length, 1)]
    return Graph(length + 1, length, edges, shape=(1, length), from_sink=None)


def cycle(length: int) -> Graph:
    """Returns a cycle with edges both ways.

    Parameters
    ----------
    length : int
        The number of vertices, 3 or more.

    Returns
    -------
    Graph
        The graph. Vertex 0 is the sink.

    Raises
    ------
    ValueError
        There are fewer than 3 vertices, or too many.

    See Also
    --------
    path, wheel

    Notes
    -----
    None of this is proved: Python makes the graph, and each play checks that it is valid.

    Examples
    --------
    >>> chipfire.invariant_factors(chipfire.cycle(12))
    (12,)
    """
    length = as_int(length, "the length of a cycle", 3, MAX_LARGE_VERTICES)
    return _both_ways(length, 0, ((v, (v + 1) % length) for v in range(length)))


def wheel(vertices: int) -> Graph:
    """Returns a wheel: a cycle, and a hub that is joined to each of its vertices.

    Parameters
    ----------
    vertices : int
        The number of vertices, 4 or more.

    Returns
    -------
    Graph
        The graph. The hub is vertex 0, and the sink.

    Raises
    ------
    ValueError
        There are fewer than 4 vertices, or too many.

    See Also
    --------
    cycle, complete

    Notes
    -----
    None of this is proved: Python makes the graph, and each play checks that it is valid.

    Examples
    --------
    >>> chipfire.order(chipfire.wheel(4)) == chipfire.order(chipfire.complete(4))
    True
    """
    rim = range(1, as_int(vertices, "the number of vertices of a wheel", 4, MAX_LARGE_VERTICES))
    return _both_ways(vertices, 0, [*((v, v % len(rim) + 1) for v in rim), *((v, 0) for v in rim)])


@overload
def torus(width: int, height: int) -> Graph:
    ...


@overload
def torus(*, rows: int, columns: int) -> Graph:
    ...


def torus(
    width: int | None = None,
    height: int | None = None,
    *,
    rows: int | None = None,
    columns: int | None = None,
) -> Graph:
    """Returns a grid whose borders are joined.

    Parameters
    ----------
    width, height : int
        The numbers of columns and of rows, 3 or more each.
    rows, columns : int, optional
        The same sizes by other names: ``torus(rows=height, columns=width)``.

    Returns
    -------
    Graph
        The graph. Vertex ``width * row + column`` is also called ``(row, column)``, and vertex 0 is the sink.

    Raises
    ------
    ValueError
        A size is below 3, sizes are given twice, or the torus is too large.

    See Also
    --------
    grid

    Notes
    -----
    None of this is proved: Python makes the graph, and each play checks that it is valid.

    Examples
    --------
    >>> chipfire.torus(4, 3).degrees()[1]
    4
    """
    sizes = sizes_of("a torus", width, height, rows, columns)
    width, height = (as_int(it, f"the {word} of a torus", 3) for word, it in sizes)
    size = as_int(width * height, "the number of squares", 9, MAX_LARGE_VERTICES)
    right = ((v, v - v % width + (v + 1) % width) for v in range(size))
    below = ((v, (v + width) % size) for v in range(size))
    return _both_ways(size, 0, (*right, *below), (height, width))


def complete(vertices: int) -> Graph:
    """Returns the complete graph, in which an edge leads from each vertex to every other vertex.

    Parameters
    ----------
    vertices : int
        The number of vertices, 2 or more.

    Returns
    -------
    Graph
        The graph. Vertex 0 is the sink.

    Raises
    ------
    ValueError
        There are fewer than 2 vertices, or too many.

    See Also
    --------
    cycle, wheel, grid

    Notes
    -----
    None of this is proved: Python makes the graph, and each play checks that it is valid.

    Examples
    --------
    >>> chipfire.order(chipfire.complete(4))
    16
    """
    vertices = as_int(vertices, "the number of vertices", 1, math.isqrt(MAX_LARGE_EDGES) + 1)
    return _both_ways(vertices, 0, itertools.combinations(range(vertices), 2))
