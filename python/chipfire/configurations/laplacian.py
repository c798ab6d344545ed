"""The Laplacian of a graph, and what its reduced one says of the sandpile group."""

from __future__ import annotations

from typing import Any, Literal, overload

from chipfire.backend.commands import AnyGraph, known_graph
from chipfire.configurations import smith
from chipfire.utils import import_optional


@overload
def laplacian(graph: AnyGraph, *, sparse: Literal[False] = ...) -> list[list[int]]:
    ...


@overload
def laplacian(graph: AnyGraph, *, sparse: bool) -> Any:
    ...


def laplacian(graph: AnyGraph, *, sparse: bool = False) -> Any:
    """Returns the Laplacian: degrees on the diagonal, and elsewhere minus the chips that one vertex sends to another.

    Parameters
    ----------
    graph : Graph or path
        The graph, or the name of its file.
    sparse : bool, optional
        Whether to return a sparse matrix of SciPy.

    Returns
    -------
    list of list of int, or scipy.sparse.coo_matrix
        The matrix, of shape (vertices, vertices).

    Raises
    ------
    ImportError
        SciPy is missing, and `sparse` is true.
    ValueError
        The graph is refused.

    See Also
    --------
    reduced_laplacian, to_scipy, green

    Notes
    -----
    The sink never fires, but has a row. In an undirected graph (a family, `Graph.undirected`, or a graph of NetworkX or
    SageMath), the sink sends back what it gets, so the matrix is symmetric. In a directed graph of NetworkX or
    SageMath, the sink has the edges that it has there. In a `Graph` made of rows or read from a file, the sink's row is
    0.

    None of this is proved, and the program is not run.

    Examples
    --------
    >>> chipfire.laplacian(chipfire.complete(3))
    [[2, -1, -1], [-1, 2, -1], [-1, -1, 2]]
    """
    return _matrix(smith.laplacian(known_graph(graph)), sparse)


@overload
def reduced_laplacian(graph: AnyGraph, *, sparse: Literal[False] = ...) -> list[list[int]]:
    ...


@overload
def reduced_laplacian(graph: AnyGraph, *, sparse: bool) -> Any:
    ...


def reduced_laplacian(graph: AnyGraph, *, sparse: bool = False) -> Any:
    """Returns the Laplacian without the row and the column of the sink.

    Parameters
    ----------
    graph : Graph or path
        The graph, or the name of its file.
    sparse : bool, optional
        Whether to return a sparse matrix of SciPy.

    Returns
    -------
    list of list of int, or scipy.sparse.coo_matrix
        The matrix, of shape (vertices - 1, vertices - 1).

    Raises
    ------
    ImportError
        SciPy is missing, and `sparse` is true.
    ValueError
        The graph is refused.

    See Also
    --------
    laplacian, green

    Notes
    -----
    None of this is proved, and the program is not run.

    Examples
    --------
    >>> chipfire.reduced_laplacian(chipfire.complete(3))
    [[2, -1], [-1, 2]]
    """
    return _matrix(smith.reduced(known_graph(graph)), sparse)


def _matrix(rows: list[smith.Row], sparse: bool) -> Any:
    """A square matrix of sparse rows: as lists, or `sparse` by SciPy."""
    size = len(rows)
    if not sparse:
        return [[row.get(column, 0) for column in range(size)] for row in rows]
    values: list[int] = []
    places: tuple[list[int], list[int]] = ([], [])
    for number, row in enumerate(rows):
        values += row.values()
        places[0].extend([number] * len(row))
        places[1].extend(row)
    scipy_sparse = import_optional("scipy.sparse", "a sparse matrix is one of SciPy")
    return scipy_sparse.csr_matrix((values, places), shape=(size, size), dtype="int64")


def invariant_factors(graph: AnyGraph) -> tuple[int, ...]:
    """Returns the invariant factors of the sandpile group.

    Parameters
    ----------
    graph : Graph or path
        The graph, or the name of its file.

    Returns
    -------
    tuple of int
        The factors above 1, ascending: each divides the next. A group of one element has no such factors.

    Raises
    ------
    ValueError
        The graph is refused.

    See Also
    --------
    order, Group

    Notes
    -----
    A grid of 40 by 40 squares takes about 1 s, and a grid of 50 by 50 squares about 4 s.

    None of this is proved, and the program is not run.

    Examples
    --------
    The group of the complete graph on 5 vertices is (Z/5)^3:

    >>> chipfire.invariant_factors(chipfire.complete(5))
    (5, 5, 5)
    """
    return tuple(smith.invariant_factors(smith.reduced(known_graph(graph))))


def order(graph: AnyGraph) -> int:
    """Returns the order of the sandpile group.

    The order is the number of recurrent configurations, and of superstable configurations. It is also the number of
    spanning trees whose edges lead to the sink, where each edge counts as often as its multiplicity says.

    Parameters
    ----------
    graph : Graph or path
        The graph, or the name of its file.

    Returns
    -------
    int
        The order.

    Raises
    ------
    ValueError
        The graph is refused.

    See Also
    --------
    invariant_factors, Group, recurrents

    Notes
    -----
    None of this is proved, and the program is not run.

    Examples
    --------
    By Cayley, a complete graph of n vertices has ``n ** (n - 2)`` spanning trees:

    >>> chipfire.order(chipfire.complete(5))
    125
    """
    return known_graph(graph).order()
