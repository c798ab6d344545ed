"""Stabilizing configurations, one or many, and what is stable."""

from __future__ import annotations

import itertools
from array import array
from collections.abc import Iterable, Iterator, Sequence
from typing import Any

from chipfire.backend.commands import AnyGraph, AnyProgram, known_graph, read_chips
from chipfire.backend.interrupts import on_threads
from chipfire.backend.portions import Portions
from chipfire.configurations.configuration import (
    Chips,
    Configuration,
    in_words,
    stabilized_rows,
)
from chipfire.graphs.graph import Graph
from chipfire.utils import (
    as_int,
    FILE,
    import_optional,
    in_column,
    in_order,
    numpy_of,
)


def as_configuration(graph: AnyGraph, chips: Chips, program: AnyProgram) -> Configuration:
    """Chips as a configuration."""
    known = known_graph(graph, program)
    if isinstance(chips, Configuration) and chips.graph is known:
        return chips
    return Configuration(
        known, read_chips(chips, known, program=program) if isinstance(chips, FILE) else chips
    )


def stabilize(graph: AnyGraph, chips: Chips, *, program: AnyProgram = None) -> Configuration:
    """Returns the configuration in which no vertex can fire any more.

    Parameters
    ----------
    graph : Graph or path
        The graph, or the name of its file.
    chips : Chips
        The chips at the start, in any form that `Graph.chips` takes, or the name of a chips file.
    program : path, optional
        The program to run. By default, the program that the package finds.

    Returns
    -------
    Configuration
        The stabilization: ``plain(graph, chips).configuration``.

    Raises
    ------
    ValueError
        The graph or the chips are refused, by the package or by the program (`Fault`).
    KeyError
        No vertex has a given name.
    ValueError
        A vertex would fire more than 2^40 times.

    See Also
    --------
    plain, stabilize_many, is_stable

    Notes
    -----
    Proved: the chips, which are those of every play to the end, in any order. Not proved: that Python passes them on.

    Examples
    --------
    >>> chipfire.stabilize(chipfire.path(2), {0: 2, 1: 1})
    {0: 1, 1: 0}
    """
    return as_configuration(graph, chips, program).stabilize(program=program)


def add(
    graph: AnyGraph, first: Chips, second: Chips, *, program: AnyProgram = None
) -> Configuration:
    """Returns the stable sum of two configurations: the stabilization of their sum.

    Parameters
    ----------
    graph : Graph or path
        The graph, or the name of its file.
    first, second : Chips
        The two configurations, in any form that `Graph.chips` takes.
    program : path, optional
        The program to run. By default, the program that the package finds.

    Returns
    -------
    Configuration
        The stabilization of the sum. With this operation, the recurrent configurations form a group.

    Raises
    ------
    ValueError
        The graph or the chips are refused, by the package or by the program (`Fault`).
    KeyError
        No vertex has a given name.

    See Also
    --------
    identity, inverse, stabilize

    Notes
    -----
    Proved: the stabilization. Not proved: Python's addition.

    Examples
    --------
    >>> chipfire.add(chipfire.complete(3), {1: 1}, {1: 1})
    {1: 0, 2: 1}
    """
    known = known_graph(graph, program)
    return (
        as_configuration(known, first, program) + as_configuration(known, second, program)
    ).stabilize(program=program)


def is_stable(graph: AnyGraph, chips: Chips) -> bool:
    """Returns whether no vertex can fire.

    Parameters
    ----------
    graph : Graph or path
        The graph, or the name of its file.
    chips : Chips
        The configuration, in any form that `Graph.chips` takes. Numbers may be below 0.

    Returns
    -------
    bool
        Whether each vertex but the sink has fewer chips than its out-degree.

    Raises
    ------
    ValueError
        The graph or the chips are refused, by the package or by the program (`Fault`).
    KeyError
        No vertex has a given name.

    See Also
    --------
    stabilize

    Notes
    -----
    None of this is proved: Python compares each number with the vertex's degree.

    Examples
    --------
    >>> chipfire.is_stable(chipfire.path(2), {0: 1}), chipfire.is_stable(chipfire.path(2), {0: 2})
    (True, False)
    """
    return as_configuration(graph, chips, None).is_stable()


def rows_of(
    graph: Graph, configurations: Any, least: int | None, program: AnyProgram
) -> Sequence[int]:
    """The chips of many configurations of `least` or more, one after another."""
    found = _whole_rows(graph, configurations, least)
    if found is not None:
        return found
    return [*itertools.chain.from_iterable(_as_rows(graph, configurations, least, program))]


def _whole_rows(graph: Graph, configurations: Any, least: int | None) -> array[int] | None:
    """The same, if none of the numbers has to be read by itself; else None."""
    numpy = numpy_of(configurations)
    if numpy:
        rows = _rows_of_array(numpy, graph, configurations)
        return None if rows is None else in_column(rows, least)
    kinds = {list, tuple, array}
    is_of_rows = isinstance(configurations, (list, tuple)) and {*map(type, configurations)} <= kinds
    if not is_of_rows or {*map(len, configurations)} != {graph.vertices}:
        return None
    return in_column([*itertools.chain.from_iterable(configurations)], least)


def _rows_of_array(numpy: Any, graph: Graph, configurations: Any) -> Any:
    """The rows of an array, with a number for each vertex; None if each row is neither that, nor has one for each but the
    sink, also in the graph's shape."""
    inner = graph.vertices - 1
    is_of_squares = configurations.ndim == 3 and configurations.shape[1:] == graph.shape
    if is_of_squares and graph.squares == range(inner) and graph.sink == inner:
        configurations = configurations.reshape(-1, inner)
    if configurations.shape[1:] == (inner,):
        return numpy.insert(configurations, graph.sink, 0, axis=1)
    return configurations if configurations.shape[1:] == (graph.vertices,) else None


def stabilize_many(
    graph: AnyGraph,
    configurations: Iterable[Chips],
    *,
    workers: int = 1,
    program: AnyProgram = None,
) -> Any:
    """Stabilizes many configurations of one graph.

    Parameters
    ----------
    graph : Graph or path
        The graph, or the name of its file.
    configurations : iterable of Chips, or array of shape (n, vertices) or (n, vertices - 1)
        The configurations, each in any form of chips, or as the rows of an array, with or without a column for the
        sink.
    workers : int, optional
        The number of threads. By default one.
    program : path, optional
        The program to run. By default, the program that the package finds.

    Returns
    -------
    numpy.ndarray of shape (n, vertices), or list of rows
        The chips at the end, with a column for each vertex, including the sink, in the order of the numbers. Without
        NumPy, this is a list of rows.

    Raises
    ------
    ValueError
        The graph or the chips are refused, by the package or by the program (`Fault`).
    KeyError
        No vertex has a given name.

    See Also
    --------
    stabilize, are_recurrent

    Notes
    -----
    Proved: the chips. Not proved: that Python passes them on.

    Examples
    --------
    >>> [list(map(int, row)) for row in chipfire.stabilize_many(chipfire.path(1), [[2], [3]])]
    [[0, 2], [1, 2]]
    """
    known = known_graph(graph, program)
    width = known.vertices
    start = in_words(rows_of(known, configurations, 0, program))
    workers = as_int(workers, "workers", 1, 64)
    if workers == 1 or len(start) <= width:
        left = stabilized_rows(known, start, program)[0]
    else:
        left = _on_threads(known, start, program, workers)
    numpy = import_optional("numpy")
    if numpy:
        return numpy.frombuffer(left, "q").reshape(-1, width)
    return [tuple(left[it : it + width]) for it in range(0, len(left), width or 1)]


def _on_threads(graph: Graph, start: array[int], program: AnyProgram, workers: int) -> array[int]:
    """What becomes of configurations, one after another, by threads that take some at a time. After an error or interrupt
    all stop."""
    width = graph.vertices
    portions = Portions(len(start) // width)
    left = array("Q", bytes(8 * len(start)))

    def work() -> None:
        for rows in portions:
            some = slice(rows.start * width, rows.stop * width)
            left[some] = stabilized_rows(graph, start[some], program, portions.go_on)[0]

    on_threads([work] * workers, workers, portions.stop)
    return left


def _as_rows(
    graph: Graph, configurations: Any, least: int | None, program: AnyProgram
) -> Iterator[tuple[int, ...]]:
    """The numbers of one configuration after the other."""
    wanted = "configurations are rows of an array, or stand in a list"
    if getattr(configurations, "ndim", 2) < 2:
        raise TypeError(f"{wanted}, and are no array of shape {configurations.shape}")
    rows = in_order(configurations, wanted)
    if not isinstance(rows, Iterable):
        raise TypeError(f"{wanted}, and are no {type(rows).__name__}")
    for place, row in enumerate(rows):
        is_file = isinstance(row, FILE)
        yield read_chips(row, graph, program=program) if is_file else graph.numbers(
            row, least, f"chips in row {place}"
        )
