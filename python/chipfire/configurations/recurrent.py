"""Recurrent and superstable configurations: burning scripts, tests, representatives, lists of all."""

from __future__ import annotations

import itertools
import operator
from collections.abc import Callable, Iterable, Iterator, Sequence
from typing import Any, Literal, overload

from chipfire.backend.commands import AnyGraph, AnyProgram, known_graph
from chipfire.configurations import smith
from chipfire.configurations.configuration import (
    burning,
    burning_test,
    Chips,
    Configuration,
)
from chipfire.configurations.stabilization import as_configuration, rows_of
from chipfire.graphs.graph import Graph
from chipfire.utils import import_optional, require_memory


def burning_script(graph: AnyGraph, *, program: AnyProgram = None) -> Configuration:
    """Returns the least burning script: how often each vertex fires when a recurrent configuration burns.

    The script fires each vertex but the sink at least once, and leaves none of these with more chips than before. On an
    undirected graph, each of these vertices fires exactly once.

    Parameters
    ----------
    graph : Graph or path
        The graph, or the name of its file.
    program : path, optional
        The program to run. By default, the program that the package finds.

    Returns
    -------
    Configuration
        How often each vertex but the sink fires.

    Raises
    ------
    ValueError
        The graph is refused, by the package or by the program (`Fault`).

    See Also
    --------
    burning_configuration, is_recurrent

    Notes
    -----
    The script is due to Speer [1]_. It is the odometer, plus 1 on each vertex, of the play in which each vertex begins
    with its in-degree minus 1 chips.

    Proved: the script, if the library finds it in one call. For a long play, or without the library, the counts of a
    play are proved. Not proved: that Python passes the script on.

    References
    ----------
    .. [1] E. R. Speer, "Asymmetric abelian sandpile models", Journal of Statistical Physics 71 (1993).

    Examples
    --------
    >>> chipfire.burning_script(chipfire.Graph(3, 2, [(0, 1, 3), (0, 2), (1, 0), (1, 2)]))
    {0: 1, 1: 2}
    """
    known = known_graph(graph, program)
    return Configuration(known, burning(known, program)[0])


def burning_configuration(graph: AnyGraph, *, program: AnyProgram = None) -> Configuration:
    """Returns the chips that the burning script takes away.

    The sum of these chips and a recurrent configuration stabilizes to that configuration.

    Parameters
    ----------
    graph : Graph or path
        The graph, or the name of its file.
    program : path, optional
        The program to run. By default, the program that the package finds.

    Returns
    -------
    Configuration
        The burning configuration: the chips of each vertex but the sink.

    Raises
    ------
    ValueError
        The graph is refused, by the package or by the program (`Fault`).

    See Also
    --------
    burning_script, is_recurrent

    Notes
    -----
    Proved: the chips, if the library returns them in one call; else the counts of the script's play. Not proved: that
    Python passes the chips on or, without such a call, computes them from the script.

    Examples
    --------
    >>> graph = chipfire.Graph(3, 2, [(0, 1, 3), (0, 2), (1, 0), (1, 2)])
    >>> chipfire.burning_configuration(graph)
    {0: 2, 1: 1}
    """
    known = known_graph(graph, program)
    return Configuration(known, burning(known, program)[1])


def is_recurrent(graph: AnyGraph, chips: Chips, *, program: AnyProgram = None) -> bool:
    """Returns whether a configuration is recurrent.

    A configuration is recurrent if it is stable and can be reached from every configuration by adding chips and firing.

    Parameters
    ----------
    graph : Graph or path
        The graph, or the name of its file.
    chips : Chips
        The configuration, in any form that `Graph.chips` takes.
    program : path, optional
        The program to run. By default, the program that the package finds.

    Returns
    -------
    bool
        Whether the configuration is recurrent.

    Raises
    ------
    ValueError
        The graph or the chips are refused, by the package or by the program (`Fault`).
    KeyError
        No vertex has a given name.

    See Also
    --------
    are_recurrent, burning_configuration, is_superstable

    Notes
    -----
    This is the burning test of Dhar [1]_, also for directed multigraphs: a configuration is recurrent exactly if its
    sum with `burning_configuration` stabilizes to the configuration itself.

    Proved: the result, if the library returns it in one call. If the graph has no short burning script, or without the
    library, it is proved that the stabilizations and the test are right. Not proved: that Python passes the result on
    or, without such a call, compares correctly.

    References
    ----------
    .. [1] D. Dhar, "Self-organized critical state of sandpile automaton models", Physical Review Letters 64 (1990).

    Examples
    --------
    >>> chipfire.is_recurrent(chipfire.complete(3), {1: 1}), chipfire.is_recurrent(chipfire.complete(3), {})
    (True, False)
    """
    return as_configuration(graph, chips, program).is_recurrent(program=program)


def are_recurrent(
    graph: AnyGraph, configurations: Iterable[Chips], *, program: AnyProgram = None
) -> list[bool]:
    """Returns for each of many configurations whether it is recurrent.

    Parameters
    ----------
    graph : Graph or path
        The graph, or the name of its file.
    configurations : iterable of Chips, or array of shape (n, vertices) or (n, vertices - 1)
        The configurations, each in any form of chips, or as the rows of an array, with or without a column for the
        sink.
    program : path, optional
        The program to run. By default, the program that the package finds.

    Returns
    -------
    list of bool
        One value for each configuration, in the order of the configurations.

    Raises
    ------
    ValueError
        The graph or the chips are refused, by the package or by the program (`Fault`).
    KeyError
        No vertex has a given name.

    See Also
    --------
    is_recurrent, stabilize_many

    Notes
    -----
    Proved: each value, if the library returns it. If the graph has no short burning script, or without the library,
    the stabilizations are proved. Not proved: that Python passes the values on.

    Examples
    --------
    >>> chipfire.are_recurrent(chipfire.complete(3), [{1: 1}, {}, {1: 1, 2: 1}])
    [True, False, True]
    """
    known = known_graph(graph, program)
    return burning_test(known, rows_of(known, configurations, None, program), program)


def recurrent_representative(
    graph: AnyGraph, chips: Chips, *, program: AnyProgram = None
) -> Configuration:
    """Returns the recurrent configuration equivalent to this one.

    Two configurations are equivalent if firings, forward or backward, lead from one to the other.

    Parameters
    ----------
    graph : Graph or path
        The graph, or the name of its file.
    chips : Chips
        The configuration, in any form that `Graph.chips` takes. Numbers may be below 0.
    program : path, optional
        The program to run. By default, the program that the package finds.

    Returns
    -------
    Configuration
        The recurrent configuration.

    Raises
    ------
    ValueError
        The graph or the chips are refused, by the package or by the program (`Fault`).
    KeyError
        No vertex has a given name.

    See Also
    --------
    superstable_representative, is_recurrent, Group

    Notes
    -----
    As long as some chips are below 0, Python adds a configuration equivalent to zero.

    Proved: the rest, if the library computes it in one call. For a long play, or without the library, Python adds the
    identity and tests the stable sum; then the stabilizations are proved. Not proved: that Python adds and passes on
    the right chips.

    Examples
    --------
    >>> chipfire.recurrent_representative(chipfire.complete(3), {})
    {1: 1, 2: 1}
    """
    return as_configuration(graph, chips, program).equivalent_recurrent(program=program)


def superstable_representative(
    graph: AnyGraph, chips: Chips, *, program: AnyProgram = None
) -> Configuration:
    """Returns the superstable (q-reduced) configuration equivalent to this one.

    Parameters
    ----------
    graph : Graph or path
        The graph, or the name of its file.
    chips : Chips
        The configuration, in any form that `Graph.chips` takes. Numbers may be below 0.
    program : path, optional
        The program to run. By default, the program that the package finds.

    Returns
    -------
    Configuration
        The superstable configuration.

    Raises
    ------
    ValueError
        The graph or the chips are refused, by the package or by the program (`Fault`).
    KeyError
        No vertex has a given name.

    See Also
    --------
    recurrent_representative, is_superstable

    Notes
    -----
    Let `m` be the maximal stable configuration, and `c` this one. The result is `m` minus the recurrent representative
    of `m - c`.

    Proved: what is proved of `recurrent_representative`. Not proved: that Python adds and passes on the right chips
    and, unless the library finds the result in one call, the two differences.

    Examples
    --------
    >>> chipfire.superstable_representative(chipfire.complete(3), {1: 1, 2: 1})
    {1: 0, 2: 0}
    """
    return as_configuration(graph, chips, program).equivalent_superstable(program=program)


def inverse(graph: AnyGraph, chips: Chips, *, program: AnyProgram = None) -> Configuration:
    """Returns the inverse of a configuration in the sandpile group.

    The inverse of a recurrent configuration is the recurrent configuration whose stable sum with it is the identity.
    The inverse of any other configuration is the inverse of its recurrent representative.

    Parameters
    ----------
    graph : Graph or path
        The graph, or the name of its file.
    chips : Chips
        The configuration, in any form that `Graph.chips` takes. Numbers may be below 0.
    program : path, optional
        The program to run. By default, the program that the package finds.

    Returns
    -------
    Configuration
        The inverse.

    Raises
    ------
    ValueError
        The graph or the chips are refused, by the package or by the program (`Fault`).
    KeyError
        No vertex has a given name.

    See Also
    --------
    add, identity, recurrent_representative

    Notes
    -----
    Proved: the inverse, if no chips are below 0 and the library finds it in one call. For a long play, or without the
    library, the inverse is the recurrent representative of minus the chips, and only the stabilizations are proved.
    Not proved: what Python does with chips below 0, and that it passes the inverse on.

    Examples
    --------
    >>> graph = chipfire.complete(3)
    >>> chipfire.inverse(graph, {1: 1})
    {1: 0, 2: 1}
    >>> chipfire.add(graph, {1: 1}, {2: 1}) == chipfire.identity(graph)
    True
    """
    return as_configuration(graph, chips, program).inverse(program=program)


def is_superstable(graph: AnyGraph, chips: Chips, *, program: AnyProgram = None) -> bool:
    """Returns whether a configuration is superstable: no set of vertices can fire together, not even several times each.

    Vertices may fire together if none of them is left with fewer than 0 chips. On an undirected graph the superstable
    configurations are the parking functions.

    Parameters
    ----------
    graph : Graph or path
        The graph, or the name of its file.
    chips : Chips
        The configuration, in any form that `Graph.chips` takes.
    program : path, optional
        The program to run. By default, the program that the package finds.

    Returns
    -------
    bool
        Whether the configuration is superstable.

    Raises
    ------
    ValueError
        The graph or the chips are refused, by the package or by the program (`Fault`).
    KeyError
        No vertex has a given name.

    See Also
    --------
    is_recurrent, superstable_representative

    Notes
    -----
    A configuration is superstable exactly if the maximal stable configuration minus it is recurrent.

    Proved: what is proved of `is_recurrent`. Not proved: what is not proved there, and the difference.

    Examples
    --------
    >>> chipfire.is_superstable(chipfire.complete(3), {1: 1}), chipfire.is_superstable(chipfire.complete(3), {1: 1, 2: 1})
    (True, False)
    """
    return as_configuration(graph, chips, program).is_superstable(program=program)


@overload
def superstables(
    graph: AnyGraph, *, as_array: Literal[False] = ..., program: AnyProgram = ...
) -> Iterator[Configuration]:
    ...


@overload
def superstables(graph: AnyGraph, *, as_array: bool, program: AnyProgram = ...) -> Any:
    ...


def superstables(graph: AnyGraph, *, as_array: bool = False, program: AnyProgram = None) -> Any:
    """Returns all superstable configurations of a small graph.

    Parameters
    ----------
    graph : Graph or path
        The graph, or the name of its file.
    as_array : bool, optional
        Whether to return one array instead of an iterator.
    program : path, optional
        The program to run. By default, the program that the package finds.

    Returns
    -------
    iterator of Configuration, or array of shape (order, vertices)
        The configurations. The array has a column for each vertex, in the order of the numbers; the sink's column is 0.
        Without NumPy, the array is a list of rows.

    Raises
    ------
    MemoryError
        There is no room for the array.
    ValueError
        The graph is refused, by the package or by the program (`Fault`).

    See Also
    --------
    recurrents, order

    Notes
    -----
    None of this is proved except the burning script: Python burns each configuration itself.

    Examples
    --------
    >>> sorted(tuple(it.values()) for it in chipfire.superstables(chipfire.complete(3)))
    [(0, 0), (0, 1), (1, 0)]
    """
    known = known_graph(graph, program)
    if as_array:
        return _all_rows(known, _superstable_rows(known, program))
    return (Configuration(known, row) for row in _superstable_rows(known, program))


def _superstable_rows(graph: Graph, program: AnyProgram) -> Iterator[tuple[int, ...]]:
    """The chips of each superstable configuration, by numbers."""
    burns = _burns(graph, program)
    waiting = [((0,) * graph.vertices, 0)]
    while waiting:
        chips, first = waiting.pop()
        yield chips
        # (superstable chips without one of them are superstable, too)
        for vertex in range(first, graph.vertices):
            more = (*chips[:vertex], chips[vertex] + 1, *chips[vertex + 1 :])
            if vertex != graph.sink and burns(more):
                waiting.append((more, vertex))


def _all_rows(graph: Graph, rows: Iterable[tuple[int, ...]]) -> Any:
    """One row for each element of the group, as an array of NumPy, or as a list."""
    numpy = import_optional("numpy")
    count = graph.order()
    # (a row of Python's own is a tuple)
    size = 8 * graph.vertices + (0 if numpy else 64)
    require_memory(count * size, f"{count:,} configurations of {graph.vertices:,} vertices")
    if not numpy:
        return list(rows)
    numbers = numpy.fromiter(itertools.chain.from_iterable(rows), "i8", count * graph.vertices)
    return numbers.reshape(count, graph.vertices)


def _burns(graph: Graph, program: AnyProgram) -> Callable[[Sequence[int]], bool]:
    """A test of chips: vertices below 0 give firings of the burning script back, all of them if it is superstable."""
    script, fuel = burning(graph, program)
    rows = [
        {head: less for head, less in row.items() if head != graph.sink}
        for row in smith.laplacian(graph)
    ]

    def burns(chips: Sequence[int]) -> bool:
        left = list(map(int.__sub__, chips, fuel))
        firings = sum(script)
        poor = [vertex for vertex, count in enumerate(left) if count < 0]
        for vertex in poor:
            while left[vertex] < 0:
                firings -= 1
                for head, less in rows[vertex].items():
                    left[head] += less
                    poor += [head] * (left[head] < 0)
        return firings == 0

    return burns


@overload
def recurrents(
    graph: AnyGraph, *, as_array: Literal[False] = ..., program: AnyProgram = ...
) -> Iterator[Configuration]:
    ...


@overload
def recurrents(graph: AnyGraph, *, as_array: bool, program: AnyProgram = ...) -> Any:
    ...


def recurrents(graph: AnyGraph, *, as_array: bool = False, program: AnyProgram = None) -> Any:
    """Returns all recurrent configurations of a small graph.

    Parameters
    ----------
    graph : Graph or path
        The graph, or the name of its file.
    as_array : bool, optional
        Whether to return one array instead of an iterator.
    program : path, optional
        The program to run. By default, the program that the package finds.

    Returns
    -------
    iterator of Configuration, or array of shape (order, vertices)
        The configurations. The array has a column for each vertex, in the order of the numbers; the sink's column is 0.
        Without NumPy, the array is a list of rows.

    Raises
    ------
    MemoryError
        There is no room for the array.
    ValueError
        The graph is refused, by the package or by the program (`Fault`).

    See Also
    --------
    superstables, order, random_recurrent

    Notes
    -----
    The recurrent configurations are the maximal stable configuration minus each superstable configuration.

    None of this is proved except the burning script.

    Examples
    --------
    >>> sorted(tuple(it.values()) for it in chipfire.recurrents(chipfire.complete(3)))
    [(0, 1), (1, 0), (1, 1)]
    """
    known = known_graph(graph, program)
    most = known.max_stable().numbers
    rows = (tuple(map(operator.sub, most, chips)) for chips in _superstable_rows(known, program))
    if as_array:
        return _all_rows(known, rows)
    return (Configuration(known, row) for row in rows)
