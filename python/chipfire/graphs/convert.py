"""Graphs from and to other tools: NetworkX, SageMath, SciPy, and tables of edges."""

from __future__ import annotations

from collections.abc import Hashable, Mapping
from typing import Any

from chipfire.backend.commands import AnyGraph, known_graph
from chipfire.configurations import smith
from chipfire.configurations.laplacian import laplacian
from chipfire.graphs.edges import edge_rows, names_of_ends
from chipfire.graphs.graph import Graph
from chipfire.graphs.named import parts_of_arrays, parts_of_named
from chipfire.utils import import_optional, is_of_networkx, listed, sorted_if_possible


def from_networkx(
    graph: Any,
    sink: Any,
    weight: str | None = "weight",
    *,
    loops: str | None = None,
    weight_scale: int = 1,
) -> Graph:
    """Returns a graph of NetworkX as a graph of chipfire.

    Parameters
    ----------
    graph : networkx.Graph, DiGraph, MultiGraph or MultiDiGraph
        The graph. Vertices keep their names, and an undirected edge becomes one edge each way.
    sink : hashable, or list or set of hashable
        The name of the sink. Several sinks become one vertex, the last, whose name is "sink". Edges out of the sink are
        only in the Laplacian.
    weight : str or None, optional
        The attribute that says how many chips an edge sends: a whole number above 0. An edge without this attribute
        sends one chip. If `weight` is None, every edge sends one chip.
    loops : {"drop", "sage"}, optional
        Whether to leave loops out, or to treat them as SageMath does. By default, plays refuse a graph with loops.
    weight_scale : int, optional
        The factor by which weights are multiplied. With 4, weights may be 0.25 or ``Fraction(3, 4)``, and a chip stands
        for a quarter.

    Returns
    -------
    Graph
        The graph.

    Raises
    ------
    ValueError
        A weight is not a whole number above 0, or no vertex is the sink.

    See Also
    --------
    to_networkx, from_sage, from_edges

    Notes
    -----
    With ``loops="sage"``, a vertex needs one more chip to fire for each loop, or two more for an undirected loop. The
    vertex keeps these chips. So each play is that of the game without loops, with this number of chips taken from each
    vertex. Plays, drops, stable and recurrent configurations are those of the game without loops. Sums, orders, the
    identity and superstable configurations are not. Plays refuse a vertex with fewer chips than it keeps.

    None of this is proved: Python makes the graph, and each play checks that it is valid.

    Examples
    --------
    >>> import networkx
    >>> chipfire.order(chipfire.from_networkx(networkx.cycle_graph(5), 0))
    5
    """
    if not callable(getattr(graph, "edges", None)) or not callable(
        getattr(graph, "is_directed", None)
    ):
        raise TypeError(f"this takes a graph of NetworkX, and no {type(graph).__name__}")
    edges = graph.edges(data=weight, default=1)
    return Graph(
        **parts_of_named(graph.nodes(), sink, edges, graph.is_directed(), loops, weight_scale)
    )


def from_edges(
    table: Any,
    sink: Any,
    source: Hashable = "source",
    target: Hashable = "target",
    weight: Hashable = "weight",
    directed: bool = False,
    *,
    loops: str | None = None,
    weight_scale: int = 1,
) -> Graph:
    """Returns the graph of a table with a row for each edge.

    Parameters
    ----------
    table : pandas.DataFrame or dict of columns
        The table.
    sink : hashable, or list or set of hashable
        The name of the sink. Several sinks become one vertex.
    source, target : hashable, optional
        The columns of the ends of the edges.
    weight : hashable, optional
        The column that says how many chips each edge sends. Without it, each edge sends one chip.
    directed : bool, optional
        Whether edges are directed. By default, each edge leads both ways.
    loops : {"drop", "sage"}, optional
        Whether to leave loops out, or to treat them as SageMath does: see `from_networkx`. By default, plays refuse a
        graph with loops.
    weight_scale : int, optional
        The factor by which weights are multiplied, to allow rational weights.

    Returns
    -------
    Graph
        The graph. Names that can be sorted are numbered in sorted order, and others in the order in which they come.

    Raises
    ------
    ValueError
        A column is missing or has a gap, a weight is not a whole number above 0, or no vertex is the sink.

    See Also
    --------
    from_networkx, Graph.undirected

    Notes
    -----
    None of this is proved: Python makes the graph, and each play checks that it is valid.

    Examples
    --------
    >>> graph = chipfire.from_edges({"source": ["a", "b"], "target": ["b", "c"]}, "c")
    >>> chipfire.stabilize(graph, {"a": 1})
    {'a': 0, 'b': 1}
    """
    is_table = (
        isinstance(table, Mapping) or hasattr(table, "columns") and hasattr(table, "__getitem__")
    )
    if not is_table or is_of_networkx(table):
        kind = type(table).__name__
        raise TypeError(
            f"a table of edges is a DataFrame or a dict of columns, and no {kind}; see Graph.undirected"
        )
    if lacking := [name for name in (source, target) if name not in table]:
        raise KeyError(f"the table has no column {lacking[0]!r}")
    if loops is None and weight_scale == 1:
        given = [table[it] if it in table else None for it in (source, target, weight)]
        tails, heads, sent = (it.to_numpy() if hasattr(it, "to_numpy") else it for it in given)
        if parts := parts_of_arrays(tails, heads, sent, sink, directed):
            return Graph(**parts)
    columns = []
    for name in (source, target, weight):
        if name in table:
            column = table[name]
            wanted = f"the column {name!r} of edges has values in an order"
            columns.append(list(column) if isinstance(column, str) else listed(column, wanted))
    if len({*map(len, columns)}) > 1:
        raise ValueError(
            f"the columns of edges have {' and '.join(str(len(it)) for it in columns)} rows"
        )
    rows = edge_rows(zip(*columns), True)
    return Graph(**parts_of_named(names_of_ends(rows), sink, rows, directed, loops, weight_scale))


def from_sage(
    graph: Any, sink: Any = None, *, loops: str | None = None, weight_scale: int = 1
) -> Graph:
    """Returns a graph of SageMath as a graph of chipfire.

    Parameters
    ----------
    graph : Sandpile, DiGraph or Graph of SageMath
        The graph. Vertices have the order of Sage's ``vertices()``. An edge sends as many chips as its label says, or
        one chip without a label. An edge with label 0 is left out.
    sink : hashable, optional
        The sink. A `Sandpile` has its own.
    loops : {"drop", "sage"}, optional
        As in `from_networkx`.
    weight_scale : int, optional
        As in `from_networkx`.

    Returns
    -------
    Graph
        The graph.

    Raises
    ------
    ValueError
        A label is not a whole number, or no vertex is the sink.

    See Also
    --------
    from_networkx

    Notes
    -----
    None of this is proved: Python makes the graph, and each play checks that it is valid.

    Examples
    --------
    >>> from sage.all import sandpiles  # doctest: +SKIP
    >>> chipfire.order(chipfire.from_sage(sandpiles.Complete(4)))  # doctest: +SKIP
    16
    """
    if not callable(getattr(graph, "edge_iterator", None)):
        raise TypeError(f"this takes a graph of SageMath, and no {type(graph).__name__}")
    if sink is None:
        if not hasattr(graph, "sink") or not hasattr(graph, "nonsink_vertices"):
            raise ValueError("which vertex is the sink?")
        sink = graph.sink()
    labelled = (
        (tail, head, 1 if label is None else label)
        for tail, head, label in graph.edge_iterator(labels=True)
    )
    edges = (edge for edge in labelled if edge[2] != 0)
    return Graph(
        **parts_of_named(
            sorted_if_possible(graph.vertex_iterator()),
            sink,
            edges,
            graph.is_directed(),
            loops,
            weight_scale,
        )
    )


def to_scipy(graph: AnyGraph) -> Any:
    """Returns the Laplacian as a sparse matrix of SciPy.

    Parameters
    ----------
    graph : Graph or path
        The graph, or the name of its file.

    Returns
    -------
    scipy.sparse.coo_matrix
        The matrix, of shape (vertices, vertices). The sink's row is as in `laplacian`.

    Raises
    ------
    ImportError
        SciPy is missing.
    ValueError
        The graph is refused.

    See Also
    --------
    laplacian, reduced_laplacian

    Notes
    -----
    None of this is proved.

    Examples
    --------
    >>> chipfire.to_scipy(chipfire.complete(3)).shape
    (3, 3)
    """
    return laplacian(graph, sparse=True).tocoo()


def to_networkx(graph: AnyGraph) -> Any:
    """Returns the graph as a graph of NetworkX.

    Parameters
    ----------
    graph : Graph or path
        The graph, or the name of its file.

    Returns
    -------
    networkx.Graph or networkx.DiGraph
        A `Graph` if each edge leads both ways, else a `DiGraph`. Vertices keep their names, and parallel edges become
        one. The attribute "weight" of an edge is its multiplicity, and the graph's attribute "sink" names the sink.

    Raises
    ------
    ImportError
        NetworkX is missing.
    ValueError
        The graph has loops, or is refused.

    See Also
    --------
    from_networkx, to_scipy

    Notes
    -----
    ``from_networkx(it, it.graph["sink"])`` has the same plays as the graph. Its edges are in the order of NetworkX, so
    it need not equal the graph; but it `is_like` a graph without parallel edges.

    None of this is proved.

    Examples
    --------
    >>> chipfire.to_networkx(chipfire.cycle(5)).number_of_edges()
    5
    """
    known = known_graph(graph)
    networkx = import_optional("networkx", "a graph of NetworkX is one of NetworkX")
    known.refuse_loops()
    kind = networkx.Graph if smith.is_undirected(known) else networkx.DiGraph
    names = known.names
    found = kind(sink=names[known.sink])
    found.add_nodes_from(names)
    for tail, row in enumerate(smith.laplacian(known)):
        found.add_weighted_edges_from(
            (names[tail], names[head], -less) for head, less in row.items() if less < 0
        )
    return found
