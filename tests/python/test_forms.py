"""Each form in which graphs, chips and other numbers may come, at each public function: right, or refused by its name.

A row of a table is a form with the plain values that it stands for, or with words of its refusal. Each function gets
each form, and has to return what it returns for the plain values, or to refuse it with one sentence of the package's
own. Forms of libraries that are not here are left out.
"""
import collections
import importlib
import types
import unittest
import warnings
from array import array

import chipfire
from test_sandpiles import has

NUMBERS = [3, 1, 4, 1, 5, 2]
ROWS = [[3, 1, 4], [1, 5, 2]]
GRID = chipfire.grid(3, 2)
#: Its rows have one square each, so that a list of anything with one element looks like it.
TALL = chipfire.grid(1, 6)
LINE = chipfire.Graph.undirected([("a", "b"), ("b", "c"), ("c", "s")], "s")
RING = chipfire.Graph.undirected([(v, (v + 1) % 7) for v in range(7)], 6)
#: Sentences that are NumPy's, pandas' or Python's own.
BARE = ("ambiguous", "iteration over", "attribute", "unhashable", "subscriptable", "unsupported", "not iterable",
    "only ")


def module(name):
    """A library, or None."""
    return importlib.import_module(name) if has(name.partition(".")[0]) else None


numpy, pandas, networkx, sparse = map(module, ("numpy", "pandas", "networkx", "scipy.sparse"))


def python_forms():
    """Forms of Python's own: a name, what makes one, and the plain values or words of the refusal."""
    yield from [
        ("tuple", lambda: tuple(NUMBERS), NUMBERS), ("list", lambda: list(NUMBERS), NUMBERS),
        ("with the sink", lambda: [*NUMBERS, 0], NUMBERS), ("rows", lambda: ROWS, NUMBERS),
        ("range", lambda: range(6), [*range(6)]), ("deque", lambda: collections.deque(NUMBERS), NUMBERS),
        ("generator", lambda: (it for it in NUMBERS), NUMBERS), ("map", lambda: map(int, NUMBERS), NUMBERS),
        ("generator of rows", lambda: (iter(row) for row in ROWS), NUMBERS),
        ("dict", lambda: dict(enumerate(NUMBERS)), NUMBERS),
        ("dict in another order", lambda: {2: 4, 0: 3}, [3, 0, 4, 0, 0, 0]),
        ("Counter", lambda: collections.Counter({2: 4, 0: 3}), [3, 0, 4, 0, 0, 0]),
        ("values of a dict", lambda: dict(enumerate(NUMBERS)).values(), NUMBERS),
        ("mapping", lambda: types.MappingProxyType(dict(enumerate(NUMBERS))), NUMBERS),
        ("by squares", lambda: {(0, 2): 4, (1, 1): 5}, [0, 0, 4, 0, 5, 0]), ("one", lambda: 2, [2] * 6),
        ("floats", lambda: [float(it) for it in NUMBERS], NUMBERS), ("truths", lambda: [True, False] * 3, [1, 0] * 3),
        ("memoryview", lambda: memoryview(array("q", NUMBERS)), NUMBERS),
        ("memoryview of rows", lambda: memoryview(array("i", NUMBERS)).cast("B").cast("i", [2, 3]), NUMBERS),
        ("fractions", lambda: [0.5] * 6, "of vertex 0 is no whole number: 0.5"),
        ("floats of an array", lambda: array("d", [1, 2, 3, 4, 5, 0.5]), "of vertex 5 is no whole number: 0.5"),
        ("texts", lambda: ["3"] * 6, "of vertex 0 is no whole number: '3'"),
        ("characters", lambda: array("u", "314152"), "of vertex 0 is no whole number: '3'"),
        ("texts of bytes", lambda: [b"3"] * 6, "of vertex 0 is no whole number: b'3'"),
        ("sets", lambda: [{3}] * 6, "of vertex 0 is no whole number: {3}"),
        ("dicts", lambda: [{3: 1}] * 6, "of vertex 0 is no whole number: {3: 1}"),
        ("set", lambda: {3, 1}, "no set: {1, 3}"), ("frozenset", lambda: frozenset({3}), "no frozenset"),
        ("names of a dict", lambda: dict(enumerate(NUMBERS)).keys(), "no dict_keys"),
        ("pairs of a dict", lambda: dict(enumerate(NUMBERS)).items(), "no dict_items"),
        ("bytes", lambda: bytes(NUMBERS), "no bytes"), ("bytearray", lambda: bytearray(NUMBERS), "no bytearray"),
        ("object", lambda: object(), "of vertex 0 is no whole number: <object"),
        ("rows of rows", lambda: [[[it] for it in row] for row in ROWS], "stand in rows of rows"),
        ("another shape", lambda: [[1, 2], [3, 4], [5, 6]], "stand in 3 rows of 2"),
        ("too few", lambda: [1, 2], "for 2 vertices, and the graph has 7"),
        ("an unknown name", lambda: {"z": 1}, "no vertex 'z'"),
        ("a name twice", lambda: {0: 1, (0, 0): 1}, "is named twice"),
    ]
    yield from ((f"array {it!r}", lambda it=it: array(it, NUMBERS), NUMBERS) for it in "bBhHiIlLqQfd")


def own_forms():
    """Forms of the package's own."""
    report = chipfire.plain(GRID, NUMBERS)
    yield from [
        ("Configuration", lambda: chipfire.Configuration(GRID, NUMBERS), NUMBERS),
        ("Report", lambda: report, report.chips),
        ("Configuration of another graph", lambda: chipfire.grid(2, 3).max_stable(),
        "configuration is one of another graph"),
        ("Divisor of another graph", lambda: chipfire.Divisor(LINE, 1), "divisor is one of another graph"),
        ("Divisor", lambda: chipfire.Divisor(GRID, [*NUMBERS, 0]), NUMBERS),
        ("Report of another graph", lambda: chipfire.plain(LINE, 0), "report is one of another graph"),
        ("Drops", lambda: chipfire.drops(GRID, 0, [1]), "of vertex 0 is no whole number: <Drops"),
        ("Chains", lambda: chipfire.chains(GRID, 2, 2, 1), "of vertex 0 is no whole number: <Chains"),
        ("Graph", lambda: GRID, "no Graph"),
    ]
    if numpy:
        yield "Firings", lambda: chipfire.chains(GRID, 1, 2, 1, fired=True).fired, "for 3 vertices, and the graph has 7"


def numpy_forms():
    made = numpy.array
    yield from ((it, lambda it=it: made(NUMBERS, it),
        NUMBERS) for it in "i1 i2 i4 i8 u1 u2 u4 u8 f2 f4 f8 g >i4 >u8 <i2 O".split())
    yield from [
        ("bool", lambda: made([True, False] * 3), [1, 0] * 3), ("rows", lambda: made(ROWS), NUMBERS),
        ("0-d", lambda: made(2), [2] * 6), ("0-d float", lambda: made(2.0), [2] * 6),
        ("scalar", lambda: numpy.int16(2), [2] * 6),
        ("list of scalars", lambda: list(made(NUMBERS)), NUMBERS),
        ("list of truths", lambda: list(made([True, False] * 3)), [1, 0] * 3),
        ("list of 0-d", lambda: [made(it) for it in NUMBERS], NUMBERS),
        ("list of rows", lambda: list(made(ROWS)), NUMBERS),
        ("in another order", lambda: made(NUMBERS[::-1])[::-1], NUMBERS),
        ("every other", lambda: made([*zip(NUMBERS, NUMBERS)])[:, 0], NUMBERS),
        ("Fortran", lambda: numpy.asfortranarray(ROWS), NUMBERS),
        ("read-only", lambda: numpy.frombuffer(bytes(NUMBERS), "u1"), NUMBERS),
        ("matrix", lambda: numpy.asmatrix(ROWS), NUMBERS),
        ("masked, but nowhere", lambda: numpy.ma.array(NUMBERS, mask=[False] * 6), NUMBERS),
        ("masked", lambda: numpy.ma.array(NUMBERS, mask=[False, True] * 3), "of vertex 1 is no whole number: None"),
        ("masked rows", lambda: numpy.ma.array(ROWS, mask=[[False, True, False]] * 2),
        "of vertex 1 is no whole number: None"),
        ("fractions", lambda: made([3, 0.5, 4, 1, 5, 2]), "of vertex 1 is no whole number: 0.5"),
        ("nan", lambda: made([3, 1, numpy.nan, 1, 5, 2]), "of vertex 2 is no whole number: nan"),
        ("inf", lambda: made([3, 1, numpy.inf, 1, 5, 2]), "of vertex 2 is no whole number: inf"),
        ("complex", lambda: made(NUMBERS, complex), "of vertex 0 is no whole number: (3+0j)"),
        ("texts", lambda: made(["3"] * 6), "of vertex 0 is no whole number: '3'"),
        ("texts of bytes", lambda: made([b"3"] * 6), "of vertex 0 is no whole number: b'3'"),
        ("structured", lambda: made([(it,) for it in NUMBERS], [("chips", "i8")]), "no ndarray"),
        ("dates", lambda: made(NUMBERS, "M8[ns]"), "no ndarray"),
        ("times", lambda: made(NUMBERS, "m8[ns]"), "no ndarray"),
        ("0-d of a dict", lambda: made({0: 3}), "no ndarray"), ("0-d of a text", lambda: made("3"), "no ndarray"),
        ("3-d", lambda: made(ROWS).reshape(2, 3, 1), "stand in rows of rows"),
        ("turned", lambda: made(ROWS).T, "3 rows of 2"),
        ("a row", lambda: made([NUMBERS]), "1 rows of 6"), ("empty", lambda: made([]), "for 0 vertices"),
    ]


def pandas_forms():
    series, index = pandas.Series, pandas.Index
    yield from [
        ("Series", lambda: series(NUMBERS), NUMBERS),
        ("Series in another order", lambda: series(NUMBERS)[::-1], NUMBERS),
        ("Series by squares", lambda: series({(0, 2): 4, (1, 1): 5}), [0, 0, 4, 0, 5, 0]),
        ("Series of floats", lambda: series(NUMBERS, dtype=float), NUMBERS),
        ("Series of Int64", lambda: series(NUMBERS, dtype="Int64"), NUMBERS),
        ("Series of truths", lambda: series([True, False] * 3), [1, 0] * 3),
        ("Index", lambda: index(NUMBERS), NUMBERS), ("RangeIndex", lambda: pandas.RangeIndex(6), [*range(6)]),
        ("array of Int64", lambda: pandas.array(NUMBERS, dtype="Int64"), NUMBERS),
        ("Series with NaN", lambda: series([3, None, 4]), "of vertex 1 is no whole number: nan"),
        ("Series of Int64 with NA", lambda: series([3, None, 4], dtype="Int64"),
        "of vertex 1 is no whole number: <NA>"),
        ("Series of texts", lambda: series(["3"] * 6), "of vertex 0 is no whole number: '3'"),
        ("Series of times", lambda: series(NUMBERS, dtype="m8[ns]"), "of vertex 0 is no whole number: Timedelta"),
        ("Series with a name twice", lambda: series([1, 2], index=[3, 3]), "vertex 3 is named twice"),
        ("Series by other names", lambda: series([1, 2], index=["a", "z"]), "no vertex 'a'"),
        ("DataFrame", lambda: pandas.DataFrame(ROWS), "no DataFrame"),
        ("MultiIndex", lambda: pandas.MultiIndex.from_tuples([(it,) * 2 for it in NUMBERS]),
        "is no whole number: (3, 3)"),
    ]


def sparse_forms():
    for kind in ("coo", "csr", "csc", "dok", "lil", "bsr", "dia"):
        yield f"{kind}_matrix", lambda kind=kind: getattr(sparse, f"{kind}_matrix")(ROWS), NUMBERS
        yield f"{kind}_array", lambda kind=kind: getattr(sparse, f"{kind}_array")(ROWS), NUMBERS
    yield "of one row", lambda: sparse.csr_matrix([NUMBERS]), "stand in 1 rows of 6"
    yield "of fractions", lambda: sparse.csr_matrix(ROWS) / 2, "of vertex 0 is no whole number: 1.5"


def networkx_forms():
    graph, weighted = networkx.path_graph(6), networkx.MultiGraph([(0, 1), (0, 1), (2, 3)])
    weighted.add_nodes_from(range(7), chips=1)
    for kind in (networkx.Graph, networkx.DiGraph, networkx.MultiGraph, networkx.MultiDiGraph):
        yield kind.__name__, lambda kind=kind: kind(graph), f"no {kind.__name__}"
    rows = [("nodes", "NodeView"), ("edges", "EdgeView"), ("degree", "DegreeView"), ("adj", "AdjacencyView")]
    for name, kind in rows:
        yield name, lambda name=name: getattr(graph, name), f"no {kind}"
    yield "nodes with data", lambda: weighted.nodes(data="chips"), "no NodeDataView"
    yield "edges with data", lambda: weighted.edges(data=True, keys=True), "no MultiEdgeDataView"
    yield "attributes", lambda: networkx.get_node_attributes(weighted, "chips"), [1] * 7


def forms():
    """All rows of the table of chips that can be made here."""
    yield from python_forms()
    yield from own_forms()
    rows = [(numpy, numpy_forms), (pandas, pandas_forms), (sparse, sparse_forms), (networkx, networkx_forms)]
    for library, some in rows:
        yield from some() if library else ()


def put_on_a_pile(chips):
    """A pile with these chips in place of others."""
    pile = chipfire.Pile(GRID, 5)
    pile.put(chips)
    return pile


#: Each public function that takes chips, or numbers in the forms of chips, called with one form.
OF_CHIPS = {
    "Graph.chips": GRID.chips, "Graph.numbers": GRID.numbers,
    "Configuration": lambda it: chipfire.Configuration(GRID, it),
    "position_after": lambda it: GRID.position_after(it, 1),
    "position_after, counts": lambda it: GRID.position_after(9, it),
    "plain": lambda it: chipfire.plain(GRID, it),
    "guess": lambda it: chipfire.plain(GRID, 9, guess=GRID.numbers(it) if isinstance(it, chipfire.Report) else it),
    "verify": lambda it: chipfire.verify(GRID, it, [0] * 7),
    "verify, counts": lambda it: chipfire.verify(GRID, 3, GRID.numbers(it) if isinstance(it, chipfire.Report) else it),
    "drops": lambda it: chipfire.drops(GRID, it, [2, 2]).report, "Pile": lambda it: chipfire.Pile(GRID, it).report,
    "put": lambda it: put_on_a_pile(it).report, "stabilize": lambda it: chipfire.stabilize(GRID, it),
    "add, first": lambda it: chipfire.add(GRID, it, 1), "add, second": lambda it: chipfire.add(GRID, 1, it),
    "is_stable": lambda it: chipfire.is_stable(GRID, it), "is_recurrent": lambda it: chipfire.is_recurrent(GRID, it),
    "is_superstable": lambda it: chipfire.is_superstable(GRID, it),
    "recurrent_representative": lambda it: chipfire.recurrent_representative(GRID, it),
    "superstable_representative": lambda it: chipfire.superstable_representative(GRID, it),
    "inverse": lambda it: chipfire.inverse(GRID, it),
    "sum": lambda it: GRID.max_stable() + it, "difference": lambda it: GRID.max_stable() - it,
    "coordinates": lambda it: chipfire.Group(GRID).coordinates(it),
    "order of Group": lambda it: chipfire.Group(GRID).order(it),
    "Setting": lambda it: chipfire.machine.Setting(GRID, it).chips,
    "frames": lambda it: chipfire.frames(GRID, it, [0, 1]).reports,
    "stabilize_many": lambda it: [*map(list, chipfire.stabilize_many(GRID, [it, 1]))],
    "are_recurrent": lambda it: chipfire.are_recurrent(GRID, [it, 3]),
}

#: Functions that take a graph, and what else they take here.
OF_GRAPHS = {
    **{it: getattr(chipfire, it) for it in (
        "avalanche_polynomial burning_configuration burning_script canonical_divisor check genus identity"
        " invariant_factors laplacian level_polynomial order reduced_laplacian to_networkx to_scipy tutte_polynomial"
        " Group"
    ).split()},
    **{it: lambda graph, it=it: getattr(chipfire, it)(graph, 1) for it in (
        "Configuration Divisor inverse is_recurrent is_stable is_superstable plain recurrent_representative run stabilize"
        " superstable_representative random_recurrent Pile"
    ).split()},
    **{it: lambda graph, it=it: next(iter(getattr(chipfire, it)(graph))) for it in ("recurrents", "superstables")},
    **{it: lambda graph, it=it: getattr(chipfire, it)(graph, 1, []) for it in (
        "drops frames recorded replay simulate avalanches frames_by_chips random_drops"
    ).split()},
    **{it: lambda graph, it=it: getattr(chipfire, it)(graph, [[1]]) for it in ("stabilize_many", "are_recurrent")},
    "add": lambda graph: chipfire.add(graph, 1, 1), "avalanche": lambda graph: chipfire.avalanche(graph, 1, 1),
    "chains": lambda graph: chipfire.chains(graph, 1, 1, 1), "verify": lambda graph: chipfire.verify(graph, 1, 1),
    "resume": lambda graph: chipfire.resume(graph, chipfire.plain(GRID, 1)),
    "read_chips": lambda graph: chipfire.read_chips("no file", graph),
    "Setting": lambda graph: chipfire.machine.Setting(graph, 1),
    "write_chips": lambda graph: chipfire.write_chips("/dev/null", graph, 1),
}


def no_graphs():
    """What is no graph: what makes one, and its name in the refusal."""
    yield from [(None, "NoneType"), (3, "int"), ([(0, 1)], "list"), ({0: [1]}, "dict"), (b"graph.json", "bytes"),
                ({1}, "set")]
    yield chipfire.plain(GRID, 1), "chipfire.backend.report.Report"
    if numpy:
        yield from [(numpy.eye(3), "numpy.ndarray"), (numpy.int64(3), "numpy.int64")]
    if pandas:
        yield pandas.DataFrame({"source": [0], "target": [1]}), "DataFrame"
    if sparse:
        yield sparse.csr_matrix([[0, 1], [1, 0]]), "csr_matrix"
    for kind in ("Graph", "DiGraph", "MultiGraph", "MultiDiGraph") if networkx else ():
        yield getattr(networkx, kind)([(0, 1)]), f"{kind}: chipfire.from_networkx makes one of it"


def triangle_edges():
    """Forms of the edges a - b, b - c of weight 2, c - s, each with the weight of b - c; wrong forms, each with words."""
    rows = [("a", "b"), ("b", "c", 2), ("c", "s")]
    yield from [
        (rows, 2), (tuple(rows), 2), (iter(rows), 2), (dict.fromkeys(rows).keys(), 2), (map(list, rows), 2),
        ([("a", "b"), ("b", "c", {"weight": 2}), ("c", "s", {"color": 3})], 2),
        ([{"a", "b"}, {"b", "c"}, {"c", "s"}], 1),
        ({("a", "b"): 1}, "this is a dict"), ({("a", "b"): 1}.items(), "this is a dict_items"),
        ("abc", "this is a str"),
        (b"abc", "this is a bytes"), (None, "this is a NoneType"), (["ab", "bc"], "edge 0 is neither"),
        ([{"a": 1}], "edge 0 is neither"),
        ([{"a", "b", "c"}], "edge 0 is neither"), ([(["a"], "b")], "edge 0 is neither"),
        ([("a", None)], "lacks an end"),
        ([("a", float("nan"))], "lacks an end"), (GRID, "this is a Graph"),
    ]
    if numpy:
        three = numpy.array([("a", "b"), ("b", "c"), ("c", "s")])
        yield from [(three, 1), (three.astype(object), 1), (list(three), 1), (three[::-1], 1),
                    (three.reshape(3, 2, 1), "edge 0 is neither")]
        yield numpy.array([("a", "b", 1)], "U1,U1,i8"), "this is a ndarray"
        yield numpy.array(3), "this is a ndarray"
    if pandas:
        frame = pandas.DataFrame([("a", "b", 1), ("b", "c", 2), ("c", "s", 1)], columns=["uv", "vw", "w"])
        yield from [(frame, "this is a DataFrame: see from_edges"), (frame.itertuples(index=False), 2),
                    (frame.to_records(index=False), "recarray")]
        yield pandas.MultiIndex.from_tuples([("a", "b"), ("b", "c"), ("c", "s")]), 1
    if sparse:
        yield sparse.csr_matrix([[0, 1], [1, 0]]), "this is a csr_matrix, as of a matrix"
    if networkx:
        yield from edges_of_networkx()


def edges_of_networkx():
    """The same as views of NetworkX."""
    for kind in (networkx.Graph, networkx.DiGraph, networkx.MultiGraph, networkx.MultiDiGraph):
        graph = kind()
        graph.add_weighted_edges_from([("a", "b", 1), ("b", "c", 2), ("c", "s", 1)])
        yield from [(graph.edges, 1), (graph.edges(), 1), (graph.edges(data=True), 2), (graph.edges(data="weight"), 2)]
        yield from [(graph.edges.data(), 2), (list(graph.edges(data=True)), 2)]
        if graph.is_multigraph():
            yield from [(graph.edges(keys=True), 1), (graph.edges(keys=True, data=True), 2),
                        (graph.edges(keys=True, data="weight"), 2)]
        if graph.is_directed():
            yield from [(graph.in_edges, 1), (graph.out_edges(data=True), 2)]
        for wrong in (graph, graph.nodes, graph.degree, graph.adj):
            yield wrong, f"this is a {type(wrong).__name__}"


def values_in_order():
    """Forms of the values 0, 1, 1, 4 in their order, one by one, and what has none: with words of the refusal."""
    plain = [0, 1, 1, 4]
    yield from [(plain, ""), (tuple(plain), ""), (iter(plain), ""), (array("B", plain), ""),
                (memoryview(array("q", plain)), "")]
    yield from [(collections.deque(plain), ""), ({0: 0, 1: 1, 2: 1, 3: 4}.values(), ""), ([0.0, 1.0, 1.0, 4.0], "")]
    yield from [({0: 1, 1: 2}, "no dict: {0: 1, 1: 2}"), (collections.Counter(plain), "no Counter"),
                ({0, 1}, "no set: {0, 1}")]
    yield from [(bytes(plain), "no bytes"), (bytearray(plain), "no bytearray"), (4, "not 4"), (object(), "not <object")]
    yield {0: 1}.items(), "no dict_items"
    yield chipfire.Configuration(GRID, 1), "no Configuration"
    if numpy:
        made = numpy.array
        yield from [(made(plain, it), "") for it in ("i1", "u8", ">i4", "O", "f4")]
        yield from [(made(plain[::-1])[::-1], ""), (list(made(plain)), ""), (made(4), "not 4"),
                    (made(plain, "m8[ns]"), "no ndarray")]
        yield made([(it,) for it in plain], [("vertex", "i8")]), "no ndarray"
    if pandas:
        series = pandas.Series(plain)
        yield from [(series, ""), (series.astype("Int64"), ""), (pandas.Index(plain), ""),
                    (series.astype("category"), "")]
        yield pandas.DataFrame({0: plain}), "no DataFrame"
    if networkx:
        graph = networkx.path_graph(4)
        yield from [(graph, "no Graph"), (graph.nodes, "no NodeView"), (graph.degree, "no DegreeView"),
                    (graph.edges, "no EdgeView")]


def masks():
    """Forms of a mask of three squares, and what is none."""
    rows = [[True, True], [False, True]]
    yield from [(rows, ""), (tuple(map(tuple, rows)), ""), (iter(rows), ""), ([[1, 1], [0, 1]], ""),
                ([[1.0, 1.0], [0.0, 2.5]], "")]
    yield from [([{True}, {False}], "and is not ['{True}']"), ({0: rows}, "no dict"),
                ([[1, None]], "and is not [1, None]")]
    yield from [([b"11"], "is not [\"b'11'\"]"), ("11", "no str: '11'"), ([[[1]]], "and is not [[1]]"),
                ({1}, "no set: {1}")]
    yield chipfire.Configuration(GRID, 1), "no Configuration"
    if numpy:
        yield from [(numpy.array(rows, it), "") for it in ("?", "u1", "f8", "O")]
        yield from [(numpy.asfortranarray(rows), ""), ([numpy.array(row) for row in rows], ""),
                    (numpy.asmatrix(rows), "")]
        yield from [(numpy.ma.array(rows, mask=rows), "and is not [None, None]"),
                    (numpy.array([True]), "and is not ['True']")]
        yield from [(numpy.ones((2, 2, 2)), "and is not [[1.0, 1.0], [1.0, 1.0]]"),
                    (numpy.array(True), "and is not ['True']")]
        yield numpy.array([[1, numpy.nan]]), "and is not [1.0, nan]"
    if pandas:
        yield from [(pandas.DataFrame(rows), "no DataFrame"),
                    (pandas.DataFrame(rows, columns=["a", "b"]), "no DataFrame")]
        yield [pandas.array([True, None], dtype="boolean")], "and is not [True, <NA>]"
    if sparse:
        yield from [(sparse.csr_matrix(rows), ""), (sparse.coo_array(rows), "")]
    if networkx:
        yield networkx.grid_2d_graph(2, 2), "no Graph"


def tables():
    """Forms of a table of the edges a - b, b - c, and what is none."""
    source, target = ["a", "b"], ["b", "c"]
    plain = {"source": source, "target": target}
    yield from [(plain, ""), ({"source": "ab", "target": iter("bc")}, ""), (types.MappingProxyType(plain), "")]
    yield from [([("a", "b")], "no list"), (None, "no NoneType"), ({"source": source}, "no column 'target'"),
                (GRID, "no Graph")]
    yield from [({**plain, "weight": 3}, "and not 3"),
                ({**plain, "target": {0: "b", 1: "c"}}, "and no dict: {0: 'b', 1: 'c'}")]
    yield from [({**plain, "source": {"a", "b"}}, "the column 'source' of edges has values in an order, and no set"),
                ({**plain, "target": [["b"], "c"]}, "edge 0 is neither")]
    if numpy:
        yield from [({name: numpy.array(some) for name, some in plain.items()}, ""),
                    (numpy.array([(0, 1)], "i8,i8"), "no ndarray")]
        yield {**plain, "weight": numpy.array([[1], [1]])}, "edge 0 is neither"
    if pandas:
        frame = pandas.DataFrame(plain)
        yield from [(frame, ""), (frame.astype("category"), ""), (frame.astype("string"), ""),
                    ({"source": frame.source, "target": frame.target}, "")]
        yield from [(frame.source, "no Series"), (frame.to_dict(), "and no dict"),
                    (frame.rename(columns={"target": "to"}), "no column 'target'")]
        yield pandas.concat([frame, frame.source], axis=1), "and no DataFrame"
    if networkx:
        yield networkx.path_graph(3), "no Graph"
        yield networkx.path_graph(3).edges, "no EdgeView"


class Table(unittest.TestCase):
    def setUp(self):
        warnings.simplefilter("ignore", PendingDeprecationWarning)  # (of matrices of NumPy, as they are made)

    def check(self, call, form, wanted, outcome):
        """Gives a form to a function, which returns what is wanted or refuses it with one sentence of ours."""
        with warnings.catch_warnings():
            warnings.simplefilter("error")
            if not isinstance(outcome, str):
                self.assertEqual(call(form), wanted)
                return
            with self.assertRaises((TypeError, ValueError, KeyError)) as raised:
                call(form)
        said = str(raised.exception)
        self.assertIn(outcome, said)
        self.assertFalse("\n" in said or any(it in said for it in BARE), said)

    @unittest.skipUnless(chipfire.find_library(), "the program would be started for each")
    def test_each_form_of_chips_at_each_function(self):
        for (name, make, outcome), (function, call) in ((form, it) for form in forms() for it in OF_CHIPS.items()):
            with self.subTest(form=name, function=function):
                is_plain = not isinstance(outcome, str)
                numbers = [*outcome, 0][:7] if is_plain and len(outcome) < 7 else outcome
                self.check(call, make(), call(numbers) if is_plain else None, outcome)

    @unittest.skipUnless(chipfire.find_library(), "some forms are results of the library")
    def test_forms_that_look_like_rows_of_one_square(self):
        for name, make, outcome in forms():
            is_other = not isinstance(outcome, str) or "another graph" in outcome or "vertices" in outcome
            if is_other or name in ("sets", "dicts"):
                continue
            with self.subTest(form=name), self.assertRaises((TypeError, ValueError, KeyError)):
                TALL.chips(make())
        for wrong in ([{3}] * 6, [{3: 1}] * 6, [b"3"] * 6):
            with self.assertRaisesRegex(TypeError, "of vertex 0 is no whole number"):
                TALL.chips(wrong)

    def test_what_is_no_graph_at_each_function(self):
        for given, outcome in no_graphs():
            for function, call in OF_GRAPHS.items():
                with self.subTest(form=outcome, function=function):
                    self.check(call, given, None, outcome)

    def test_each_form_of_edges(self):
        for edges, outcome in triangle_edges():
            with self.subTest(type(edges), outcome=outcome):
                wanted = None if isinstance(outcome, str) else [("a", "b", 1), ("b", "c", outcome), ("c", "s", 1)]
                self.check(self.undirected, edges, wanted, outcome)
        with self.assertRaisesRegex(ValueError, "edge 0 is neither"):
            chipfire.Graph(3, 0, [{1, 0}])

    @unittest.skipUnless(chipfire.find_library(), "the program would be started for each")
    def test_each_form_of_values_in_order(self):
        group = chipfire.Group(chipfire.complete(6))
        for call in (
            lambda it: chipfire.drops(GRID, 3, it).size.tolist(), group.element,
            lambda it: chipfire.drops(GRID, 3, [2] * 4, amounts=it).size.tolist(),
            lambda it: [found.size for found in chipfire.avalanches(GRID, 3, it)],
            lambda it: chipfire.Pile(GRID, 3).drops(it).size.tolist(),
        ):
            wanted = call([0, 1, 1, 4])
            for form, outcome in values_in_order():
                with self.subTest(type(form), outcome=outcome):
                    self.check(call, form, wanted, outcome or None)

    def undirected(self, edges):
        """The edges of the graph, each once, by names."""
        graph = chipfire.Graph.undirected(edges, "s")
        pairs = ((*sorted((graph.names[tail], graph.names[head])), mult) for tail, head, mult in graph.edges)
        return sorted({*pairs})

    @unittest.skipUnless(numpy, "NumPy is not here")
    def test_edges_that_are_rows_of_an_array(self):
        rows = [(0, 1, 3), (1, 2, 2), (1, 0, 1), (0, 2, 1)]
        wanted = chipfire.Graph(3, 2, rows)
        for kind in ("i1", "u2", "i4", "i8", "u8", ">i4", "f4", "f8", "O"):
            made = numpy.array(rows, kind)
            for form in (made, numpy.asfortranarray(made), made[::-1][::-1], numpy.ma.array(made), numpy.asmatrix(made)):
                self.check(lambda it: chipfire.Graph(3, 2, it), form, wanted, None)
            self.check(lambda it: chipfire.Graph(3, 2, it), made[:, :2],
                chipfire.Graph(3, 2, [row[:2] for row in rows]), None)
        self.assertEqual(chipfire.Graph(1, 0, numpy.zeros((0, 3), "i8")), chipfire.Graph(1, 0, []))
        self.assertEqual(wanted.long_columns, chipfire.Graph(3, 2, numpy.array(rows)).long_columns)
        self.assertEqual(chipfire.Graph(3, 2, numpy.array(rows)).degrees(), (4, 3, 0))
        for place, value, outcome in [
            (1, -1, "the head of edge 2 is below 0: -1"), (0, -1, "the tail of edge 2 is below 0: -1"),
            (2, 0.5, "the multiplicity of edge 2 is no whole number: 0.5"),
            (2, numpy.nan, "the multiplicity of edge 2 is no whole number: nan"),
            (1, 2**31, "the head of edge 2 is above 2147483647: 2147483648"),
        ]:
            wrong = numpy.array(rows, float)
            wrong[2, place] = value
            self.check(lambda it: chipfire.Graph(3, 2, it), wrong, None, outcome)
            if float(value).is_integer():
                self.check(lambda it: chipfire.Graph(3, 2, it), wrong.astype("i8"), None, outcome)
        for wrong in (numpy.zeros((2, 4), int), numpy.zeros((2, 1), int), numpy.zeros((2, 3, 1), int)):
            self.check(lambda it: chipfire.Graph(3, 2, it), wrong, None, "edge 0 is neither (tail, head) nor")
        self.check(lambda it: chipfire.Graph(3, 2, it), numpy.zeros(3, int), None, "edge 0 is neither (tail, head) nor")

    @unittest.skipUnless(numpy and pandas, "NumPy or pandas is not here")
    def test_tables_whose_names_are_whole_numbers_are_those_of_lists(self):
        draw = numpy.random.default_rng(4)
        for _ in range(60):
            source, target, weight = draw.integers([[-5], [-5], [1]], 9, (3, draw.integers(1, 20)))
            target = numpy.where(source == target, target + 20, target)
            table = {"source": source, "target": target, **({"weight": weight} if draw.random() < 0.5 else {})}
            sink, directed = draw.choice(target), bool(draw.random() < 0.5)
            wanted = chipfire.from_edges({name: it.tolist() for name, it in table.items()}, int(sink), directed=directed)
            for form in (table, pandas.DataFrame(table), {name: it.astype("i2") for name, it in table.items()}):
                found = chipfire.from_edges(form, sink, directed=directed)
                self.assertEqual((found, found.from_sink), (wanted, wanted.from_sink))
                self.assertEqual({*map(type, found.names)}, {int})
        far = {"source": numpy.array([2**63], "u8"), "target": numpy.array([-1])}
        self.assertEqual([*chipfire.from_edges(far, -1).names], [-1, 2**63])
        for sink in (2**70, 3, -2**70):
            with self.assertRaisesRegex(KeyError, f"the graph has no vertex {sink}"):
                chipfire.from_edges({"source": numpy.array([2, 4]), "target": numpy.array([4, 5])}, sink)
        for weight in (0, -1):
            with self.assertRaisesRegex(ValueError, "the edge from 1 to 2 is below 1"):
                chipfire.from_edges({**{it: numpy.array([at]) for at, it in enumerate(("source", "target"), 1)},
                                     "weight": numpy.array([weight])}, 2)

    @unittest.skipUnless(numpy and chipfire.find_library(), "NumPy or the library is not here")
    def test_squares_with_holes_and_a_sink_among_them(self):
        region, ring = chipfire.region([[1, 0, 1], [1, 1, 1]]), chipfire.torus(3, 3)
        for graph, rows in ((region, [[9, 0, 2], [1, 5, 3]]), (ring, [[4, 5, 6], [0, 1, 2], [7, 3, 2]])):
            wanted = chipfire.plain(graph, rows)
            for kind in ("i8", "u1", "f8"):
                self.check(lambda it: chipfire.plain(graph, it), numpy.array(rows, kind), wanted, None)
                found = chipfire.stabilize_many(graph, numpy.array([rows, rows], kind))
                self.assertEqual([*map(tuple, found)], [wanted.chips] * 2)
        self.check(lambda it: chipfire.plain(region, it), numpy.ones((2, 3), int), None, "on a square that is no vertex")

    @unittest.skipUnless(networkx, "NetworkX is not here")
    def test_edges_of_networkx_that_lead_both_ways_are_no_directed_ones(self):
        rows = [(networkx.Graph, 4), (networkx.MultiGraph, 4), (networkx.DiGraph, 2), (networkx.MultiDiGraph, 2)]
        for kind, edges in rows:
            graph = kind([(2, 1), (1, 0)])
            self.assertEqual(len(chipfire.Graph.undirected(graph.edges, 0).edges), 3)
            for view in (graph.edges, graph.edges(), graph.edges(data=True)):
                if graph.is_directed():
                    self.assertEqual(chipfire.Graph(3, 0, view).edges, ((2, 1, 1), (1, 0, 1)))
                else:
                    with self.assertRaisesRegex(TypeError, "lead both ways: see Graph.undirected"):
                        chipfire.Graph(3, 0, view)
        parallel = networkx.MultiGraph([(0, 1), (0, 1), (0, 1)])
        self.assertEqual(chipfire.order(chipfire.Graph.undirected(parallel.edges, 0)), 3)

    def test_each_form_of_sizes(self):
        wanted, some = chipfire.power_law([0, 1, 1, 4]), {"no dict", "no Counter", "no Configuration"}
        for given, outcome in values_in_order():
            if not any(it in outcome for it in some):  # (which are histograms)
                with self.subTest(type(given), outcome=outcome):
                    self.check(chipfire.power_law, given, wanted, outcome or None)
        self.assertEqual(chipfire.power_law(collections.Counter([0, 1, 1, 4])), wanted)
        if sparse:
            self.assertEqual(chipfire.power_law(sparse.csr_matrix([[0, 1], [1, 4]])), wanted)

    def test_each_form_of_masks_and_tables(self):
        mask, table = chipfire.region([[1, 1], [0, 1]]), chipfire.Graph.undirected([("a", "b"), ("b", "c")], "c")
        rows = [(masks, chipfire.region, mask), (tables, lambda it: chipfire.from_edges(it, "c"), table)]
        for some, call, wanted in rows:
            for given, outcome in some():
                with self.subTest(type(given), outcome=outcome):
                    self.check(call, given, wanted, outcome or None)
        for wrong in (None, {0: 1}, GRID, [(0, 1)], "file"):
            rows = [(chipfire.from_networkx, "a graph of NetworkX, and no "),
                    (chipfire.from_sage, "a graph of SageMath, and no ")]
            for maker, outcome in rows:
                self.check(lambda it: maker(it, 0), wrong, None, outcome + type(wrong).__name__)

    @unittest.skipUnless(numpy, "NumPy is not here")
    def test_vertices_and_sinks_of_numpy(self):
        for mask in (numpy.array([True, False]), numpy.ma.array([True, False])):
            for call in (lambda it: chipfire.drops(GRID, 0, it), lambda it: chipfire.avalanches(GRID, 0, it)):
                self.check(call, mask, None, "are one for each drop, and no mask")
        for name in ((numpy.array([0, 1]), numpy.array([0, 1])), numpy.array([1]), (numpy.array([0, 1]), 1)):
            self.check(lambda it: chipfire.avalanche(GRID, 0, it), name, None, "the graph has no vertex")
        edges = [(0, 1), (1, 2), (2, 3)]
        wanted = chipfire.Graph.undirected(edges, [0, 3])
        for sinks in (numpy.array([0, 3]), {0, 3}, frozenset({0, 3})):
            self.assertEqual(chipfire.Graph.undirected(edges, sinks), wanted)
        self.assertEqual(chipfire.Graph.undirected(edges, numpy.array(3)), chipfire.Graph.undirected(edges, 3))
        self.check(lambda it: chipfire.Graph.undirected(edges, it), {0: 1}, None,
            "a sink is the name of a vertex, or a list")

    @unittest.skipUnless(numpy and chipfire.find_library(), "NumPy or the library is not here")
    def test_many_configurations(self):
        rows = [[9, 1, 4, 1, 5, 2, 0], [1, 2, 3, 4, 5, 6, 0]]
        wanted = chipfire.stabilize_many(GRID, rows).tolist()
        same = [numpy.array(rows), numpy.array(rows, float), numpy.array(rows, ">i2"), numpy.asfortranarray(rows),
            iter(rows)]
        same += [numpy.array([row[:6] for row in rows]).reshape(2, 2, 3),
            numpy.ma.array(rows, mask=numpy.zeros((2, 7)))]
        same += [sparse.csr_matrix(rows)] if sparse else []
        for form in same:
            self.check(lambda it: chipfire.stabilize_many(GRID, it).tolist(), form, wanted, None)
        wrong = [(numpy.ma.array(rows, mask=numpy.eye(2, 7)), "chips in row 0 of vertex 0 is no whole number: None")]
        wrong += [(numpy.array(rows[0]), "and are no array of shape (7,)"), (numpy.array(3), "of shape ()"),
            (bytes(7), "and no bytes")]
        wrong += [({0: rows}, "and no dict"), ({(1, 2)}, "and no set")]
        wrong += [(pandas.DataFrame(rows), "and no DataFrame")] if pandas else []
        for call in (chipfire.stabilize_many, chipfire.are_recurrent):
            for form, outcome in wrong:
                self.check(lambda it: call(GRID, it), form, None, outcome)

    @unittest.skipUnless(numpy, "NumPy is not here")
    def test_divisors(self):
        numbers = [3, -1, 4, 1, 5, -2, 7]
        wanted, square = chipfire.Divisor(RING, numbers), chipfire.torus(3, 3)
        for form in (numpy.array(numbers), numpy.array(numbers, float), tuple(numbers), dict(enumerate(numbers)),
            wanted):
            self.check(lambda it: chipfire.Divisor(RING, it), form, wanted, None)
            self.check(lambda it: chipfire.Divisor(RING, 1).fire(0) + it, form, wanted + 1, None)
        self.assertEqual(chipfire.Divisor(RING, numpy.array(2)).numbers, (2,) * 7)
        # (the sink of a torus has a square, whose chips a divisor has)
        self.assertEqual(chipfire.Divisor(square, numpy.arange(9, 18).reshape(3, 3)).numbers, tuple(range(9, 18)))
        rows = [(numbers[:6], "a divisor has chips on the sink too, and there are 6 numbers"), ({3, 4}, "no set"),
                           (chipfire.Divisor(LINE, 1), "one of another graph"),
                           (networkx and networkx.Graph(), "no Graph")]
        for form, outcome in rows:
            if form is not None:
                self.check(lambda it: chipfire.Divisor(RING, it), form, None, outcome)


if __name__ == "__main__":
    unittest.main()
