"""Sandpiles as others have them: SageMath's results, stored in sage_cases.json, and graphs of NetworkX and Sage."""
import collections
import importlib.util
import json
import os
import random
import unittest

import chipfire

HERE = os.path.dirname(os.path.realpath(__file__))


def has(module):
    return importlib.util.find_spec(module) is not None


def name_of(value):
    return tuple(value) if isinstance(value, list) else value


class Case:
    """A sandpile with what Sage says of it."""

    def __init__(self, stored):
        self.how, self.stored = stored["how"], stored
        self.sink = name_of(stored["sink"])
        self.names = [name_of(name) for name in stored["names"]]
        self.edges = [(name_of(tail), name_of(head), mult) for tail, head, mult in stored["edges"]]
        numbers = {name: vertex for vertex, name in enumerate([*self.names, self.sink])}
        rows = [(numbers[tail], numbers[head], mult) for tail, head, mult in self.edges if tail != head]
        loops = [sum(mult for tail, head, mult in self.edges if tail == head == name) for name in numbers]
        self.graph = chipfire.Graph(len(numbers), numbers[self.sink], rows, tuple(numbers), loops=loops)

    def named(self, numbers):
        return dict(zip(self.names, numbers))


with open(f"{HERE}/sage_cases.json", encoding="ascii") as stored_file:
    STORED = json.load(stored_file)
CASES = [Case(stored) for stored in STORED["cases"]]


class Sage(unittest.TestCase):
    def test_stabilizations_and_firing_vectors(self):
        for case in CASES:
            for play in case.stored["plays"]:
                with self.subTest(case.how):
                    report = chipfire.plain(case.graph, case.named(play["chips"]))
                    self.assertEqual(report.configuration, case.named(play["stable"]))
                    self.assertEqual(report.odometer, case.named(play["fired"]))

    def test_identities(self):
        for case in CASES:
            with self.subTest(case.how):
                self.assertEqual(chipfire.identity(case.graph), case.named(case.stored["identity"]))

    def test_maximal_stable_configurations(self):
        for case in CASES:
            with self.subTest(case.how):
                self.assertEqual(case.graph.max_stable(), case.named(case.stored["max_stable"]))

    def test_our_families_are_those_of_sage(self):
        families = {
            "sandpiles.Grid(2, 3)": chipfire.grid(3, 2),
            "sandpiles.Grid(5, 4)": chipfire.grid(4, 5),
            "sandpiles.Grid(20, 20)": chipfire.grid(20, 20),
            "sandpiles.Cycle(7)": chipfire.cycle(7),
            "sandpiles.Complete(4)": chipfire.complete(4),
            "sandpiles.Complete(9)": chipfire.complete(9),
            "graphs.ToroidalGrid2dGraph(4, 5), (0, 0)": chipfire.torus(5, 4),
        }
        for case in CASES:
            ours = families.pop(case.how, None)
            if ours is not None:
                with self.subTest(case.how):
                    # Sage names the vertices of grids by row and column; in the order of names they are ours.
                    inner = dict(zip(sorted(case.names), (v for v in range(ours.vertices) if v != ours.sink)))
                    numbers = {**inner, case.sink: ours.sink}
                    edges = [(numbers[tail], numbers[head], mult) for tail, head, mult in case.edges]
                    self.assertEqual(collections.Counter(ours.edges), collections.Counter(edges))
        self.assertEqual(families, {})


class Series:
    """What a Series of pandas has: values and their labels, in an order of its own."""

    def __init__(self, values, index):
        self.values, self.index = values, index

    def items(self):
        return zip(self.index, self.values)

    def __len__(self):
        return len(self.values)

    def __iter__(self):
        return iter(self.values)


class Pandas(unittest.TestCase):
    def test_a_series_goes_by_its_labels(self):
        graph = chipfire.Graph(3, 0, [(1, 0), (2, 0)], ["out", 1, "b"])
        for series in [Series, importlib.import_module("pandas").Series] if has("pandas") else [Series]:
            self.assertEqual(graph.chips(series([7, 0, 5], index=["b", "out", 1])), (0, 5, 7))
            self.assertEqual(graph.chips(series([7], index=["b"])), (0, 0, 7))
            self.assertEqual(chipfire.plain(graph, series([7, 0, 5], index=["b", "out", 1])).fired, (0, 5, 7))
            for labels, refusal in [([0, 1], KeyError), ([float("nan"), 1], KeyError), ([1, 1], ValueError)]:
                with self.subTest(labels=labels), self.assertRaises(refusal):
                    graph.chips(series([7, 5], index=labels))

    @unittest.skipUnless(has("pandas"), "pandas is not here")
    def test_series_and_frames_of_what_comes_go_by_names(self):
        pandas = importlib.import_module("pandas")
        graph = chipfire.Graph(3, 0, [(1, 0), (2, 0)], ["out", 1, "b"])
        report = chipfire.plain(graph, {"b": 7, 1: 2})
        self.assertEqual(pandas.Series(report.odometer).to_dict(), {1: 2, "b": 7})
        frame = pandas.DataFrame({"chips": dict(report.configuration), "fired": dict(report.odometer)})
        self.assertEqual(frame.to_dict(), {"chips": {1: 0, "b": 0}, "fired": {1: 2, "b": 7}})
        self.assertEqual(graph.chips(frame["fired"]), (0, 2, 7))


@unittest.skipUnless(has("networkx"), "NetworkX is not here")
class NetworkX(unittest.TestCase):
    def test_an_undirected_graph_has_an_edge_each_way(self):
        import networkx

        case = next(it for it in CASES if it.how == "sandpiles.Complete(4)")
        graph = chipfire.from_networkx(networkx.complete_graph(4), 0)
        self.assertEqual(sorted(graph.edges), sorted(case.edges))
        self.assertEqual(chipfire.identity(graph), case.named(case.stored["identity"]))

    def test_a_directed_multigraph_keeps_its_edges_and_multiplicities(self):
        import networkx

        drawn = networkx.MultiDiGraph()
        drawn.add_edge("a", "b", weight=3)
        drawn.add_edge("a", "b")
        drawn.add_edge("b", "a")
        graph = chipfire.from_networkx(drawn, "b")
        self.assertEqual((graph.names, graph.sink, graph.edges), (("a", "b"), 1, ((0, 1, 3), (0, 1, 1))))
        # four chips cross at each firing, so of nine two firings' worth do
        self.assertEqual(chipfire.plain(graph, {"a": 9}).chips, (1, 8))

    def test_the_weight_of_an_edge_is_the_attribute_that_is_named(self):
        import networkx

        drawn = networkx.cycle_graph(3)
        networkx.set_edge_attributes(drawn, {edge: {"weight": 5, "capacity": 2} for edge in [(0, 1), (1, 2)]})
        for weight, mults in [("weight", [5, 1]), ("capacity", [2, 1]), ("none", [1]), (None, [1])]:
            graph = chipfire.from_networkx(drawn, 0, weight=weight)
            self.assertEqual({mult for _, _, mult in graph.edges}, set(mults))
        self.assertEqual(chipfire.order(chipfire.from_networkx(drawn, 0)), 5 * 5 + 5 * 1 + 5 * 1)

    def test_a_weight_is_a_whole_number_above_0(self):
        import networkx

        for weight, refusal in [(0, ValueError), (-1, ValueError), (2.5, TypeError), (None, TypeError)]:
            drawn = networkx.Graph()
            drawn.add_edge("a", "b", weight=weight)
            with self.assertRaisesRegex(refusal, "the edge from 'a' to 'b'"):
                chipfire.from_networkx(drawn, "a")

    def test_laplacians_have_degrees_and_edges(self):
        import networkx

        for drawn in (networkx.path_graph(5), networkx.petersen_graph(), networkx.gnm_random_graph(9, 20, seed=3)):
            wanted = [[drawn.degree(u) if u == v else -drawn.number_of_edges(u, v) for v in drawn] for u in drawn]
            for sink in (0, 3):
                self.assertEqual(chipfire.laplacian(chipfire.from_networkx(drawn, sink)), wanted)
        drawn = networkx.DiGraph([("a", "b"), ("b", "c"), ("c", "a")])
        found = chipfire.laplacian(chipfire.from_networkx(drawn, "c"))
        self.assertEqual(found, [[1, -1, 0], [0, 1, -1], [-1, 0, 1]])

    def test_a_sink_that_is_no_vertex(self):
        import networkx

        with self.assertRaises(KeyError):
            chipfire.from_networkx(networkx.path_graph(3), "elsewhere")


class Labelled:
    """What a graph of SageMath has: vertices, which come in any order, and edges with labels."""

    def __init__(self, vertices, edges, directed=True):
        self.vertices, self.edges, self.directed = vertices, edges, directed

    def vertex_iterator(self):
        return iter(self.vertices)

    def edge_iterator(self, labels=False):
        return iter(self.edges if labels else [edge[:2] for edge in self.edges])

    def is_directed(self):
        return self.directed


class Sunk(Labelled):
    """What a sandpile of SageMath has besides."""

    def sink(self):
        return self.vertices[-1]

    def nonsink_vertices(self):
        return self.vertices[:-1]


class LikeSage(unittest.TestCase):
    """Graphs with the methods of those of SageMath, which need not be here."""

    def test_vertices_have_the_order_that_sage_gives_them(self):
        for case in CASES:
            mixed = random.Random(1).sample(case.names, len(case.names))
            graph = chipfire.from_sage(Sunk([*mixed, case.sink], case.edges), loops="sage")
            with self.subTest(case.how):
                self.assertEqual([name for name in graph.names if name != case.sink], case.names)
                self.assertEqual(list(graph.names), sorted(graph.names))
                for play in case.stored["plays"]:
                    self.assertEqual(list(chipfire.stabilize(graph, play["chips"]).values()), play["stable"])
        self.assertEqual(chipfire.from_sage(Labelled(["b", 1], [("b", 1, 2)]), 1).names, ("b", 1))

    def test_the_laplacian_is_that_of_sage(self):
        # (worked by hand: Sage's has a row for the sink, too)
        directed = chipfire.from_sage(Sunk(["a", "b", "out"], self.EDGES))
        self.assertEqual(chipfire.laplacian(directed), [[3, -3, 0], [-1, 3, -2], [-1, 0, 1]])
        path = chipfire.from_sage(Labelled([0, 1, 2], [(0, 1, None), (1, 2, 4)], directed=False), 1)
        self.assertEqual(chipfire.laplacian(path), [[1, -1, 0], [-1, 5, -4], [0, -4, 4]])
        self.assertEqual(chipfire.reduced_laplacian(path), [[1, 0], [0, 4]])

    EDGES = [("a", "b", 3), ("b", "a", None), ("b", "out", 2), ("out", "a", 1), ("a", "out", 0)]

    def test_labels_are_multiplicities_and_those_of_0_are_no_edges(self):
        wanted = (("a", "b", "out"), 2, ((0, 1, 3), (1, 0, 1), (1, 2, 2)))
        for graph in (chipfire.from_sage(Sunk(["a", "b", "out"], self.EDGES)),
                      chipfire.from_sage(Labelled(["a", "b", "out"], self.EDGES), "out")):
            self.assertEqual((graph.names, graph.sink, graph.edges), wanted)

    def test_an_undirected_graph_has_an_edge_each_way_but_none_out_of_the_sink(self):
        drawn = Labelled([0, 1, 2], [(0, 1, None), (1, 2, 4)], directed=False)
        self.assertEqual(sorted(chipfire.from_sage(drawn, 2).edges), [(0, 1, 1), (1, 0, 1), (1, 2, 4)])
        with self.assertRaisesRegex(ValueError, "which vertex is the sink"):
            chipfire.from_sage(drawn)
        with self.assertRaises(KeyError):
            chipfire.from_sage(drawn, 3)


@unittest.skipUnless(has("sage"), "SageMath is not here")
class FromSage(unittest.TestCase):
    def test_a_sandpile_keeps_its_sink_and_names(self):
        from sage.all import sandpiles

        for sandpile in (sandpiles.Grid(4, 3), sandpiles.House(), sandpiles.Complete(5)):
            graph = chipfire.from_sage(sandpile)
            self.assertEqual(chipfire.identity(graph), sandpile.identity())
            stable, fired = (2 * sandpile.max_stable()).stabilize(True)
            report = chipfire.plain(graph, 2 * sandpile.max_stable())
            self.assertEqual((report.configuration, report.odometer), (stable, fired))

    def test_a_graph_wants_a_sink(self):
        from sage.all import DiGraph, graphs

        with self.assertRaises(ValueError):
            chipfire.from_sage(graphs.HouseGraph())
        self.assertEqual(len(chipfire.from_sage(graphs.HouseGraph(), 0).edges), 10)
        drawn = chipfire.from_sage(DiGraph({"a": {"b": 3}}), "b")
        self.assertEqual((drawn.vertices, [mult for _, _, mult in drawn.edges]), (2, [3]))

    def test_edges_of_label_0_that_sage_adds_are_left_out(self):
        from sage.all import DiGraph, Sandpile

        sandpile = Sandpile(DiGraph({0: {}, 1: {0: 1}, 2: {1: 3}}, weighted=True), 0)
        self.assertEqual(sorted(chipfire.from_sage(sandpile).edges), [(1, 0, 1), (2, 1, 3)])


if __name__ == "__main__":
    unittest.main()
