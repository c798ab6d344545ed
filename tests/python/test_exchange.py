"""Graphs to NetworkX and SciPy and back, and from tables of edges."""
import importlib
import itertools
import unittest
from unittest import mock

import chipfire
from small_graphs import directed_graphs, simple_graphs, undirected
from test_sandpiles import has

TABLE = {"source": ["b", "a", "c"], "target": ["c", "b", "d"], "weight": [2, 1, 3]}


@unittest.skipUnless(has("networkx"), "NetworkX is not here")
class ToNetworkX(unittest.TestCase):
    def test_undirected_graphs_there_and_back(self):
        for (vertices, edges), sink in itertools.product(simple_graphs(), (0, -1)):
            graph = undirected(vertices, edges, sink % vertices)
            found = chipfire.to_networkx(graph)
            self.assertEqual((list(found), found.graph), ([*range(vertices)], {"sink": graph.sink}))
            self.assertFalse(found.is_directed() or found.is_multigraph())
            self.assertEqual(sorted(tuple(sorted(it)) for it in found.edges()), sorted(edges))
            self.assertTrue(chipfire.from_networkx(found, found.graph["sink"]).is_like(graph))

    def test_directed_graphs_there_and_back(self):
        for graph in directed_graphs():
            found = chipfire.to_networkx(graph)
            both = {(tail, head): mult for tail, head, mult in graph.edges}
            self.assertEqual({(u, v): mult for u, v, mult in found.edges(data="weight")}, both)
            self.assertEqual(found.is_directed(), bool(both))
            self.assertTrue(chipfire.from_networkx(found, found.graph["sink"]).is_like(graph))

    def test_multiplicities_names_and_the_edges_of_the_sink(self):
        graph = chipfire.Graph.undirected([("a", "out", 2), ("a", "out"), ("a", "b")], "out")
        found = chipfire.to_networkx(graph)
        self.assertEqual((found["a"]["out"]["weight"], found["a"]["b"]["weight"], found.graph["sink"]), (3, 1, "out"))
        self.assertEqual(chipfire.laplacian(chipfire.from_networkx(found, "out")), chipfire.laplacian(graph))
        one_way = chipfire.Graph(3, 2, [(0, 1), (1, 2, 2)], ["a", "b", "out"], from_sink=[(0, 4)])
        found = chipfire.to_networkx(one_way)
        self.assertEqual(found["out"]["a"]["weight"], 4)
        self.assertEqual(chipfire.laplacian(chipfire.from_networkx(found, "out")), [[1, -1, 0], [0, 2, -2], [-4, 0, 4]])


class ToSciPy(unittest.TestCase):
    @unittest.skipUnless(has("scipy") and has("numpy"), "SciPy is not here")
    def test_the_laplacian_in_coordinates(self):
        for graph in [chipfire.grid(3, 2), chipfire.complete(5), *directed_graphs()]:
            found = chipfire.to_scipy(graph)
            self.assertEqual((found.format, found.toarray().tolist()), ("coo", chipfire.laplacian(graph)))

    def test_what_is_not_installed(self):
        for word, name in [(chipfire.to_networkx, "networkx"), (chipfire.to_scipy, "scipy.sparse")]:
            with mock.patch.dict("sys.modules", {name: None}), self.assertRaisesRegex(ImportError, "is not installed"):
                word(chipfire.cycle(3))


class FromEdges(unittest.TestCase):
    def test_a_dict_of_columns(self):
        graph = chipfire.from_edges(TABLE, "d")
        self.assertEqual(graph, chipfire.Graph.undirected([("b", "c", 2), ("a", "b"), ("c", "d", 3)], "d"))
        self.assertEqual(graph.names, ("a", "b", "c", "d"))
        one_way = chipfire.from_edges(TABLE, "d", directed=True)
        self.assertEqual(sorted(one_way.edges), [(0, 1, 1), (1, 2, 2), (2, 3, 3)])
        other = chipfire.from_edges({"u": (1, 2), "v": (2, 0), "many": (5, 1)}, 0, "u", "v", "many")
        self.assertEqual(sorted(other.edges), [(1, 2, 5), (2, 0, 1), (2, 1, 5)])
        for weight in (None, "none"):
            self.assertEqual({mult for _, _, mult in chipfire.from_edges(TABLE, "d", weight=weight).edges}, {1})

    @unittest.skipUnless(has("pandas"), "pandas is not here")
    def test_a_frame_of_pandas(self):
        frame = importlib.import_module("pandas").DataFrame(TABLE)
        self.assertEqual(chipfire.from_edges(frame, "d"), chipfire.from_edges(TABLE, "d"))
        alone = chipfire.from_edges(frame.drop(columns="weight"), "d")
        self.assertEqual(alone, chipfire.from_edges(TABLE, "d", weight=None))
        numbers = importlib.import_module("pandas").DataFrame({"source": [0, 1], "target": [1, 2]})
        self.assertEqual([type(it) for it in chipfire.from_edges(numbers, 2).names], [int] * 3)

    def test_what_is_refused(self):
        for table, refusal, says in [
            ({"source": [0]}, KeyError, "target"), ({"source": [0, 1], "target": [1]}, ValueError, "have 2 and 1 rows"),
            ({"source": [0], "target": [1], "weight": [0.5]}, TypeError, "from 0 to 1 is no whole number"),
            ({"source": [0], "target": [2]}, KeyError, "no vertex 1"),
        ]:
            with self.assertRaisesRegex(refusal, says):
                chipfire.from_edges(table, 1)


if __name__ == "__main__":
    unittest.main()
