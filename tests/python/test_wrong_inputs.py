"""What Python says of wrong inputs: each sentence names the place, which is a vertex, an edge, a row or an argument."""
import unittest

import chipfire
from chipfire import Graph, Pile, Setting, drops, explain, plain, resume, verify
from test_package import TRIANGLE

GRID = chipfire.grid(3, 2)
TURNED = chipfire.grid(2, 3)
ABC = [("a", "b"), ("b", "c")]
LACKING = {"source": ["a", "b"], "target": ["b", float("nan")]}
NO_EDGE = "is neither (tail, head) nor (tail, head, mult): "

GRAPHS = [
    (lambda: Graph("3", 0, []), TypeError, "the number of vertices is no whole number: '3'"),
    (lambda: Graph(3, -1, []), ValueError, "the sink is below 0: -1"),
    (lambda: Graph(3, 0, [1, 2]), ValueError, f"edge 0 {NO_EDGE}1"),
    (lambda: Graph(3, 0, {(1, 0): 2}), TypeError, "edges are rows (tail, head, mult), and this is a dict"),
    (lambda: Graph.undirected({("a", "b"): 2}, "b"), TypeError, "edges are rows (tail, head, mult), and this is a dict"),
    (lambda: Graph(3, 0, [(1, 2), (2,)]), ValueError, f"edge 1 {NO_EDGE}(2,)"),
    (lambda: Graph(3, 0, [(1, 2, 1, 5)]), ValueError, f"edge 0 {NO_EDGE}(1, 2, 1, 5)"),
    (lambda: Graph(3, 0, [(1, 2), ("2", 0)]), TypeError, "the tail of edge 1 is no whole number: '2'"),
    (lambda: Graph(3, 0, [(1, 2), (2, -1)]), ValueError, "the head of edge 1 is below 0: -1"),
    (lambda: Graph(3, 0, [(1, 2, 0.5)]), TypeError, "the multiplicity of edge 0 is no whole number: 0.5"),
    (lambda: Graph(3, 0, [], ["a", "b"]), ValueError, "there are 2 names, and the graph has 3 vertices"),
    (lambda: Graph(3, 0, [], ["a", "b", "b"]), ValueError, "two vertices are called 'b'"),
    (lambda: Graph.undirected([("a", "b", 1, 2)], "b"), ValueError, f"edge 0 {NO_EDGE}('a', 'b', 1, 2)"),
    (lambda: Graph.undirected([*ABC, ("c",)], "b"), ValueError, f"edge 2 {NO_EDGE}('c',)"),
    (lambda: Graph.undirected([("a", "b", 0)], "b"), ValueError, "the edge from 'a' to 'b' is below 1: 0"),
    (lambda: Graph.undirected(ABC, "d"), KeyError, "the graph has no vertex 'd'"),
    (lambda: Graph.undirected(ABC, ["a", "d"]), KeyError, "the graph has no vertex 'd'"),
    (lambda: Graph.undirected(ABC, []), ValueError, "the list of sinks is empty"),
    (lambda: Graph.undirected([*ABC, ("c", "sink")], ["a", "b"]), ValueError, "none of the sinks is called 'sink'"),
    (lambda: chipfire.from_edges(ABC, "b"), TypeError, "a DataFrame or a dict of columns, and no list; see Graph.und"),
    (lambda: chipfire.grid(0, 3), ValueError, "the width is below 1: 0"),
    (lambda: chipfire.grid(3, 2.5), TypeError, "the height is no whole number: 2.5"),
    (lambda: chipfire.region([[1, 1], [1]]), ValueError, "a mask has rows of one length"),
    (lambda: chipfire.region(["101", "111"]), TypeError, "true and false, and is not ['1', '0', '1']"),
    (lambda: chipfire.region([[1, 1], [".", "#"]]), TypeError, "true and false, and is not ['.', '#']"),
    (lambda: chipfire.region([[1, float("nan")]]), TypeError, "true and false, and is not [1, nan]"),
    (lambda: chipfire.grid(3, 3, periodic=("no", "no")), TypeError, "periodic or not, True or False, and not 'no'"),
    (lambda: chipfire.grid(3, 3, loss={9: 1}), ValueError, "the sink loses no chips, and 1 are said"),
    (lambda: chipfire.region([1, 1]), TypeError, "a row of a mask has true and false, and is not ['1']"),
    (lambda: chipfire.region(None), TypeError, "a row of a mask has true and false, and is not ['None']"),
    (lambda: Graph(3, 0, None), TypeError, "edges are rows (tail, head, mult), and this is a NoneType"),
    (lambda: Graph.undirected(None, 0), TypeError, "edges are rows (tail, head, mult), and this is a NoneType"),
    (lambda: chipfire.from_edges(None, 0), TypeError, "a table of edges is a DataFrame or a dict of columns"),
    (lambda: chipfire.from_edges(LACKING, "a"), ValueError, "an edge of the table lacks an end, which is nan there"),
    (lambda: chipfire.grid(2**20, 2**20), ValueError, "the number of squares is above 2097151: 1099511627776"),
    (lambda: chipfire.grid(2**21, 1, loss=1), ValueError, "the number of squares is above 2097151: 2097152"),
    (lambda: chipfire.torus(2**20, 3), ValueError, "the number of squares is above 2097152: 3145728"),
    (lambda: chipfire.path(2**40), ValueError, "the length of a path is above 2097151: 1099511627776"),
    (lambda: chipfire.cycle(2**40), ValueError, "the length of a cycle is above 2097152: 1099511627776"),
    (lambda: chipfire.wheel(2**40), ValueError, "the number of vertices of a wheel is above 2097152: 1099511627776"),
    (lambda: chipfire.complete(2898), ValueError, "the number of vertices is above 2897: 2898"),
]
NO_GRAPHS = [
    ((3, 5, [(1, 0)]), "the sink is 5, and there are 3 vertices"),
    ((3, 0, [(1, 0), (2, 7)]), "edge 1 leads from 2 to 7, and there are 3 vertices"),
    ((3, 0, [(1, 0), (2, 1, 0)]), "edge 1 from 2 to 1 sends 0 chips, and 1 to 1048576 can be sent"),
    ((3, 0, [(1, 0, 2**20 + 1)]), "edge 0 from 1 to 0 sends 1048577 chips, and 1 to 1048576 can be sent"),
    ((3, 0, [(1, 0), (2, 2)], ["s", "a", "b"]), "edge 1 from 'b' to 'b' is a loop"),
    ((3, 0, [(0, 1), (1, 0)], ["s", "a", "b"]), "edge 0 from 's' to 'a' leaves the sink"),
    ((3, 0, [(1, 2), (2, 1)], ["s", "a", "b"]), "no walk leads to the sink from 2 of the vertices: 'a', 'b'"),
]
CHIPS = [
    ({1, 2}, TypeError, "chips are a dict by names, or numbers in an order, and no set: {1, 2}"),
    ({9: 1}, KeyError, "the graph has no vertex 9"),
    ({(1, 3): 1}, KeyError, "the graph has no vertex (1, 3): a square of it is (row, column), below (2, 3)"),
    ({2: -3}, ValueError, "the number of chips of vertex 2 is below 0: -3"),
    ({2: 0.5}, TypeError, "the number of chips of vertex 2 is no whole number: 0.5"),
    (["4"] * 6, TypeError, "the number of chips of vertex 0 is no whole number: '4'"),
    (None, TypeError, "the number of chips of vertex 0 is no whole number: None"),
    ([1] * 5, ValueError, "there are chips for 5 vertices, and the graph has 7"),
    ([1] * 8, ValueError, "there are chips for 8 vertices, and the graph has 7"),
    ([[1, 1], [1, 1], [1, 1]], ValueError, "the chips stand in 3 rows of 2, and the graph has shape (2, 3)"),
    (TURNED.max_stable(), ValueError, "the configuration is one of another graph"),
    (chipfire.Report((0,) * 7, (0,) * 7, graph=TURNED), ValueError, "the report is one of another graph"),
]
CALLS = [
    (lambda: plain(Graph(0, 0, []), []), chipfire.Fault, "the sink is 0, and there are 0 vertices"),
    (lambda: verify(Graph(0, 0, []), [], []), chipfire.Fault, "the sink is 0, and there are 0 vertices"),
    (lambda: plain(3, {}), TypeError, "a graph is a chipfire.Graph or the name of a file, and not of int"),
    (lambda: plain(GRID, {}, limit=-1), ValueError, "limit is below 0: -1"),
    (lambda: plain(GRID, {}, guess={5: -1}), ValueError, "the number of firings of vertex 5 is below 0: -1"),
    (lambda: plain(GRID, {}, guess=[1]), ValueError, "there are firings for 1 vertices, and the graph has 7"),
    (lambda: verify(GRID, {}, [[1]]), ValueError, "the firings stand in 1 rows of 1, and the graph has shape (2, 3)"),
    (lambda: resume(GRID, {5: 9}), TypeError, "a report is a chipfire.Report or the name of a file, and not of dict"),
    (lambda: drops(GRID, {}, [0, 7]), KeyError, "the graph has no vertex 7"),
    (lambda: drops(GRID, {}, [[1, 1]]), KeyError, "the graph has no vertex [1, 1]"),
    (lambda: drops(GRID, {}, 3), TypeError, "the vertices of drops are one for each drop, and not 3"),
    (lambda: drops(GRID, {}, [0], amounts=2), TypeError, "the amounts of drops are one for each drop, and not 2"),
    (lambda: Pile(GRID).drop(7), KeyError, "the graph has no vertex 7"),
    (lambda: Pile(GRID).drop(0, 0.5), TypeError, "the number of chips is no whole number: 0.5"),
    (lambda: Pile(GRID, limit=-1), ValueError, "limit is below 0: -1"),
    (lambda: Pile(GRID, TURNED.max_stable()), ValueError, "the configuration is one of another graph"),
    (lambda: drops(GRID, TURNED.max_stable(), [0]), ValueError, "the configuration is one of another graph"),
    (lambda: chipfire.avalanches(GRID, 3, 4), TypeError, "the vertices of avalanches are one for each drop, and not 4"),
    (lambda: chipfire.avalanche(GRID, 3, [1, 1]), KeyError, "the graph has no vertex [1, 1]"),
    (lambda: GRID.position_after(3, [1] * 5), ValueError, "there are firings for 5 vertices, and the graph has 7"),
    (lambda: chipfire.stabilize_many(GRID, None), TypeError, "configurations are rows of an array, or stand in a list"),
    (lambda: chipfire.inverse(GRID, [1] * 5), ValueError, "there are chips for 5 vertices, and the graph has 7"),
    (lambda: chipfire.inverse(GRID, TURNED.max_stable()), ValueError, "the configuration is one of another graph"),
    (lambda: chipfire.are_recurrent(GRID, 5), TypeError, "stand in a list, and are no int"),
    (lambda: chipfire.Group(GRID).element(None), TypeError, "coordinates stand in a list, and not None"),
    (lambda: chipfire.power_law(None), TypeError, "sizes come one by one, or as a histogram, and not None"),
    (lambda: chipfire.power_law([1, 2, 10**12]), ValueError, "the greatest size is above 10000000: 1000000000000"),
    (lambda: chipfire.power_law([3, 4], 3, 10**9), ValueError, "the greatest size is above 10000002: 1000000000"),
    (lambda: chipfire.chains(GRID, 2, 9, 1, collect="histogram", until="loss"), ValueError,
     "a histogram goes with none of fired, until and checkpoint"),
    (lambda: explain(999), chipfire.Fault, "it does not take the word `999`"),
    (lambda: Setting({0: 4}, TRIANGLE), TypeError, "the graph of a setting is a chipfire.Graph, and not of dict"),
    (lambda: Setting(TRIANGLE, {7: 4}), KeyError, "the graph has no vertex 7"),
    (lambda: Setting(TRIANGLE, (4,)), ValueError, "there are chips for 1 vertices, and the graph has 3"),
    (lambda: Setting(TRIANGLE, (4, 0, 0, 0)), ValueError, "there are chips for 4 vertices, and the graph has 3"),
    (lambda: Setting(TRIANGLE, (-1, 0, 0)), ValueError, "the number of chips of vertex 0 is below 0: -1"),
    (lambda: Setting(TRIANGLE, (4, 0, 0), ring=0), ValueError, "ring is below 1: 0"),
    (lambda: Setting(TRIANGLE, (4, 0, 0), limit=-1), ValueError, "limit is below 0: -1"),
]


class WrongInputs(unittest.TestCase):
    def check(self, call, refusal, said):
        with self.subTest(said), self.assertRaises(refusal) as caught:
            call()
        self.assertIn(said, str(caught.exception))

    def test_graphs_and_calls(self):
        for call, refusal, said in GRAPHS + CALLS:
            self.check(call, refusal, said)

    def test_what_is_no_graph_is_reported_with_and_without_the_program(self):
        for arguments, said in NO_GRAPHS:
            graph = Graph(*arguments)
            self.check(lambda: chipfire.check(graph), chipfire.Fault, said)
            self.check(lambda: chipfire.order(graph), ValueError, said)
            # (the library is asked first, if it is there)
            self.assertEqual((graph.wrong, graph.why_refused), (said, said))
        self.assertEqual((GRID.wrong, GRID.why_refused), ("", ""))

    def test_chips(self):
        for chips, refusal, said in CHIPS:
            for call in (GRID.chips, lambda it: plain(GRID, it), lambda it: Setting(GRID, it)):
                self.check(lambda: call(chips), refusal, said)

    def test_what_is_right(self):
        self.assertEqual(Setting(TRIANGLE, {0: 4}), Setting(TRIANGLE, (4, 0, 0)))
        self.assertEqual(Setting(TRIANGLE, [4, 0]).chips, (4, 0, 0))


if __name__ == "__main__":
    unittest.main()
