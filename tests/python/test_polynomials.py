"""Polynomials of all small graphs, against sums over all sets of edges and plays worked out slowly, and by hand."""
import collections
import itertools
import math
import unittest
from unittest import mock

import chipfire
import model
import ways
from small_graphs import directed_graphs, graphs_of_sage, simple_graphs, undirected
from test_sandpiles import has


def parts(vertices, edges):
    """How many connected parts a graph has."""
    of = list(range(vertices))
    for u, v in edges:
        of = [of[u] if it == of[v] else it for it in of]
    return len(set(of))


def tutte(vertices, edges):
    """The Tutte polynomial by its sum over all sets of edges."""
    found = collections.Counter()
    for size in range(len(edges) + 1):
        for some in itertools.combinations(edges, size):
            a = parts(vertices, some) - 1
            b = size - vertices + a + 1
            for i, j in itertools.product(range(a + 1), range(b + 1)):
                found[i, j] += math.comb(a, i) * math.comb(b, j) * (-1) ** (a - i + b - j)
    return {power: count for power, count in found.items() if count}


def levels(graph):
    """How many recurrent configurations have each number of chips more than the least."""
    degrees = collections.Counter(map(sum, model.recurrents(graph)))
    return {degree - min(degrees): count for degree, count in degrees.items()}


def odometers(graph):
    """How many avalanches of one chip on a recurrent configuration have each odometer."""
    found, inner = collections.Counter(), [it for it in range(graph.vertices) if it != graph.sink]
    for chips, vertex in itertools.product(model.recurrents(graph), inner):
        _, fired = model.stabilized(graph, [count + (at == vertex) for at, count in enumerate(chips)])
        found[tuple(fired[it] for it in inner)] += 1
    return found


@ways.once
class Tutte(unittest.TestCase):
    def test_sums_over_all_sets_of_edges(self):
        for vertices, edges in simple_graphs():
            for sink in {0, vertices - 1}:
                found = chipfire.tutte_polynomial(undirected(vertices, edges, sink))
                self.assertEqual(found, tutte(vertices, edges), edges)
        # (multiple edges are edges one by one)
        graph = chipfire.Graph.undirected([(0, 1, 2), (1, 2, 3), (0, 2), (2, 3, 2)], 2)
        edges = [(0, 1)] * 2 + [(1, 2)] * 3 + [(0, 2)] + [(2, 3)] * 2
        self.assertEqual(chipfire.tutte_polynomial(graph), tutte(4, edges))

    def test_trees_cycles_and_complete_graphs_by_hand(self):
        tree = chipfire.Graph.undirected([(0, 1), (1, 2), (1, 3), (3, 4)], 3)
        self.assertEqual(chipfire.tutte_polynomial(tree), {(4, 0): 1})
        self.assertEqual(chipfire.level_polynomial(tree), {0: 1})
        ring = {(0, 1): 1, **{(power, 0): 1 for power in range(1, 7)}}
        self.assertEqual(chipfire.tutte_polynomial(chipfire.cycle(7)), ring)
        self.assertEqual(chipfire.level_polynomial(chipfire.cycle(7)), {0: 6, 1: 1})
        # (x^3 + 3x^2 + 2x + 4xy + 2y + 3y^2 + y^3)
        four = {(3, 0): 1, (2, 0): 3, (1, 0): 2, (1, 1): 4, (0, 1): 2, (0, 2): 3, (0, 3): 1}
        self.assertEqual(chipfire.tutte_polynomial(chipfire.complete(4)), four)
        self.assertEqual(chipfire.level_polynomial(chipfire.complete(4)), {0: 6, 1: 6, 2: 3, 3: 1})

    def test_polynomials_of_sage(self):
        for stored, graph in graphs_of_sage():
            found = [[*powers, count] for powers, count in chipfire.tutte_polynomial(graph).items()]
            # (that of Sage takes edges once)
            if {mult for _, _, mult in graph.edges} == {1}:
                self.assertEqual(found, stored["tutte"], stored["how"])

    def test_values_that_count_trees_and_sets(self):
        for graph, edges in [(chipfire.grid(3, 2), 7 + 10), (chipfire.wheel(8), 14), (chipfire.complete(6), 15)]:
            found = chipfire.tutte_polynomial(graph)
            self.assertEqual(sum(found.values()), chipfire.order(graph))
            self.assertEqual(sum(count * 2 ** sum(power) for power, count in found.items()), 2**edges)
            self.assertEqual(sum(chipfire.level_polynomial(graph).values()), chipfire.order(graph))

    def test_as_many_smaller_graphs_as_are_taken_are_enough(self):
        # (by hand: the complete graph of 4 leaves the triangle, that with one double edge, and that with two)
        four = chipfire.complete(4)
        self.assertEqual(chipfire.tutte_polynomial(four, most=3), chipfire.tutte_polynomial(four))
        with self.assertRaises(ValueError):
            chipfire.tutte_polynomial(four, most=2)

    def test_a_graph_that_is_too_large_is_refused_before_terms_are_multiplied(self):
        with mock.patch("chipfire.divisors.polynomials._add", side_effect=AssertionError):
            with self.assertRaisesRegex(ValueError, "smaller graphs come out, and 2,000 at most are visited"):
                chipfire.tutte_polynomial(chipfire.grid(6, 6), most=2000)

    def test_progress_rises_to_its_end(self):
        # (of a tree one graph comes out, each time that a vertex is taken out)
        for word in (chipfire.tutte_polynomial, chipfire.level_polynomial):
            reports = []
            tree = undirected(4, [(0, 1), (1, 2), (2, 3)])
            word(tree, progress=lambda done, all_: reports.append((done, all_)))
            self.assertEqual((reports[0], reports[-1], reports), ((1, 3), (3, 3), sorted(reports)))

    def test_a_call_after_an_interrupt_goes_on(self):
        def stop(done, _):
            reports.append(done)
            if len(reports) == most:
                raise KeyboardInterrupt

        words = (chipfire.tutte_polynomial, chipfire.level_polynomial)
        whole = [word(chipfire.complete(6)) for word in words]
        graph, most = chipfire.complete(6), 8
        with mock.patch("chipfire.progress._CALLS", 0):
            firsts = []
            for word in words * 3:
                reports = []
                with self.assertRaises(KeyboardInterrupt):
                    word(graph, progress=stop)
                firsts.append(reports[0])
            self.assertEqual(firsts, sorted(firsts))
            self.assertGreater(firsts[-1], firsts[0])
            most = 0
            self.assertEqual([word(graph, progress=stop) for word in words], whole)
            reports = []
            self.assertEqual([word(graph, progress=stop) for word in words], whole)
            self.assertEqual(reports[0], 1)

    @unittest.skipUnless(has("sympy"), "SymPy is not here")
    def test_sympy_takes_them(self):
        import sympy

        x, y = sympy.symbols("x y")
        found = sympy.Poly.from_dict(chipfire.tutte_polynomial(chipfire.cycle(4)), x, y)
        self.assertEqual(found.as_expr(), x**3 + x**2 + x + y)
        found = sympy.Poly.from_dict(chipfire.level_polynomial(chipfire.cycle(4)), y)
        self.assertEqual(found.as_expr(), y + 3)

    def test_what_is_refused(self):
        with self.assertRaisesRegex(ValueError, "this is of undirected graphs"):
            chipfire.tutte_polynomial(chipfire.Graph(3, 2, [(0, 1), (1, 2)]))
        with self.assertRaisesRegex(ValueError, "smaller graphs come out, and 20 at most are visited"):
            chipfire.tutte_polynomial(chipfire.complete(8), most=20)
        for word in (chipfire.tutte_polynomial, chipfire.level_polynomial):
            with self.assertRaisesRegex(ValueError, "at least 20. smaller graphs come out, and 200 at most"):
                word(chipfire.grid(5, 5), most=200)


class Plays(unittest.TestCase):
    def test_levels_of_undirected_graphs(self):
        for drawn in simple_graphs():
            graph = undirected(*drawn)
            self.assertEqual(chipfire.level_polynomial(graph), levels(graph), drawn)

    def test_levels_of_directed_graphs(self):
        # (a program that is started for each play takes long)
        for graph in directed_graphs(3 if chipfire.find_library() else 2):
            self.assertEqual(chipfire.level_polynomial(graph), levels(graph), graph.edges)

    def test_avalanches(self):
        # (a program that is started for each play takes long)
        for drawn in simple_graphs(5 if chipfire.find_library() else 4):
            graph = undirected(*drawn)
            wanted, sizes = odometers(graph), collections.Counter()
            for odometer, count in wanted.items():
                sizes[sum(odometer)] += count
            self.assertEqual(chipfire.avalanche_polynomial(graph, multivariable=True), wanted, drawn)
            self.assertEqual(chipfire.avalanche_polynomial(graph), sizes)

    def test_avalanches_of_sage(self):
        for stored, graph in graphs_of_sage():
            found = chipfire.avalanche_polynomial(graph, multivariable=True)
            self.assertEqual([[*powers, count] for powers, count in found.items()], stored["avalanches"], stored["how"])

    def test_avalanches_by_hand(self):
        # (of a path to the sink, where each chip falls through all vertices before it)
        line = chipfire.Graph(3, 2, [(0, 1), (1, 2)])
        self.assertEqual(chipfire.avalanche_polynomial(line, multivariable=True), {(1, 1): 1, (0, 1): 1})
        self.assertEqual(chipfire.avalanche_polynomial(line), {1: 1, 2: 1})

    def test_too_many_recurrent_ones_are_refused(self):
        for word in (chipfire.avalanche_polynomial, chipfire.level_polynomial):
            with self.assertRaisesRegex(ValueError, "at most 2 recurrent configurations .* there are 6"):
                word(chipfire.Graph(3, 2, [(0, 1), (0, 2), (1, 2, 3)]), most=2)


if __name__ == "__main__":
    unittest.main()
