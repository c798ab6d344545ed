"""Divisors of all connected simple graphs of up to five vertices, against the definitions."""
import collections
import functools
import itertools
import operator
import unittest

import chipfire
import model
import ways
from chipfire.divisors import divisor as divisors
from small_graphs import graphs_of_sage, simple_graphs, undirected
from test_sandpiles import has

K4 = chipfire.complete(4)


class Classes:
    """The divisors of a graph up to equivalence, by the inverse of the Laplacian without the sink."""

    def __init__(self, graph):
        self.graph, self.genus = graph, len(graph.edges)
        inner = [vertex for vertex in range(graph.vertices) if vertex != graph.sink]
        back = model.inverse(model.reduced(graph))
        self.size = 1
        while any((self.size * x).denominator > 1 for row in back for x in row):
            self.size += 1
        zero = (0,) * len(inner)
        self.units = [zero] * graph.vertices
        for vertex, row in zip(inner, back):
            self.units[vertex] = tuple(int(self.size * x) for x in row)

    def of(self, chips):
        """The class of a divisor, but for its degree."""
        return tuple(sum(map(operator.mul, chips, column)) % self.size for column in zip(*self.units))

    @functools.lru_cache(maxsize=None)
    def effective(self, degree):
        """The classes of all divisors of a degree that have no vertex in debt."""
        if degree < 0:
            return frozenset()
        places = itertools.combinations_with_replacement(range(self.graph.vertices), degree)
        return frozenset(self.of([it.count(vertex) for vertex in range(self.graph.vertices)]) for it in places)

    @functools.lru_cache(maxsize=None)
    def rank(self, degree, own):
        """The rank of a class, by the definition."""
        for rank in itertools.count(-1):
            rest = self.effective(degree - rank - 1)
            for taken in self.effective(rank + 1):
                if tuple((x - y) % self.size for x, y in zip(own, taken)) not in rest:
                    return rank


@functools.lru_cache(maxsize=None)
def all_classes():
    return [Classes(undirected(*drawn)) for drawn in simple_graphs()]


def genus(graph):
    """Edges, less vertices but one; those to the sink stand once in the rows."""
    ways = sum(2 if head == graph.sink else 1 for _, head, _ in graph.edges)
    return ways // 2 - graph.vertices + 1


def small_divisors(graph):
    """All divisors of values -1 to 3 and of degree -1 to 2g - 1."""
    for chips in itertools.product(range(-1, 4), repeat=graph.vertices):
        if -1 <= sum(chips) <= 2 * genus(graph) - 1:
            yield chips


@ways.once
class Ranks(unittest.TestCase):
    def test_there_are_31_graphs(self):
        counts = collections.Counter(vertices for vertices, _ in simple_graphs())
        self.assertEqual(counts, {1: 1, 2: 1, 3: 2, 4: 6, 5: 21})

    def test_ranks_are_those_of_the_definition(self):
        for classes in all_classes():
            for chips in small_divisors(classes.graph):
                found = chipfire.Divisor(classes.graph, chips).rank()
                self.assertEqual(found, classes.rank(sum(chips), classes.of(chips)), (classes.graph.edges, chips))

    def test_riemann_and_roch(self):
        for classes in all_classes():
            graph, ranks, g = classes.graph, {}, genus(classes.graph)
            most = chipfire.canonical_divisor(graph)
            for chips in small_divisors(graph):
                both = []
                for divisor in (chipfire.Divisor(graph, chips), most - chips):
                    key = divisor.degree, classes.of(divisor.numbers)
                    if key not in ranks:
                        ranks[key] = divisors.searched_rank(divisor)
                    both.append(ranks[key])
                self.assertEqual(both[0] - both[1], sum(chips) - g + 1, (graph.edges, chips))

    def test_ranks_are_those_of_sage(self):
        for stored, graph in graphs_of_sage():
            for chips, rank in stored["ranks"]:
                self.assertEqual(chipfire.Divisor(graph, chips).rank(), rank, (stored["how"], chips))
            self.assertEqual(chipfire.genus(graph), stored["genus"])
            self.assertEqual(chipfire.canonical_divisor(graph).numbers, tuple(stored["canonical"]))

    def test_ranks_by_hand(self):
        # (on a tree all divisors of a degree are equivalent; on a cycle K is 0, and its rank 0; on a complete graph the
        # canonical divisor has rank g - 1, as on each graph)
        tree, ring = chipfire.Graph.undirected([(0, 1), (1, 2), (1, 3)], 0), chipfire.cycle(6)
        for degree in range(-2, 5):
            self.assertEqual(chipfire.Divisor(tree, {3: degree + 4, 0: -4}).rank(), max(degree, -1))
            self.assertEqual(chipfire.Divisor(ring, {2: degree}).rank(), max(degree - 1, min(degree, 0), -1))
        for graph in (K4, chipfire.complete(6), chipfire.grid(3, 3)):
            self.assertEqual(chipfire.canonical_divisor(graph).rank(), chipfire.genus(graph) - 1)
        # (with three edges between two vertices, one chip on each is the canonical divisor, to which a firing leads
        # from 4 and -2, and not from 2 and 0; no firing leads from 1 and -1 to zero)
        two = chipfire.Graph.undirected([("a", "b", 3)], "a")
        given = (1, {"a": 4, "b": -2}, {"a": 2}, {"a": 1, "b": -1})
        self.assertEqual([chipfire.Divisor(two, it).rank() for it in given], [1, 1, 0, -1])

    def test_a_search_that_is_too_long_is_refused(self):
        graph = chipfire.grid(4, 4)
        divisor = chipfire.Divisor(graph, {0: chipfire.genus(graph) - 1, 16: 0})
        with self.assertRaisesRegex(ValueError, "the rank is . or more, and 50 divisors do not show which"):
            divisor.rank(most=50)

    def test_the_most_divisors_are_those_of_all_degrees(self):
        # (of each degree, up to equivalence, as many divisors are left as are taken away)
        for classes in all_classes():
            for chips in (chipfire.canonical_divisor(classes.graph), {0: genus(classes.graph) - 1}):
                divisor = chipfire.Divisor(classes.graph, chips)
                rank = classes.rank(divisor.degree, classes.of(divisor.numbers))
                most = sum(len(classes.effective(degree)) for degree in range(rank + 2))
                self.assertEqual(divisors.searched_rank(divisor, most), rank, (classes.graph.edges, chips))
                if rank >= 0:
                    with self.assertRaisesRegex(ValueError, f"{most - 1} divisors? do"):
                        divisors.searched_rank(divisor, most - 1)
        # By hand: on a triangle no two vertices are equivalent, and of each degree there are three divisors. What is
        # left of two chips is 1, 3 and 3 divisors, and those of degree 0 are not all equivalent to zero.
        triangle = chipfire.Divisor(chipfire.Graph.undirected([(0, 1), (1, 2), (2, 0)], 0), {0: 2})
        self.assertEqual(divisors.searched_rank(triangle, 7), 1)
        with self.assertRaisesRegex(ValueError, "the rank is 1 or more, and 6 divisors do not show which"):
            divisors.searched_rank(triangle, 6)


def subsets(items):
    """All subsets of items but the empty one."""
    items = list(items)
    return itertools.chain.from_iterable(itertools.combinations(items, size) for size in range(1, len(items) + 1))


@functools.lru_cache(maxsize=None)
def losses(vertices, edges, vertex):
    """What each loses of the vertices that fire together, for all that can be chosen without one vertex."""
    found = []
    for fired in map(set, subsets(it for it in range(vertices) if it != vertex)):
        cut = [edge for edge in edges if len(fired & {*edge}) == 1]
        lost = collections.Counter(end for edge in cut for end in edge if end in fired)
        found.append([(it, lost[it]) for it in fired])
    return found


class OfReduced(unittest.TestCase):
    def assert_reduced(self, chips, edges, vertex):
        """None but one vertex is in debt, and no vertices without it can fire together and stay so."""
        self.assertTrue(all(count >= 0 for it, count in enumerate(chips) if it != vertex))
        for lost in losses(len(chips), edges, vertex):
            self.assertTrue(any(count > chips[it] for it, count in lost), (chips, edges, lost))


@ways.once
class Searched(OfReduced):
    def test_what_the_search_reduces(self):
        for classes, (vertices, edges) in zip(all_classes(), simple_graphs()):
            reduced = divisors._reducer(classes.graph)
            for chips in itertools.product((-2, 0, 3), repeat=vertices):
                found = reduced([*chips])
                self.assertEqual((sum(found), classes.of(found)), (sum(chips), classes.of(chips)))
                self.assert_reduced(found, edges, 0)


class Reduced(OfReduced):
    def test_what_is_reduced_at_each_vertex(self):
        # (a program that is started for each play takes long)
        for classes, (vertices, edges) in zip(all_classes(), simple_graphs(5 if chipfire.find_library() else 3)):
            for chips in itertools.product(range(-1, 2), repeat=vertices):
                divisor = chipfire.Divisor(classes.graph, chips)
                for vertex in range(vertices):
                    found = divisor.reduced(vertex)
                    self.assertEqual((found.degree, classes.of(found.numbers)), (sum(chips), classes.of(chips)))
                    self.assert_reduced(found.numbers, edges, vertex)

    def test_effective_and_equivalent_ones(self):
        # (a program that is started for each play takes long)
        for classes in all_classes()[: None if chipfire.find_library() else 4]:
            graph = classes.graph
            for chips in small_divisors(graph):
                found = chipfire.Divisor(graph, chips).effective()
                self.assertEqual(found is not None, classes.of(chips) in classes.effective(sum(chips)))
                if found is not None:
                    self.assertTrue(found.is_effective() and min(found.numbers) >= 0)
                    self.assertEqual((found.degree, classes.of(found.numbers)), (sum(chips), classes.of(chips)))
        for first, second in itertools.product(itertools.product(range(2), repeat=4), repeat=2):
            wanted = sum(first) == sum(second) and model.are_equivalent(K4, first, second)
            if first < second:
                self.assertEqual(chipfire.Divisor(K4, first).is_equivalent(second), wanted)


class Sums(unittest.TestCase):
    def test_a_divisor_is_added_and_fires_by_names(self):
        graph = chipfire.Graph.undirected([("a", "b"), ("b", "c", 2)], "a")
        divisor = chipfire.Divisor(graph, {"a": 1, "c": -2})
        self.assertEqual((divisor, divisor.degree, len(divisor)), ({"a": 1, "b": 0, "c": -2}, -1, 3))
        self.assertEqual(2 * divisor - {"b": 5} + 1, {"a": 3, "b": -4, "c": -3})
        self.assertEqual(1 - divisor, {"a": 0, "b": 1, "c": 3})
        self.assertEqual(divisor.fire({"b": 1}), {"a": 2, "b": -3, "c": 0})
        self.assertEqual(divisor.fire({"a": -1}), {"a": 2, "b": -1, "c": -2})
        self.assertEqual({chipfire.Divisor(graph, [1, 0, -2]): 4}[divisor], 4)
        self.assertEqual(chipfire.Configuration(graph, divisor), {"b": 0, "c": -2})
        self.assertEqual(chipfire.Divisor(graph, chipfire.Configuration(graph, {"b": 3})), {"a": 0, "b": 3, "c": 0})
        self.assertEqual(repr(divisor), "{'a': 1, 'b': 0, 'c': -2}")
        self.assertEqual(repr(chipfire.Divisor(chipfire.grid(9, 9), 1)), "<Divisor of 82 vertices: 82 chips>")

    @unittest.skipUnless(has("numpy"), "NumPy is not here")
    def test_numpy_takes_the_numbers(self):
        import numpy

        one, other = chipfire.Divisor(K4, [5, 6, -7, 8]), chipfire.Divisor(K4, 2)
        self.assertEqual(numpy.asarray(one).tolist(), [5, 6, -7, 8])
        self.assertEqual(numpy.asarray(one).dtype, "int64")
        self.assertEqual(numpy.array([one, other]).tolist(), [[5, 6, -7, 8], [2, 2, 2, 2]])
        self.assertEqual(chipfire.Divisor(K4, numpy.asarray(one)), one)
        for kind, wanted in [("i1", [5, 6, -7, 8]), (float, [5.0, 6.0, -7.0, 8.0]), (object, [5, 6, -7, 8])]:
            found = numpy.asarray(one, dtype=kind)
            self.assertEqual((found.tolist(), found.dtype), (wanted, numpy.dtype(kind)))
        self.assertEqual(one.__array__(copy=True).tolist(), one.__array__("i8", None).tolist())
        with self.assertRaisesRegex(ValueError, "an array of a Divisor is always a copy"):
            one.__array__(copy=False)
        large = chipfire.Divisor(K4, [2**70, 0, 0, -1])
        self.assertEqual(numpy.asarray(large, dtype=object).tolist(), [2**70, 0, 0, -1])
        for given, kind in [(large, None), (one, "u8"), (other * 200, "u1")]:
            with self.assertRaisesRegex(OverflowError, "^numbers from .* to .* are more than .* holds"):
                numpy.asarray(given, dtype=kind)

    @unittest.skipUnless(has("pandas"), "pandas is not here")
    def test_pandas_takes_the_numbers_by_names(self):
        import pandas

        graph = chipfire.Graph.undirected([("a", "b"), ("b", "c")], "c")
        series = pandas.Series(chipfire.Divisor(graph, [3, -1, 4]))
        self.assertEqual(series.to_dict(), {"a": 3, "b": -1, "c": 4})
        self.assertEqual(chipfire.Divisor(graph, series[::-1]), {"a": 3, "b": -1, "c": 4})

    @unittest.skipUnless(has("numpy"), "NumPy is not here")
    def test_numbers_of_numpy(self):
        import numpy

        cycle = chipfire.cycle(3)
        for one in (2, numpy.int64(2), numpy.array(2), numpy.array([2, 2, 2])):
            self.assertEqual(chipfire.Divisor(cycle, one), {0: 2, 1: 2, 2: 2})

    def test_genus_and_canonical_divisor(self):
        # (a grid of 2 by 2 has four edges within and two to the sink from each square)
        for graph, wanted in [(K4, 3), (chipfire.cycle(9), 1), (chipfire.path(5), 1), (chipfire.grid(2, 2), 8)]:
            self.assertEqual(chipfire.genus(graph), wanted)
            self.assertEqual(chipfire.canonical_divisor(graph).degree, 2 * wanted - 2)
        self.assertEqual(chipfire.canonical_divisor(chipfire.path(2)), {0: 0, 1: 0, 2: 0})

    def test_what_is_refused(self):
        one_way = chipfire.Graph(3, 2, [(0, 1), (1, 0), (1, 2), (0, 2)])
        for word in (chipfire.genus, chipfire.canonical_divisor, lambda graph: chipfire.Divisor(graph, 0)):
            with self.assertRaisesRegex(ValueError, "this is of undirected graphs"):
                word(one_way)
        with self.assertRaisesRegex(ValueError, "a divisor has chips on the sink too, and there are 3 numbers"):
            chipfire.Divisor(K4, [1, 2, 3])
        with self.assertRaisesRegex(ValueError, "the divisor is one of another graph"):
            chipfire.Divisor(K4, 1) + chipfire.Divisor(chipfire.cycle(4), 1)
        with self.assertRaisesRegex(KeyError, "no vertex 9"):
            chipfire.Divisor(K4, 1).reduced(9)
        with self.assertRaisesRegex(ValueError, "most divisors is below 1"):
            chipfire.Divisor(K4, 1).rank(most=0)


if __name__ == "__main__":
    unittest.main()
