"""Chips as arrays and as configurations, and what is asked of these: against hand, and against model.py beside this."""
import collections
import functools
import importlib
import itertools
import json
import math
import pickle
import random
import tempfile
import unittest
from array import array
from unittest import mock

import chipfire
import model
from strategies import drawn, piles, random_graph
from test_sandpile_words import DIRECTED
from test_sandpiles import CASES, has

GRID = chipfire.grid(3, 2)
#: On GRID, each square has one number more than the one before it.
ROWS = [[0, 1, 2], [3, 4, 5]]
#: A region of four squares, the sink round it, with squares that are none: numbered by rows.
TEE = chipfire.region([[1, 1, 1], [0, 1, 0]])


def inner(graph, numbers):
    """Chips by numbers of vertices, but without the sink."""
    return [count for vertex, count in enumerate(numbers) if vertex != graph.sink]


def full(graph, numbers):
    """Chips without the sink, with a 0 for it."""
    return [*numbers[: graph.sink], 0, *numbers[graph.sink :]]


def far_chips(draw):
    """A graph, and chips of which some are far below 0."""
    graph = draw.choice([*DIRECTED.values(), GRID, chipfire.cycle(4)])
    return graph, full(graph, piles(draw, graph, -30, 9))


def near_chips(draw):
    """A graph, and chips near 0."""
    graphs = [*DIRECTED.values(), GRID, TEE, chipfire.cycle(12), chipfire.complete(5), random_graph(draw, 7, 9)]
    graph = draw.choice(graphs)
    return graph, full(graph, piles(draw, graph, -3, 5))


class Forms(unittest.TestCase):
    """One and the same chips in all forms."""

    def test_rows_flat_and_by_names_are_the_same(self):
        wanted = (0, 1, 2, 3, 4, 5, 0)
        for chips in (ROWS, tuple(map(tuple, ROWS)), list(range(6)), range(6), [*range(6), 0], iter(range(6)),
                      {v: v for v in range(6)}, chipfire.Configuration(GRID, ROWS), [0.0, 1.0, 2.0, 3, 4, 5],
                      chipfire.Report((0, 1, 2, 3, 4, 5, 0), (0,) * 7)):
            self.assertEqual(GRID.chips(chips), wanted)
        self.assertEqual(GRID.chips([*range(6), 8]), (0, 1, 2, 3, 4, 5, 8))

    def test_numbers_that_come_one_by_one_are_taken_once(self):
        self.assertEqual(chipfire.plain(GRID, iter(range(6))).fired, chipfire.plain(GRID, ROWS).fired)
        self.assertEqual(chipfire.simulate(GRID, iter(range(6)), [], rounds=9).game.chips, (0, 1, 2, 3, 4, 5, 0))
        self.assertEqual(len(chipfire.frames(GRID, iter(range(6)), [0, 1])), 2)
        self.assertEqual(chipfire.add(GRID, iter(range(6)), iter([0] * 6)), chipfire.stabilize(GRID, ROWS))
        self.assertTrue(chipfire.verify(GRID, iter(range(6)), chipfire.plain(GRID, ROWS).fired))

    def test_configurations_of_another_graph_are_refused(self):
        wide, high = chipfire.grid(4, 3), chipfire.grid(3, 4)
        small, long = chipfire.grid(2, 2), chipfire.path(3)
        for call, arguments in [
            (chipfire.is_recurrent, (high, chipfire.identity(wide))), (chipfire.add, (small, 1, long.max_stable())),
            (chipfire.Configuration, (high, wide.max_stable())), (high.max_stable().__add__, (wide.max_stable(),)),
            (chipfire.drops, (high, wide.max_stable(), [0])), (chipfire.verify, (high, 0, wide.max_stable())),
        ]:
            with self.subTest(call), self.assertRaisesRegex(ValueError, "the configuration is one of another graph"):
                call(*arguments)

    def test_configurations_of_the_same_graph_go_by_names(self):
        graph = chipfire.Graph(3, 2, [(0, 1), (1, 0), (0, 2), (1, 2)], ["a", "b", "out"])
        chips = chipfire.Configuration(graph, {"a": 1, "b": 2})
        for names, wanted in [(["a", "b", "out"], (1, 2, 0)), (["b", "a", "out"], (2, 1, 0))]:
            other = chipfire.Graph(3, 2, graph.edges[::-1], names)
            self.assertEqual(other.chips(chips), wanted)
        with self.assertRaisesRegex(KeyError, "no vertex 'a'"):
            chipfire.Graph(3, 2, graph.edges).chips(chips)

    def test_one_number_is_that_of_all_but_the_sink(self):
        self.assertEqual(GRID.chips(4), (4,) * 6 + (0,))
        self.assertEqual(chipfire.torus(3, 3).chips(2), (0,) + (2,) * 8)
        self.assertEqual(chipfire.torus(3, 3).chips([1] * 8), (0,) + (1,) * 8)

    def test_chips_and_counts_of_firings_come_in_each_form(self):
        wanted = [8 - 4, 8 + 1, 8, 8 + 1, 8, 8, 2]
        forms = ({0: 1}, {(0, 0): 1}, [1, 0, 0, 0, 0, 0], [1, 0, 0, 0, 0, 0, 0], [[1, 0, 0], [0, 0, 0]])
        for counts in forms:
            with self.subTest(counts=counts):
                self.assertEqual(GRID.position_after(8, counts), wanted)
                self.assertEqual(GRID.position_after(chipfire.Configuration(GRID, 8), counts), wanted)

    def test_the_square_of_a_sink_counts_for_nothing(self):
        self.assertEqual(chipfire.torus(3, 3).chips([[9, 1, 1], [1, 1, 1], [1, 1, 1]]), (0,) + (1,) * 8)

    def test_a_region_has_its_squares_in_rows(self):
        self.assertEqual(TEE.chips([[5, 6, 7], [0, 8, 0]]), (5, 6, 7, 8, 0))
        with self.assertRaisesRegex(ValueError, "a square that is no vertex"):
            TEE.chips([[5, 6, 7], [1, 8, 0]])

    def test_what_does_not_fit_is_refused(self):
        turned, short = [[0, 1], [2, 3], [4, 5]], [[0, 1, 2], [3, 4]]
        for chips in (turned, [[0, 1, 2]], short, [[]], range(5), range(8), [], -1, [0, -1] * 3):
            with self.subTest(chips=chips), self.assertRaises(ValueError):
                GRID.chips(chips)
        for chips in (0.5, [0.5] * 6, ["1"] * 6, None, [[0, 1, 2], [3, 4, None]], {0: 0.5}, float("inf"), float("nan")):
            with self.subTest(chips=chips), self.assertRaises((TypeError, ValueError, OverflowError)):
                GRID.chips(chips)
        with self.assertRaisesRegex(ValueError, "report is one of another graph"):
            chipfire.plain(chipfire.grid(2, 3), chipfire.plain(GRID, 4))
        with self.assertRaisesRegex(ValueError, "shape None"):
            chipfire.cycle(4).chips([[1, 2], [3, 4]])

    @unittest.skipUnless(has("numpy"), "NumPy is not here")
    def test_arrays_of_numpy(self):
        import numpy

        array = numpy.array(ROWS)
        for chips in (array, array.astype(float), array.astype("int8"), array.ravel(), numpy.append(array.ravel(), 0)):
            self.assertEqual(GRID.chips(chips), (0, 1, 2, 3, 4, 5, 0))
        self.assertEqual(GRID.chips(numpy.int64(3)), (3,) * 6 + (0,))
        mask = numpy.array([[True, True, True], [False, True, False]])
        self.assertEqual(chipfire.region(mask), TEE)
        for chips in (array.T, array[:1], numpy.zeros((2, 3, 1)), array + 0.5, -array):
            with self.assertRaises((TypeError, ValueError)):
                GRID.chips(chips)

    @unittest.skipUnless(has("numpy"), "NumPy is not here")
    def test_what_an_array_gives_goes_back_in(self):
        numpy = importlib.import_module("numpy")
        for graph in (GRID, TEE, chipfire.grid(1, 5), chipfire.torus(4, 3), chipfire.path(3)):
            report = chipfire.plain(graph, 5)
            self.assertEqual(report.array().shape, graph.shape)
            self.assertEqual(chipfire.Configuration(graph, report.array()), report.configuration)
            self.assertEqual(chipfire.Configuration(graph, report.array("odometer")), report.odometer)
            self.assertEqual(report.configuration.array().tolist(), report.array().tolist())
            for given in (report, report.configuration):
                self.assertEqual(numpy.asarray(given).tolist(), report.array().tolist())
                self.assertEqual(numpy.asarray(given, dtype=float).dtype, float)
        self.assertEqual(chipfire.Configuration(TEE, [1, 2, 3, 4]).array().tolist(), [[1, 2, 3], [0, 4, 0]])
        # (the sink of a torus is a square, and has no height)
        self.assertEqual(chipfire.plain(chipfire.torus(3, 3), 5).array()[0, 0], 0)


class Arithmetic(unittest.TestCase):
    def test_sums_differences_and_multiples(self):
        one, other = chipfire.Configuration(GRID, ROWS), GRID.max_stable()
        self.assertEqual((one + other).numbers, (3, 4, 5, 6, 7, 8, 0))
        self.assertEqual((one - other).numbers, (-3, -2, -1, 0, 1, 2, 0))
        self.assertEqual((3 * one).numbers, (one * 3).numbers)
        self.assertEqual((one * -2).numbers, (0, -2, -4, -6, -8, -10, 0))
        self.assertEqual((-one).numbers, (0, -1, -2, -3, -4, -5, 0))
        for more in (1, [1] * 6, {v: 1 for v in range(6)}, [[1, 1, 1], [1, 1, 1]]):
            self.assertEqual(((one + more).numbers, (more + one).numbers), ((1, 2, 3, 4, 5, 6, 0),) * 2)
            self.assertEqual((more - one).numbers, (1, 0, -1, -2, -3, -4, 0))
        self.assertEqual((one.degree, len(one), one[5]), (15, 6, 5))
        with self.assertRaises(TypeError):
            one * 0.5

    def test_it_is_a_mapping_by_names_without_the_sink(self):
        graph = chipfire.Graph(3, 1, [(0, 1), (2, 1)], ["a", "out", "b"])
        found = chipfire.Configuration(graph, {"b": 4, "out": 9})
        self.assertEqual((dict(found), list(found), found.numbers), ({"a": 0, "b": 4}, ["a", "b"], (0, 0, 4)))
        self.assertEqual(found, {"b": 4, "a": 0})
        self.assertNotEqual(found, {"b": 4})
        same = chipfire.Graph(3, 1, graph.edges, graph.names)
        self.assertEqual(len({found, chipfire.Configuration(same, [0, 4])}), 1)
        self.assertEqual(repr(found), "{'a': 0, 'b': 4}")
        for name in ("out", "c"):
            with self.assertRaises(KeyError):
                found[name]
            self.assertNotIn(name, found)

    @unittest.skipUnless(has("numpy"), "NumPy is not here")
    def test_arrays_are_added_on_both_sides(self):
        import numpy

        one = chipfire.Configuration(GRID, ROWS)
        for found in (one + numpy.array(ROWS), numpy.array(ROWS) + one):
            self.assertEqual(found.numbers, (0, 2, 4, 6, 8, 10, 0))

    def test_its_methods_return_what_the_functions_return(self):
        most = TEE.max_stable()
        self.assertEqual((most.is_stable(), most.is_recurrent(), most.is_superstable()), (True, True, False))
        self.assertEqual((2 * most).stabilize().numbers[:4], tuple(model.stabilized(TEE, [6, 6, 6, 6, 0])[0][:4]))
        self.assertFalse((most + {0: 1}).is_stable() or (most + {0: 1}).is_recurrent())
        self.assertFalse((-1 * most).is_recurrent() or (-1 * most).is_superstable())


class Less(unittest.TestCase):
    """Chips below 0."""

    @drawn(far_chips, 24)
    def test_representatives_of_directed_graphs(self, game):
        graph, chips = game
        found = chipfire.superstable_representative(graph, chips)
        self.assertTrue(model.are_equivalent(graph, chips, found.numbers))
        self.assertTrue(model.is_superstable(inner(graph, found.numbers), model.taken(graph)))
        found = chipfire.recurrent_representative(graph, chips)
        self.assertTrue(model.are_equivalent(graph, chips, found.numbers))
        self.assertTrue(found.is_recurrent() and found.is_stable())

    def test_representatives_of_all_chips_near_0(self):
        stabilized = functools.cache(model.stabilized)

        def played(graph, chips, program):
            self.assertGreaterEqual(min(chips), 0)
            return [array("Q", numbers) for numbers in stabilized(graph, tuple(chips))]

        differ = "two that differ"
        by_program = [("a cycle", chipfire.cycle(3)), ("a path", chipfire.path(2)), (differ, DIRECTED[differ])]
        by_hand = [("a path", chipfire.path(3)), ("K4", chipfire.complete(4)), ("a grid", chipfire.grid(2, 2)),
                   ("the sink among them", DIRECTED["the sink among them"])]
        for how, graph in by_program:
            self.check_all(how, graph, None)
        with mock.patch("chipfire.configurations.configuration.stabilized_rows", played):
            for how, graph in by_hand:
                self.check_all(how, graph, "nowhere")

    def check_all(self, how, graph, program):
        """The representatives of all chips from -2 to two more than the degree."""
        class_of, recurrents = model.classes(graph), model.recurrents(graph)
        superstables = [tuple(full(graph, chips)) for chips in model.superstables(graph)]
        # (each class has one of each)
        wanted = [{class_of(chips): chips for chips in some} for some in (recurrents, superstables)]
        self.assertEqual([len(it) for it in wanted], [len(recurrents)] * 2)
        degrees = [row[at] for at, row in enumerate(model.reduced(graph))]
        for chips in itertools.product(*(range(-2, degree + 3) for degree in degrees)):
            if how == "a grid" and chips[0] < max(chips):
                continue  # (turned, it is one of the others)
            chips = full(graph, chips)
            found = [call(graph, chips, program=program).numbers for call in
                     (chipfire.recurrent_representative, chipfire.superstable_representative)]
            self.assertEqual(found, [it[class_of(chips)] for it in wanted], (how, chips))

    def test_what_is_not_recurrent_is_not_returned(self):
        graph = chipfire.cycle(3)
        by_python = mock.patch("chipfire.backend.library.representative", return_value=None)
        with by_python, mock.patch("chipfire.configurations.configuration.identity", return_value=[0, 0, 0]):
            self.assertEqual(chipfire.recurrent_representative(graph, 2), {1: 1, 2: 1})
            for call, chips in [(chipfire.recurrent_representative, 0), (chipfire.superstable_representative, 1)]:
                with self.assertRaisesRegex(RuntimeError, "not recurrent"):
                    call(graph, chips)

    def test_they_are_not_played(self):
        for call in (chipfire.plain, chipfire.stabilize):
            with self.assertRaisesRegex(ValueError, "vertex 2.* below 0"):
                call(GRID, [0, 0, -1, 0, 0, 0])
        with self.assertRaisesRegex(ValueError, "superstable_representative"):
            (GRID.max_stable() - 4).stabilize()

    def test_much_less_is_as_good(self):
        far = chipfire.Configuration(chipfire.cycle(3), {1: -(2**30), 2: 5})
        found = chipfire.superstable_representative(far.graph, far)
        self.assertTrue(model.are_equivalent(far.graph, far.numbers, found.numbers))
        # (the cycle of three has three superstable configurations: none, and one chip on either)
        self.assertIn(tuple(found.values()), {(0, 0), (0, 1), (1, 0)})


class All(unittest.TestCase):
    def test_all_superstable_and_all_recurrent_ones(self):
        others = [("a grid", chipfire.grid(2, 2)), ("a tee", TEE), ("K5", chipfire.complete(5))]
        for how, graph in [*DIRECTED.items(), *others]:
            with self.subTest(how):
                found = [tuple(it.values()) for it in chipfire.superstables(graph)]
                self.assertEqual((set(found), len(found)), (model.superstables(graph), len(set(found))))
                most = tuple(graph.max_stable().values())
                wanted = {tuple(map(int.__sub__, most, it)) for it in found}
                self.assertEqual({tuple(it.values()) for it in chipfire.recurrents(graph)}, wanted)
                self.assertTrue(all(it.is_recurrent() for it in itertools.islice(chipfire.recurrents(graph), 5)))

    def test_parking_functions_are_counted_by_cayley(self):
        for n in range(2, 7):
            self.assertEqual(sum(1 for _ in chipfire.superstables(chipfire.complete(n))), n ** (n - 2))


class Groups(unittest.TestCase):
    @drawn(near_chips, 45)
    def test_the_order_of_an_element(self, game):
        """That number of times the chips are equivalent to zero, and no smaller one, by whole firings."""
        graph, chips = game
        script = model.script_between(graph, chips, [0] * graph.vertices)
        wanted = math.lcm(*(times.denominator for times in script))
        self.assertEqual(chipfire.Configuration(graph, chips).order(), wanted)

    def test_the_order_divides_that_of_the_group(self):
        grid = chipfire.grid(12, 12)
        order = chipfire.Configuration(grid, {70: 1}).order()
        self.assertEqual((chipfire.invariant_factors(grid)[-1] % order, chipfire.identity(grid).order()), (0, 1))
        self.assertGreater(order, 10**9)

    def test_the_order_is_the_product_of_the_factors(self):
        for graph in (chipfire.grid(9, 9), chipfire.torus(6, 5), chipfire.aztec(4), chipfire.wheel(9)):
            product = 1
            for factor in chipfire.invariant_factors(graph):
                product *= factor
            self.assertEqual(chipfire.order(graph), product)

    def test_laplacians(self):
        for graph in [*DIRECTED.values(), chipfire.Graph(1, 0, []), random_graph(random.Random(29), 6, 3)]:
            self.assertEqual(chipfire.laplacian(graph), model.laplacian(graph))
            self.assertEqual(chipfire.reduced_laplacian(graph), model.reduced(graph))

    def test_laplacians_of_undirected_graphs_are_symmetric(self):
        triangle = [[2, -1, -1], [-1, 2, -1], [-1, -1, 2]]
        square = [(1, 2), (2, 3), (3, 4), (4, 1), (1, 3)]
        for graph, wanted in [
            (chipfire.cycle(3), triangle), (chipfire.complete(3), triangle), (chipfire.path(2), triangle),
            (chipfire.grid(1, 1), [[4, -4], [-4, 4]]),
            (chipfire.Graph.undirected([("a", "b", 2), ("b", "c")], "b"), [[2, -2, 0], [-2, 3, -1], [0, -1, 1]]),
            (chipfire.Graph.undirected(square, [1, 3]), [[2, 0, -2], [0, 2, -2], [-2, -2, 4]]),
        ]:
            self.assertEqual(chipfire.laplacian(graph), wanted)
        hexagons, copy = chipfire.region([[1, 1], [0, 1]], "hexagonal"), pickle.loads(pickle.dumps(GRID))
        for graph in (GRID, TEE, chipfire.grid(1, 4), chipfire.grid(3, 3), chipfire.torus(4, 3), chipfire.wheel(5),
                      chipfire.aztec(2), hexagons, copy):
            found = chipfire.laplacian(graph)
            self.assertEqual((found, {*map(sum, found)}), ([list(column) for column in zip(*found)], {0}))
            self.assertEqual(chipfire.reduced_laplacian(graph), model.reduced(graph))
            self.assertEqual([row for at, row in enumerate(found) if at != graph.sink],
                             [row for at, row in enumerate(model.laplacian(graph)) if at != graph.sink])

    @unittest.skipUnless(has("scipy") and has("numpy"), "SciPy is not here")
    def test_sparse_laplacians_and_orders_by_numpy(self):
        import numpy

        for graph in [*DIRECTED.values(), GRID, chipfire.grid(1, 1), chipfire.wheel(7), chipfire.Graph(1, 0, [])]:
            self.assertEqual(chipfire.laplacian(graph, sparse=True).toarray().tolist(), chipfire.laplacian(graph))
            found = chipfire.reduced_laplacian(graph, sparse=True).toarray()
            self.assertEqual(found.tolist(), model.reduced(graph))
            self.assertEqual(chipfire.order(graph), round(numpy.linalg.det(found)))

    @unittest.skipIf(has("scipy"), "SciPy is here")
    def test_without_scipy_it_says_so(self):
        with self.assertRaisesRegex(ImportError, "SciPy, which is not installed"):
            chipfire.laplacian(GRID, sparse=True)


class Families(unittest.TestCase):
    def test_wheels_are_those_of_sage(self):
        (case,) = (it for it in CASES if it.how == "sandpiles.Wheel(6)")
        wheel = chipfire.wheel(6)
        self.assertEqual((wheel.vertices, wheel.sink), (6, 0))
        self.assertEqual(collections.Counter(wheel.edges), collections.Counter(case.edges))

    def test_grids_are_regions_of_all_squares(self):
        for width, height in [(1, 1), (1, 4), (4, 1), (2, 2), (2, 5), (5, 2), (3, 3), (4, 6), (7, 3)]:
            region = chipfire.region([[1] * width] * height)
            grid = chipfire.grid(width, height)
            self.assertEqual((grid, grid.shape), (region, (height, width)))
            self.assertEqual(set(grid.degrees()[:-1]), {4})
            beside = sum(abs(u - v) == 1 or abs(u - v) == width for u, v, _ in grid.edges if v != grid.sink)
            self.assertEqual(beside, 2 * (width * (height - 1) + height * (width - 1)))

    def test_regions_of_the_three_lattices(self):
        # a block of three by three, whose middle is vertex 4: who is beside it, and how many chips each dissipates
        block, heads = [[1] * 3] * 3, {}
        for lattice, beside, lost in [
            ("square", [1, 3, 5, 7], [2, 1, 2, 1, 0, 1, 2, 1, 2]),
            ("triangular", [1, 2, 3, 5, 6, 7], [4, 2, 3, 2, 0, 2, 3, 2, 4]),
            ("hexagonal", [3, 5, 7], [1, 1, 1, 1, 0, 1, 2, 0, 2]),
        ]:
            graph = chipfire.region(block, lattice)
            heads = sorted(head for tail, head, _ in graph.edges if tail == 4)
            to_sink = {tail: mult for tail, head, mult in graph.edges if head == 9}
            with self.subTest(lattice):
                self.assertEqual((heads, [to_sink.get(vertex, 0) for vertex in range(9)]), (beside, lost))
                pairs = {(u, v) for u, v, _ in graph.edges if v != 9}
                self.assertEqual(pairs, {(v, u) for u, v in pairs})

    def test_aztec_diamonds(self):
        self.assertEqual(chipfire.aztec(1), chipfire.grid(2, 2))
        rows = [[0, 1, 1, 0], [1, 1, 1, 1], [1, 1, 1, 1], [0, 1, 1, 0]]
        self.assertEqual((chipfire.aztec(2), chipfire.aztec(2).shape), (chipfire.region(rows), (4, 4)))
        self.assertEqual([chipfire.aztec(n).vertices - 1 for n in range(1, 6)], [2 * n * (n + 1) for n in range(1, 6)])

    def test_undirected_edges_go_both_ways(self):
        graph = chipfire.Graph.undirected([("b", "a"), ("c", "b", 2), ("c", "a")], "c")
        self.assertEqual((graph.names, graph.sink), (("a", "b", "c"), 2))
        self.assertEqual(sorted(graph.edges), [(0, 1, 1), (0, 2, 1), (1, 0, 1), (1, 2, 2)])
        self.assertEqual(chipfire.order(graph), 1 * 1 + 1 * 2 + 1 * 2)
        mixed = chipfire.Graph.undirected([("x", 1), (1, (0, 0))], "x")
        self.assertEqual((mixed.names, sorted(mixed.edges)), (("x", 1, (0, 0)), [(1, 0, 1), (1, 2, 1), (2, 1, 1)]))

    def test_several_vertices_are_one_sink(self):
        square = [(1, 2), (2, 3), (3, 4), (4, 1), (1, 3)]
        for sinks in ([1, 3], {1, 3}, frozenset([1, 3])):
            graph = chipfire.Graph.undirected(square, sinks)
            self.assertEqual((graph.names, graph.sink), ((2, 4, "sink"), 2))
            self.assertEqual(collections.Counter(graph.edges), {(0, 2, 1): 2, (1, 2, 1): 2})
        with self.assertRaises(KeyError):
            chipfire.Graph.undirected(square, [1, 9])

    def test_many_sinks_are_not_searched_in_lists(self):
        compared = []

        class Name:
            __hash__ = object.__hash__

            def __eq__(self, other):
                compared.append(other)
                return self is other

        names = [Name() for _ in range(1000)]
        graph = chipfire.Graph.undirected(zip(names, names[1:]), names[::2])
        self.assertEqual((graph.vertices, graph.degrees()), (501, (2,) * 499 + (1, 0)))
        self.assertEqual({(head, mult) for _, head, mult in graph.edges}, {(500, 1)})
        self.assertLess(len(compared), 1000)

    @unittest.skipUnless(has("networkx"), "NetworkX is not here")
    def test_several_vertices_of_networkx_are_one_sink(self):
        networkx = importlib.import_module("networkx")
        grid = networkx.grid_2d_graph(4, 4)
        border = [it for it in grid if set(it) & {0, 3}]
        graph = chipfire.from_networkx(grid, border)
        self.assertEqual((graph.names[-1], len(graph.names)), ("sink", 5))
        # (it is the grid of two by two, of which the encyclopedia of sequences has the trees: A007341)
        self.assertEqual((chipfire.order(graph), graph.degrees()), (192, (4, 4, 4, 4, 0)))


class Text(unittest.TestCase):
    def test_a_graph_file_has_each_edge(self):
        for graph in (chipfire.grid(4, 3), chipfire.Graph(1, 0, []), chipfire.Graph(2, 1, [(0, 1, 2**20)] * 3), TEE):
            value = json.loads(graph.text())
            self.assertEqual([tuple(edge) for edge in value["edges"]], list(graph.edges))
            self.assertEqual((value["vertices"], value["sink"], value["version"]), (graph.vertices, graph.sink, 1))
            with tempfile.NamedTemporaryFile() as file:
                graph.write(file.name)
                self.assertEqual(chipfire.Graph.read(file.name), graph)

    def test_a_large_one_comes_in_several_parts(self):
        grid = chipfire.grid(200, 150)
        rows = [tuple(edge) for edge in json.loads(grid.text())["edges"]]
        self.assertEqual((len(rows), rows), (4 * 200 * 150 - 4, list(grid.edges)))
        self.assertEqual(chipfire.check(grid).degrees, (4,) * 30000 + (0,))


if __name__ == "__main__":
    unittest.main()
