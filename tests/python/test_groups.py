"""The sandpile group of all small graphs, against all recurrent configurations, worked out slowly."""
import itertools
import math
import random
import unittest

import chipfire
import model
import ways
from small_graphs import directed_graphs, simple_graphs, undirected
from strategies import random_graph


def small_graphs(directed=3, simple=5):
    """All small directed multigraphs, and all small simple graphs with the first or last vertex as sink."""
    yield from directed_graphs(directed)
    for vertices, edges in simple_graphs(simple):
        for sink in {0, vertices - 1}:
            yield undirected(vertices, edges, sink)


@ways.once
class Coordinates(unittest.TestCase):
    def test_the_recurrent_ones_are_the_product_of_cyclic_groups(self):
        for graph in small_graphs():
            group, found = chipfire.Group(graph), model.recurrents(graph)
            self.assertEqual(math.prod(group.factors), len(found), graph.edges)
            self.assertNotIn(1, group.factors)
            self.assertFalse(any(above % below for below, above in zip(group.factors, group.factors[1:])), graph.edges)
            every = set(itertools.product(*map(range, group.factors)))
            self.assertEqual({group.coordinates(chips) for chips in found}, every, graph.edges)

    def test_firings_change_no_coordinates_and_sums_have_the_sums(self):
        for graph in small_graphs():
            group, inner = chipfire.Group(graph), [vertex for vertex in range(graph.vertices) if vertex != graph.sink]
            for row in model.reduced(graph):
                self.assertFalse(any(group.coordinates(row)), graph.edges)
            columns = [*zip(group.factors, *(group.coordinates({vertex: 1}) for vertex in inner))]
            # (all chips from -1 to 3 on each vertex)
            for chips in itertools.product(range(-1, 4), repeat=len(inner)):
                wanted = tuple(sum(map(int.__mul__, chips, column)) % factor for factor, *column in columns)
                self.assertEqual(group.coordinates(chips), wanted, (graph.edges, chips))

    def test_orders(self):
        for graph in small_graphs():
            group, of = chipfire.Group(graph), model.classes(graph)
            for chips in model.recurrents(graph):
                self.assertEqual(group.order(chips), model.order_of(of(chips)), (graph.edges, chips))


class Groups(unittest.TestCase):
    def test_elements_are_the_recurrent_ones_of_their_coordinates(self):
        # (a program that is started for each play takes long)
        for graph in small_graphs() if chipfire.find_library() else small_graphs(2, 3):
            group, found = chipfire.Group(graph), model.recurrents(graph)
            for chips in found:
                self.assertEqual(group.element(group.coordinates(chips)).numbers, chips, graph.edges)
            for place, chips in enumerate(group.generators):
                self.assertIn(chips.numbers, found)
                self.assertEqual(group.coordinates(chips), tuple(int(at == place) for at in range(len(group.factors))))

    def test_inverses_and_the_identity(self):
        for graph in small_graphs() if chipfire.find_library() else small_graphs(2, 3):
            group, found = chipfire.Group(graph), model.recurrents(graph)
            self.assertEqual(group.coordinates(group.identity), (0,) * len(group.factors))
            self.assertIn(group.identity.numbers, found)
            for chips in found:
                back = chipfire.inverse(graph, chips)
                self.assertIn(back.numbers, found, (graph.edges, chips))
                self.assertEqual(chipfire.add(graph, chips, back), group.identity, (graph.edges, chips))

    def test_the_inverse_of_chips_that_are_not_recurrent(self):
        """It is that of the representative, also of chips below 0 and of many."""
        draw = random.Random(8)
        for graph in [chipfire.grid(3, 3), chipfire.complete(5), random_graph(draw, 6, 3)]:
            group = chipfire.Group(graph)
            for least, most in ((0, 9), (-9, 9), (-2**20, 2**20)):
                chips = chipfire.Configuration(graph, [draw.randint(least, most) for _ in range(graph.vertices - 1)])
                back = chips.inverse()
                self.assertTrue(back.is_recurrent())
                opposite = tuple(-it % factor for it, factor in zip(group.coordinates(chips), group.factors))
                self.assertEqual(group.coordinates(back), opposite)
                self.assertEqual(back, chips.equivalent_recurrent().inverse())

    def test_larger_groups(self):
        draw = random.Random(3)
        for graph in [chipfire.grid(4, 4), chipfire.complete(6), chipfire.torus(3, 4), random_graph(draw, 8, 30)]:
            group = chipfire.Group(graph)
            self.assertEqual(group.factors, chipfire.invariant_factors(graph))
            wanted = tuple(draw.randrange(factor) for factor in group.factors)
            found = group.element(wanted)
            self.assertTrue(found.is_recurrent())
            self.assertEqual((group.coordinates(found), group.order(found)), (wanted, found.order()))
            self.assertEqual(group.element([it - 3 * factor for it, factor in zip(wanted, group.factors)]), found)

    def test_what_is_refused(self):
        with self.assertRaisesRegex(ValueError, "a graph with its group is above 401: 442"):
            chipfire.Group(chipfire.grid(21, 21))
        with self.assertRaisesRegex(ValueError, "there are 1 coordinates, and the group has 2 factors"):
            chipfire.Group(chipfire.complete(4)).element([1])
        self.assertEqual(repr(chipfire.Group(chipfire.complete(4))), "<Group of Z/4 x Z/4>")


if __name__ == "__main__":
    unittest.main()
