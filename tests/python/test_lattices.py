"""Grids with joined borders, losses and more directions, triangular and hexagonal: against plain rules."""
import itertools
import math
import unittest
from collections import Counter

import chipfire
import ways
from test_counts import slow_report


def beside(lattice, place, other):
    """Whether two places of a lattice without borders are beside one another."""
    if lattice == "square":
        return sum(abs(a - b) for a, b in zip(place, other)) == 1
    (row, column), (down, right) = place, other
    if lattice == "triangular":  # (each row is moved by a half)
        return round(math.hypot(right - column + (down - row) / 2, (down - row) * math.sqrt(3) / 2), 9) == 1
    is_below = column == right and abs(down - row) == 1 and (min(row, down) + column) % 2 == 0
    return is_below or row == down and abs(column - right) == 1


def edges(sizes, joined, lattice, losses):
    """The edges of a lattice with their multiplicities: each neighbour counts, also if it is one across a border."""
    extents, found = sizes[::-1], Counter()
    places = [*itertools.product(*map(range, extents))]
    images = [[-1, 0, 1] if is_joined else [0] for is_joined in joined[::-1]]
    for vertex, place in enumerate(places):
        neighbours = 0
        for head, other in enumerate(places):
            for image in itertools.product(*images):
                moved = [at + extent * by for at, extent, by in zip(other, extents, image)]
                if beside(lattice, place, moved):
                    found[vertex, head] += 1
                    neighbours += 1
        degree = {"square": 2 * len(sizes), "triangular": 6, "hexagonal": 3}[lattice]
        found[vertex, len(places)] += degree - neighbours + losses[vertex]
    return +found


def counted(graph):
    found = Counter()
    for tail, head, mult in graph.edges:
        found[tail, head] += mult
    return found


@ways.once
class Lattices(unittest.TestCase):
    def compared(self, sizes, joined, lattice, loss, losses):
        with self.subTest(sizes=sizes, joined=joined, lattice=lattice, loss=loss):
            if all(joined) and not any(losses):
                with self.assertRaisesRegex(ValueError, "periodic on all sides"):
                    chipfire.grid(*sizes, periodic=joined, loss=loss, lattice=lattice)
                return
            graph = chipfire.grid(*sizes, periodic=joined, loss=loss, lattice=lattice)
            self.assertEqual(counted(graph), edges(sizes, joined, lattice, losses))
            self.assertEqual(graph.shape, (math.prod(sizes[1:]), sizes[0]))
            self.assertEqual((graph.sink, graph.wrong), (math.prod(sizes), ""))

    def test_small_ones_have_the_edges_of_a_plain_rule(self):
        lattices = ("square", "triangular", "hexagonal")
        for lattice, width, height in itertools.product(lattices, range(1, 5), range(1, 5)):
            least, even = 2, lattice == "hexagonal"
            ways = [[False, True] if it >= least and not (even and it % 2) else [False] for it in (width, height)]
            for joined in itertools.product(*ways):
                count = width * height
                for loss, losses in [(0, [0] * count), (2, [2] * count), ({0: 3}, [3] + [0] * (count - 1))]:
                    self.compared((width, height), joined, lattice, loss, losses)

    def test_three_and_four_directions(self):
        for sizes in [(2, 3, 2), (3, 2, 3), (1, 2, 3), (2, 2, 2, 2)]:
            for joined in itertools.product(*([False, True] if it > 1 else [False] for it in sizes)):
                self.compared(sizes, joined, "square", 1, [1] * math.prod(sizes))
                self.compared(sizes, joined, "square", 0, [0] * math.prod(sizes))

    def test_a_grid_and_a_region_are_what_they_were(self):
        self.assertEqual(chipfire.grid(4, 3, periodic=False, loss=0), chipfire.grid(4, 3))
        self.assertEqual(counted(chipfire.grid(4, 3)), edges((4, 3), (False, False), "square", [0] * 12))
        for lattice in ("triangular", "hexagonal"):
            self.assertEqual(chipfire.grid(4, 3, lattice=lattice), chipfire.region([[1] * 4] * 3, lattice))

    def test_losses_come_in_every_form_of_chips(self):
        wanted = chipfire.grid(3, 2, periodic=True, loss=[0, 0, 0, 0, 5, 0])
        for loss in ({4: 5}, {(1, 1): 5}, [[0, 0, 0], [0, 5, 0]], [0, 0, 0, 0, 5, 0, 0]):
            self.assertEqual(chipfire.grid(3, 2, periodic=True, loss=loss), wanted)

    def test_what_is_refused(self):
        for sizes, options, words in [
            ((3, 3), {"periodic": True}, "takes a loss"), ((1, 3), {"periodic": True, "loss": 1}, "2 or more"),
            ((3, 4), {"periodic": True, "loss": 1, "lattice": "hexagonal"}, "has an even size"),
            ((3, 4, 5), {"lattice": "triangular"}, "3 directions"), ((3, 3), {"lattice": "cubic"}, "cubic"),
            ((3, 3), {"periodic": (True,)}, "2 directions, and 1"), ((3, 3), {"loss": -1}, "below 0"),
            ((0, 3), {"periodic": True, "loss": 1}, "the width is below 1"),
            ((3, 3, 0), {}, "the size in direction 3 is below 1"), ((3, 3), {"loss": [1, 2]}, "2 vertices"),
        ]:
            with self.assertRaisesRegex(ValueError, words):
                chipfire.grid(*sizes, **options)


class Squares(unittest.TestCase):
    def test_pictures(self):
        report = chipfire.plain(chipfire.grid(3, 2, 2, periodic=(True, False, False)), [*range(12)])
        self.assertEqual(len(str(report.picture()).splitlines()), 4)
        torus = chipfire.grid(4, 4, periodic=True, loss=1, lattice="hexagonal")
        self.assertEqual(str(chipfire.plain(torus, {(1, 2): 3}).picture()).splitlines()[1], "0030")

    def test_a_vertex_is_called_by_its_row_and_column(self):
        grid, hole = chipfire.grid(4, 3), chipfire.region([[1, 1, 1], [1, 0, 1]])
        self.assertEqual([grid.number((row, column)) for row in range(3) for column in range(4)], [*range(12)])
        self.assertEqual([hole.number(it) for it in [(0, 0), (0, 2), (1, 0), (1, 2)]], [0, 2, 3, 4])
        self.assertEqual(chipfire.torus(4, 3).number((0, 0)), 0)
        for graph, place in [(grid, (3, 0)), (grid, (0, 4)), (grid, (-1, 0)), (hole, (1, 1)), (grid, (0, 0, 0)),
                             (grid, ("a", 0)), (chipfire.complete(4), (0, 0))]:
            with self.assertRaisesRegex(KeyError, "no vertex"):
                graph.number(place)
        named = chipfire.Graph(3, 2, [(0, 1), (1, 2)], [(0, 1), (0, 0), "s"], shape=(1, 2))
        self.assertEqual(named.number((0, 0)), 1)

    def test_wherever_a_name_is_taken(self):
        grid = chipfire.grid(3, 3)
        self.assertEqual(chipfire.plain(grid, {(1, 1): 5}), chipfire.plain(grid, {4: 5}))
        self.assertEqual(grid.max_stable()[1, 1], 3)
        sizes = [chipfire.drops(grid, 3, drops).size.tolist() for drops in ([(1, 1), (0, 2)], [4, 2])]
        self.assertEqual(sizes[0], sizes[1])
        ends = [chipfire.avalanche(grid, 3, vertex).configuration for vertex in ((1, 1), 4)]
        self.assertEqual(ends[0], ends[1])
        with self.assertRaisesRegex(ValueError, "twice"):
            grid.chips({(1, 1): 1, 4: 1})


@ways.once
class GridFor(unittest.TestCase):
    def test_the_largest_pile_for_each_square_stays_in_it(self):
        for half in range(2, 9):
            chips = math.ceil(2 * math.pi * (half - 1) ** 2) - 1
            graph = chipfire.grid_for(chips)
            self.assertGreater(chipfire.grid_for(chips + 1).vertices, graph.vertices)
            self.assertEqual(graph.shape, (2 * half + 1, 2 * half + 1))
            self.assertEqual(graph.number((half, half)), graph.sink // 2)
            report = slow_report(graph, [chips * (it == graph.sink // 2) for it in range(graph.vertices)])
            self.assertEqual(report.chips[graph.sink], 0)

    def test_what_is_too_much(self):
        self.assertEqual(chipfire.grid_for(1_000_000).shape, (801, 801))
        with self.assertRaisesRegex(ValueError, "more than 2097152"):
            chipfire.grid_for(2**40)


if __name__ == "__main__":
    unittest.main()
