"""The inverse of the reduced Laplacian: against all recurrent configurations of small graphs, and published formulas."""
import random
import unittest
from fractions import Fraction

import chipfire
from test_counts import slow_report
from test_ensembles import MULTIGRAPH
from test_sandpile_words import recurrent_ones
from test_sandpiles import has
from ways import once

#: A graph whose edges go one way, with multiplicities.
DIRECTED = chipfire.Graph(4, 3, [(0, 1, 2), (1, 2), (1, 0), (2, 0), (2, 3, 2), (0, 3)])
ONE_WAY = chipfire.Graph(4, 1, [(0, 2), (2, 3), (3, 0), (3, 1)])


def kinds():
    """Whether the numbers are exact: fractions always are, and floats are there with SciPy."""
    return (True, False) if has("scipy") else (True,)


@once
class Green(unittest.TestCase):
    def near(self, one, other):
        self.assertLess(abs(one - other), 1e-9 * max(1, abs(other)))

    def test_it_is_the_mean_number_of_firings_over_all_recurrent_configurations(self):
        for graph in (chipfire.grid(2, 2), MULTIGRAPH, DIRECTED, ONE_WAY, chipfire.cycle(5), chipfire.complete(4)):
            inner = [it for it in range(graph.vertices) if it != graph.sink]
            starts = recurrent_ones(graph)
            exact = chipfire.green(graph, exact=True)
            for vertex in inner:
                fired = [0] * len(inner)
                for start in starts:
                    chips = [*start]
                    chips.insert(graph.sink, 0)
                    chips[vertex] += 1
                    report = slow_report(graph, chips)
                    fired = [one + report.fired[it] for one, it in zip(fired, inner)]
                means = [Fraction(it, len(starts)) for it in fired]
                self.assertEqual(exact.row(graph.names[vertex]), means)
                size = exact.mean_sizes()[inner.index(vertex)]
                self.assertEqual(size, sum(means))
                for kind in kinds():
                    for other, mean in zip(inner, means):
                        self.near(chipfire.green(graph, exact=kind)[graph.names[vertex], graph.names[other]], mean)

    def test_hitting_times_are_those_of_walks(self):
        for kind in kinds():
            # (a walk on a path between two sinks, from step k of n: k times n less k)
            for n in (2, 5, 9):
                times = chipfire.green(chipfire.path(n - 1), exact=kind).hitting_times()
                for step, time in enumerate(times, 1):
                    self.near(time, step * (n - step))
            # (each step solves one equation: one step, and what is left from the next vertex)
            for graph in (DIRECTED, ONE_WAY, MULTIGRAPH):
                inner = [it for it in range(graph.vertices) if it != graph.sink]
                times = dict(zip(inner, chipfire.green(graph, exact=kind).hitting_times()))
                for vertex in inner:
                    steps = [(times.get(head, 0), mult) for tail, head, mult in graph.edges if tail == vertex]
                    degree = sum(mult for _, mult in steps)
                    self.near(times[vertex], 1 + sum(time * mult for time, mult in steps) / Fraction(degree))

    def test_resistances_are_those_of_the_textbooks(self):
        for kind in kinds():
            for n in (4, 7):
                ring, clique = chipfire.green(chipfire.cycle(n), exact=kind), chipfire.green(chipfire.complete(n), exact=kind)
                names = [*chipfire.cycle(n).names]
                for one in range(n):
                    for other in range(n):
                        apart = abs(one - other)
                        self.near(ring.resistance(names[one], names[other]), Fraction(apart * (n - apart), n))
                        self.near(clique.resistance(one, other), Fraction(2 * (one != other), n))
            # (two edges side by side, then one: 1/2 + 1)
            chain = chipfire.Graph.undirected([("a", "b", 2), ("b", "s")], "s")
            self.near(chipfire.green(chain, exact=kind).resistance("a"), Fraction(3, 2))

    @unittest.skipUnless(has("scipy"), "SciPy is not here")
    def test_the_mean_size_on_64_by_64_is_that_of_dhar(self):
        """153.04 firings on average, from the sum of the inverse (Dhar, 1990; Luebeck and Usadel, 1997, have it too)."""
        found = chipfire.green(chipfire.grid(64, 64))
        self.assertEqual(round(float(found.mean_sizes().sum()) / 4096, 2), 153.04)
        self.assertEqual(repr(found), "<Green: 4096 by 4096>")

    @unittest.skipUnless(has("scipy"), "SciPy is not here")
    def test_both_kinds_are_one_on_drawn_graphs(self):
        draw = random.Random(11)
        for _ in range(20):
            size = draw.randrange(1, 7)
            edges = [(tail, draw.randrange(tail), draw.randrange(1, 4)) for tail in range(1, size + 1)]
            edges += [(draw.randrange(1, size + 1), draw.randrange(1, size + 1), 1) for _ in range(size)]
            graph = chipfire.Graph(size + 1, 0, [it for it in edges if it[0] != it[1]])
            exact, floats = chipfire.green(graph, exact=True), chipfire.green(graph)
            for one in range(1, size + 1):
                for other in range(1, size + 1):
                    self.near(floats[one, other], float(exact[one, other]))

    def test_what_is_refused(self):
        exact = chipfire.green(MULTIGRAPH, exact=True)
        self.assertRaisesRegex(ValueError, "'s' is the sink", exact.row, "s")
        self.assertRaisesRegex(ValueError, "'s' is the sink", lambda: exact["a", "s"])
        self.assertRaises((KeyError, ValueError), exact.row, "z")
        self.assertRaisesRegex(ValueError, "up to 200 vertices", chipfire.green, chipfire.grid(15, 14), exact=True)
        self.assertRaisesRegex(ValueError, "leads to the sink", chipfire.green, chipfire.Graph(3, 2, [(0, 1), (1, 0)]))


if __name__ == "__main__":
    unittest.main()
