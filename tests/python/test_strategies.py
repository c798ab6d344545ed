"""What tests draw: that a test gets it all, and that what fails is shown in its smallest form."""
import random
import unittest
from unittest import mock

import chipfire
import strategies
from strategies import drawn, piles, random_graph, shown


def failures_of(test):
    """What a test says that fails, or nothing."""
    case = type("Case", (unittest.TestCase,), {"test": test})("test")
    result = case.run()
    return [said for _, said in [*result.failures, *result.errors]]


class Drawn(unittest.TestCase):
    @unittest.skipUnless(
        strategies.hypothesis, "Hypothesis is not here: numbered generators draw instead"
    )
    def test_hypothesis_shows_the_smallest_that_fails(self):
        def pile(draw):
            graph = random_graph(draw, draw.randint(2, 6), 3)
            return graph, piles(draw, graph, 0, 99)

        def test(self, game):
            self.assertLess(max(game[1]), 7)

        (said,) = failures_of(drawn(pile, 100)(test))
        # (two vertices are the fewest, and one edge to the sink is on each graph)
        self.assertIn("(Graph(2, 0, [(1, 0, 1)]), (7))", said)

    def test_numbered_generators_draw_the_same_each_time(self):
        for soak, count in (("", 5), ("3", 5), ("7", 7)):
            drawn_values = []
            with mock.patch.object(strategies, "hypothesis", None), mock.patch.dict(
                "os.environ", CHIPFIRE_SOAK=soak
            ):
                test = drawn(random.Random.random, 5)(lambda self, value: drawn_values.append(value))
            self.assertEqual(failures_of(test), [])
            self.assertEqual(drawn_values, [random.Random(number).random() for number in range(count)])

    def test_what_fails_for_some_number_fails(self):
        some = [random.Random(number).randrange(4) for number in range(40)]
        self.assertEqual(set(some), {0, 1, 2, 3})
        for bound, is_failing in ((3, True), (4, False)):
            with mock.patch.object(strategies, "hypothesis", None):
                test = drawn(lambda draw: draw.randrange(4), 40)(
                    lambda self, value: self.assertLess(value, bound)
                )
            self.assertEqual(bool(failures_of(test)), is_failing)

    def test_graphs_are_shown_with_their_edges(self):
        graph = chipfire.Graph(3, 2, [(0, 1), (1, 2, 5)])
        self.assertEqual(
            shown([graph, 7, ("a", 2)]), "(Graph(3, 2, [(0, 1, 1), (1, 2, 5)]), 7, ('a', 2))"
        )
        setting = chipfire.Setting(graph, (1, 2, 3), 9, 2, True)
        self.assertEqual(shown(setting), f"Setting({shown(graph)}, (1, 2, 3), 9, 2, True)")

    def test_each_vertex_of_a_graph_reaches_the_sink(self):
        for number in range(40):
            graph = random_graph(random.Random(number), 2 + number % 9, 3)
            self.assertFalse(graph.wrong)


if __name__ == "__main__":
    unittest.main()
