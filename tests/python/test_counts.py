"""Counts of firings from anywhere, which are verified or begin a play: against the slow player of examples/play.py."""
import itertools
import os
import random
import unittest

import chipfire
import play
from strategies import random_graph
from test_package import CHIPS_FILE, EXAMPLES, TRIANGLE, TRIANGLE_FILE, WithFolder, text_of
from test_sandpile_words import DIRECTED
from test_sandpiles import has

GRAPHS = [*DIRECTED.values(), chipfire.grid(3, 2), *(random_graph(random.Random(n), n, 3) for n in range(2, 10))]


def slow_report(graph, chips, limit=2**40):
    """The report of the slow player."""
    of_file, left = {"vertices": graph.vertices, "sink": graph.sink, "edges": graph.edges}, list(chips)
    fired = play.play(of_file, left, limit, random.Random(1))
    return chipfire.Report.parse(play.report(of_file, left, fired), graph)


def games():
    """Graphs with chips, and the report of the slow player."""
    for number, graph in enumerate(GRAPHS):
        draw = random.Random(number)
        chips = [draw.randint(0, 20) for _ in range(graph.vertices)]
        yield graph, chips, slow_report(graph, chips)


class Verify(unittest.TestCase):
    def test_the_report_of_the_triangle_in_every_form(self):
        report = chipfire.plain(TRIANGLE, [4, 0, 0])
        counts = ([2, 1, 0], [2, 1], {0: 2, 1: 1}, report.odometer, [2.0, 1.0])
        forms = (report, f"{EXAMPLES}/triangle/report.json", *counts)
        for graph, chips in itertools.product((TRIANGLE, TRIANGLE_FILE), ([4, 0, 0], {0: 4}, CHIPS_FILE)):
            for claim in forms:
                self.assertIs(chipfire.verify(graph, chips, claim), True)
                self.assertIs(chipfire.verify(graph, {0: 5}, claim), False)
        self.assertTrue(chipfire.Program().verify(TRIANGLE, CHIPS_FILE, report, progress=True))

    def test_counts_are_verified_where_the_slow_player_has_them(self):
        for graph, chips, report in games():
            with self.subTest(graph=graph, chips=chips):
                self.assertTrue(chipfire.verify(graph, chips, report))
                self.assertTrue(chipfire.verify(graph, chips, report.fired))
                for vertex, by in itertools.product(range(graph.vertices), (-1, 1, 2**41)):
                    others = [count + by * (vertex == at) for at, count in enumerate(report.fired)]
                    self.assertFalse(chipfire.verify(graph, chips, others))
                others = [count + (at != graph.sink) for at, count in enumerate(report.fired)]
                self.assertFalse(chipfire.verify(graph, chips, others))

    def test_what_else_a_report_says_is_verified_too(self):
        report = chipfire.plain(TRIANGLE, [5, 0, 0], limit=2)
        self.assertTrue(chipfire.verify(TRIANGLE, [5, 0, 0], report, limit=2))
        self.assertTrue(chipfire.verify(TRIANGLE, [5, 0, 0], report.fired, limit=2))
        for limit in (None, 1, 3):
            self.assertFalse(chipfire.verify(TRIANGLE, [5, 0, 0], report, limit=limit))
        for claim in (chipfire.Report((2, 0, 3), (2, 1, 0)), chipfire.Report((1, 1, 3), (2, 1, 0), (0,)),
                     chipfire.Report((2, 0, 3), (2, 1, 0), (), (0,))):
            self.assertFalse(chipfire.verify(TRIANGLE, [5, 0, 0], claim, limit=2))

    def test_stages_are_verified_together(self):
        last = chipfire.resume(TRIANGLE, chipfire.plain(TRIANGLE, [5, 0, 0], limit=1))
        self.assertTrue(chipfire.verify(TRIANGLE, [5, 0, 0], last))
        self.assertTrue(chipfire.verify(TRIANGLE, [5, 0, 0], last.total))
        self.assertFalse(chipfire.verify(TRIANGLE, [5, 0, 0], last.fired))

    def test_what_can_be_no_report_of_the_graph_is_refused(self):
        other = chipfire.plain(chipfire.path(5), 1)
        for claim in (other, [1], [1, 2, 3, 4], [0.5, 0, 0], "no such file"):
            with self.assertRaises((ValueError, TypeError, OSError)):
                chipfire.verify(TRIANGLE, [5, 0, 0], claim)

    @unittest.skipUnless(has("numpy"), "NumPy is not here")
    def test_arrays_of_numpy(self):
        import numpy

        grid = chipfire.grid(3, 2)
        counts = numpy.array(slow_report(grid, [7] * 6 + [0]).fired[:6]).reshape(2, 3)
        self.assertTrue(chipfire.verify(grid, 7, counts.astype(float)))
        self.assertFalse(chipfire.verify(grid, 7, counts + 1))


class Guesses(WithFolder):
    def test_a_guess_changes_no_result(self):
        for graph, chips, report in games():
            draw, inner = random.Random(1), [int(at != graph.sink) for at in range(graph.vertices)]
            more, less = ([max(count + by * it, 0) for count, it in zip(report.fired, inner)] for by in (1, -1))
            drawn, great = ([it * draw.choice(range(0, most, most // 8)) for it in inner] for most in (8, 2**63))
            for guess in (report, report.fired, report.odometer, more, less, drawn, great, 2**64 + 1, {}):
                with self.subTest(graph=graph, chips=chips, guess=guess):
                    self.assertEqual(chipfire.plain(graph, chips, guess=guess), report)
            first = slow_report(graph, chips, 2)
            self.assertEqual(chipfire.plain(graph, chips, limit=2, guess=report), first)

    def test_a_guess_is_handed_on_in_rows_or_by_its_name(self):
        line = 'for it; do case $it in --guess=*) cat "${it#--guess=}" >' + self.file("handed") + "; esac; done"
        program = self.program(line)
        last = chipfire.Report((1, 1, 3), (1, 0, 0), prior=(1, 1, 0))
        for guess in ([2, 1, 0], {0: 2, 1: 1}, last, self.file("guess.csv", "vertex,fired\n0,2\n1,1\n")):
            chipfire.plain(TRIANGLE, [4, 0, 0], guess=guess, program=program)
            self.assertEqual(text_of(self.file("handed")), "vertex,fired\n0,2\n1,1\n")
            os.remove(self.file("handed"))

    def test_a_guess_of_a_file_that_is_a_report(self):
        chipfire.plain(TRIANGLE, [9, 0, 0]).write(self.file("report.json"))
        self.assertEqual(chipfire.plain(TRIANGLE, [4, 0, 0], guess=self.file("report.json")).fired, (2, 1, 0))

    def test_what_is_no_guess_of_the_graph(self):
        for guess in ([1], [1, 2, 3, 4], [-1, 0, 0], chipfire.plain(chipfire.path(5), 1)):
            with self.assertRaises(ValueError):
                chipfire.plain(TRIANGLE, [5, 0, 0], guess=guess)
        with self.assertRaises(chipfire.Fault) as raised:
            chipfire.plain(TRIANGLE, [5, 0, 0], guess=self.file("guess.csv", "vertex,fired\n0,1\n7,1\n"))
        self.assertEqual((raised.exception.number, raised.exception.place), (26, (1,)))
        self.assertIn("guess.csv", str(raised.exception))


if __name__ == "__main__":
    unittest.main()
