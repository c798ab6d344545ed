"""Chips dropped one after another: against the slow player of examples/play.py, and by hand."""
import array
import itertools
import os
import random
import signal
import sys
import threading
import unittest
from unittest import mock

import chipfire
from chipfire.backend import kept, portions
from strategies import drawn
from test_counts import GRAPHS, slow_report
from test_package import CHIPS_FILE, TRIANGLE, TRIANGLE_FILE, WithFolder
from test_sandpiles import has


def slow_rows(graph, chips, drops):
    """Size, area and dissipated chips of each drop (vertex, chips), and the chips at the end, by the slow player."""
    left = slow_report(graph, chips).chips
    for vertex, count in drops:
        more = [there + count * (vertex == at) for at, there in enumerate(left)]
        report = slow_report(graph, more)
        left = report.chips
        lost = left[graph.sink] - more[graph.sink]
        yield sum(report.fired), sum(map(bool, report.fired)), lost


def rows_of(found):
    """The rows of what was dropped."""
    return list(zip(found.size.tolist(), found.extent.tolist(), found.lost.tolist()))


def game_with_drops(draw):
    """A graph, chips, and drops of chips on vertices."""
    graph = draw.choice(GRAPHS)
    chips = [draw.randint(0, 9) for _ in range(graph.vertices)]
    return graph, chips, [(draw.randrange(graph.vertices), draw.choice([0, 1, 1, 1, 20])) for _ in range(30)]


class Rows(WithFolder):
    def test_the_triangle_by_hand(self):
        """From 1 and no chip: 2 and 0 fires 0, as 1 and 0 does after it; then 0 and 2 fires 1; at last both fire."""
        for graph, chips in itertools.product((TRIANGLE, TRIANGLE_FILE), ([4, 0, 0], {0: 4}, CHIPS_FILE)):
            found = chipfire.drops(graph, chips, [0, 1, 2, 1, 1])
            self.assertEqual(rows_of(found), [(1, 1, 1), (1, 1, 1), (0, 0, 0), (0, 0, 0), (2, 2, 2)])
            self.assertEqual((found.configuration, len(found)), ({0: 0, 1: 1}, 5))
            self.assertEqual(found.report, slow_report(TRIANGLE, [5, 3, 1]))

    @drawn(game_with_drops, 13)
    def test_rows_are_those_of_the_slow_player(self, game):
        graph, chips, drops = game
        text = "".join(f"{vertex},{count}\n" for vertex, count in drops)
        ones = [(vertex, 1) for vertex, _ in drops]
        for some, given in (
            (drops, self.file("drops.csv", f"vertex,chips\n{text}")),
            (ones, [vertex for vertex, _ in drops]),
        ):
            together = list(chips)
            for vertex, count in some:
                together[vertex] += count
            found = chipfire.drops(graph, chips, given)
            self.assertEqual(rows_of(found), list(slow_rows(graph, chips, some)))
            self.assertEqual(found.report, slow_report(graph, together))

    def test_vertices_come_by_name_from_whatever_has_them(self):
        named = chipfire.Graph(3, 2, TRIANGLE.edges, ["left", (1, 1), "out"])
        found = chipfire.drops(named, {"left": 4}, iter(["left", (1, 1), "out", (1, 1), (1, 1)]))
        self.assertEqual(rows_of(found), [(1, 1, 1), (1, 1, 1), (0, 0, 0), (0, 0, 0), (2, 2, 2)])
        for vertices in (range(2), array.array("i", [0, 1]), (it for it in (0, 1)), {0: "a", 1: "b"}.keys()):
            self.assertEqual(rows_of(chipfire.drops(TRIANGLE, [4, 0, 0], vertices)), [(1, 1, 1), (1, 1, 1)])
        self.assertEqual(rows_of(chipfire.Program().drops(TRIANGLE, 0, [], progress=True)), [])

    @unittest.skipUnless(has("numpy"), "NumPy is not here")
    def test_arrays_of_numpy(self):
        import numpy

        found = chipfire.drops(TRIANGLE, [4, 0, 0], numpy.array([0, 1], "u1"))
        self.assertEqual((type(found.lost), found.lost.dtype, rows_of(found)), (numpy.ndarray, "q", [(1, 1, 1)] * 2))
        with mock.patch("chipfire.ensembles.drops.import_optional", return_value=None):
            found = chipfire.drops(TRIANGLE, [4, 0, 0], numpy.array([0, 1]))
        self.assertEqual((type(found.lost), rows_of(found)), (array.array, [(1, 1, 1)] * 2))

    def test_many_rows_are_read_and_written_in_parts(self):
        with mock.patch("chipfire.ensembles.drops._BYTES", 20), mock.patch("chipfire.ensembles.drops.PART", 3):
            found = chipfire.drops(TRIANGLE, [4, 0, 0], [0, 1] * 20, program=chipfire.find_program())
            self.assertEqual(rows_of(found), [(1, 1, 1)] * 40)

    def test_a_drop_that_a_limit_stops_has_no_row(self):
        # each firing of vertex 0 takes one chip off it that comes back, but for one in 2^20
        graph = chipfire.Graph(3, 2, [(0, 1, 2**20), (0, 2), (1, 0)])
        drops = self.file("drops.csv", f"vertex,chips\n0,1\n2,1\n0,{2**39}\n1,1\n")
        found = chipfire.drops(graph, {}, drops)
        self.assertEqual((rows_of(found), found.report.closed), ([(0, 0, 0), (0, 0, 0)], False))
        self.assertEqual(sum(found.report.chips), 2**39 + 2)
        # here they are almost 2^36, and vertex 1 sends each of them back by a firing of its own
        graph = chipfire.Graph(4, 3, [*[(0, 1, 2**20)] * 65530, (0, 3), (1, 0), (2, 0, 2**20)])
        found = chipfire.drops(graph, graph.max_stable(), [3, 2, 3])
        self.assertEqual((rows_of(found), found.report.over, found.report.fired[1]), ([(0, 0, 0)], (1,), 2**40))
        with self.assertRaises(ValueError):
            list(chipfire.avalanches(graph, graph.max_stable(), [2]))

    def test_what_is_refused(self):
        with self.assertRaisesRegex(KeyError, "no vertex 7"):
            chipfire.drops(TRIANGLE, {}, [0, 7])
        for text, number, place in [("0,1\n3,1\n", 26, (1,)), ("0\n", 24, (0,)), (f"0,{2**40}\n0,1\n", 10, ())]:
            with self.assertRaises(chipfire.Fault) as raised:
                chipfire.drops(TRIANGLE, {}, self.file("drops.csv", f"vertex,chips\n{text}"))
            self.assertEqual((raised.exception.number, raised.exception.place), (number, place))
            self.assertIn("drops.csv", str(raised.exception))

    def test_a_histogram(self):
        found = chipfire.drops(TRIANGLE, [4, 0, 0], [0, 1, 2, 1, 1])
        self.assertEqual((found.histogram(), found.histogram("lost")), ({0: 2, 1: 2, 2: 1}, {0: 2, 1: 2, 2: 1}))
        self.assertEqual(list(found.histogram("extent")), [0, 1, 2])
        self.assertEqual(repr(found), "<Drops: 5 avalanches, 4 firings>")
        with self.assertRaises(ValueError):
            found.histogram("duration")


@unittest.skipUnless(chipfire.find_library(), "the library is not called")
class Interrupted(unittest.TestCase):
    """After an interrupt all drops before are there, and what they left."""

    GRID = chipfire.grid(6, 5)
    NAMES = chipfire.from_edges({"source": "aabb", "target": "abcs", "weight": [2, 1, 3, 1]}, "s", loops="sage")

    def check(self, graph, start, on, amounts, found, has_fired):
        """What is found has the first drops, by the slow player."""
        made, free = len(found), graph.loop_free
        drops = [(graph.number(name), amount) for name, amount in zip(on, amounts)][:made]
        chips = [there - its for there, its in zip(graph.chips(start), graph.loops or [0] * graph.vertices)]
        self.assertEqual(rows_of(found), list(slow_rows(free, chips, drops)))
        together = [there + sum(amount for vertex, amount in drops if vertex == at) for at, there in enumerate(chips)]
        report = slow_report(free, together)
        self.assertEqual((found.report.fired, found.report.closed), (report.fired, True))
        self.assertEqual(found.report.chips, tuple(graph.with_loops(report.chips)))
        if has_fired:
            lengths = [end - begin for begin, end in zip(found.fired.offsets.tolist(), found.fired.offsets[1:].tolist())]
            self.assertEqual((lengths, len(found.fired.vertices)), (found.extent.tolist(), sum(lengths)))
            self.assertEqual(sum(found.fired.counts.tolist()), sum(found.size.tolist()))

    def test_it_may_come_anywhere(self):
        """Where one function after another begins or ends that drops take: what was made before is returned, or an interrupt
        is raised if that comes before or after the drops."""
        on = [*chipfire.random_drops(self.GRID, 30, 3)]
        amounts, has_numpy = [1 + 6 * (at % 5 == 2) for at in range(30)], has("numpy")
        rooms = {"chipfire.ensembles.drops", "chipfire.ensembles.firings", "chipfire.backend.kept", "chipfire.backend.portions"}
        lengths, raised = set(), 0
        for durations in (False, True):
            number, is_over = 1, False
            while not is_over:
                number = left = number + 7

                def trace(frame, event, _):
                    nonlocal left
                    is_there = frame.f_globals.get("__name__") in rooms and frame.f_code.co_name != "_free"
                    if is_there and event in ("call", "return"):
                        left -= 1
                        if not left:
                            raise KeyboardInterrupt
                        return trace

                is_traced = sys.gettrace()
                options = {"amounts": amounts, "fired": has_numpy, "durations": durations, "partial": True}
                with mock.patch.multiple(kept, _LIGHT=0, _FEW_CHIPS=3, _FIRST_VISITS=2, GRACE=0.05):
                    sys.settrace(trace)
                    try:
                        found = chipfire.drops(self.GRID, 3, on, **options)
                    except KeyboardInterrupt:
                        raised += 1
                        continue
                    finally:
                        sys.settrace(is_traced)
                        is_over = left > 0
                self.check(self.GRID, 3, on, amounts, found, has_numpy)
                lengths.add(len(found))
            self.assertEqual(len(found), 30)
        # (how many drops a call of the library has depends on the time that they take)
        self.assertTrue({0, 30} < lengths and raised > 4, (lengths, raised))

    def test_a_signal_while_a_thread_makes_a_drop_that_does_not_end(self):
        self.addCleanup(signal.signal, signal.SIGINT, signal.signal(signal.SIGINT, signal.default_int_handler))
        for graph, start in ((self.GRID, 3), (self.NAMES, self.NAMES.max_stable())):
            on, calls, may_end = [*chipfire.random_drops(graph, 30, 3)], [], threading.Event()
            before = {*threading.enumerate()}

            def endless(words):
                calls.append(1)
                if len(calls) == 3:
                    os.kill(os.getpid(), signal.SIGINT)
                    may_end.wait(100)
                return words()

            def apart(work, between):
                return portions.apart(lambda: endless(work), between)

            with mock.patch.multiple(kept, _MANY_VERTICES=0, GRACE=0.05, apart=apart):
                found = chipfire.drops(graph, start, on, durations=True, fired=has("numpy"), partial=True)
            self.assertTrue(1 < len(found) < 30)
            self.check(graph, start, on, [1] * 30, found, has("numpy"))
            may_end.set()
            for thread in {*threading.enumerate()} - before:
                thread.join(60)
            self.check(graph, start, on, [1] * 30, found, has("numpy"))
            self.assertEqual(found.duration.tolist(), chipfire.drops(graph, start, on[: len(found)], durations=True).duration.tolist())

    def test_without_it_an_interrupt_is_raised(self):
        stop = mock.patch.object(chipfire.ensembles.drops, "fall", side_effect=KeyboardInterrupt)
        for options in ({}, {"partial": False}, {"durations": True}):
            with stop, self.assertRaises(KeyboardInterrupt):
                chipfire.drops(self.GRID, 3, [0, 1], **options)
        with stop:
            self.assertEqual(len(chipfire.drops(self.GRID, 3, [0, 1], partial=True)), 0)
        with mock.patch.object(kept.KeptPile, "play", side_effect=KeyboardInterrupt), self.assertRaises(KeyboardInterrupt):
            chipfire.drops(self.GRID, 3, [0, 1], partial=True)

    def test_all_drops_if_there_is_no_interrupt(self):
        on = [*chipfire.random_drops(self.GRID, 30, 3)]
        one, other = (chipfire.drops(self.GRID, 3, on, partial=it) for it in (False, True))
        self.assertEqual((rows_of(one), one.report), (rows_of(other), other.report))

    def test_what_takes_the_library(self):
        with self.assertRaisesRegex(ValueError, "some drops did is measured for vertices, and not for a file"):
            chipfire.drops(TRIANGLE, 0, CHIPS_FILE, partial=True)
        with self.assertRaisesRegex(ValueError, "some drops did is measured by the library, and not by a program"):
            chipfire.drops(TRIANGLE, 0, [0], partial=True, program="another")
        with mock.patch("chipfire.backend.library.loaded", return_value=None):
            self.assertRaises(chipfire.ProgramNotFound, chipfire.drops, TRIANGLE, 0, [0], partial=True)


class Random(unittest.TestCase):
    def test_the_same_seed_draws_the_same(self):
        grid = chipfire.grid(4, 3)
        first, again, other = (list(chipfire.random_drops(grid, 9999, seed)) for seed in (1, 1, 2))
        self.assertEqual((first, len(first), {*first}), (again, 9999, {*range(12)}))
        self.assertNotEqual(first, other)
        self.assertEqual(first, random.Random(1).choices(range(12), k=9999))

    def test_the_sink_is_never_drawn_and_nothing_more_than_is_wanted(self):
        graph = chipfire.Graph(3, 0, [(1, 0), (2, 0)], ["out", "left", "right"])
        some = itertools.islice(chipfire.random_drops(graph, 10**12, 1), 100)
        self.assertEqual({*some}, {"left", "right"})
        self.assertEqual(list(chipfire.random_drops(TRIANGLE_FILE, 0, 1)), [])
        for count in (-1, 0.5):
            with self.assertRaises((TypeError, ValueError)):
                chipfire.random_drops(graph, count, 1)
        self.assertEqual(list(chipfire.random_drops(chipfire.Graph(1, 0, []), 0, 1)), [])
        with self.assertRaisesRegex(ValueError, "only its sink"):
            chipfire.random_drops(chipfire.Graph(1, 0, []), 1, 1)

    def test_a_float_that_is_whole_is_the_seed_of_its_number(self):
        grid, wanted = chipfire.grid(4, 3), random.Random(3).choices(range(12), k=99)
        for seed in (3, 3.0, -3.0):
            self.assertEqual(list(chipfire.random_drops(grid, 99, seed)), wanted)
        self.assertEqual(*(chipfire.random_recurrent(grid, seed) for seed in (3, 3.0)))
        for seed in ("3", b"3", bytearray(b"3"), 2.5):
            drawn = list(chipfire.random_drops(grid, 99, seed))
            self.assertEqual(drawn, random.Random(seed).choices(range(12), k=99))
            self.assertNotEqual(drawn, wanted)

    def test_what_is_no_seed_is_refused_by_its_name(self):
        seeds = [[3], (3, 4), {3: 4}, 3j, float("nan"), random.Random(3), object()]
        if has("numpy"):
            import numpy

            seeds += [numpy.random.RandomState(3)]
            seeds += [numpy.array([3]), numpy.array([3, 4]), numpy.array("3"), numpy.datetime64(3, "D")]
        grid, setting = chipfire.grid(4, 3), chipfire.Setting(TRIANGLE, 3)
        for seed in seeds:
            for call in (lambda: chipfire.random_drops(grid, 9, seed), lambda: chipfire.random_recurrent(grid, seed),
                         lambda: chipfire.random_schedule(setting, seed)):
                with self.subTest(seed=seed), self.assertRaises(TypeError) as raised:
                    call()
                kinds = "a number, a text, bytes, or a Generator or SeedSequence of NumPy"
                self.assertEqual(str(raised.exception), f"a seed is {kinds}, and no {type(seed).__name__}")

    @unittest.skipUnless(has("numpy"), "NumPy is not here")
    def test_a_seed_may_be_a_number_of_numpy(self):
        import numpy

        grid = chipfire.grid(4, 3)
        for seed in numpy.arange(3):
            self.assertEqual(*(list(chipfire.random_drops(grid, 99, it)) for it in (seed, int(seed))))
            self.assertEqual(*(chipfire.random_recurrent(grid, it) for it in (seed, int(seed))))


if __name__ == "__main__":
    unittest.main()
