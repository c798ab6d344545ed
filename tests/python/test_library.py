"""The library in this process: which calls go to it, its arrays, and many configurations and drops at once.

All small cases are compared with the slow player of examples/play.py. With CHIPFIRE each call starts the program, and
the tests of arrays are skipped.
"""
import contextlib
import dataclasses
import inspect
import io
import itertools
import os
import pickle
import random
import re
import shutil
import signal
import subprocess
import sys
import tempfile
import time
import unittest
import warnings
from array import array
from unittest import mock

import chipfire
import without
from chipfire.backend import kept, library
from test_counts import GRAPHS, slow_report
from test_drops import rows_of, slow_rows
from test_package import CHIPS_FILE, TRIANGLE, TRIANGLE_FILE, WithFolder
from test_sandpile_words import DIRECTED, recurrent_ones
from test_sandpiles import has

SMALL = [*DIRECTED.values(), TRIANGLE, chipfire.path(3), chipfire.cycle(4), chipfire.Graph(1, 0, [])]
IS_HERE = chipfire.find_library() is not None


def configurations(graph, more):
    """All chips below the degree of each vertex plus `more`; the sink has two."""
    degrees = graph.degrees()
    ranges = [[2] if vertex == graph.sink else range(degree + more) for vertex, degree in enumerate(degrees)]
    return [*itertools.product(*ranges)]


def zeros(length):
    return array("Q", bytes(8 * length))


def clock(process):
    """The seconds of a clock that stands still while the main thread of a process could run and has no processor."""
    waited = 0
    try:
        with open(f"/proc/{process}/schedstat", encoding="ascii") as file:
            waited = int(file.read().split()[1])
    except OSError:  # (which not every system has)
        pass
    return time.monotonic() - waited / 1e9


def kinds():
    """What makes an array of numbers, of each kind that is here."""
    yield lambda numbers: array("Q", numbers)
    if has("numpy"):
        import numpy
        yield lambda numbers: numpy.array(numbers, "u8")


class Many(unittest.TestCase):
    def test_all_small_configurations_come_to_what_the_slow_player_finds(self):
        for graph in SMALL:
            rows = configurations(graph, 2)
            with self.subTest(graph=graph):
                wanted = [slow_report(graph, row).chips for row in rows]
                self.assertEqual([tuple(row) for row in chipfire.stabilize_many(graph, rows)], wanted)
        self.assertEqual(len(chipfire.stabilize_many(TRIANGLE, [])), 0)
        with self.assertRaisesRegex(chipfire.Fault, "fault 2 Sink"):
            chipfire.stabilize_many(chipfire.Graph(2, 2, [(0, 1)]), [])

    def test_all_small_configurations_are_recurrent_that_more_chips_lead_to(self):
        for graph in SMALL:
            inner = [vertex for vertex in range(graph.vertices) if vertex != graph.sink]
            wanted, rows = recurrent_ones(graph) if inner else {()}, configurations(graph, 1)
            rows += [tuple(count - 3 for count in row) for row in rows]
            with self.subTest(graph=graph):
                found = chipfire.are_recurrent(graph, rows)
                self.assertEqual(found, [tuple(row[vertex] for vertex in inner) in wanted for row in rows])
                self.assertEqual(found, [chipfire.is_recurrent(graph, row) for row in rows])
        self.assertEqual(chipfire.are_recurrent(TRIANGLE, iter([])), [])

    def test_configurations_come_in_every_form(self):
        wanted = [(1, 0, 3)] * 5 + [(1, 0, 0)]
        rows = [[4, 0, 0], [4, 0], {0: 4}, array("q", [4, 0, 0]), CHIPS_FILE, chipfire.Configuration(TRIANGLE, [1, 0])]
        for graph in (TRIANGLE, TRIANGLE_FILE):
            self.assertEqual([tuple(row) for row in chipfire.stabilize_many(graph, iter(rows))], wanted)
            self.assertEqual(chipfire.are_recurrent(graph, rows), [False] * 5 + [True])
        grid = chipfire.grid(3, 2)
        found = chipfire.stabilize_many(grid, [[[4, 0, 0], [0, 0, 0]]])
        self.assertEqual(tuple(found[0]), slow_report(grid, [4, 0, 0, 0, 0, 0, 0]).chips)

    @unittest.skipUnless(has("numpy"), "NumPy is not here")
    def test_an_array_comes_of_an_array(self):
        import numpy

        rows = numpy.random.default_rng(1).integers(0, 9, (50, TRIANGLE.vertices))
        for given in (rows, rows.astype("u1"), rows.astype(float), numpy.asfortranarray(rows)):
            found = chipfire.stabilize_many(TRIANGLE, given)
            self.assertEqual((found.shape, found.dtype), ((50, 3), "q"))
            self.assertEqual(found.tolist(), [list(slow_report(TRIANGLE, row).chips) for row in rows.tolist()])
        self.assertEqual(chipfire.stabilize_many(TRIANGLE, rows[:0]).shape, (0, 3))
        with mock.patch("chipfire.configurations.stabilization.import_optional", return_value=None):
            self.assertEqual(chipfire.stabilize_many(TRIANGLE, rows), list(map(tuple, found.tolist())))

    def test_what_is_no_configuration_is_reported_with_its_row(self):
        for row, refusal, said in [
            ([0, -1, 0], ValueError, "chips in row 1 of vertex 1 is below 0: -1"), ([[]], ValueError, "row"),
            ([0, 0.5, 0], TypeError, "chips in row 1 of vertex 1 is no whole number: 0.5"),
            ({7: 1}, KeyError, "no vertex 7"), ([0] * 4, ValueError, "chips in row 1 for 4 vertices"),
        ]:
            with self.subTest(row=row), self.assertRaisesRegex(refusal, said):
                chipfire.stabilize_many(TRIANGLE, [[0, 0, 0], row])
        for call in (chipfire.stabilize_many, chipfire.are_recurrent):
            for given in ({0: 4}, chipfire.Configuration(TRIANGLE, [4, 0]), CHIPS_FILE):
                with self.assertRaisesRegex(TypeError, "configurations are rows"):
                    call(TRIANGLE, given)
        with self.assertRaisesRegex(TypeError, "row 0 .* no whole number: 0.5"):
            chipfire.are_recurrent(TRIANGLE, [[0.5, 0, 0]])
        with self.assertRaises(chipfire.Fault) as raised:
            chipfire.stabilize_many(TRIANGLE, [[0, 0, 0], [0, 2**40, 1]])
        self.assertEqual((raised.exception.number, raised.exception.name, raised.exception.place), (10, "Total", ()))

    def test_plays_that_are_not_over(self):
        graph = chipfire.Graph(3, 2, [(0, 1, 2**20), (0, 2), (1, 0)])
        with self.assertRaisesRegex(ValueError, "fired 2.40 times"):
            chipfire.stabilize_many(graph, [[1, 0, 0], [2**40, 0, 0]])


class Amounts(unittest.TestCase):
    def test_all_small_drops_are_those_of_the_slow_player(self):
        for graph in (TRIANGLE, DIRECTED["a ring one way"]):
            some = [*itertools.product(range(graph.vertices), (0, 1, 5))]
            for first, second in itertools.product(some, some):
                at, amounts = zip(first, second, first)
                found = chipfire.drops(graph, 1, at, amounts=amounts)
                chips = [int(vertex != graph.sink) for vertex in range(graph.vertices)]
                with self.subTest(graph=graph, at=at, amounts=amounts):
                    self.assertEqual(rows_of(found), list(slow_rows(graph, chips, zip(at, amounts))))
                    for vertex, count in zip(at, amounts):
                        chips[vertex] += count
                    self.assertEqual(found.report, slow_report(graph, chips))

    def test_many_drops_are_several_calls(self):
        draw = random.Random(2)
        for graph in GRAPHS[:4]:
            drops = [(draw.randrange(graph.vertices), draw.randrange(4)) for _ in range(50)]
            chips, (at, amounts) = [9] * graph.vertices, zip(*drops)
            for quick in (0, 6, 50):
                ticks = itertools.chain([0] * quick, itertools.count())
                with mock.patch("time.monotonic", side_effect=ticks), mock.patch("chipfire.ensembles.drops.PART", 3):
                    found = chipfire.drops(graph, chips, at, amounts=amounts)
                self.assertEqual(rows_of(found), list(slow_rows(graph, chips, drops)))

    def test_amounts_come_in_every_form(self):
        for amounts in ([4, 0], (4.0, 0), iter([4, 0]), array("B", [4, 0])):
            self.assertEqual(rows_of(chipfire.drops(TRIANGLE, 0, [0, 1], amounts=amounts)), [(3, 2, 3), (0, 0, 0)])
        if has("numpy"):
            import numpy
            found = chipfire.drops(TRIANGLE, 0, numpy.array([0, 1]), amounts=numpy.array([4, 0], "u1"))
            self.assertEqual((rows_of(found), found.size.dtype), ([(3, 2, 3), (0, 0, 0)], "q"))

    def test_what_is_refused(self):
        for amounts, refusal, said in [
            ([1], ValueError, "2 drops, and 1 amount"), ([1, -1], ValueError, "chips of drop 1 is below 0: -1"),
            ([0.5, 1], TypeError, "chips of drop 0 is no whole number: 0.5"),
        ]:
            with self.assertRaisesRegex(refusal, said):
                chipfire.drops(TRIANGLE, 0, [0, 1], amounts=amounts)
        with self.assertRaisesRegex(ValueError, "says itself"):
            chipfire.drops(TRIANGLE, 0, TRIANGLE_FILE, amounts=[1])
        for amounts in ([2**40, 1], [2**90, 0]):
            with self.assertRaises(chipfire.Fault) as raised:
                chipfire.drops(TRIANGLE, 0, [0, 1], amounts=amounts)
            self.assertEqual((raised.exception.number, raised.exception.place), (10, ()))


class Ways(WithFolder):
    """Which way a call goes."""

    def counted(self):
        """What counts how often the program is started."""
        return mock.patch("chipfire.backend.process._started", wraps=chipfire.backend.process._started)

    def test_short_plays_start_no_program(self):
        grid = chipfire.grid(4, 4)
        most = grid.max_stable()
        with self.counted() as started:
            report = chipfire.plain(grid, {5: 99}, limit=20, guess=3)
            chipfire.verify(grid, {5: 99}, report, limit=20)
            chipfire.verify(grid, {5: 99}, report.fired, limit=20)
            chipfire.drops(grid, most, [1, 2, 3], amounts=[1, 2, 3])
            (most + chipfire.identity(grid)).stabilize().is_recurrent()
            chipfire.avalanche(grid, most, 5), chipfire.burning_script(grid), chipfire.add(grid, most, most)
            chipfire.stabilize_many(grid, [9] * 3), chipfire.are_recurrent(grid, [3] * 3)
        (self.assertEqual if IS_HERE else self.assertGreater)(started.call_count, 0)

    def test_what_is_the_program_s_starts_it(self):
        grid, file = chipfire.grid(4, 4), self.file("chips.csv", "vertex,chips\n5,9\n")
        first = chipfire.plain(grid, {5: 9}, limit=1)
        for call in (
            lambda: chipfire.plain(grid, {5: 9}, program=chipfire.find_program()), lambda: chipfire.plain(grid, file),
            lambda: chipfire.plain(TRIANGLE_FILE, {0: 9}), lambda: chipfire.Program().plain(grid, {5: 9}),
            lambda: chipfire.resume(grid, first, program=chipfire.find_program()), lambda: chipfire.run(grid, {5: 9}),
            lambda: chipfire.drops(grid, 0, [1], program=chipfire.find_program()),
        ):
            with self.counted() as started:
                call()
            self.assertGreater(started.call_count, 0)

    def test_progress_guesses_and_stages_start_no_program(self):
        grid = chipfire.grid(4, 4)
        first = chipfire.plain(grid, {5: 99}, limit=4)
        with self.counted() as started, contextlib.redirect_stderr(io.StringIO()):
            whole = chipfire.plain(grid, {5: 99}, progress=True)
            self.assertEqual(chipfire.plain(grid, {5: 99}, guess=whole, progress=True), whole)
            self.assertTrue(chipfire.verify(grid, {5: 99}, whole, progress=True))
            self.assertTrue(chipfire.verify(grid, {5: 99}, whole.fired, progress=True))
            last = chipfire.resume(grid, first, progress=True)
            self.assertEqual((last.chips, last.total, last.prior), (whole.chips, whole.fired, first.fired))
            chipfire.drops(grid, 3, [1, 2], amounts=[1, 2**20], progress=True)
        self.assertEqual(started.call_count > 0, not IS_HERE)

    @contextlib.contextmanager
    def in_portions(self, visits=1, spread=0):
        """Plays in portions of so many visits, calls on many games with as many in all, and drops of two chips in portions."""
        with contextlib.ExitStack() as stack:
            of_piles = {"_FIRST_VISITS": 1, "_MOST_VISITS": 1, "_LIGHT": spread, "_FEW_CHIPS": 1}
            stack.enter_context(mock.patch.multiple(kept, **of_piles))
            stack.enter_context(mock.patch.object(library, "_VISITS", visits))
            yield stack.enter_context(self.counted())

    @unittest.skipUnless(IS_HERE, "the library is not called")
    def test_what_progress_shows_only_rises(self):
        grid, shown = chipfire.grid(6, 6), []
        for call, said, least in [
            (lambda: chipfire.plain(chipfire.grid(20, 20), {210: 5000}, progress=True), r"chipfire: ([0-9,]+) firings", 5),
            (lambda: chipfire.drops(grid, 3, range(30), progress=True), "chipfire: ([0-9]+) of 30 drops", 2),
            (lambda: chipfire.drops(grid, 3, range(30), durations=True, progress=True), "chipfire: ([0-9]+) of 30 drops", 2),
        ]:
            lines = mock.patch.multiple("chipfire.progress", _LINES=0, import_optional=lambda *_: None)
            with self.in_portions(), lines, contextlib.redirect_stderr(io.StringIO()) as told:
                found = call()
            counts = [int(re.fullmatch(said, line)[1].replace(",", "")) for line in told.getvalue().splitlines()]
            self.assertEqual(counts, sorted(counts))
            self.assertGreaterEqual(len(counts), least)
            shown.append((counts[-1], sum(found.fired) if isinstance(found, chipfire.Report) else len(found)))
        self.assertEqual([last for last, _ in shown], [whole for _, whole in shown])

    @unittest.skipUnless(IS_HERE, "the library is not called")
    def test_a_function_gets_how_many_drops_are_made(self):
        grid, reports = chipfire.grid(6, 6), []
        for options in ({}, {"durations": True}, {"partial": True}):
            reports.clear()
            with self.in_portions(), mock.patch("chipfire.progress._CALLS", 0):
                chipfire.drops(grid, 3, range(30), progress=lambda *its: reports.append(its), **options)
            self.assertEqual((reports[0], reports[-1], reports), ((1, 30), (30, 30), sorted({*reports})))

    def test_plays_in_portions_are_the_same(self):
        chain = chipfire.Graph(3, 2, [(0, 1, 10), (1, 0), (0, 2)])
        long = slow_report(chain, [300, 0, 0])
        for call, wanted in [
            (lambda: chipfire.plain(chain, [300, 0]), long),
            (lambda: chipfire.plain(chain, [300, 0], limit=7), slow_report(chain, [300, 0, 0], 7)),
            (lambda: chipfire.verify(chain, [300, 0], long), True),
            (lambda: chipfire.verify(chain, [300, 0], slow_report(chain, [30, 0, 0])), False),
        ]:
            with self.in_portions() as started:
                self.assertEqual(call(), wanted)
            self.assertEqual(started.call_count > 0, not IS_HERE)

    @unittest.skipUnless(IS_HERE, "the library is not called")
    def test_long_plays_are_made_in_portions_and_interrupted_between_two(self):
        grid, readings = chipfire.grid(60, 60), []

        def clock():
            readings.append(1)
            if len(readings) > 7:
                raise KeyboardInterrupt
            return 0.0

        with self.in_portions() as started:
            with mock.patch.object(kept.time, "monotonic", clock), self.assertRaises(KeyboardInterrupt):
                chipfire.plain(grid, {(30, 30): 10**6})
            found = chipfire.plain(grid, {(3, 3): 50})
        self.assertEqual(started.call_count, 0)
        self.assertEqual(found, chipfire.plain(grid, {(3, 3): 50}))

    def test_many_games_of_which_some_are_long(self):
        # (a call makes no more visits than this, and what it does not end is played in portions)
        chain = chipfire.Graph(3, 2, [(0, 1, 10), (1, 0), (0, 2)])
        games = [[300, 0, 0], [30, 0, 0], [1, 0, 5], [0, 90, 0]] * 9
        wanted = [slow_report(chain, chips).chips for chips in games]
        for visits, workers in itertools.product((0, 50, 5000, 2**26), (1, 3)):
            with self.in_portions(visits) as started:
                found = chipfire.stabilize_many(chain, games, workers=workers)
            self.assertEqual([*map(tuple, found)], wanted, (visits, workers))
            self.assertEqual(started.call_count > 0, not IS_HERE)

    def test_what_may_be_long_is_found_by_plays_in_portions(self):
        """Where a trial comes to no end, the stabilizations are played here, and no call finds the whole."""
        for graph in SMALL[:-1]:
            rows = [chips for chips in configurations(graph, 1)][:: 1 + graph.vertices]
            calls = [chipfire.burning_script, chipfire.identity, lambda it: chipfire.are_recurrent(it, rows)]
            for name in ("recurrent_representative", "superstable_representative", "inverse"):
                calls += [lambda it, name=name, row=row: getattr(chipfire, name)(it, row) for row in rows[:4]]
            for call in calls:
                other = pickle.loads(pickle.dumps(graph))
                with mock.patch.object(kept.KeptPile, "ends_soon", return_value=False), self.in_portions() as started:
                    found = call(other)
                self.assertEqual(found, call(graph))
                # (a play that has nothing to do starts no program either)
                self.assertFalse(started.call_count and IS_HERE)

    def test_reports_are_verified_whatever_is_short(self):
        for graph in (SMALL[0], TRIANGLE, SMALL[-1]):
            chips, limits = [9] * graph.vertices, [0, 1, 2, 5, 2**40]
            reports = [slow_report(graph, chips, limit) for limit in limits]
            less = dataclasses.replace(reports[-1], chips=(reports[-1].chips[0] - 2**41, *reports[-1].chips[1:]))
            for visits, (limit, right) in itertools.product((0, 50, 2**26), zip(limits, reports)):
                with self.subTest(graph=graph, visits=visits, limit=limit), self.in_portions(visits) as started:
                    found = [chipfire.verify(graph, chips, report, limit=limit) for report in [*reports, less]]
                self.assertEqual(found, [report == right for report in [*reports, less]])
                self.assertEqual(started.call_count > 0, not IS_HERE)

    def test_a_claim_that_fires_more_is_not_verified(self):
        """The chips that it leaves are its own, and stable ones: only the counts are too high."""
        refused = 0
        for graph in (TRIANGLE, chipfire.path(3), chipfire.cycle(4)):
            chips = [9] * graph.vertices
            right = slow_report(graph, chips)
            for more in itertools.product(range(3), repeat=graph.vertices):
                counts = [fired + it * (at != graph.sink) for at, (fired, it) in enumerate(zip(right.fired, more))]
                ends = graph.position_after(chips, counts)
                if min(ends) < 0 or not chipfire.is_stable(graph, ends):
                    continue
                claim = dataclasses.replace(right, fired=tuple(counts), chips=tuple(ends))
                for visits in (0, 2**26):
                    with mock.patch.object(library, "_VISITS", visits):
                        self.assertEqual(chipfire.verify(graph, chips, claim), claim == right, claim)
                refused += claim != right
        self.assertGreater(refused, 0)

    def test_a_guess_of_a_play_that_is_not_short(self):
        for graph in (SMALL[0], TRIANGLE, chipfire.path(3)):
            right = slow_report(graph, [90] * graph.vertices)
            for visits, limit in itertools.product((0, 50, 2**26), (3, 2**40)):
                with mock.patch.object(library, "_VISITS", visits):
                    for guess in (right, 1, 10**6, [count // 2 for count in right.fired]):
                        found = chipfire.plain(graph, [90] * graph.vertices, limit=limit, guess=guess)
                        self.assertEqual(found, slow_report(graph, [90] * graph.vertices, limit))

    @unittest.skipUnless(IS_HERE, "the library is not called")
    def test_a_library_of_another_version_is_not_called(self):
        self.addCleanup(library._beside.cache_clear)
        library._beside.cache_clear()
        with mock.patch.object(library, "version", return_value="0.0.1"), warnings.catch_warnings(record=True) as warned:
            warnings.simplefilter("always")
            self.assertIsNone(chipfire.find_library())
            self.assertEqual(chipfire.plain(TRIANGLE, [4, 0, 0]).fired, (2, 1, 0))
        self.assertEqual(len(warned), 1)
        self.assertRegex(str(warned[0].message), r"libchipfire.so has version [0-9.]+, and the package 0.0.1")

    @unittest.skipUnless(IS_HERE, "the library is not called")
    def test_a_copy_of_the_folder_has_no_version_and_calls_none(self):
        copied = os.path.join(self.folder, "chipfire")
        shutil.copytree(os.path.dirname(chipfire.__file__), copied, ignore=shutil.ignore_patterns("program", "version"))
        built = os.path.dirname(os.path.realpath(chipfire.find_program()))
        ask = "import chipfire; print(chipfire.find_library(), chipfire.plain(chipfire.path(2), [5, 0, 0]).fired)"
        path = f"{built}:{os.environ['PATH']}"
        environment = without.environment(self.folder, PATH=path)
        ran = subprocess.run([sys.executable, "-c", ask], env=environment, capture_output=True, encoding="utf-8")
        self.assertRegex(ran.stderr, "libchipfire.so has version [0-9.]+, and the package unknown")
        self.assertEqual(ran.stdout, f"None {chipfire.plain(chipfire.path(2), [5, 0, 0]).fired}\n")

    @unittest.skipUnless(IS_HERE, "the library is not called")
    def test_it_lies_beside_the_program_or_where_one_installs_it(self):
        file, program = os.path.realpath(chipfire.find_library()), os.path.realpath(chipfire.find_program())
        proved = os.path.join(os.path.dirname(program), "PROVED")
        ask = "import chipfire; print(chipfire.find_library())"
        package = os.path.dirname(os.path.dirname(chipfire.__file__))
        beside, installed = "apart/PROVED", "share/doc/chipfire/PROVED"
        for place, library_at, stated_at, found in [
            ("apart", "apart/libchipfire.so", beside, True), ("apart", "lib/libchipfire.so", beside, False),
            ("bin", "lib/libchipfire.so", installed, True),
            ("bin", "lib/x86_64-linux-gnu/libchipfire.so", installed, True),
            ("bin", "loaded/libchipfire.so.1", installed, False),
        ]:
            with self.subTest(place=place, at=library_at), tempfile.TemporaryDirectory() as folder:
                for name, source in ((f"{place}/chipfire", program), (library_at, file), (stated_at, proved)):
                    os.makedirs(f"{folder}/{os.path.dirname(name)}", exist_ok=True)
                    shutil.copy(source, f"{folder}/{name}")
                named = f"from chipfire import library; library.find_program = lambda: '{folder}/{place}/chipfire'"
                words, loads = [sys.executable, "-c", f"{named}; {ask}"], {"LD_LIBRARY_PATH": f"{folder}/loaded"}
                ran = subprocess.run(words, env=without.environment(package, **loads), capture_output=True, encoding="utf-8")
                self.assertEqual((ran.stdout, ran.stderr), (f"{folder}/{library_at}\n" if found else "None\n", ""))

    def test_the_environment_names_the_program_alone(self):
        with mock.patch.dict(os.environ, {"CHIPFIRE": chipfire.find_program()}):
            self.assertIsNone(chipfire.find_library())
            with self.assertRaises(chipfire.ProgramNotFound):
                library.stabilize_all(TRIANGLE, zeros(3), zeros(3), zeros(1))

    def test_an_interrupt_ends_what_is_long(self):
        begins = (f"import chipfire, signal, time\n{inspect.getsource(clock)}signal.signal(signal.SIGINT, signal.default_int_handler)\n"
                  "grid = chipfire.grid(60, 60)\nlarge = chipfire.grid(511, 511)\ntry:\n    print('begun', flush=True)\n")
        catches = "\nexcept KeyboardInterrupt:\n    print(clock('self'))\n    raise"
        for call in (
            "chipfire.stabilize_many(grid, (9 for _ in range(10**5)))", "chipfire.plain(large, 4)",
            "chipfire.drops(grid, grid.max_stable(), [1800] * 10**7)", "chipfire.plain(large, 4, guess=10**9)",
            "chipfire.stabilize_many(chipfire.grid(20, 20), [{190: 100_000}] * 8000, workers=2)",
            "chipfire.drops(large, 0, [130_000], amounts=[10**9])", "chipfire.Pile(large).drop(130_000, 10**9)",
            "chipfire.identity(large)", "chipfire.inverse(large, large.max_stable())",
            "chipfire.verify(large, 4, [0] * 511**2)", "chipfire.are_recurrent(grid, [{7: 3}] * 10**6)",
            "chipfire.chains(large, 2, 3, 1, chips=0, amounts=10**9, workers=2)",
            "chipfire.chains(large, 2, 3, 1, chips=3, amounts=10**6, durations=True)",
            "chipfire.drops(large, 3, [130_000], amounts=[10**6], durations=True)",
            "chipfire.Pile(large, 2).drops([130_000], amounts=[10**6], durations=True)",
        ):
            if not IS_HERE and ("chains" in call or "durations" in call):
                continue
            with self.subTest(call):
                words = [sys.executable, "-c", f"{begins}    {call}{catches}"]
                pipes = {"stdout": subprocess.PIPE, "stderr": subprocess.PIPE, "encoding": "utf-8"}
                with subprocess.Popen(words, **pipes) as python:
                    python.stdout.readline()
                    begun = clock(python.pid)
                    while clock(python.pid) - begun < 1:
                        time.sleep(0.05)
                    sent = clock(python.pid)
                    python.send_signal(signal.SIGINT)
                    seen, errors = python.communicate(timeout=150)
                self.assertRegex(errors, "KeyboardInterrupt")
                # (half a second on a machine that has nothing else to do)
                self.assertLess(float(seen) - sent, 5)

    def test_threads_play_side_by_side(self):
        from concurrent.futures import ThreadPoolExecutor

        grid = chipfire.grid(5, 5)
        wanted = [slow_report(grid, [count] * 25 + [0]) for count in range(4, 8)]
        with ThreadPoolExecutor(4) as pool:
            found = list(pool.map(lambda count: chipfire.plain(grid, count), [*range(4, 8)] * 25))
        self.assertEqual(found, wanted * 25)


@unittest.skipUnless(IS_HERE, "the library is not called")
class Arrays(unittest.TestCase):
    def test_games_one_after_another(self):
        for make, graph in itertools.product(kinds(), SMALL):
            rows = configurations(graph, 2)
            for limit in (2**40, 1, 0):
                wanted = [slow_report(graph, row, limit) for row in rows]
                chips, fired = make([*itertools.chain(*rows)]), make([7] * len(rows) * graph.vertices)
                stopped = make([7] * len(rows))
                library.stabilize_all(graph, chips, fired, stopped, limit=limit)
                self.assertEqual(chips.tolist(), [*itertools.chain(*(it.chips for it in wanted))])
                self.assertEqual(fired.tolist(), [*itertools.chain(*(it.fired for it in wanted))])
                self.assertEqual(stopped.tolist(), [len(it.over) for it in wanted])
                again = make([*itertools.chain(*rows)])
                library.stabilize_all(graph, again, make([7] * len(fired)), stopped, guesses=fired, limit=limit)
                self.assertEqual(again.tolist(), chips.tolist())

    def test_drops_one_after_another(self):
        for make, graph in itertools.product(kinds(), SMALL):
            draw = random.Random(3)
            drops = [(draw.randrange(graph.vertices), draw.randrange(4)) for _ in range(40)]
            at, amounts = map(make, zip(*drops))
            chips, columns = make([3] * graph.vertices), [make([7] * 40) for _ in range(3)]
            library.avalanches(graph, at, amounts, chips, *columns)
            self.assertEqual([*zip(*(it.tolist() for it in columns))], [*slow_rows(graph, [3] * graph.vertices, drops)])
            together = [3] * graph.vertices
            for vertex, count in drops:
                together[vertex] += count
            self.assertEqual(chips.tolist(), [*slow_report(graph, together).chips])

    def test_nothing_is_handed_over_as_something(self):
        alone = chipfire.Graph(1, 0, [])
        for make in kinds():
            for graph in (alone, TRIANGLE):
                library.stabilize_all(graph, make([]), make([]), make([]))
                chips = make([2] * graph.vertices)
                library.avalanches(graph, make([]), make([]), chips, make([]), make([]), make([]))
                self.assertEqual(chips.tolist(), [*slow_report(graph, [2] * graph.vertices).chips])
        self.assertEqual(chipfire.plain(alone, [3]).chips, (3,))
        self.assertEqual(rows_of(chipfire.drops(alone, [3], [0], amounts=[2])), [(0, 0, 0)])

    def test_a_fault_is_that_of_the_program_and_changes_nothing(self):
        wrong = [chipfire.Graph(0, 0, []), chipfire.Graph(2, 2, []), chipfire.Graph(2, 1, [(0, 5)]),
                 chipfire.Graph(2, 1, [(0, 1), (0, 1, 0)]), chipfire.Graph(3, 2, [(0, 2), (1, 1)]),
                 chipfire.Graph(3, 2, [(0, 2), (2, 1)]), chipfire.Graph(4, 3, [(0, 3), (1, 2), (2, 1)]),
                 chipfire.Graph(2**64 + 2, 1, [(0, 1)])]
        for graph in wrong:
            with self.subTest(graph=graph.columns), self.assertRaises(chipfire.Fault) as raised:
                library.stabilize_all(graph, zeros(min(graph.vertices, 9)), zeros(min(graph.vertices, 9)), zeros(1))
            if graph.vertices < 9:
                with self.assertRaises(chipfire.Fault) as asked:
                    chipfire.check(graph)
                self.assertEqual(raised.exception.args, asked.exception.args)
        arrays = [array("Q", it) for it in ([4, 0, 0, 2**40, 1, 0], [7] * 6, [7] * 2)]
        before = [it[:] for it in arrays]
        with self.assertRaises(chipfire.Fault) as raised:
            library.stabilize_all(TRIANGLE, *arrays)
        with self.assertRaises(chipfire.Fault) as asked:
            chipfire.plain(TRIANGLE, [2**40, 1, 0])
        self.assertEqual((raised.exception.args, arrays), (asked.exception.args, before))
        for at, amounts, limit, number in [
            ([0, 3], [1, 1], 9, 26), ([0, 1], [1, 2**40], 9, 10), ([0, 1], [4, 9], 2, 13), ([0], [1, 1], 9, 12),
        ]:
            arrays = [array("Q", it) for it in (at, amounts, [1, 0, 0], [7] * 2, [7] * 2, [7] * 2)]
            before = [it[:] for it in arrays]
            with self.subTest(number), self.assertRaises(chipfire.Fault) as raised:
                library.avalanches(TRIANGLE, *arrays, limit=limit)
            self.assertEqual((raised.exception.number, arrays), (number, before))

    def test_what_is_no_such_array(self):
        good = {"chips": zeros(3), "fired": zeros(3), "stopped": zeros(1)}
        wrong = [[0, 0, 0], (0, 0, 0), 3, None, array("q", [0] * 3), array("d", [0] * 3), bytes(24), "abc"]
        if has("numpy"):
            import numpy
            closed = numpy.zeros(3, "u8")
            closed.flags.writeable = False
            wrong += [closed, numpy.zeros(6, "u8")[::2], numpy.zeros(3), numpy.zeros(3, "q"), numpy.zeros(3, ">u8")]
            wrong += [numpy.asfortranarray(numpy.zeros((3, 3), "u8"))[:, :2]]
        for name, value in itertools.product(good, wrong):
            said = f"^the {name} are no array of 64-bit"
            with self.subTest(name, value=value), self.assertRaisesRegex(TypeError, said):
                library.stabilize_all(TRIANGLE, **{**good, name: value})
        for limit in (-1, 2**40 + 1):
            with self.assertRaisesRegex(ValueError, "^limit is"):
                library.stabilize_all(TRIANGLE, **good, limit=limit)

    def test_no_array_gets_another_length_meanwhile(self):
        arrays = zeros(3), zeros(3), zeros(1)

        def grow(*words):
            for it in arrays:
                with self.assertRaises(BufferError):
                    it.append(0)
            return 12
        with mock.patch.object(library, "loaded", return_value=mock.Mock(chipfire_stabilize_all=grow)):
            with self.assertRaises(chipfire.Fault) as raised:
                library.stabilize_all(TRIANGLE, *arrays)
        self.assertEqual(raised.exception.number, 12)
        for it in arrays:
            it.append(0)

    def test_arrays_do_not_overlap(self):
        both = zeros(4)
        parts = memoryview(both)
        with self.assertRaisesRegex(ValueError, "two of the guesses, chips, fired, stopped overlap"):
            library.stabilize_all(TRIANGLE, both[:3], parts[:3], parts[2:3])
        library.stabilize_all(TRIANGLE, both[:3], parts[:3], parts[3:])
        if has("numpy"):
            import numpy
            both = numpy.zeros(8, "u8")
            with self.assertRaisesRegex(ValueError, "overlap"):
                library.stabilize_all(TRIANGLE, both[:3], both[2:5], zeros(1))
            library.stabilize_all(TRIANGLE, both[:3], both[3:6], both[6:7], guesses=zeros(3))


if __name__ == "__main__":
    unittest.main()
