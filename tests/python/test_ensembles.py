"""Random recurrent configurations and chains of drops: against the slow player of examples/play.py, and by counting.

Chains take the library: with CHIPFIRE, which names a program, they are refused.
"""
import contextlib
import copy
import itertools
import math
import operator
import os
import pickle
import random
import signal
import subprocess
import sys
import tempfile
import threading
import unittest
from collections import Counter
from concurrent.futures import ThreadPoolExecutor
from unittest import mock

import chipfire
from chipfire import utils as values
from chipfire.backend import kept, portions
from chipfire.backend.portions import Portions
from chipfire.ensembles import archive, player, wilson
from test_counts import slow_report
from test_drops import rows_of, slow_rows
from test_package import CHIPS_FILE, TRIANGLE
from test_sandpile_words import recurrent_ones
from test_sandpiles import has

IS_HERE = chipfire.find_library() is not None
#: Edges of several chips, and some to the sink.
MULTIGRAPH = chipfire.Graph.undirected([("a", "b", 2), ("b", "c"), ("a", "s", 3), ("c", "s"), ("c", "b", 2)], "s")
#: Each square of 2 by 2 dissipates one more chip.
LOSSY = chipfire.Graph(5, 4, [*chipfire.grid(2, 2).edges, *((vertex, 4) for vertex in range(4))])


class Stops(player.Watch):
    """A watch that has all stop when it was asked so many times."""

    def __init__(self, left):
        self.left = left
        super().__init__()

    @property
    def is_stopped(self):
        self.left -= 1
        return self.left < 0

    @is_stopped.setter
    def is_stopped(self, _):
        pass


class Recurrent(unittest.TestCase):
    def test_all_recurrent_configurations_are_drawn_evenly(self):
        lens = chipfire.Graph.undirected([(0, 1), (0, 2), (1, 2), (1, 3), (2, 3)], 0)
        for graph, order in [(chipfire.grid(2, 2), 192), (MULTIGRAPH, None), (LOSSY, 3 * 5 * 5 * 7),
                             (chipfire.cycle(7), 7), (chipfire.complete(5), 125), (chipfire.grid(2, 1), 15),
                             (chipfire.complete(4), 16), (chipfire.wheel(5), 45), (lens, 8)]:
            wanted = recurrent_ones(graph)
            self.assertEqual(len(wanted), order or len(wanted))
            drawn = chipfire.random_recurrent(graph, 1, 20 * len(wanted))
            counts = Counter(tuple(chips.values()) for chips in drawn)
            self.assertEqual({*counts}, wanted)
            freedom = len(wanted) - 1
            squares = sum((count - 20) ** 2 / 20 for count in counts.values())
            self.assertLess(abs(squares - freedom), 4 * (2 * freedom) ** 0.5, graph)

    def test_a_seed_draws_one_or_many(self):
        grid = chipfire.grid(9, 7)
        many = chipfire.random_recurrent(grid, 5, 40)
        self.assertEqual(chipfire.random_recurrent(grid, 5), many[0])
        self.assertEqual(chipfire.random_recurrent(grid, 5, 20), many[:20])
        self.assertEqual((chipfire.are_recurrent(grid, many), len({*many})), ([True] * 40, 40))
        self.assertEqual(chipfire.random_recurrent(chipfire.Graph(1, 0, []), 1), {})

    def test_what_is_drawn_is_like_any_configuration(self):
        """Its numbers are ints in a tuple, 0 for the sink, with the chips of loops."""
        looped = chipfire.Graph(3, 2, TRIANGLE.edges, loops=[3, 1, 0])
        for graph in (chipfire.grid(4, 3), looped, MULTIGRAPH, LOSSY):
            drawn = [chipfire.random_recurrent(graph, 5), *chipfire.random_recurrent(graph, 5, 9)]
            for one in drawn:
                same = chipfire.Configuration(graph, [*one.numbers])
                self.assertEqual((one, hash(one), one.numbers, repr(one)), (same, hash(same), same.numbers, repr(same)))
                self.assertEqual((type(one.numbers), {*map(type, one.numbers)}, one.numbers[graph.sink]), (tuple, {int}, 0))
                self.assertTrue(one.is_recurrent() and one.is_stable() and pickle.loads(pickle.dumps(one)) == one)

    @unittest.skipUnless(IS_HERE, "the library is not here")
    def test_python_draws_what_the_library_draws(self):
        heavy = chipfire.Graph.undirected([(1, 0, 200), (1, 2, 3), (2, 0), (2, 3), (3, 0, 77)], 0)
        lonely = chipfire.Graph(1, 0, [])
        for graph in (chipfire.grid(12, 9), chipfire.cycle(40), chipfire.complete(9), MULTIGRAPH, LOSSY, heavy, lonely):
            for seed in (1, "a word", 2**70):
                found = chipfire.random_recurrent(graph, seed, 12)
                with mock.patch("chipfire.backend.library.loaded", return_value=None):
                    self.assertEqual(chipfire.random_recurrent(graph, seed, 12), found)

    @unittest.skipUnless(IS_HERE, "the library is not here")
    def test_the_graph_is_made_once(self):
        """Plays and drops between draws change nothing, and the graph is compared and made once."""
        ring = chipfire.torus(9, 7)
        with (mock.patch.object(kept, "KeptPile", side_effect=kept.KeptPile) as made,
              mock.patch.object(wilson, "_first_one_way", side_effect=wilson._first_one_way) as compared):
            first = chipfire.random_recurrent(ring, 5, 3)
            chipfire.drops(ring, first[0], [0, 3, 9])
            self.assertEqual(chipfire.random_recurrent(ring, 5, 3), first)
        self.assertEqual((made.call_count, compared.call_count), (1, 1))

    def test_a_grid_is_not_compared(self):
        for sizes in itertools.product(range(1, 5), repeat=2):
            grid = chipfire.grid(*sizes)
            self.assertIsNone(wilson._first_one_way(grid))
            with mock.patch.object(wilson, "_first_one_way", side_effect=AssertionError):
                wilson.require_undirected(grid)

    def test_which_edges_are_one_way(self):
        """Of all multigraphs of three vertices and the sink, whose edges come in any order."""
        numpy, draw, refused = values.import_optional("numpy"), random.Random(1), 0
        sinks = itertools.cycle((0, 2, 3))
        for sink, mults in zip(sinks, itertools.product([(), (1,), (2,), (1, 1)], repeat=6)):
            inner = [it for it in range(4) if it != sink]
            rows = [(*ends, mult) for ends, many in zip(itertools.permutations(inner, 2), mults) for mult in many]
            rows += [(it, sink, 3) for it in inner]
            draw.shuffle(rows)
            sent = Counter()
            for tail, head, mult in rows:
                sent[tail, head] += mult
            uneven = [it for it, (*ends, _) in enumerate(rows) if sink not in ends and sent[*ends] != sent[*ends[::-1]]]
            graph = chipfire.Graph(4, sink, rows)
            wanted = uneven[0] if uneven else None
            self.assertEqual(wilson._first_by_sums(graph), wanted, (sink, rows))
            if numpy:
                self.assertEqual(wilson._first_by_sort(numpy, graph), wanted, (sink, rows))
            refused += bool(uneven)
            if not uneven:
                wilson.require_undirected(graph)
                continue
            tail, head, _ = rows[uneven[0]]
            told = f"vertex {tail} sends {sent[tail, head]} to {head} and gets {sent[head, tail]} back$"
            with self.assertRaisesRegex(ValueError, f"^the graph is directed: {told}"):
                wilson.require_undirected(graph)
        self.assertEqual(refused, 4**6 - 6**3)

    def test_a_sum_of_chips_may_have_more_than_32_bits(self):
        graph = chipfire.Graph(3, 2, [(0, 2), (1, 2), *[(0, 1, 2**20)] * 2**12])
        with self.assertRaisesRegex(ValueError, f"vertex 0 sends {2**32} to 1 and gets 0 back"):
            wilson.require_undirected(graph)

    def test_what_is_no_graph_to_play_on_is_not_called_directed(self):
        numpy = values.import_optional("numpy")
        for rows, why in [([(0, 1), (1, 0)], "no walk"), ([(0, 2), (0, 1)], "no walk"), ([(0, 5), (1, 2)], "leads from 0 to 5"),
                          ([(0, 2), (2, 1), (1, 2)], "leaves the sink"), ([(0, 2), (1, 2), (1, 1)], "is a loop"),
                          ([(0, 1, 0), (1, 0), (0, 2)], "sends 0 chips")]:
            graph = chipfire.Graph(3, 2, rows)
            self.assertTrue(not numpy or wilson._first_by_sort(numpy, graph) == wilson._first_by_sums(graph), rows)
            for loaded in (chipfire.backend.library.loaded, lambda: None):
                with (mock.patch("chipfire.backend.library.loaded", loaded), mock.patch.object(wilson, "_tree") as drawn,
                      self.assertRaisesRegex(ValueError, why)):
                    chipfire.random_recurrent(graph, 1)
                drawn.assert_not_called()

    @unittest.skipUnless(values.import_optional("numpy"), "NumPy is not here")
    def test_a_large_graph_is_compared_by_numpy(self):
        graph, asked = chipfire.path(3), []
        with (mock.patch.object(wilson, "numpy_in_use", lambda: None),
              mock.patch.object(wilson, "_first_by_sort", lambda *its: asked.append(its))):
            wilson.require_undirected(graph)
            with mock.patch.object(wilson, "_MANY_EDGES", len(graph.edges)):
                wilson.require_undirected(chipfire.path(3))
        self.assertEqual(len(asked), 1)

    def test_progress_and_parts(self):
        grid, reports = chipfire.grid(5, 4), []
        whole = chipfire.random_recurrent(grid, 9, 10)
        with mock.patch.object(Portions, "_note"):  # (so each draws one)
            parts = chipfire.random_recurrent(grid, 9, 10, progress=lambda done, all_: reports.append((done, all_)))
        self.assertEqual((parts, reports[0], reports[-1], reports), (whole, (1, 10), (10, 10), sorted(reports)))

    def test_an_interrupt_returns_those_that_were_drawn(self):
        def interrupts(done, total):
            if done == 4:
                raise KeyboardInterrupt

        loops = chipfire.Graph(4, 3, [(0, 1), (1, 0), (0, 3), (1, 2), (2, 1), (2, 3)], loops=[2, 0, 1, 0])
        for grid in (chipfire.grid(5, 4), MULTIGRAPH, loops):
            whole = chipfire.random_recurrent(grid, 9, 10)
            with mock.patch.object(Portions, "_note"), mock.patch("chipfire.progress._CALLS", 0):  # (so each draws one)
                self.assertEqual(chipfire.random_recurrent(grid, 9, 10, progress=interrupts, partial=True), whole[:4])
                for options in ({"count": 10}, {"count": 10, "partial": False}, {"partial": True}):
                    stop = mock.patch.object(wilson.Progress, "show", side_effect=KeyboardInterrupt)
                    with stop, self.assertRaises(KeyboardInterrupt):
                        chipfire.random_recurrent(grid, 9, **options)
            with mock.patch.object(wilson, "_drawn", side_effect=KeyboardInterrupt), mock.patch("chipfire.backend.library.loaded", return_value=None):
                self.assertEqual(chipfire.random_recurrent(grid, 9, 10, partial=True), [])

    @unittest.skipUnless(IS_HERE, "the library is not here")
    def test_a_thread_draws_on_a_large_graph(self):
        self.addCleanup(signal.signal, signal.SIGINT, signal.signal(signal.SIGINT, signal.default_int_handler))
        grid, calls, may_end, before = chipfire.grid(40, 40), [], threading.Event(), {*threading.enumerate()}
        whole = chipfire.random_recurrent(grid, 9, 10)

        def endless(work):
            calls.append(1)
            if len(calls) == 3:
                os.kill(os.getpid(), signal.SIGINT)
                may_end.wait(100)
            return work()

        def apart(work, between):
            return portions.apart(lambda: endless(work), between)

        with mock.patch.multiple(kept, _SLOW_DRAWS=0, GRACE=0.05, apart=apart), mock.patch.object(Portions, "_note"):
            self.assertEqual(chipfire.random_recurrent(grid, 9, 10, partial=True), whole[:2])
            may_end.set()
            for thread in {*threading.enumerate()} - before:
                thread.join(60)
            self.assertEqual(chipfire.random_recurrent(grid, 9, 10), whole)
            self.assertEqual(len(calls), 13)
        with mock.patch.object(kept, "apart", side_effect=AssertionError("it is soon drawn")):
            self.assertEqual(chipfire.random_recurrent(grid, 9, 10), whole)

    def test_a_configuration_of_a_number_is_the_same_beside_others(self):
        grid = chipfire.grid(5, 4)
        rows = wilson.recurrent_rows(grid, 9, 8)
        width = grid.vertices
        for first, count in ((0, 3), (3, 5), (7, 1)):
            there = rows[first * width : (first + count) * width]
            self.assertEqual(wilson.recurrent_rows(grid, 9, count, first), there)

    def test_what_there_is_no_memory_for_is_refused_before_it_begins(self):
        # (a configuration of 6 squares and the sink takes 7 numbers of 8 bytes, and its start as many; a drop three)
        for call, count in [("chains(g, 2**40, 4, 1)", 2**40 * (4 * 24 + 7 * 16)),
                            ("chains(g, 1, 2**50, 1)", 24 * 2**50 + 112),
                            ("chains(g, 1, 2**30, 1)", 24 * 2**30 + 112), ("random_recurrent(g, 1, 2**40)", 56 * 2**40)]:
            lines = ["import chipfire, resource", "resource.setrlimit(resource.RLIMIT_AS, (2**31, 2**31))",
                     "g = chipfire.grid(3, 2)", f"chipfire.{call}"]
            ran = subprocess.run([sys.executable, "-c", "\n".join(lines)], stderr=subprocess.PIPE, timeout=60)
            said = ran.stderr.decode().splitlines()[-1]
            self.assertRegex(said, f"^MemoryError: .* take {count:,} bytes, and there are 2,147,483,648$")

    def test_what_is_refused(self):
        with self.assertRaisesRegex(ValueError, "'a' sends 2 to 'b' and gets 1 back$"):
            chipfire.random_recurrent(chipfire.Graph(3, 2, [(0, 1, 2), (1, 0), (0, 2)], ["a", "b", "s"]), 1)
        with self.assertRaisesRegex(ValueError, "no walk leads to the sink"):
            chipfire.random_recurrent(chipfire.Graph(3, 2, [(0, 1), (1, 0)]), 1)
        with self.assertRaisesRegex(ValueError, "below 0"):
            chipfire.random_recurrent(TRIANGLE, 1, -1)


class Many(unittest.TestCase):
    def test_workers_play_what_one_does(self):
        grid, draw = chipfire.grid(4, 3), random.Random(1)
        rows = [[draw.randrange(9) for _ in range(13)] for _ in range(10)]
        wanted = [slow_report(grid, row).chips for row in rows]
        for workers, some in itertools.product((1, 2, 3, 64), (0, 1, 10)):
            found = chipfire.stabilize_many(grid, rows[:some], workers=workers)
            self.assertEqual([tuple(row) for row in found], wanted[:some])
        with self.assertRaises(ValueError):
            chipfire.stabilize_many(grid, rows, workers=0)


@unittest.skipUnless(IS_HERE, "chains take the library")
class Chains(unittest.TestCase):
    def test_each_chain_is_a_series_of_random_drops(self):
        for graph, chips in [(chipfire.grid(4, 3), 2), (MULTIGRAPH, 0), (TRIANGLE, [9, 9, 9])]:
            for workers in (1, 3):
                found = chipfire.chains(graph, 5, 40, "seed", chips=chips, workers=workers)
                for chain, seed in enumerate(found.seeds):
                    drops = [(graph.number(it), 1) for it in chipfire.random_drops(graph, 40, seed)]
                    fallen = Counter(vertex for vertex, _ in drops)
                    rows = zip(*(column[chain].tolist() for column in (found.size, found.extent, found.lost)))
                    self.assertEqual(list(rows), list(slow_rows(graph, graph.chips(chips), drops)))
                    together = [there + fallen[at] for at, there in enumerate(graph.chips(chips))]
                    self.assertEqual(found.chips[chain].tolist(), list(slow_report(graph, together).chips))
                self.assertEqual((list(found.made), len({*found.seeds})), ([40] * 5, 5))

    def test_the_seed_is_reported_from_which_all_is_played_again(self):
        grid = chipfire.grid(7, 5)
        for seed, wanted in [(3, 3), ("3", "3"), (None, None), (3.0, 3), (2.5, 2.5), (b"3", b"3"),
                           (bytearray(b"3"), b"3"), (True, 1), (-3, -3)]:
            found = chipfire.chains(grid, 3, 40, seed)
            self.assertTrue(seed is None or (type(found.seed), found.seed) == (type(wanted), wanted), seed)
            again = chipfire.chains(grid, 3, 40, found.seed)
            for one, other in [(found, again), (found, pickle.loads(pickle.dumps(found))), (found, copy.copy(found))]:
                self.assertEqual((one.seed, one.seeds, repr(one)), (other.seed, other.seeds, repr(other)))
                for name in ("size", "extent", "lost", "chips"):
                    self.assertEqual(*([it.tolist() for it in getattr(of, name)] for of in (one, other)))
            self.assertEqual((found, found != again), (found, True))
        one, other = (chipfire.chains(grid, 3, 40, seed) for seed in (3, "3"))
        self.assertNotEqual([it.tolist() for it in one.size], [it.tolist() for it in other.size])

    def test_a_whole_float_is_the_same_seed_as_its_number(self):
        grid = chipfire.grid(4, 4)
        one, other = (chipfire.chains(grid, 2, 30, seed, chips=0) for seed in (3, 3.0))
        self.assertEqual(one.seeds, other.seeds)
        self.assertEqual(*([it.tolist() for it in of.size] for of in (one, other)))

    def test_as_many_threads_play_as_there_are_processors_for_this_process(self):
        grid, threads = chipfire.grid(3, 3), "chipfire.ensembles.spread.Threads"
        for given in ({5}, {1, 2, 6}):
            with mock.patch("os.sched_getaffinity", return_value=given), mock.patch("os.cpu_count", return_value=40):
                with mock.patch(threads, wraps=ThreadPoolExecutor) as pool:
                    chipfire.chains(grid, 9, 5, 1)
                self.assertEqual(pool.call_args[0][0], len(given))
                with mock.patch("chipfire.backend.interrupts.ThreadPoolExecutor", wraps=ThreadPoolExecutor) as pool:
                    chipfire.frames(grid, 5)
                self.assertEqual(pool.call_args[0][0], len(given))
        with mock.patch("os.sched_getaffinity"), mock.patch("os.cpu_count", return_value=3):
            del os.sched_getaffinity
            self.assertEqual(values.processors(), 3)

    def test_chains_begin_with_chips_of_their_own(self):
        grid = chipfire.grid(4, 4)
        starts = chipfire.random_recurrent(grid, 3, 4)
        found = chipfire.chains(grid, 4, 30, 3)
        rows = [[*it.values()] for it in starts]
        squares = [[row[at : at + 4] for at in range(0, 16, 4)] for row in rows]
        reports = [chipfire.plain(grid, it) for it in starts]
        forms = [starts, tuple(starts), [[*it.numbers] for it in starts], rows, squares, reports]
        if has("numpy"):
            import numpy
            forms += [numpy.array([it.numbers for it in starts]), numpy.array(rows), numpy.array(squares)]
        for chips in forms:
            again = chipfire.chains(grid, 4, 30, 3, chips=chips)
            self.assertEqual([it.tolist() for it in again.size], [it.tolist() for it in found.size])
        for chain, start in enumerate(starts):
            alone = chipfire.drops(grid, start, chipfire.random_drops(grid, 30, found.seeds[chain]))
            self.assertEqual(alone.size.tolist(), found.size[chain].tolist())
        files = [chipfire.chains(TRIANGLE, 2, 30, 3, chips=it).chips for it in (CHIPS_FILE, [4, 0, 0])]
        self.assertEqual(*([it.tolist() for it in rows] for rows in files))
        one = chipfire.chains(grid, 4, 30, 3, chips=squares[0])
        self.assertEqual(one.size[0].tolist(), found.size[0].tolist())

    @unittest.skipUnless(has("numpy"), "NumPy is not here")
    def test_the_numbers_without_numpy_are_the_same(self):
        grid = chipfire.grid(5, 3)
        found = chipfire.chains(grid, 3, 2000, 1)
        with contextlib.ExitStack() as hidden:
            for module in ("chains", "player"):
                hidden.enter_context(mock.patch(f"chipfire.ensembles.{module}.import_optional", return_value=None))
            other = chipfire.chains(grid, 3, 2000, 1)
        for name in ("size", "extent", "lost", "chips"):
            self.assertEqual([it.tolist() for it in getattr(other, name)], getattr(found, name).tolist())
        self.assertEqual((other.seeds, list(other.made)), (found.seeds, found.made.tolist()))

    @unittest.skipUnless(has("numpy"), "NumPy is not here")
    def test_what_fired_by_each_drop(self):
        for graph, workers in itertools.product((chipfire.grid(4, 3), MULTIGRAPH, TRIANGLE), (1, 2)):
            found = chipfire.chains(graph, 3, 40, 2, chips=[3] * graph.vertices, fired=True, workers=workers)
            plain = chipfire.chains(graph, 3, 40, 2, chips=[3] * graph.vertices)
            for name in ("size", "extent", "lost", "chips"):
                self.assertEqual(getattr(found, name).tolist(), getattr(plain, name).tolist())
            self.assertEqual(len(found.fired.offsets), 3 * 40 + 1)
            for chain, seed in enumerate(found.seeds):
                left = list(slow_report(graph, [3] * graph.vertices).chips)
                for drop, name in enumerate(chipfire.random_drops(graph, 40, seed)):
                    left[graph.number(name)] += 1
                    report = slow_report(graph, left)
                    begin, end = found.fired.offsets[40 * chain + drop :][:2]
                    pairs = zip(found.fired.vertices[begin:end].tolist(), found.fired.counts[begin:end].tolist())
                    self.assertEqual(list(pairs), [it for it in zip(graph.names, report.fired) if it[1]])
                    left = list(report.chips)

    @unittest.skipUnless(has("numpy"), "NumPy is not here")
    def test_vertices_that_fired_have_their_names(self):
        # (whole numbers that are not those of the vertices, names of any kind, and several sinks)
        square = [(0, 1), (1, 2), (2, 3), (3, 0), (2, 4), (0, 4), (4, 1)]
        kinds = [{0: 4, 4: 0}, {0: 30, 1: -7, 2: 10**12, 3: 1, 4: 2}, {1: "b", 2: (2, 0), 3: "c"}, {0: 2**63}, {1: 1.5}]
        graphs = [chipfire.Graph.undirected([[names.get(it, it) for it in edge] for edge in square], names.get(3, 3))
                  for names in kinds]
        graphs.append(chipfire.Graph.undirected([*square, (4, 5), (5, 6)], [1, 6]))
        for at, graph in enumerate(graphs):
            found = chipfire.chains(graph, 2, 30, 5, fired=True, chips=3)
            self.assertEqual(found.fired.vertices.dtype.kind, "O" if at in (2, 3, 4) else "i")
            offsets, vertices, counts = (it.tolist() for it in found.fired)
            for chain, seed in enumerate(found.seeds):
                left = chipfire.stabilize(graph, 3)
                for drop, name in enumerate(chipfire.random_drops(graph, 30, seed), 30 * chain):
                    begin, end = offsets[drop], offsets[drop + 1]
                    one = chipfire.avalanche(graph, left, name)
                    self.assertEqual(dict(zip(vertices[begin:end], counts[begin:end])), one.fired, graph.names)
                    left = one.configuration
            # (so chips that are dropped there fall where they are said to)
            dropped = chipfire.drops(graph, 0, found.fired.vertices[:20])
            there = [graph.number(name) for name in vertices[:20]]
            chips = slow_report(graph, [there.count(it) for it in range(graph.vertices)]).chips
            self.assertEqual((len(there), dropped.report.chips), (20, chips))

    @unittest.skipUnless(has("numpy"), "NumPy is not here")
    def test_a_chain_stops_after_the_first_drop_that_dissipates_a_chip_or_spans(self):
        def spans(width, height, fired):
            places = [divmod(vertex, width) for vertex, count in enumerate(fired[:-1]) if count]
            rows, columns = ({*it} for it in zip(*places)) if places else ({}, {})
            return {0, height - 1} <= {*rows} or {0, width - 1} <= {*columns}

        for width, height in [(4, 3), (1, 4), (5, 2), (3, 3)]:
            grid, sink = chipfire.grid(width, height), width * height
            for until in ("loss", "spans"):
                found = chipfire.chains(grid, 6, 60, 4, chips=0, until=until, fired=until == "spans", workers=2)
                for chain, seed in enumerate(found.seeds):
                    left, made = [0] * (sink + 1), 0
                    for vertex in chipfire.random_drops(grid, 60, seed):
                        left[vertex] += 1
                        report, made = slow_report(grid, left), made + 1
                        lost, left = report.chips[sink] - left[sink], list(report.chips)
                        if lost if until == "loss" else spans(width, height, report.fired):
                            break
                    self.assertEqual((found.made[chain], found.chips[chain].tolist()), (made, left))
                    self.assertEqual(found.size[chain, made:].sum(), 0)
                    self.assertEqual((found.size[chain, made - 1], found.lost[chain, made - 1]), (sum(report.fired), lost))
                self.assertTrue(1 < min(found.made) and max(found.made) < 60)

    @unittest.skipUnless(has("numpy"), "NumPy is not here")
    def test_a_chain_stops_where_it_does_however_many_calls_play_it(self):
        """With little room for what fires, and where each drop goes in portions, calls stop before the chain does."""
        grid = chipfire.grid(4, 3)
        for until, amounts in itertools.product(("loss", "spans", None), (1, 3)):
            more = {"chips": 1, "until": until, "amounts": amounts}
            one = chipfire.chains(grid, 5, 80, 2, fired=True, **more)
            with mock.patch("chipfire.ensembles.firings._ROOM", 1):
                others = [chipfire.chains(grid, 5, 80, 2, **more, **some)
                          for some in ({"fired": True}, {"durations": True}, {"fired": True, "durations": True}, {})]
            with mock.patch.multiple("chipfire.backend.kept", _FEW_CHIPS=0, _LIGHT=0):
                others += [chipfire.chains(grid, 5, 80, 2, **more, **some) for some in ({"fired": True}, {})]
            for few in (1, 7):
                with mock.patch("chipfire.ensembles.player._FEW", few):
                    others += [chipfire.chains(grid, 5, 80, 2, **more, **some) for some in ({"fired": True}, {})]
            for other in others:
                for name in ("size", "extent", "lost", "made", "chips"):
                    self.assertEqual(getattr(one, name).tolist(), getattr(other, name).tolist())
                if other.fired:
                    self.assertEqual(*([it.tolist() for it in found.fired] for found in (one, other)))

    @unittest.skipUnless(has("numpy"), "NumPy is not here")
    def test_the_mean_size_from_a_recurrent_start_is_that_of_dhar(self):
        """The mean number of firings is the sum of the inverse Laplacian, divided by the number of vertices (1990)."""
        import numpy

        grid = chipfire.grid(7, 6)
        mean = numpy.linalg.inv(numpy.array(chipfire.reduced_laplacian(grid))).sum() / 42
        found = chipfire.chains(grid, 200, 500, 1)
        self.assertLess(abs(found.size.mean() / mean - 1), 0.03)
        self.assertLess(abs(found.lost.mean() - 1), 0.02)

    def test_what_is_refused(self):
        for words, options in [("until 'loss' or 'spans'", {"until": "end"}), ("workers is below", {"workers": 0}),
                               ("for 2 chains", {"chips": [[1] * 3] * 2})]:
            with self.assertRaisesRegex(ValueError, words):
                chipfire.chains(TRIANGLE, 3, 1, 1, **options)
        with self.assertRaisesRegex(ValueError, "only its sink"):
            chipfire.chains(chipfire.Graph(1, 0, []), 1, 1, 1)
        if has("numpy"):
            with self.assertRaisesRegex(ValueError, "no grid"):
                chipfire.chains(chipfire.complete(4), 1, 1, 1, until="spans")
            for sizes, periodic in [((5, 3, 3), False), ((2, 2, 2), False), ((1, 3, 2), False), ((4, 2, 1, 2), False),
                                    ((5, 3, 3), (True, True, False)), ((4, 3, 3), (False, False, True))]:
                with self.assertRaisesRegex(ValueError, "no grid of two directions"):
                    chipfire.chains(chipfire.grid(*sizes, periodic=periodic), 1, 1, 1, until="spans")
            reshaped = chipfire.Graph(37, 36, chipfire.grid(9, 4).edges, shape=(6, 6))
            for graph in (chipfire.grid(4, 3, periodic=True, loss=1), chipfire.grid(4, 3, lattice="triangular", periodic=(True, False)),
                          chipfire.grid(4, 4, lattice="hexagonal"), chipfire.grid(3, 2, 1), chipfire.region([[1, 1], [0, 1]]),
                          reshaped):
                self.assertEqual(chipfire.chains(graph, 1, 9, 1, until="spans").size.shape, (1, 9))
        with mock.patch("chipfire.ensembles.chains.import_optional", side_effect=ImportError("which is not installed")):
            with self.assertRaises(ImportError):
                chipfire.chains(TRIANGLE, 1, 1, 1, chips=0, fired=True)

    def test_without_a_seed_no_two_calls_draw_the_same(self):
        one, other = (chipfire.chains(chipfire.grid(9, 9), 2, 50, None, chips=0) for _ in range(2))
        self.assertEqual(len({*one.seeds, *other.seeds}), 4)
        self.assertNotEqual([it.tolist() for it in one.chips], [it.tolist() for it in other.chips])

    def test_a_histogram_counts_the_drops_that_were_made(self):
        grid = chipfire.grid(4, 3)
        for options in [{}, {"chips": 0, "until": "loss"}][: 1 + has("numpy")]:
            found = chipfire.chains(grid, 3, 60, 2, durations=True, **options)
            for name in ("size", "area", "extent", "lost", "duration"):
                rows = zip(getattr(found, name), found.made)
                counts = Counter(count for row, made in rows for count in row.tolist()[:made])
                self.assertEqual([*found.histogram(name).items()], sorted(counts.items()))
            self.assertEqual(sum(found.histogram().values()), sum(found.made))
        self.assertEqual(chipfire.chains(grid, 2, 0, 1).histogram(), {})
        with self.assertRaisesRegex(ValueError, "no 'radius'"):
            found.histogram("radius")
        with self.assertRaisesRegex(ValueError, "no 'duration'"):
            chipfire.chains(grid, 2, 9, 1).histogram("duration")

    def test_few_drops_and_none(self):
        found = chipfire.chains(TRIANGLE, 2, 0, 1, chips=[4, 0, 0])
        self.assertEqual(([len(row) for row in found.size], repr(found)), ([0, 0], "<Chains: 2 of up to 0 drops>"))
        self.assertEqual([it.tolist() for it in found.chips], [list(slow_report(TRIANGLE, [4, 0, 0]).chips)] * 2)


def most(graph):
    """The greatest stable chips, and none on the sink; and the most that a vertex sends."""
    sent = Counter()
    for tail, _, mult in graph.edges:
        sent[tail] += mult
    return [max(sent[it] - 1, 0) for it in range(graph.vertices)], max(sent.values())


def played_in(graph, chips, seed, count):
    """Chips that so many others play in, by the slow player, one after another."""
    left = list(chips)
    for vertex in random.Random(seed + " burn-in").choices(range(graph.vertices), k=count):
        if vertex != graph.sink:
            left[vertex] += 1
            left = list(slow_report(graph, left).chips)
    left[graph.sink] = chips[graph.sink]
    return left


@unittest.skipUnless(IS_HERE, "chains take the library")
class PlayedIn(unittest.TestCase):
    #: A wheel that turns one way, one with names whose sink is no last vertex, and one with many ways to its sink.
    GRAPHS = [chipfire.Graph(4, 3, [(0, 1), (1, 2), (2, 0), (0, 3), (1, 3), (2, 0, 2)]),
              chipfire.Graph(4, 1, [(0, 2, 2), (2, 3), (3, 0), (3, 1), (2, 1)], ["a", "s", "b", "c"]),
              chipfire.Graph(5, 4, [(0, 1), (0, 2), (1, 3), (2, 3), (2, 1), (3, 4, 2), (1, 4)])]

    def check_chains(self, graph, found, starts):
        """Chains have the drops of the slow player from these starts on."""
        for chain, (seed, start) in enumerate(zip(found.seeds, starts)):
            drops = [(graph.number(it), 1) for it in chipfire.random_drops(graph, 30, seed)]
            rows = zip(*(column[chain].tolist() for column in (found.size, found.extent, found.lost)))
            self.assertEqual(list(rows), list(slow_rows(graph, start, drops)))
            together = [there + sum(vertex == at for vertex, _ in drops) for at, there in enumerate(start)]
            self.assertEqual(found.chips[chain].tolist(), list(slow_report(graph, together).chips))

    def test_starts_on_a_directed_graph_are_played_in(self):
        for graph in self.GRAPHS:
            greatest, sent = most(graph)
            count = 2 * graph.vertices * sent**2
            starts = [played_in(graph, greatest, f"seed {chain}", count) for chain in range(5)]
            self.assertGreater(len({*map(tuple, starts)}), 1)
            with mock.patch.object(player, "PART", 7):
                parts = chipfire.chains(graph, 5, 30, "seed")
            with ThreadPoolExecutor(2) as executor:
                for options in ({"workers": 1}, {"workers": 3}, {"executor": executor}):
                    found = chipfire.chains(graph, 5, 30, "seed", **options)
                    self.check_chains(graph, found, starts)
                    self.assertEqual(found.burn_in, count)
                    self.assertEqual([it.tolist() for it in parts.chips], [it.tolist() for it in found.chips])
            self.assertEqual(repr(found), f"<Chains: 5 of up to 30 drops, starts played in by {count:,} chips>")
            none = chipfire.chains(graph, 3, 0, "seed", first=2)
            self.assertEqual([it.tolist() for it in none.chips], starts[2:])

    def test_so_many_chips_as_are_said_play_in_whatever_starts_there_are(self):
        graph = self.GRAPHS[0]
        rows = [[0, 1, 0, 7], [1, 0, 2, 0]]
        for chips, starts in [(None, [most(graph)[0]] * 2), (rows, rows), (0, [[0] * 4] * 2)]:
            for count in (0, 1, 20):
                found = chipfire.chains(graph, 2, 30, 3, chips=chips, burn_in=count)
                self.check_chains(graph, found, [played_in(graph, *it, count) for it in zip(starts, found.seeds)])
                self.assertEqual(found.burn_in, count)
        self.assertEqual(chipfire.chains(graph, 2, 30, 3, chips=0).burn_in, 0)
        grid = chipfire.grid(3, 2)
        self.assertEqual(chipfire.chains(grid, 2, 30, 3).burn_in, 0)
        drawn = [[*it.numbers] for it in chipfire.random_recurrent(grid, 3, 2)]
        found = chipfire.chains(grid, 2, 30, 3, burn_in=20)
        self.check_chains(grid, found, [played_in(grid, *it, 20) for it in zip(drawn, found.seeds)])

    def test_loops_keep_their_chips(self):
        plain = self.GRAPHS[0]
        one, other = (chipfire.chains(it, 3, 30, 1) for it in (chipfire.Graph(4, 3, plain.edges, loops=[2, 0, 1, 0]), plain))
        self.assertEqual([it.tolist() for it in one.size], [it.tolist() for it in other.size])
        self.assertEqual(one.burn_in, other.burn_in)
        for row, wanted in zip(one.chips, other.chips):
            self.assertEqual(row.tolist(), [there + its for there, its in zip(wanted.tolist(), (2, 0, 1, 0))])

    def test_starts_are_recurrent_and_even(self):
        """Of this graph whose vertices send their chips to the sink two at a time, drops leave all chips odd or even."""
        graph = chipfire.Graph(4, 3, [(0, 1), (0, 2), (1, 3, 2), (2, 1), (2, 3, 2)])
        there, left = set(), [tuple(most(graph)[0])]
        while left:
            chips = left.pop()
            if chips not in there:
                there.add(chips)
                nexts = [list(slow_report(graph, [count + (at == it) for it, count in enumerate(chips)]).chips) for at in range(3)]
                left += [tuple(it[:3] + [0]) for it in nexts]
        self.assertEqual(len(there), 12)
        found = chipfire.chains(graph, 20 * len(there), 0, 5)
        counts = Counter(tuple(it.tolist()) for it in found.chips)
        self.assertEqual({*counts}, there)
        freedom = len(there) - 1
        squares = sum((count - 20) ** 2 / 20 for count in counts.values())
        self.assertLess(abs(squares - freedom), 4 * (2 * freedom) ** 0.5)

    @unittest.skipUnless(has("numpy"), "NumPy is not here")
    def test_the_mean_size_is_that_of_the_inverse_laplacian(self):
        import numpy

        width, height = 5, 6
        ends = [(at, at + width, min(at + width, 30), min((at // width + 1) * width + (at + 1) % width, 30)) for at in range(30)]
        graph = chipfire.Graph(31, 30, [(at, head) for at, _, *heads in ends for head in heads])
        mean = numpy.linalg.inv(numpy.array(chipfire.reduced_laplacian(graph), float)).sum() / 30
        self.assertAlmostEqual(mean, (height + 1) / 4)
        found = chipfire.chains(graph, 300, 60, 1)
        self.assertLess(abs(found.size.mean() / mean - 1), 0.03)
        self.assertLess(abs(found.size[:, :6].mean() / mean - 1), 0.1)

    @unittest.skipUnless(has("numpy"), "NumPy is not here")
    def test_starts_without_numpy_are_the_same(self):
        graph = self.GRAPHS[1]
        found = chipfire.chains(graph, 3, 20, 1, burn_in=3000)
        with contextlib.ExitStack() as hidden:
            for module in ("chains", "player"):
                hidden.enter_context(mock.patch(f"chipfire.ensembles.{module}.import_optional", return_value=None))
            other = chipfire.chains(graph, 3, 20, 1, burn_in=3000)
        for name in ("size", "chips"):
            self.assertEqual([it.tolist() for it in getattr(other, name)], getattr(found, name).tolist())

    def test_results_say_how_starts_were_played_in(self):
        graph = self.GRAPHS[2]
        for collect in ("columns", "histogram"):
            whole = chipfire.chains(graph, 4, 9, 1, collect=collect, burn_in=11)
            one, other, third = (chipfire.chains(graph, 2, 9, 1, first=first, collect=collect, burn_in=count)
                                 for first, count in ((0, 11), (2, 11), (2, 12)))
            self.assertEqual(((one + other).burn_in, repr(one + other)), (11, repr(whole)))
            self.assertTrue(repr(whole).endswith(" drops, starts played in by 11 chips>"))
            with self.assertRaisesRegex(ValueError, "11 chips play some starts in, and 12 others"):
                one + third
            self.assertEqual(pickle.loads(pickle.dumps(whole)).burn_in, 11)
            if has("numpy"):
                with tempfile.TemporaryDirectory() as folder:
                    whole.save(f"{folder}/all.npz")
                    again = type(whole).load(f"{folder}/all.npz")
                self.assertEqual((again.burn_in, repr(again)), (11, repr(whole)))

    def test_files_know_how_starts_were_played_in(self):
        graph = self.GRAPHS[2]
        with tempfile.TemporaryDirectory() as folder:
            for chips, counts in ((None, (11, None)), (0, (11, 0)), (0, (0, 11))):
                file = f"{folder}/{chips}-{counts}"
                options = {"chips": chips, "checkpoint": file}
                whole = chipfire.chains(graph, 4, 9, 1, burn_in=counts[0], **options)
                again = chipfire.chains(graph, 4, 9, 1, burn_in=counts[0], **options)
                self.assertEqual([it.tolist() for it in whole.chips], [it.tolist() for it in again.chips])
                with self.assertRaisesRegex(ValueError, "has chains of other burn_in$"):
                    chipfire.chains(graph, 4, 9, 1, burn_in=counts[1], **options)

    def test_an_older_file_has_no_burn_in(self):
        found = chipfire.chains(chipfire.grid(2, 2), 1, 3, 1)
        for kind, collect in ((chipfire.Chains, "columns"), (chipfire.Histograms, "histogram"))[: 2 * has("numpy")]:
            found = chipfire.chains(chipfire.grid(2, 2), 1, 3, 1, collect=collect)
            save = archive.save
            with tempfile.TemporaryDirectory() as folder:
                with mock.patch.object(archive, "save", lambda file, kind, said, its: (said.pop("burn_in"), save(file, kind, said, its))):
                    found.save(f"{folder}/old.npz")
                self.assertEqual(kind.load(f"{folder}/old.npz").burn_in, 0)

    def test_what_stops_before_a_start_is_played_in_has_none(self):
        graph = self.GRAPHS[0]
        greatest, _ = most(graph)
        start = played_in(graph, greatest, "1 0", 4000)
        seen = set()
        for left in range(60):
            with mock.patch.multiple(kept, _FIRST_VISITS=1, _MOST_VISITS=1), mock.patch.object(player, "PART", 500):
                with mock.patch("chipfire.ensembles.spread.Watch", lambda: Stops(left)):
                    found = chipfire.chains(graph, 1, 0, 1, workers=1, burn_in=4000)
            chips = found.chips[0].tolist()
            self.assertIn(chips, (greatest, start))
            seen.add(tuple(chips))
        self.assertEqual(seen, {tuple(greatest), tuple(start)})
        with mock.patch.object(player, "PART", 500), mock.patch.object(player, "_add_ones") as drawn:
            with mock.patch("chipfire.ensembles.spread.Watch", lambda: Stops(2)):
                chipfire.chains(graph, 1, 0, 1, workers=1, burn_in=4000)
        self.assertEqual(drawn.call_count, 3)
        with mock.patch.object(player._Player, "_has_begun", lambda *_: False):
            found = chipfire.chains(graph, 1, 9, 1)
        self.assertEqual((found.chips[0].tolist(), list(found.made)), (greatest, [0]))

    def test_a_start_that_is_left_is_not_played_in(self):
        """A thread that plays it in does not come to the end before an interrupt has ended the call."""
        self.addCleanup(signal.signal, signal.SIGINT, signal.signal(signal.SIGINT, signal.default_int_handler))
        play, may_end, before = kept.KeptPile.play, threading.Event(), {*threading.enumerate()}

        def endless(pile):
            number = play(pile)
            if threading.current_thread() is not threading.main_thread():
                os.kill(os.getpid(), signal.SIGINT)
                may_end.wait(100)
            return number

        graph = self.GRAPHS[0]
        with mock.patch.object(kept.KeptPile, "play", endless), mock.patch("chipfire.ensembles.spread.GRACE", 0.05):
            found = chipfire.chains(graph, 1, 9, 1, partial=True, workers=1)
        may_end.set()
        for thread in {*threading.enumerate()} - before:
            thread.join(60)
        self.assertEqual((found.chips[0].tolist(), list(found.made)), (most(graph)[0], [0]))

    def test_too_many_chips_by_default_are_refused(self):
        heavy = chipfire.Graph(3, 2, [(0, 1), (1, 0), (0, 2, 2**20), (0, 1)])
        with self.assertRaisesRegex(ValueError, f"directed, and {6 * (2**20 + 2) ** 2:,} chips .* `burn_in=` may say fewer"):
            chipfire.chains(heavy, 1, 1, 1)
        self.assertEqual(list(chipfire.chains(heavy, 1, 1, 1, burn_in=5).made), [1])
        with self.assertRaisesRegex(ValueError, "chips of a burn-in is below 0: -1"):
            chipfire.chains(heavy, 1, 1, 1, burn_in=-1)


def rounds(graph, chips):
    """For how many rounds chips fire, in each of which each legal vertex fires once."""
    chips, count, degrees = list(chips), 0, [0] * graph.vertices
    for tail, _, mult in graph.edges:
        degrees[tail] += mult
    while legal := {it for it, degree in enumerate(degrees) if 0 < degree <= chips[it]}:
        for tail, head, mult in graph.edges:
            if tail in legal:
                chips[tail] -= mult
                chips[head] += mult
        count += 1
    return count


@unittest.skipUnless(IS_HERE, "the library is not here")
@unittest.skipUnless(has("numpy"), "NumPy is not here")
class Measured(unittest.TestCase):
    def test_drops_tell_what_fires_and_for_how_many_rounds(self):
        draw = random.Random(5)
        for graph in (chipfire.grid(4, 3), MULTIGRAPH, TRIANGLE):
            start = [draw.randrange(9) for _ in range(graph.vertices)]
            at = [draw.randrange(graph.vertices) for _ in range(40)]
            amounts = [draw.choice([0, 1, 1, 7]) for _ in at]
            names = [graph.names[it] for it in at]
            found = chipfire.drops(graph, start, names, amounts=amounts, fired=True, durations=True)
            with chipfire.Pile(graph, start) as pile:
                same = pile.drops(names, amounts=amounts, fired=True, durations=True)
            self.assertEqual(rows_of(found), list(slow_rows(graph, start, [*zip(at, amounts)])))
            left = list(slow_report(graph, start).chips)
            for drop, (vertex, amount) in enumerate(zip(at, amounts)):
                left[vertex] += amount
                report = slow_report(graph, left)
                begin, end = found.fired.offsets[drop : drop + 2]
                pairs = zip(found.fired.vertices[begin:end].tolist(), found.fired.counts[begin:end].tolist())
                self.assertEqual(list(pairs), [it for it in zip(graph.names, report.fired) if it[1]])
                self.assertEqual(found.duration[drop], rounds(graph, left))
                left = list(report.chips)
            self.assertEqual(found.report.chips, tuple(left))
            self.assertEqual((rows_of(same), same.duration.tolist()), (rows_of(found), found.duration.tolist()))
            self.assertEqual([it.tolist() for it in same.fired], [it.tolist() for it in found.fired])
            self.assertEqual((same.report, found.report.closed), (found.report, True))

    def test_a_chain_has_the_durations_of_its_drops(self):
        grid = chipfire.grid(5, 4)
        found = chipfire.chains(grid, 2, 30, 3, chips=2, durations=True)
        for chain, seed in enumerate(found.seeds):
            alone = chipfire.drops(grid, 2, chipfire.random_drops(grid, 30, seed), durations=True)
            self.assertEqual(found.duration[chain].tolist(), alone.duration.tolist())
        self.assertIsNone(chipfire.chains(grid, 2, 30, 3, chips=2).duration)

    def test_little_room_is_filled_again_and_again(self):
        grid = chipfire.grid(6, 6)
        on = [*chipfire.random_drops(grid, 200, 2)]
        whole = chipfire.drops(grid, 3, on, fired=True)
        with mock.patch("chipfire.ensembles.firings._ROOM", 0):
            found = chipfire.drops(grid, 3, on, fired=True)
        self.assertEqual(rows_of(found), rows_of(whole))
        self.assertEqual([it.tolist() for it in found.fired], [it.tolist() for it in whole.fired])

    def test_what_fired_is_in_order_whatever_is_put_in_order_at_a_time(self):
        """On few vertices, and on so many that their numbers and those of drops go beyond 16 bits."""
        for width, height, count in [(6, 6, 200), (300, 300, 30)]:
            grid = chipfire.grid(width, height)
            at, middle = [*chipfire.random_drops(grid, count, 2)], width * (height // 2)
            whole = chipfire.drops(grid, 3, [middle, *at], fired=True)
            offsets, vertices, counts = whole.fired
            self.assertEqual(offsets.tolist(), [0, *itertools.accumulate(whole.extent.tolist())])
            total = [0] * grid.vertices
            for begin, end in zip(offsets, offsets[1:]):
                row = vertices[begin:end].tolist()
                self.assertEqual(row, sorted({*row}))
                for vertex, times in zip(row, counts[begin:end].tolist()):
                    total[vertex] += times
            self.assertEqual(sum(total), sum(whole.size.tolist()))
            with chipfire.Pile(grid, 3) as pile:
                before = pile.fired
                pile.drops([middle, *at])
                self.assertEqual(total, [*map(operator.sub, pile.fired, before)])
            for near, apart in [(1, 16), (2, 1), (50, 16), (10**6, 1), (10**6, 10**6)]:
                with (mock.patch("chipfire.ensembles.firings._NEAR", near),
                      mock.patch("chipfire.ensembles.firings._APART", apart)):
                    found = chipfire.drops(grid, 3, [middle, *at], fired=True)
                self.assertEqual([it.tolist() for it in found.fired], [it.tolist() for it in whole.fired])

    def test_the_limit_ends_what_is_measured(self):
        with chipfire.Pile(TRIANGLE, [1, 1, 0], 1) as pile:
            found = pile.drops([0, 2, 0], amounts=[1, 1, 5], fired=True, durations=True)
            self.assertEqual((rows_of(found), found.duration.tolist(), pile.is_stopped), ([(2, 2, 2), (0, 0, 0)], [2, 0], True))
            self.assertEqual([it.tolist() for it in found.fired], [[0, 2, 2], [0, 1], [1, 1]])

    @unittest.skipUnless(has("scipy"), "SciPy is not here")
    def test_rows_are_those_of_a_sparse_matrix(self):
        found = chipfire.drops(MULTIGRAPH, 9, ["a", "c", "a"], fired=True)
        matrix = found.fired.to_scipy(MULTIGRAPH)
        self.assertEqual(matrix.shape, (3, MULTIGRAPH.vertices))
        self.assertEqual(matrix.sum(1).tolist(), found.size.tolist())
        self.assertEqual((matrix.toarray() > 0).sum(1).tolist(), found.extent.tolist())

    def test_radii_of_avalanches_on_a_grid(self):
        """Three full squares in a row: a drop on the middle fires all three. Then a drop on the end fires nothing."""
        grid = chipfire.grid(1, 3)
        found = chipfire.drops(grid, [3, 3, 3], [1, 0], fired=True)
        self.assertEqual((found.extent.tolist(), found.fired.vertices.tolist()), ([3, 0], [0, 1, 2]))
        radius, gyration = found.fired.radii(grid, [1, 0])
        self.assertEqual(radius.tolist(), [1.0, 0.0])
        self.assertAlmostEqual(gyration[0], (2 / 3) ** 0.5)
        self.assertEqual(found.fired.radii(grid, [0, 0])[0].tolist(), [2.0, 0.0])
        with self.assertRaisesRegex(ValueError, "no grid"):
            found.fired.radii(chipfire.complete(4), [0, 0])
        with self.assertRaisesRegex(ValueError, "2 drops, and 1"):
            found.fired.radii(grid, [1])

    def test_radii_are_those_of_the_places_of_squares(self):
        mask = [[1, 1, 0, 1], [0, 1, 1, 1], [1, 0, 0, 1]]
        downward = chipfire.Graph(5, 4, [(0, 1), (0, 2), (1, 3), (1, 4), (2, 3), (2, 4), (3, 4, 2)], shape=(2, 2))
        inner_sink = chipfire.Graph(4, 0, [(1, 0), (1, 3), (2, 0), (2, 3), (3, 1), (3, 2)], shape=(2, 2))
        for graph, rows in [(chipfire.grid(5, 4), [[1] * 5] * 4), (chipfire.grid(3, 4, 1), [[1] * 3] * 4),
                            (chipfire.grid(3, 3, loss=2), [[1] * 3] * 3), (chipfire.path(5), [[1] * 5]), (chipfire.region(mask), mask),
                            (downward, [[1] * 2] * 2), (inner_sink, [[1] * 2] * 2)]:
            places = [(y, x) for y, row in enumerate(rows) for x, is_there in enumerate(row) if is_there]
            on = [it for it in range(graph.vertices) if it != graph.sink]
            found = chipfire.drops(graph, graph.max_stable(), on, fired=True)
            for drop, (radius, gyration) in enumerate(zip(*found.fired.radii(graph, on))):
                begin, end = found.fired.offsets[drop : drop + 2]
                fired = [places[it] for it in found.fired.vertices[begin:end].tolist()]
                self.assertAlmostEqual(radius, max((math.dist(places[on[drop]], it) for it in fired), default=0))
                centre = [sum(way) / len(fired) for way in zip(*fired)]
                squares = sum(math.dist(centre, it) ** 2 for it in fired)
                self.assertAlmostEqual(gyration, (squares / max(len(fired), 1)) ** 0.5)

    def test_other_graphs_have_no_radii(self):
        on = [0, 1]
        for graph in (chipfire.grid(8, 8, periodic=(True, False)), chipfire.torus(4, 4), chipfire.grid(5, 3, 3),
                      chipfire.grid(2, 2, 2), chipfire.grid(4, 4, lattice="triangular"), chipfire.grid(4, 4, lattice="hexagonal"),
                      chipfire.region([[1, 1], [1, 1]], "triangular"), chipfire.Graph(4, 3, [(0, 2), (1, 3), (2, 3)], shape=(1, 3))):
            found = chipfire.drops(graph, 0, on, fired=True)
            with self.assertRaisesRegex(ValueError, "no grid|square grids of two directions with open borders"):
                found.fired.radii(graph, on)

    def test_what_is_measured_is_saved(self):
        for graph in (chipfire.grid(3, 3), MULTIGRAPH):
            on = [*chipfire.random_drops(graph, 9, 1)]
            found = chipfire.drops(graph, 3, on, fired=True, durations=True)
            with tempfile.TemporaryDirectory() as folder:
                found.save(f"{folder}/drops.npz")
                read = chipfire.Drops.load(f"{folder}/drops.npz")
            self.assertEqual((rows_of(read), read.duration.tolist()), (rows_of(found), found.duration.tolist()))
            self.assertEqual([it.tolist() for it in read.fired], [it.tolist() for it in found.fired])
            self.assertEqual(read.histogram("duration"), found.histogram("duration"))

    def test_what_cannot_be_measured(self):
        for given, words in ((CHIPS_FILE, "and not for a file"), ([9], "9")):
            with self.assertRaisesRegex((ValueError, KeyError), words):
                chipfire.drops(TRIANGLE, 0, given, fired=True)
        with self.assertRaisesRegex(ValueError, "and not by a program"):
            chipfire.drops(TRIANGLE, 0, [0], durations=True, program="another")
        with self.assertRaisesRegex(ValueError, "no 'duration'"):
            chipfire.drops(TRIANGLE, 0, [0]).histogram("duration")


class WithoutTheLibrary(unittest.TestCase):
    @unittest.skipIf(IS_HERE, "the library is here")
    def test_chains_say_that_the_library_is_missing(self):
        with self.assertRaisesRegex(chipfire.ProgramNotFound, "chains take the library: CHIPFIRE names a program"):
            chipfire.chains(TRIANGLE, 1, 1, 1, chips=0)


if __name__ == "__main__":
    unittest.main()
