"""Chains that are played by parts: by executors, from checkpoints, after interrupts; and where and how much is dropped.

A chain is the same whoever plays it, so each way is compared with one call, and drops on chosen vertices with the slow
player of examples/play.py.
"""
import concurrent.futures
import contextlib
import importlib.util
import io
import itertools
import multiprocessing
import os
import random
import shutil
import signal
import sqlite3
import subprocess
import sys
import tempfile
import threading
import time
import unittest
from array import array
from collections import Counter
from unittest import mock

import chipfire
from chipfire.backend import interrupts
from chipfire.backend.interrupts import Interrupts
from chipfire.ensembles import firings, player, spread, wilson
from chipfire.ensembles.checkpoint import Checkpoint
from chipfire.progress import Progress
from test_drops import slow_rows
from test_ensembles import IS_HERE, MULTIGRAPH, Stops
from test_sandpiles import has

COLUMNS = ("size", "extent", "lost", "chips")
GRID = chipfire.grid(5, 4)
LOOPS = chipfire.from_edges({"source": "aabb", "target": "abcs", "weight": [2, 1, 3, 1]}, "s", loops="sage")


def numbers(found):
    """All that chains have, as lists."""
    rows = {name: [it.tolist() for it in getattr(found, name)] for name in COLUMNS}
    fired = found.fired and [it.tolist() for it in found.fired]
    rows["duration"] = None if found.duration is None else [it.tolist() for it in found.duration]
    return {**rows, "made": list(found.made), "seeds": found.seeds, "seed": found.seed, "first": found.first, "fired": fired}


def plays(**options):
    """What one call has of 7 chains."""
    return chipfire.chains(GRID, 7, 40, 5, **options)


#: The ways in which chains are asked for.
ASKED = [{}, {"chips": 2}, {"amounts": 3, "on": [0, 7]}, {"durations": True}]
if has("numpy"):
    ASKED += [{"fired": True}, {"fired": True, "durations": True}, {"until": "loss", "chips": 0}, {"until": "spans", "fired": True, "chips": 1}]


#: Interrupts a call of chains where it enters or leaves one function after another of those that play parts, and of the
#: standard library's pools and locks. What it returns must be what was made; else it is an interrupt.
INTERRUPTED = """
import concurrent.futures, contextlib, faulthandler, importlib.util, signal, sys
import chipfire

faulthandler.dump_traceback_later(100, exit=True)  # (if it hangs)
signal.signal(signal.SIGINT, signal.default_int_handler)
ROOMS = {"threading", "concurrent.futures._base", "concurrent.futures.thread"}
ROOMS |= {"chipfire." + it for it in ("backend.interrupts", "ensembles.spread", "ensembles.player")}
GRID, N, DROPS = chipfire.grid(5, 4), 4, 40
has_numpy = importlib.util.find_spec("numpy") is not None
whole = chipfire.chains(GRID, N, DROPS, 5)
starts = chipfire.random_recurrent(GRID, 5, N)
fallen = {}


def left_by(chain, made):
    if (chain, made) not in fallen:
        on = [*chipfire.random_drops(GRID, DROPS, whole.seeds[chain])][:made]
        fallen[chain, made] = [*chipfire.drops(GRID, starts[chain], on).report.chips]
    return fallen[chain, made]


def check(found):
    for chain, made in enumerate(map(int, found.made)):
        assert [*found.size[chain]] == [*whole.size[chain]][:made] + [0] * (DROPS - made)
        chips = [*found.chips[chain]]
        assert chips == left_by(chain, made) or not (made or any(chips))
    if has_numpy:
        lengths = found.fired.offsets[1:] - found.fired.offsets[:-1]
        assert (lengths == found.extent.ravel()).all()


def interrupted(number):
    left = [number]

    def trace(frame, event, _):
        if frame.f_globals.get("__name__") in ROOMS and event in ("call", "return"):
            left[0] -= 1
            if not left[0]:
                signal.raise_signal(signal.SIGINT)
            return trace

    pool = concurrent.futures.ThreadPoolExecutor(2) if "executor" in sys.argv else None
    workers = {"workers": 2} if pool is None else {"executor": pool}
    with pool or contextlib.nullcontext():
        sys.settrace(trace)
        try:
            return chipfire.chains(GRID, N, DROPS, 5, partial=True, fired=has_numpy, **workers)
        finally:
            sys.settrace(None)
            assert signal.getsignal(signal.SIGINT) == signal.default_int_handler
            interrupted.is_over = left[0] > 0


number = results = parts = 0
interrupted.is_over = False
while not interrupted.is_over:
    number += 1
    try:
        found = interrupted(number)
        check(found)
        results += 1
        parts += sum(found.made) < N * DROPS
    except KeyboardInterrupt:
        pass
print(number > 100, results > number // 2, parts > number // 4)
"""


def interrupted_once(function):
    """One that raises KeyboardInterrupt when it is called the first time."""
    times = []

    def call(*arguments):
        times.append(arguments)
        if len(times) == 1:
            raise KeyboardInterrupt
        return function(*arguments)

    return call


class Turns(concurrent.futures.Executor):
    """Makes each call when it gets it; there is an interrupt in place of the one with this number."""

    def __init__(self, number):
        self.left = number

    def submit(self, call, *arguments):
        self.left -= 1
        if self.left == 0:
            raise KeyboardInterrupt
        future = concurrent.futures.Future()
        future.set_result(call(*arguments))
        return future


class Signals(unittest.TestCase):
    def setUp(self):
        self.addCleanup(signal.signal, signal.SIGINT, signal.signal(signal.SIGINT, signal.default_int_handler))

    def test_they_wait_until_they_are_handled(self):
        with Interrupts() as waiting:
            for _ in range(3):
                signal.raise_signal(signal.SIGINT)
            self.assertRaises(KeyboardInterrupt, waiting.handle)
            waiting.handle()
            signal.raise_signal(signal.SIGINT)
            self.assertRaises(KeyboardInterrupt, waiting.__exit__)
        self.assertEqual(signal.getsignal(signal.SIGINT), signal.default_int_handler)
        self.assertRaises(KeyboardInterrupt, signal.raise_signal, signal.SIGINT)

    def test_one_after_a_second_waits_no_more(self):
        with Interrupts(), mock.patch.object(interrupts, "_PATIENCE", 0.1):
            signal.raise_signal(signal.SIGINT)
            time.sleep(0.2)
            self.assertRaises(KeyboardInterrupt, signal.raise_signal, signal.SIGINT)

    def test_all_that_python_handles_wait(self):
        seen = []
        self.addCleanup(signal.signal, signal.SIGUSR1, signal.signal(signal.SIGUSR1, lambda *it: seen.append(it)))
        with Interrupts() as waiting:
            signal.raise_signal(signal.SIGUSR1)
            self.assertEqual(seen, [])
            waiting.handle()
            self.assertEqual([it for it, _ in seen], [signal.SIGUSR1])

    def test_threads_end_after_an_error_or_an_interrupt(self):
        may_end, stops = threading.Event(), []

        def stop():
            stops.append(1)
            may_end.set()

        def interrupt():
            signal.raise_signal(signal.SIGINT)
            may_end.wait(60)

        for work, error in [(lambda: 1 // 0, ZeroDivisionError), (interrupt, KeyboardInterrupt)]:
            may_end.clear()
            self.assertRaises(error, interrupts.on_threads, [work] + [may_end.wait] * 5, 2, stop)
            self.assertEqual(signal.getsignal(signal.SIGINT), signal.default_int_handler)
        self.assertEqual(len(stops), 2)
        self.assertEqual(interrupts.on_threads([lambda: 3, lambda: 4], 1), [3, 4])

    def test_threads_do_one_work_after_another(self):
        with interrupts.Threads(2) as threads:
            futures = [threads.submit(divmod, 7, divisor) for divisor in (2, 0, 5)]
            self.assertEqual([it.result() for it in futures[::2]], [(3, 1), (1, 2)])
            self.assertRaises(ZeroDivisionError, futures[1].result)
            self.assertTrue(all(it.daemon and it.is_alive() for it in threads._threads))
        self.assertFalse(any(it.is_alive() for it in threads._threads))

    def test_threads_do_nothing_that_is_cancelled(self):
        may_end, done = threading.Event(), []
        threads = interrupts.Threads(1)
        first, second = threads.submit(may_end.wait, 60), threads.submit(done.append, 1)
        self.assertTrue(second.cancel())
        threads.shutdown(wait=False)
        self.assertTrue(threads._threads[0].is_alive())
        may_end.set()
        threads.shutdown()
        self.assertEqual((first.result(), done), (True, []))

    def test_other_threads_change_nothing(self):
        with concurrent.futures.ThreadPoolExecutor(1) as executor:
            waiting = executor.submit(Interrupts().__enter__).result()
        self.assertEqual(signal.getsignal(signal.SIGINT), signal.default_int_handler)
        waiting.handle()


@unittest.skipUnless(IS_HERE, "chains take the library")
class Where(unittest.TestCase):
    def test_chips_fall_on_the_vertices_that_are_named(self):
        graph = MULTIGRAPH
        for on, names in [(["b"], ["b"]), (("c", "a"), ["c", "a"]), ({"a": 1, "c": 0}, ["a"])]:
            found = chipfire.chains(graph, 2, 50, 3, chips=0, on=on, amounts=2)
            for chain, seed in enumerate(found.seeds):
                drawn = random.Random(seed).choices(names, k=50)
                drops = [(graph.number(it), 2) for it in drawn]
                rows = zip(*(column[chain].tolist() for column in (found.size, found.extent, found.lost)))
                self.assertEqual(list(rows), list(slow_rows(graph, graph.chips(0), drops)))

    def test_weights_are_how_probable_a_vertex_is(self):
        weights = {"a": 1, "b": 2.5, "c": 6}
        for graph in (MULTIGRAPH,):
            found = chipfire.chains(graph, 1, 400, 3, chips=0, on=weights)
            drawn = random.Random(found.seeds[0]).choices([*weights], [*weights.values()], k=400)
            drops = [(graph.number(it), 1) for it in drawn]
            rows = zip(*(column[0].tolist() for column in (found.size, found.extent, found.lost)))
            self.assertEqual(list(rows), list(slow_rows(graph, graph.chips(0), drops)))

    def test_each_drop_has_its_amount(self):
        amounts = [0, 1, 7, 2, 0, 4]
        for options in [{}] + [{"fired": True}] * has("numpy"):
            found = chipfire.chains(GRID, 3, 6, 9, chips=2, amounts=amounts, **options)
            for chain, seed in enumerate(found.seeds):
                vertices = map(GRID.number, chipfire.random_drops(GRID, 6, seed))
                rows = zip(*(column[chain].tolist() for column in (found.size, found.extent, found.lost)))
                self.assertEqual(list(rows), list(slow_rows(GRID, GRID.chips(2), [*zip(vertices, amounts)])))

    def test_what_is_refused(self):
        for error, words, options in [
            (ValueError, "different vertices", {"on": ["a", "a"]}), (ValueError, "none is the sink", {"on": ["a", "s"]}),
            (ValueError, "from 0 on", {"on": {"a": -1}}), (ValueError, "not all are 0", {"on": {"a": 0}}),
            (ValueError, "it names none", {"on": []}), (ValueError, "it names none", {"on": {}}),
            (ValueError, "from 0 on", {"on": {"a": float("nan")}}), (TypeError, "one for each drop", {"on": {"a", "b"}}),
            (ValueError, "4 drops, and 2 amounts", {"amounts": [1, 2]}), (ValueError, "below 0: -1", {"amounts": -1}),
            (ValueError, "chips of drop 2", {"amounts": [1, 1, -4, 1]}), (TypeError, "no whole number", {"amounts": 1.5}),
            (ValueError, "first chain is below 0", {"first": -1}), (ValueError, "or an executor", {"executor": 1, "workers": 2}),
            (ValueError, "the same in the next call", {"checkpoint": "never-made"}),
        ]:
            seed = None if "checkpoint" in options else 1
            self.assertRaisesRegex(error, words, chipfire.chains, MULTIGRAPH, 2, 4, seed, chips=0, **options)
        self.assertFalse(os.path.exists("never-made"))


@unittest.skipUnless(IS_HERE, "chains take the library")
class Parts(unittest.TestCase):
    def test_chains_of_any_numbers_add_up(self):
        for options in ASKED:
            whole = numbers(plays(**options))
            for ends in [(0, 3, 7), (0, 1, 2, 7)]:
                parts = [chipfire.chains(GRID, stop - start, 40, 5, first=start, **options)
                         for start, stop in zip(ends, ends[1:])]
                self.assertEqual(numbers(sum(parts)), whole, options)
        one, other = (chipfire.chains(GRID, 2, 40, seed) for seed in (1, 2))
        self.assertEqual(((one + other).seed, (one + other).seeds), (None, (*one.seeds, *other.seeds)))

    def test_what_does_not_add_up(self):
        one = chipfire.chains(GRID, 2, 4, 1)
        for other in [chipfire.chains(GRID, 2, 5, 1), chipfire.chains(chipfire.grid(2, 2), 2, 4, 1)]:
            with self.assertRaisesRegex(ValueError, "as many drops and vertices"):
                one + other
        with self.assertRaises(TypeError):
            one + 1
        with self.assertRaisesRegex(ValueError, "both results have the chain of seed"):
            one + chipfire.chains(GRID, 1, 4, 1, first=1)

    def test_what_is_no_executor(self):
        with self.assertRaisesRegex(TypeError, "an executor is one of concurrent.futures.* and this is a str"):
            plays(executor="process")

    def test_executors_play_what_threads_do(self):
        for options in ASKED:
            whole = numbers(plays(workers=2, **options))
            for size in (1, 3):
                with mock.patch.object(spread, "_OF_EXECUTOR", size), concurrent.futures.ThreadPoolExecutor(2) as executor:
                    self.assertEqual(numbers(plays(executor=executor, **options)), whole, options)

    def test_processes_play_what_threads_do(self):
        context = multiprocessing.get_context("spawn")
        with concurrent.futures.ProcessPoolExecutor(2, context) as executor:
            for graph in (GRID, LOOPS):
                chips = {} if graph is GRID else {"chips": 9}
                whole = numbers(chipfire.chains(graph, 5, 30, "a", **chips))
                self.assertEqual(numbers(chipfire.chains(graph, 5, 30, "a", executor=executor, **chips)), whole)

    def test_an_error_of_a_worker_is_raised(self):
        failing = concurrent.futures.ThreadPoolExecutor(1)
        with failing, mock.patch.object(spread, "played", side_effect=OSError("lost")):
            self.assertRaisesRegex(OSError, "lost", plays, executor=failing)

    def test_a_worker_says_why_it_has_no_library(self):
        with mock.patch.dict(os.environ, {"CHIPFIRE": "another"}):
            self.assertRaisesRegex(RuntimeError, "a worker has no library of chipfire: CHIPFIRE names", player.played, None)
        may_end = threading.Event()
        thread = threading.Thread(target=may_end.wait)
        thread.start()
        try:
            with concurrent.futures.ProcessPoolExecutor(1, multiprocessing.get_context("fork")) as executor:
                why = r'a worker has no library.* forked beside threads.* multiprocessing.get_context\("spawn"\)'
                self.assertRaisesRegex(RuntimeError, why, plays, executor=executor)
        finally:
            may_end.set()
            thread.join()

    @unittest.skipUnless(importlib.util.find_spec("distributed"), "Dask's distributed is not here")
    def test_dask_plays_what_threads_do(self):
        import distributed

        whole = numbers(plays())
        quiet = {"dashboard_address": None, "silence_logs": 50}
        with distributed.LocalCluster(n_workers=2, threads_per_worker=1, processes=True, **quiet) as cluster:
            with distributed.Client(cluster) as client:
                self.assertEqual(numbers(plays(executor=client.get_executor())), whole)

    @unittest.skipUnless(importlib.util.find_spec("joblib"), "joblib is not here")
    def test_joblib_plays_what_threads_do(self):
        from joblib.externals.loky import get_reusable_executor

        executor = get_reusable_executor(max_workers=2)
        try:
            for options in ASKED:
                self.assertEqual(numbers(plays(executor=executor, **options)), numbers(plays(**options)), options)
            found, whole = (plays(collect="histogram", durations=True, **its) for its in ({"executor": executor}, {}))
            self.assertEqual((found.size, found.duration, found.sums), (whole.size, whole.duration, whole.sums))
        finally:
            executor.shutdown(wait=True)

    @unittest.skipUnless(importlib.util.find_spec("mpi4py") and shutil.which("mpiexec"), "mpi4py or mpiexec is not here")
    def test_mpi_plays_what_threads_do(self):
        script = [
            "import chipfire", "from mpi4py.futures import MPIPoolExecutor", "if __name__ == '__main__':",
            "    with MPIPoolExecutor() as executor:",
            "        found = chipfire.chains(chipfire.grid(5, 4), 7, 40, 5, executor=executor)",
            "    print([row.tolist() for row in found.size])",
        ]
        allowed = {"OMPI_ALLOW_RUN_AS_ROOT": "1", "OMPI_ALLOW_RUN_AS_ROOT_CONFIRM": "1", "OMPI_MCA_btl_vader_single_copy_mechanism": "none"}
        with tempfile.TemporaryDirectory() as folder:
            file = f"{folder}/spread.py"
            with open(file, "w", encoding="utf-8") as out:
                out.write("\n".join(script))
            words = ["mpiexec", "--oversubscribe", "-n", "2", sys.executable, "-m", "mpi4py.futures", file]
            # (Open MPI itself may fail at its end on a machine that has much else to do)
            for _ in range(3):
                ran = subprocess.run(words, stdin=subprocess.DEVNULL, capture_output=True, encoding="utf-8", env={**os.environ, **allowed})
                self.assertEqual(ran.stdout.strip(), str([row.tolist() for row in plays().size]), ran.stderr)
                if ran.returncode == 0:
                    break
        self.assertEqual(ran.returncode, 0, ran.stderr)


@unittest.skipUnless(IS_HERE, "chains take the library")
class Checkpoints(unittest.TestCase):
    def setUp(self):
        room = tempfile.TemporaryDirectory()
        self.addCleanup(room.cleanup)
        self.file = f"{room.name}/chains.sqlite"

    def test_another_call_goes_on_from_what_is_done(self):
        for place, options in enumerate(ASKED):
            file = f"{self.file}{place}"
            whole = numbers(plays(**options))
            asked = []

            def stop(done, total):
                asked.append((done, total))
                if done:
                    raise KeyboardInterrupt

            with self.assertRaises(KeyboardInterrupt):
                plays(checkpoint=file, workers=1, progress=stop, **options)
            with contextlib.closing(sqlite3.connect(file)) as rows:
                self.assertLess(rows.execute("SELECT count(*) FROM parts").fetchone()[0], 7)
            self.assertEqual(numbers(plays(checkpoint=file, **options)), whole)
            with mock.patch.object(spread, "play", side_effect=AssertionError("it is done")):
                self.assertEqual(numbers(plays(checkpoint=file, **options)), whole)
                self.assertEqual(numbers(chipfire.chains(GRID, 0 + 7, 40, 5, checkpoint=file, **options)), whole)

    def test_a_run_that_is_killed_goes_on_with_the_same_bits(self):
        options = {"durations": True, **({"fired": True} if has("numpy") else {})}
        script = ["import chipfire, os, signal, sys", "from chipfire.ensembles.checkpoint import Checkpoint",
                  "put, before = Checkpoint.put, [1, 2]", "def put_or_end(*part):",
                  "    put(*part) if before and before.pop() else os.kill(os.getpid(), signal.SIGKILL)",
                  "Checkpoint.put = put_or_end",
                  f"chipfire.chains(chipfire.grid(5, 4), 7, 40, 5, checkpoint=sys.argv[1], workers=1, **{options})"]
        ran = subprocess.run([sys.executable, "-c", "\n".join(script), self.file], timeout=100)
        self.assertEqual(ran.returncode, -signal.SIGKILL)
        with contextlib.closing(sqlite3.connect(self.file)) as rows:
            self.assertEqual(rows.execute("SELECT count(*) FROM parts").fetchone()[0], 2)
        self.assertEqual(numbers(plays(checkpoint=self.file, **options)), numbers(plays(**options)))

    def test_more_chains_go_on_from_fewer(self):
        chipfire.chains(GRID, 3, 40, 5, checkpoint=self.file)
        chipfire.chains(GRID, 2, 40, 5, first=5, checkpoint=self.file)
        self.assertEqual(numbers(plays(checkpoint=self.file)), numbers(plays()))

    def test_each_chain_counts_once_whatever_parts_there_are(self):
        def played(n, first, **options):
            return numbers(chipfire.chains(GRID, n, 40, 5, first=first, **options))

        for place, options in enumerate(ASKED):
            file = {"checkpoint": f"{self.file}{place}", **options}
            for n, first, parts in [(7, 0, 4), (3, 2, 4), (2, 4, 1)]:
                # (as if each call began before the others had ended)
                with mock.patch.object(Checkpoint, "take", return_value=[]), mock.patch.object(spread, "_OF_THREAD", parts):
                    played(n, first, workers=1, **file)
            with contextlib.closing(sqlite3.connect(file["checkpoint"])) as rows, rows:
                there = rows.execute("SELECT first, n FROM parts ORDER BY first").fetchall()
                self.assertEqual(there, [(0, 1), (1, 2), (2, 1), (3, 1), (4, 2), (5, 2)])
                rows.execute("DELETE FROM parts WHERE first = 0")
            reports = []
            found = played(7, 0, progress=lambda done, total: reports.append(done), **file)
            self.assertEqual((found, max(reports)), (played(7, 0, **options), 280))
            for n, first in [(7, 0), (3, 2), (1, 6), (2, 4), (1, 3)]:
                whole = played(n, first, **options)
                with mock.patch.object(spread, "play", side_effect=AssertionError("it is done")):
                    self.assertEqual(played(n, first, **file), whole)

    @unittest.skipUnless(has("numpy"), "NumPy is not here")
    def test_what_fired_is_in_order_if_it_is_not_in_the_file(self):
        """Files of an older version have the vertices of a drop in the order in which they fired first."""
        whole = numbers(plays(checkpoint=self.file, fired=True))
        with contextlib.closing(sqlite3.connect(self.file)) as rows, rows:
            there = rows.execute("SELECT first, drops, vertices, counts FROM parts").fetchall()
            for first, drops, vertices, counts in there:
                drops, vertices, counts = array("q", drops), array("i", vertices), array("q", counts)
                order = sorted(range(len(drops)), key=lambda at: (drops[at], -vertices[at]))
                turned = [array(it.typecode, [it[at] for at in order]).tobytes() for it in (vertices, counts)]
                rows.execute("UPDATE parts SET vertices = ?, counts = ? WHERE first = ?", (*turned, first))
        self.assertEqual(numbers(plays(checkpoint=self.file, fired=True)), whole)
        for place, change in enumerate(("drops = counts", "vertices = x''", "counts = x''")):
            file = f"{self.file}{place}"
            plays(checkpoint=file, fired=True)
            with contextlib.closing(sqlite3.connect(file)) as rows, rows:
                rows.execute(f"UPDATE parts SET {change}")
            self.assertRaisesRegex(ValueError, "not that of these drops", plays, checkpoint=file, fired=True)

    def test_a_file_of_other_chains_is_refused(self):
        plays(checkpoint=self.file)
        for words, arguments, options in [
            ("other graph", (chipfire.grid(4, 5), 7, 40, 5), {}), ("other drops", (GRID, 7, 41, 5), {}),
            ("other seed", (GRID, 7, 40, "5"), {}), ("other chips", (GRID, 7, 40, 5), {"chips": 1}),
            ("other on, amounts", (GRID, 7, 40, 5), {"on": [1], "amounts": 4}),
            ("other durations", (GRID, 7, 40, 5), {"durations": True}),
        ]:
            file = {"checkpoint": self.file}
            self.assertRaisesRegex(ValueError, words, chipfire.chains, *arguments, **file, **options)

    @unittest.skipUnless(has("numpy"), "NumPy is not here")
    def test_borders_are_those_of_the_grid(self):
        """The same graph has another shape, and so other borders, which alone `until` asks for."""
        one = chipfire.grid(9, 4)
        other = chipfire.Graph(one.vertices, one.sink, one.edges, shape=(6, 6), squares=[*range(36)])
        for until, words in [("spans", "other shape"), ("loss", None)]:
            file = {"checkpoint": f"{self.file}{until}", "until": until}
            whole = chipfire.chains(one, 4, 60, 1, **file)
            self.assertEqual(numbers(chipfire.chains(one, 4, 60, 1, **file)), numbers(whole))
            if words:
                self.assertRaisesRegex(ValueError, words, chipfire.chains, other, 4, 60, 1, **file)
            else:
                self.assertEqual(numbers(chipfire.chains(other, 4, 60, 1, **file)), numbers(whole))

    def test_what_is_no_checkpoint_is_refused(self):
        with open(self.file, "w", encoding="utf-8") as out:
            out.write("no checkpoint" * 99)
        self.assertRaisesRegex(ValueError, "is no checkpoint of chains", plays, checkpoint=self.file)
        os.unlink(self.file)
        with contextlib.closing(sqlite3.connect(self.file)) as rows:
            rows.execute("CREATE TABLE parts (first)")
        self.assertRaisesRegex(ValueError, "is no checkpoint of chains", plays, checkpoint=self.file)
        os.unlink(self.file)
        plays(checkpoint=self.file)
        for words, change in [("none of these chains", "UPDATE parts SET made = x''"),
                              ("version 1, and this chipfire reads version 2", "PRAGMA user_version = 1")]:
            with contextlib.closing(sqlite3.connect(self.file)) as rows, rows:
                rows.execute(change)
            self.assertRaisesRegex(ValueError, words, plays, checkpoint=self.file)

    def test_a_file_that_cannot_be_there_is_refused(self):
        folder = os.path.dirname(self.file)
        with self.assertRaisesRegex(FileNotFoundError, "a folder that is there: .*/none'"):
            plays(checkpoint=f"{folder}/none/chains.sqlite")
        self.assertRaisesRegex(ValueError, "is no checkpoint of chains: unable to open", plays, checkpoint=folder)
        before = os.getcwd()
        self.addCleanup(os.chdir, before)
        os.chdir(folder)
        self.assertEqual(numbers(plays(checkpoint="here")), numbers(plays()))
        self.assertTrue(os.path.exists("here"))

    def test_a_part_is_written_whole_or_not_at_all(self):
        with mock.patch.object(Checkpoint, "put", side_effect=OSError("full")):
            self.assertRaisesRegex(OSError, "full", plays, checkpoint=self.file)
        self.assertEqual(numbers(plays(checkpoint=self.file)), numbers(plays()))


@unittest.skipUnless(IS_HERE, "chains take the library")
class Long(unittest.TestCase):
    def test_an_interrupt_keeps_what_was_made(self):
        for options in ASKED:
            def stop(done, total):
                if done:
                    raise KeyboardInterrupt

            whole, found = plays(**options), plays(workers=2, progress=stop, partial=True, **options)
            self.assertEqual((found.seeds, len(found.made)), (whole.seeds, 7))
            for chain, made in enumerate(list(found.made)):
                for name in ("size", "extent", "lost"):
                    there = getattr(found, name)[chain].tolist()
                    self.assertEqual(there[:made], getattr(whole, name)[chain].tolist()[:made])
                    self.assertEqual(sum(there[made:]), 0)
            with self.assertRaises(KeyboardInterrupt):
                plays(progress=stop, **options)

    def test_a_long_drop_that_is_stopped_leaves_those_before_it(self):
        """Each drop goes in portions, the first of them of one visit, and a call has some drops."""
        grid, options = chipfire.grid(20, 20), {"chips": 2, "amounts": 500}
        whole = chipfire.chains(grid, 1, 8, 3, **options)
        on, counts = [*chipfire.random_drops(grid, 8, whole.seeds[0])], set()
        for left in range(0, 120, 3):
            with mock.patch.multiple("chipfire.backend.kept", _FEW_CHIPS=0, _LIGHT=0, _FIRST_VISITS=1):
                with mock.patch.object(spread, "Watch", lambda: Stops(left)):
                    found = chipfire.chains(grid, 1, 8, 3, workers=1, **options)
            made = int(found.made[0])
            self.assertEqual([*found.size[0]], [*whole.size[0]][:made] + [0] * (8 - made))
            fallen = chipfire.drops(grid, 2, on[:made], amounts=[500] * made)
            self.assertEqual([*found.chips[0]], [*fallen.report.chips])
            counts.add(made)
        self.assertGreater(len(counts), 5)

    def test_an_interrupt_while_parts_are_handed_out_stops_those_that_have_begun(self):
        submit, begun = spread.Threads.submit, []

        def interrupted(pool, *call):
            if begun:
                raise KeyboardInterrupt
            begun.append(call)
            return submit(pool, *call)

        with mock.patch.object(spread.Threads, "submit", interrupted), self.assertRaises(KeyboardInterrupt):
            chipfire.chains(chipfire.grid(60, 60), 2, 10**7, 1)

    def test_an_interrupt_anywhere_leaves_no_lock_and_loses_nothing(self):
        for words in ([], ["executor"]):
            ran = subprocess.run([sys.executable, "-c", INTERRUPTED, *words], capture_output=True, encoding="utf-8", timeout=150)
            self.assertEqual((ran.stdout, ran.returncode), ("True True True\n", 0), ran.stderr)

    def test_a_second_interrupt_waits_for_no_long_drop(self):
        signal.signal(signal.SIGINT, signal.default_int_handler)
        has_begun, is_stopped, may_end = threading.Event(), threading.Event(), threading.Event()

        def endless(plan, table, watch):
            has_begun.set()
            while not watch.is_stopped:
                time.sleep(0.01)
            is_stopped.set()
            may_end.wait(60)

        def interrupt():
            for event in (has_begun, is_stopped):
                event.wait(60)
                os.kill(os.getpid(), signal.SIGINT)

        sender = threading.Thread(target=interrupt)
        with mock.patch.object(spread, "play", endless), self.assertRaises(KeyboardInterrupt):
            sender.start()
            plays(workers=1, partial=True)
        sender.join()
        may_end.set()

    def left_alone(self, number, check, **options):
        """Interrupts chains while the call with this number does not come to its end, which it does later: before and after
        that they are checked."""
        calls, is_there, may_end = itertools.count(1), threading.Event(), threading.Event()
        before = {*threading.enumerate()}

        def endless(*arguments):
            found = firings.fall(*arguments)
            if next(calls) == number:
                is_there.set()
                may_end.wait(100)
            return found

        def show(progress, done, is_last=False):
            if is_there.is_set():
                raise KeyboardInterrupt

        begun = time.monotonic()
        soon = mock.patch.multiple(spread, GRACE=0.05, WAIT=0.01)
        with mock.patch.object(player, "fall", endless), mock.patch.object(Progress, "show", show), soon:
            found = plays(partial=True, **options)
        self.assertLess(time.monotonic() - begun, 50)
        check(found)
        may_end.set()
        for thread in {*threading.enumerate()} - before:
            thread.join(60)
        self.assertEqual({*threading.enumerate()} - before, set())
        check(found)
        return found

    def test_a_call_that_does_not_end_is_left(self):
        """Nothing that it writes later is there."""
        for options, number in itertools.product(ASKED, (1, 5)):
            whole, starts = plays(**options), [*plays(partial=True, **{**options, "amounts": 0}).chips]

            def check(found):
                for chain, made in enumerate(map(int, found.made)):
                    for name in ("size", "extent", "lost") + ("duration",) * ("durations" in options):
                        there, wanted = (getattr(it, name)[chain].tolist() for it in (found, whole))
                        self.assertEqual(there, wanted[:made] + [0] * (40 - made))
                    on = random.Random(whole.seeds[chain]).choices(options.get("on", range(20)), k=40)[:made]
                    amounts = [options.get("amounts", 1)] * made
                    fallen = chipfire.drops(GRID, starts[chain].tolist(), on, amounts=amounts)
                    self.assertEqual([*found.chips[chain]], [*fallen.report.chips])
                if found.fired:
                    lengths = found.fired.offsets[1:] - found.fired.offsets[:-1]
                    self.assertEqual(lengths.tolist(), found.extent.ravel().tolist())
                    self.assertEqual(len(found.fired.vertices), found.extent.sum())

            for workers in (1, 3):
                found = self.left_alone(number, check, workers=workers, **options)
                self.assertLess(sum(found.made), sum(whole.made))

    def test_histograms_have_nothing_of_a_call_that_is_left(self):
        whole = plays(durations=True)

        def check(found):
            for name in ("size", "extent", "lost", "duration"):
                for row, its, made in zip(getattr(whole, name), getattr(found, name), found.made):
                    self.assertEqual(its, Counter(row.tolist()[: int(made)]))

        self.left_alone(5, check, collect="histogram", durations=True, workers=1)

    def test_a_file_has_nothing_of_a_call_that_is_left(self):
        with tempfile.TemporaryDirectory() as folder:
            file = f"{folder}/chains.sqlite"
            self.left_alone(7, lambda found: None, checkpoint=file, workers=2)
            self.assertEqual(numbers(plays(checkpoint=file)), numbers(plays()))

    def test_chains_that_had_not_begun_have_their_starts(self):
        def stop(done, total):
            raise KeyboardInterrupt

        starts = [[*GRID.chips(it)] for it in chipfire.random_recurrent(GRID, 5, 7)]
        for options, rows in [({}, starts), ({"chips": 2}, [[*GRID.chips(2)]] * 7)]:
            with mock.patch.object(player._Player, "play", lambda player: None):
                found = plays(workers=1, progress=stop, partial=True, **options)
                self.assertEqual(([*map(int, found.made)], [it.tolist() for it in found.chips]), ([0] * 7, rows))
            rows = rows if options else [[0] * len(GRID.degrees())] * 7
            with mock.patch.object(spread, "begin", interrupted_once(spread.begin)):
                found = plays(workers=1, partial=True, **options)
                self.assertEqual([it.tolist() for it in found.chips], rows)
            with concurrent.futures.ThreadPoolExecutor(1) as executor, mock.patch.object(spread, "_OF_EXECUTOR", 2):
                found = plays(executor=executor, progress=stop, partial=True, **options)
                for made, chips, start in zip(found.made, found.chips, rows):
                    self.assertTrue(made or chips.tolist() == start)

    def test_no_start_is_drawn_after_an_interrupt(self):
        """It comes in place of the third chain. A later call plays the others, as if it had not come."""
        drawn = []

        def draws(graph, seed, n, first):
            drawn.extend(range(first, first + n))
            return wilson.recurrent_rows(graph, seed, n, first)

        whole = plays()
        rows = [*whole.chips][:2] + [array("q", bytes(8 * GRID.vertices))] * 5
        with tempfile.TemporaryDirectory() as folder, mock.patch.object(player, "recurrent_rows", draws):
            file = {"checkpoint": f"{folder}/chains.sqlite"}
            for options in ({}, {"collect": "histogram"}, file):
                drawn.clear()
                found = plays(executor=Turns(3), partial=True, **options)
                self.assertEqual(([*map(int, found.made)], drawn), ([40] * 2 + [0] * 5, [0, 1]))
                self.assertEqual([it.tolist() for it in found.chips], [it.tolist() for it in rows])
            # (of what the file has nothing is drawn, neither here nor by threads)
            drawn.clear()
            found = plays(executor=Turns(1), partial=True, **file)
            self.assertEqual(([*map(int, found.made)], drawn), ([40] * 2 + [0] * 5, []))
            for options in ({"executor": Turns(2), "partial": True}, {"executor": Turns(-1)}, {}):
                found = plays(**options, **file)
            self.assertEqual((numbers(found), drawn), (numbers(whole), [2, 3, 4, 5, 6]))

    def test_a_signal_stops_a_long_call_and_keeps_what_was_made(self):
        script = [
            "import chipfire, signal", "signal.signal(signal.SIGINT, signal.default_int_handler)  # (or it may be ignored)",
            "def report(done, total):", "    done and print('begun', flush=True)", "g = chipfire.grid(40, 40)",
            "found = chipfire.chains(g, 2, 10**7, 1, progress=report, partial=True)",
            "made = [int(it) for it in found.made]", "short = chipfire.chains(g, 2, min(made), 1)",
            "print(0 < min(made), max(made) < 10**7, [a[:min(made)].tolist() == b.tolist() for a, b in zip(found.size, short.size)])",
        ]
        with subprocess.Popen([sys.executable, "-c", "\n".join(script)], stdout=subprocess.PIPE, encoding="utf-8") as ran:
            self.assertEqual(ran.stdout.readline(), "begun\n")
            ran.send_signal(signal.SIGINT)
            said = ran.stdout.read().splitlines()
        self.assertEqual((said[-1], ran.returncode), ("True True [True, True]", 0))

    def test_progress_ends_at_all_that_is_made(self):
        reports = []
        found = plays(progress=lambda done, total: reports.append((done, total)))
        self.assertEqual((reports[-1], sorted(reports)), ((280, 280), reports))
        with concurrent.futures.ThreadPoolExecutor(1) as executor:
            reports.clear()
            plays(executor=executor, progress=lambda done, total: reports.append((done, total)))
            self.assertEqual((reports[-1], sorted(reports)), ((280, 280), reports))
        self.assertEqual(sum(found.made), 280)

    @unittest.skipUnless(has("numpy"), "NumPy is not here")
    def test_progress_ends_at_all_where_chains_ended_before(self):
        with concurrent.futures.ThreadPoolExecutor(1) as executor:
            for options in ({}, {"workers": 1}, {"executor": executor}):
                reports = []
                found = plays(until="loss", progress=lambda done, total: reports.append((done, total)), **options)
                self.assertLess(sum(found.made), 280)
                self.assertEqual((reports[-1], sorted(reports)), ((280, 280), reports))

    def test_lines_where_there_is_no_tqdm(self):
        with mock.patch("chipfire.progress.import_optional", return_value=None):
            with contextlib.redirect_stderr(io.StringIO()) as said:
                plays(progress=True)
        self.assertEqual(said.getvalue().splitlines()[-1], "chipfire: 280 of 280 drops")

    def test_a_bar_of_tqdm(self):
        bar = mock.Mock()
        module = mock.Mock(**{"tqdm.return_value": bar})
        with mock.patch("chipfire.progress.import_optional", return_value=module):
            with Progress(True, 10, "drops") as shown:
                for done in (0, 4, 10):
                    shown.next_time = 0
                    shown.show(done)
        self.assertEqual([it.args[0] for it in bar.update.mock_calls], [0, 4, 6])
        bar.close.assert_called_once_with()

    def test_nothing_is_shown_unless_it_is_asked_for(self):
        with contextlib.redirect_stderr(io.StringIO()) as said:
            plays()
            plays(progress=False)
        self.assertEqual(said.getvalue(), "")


@unittest.skipUnless(IS_HERE, "chains take the library")
class Histograms(unittest.TestCase):
    def check_counts(self, found, whole, names):
        """Histograms have what the test itself counts of these columns of chains."""
        columns = {name: [it.tolist() for it in getattr(whole, name)] for name in names}
        for name, rows in columns.items():
            self.assertEqual(getattr(found, name), [*map(Counter, rows)])
            self.assertEqual([*found.total(name).items()], sorted(Counter(sum(rows, [])).items()))
        pairs = {(one, other) for at, one in enumerate(names) for other in names[at:]}
        self.assertEqual(found.sums.keys(), pairs)
        for (one, other), sums in found.sums.items():
            products = [sum(a * b for a, b in zip(*rows)) for rows in zip(columns[one], columns[other])]
            self.assertEqual(sums, products)
        self.assertEqual([it.tolist() for it in found.chips], [it.tolist() for it in whole.chips])
        self.assertEqual((found.seeds, list(found.made), found.seed), (whole.seeds, [300] * 5, whole.seed))
        self.assertEqual(repr(found), "<Histograms: 5 chains, 1,500 drops>")

    def test_they_count_what_the_columns_have(self):
        for graph, options in [(GRID, {}), (LOOPS, {"chips": 9, "amounts": 2}), (GRID, {"on": [3], "workers": 2})]:
            whole = chipfire.chains(graph, 5, 300, 4, durations=True, **options)
            self.assertTrue(any(map(any, whole.duration)))
            for part in (7, 64, 2**16):
                for timed in (False, True):
                    with mock.patch.object(player, "PART", part):
                        found = chipfire.chains(graph, 5, 300, 4, collect="histogram", durations=timed, **options)
                    self.check_counts(found, whole, ("size", "extent", "lost", "duration")[: 3 + timed])

    def test_durations_are_there_if_they_were_asked_for(self):
        wanted = Counter(rounds for row in plays(durations=True).duration for rounds in row.tolist())
        found = plays(collect="histogram", durations=True)
        for name in ("durations", "duration"):
            self.assertEqual([*found.total(name).items()], sorted(wanted.items()))
            self.assertRaisesRegex(ValueError, f"and no '{name}'", plays(collect="histogram").total, name)
        self.assertIsNone(plays(collect="histogram").duration)

    def check_same(self, one, other):
        """Both histograms have the same of everything."""
        for name, value in vars(other).items():
            rows = [[*map(list, it)] if name == "chips" else it for it in (getattr(one, name), value)]
            first, second = (it.tolist() if hasattr(it, "tolist") else it for it in rows)
            self.assertEqual(first, second, name)

    def test_they_add_up_and_come_from_executors(self):
        with concurrent.futures.ProcessPoolExecutor(1, multiprocessing.get_context("spawn")) as executor:
            for asked in ({"collect": "histogram"}, {"collect": "histogram", "durations": True}):
                whole = plays(**asked)
                parts = [chipfire.chains(GRID, stop - start, 40, 5, first=start, **asked) for start, stop in ((0, 2), (2, 7))]
                found = [parts[0] + parts[1], sum(parts), plays(executor=executor, **asked)]
                found += [plays(workers=workers, **asked) for workers in (1, 2, 7)]
                with concurrent.futures.ThreadPoolExecutor(3) as threads:
                    found.append(plays(executor=threads, **asked))
                for its in found:
                    self.check_same(its, whole)

    def test_drops_beyond_all_memory_are_begun(self):
        def stop(made, _):
            if made:
                raise KeyboardInterrupt

        for amounts, timed in ((None, False), (2, False), (None, True)):
            asked = {"amounts": amounts, "collect": "histogram", "durations": timed}
            found = chipfire.chains(GRID, 1, 2**50, 5, progress=stop, partial=True, **asked)
            self.assertTrue(0 < found.made[0] < 2**50)
            same = chipfire.chains(GRID, 1, int(found.made[0]), 5, **asked)
            self.check_same(found, same)

    @unittest.skipUnless(has("numpy"), "NumPy is not here")
    def test_a_file_has_all_of_them(self):
        for asked in ({"collect": "histogram"}, {"collect": "histogram", "durations": True}):
            whole = plays(**asked)
            with tempfile.TemporaryDirectory() as folder:
                file = f"{folder}/all.npz"
                whole.save(file)
                found = chipfire.Histograms.load(file)
                self.assertRaisesRegex(ValueError, "has Histograms of chipfire, and no Chains", chipfire.Chains.load, file)
                parts = sum(chipfire.chains(GRID, 1, 40, 5, first=it, **asked) for it in range(7))
                parts.save(file)
                again = chipfire.Histograms.load(file)
            self.check_same(found, whole)
            self.check_same(again, whole)

    @unittest.skipUnless(has("numpy"), "NumPy is not here")
    def test_a_file_without_durations_has_nothing_of_them(self):
        import numpy

        columns = {f"{name}_{it}" for name in ("size", "extent", "lost") for it in ("lengths", "values", "counts")}
        timed = {f"duration_{it}" for it in ("lengths", "values", "counts")}
        with tempfile.TemporaryDirectory() as folder:
            file = f"{folder}/all.npz"
            plays(collect="histogram").save(file)
            with numpy.load(file) as parts:
                self.assertEqual({*parts.files}, {"header", "made", "chips", *columns})
            plays(collect="histogram", durations=True).save(file)
            with numpy.load(file) as parts:
                self.assertEqual({*parts.files}, {"header", "made", "chips", *columns, *timed})
                arrays = {name: parts[name] for name in parts.files}
            broken = [("the histograms of duration are not", {**arrays, "duration_lengths": arrays["duration_lengths"][1:]}),
                      ("the chains differ", {name: it for name, it in arrays.items() if name not in timed})]
            for words, its in broken:
                numpy.savez(file, **its)
                self.assertRaisesRegex(ValueError, words, chipfire.Histograms.load, file)

    def test_what_is_refused(self):
        for words, options in [("no 'rows'", {"collect": "rows"}), ("goes with none", {"collect": "histogram", "fired": True}),
                               ("goes with none", {"collect": "histogram", "checkpoint": "never-made"})]:
            self.assertRaisesRegex(ValueError, words, plays, **options)
        self.assertRaisesRegex(ValueError, "no 'radius'", plays(collect="histogram").total, "radius")
        with self.assertRaisesRegex(ValueError, "as many vertices"):
            plays(collect="histogram") + chipfire.chains(chipfire.grid(2, 2), 1, 1, 1, collect="histogram")

    def test_sums_of_those_with_durations_and_without_are_refused(self):
        one, other = (
            chipfire.chains(GRID, 2, 40, 5, first=first, collect="histogram", durations=timed)
            for first, timed in ((0, True), (2, False))
        )
        for parts in ([one, other], [other, one]):
            with self.assertRaisesRegex(ValueError, "histograms add up that all have durations, or none of them has"):
                sum(parts)

    @unittest.skipUnless(has("numpy"), "NumPy is not here")
    def test_their_moments_are_those_of_the_columns(self):
        one, other = plays(durations=True), plays(collect="histogram", durations=True)
        for of in ("size", "extent", "lost", "duration"):
            for a, b in zip(chipfire.moments(one, of), chipfire.moments(other, of)):
                self.assertLess(abs(a - b).max(), 1e-9 * abs(a).max())


if __name__ == "__main__":
    unittest.main()
