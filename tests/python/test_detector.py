"""Detectors around threads, coroutines and processes: many runs, what they refuse, and the examples."""
import asyncio
import itertools
import multiprocessing
import os
import subprocess
import sys
import tempfile
import threading
import unittest

import chipfire
from test_examples import ROOT, script

NAMES = ["a", "b", "c"]
#: How many runs there are of each back end.
RUNS = {"threading": 60, "asyncio": 60, "multiprocessing": 30}
PATIENCE = 600
#: The program that the package carries, beside the library.
PROGRAM = os.path.join(os.path.dirname(chipfire.__file__), "program", "chipfire")


def serve_shared(process, done):
    """The loop of a process of the system, which counts in shared memory."""
    for step in process:
        for to in NAMES[:2] if step < 3 else []:
            process.send(to, step + 1)
        with done.get_lock():
            done.value += 1


class Soak(unittest.TestCase):
    """Never early: nothing is open when it is over. Never missed: it is over in the end."""

    def test_runs_beside_a_count(self):
        for backend, runs in RUNS.items():
            with self.subTest(backend):
                words = ["--turns", runs, "--backend", backend, "--patience", PATIENCE, "--program", PROGRAM]
                ran = subprocess.run([sys.executable, f"{ROOT}/bench/soak.py", *map(str, words)], capture_output=True, encoding="utf-8")
                self.assertEqual(ran.stdout, f"{backend}: {runs} runs, 0 early, 0 missed, 0 wrong\n", ran.stderr)

    def test_processes_that_begin_anew(self):
        context = multiprocessing.get_context("spawn")
        done, detector = context.Value("Q", 0), chipfire.Detector(NAMES, context)
        loops = [context.Process(target=serve_shared, args=(detector[it], done)) for it in NAMES]
        detector.begin("a", 0)
        for loop in loops:
            loop.start()
        detector.wait(PATIENCE)
        self.assertEqual(done.value, 15)
        for loop in loops:
            loop.join()
            self.assertEqual(loop.exitcode, 0)


class Rules(unittest.TestCase):
    def played(self, detector):
        """Plays the messages of a detector's processes in this thread."""
        for it in [*detector._processes][1:]:
            for _ in detector[it]:
                pass

    def test_nothing_begins(self):
        detector = chipfire.Detector(["a"])
        detector.wait(PATIENCE)
        self.played(detector)
        with self.assertRaisesRegex(chipfire.Fault, "it sends on edge 0 while it is passive"):
            detector.begin("a")

    def test_a_process_joins_while_others_run(self):
        with tempfile.TemporaryDirectory(prefix="chipfire-detector-") as folder:
            detector = chipfire.Detector(["a"], log=f"{folder}/log")
            detector.begin("a", 1)
            first = detector["a"].receive()
            new = detector.join("b")
            detector["a"].send("b", first.content + 1)
            detector["a"].done()
            self.assertEqual(new.receive().content, 2)
            new.send("a", 3)
            new.done()
            loops = [threading.Thread(target=list, args=(detector[it],)) for it in "ab"]
            for loop in loops:
                loop.start()
            detector.wait(PATIENCE)
            for loop in loops:
                loop.join()
            self.assertEqual(list(detector.join("late")), [])
            self.assertEqual(str(detector.check()).splitlines()[-1], "end claimed")

    def test_it_is_not_over_while_somebody_is_at_work(self):
        detector = chipfire.Detector(["a"])
        detector.begin("a")
        detector["a"].receive()
        with self.assertRaisesRegex(TimeoutError, "not over after 0.01 seconds"):
            detector.wait(0.01)
        detector["a"].done()
        detector.wait(PATIENCE)

    def test_what_a_process_is_refused_is_raised_by_wait_too(self):
        detector = chipfire.Detector(["a", "b"])
        detector.begin("a")
        detector["a"].receive()
        detector["a"].send("b")
        detector["a"].done()
        for raised in (lambda: detector["a"].send("b"), lambda: detector.wait(PATIENCE)):
            with self.assertRaises(chipfire.Fault) as raised_fault:
                raised()
            self.assertEqual((raised_fault.exception.number, raised_fault.exception.place), (32, (1,)))
        self.played(detector)

    def test_what_is_refused(self):
        detector = chipfire.Detector(["a"])
        detector.begin("a")
        message = detector["a"].receive()
        self.assertEqual((message.tail, message.content), ("root", None))
        for error, words, call in [
            (KeyError, "no process 'x'", lambda: detector["a"].send("x")),
            (KeyError, "no process 'root'", lambda: detector["a"].send("root")),
            (ValueError, "there is a process 'a'", lambda: detector.join("a")),
            (ValueError, "there is a process 'root', the detector's own", lambda: chipfire.Detector(["root"])),
            (ValueError, "no log", detector.check),
            (ValueError, "no back end 'x'", lambda: chipfire.Detector([], "x")),
            (ValueError, "name all at the start", lambda: chipfire.Detector([], "multiprocessing").join("a")),
        ]:
            with self.assertRaisesRegex(error, words):
                call()
        detector["a"].done()
        with self.assertRaisesRegex(RuntimeError, "done with more messages"):
            detector["a"].done()

    def test_a_message_that_does_not_pickle_is_not_noted(self):
        detector = chipfire.Detector(["a"], "multiprocessing")
        with self.assertRaises((AttributeError, TypeError)):
            detector.begin("a", lambda: None)
        detector.wait(PATIENCE)

    def test_a_log_of_a_run_before_is_not_mixed(self):
        with tempfile.TemporaryDirectory(prefix="chipfire-detector-") as folder:
            chipfire.Detector(["a"], log=folder)
            with self.assertRaisesRegex(FileExistsError, "rows of a run before"):
                chipfire.Detector(["a"], log=folder)

    def test_asyncio_is_awaited(self):
        async def play():
            detector = chipfire.Detector(["a"], "asyncio")
            with self.assertRaisesRegex(TypeError, "is awaited"):
                detector.wait()
            with self.assertRaisesRegex(TypeError, "async for"):
                detector["a"].receive()
            await detector

        asyncio.run(play())


#: Runs with logs, each of which ends in another way; and a process of the system.
LOGGED = """
import asyncio, chipfire, gc, multiprocessing, sys, threading

def work(me, count=0):
    for number in me:
        if number:
            me.send("ab"[number % 2], number - 1)

async def work_async(me):
    async for number in me:
        if number:
            me.send("ab"[number % 2], number - 1)

async def play(log):
    detector = chipfire.Detector("ab", "asyncio", log=log)
    detector.begin("a", 9)
    await asyncio.gather(detector._wait_async(), *(work_async(detector[it]) for it in "ab"))
    return detector

def played(make, detector):
    loops = [make(target=work, args=(detector[it],)) for it in "ab"]
    for loop in loops:
        loop.start()
    detector.begin("a", 9)
    detector.wait(600)
    for loop in loops:
        loop.join()
    return detector

def abandoned(log):
    with chipfire.Detector("ab", log=log) as detector:
        detector.begin("a", 9)
        detector["a"].receive()
        detector["a"].send("b", 1)
    detector["a"].done()
    return detector

def refused(log):
    detector = chipfire.Detector("ab", log=log)
    detector.begin("a")
    for call in (lambda: detector["b"].send("a"), lambda: detector.wait(600)):
        try:
            call()
        except chipfire.Fault as fault:
            print(fault.number, end=" ")
    return detector

if __name__ == "__main__":
    folder = sys.argv[1]
    context = multiprocessing.get_context("spawn")
    for detector in (
        played(threading.Thread, chipfire.Detector("ab", log=folder + "/threads")),
        played(context.Process, chipfire.Detector("ab", context, log=folder + "/processes")),
        asyncio.run(play(folder + "/coroutines")), abandoned(folder + "/abandoned"), refused(folder + "/refused"),
    ):
        print(str(detector.check()).splitlines()[-1])
        del detector
        gc.collect()
"""


class Logs(unittest.TestCase):
    def test_no_file_is_left_open(self):
        with tempfile.TemporaryDirectory(prefix="chipfire-detector-") as folder:
            with open(f"{folder}/logged.py", "w", encoding="utf-8") as file:
                file.write(LOGGED)
            environment = {**os.environ, "PYTHONWARNINGS": "always::ResourceWarning"}
            words = [sys.executable, f"{folder}/logged.py", folder]
            ran = subprocess.run(words, env=environment, capture_output=True, encoding="utf-8", timeout=PATIENCE)
        self.assertEqual(ran.stderr, "")
        on_its_way = [f"end open: message 0 of channel {edge} is on its way" for edge in (1, 0)]
        self.assertEqual(ran.stdout.splitlines(), ["32 32 end claimed", *["end claimed"] * 2, *on_its_way])

    def test_what_is_noted_later_has_its_row(self):
        with tempfile.TemporaryDirectory(prefix="chipfire-detector-") as folder:
            detector = chipfire.Detector(["a"], log=folder)
            detector.close()
            detector.begin("a")
            detector.close()
            list(zip(range(1), detector["a"]))
            with open(f"{folder}/0.rows", encoding="ascii") as file:
                self.assertEqual(file.read(), "0,active,0\n0,send,0\n")
            self.assertIsNone(detector["a"].books._file)


class Examples(unittest.TestCase):
    def test_programs_that_know_when_they_are_over(self):
        primes = [it for it in range(2, 300) if all(it % other for other in range(2, it))]
        self.assertEqual(script("coordinator.py", "--below", 300), f"{len(primes)} primes\n")
        places = itertools.permutations(range(5))
        ways = [it for it in places if all(abs(it[a] - it[b]) != b - a for b in range(5) for a in range(b))]
        self.assertEqual(script("queens.py", "--side", 5), f"{len(ways)} ways\n")
        with tempfile.TemporaryDirectory(prefix="chipfire-python-") as folder:
            said = script("crawler.py", "--pages", 30, "--log", f"{folder}/log").splitlines()
        self.assertEqual((said[0], said[-1]), ("30 pages", "end claimed"))
        self.assertRegex(said[1], "^over root [0-9]+ right$")


if __name__ == "__main__":
    unittest.main()
