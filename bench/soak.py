#!/usr/bin/env python3
"""Runs detectors many times, beside a count that they never read: that of Python around threads, coroutines and processes,
and the pool of examples/c/pool.cpp.

    bench/soak [--turns N] [--backend NAME].. [--logs N] [--every N] [--patience SECONDS] [--program FILE] [--seed S]

A message is sent on to two processes until it has made some steps, with pauses drawn at random, and threads of Python
switch every few microseconds; a task of the pool pushes two more. A run is *early* if messages are open when it is
over, and *missed* if it is not over, and nothing happened for SECONDS. The first runs of each back end, as many as
--logs says, leave logs, and the program judges them: a log is *wrong* if its claim is not right. What is printed is a
line for each back end, with --every one more each N runs. By default FILE is the program that ./chipfire built; the
libraries lie beside it. The pool is left out, and named, where there is no g++. The status is 1 if a run was early or
missed, or a log wrong.
"""
import asyncio
import collections
import multiprocessing
import os
import random
import shutil
import subprocess
import sys
import tempfile
import threading
import time

import frame

NAMES = [0, 1, 2, 3]
STEPS = 5
IN_ALL = 2 * (2 ** (STEPS + 1) - 1)
#: What is reported of a run, or of many: whether it was early, whether it was missed, and whether its log is wrong.
WORDS = ("early", "missed", "wrong")
BACKENDS = ["pool", "threading", "asyncio", "multiprocessing"]
COMPILE = ["g++", "-std=c++17", "-O2", "-pthread", f"-I{frame.ROOT}/include"]


class Count:
    """How many messages were worked on, in memory that the processes share."""

    def __init__(self):
        self.value = multiprocessing.Value("Q", 0)

    def add(self):
        with self.value.get_lock():
            self.value.value += 1

    def now(self):
        return self.value.value


def heads(draw, step):
    """Where a message is sent on to."""
    return [draw.choice(NAMES) for _ in range(2)] if step < STEPS else []


def serve(process, count, seed):
    """The loop of a thread, or of a process."""
    draw = random.Random(seed)
    for step in process:
        for to in heads(draw, step):
            process.send(to, step + 1)
            time.sleep(draw.choice([0, 0, 1e-4]))
        count.add()


async def serve_async(process, count, seed):
    """The loop of a coroutine."""
    draw = random.Random(seed)
    async for step in process:
        for to in heads(draw, step):
            process.send(to, step + 1)
            await asyncio.sleep(draw.choice([0, 0, 1e-4]))
        count.add()


def loops_of(backend, asked, turn):
    """Whose the loops of a run are, each with its seed. In each second run two threads or coroutines loop over a process."""
    names = NAMES if backend == "multiprocessing" else NAMES * (1 + turn % 2)
    return [(name, asked.seed + 10 * turn + at) for at, name in enumerate(names)]


def begin(detector):
    """Wakes two processes."""
    for name in NAMES[:2]:
        detector.begin(name, 0)


def is_missed(detector, count, patience):
    """Waits until all is over, and says whether that was missed."""
    while True:
        before = count.now()
        try:
            detector.wait(patience)
            return False
        except TimeoutError:
            if count.now() == before:
                return True


async def is_missed_async(detector, count, patience):
    """The same in asyncio."""

    async def ended():
        await detector

    while True:
        before = count.now()
        try:
            await asyncio.wait_for(ended(), patience)
            return False
        except asyncio.TimeoutError:
            if count.now() == before:
                return True


def run_blocking(chipfire, backend, make, asked, turn, log):
    """Runs threads or processes, and returns what is reported of the run."""
    detector, count = chipfire.Detector(NAMES, backend, log=log), Count()
    words = [(detector[name], count, seed) for name, seed in loops_of(backend, asked, turn)]
    loops = [make(target=serve, args=it, daemon=True) for it in words]
    begin(detector)
    for loop in loops:
        loop.start()
    missed = is_missed(detector, count, asked.patience)
    early = not missed and count.now() < IN_ALL
    for loop in [] if missed else loops:
        loop.join()
    return early, missed, is_wrong(detector, log)


async def run_async(chipfire, asked, turn, log):
    """The same in asyncio."""
    detector, count = chipfire.Detector(NAMES, "asyncio", log=log), Count()
    words = [(detector[name], count, seed) for name, seed in loops_of("asyncio", asked, turn)]
    loops = [asyncio.ensure_future(serve_async(*it)) for it in words]
    begin(detector)
    missed = await is_missed_async(detector, count, asked.patience)
    early = not missed and count.now() < IN_ALL
    if not missed:
        await asyncio.gather(*loops)
    return early, missed, is_wrong(detector, log)


def is_wrong(detector, log):
    """Whether the claim in the log of a run, if there is one, is not right."""
    return log is not None and not detector.check().is_right


def run(chipfire, backend, asked, turn, log):
    """Runs a detector of a back end once."""
    if backend == "asyncio":
        return asyncio.run(run_async(chipfire, asked, turn, log))
    make = threading.Thread if backend == "threading" else multiprocessing.Process
    return run_blocking(chipfire, backend, make, asked, turn, log)


def line_of(backend, runs, counts):
    """The line of a back end."""
    shown = ", ".join(f"{counts[word]} {word}" for word in WORDS)
    return f"{backend}: {runs} runs, {shown}"


def soak_python(chipfire, backend, asked, room):
    """Runs the detector of a back end again and again, and yields what is reported of each run."""
    for turn in range(asked.turns):
        log = f"{room}/{backend}-{turn}" if turn < asked.logs else None
        ran = run(chipfire, backend, asked, turn, log)
        yield 1, dict(zip(WORDS, ran))


def is_wrong_pool(chipfire, room, turn):
    """Whether the claim in the log of a run of the pool is not right."""
    rows = []
    for process in range(len(NAMES) + 1):
        rows += chipfire.lab.books.read_books_log(f"{room}/{turn}-{process}.rows")
    return not chipfire.judge_log(rows).is_right


def soak_pool(chipfire, _, asked, room):
    """Runs the pool again and again. Yields the number of runs and what they report, and ends after a missed run."""
    library = os.path.join(os.path.dirname(asked.program), "libchipfire.a")
    pool = frame.compiled(COMPILE, "pool.cpp", "pool", [library])
    missed, turn = 0, 0
    while turn < asked.turns and not missed:
        count, logs = min(asked.every or asked.turns, asked.turns - turn), max(0, asked.logs - turn)
        words = [pool, count, asked.seed + 64 * turn, asked.patience, logs, room]
        ran = subprocess.run(list(map(str, words)), stdout=subprocess.PIPE, text=True, check=True)
        runs, early, missed = map(int, ran.stdout.split())
        wrong = sum(is_wrong_pool(chipfire, room, it) for it in range(min(runs - missed, logs)))
        yield runs, dict(zip(WORDS, (early, missed, wrong)))
        turn += runs


def soak(chipfire, backend, asked, room):
    """Runs a back end many times, and returns how many runs were what."""
    counts, runs, shown = collections.Counter(), 0, 0
    its = soak_pool if backend == "pool" else soak_python
    for ran, what in its(chipfire, backend, asked, room):
        counts.update(what)
        runs += ran
        if asked.every and runs // asked.every > shown // asked.every:
            print(line_of(backend, runs, counts), flush=True)
            shown = runs
    if shown < runs:
        print(line_of(backend, runs, counts), flush=True)
    return counts


def chosen(asked):
    """The back ends that are asked for, and can be run."""
    backends = asked.backend or BACKENDS
    if "pool" in backends and shutil.which("g++") is None:
        print("pool: left out, since there is no g++", flush=True)
        return [it for it in backends if it != "pool"]
    return backends


def main():
    words = frame.parser(__doc__, turns=1000)
    words.add_argument("--backend", action="append", choices=BACKENDS)
    words.add_argument("--logs", type=int, default=3)
    words.add_argument("--every", type=int, default=0)
    words.add_argument("--patience", type=float, default=60)
    words.add_argument("--seed", type=int, default=1)
    asked = frame.read_words(words)
    os.environ["CHIPFIRE"] = asked.program
    import chipfire  # (frame has Python find it)

    sys.setswitchinterval(1e-5)
    with tempfile.TemporaryDirectory(prefix="soak-", dir=frame.ROOM) as room:
        ran = [soak(chipfire, it, asked, room) for it in chosen(asked)]
    sys.exit(any(sum(it.values()) for it in ran))


if __name__ == "__main__":
    main()
