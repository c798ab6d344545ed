"""`run` beside a busy process on its one processor: one worker has no other to make way for, so a play that takes a few
milliseconds there does not wait for the busy process again and again.

The game is the chain of progress.py with 6 vertices before its sink. A queue's worker goes through actors that mostly
have nothing to do, one a turn; a worker whose vertices are dealt out goes through them in the same order, a round at a
time. So both are to take about as long. What counts is the least time of some plays of each, one after the other.
"""
import functools
import os
import subprocess
import sys
import tempfile
import time

import progress

SECONDS = 60
LENGTH, PLAYS = 6, 3
# How often the other's time the queue may take, and how many seconds more.
TIMES, MORE = 10, 0.2
WAYS = [["--workers", "1"], ["--workers", "1", "--dealt"]]


def seconds_of(words, room):
    begun = time.monotonic()
    subprocess.run(words, check=True, stdout=subprocess.DEVNULL, cwd=room, timeout=SECONDS)
    return time.monotonic() - begun


def least_times(program, room):
    """The least seconds that one worker takes with a queue, and dealt out, where this process may run."""
    ways = [progress.words_of(program, "run", *way) for way in WAYS]
    return map(min, zip(*([seconds_of(words, room) for words in ways] for _ in range(PLAYS))))


def faults_of(program):
    """What is not as it must be beside a busy process."""
    allowed = os.sched_getaffinity(0)
    os.sched_setaffinity(0, {min(allowed)})
    busy = subprocess.Popen([sys.executable, "-c", "while True: pass"])
    try:
        with tempfile.TemporaryDirectory(prefix="chipfire-busy-") as room:
            progress.write_uphill(room, LENGTH)
            queue, dealt = least_times(program, room)
    finally:
        busy.kill()
        busy.wait()
        os.sched_setaffinity(0, allowed)
    return [] if queue < TIMES * dealt + MORE else [f"it takes {queue:.3f} seconds, and dealt out {dealt:.3f}"]


def tests(program):
    yield "one worker goes on beside a busy process", functools.partial(faults_of, program)
