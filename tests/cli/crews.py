"""Random games on threads: `run` by some number of workers, with some ring, and for some of them the trace. Each game
is played twice: the workers share a queue, and then the vertices are dealt out to them. A chain has long traces.

What must come is known from examples/play.py, which shares nothing with the program: the report, to the byte, however
the threads were scheduled. A trace that was not cut must replay, with as many firings of each vertex as the report has,
and nothing is left but the vertices at their limit.

A fed game has its chips in two files, those at the start and those that are fed; what must come is what play.py says of
all of them together. Its trace replays on all chips where no vertex has some of both, since it then takes them at once.
"""
import functools
import json
import random
import subprocess
import sys
import tempfile
from collections import Counter

import chains
import listed
import progress
from paths import EXAMPLES

GAMES, FED_GAMES = 300, 200
SECONDS = 60
# How many vertices the chain has before its sink.
LENGTH = 9
# By a queue, and dealt out.
WAYS = [[], ["--dealt"]]


def chips_text(chips):
    return "vertex,chips\n" + "".join(f"{v},{c}\n" for v, c in enumerate(chips))


class Crew:
    """One game on threads, with its files in a folder."""

    # What the command has beside the options that are drawn, and the files for it.
    feed, feed_files = [], {}
    # How many rows of each vertex are recorded.
    trace_rows = "4096"

    def __init__(self, program, draw):
        graph, chips = chains.random_game(draw)
        self.program = program
        self.limit = [] if draw.random() < 0.7 else ["--limit", str(draw.randint(0, 8))]
        self.options = ["--workers", str(draw.choice([1, 2, 3, 4, 8, 64])), "--ring", str(draw.choice([1, 2, 3, 64]))]
        self.has_trace = draw.random() < 0.5
        self.graph, self.chips = json.dumps(graph), chips_text(chips)

    @classmethod
    def of_triangle(cls, program):
        """The small triangle by three workers, with its trace."""
        return cls.of_files(program, f"{EXAMPLES}/triangle", "3")

    @classmethod
    def of_chain(cls, program):
        """The chain of progress.py, on which vertices fire up to ten thousands of times."""
        with tempfile.TemporaryDirectory(prefix="chipfire-crew-") as folder:
            progress.write_uphill(folder, LENGTH)
            crew = cls.of_files(program, folder, "2")
        crew.trace_rows = str(2**17)
        return crew

    @classmethod
    def of_files(cls, program, folder, workers):
        """The game of a folder by this number of workers, with its trace."""
        crew = cls(program, random.Random("crew 0"))
        crew.limit, crew.options, crew.has_trace = [], ["--workers", workers], True
        with open(f"{folder}/graph.json", encoding="utf-8") as file:
            crew.graph = file.read()
        with open(f"{folder}/chips.csv", encoding="utf-8") as file:
            crew.chips = file.read()
        return crew

    def call(self, words, folder):
        return subprocess.run(words, stdout=subprocess.PIPE, stderr=subprocess.PIPE, cwd=folder, timeout=SECONDS)

    def faults(self):
        """What is not as it must be."""
        with tempfile.TemporaryDirectory(prefix="chipfire-crew-") as folder:
            for name, text in {"graph.json": self.graph, "chips.csv": self.chips, **self.feed_files}.items():
                with open(f"{folder}/{name}", "w", encoding="utf-8") as file:
                    file.write(text)
            game = ["graph.json", "chips.csv", *self.limit]
            wanted = self.call([sys.executable, f"{EXAMPLES}/play.py", *game], folder).stdout
            return [fault for way in WAYS for fault in self.faults_of(way, game, wanted, folder)]

    def faults_of(self, way, game, wanted, folder):
        """What is not as it must be where the workers share the vertices in this way."""
        trace = ["--trace", "trace.csv", "--trace-rows", self.trace_rows] if self.has_trace else []
        files = ["graph.json", "start.csv"] if self.feed else game[:2]
        words = [self.program, "run", *files, *self.limit, *self.options, *way, *self.feed, *trace]
        ran = self.call(words, folder)
        found = self.differences(ran, wanted)
        if self.has_trace and not found:
            found += self.replayed(game, wanted, folder)
        return [f"{' '.join(words[1:])}: {it}" for it in found]

    def differences(self, ran, wanted):
        found = []
        if ran.stdout != wanted:
            found.append(f"expected {wanted!r}, got {ran.stdout!r}")
        if ran.returncode != chains.status_of(wanted) or ran.stderr:
            found.append(f"status {ran.returncode}, standard error {ran.stderr!r}")
        return found

    def replayed(self, game, wanted, folder):
        """What is not as it must be where the trace is replayed."""
        ran = self.call([self.program, "replay", *game[:2], "trace.csv", *self.limit, "--complete"], folder)
        fired, left, report = Counter(), [], json.loads(wanted)
        for line in ran.stdout.decode().splitlines():
            word, vertex, count = line.split(" ", 2)
            if word == "fire":
                fired[int(vertex)] += int(count)
            else:
                left.append(line)
        counts = [fired[v] for v in range(len(report["fired"]))]
        at_limit = [f"left: vertex {v} is at its limit" for v in report["over"]]
        is_well = (ran.returncode, counts, left) == (chains.status_of(wanted), report["fired"], at_limit)
        return [] if is_well else [f"its trace replays to {counts}, {left}, status {ran.returncode}, {ran.stderr!r}"]


class FedCrew(Crew):
    """One game on threads some of whose chips are fed: `chips.csv` has all, and `start.csv` those at the start."""

    feed = ["--feed", "feed.csv"]

    def __init__(self, program, draw):
        super().__init__(program, draw)
        chips = [int(row.split(",")[1]) for row in self.chips.splitlines()[1:]]
        by_vertex = draw.random() < 0.5
        start = [draw.choice([0, count]) if by_vertex else draw.randint(0, count) for count in chips]
        fed = [count - first for count, first in zip(chips, start)]
        self.has_trace = self.has_trace and by_vertex
        self.feed_files = {"start.csv": chips_text(start), "feed.csv": chips_text(fed)}


def faults_of(crew):
    """What is wrong with a game on threads."""
    try:
        return crew.faults()
    except subprocess.TimeoutExpired:
        return [f"it had not ended after {SECONDS} seconds"]


def of_random(draw, program, kind):
    """What is wrong with a random game on threads."""
    return faults_of(kind(program, draw))


def of_known(program, make):
    """What is wrong with a game on threads that this makes."""
    return faults_of(make(program))


def tests(program):
    yield from listed.drawn(GAMES, "crew", of_random, program, Crew)
    for number, faults in listed.drawn(FED_GAMES, "fed crew", of_random, program, FedCrew):
        yield f"fed {number}", faults
    yield "the triangle on three threads", functools.partial(of_known, program, Crew.of_triangle)
    yield "long traces of a chain on two threads", functools.partial(of_known, program, Crew.of_chain)
