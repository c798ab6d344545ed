"""The libraries on other processors, by an emulator: those for aarch64 beside those for this machine, the C code in them
beside the kit's, and what an old processor of this kind says.

The emulator orders memory as this processor does: what a weakly ordered one may do is not tried.
"""
import random
import re

import emulator
import making
from library import BUILT, INCLUDE, LARGEST, LIBRARY, PROGRAM, ROOT, SHARED, STATIC, Room, called, need, run
from packing import aarch64
from test_detected import COMPILE, LOGS, RUNS, STEAL, STEAL_COUNTED, edited
from test_games import drawn, spoilt, stepped

GAMES = 500
#: A program that prints the version of the library.
PRINTS = """
#include <chipfire.h>
#include <stdio.h>
int main(void) { return printf("%d\\n", (int)chipfire_version()) < 0; }
"""


class Aarch64(Room):
    def setUp(self):
        super().setUp()
        self.built = emulator.built_for_aarch64(BUILT)

    def compiled(self, *words):
        """Returns the words that start a program in C for aarch64, of these words for the compiler."""
        program = f"{self.room}/program"
        its = COMPILE[COMPILE.index("-std=c11") :]
        self.runs(aarch64.TOOL, *its, *words, "-o", program)
        return aarch64.starting(program)

    def with_static(self, *words):
        return self.compiled(*words, f"{self.built}/libchipfire.a")

    def with_shared(self, *words):
        return self.compiled(*words, f"-L{self.built}", "-lchipfire", f"-Wl,-rpath,{self.built}")

    def test_each_call_with_success_and_with_each_fault(self):
        for linked in (self.with_static, self.with_shared):
            self.assertEqual(self.runs(*linked(f"{ROOT}/tests/library/calls.c")), "")

    def test_random_games_beside_this_machine(self):
        """And beside firing one vertex after another, if nothing is wrong with the game."""
        draw, games, wanted = random.Random("emulated games"), [], []
        for _ in range(GAMES):
            graph, limit = drawn(draw), draw.choice([0, 1, 5, LARGEST])
            chips = [draw.randint(0, 12) for _ in range(graph.vertices)]
            its = spoilt(draw, graph) if draw.random() < 0.2 else graph
            columns = [number for i in range(3) for number in (edge[i] for edge in its.edges)]
            games.append([its.vertices, its.sink, limit, len(its.edges), *columns, len(chips), *chips])
            wanted.append(self.row(its, chips, limit, graph))
        rows = "".join(" ".join(map(str, it)) + "\n" for it in games)
        found = self.played(self.with_shared(f"{ROOT}/tests/library/games.c"), rows)
        self.assertEqual(found, wanted)
        self.assertGreater(len({row[0] for row in wanted}), 5)

    def played(self, words, rows):
        """Returns the rows of numbers that a program prints of these."""
        with open(f"{self.room}/games", "w+", encoding="ascii") as file:
            file.write(rows)
        shown = self.runs("sh", "-c", 'exec "$@" <"$0"', f"{self.room}/games", *words)
        return [list(map(int, line.split())) for line in shown.splitlines()]

    def row(self, graph, chips, limit, right):
        """Returns the row of this machine, which is that of the rules if the graph is right."""
        outputs = [chips, [0] * len(chips), [0]]
        status, place, its = called(LIBRARY.chipfire_stabilize_all, graph, limit, [[]], outputs)
        if graph is right:
            ends, fired, stopped, _ = stepped(graph, chips, limit)
            self.assertEqual((status, place, its), (0, 0, [ends, fired, [stopped]]))
        return [status, place, *its[0], *its[1], *its[2]]

    def test_the_detector_ends_when_it_is_over(self):
        with open(f"{self.room}/steal.c", "w", encoding="utf-8") as file:
            file.write(edited(STEAL, STEAL_COUNTED))
        words = self.with_shared(f"-I{self.room}", f"{ROOT}/tests/library/soak.c")
        self.assertEqual(self.runs(*words, str(RUNS), "1", self.room), f"{RUNS} 0 0 0\n")
        for number in range(min(RUNS, LOGS)):
            self.assertEqual(run(PROGRAM, "judge", f"{self.room}/{number}.csv").returncode, 0)

    def test_what_they_need(self):
        """No processor but a generic one, and of kernel and C library no more than docs/PACKAGES.md says."""
        need("readelf")
        with open(f"{ROOT}/docs/PACKAGES.md", encoding="utf-8") as file:
            page = file.read()
        for name, said in (("chipfire", "program"), ("libchipfire.so", "library")):
            shown = self.runs("readelf", "-W", "--version-info", f"{self.built}/{name}")
            newest = max((int(a), int(b)) for a, b in re.findall(r"GLIBC_(\d+)\.(\d+)", shown))
            self.assertIn("| {} for aarch64 | {}.{} |".format(said, *newest), page)
            self.assertNotIn("ISA", self.runs("readelf", "-W", "--notes", f"{self.built}/{name}"))
        notes = self.runs("readelf", "-W", "--notes", f"{self.built}/chipfire")
        oldest = re.search(r"OS: Linux, ABI: (\d+\.\d+)", notes)[1]
        self.assertIn(f"Linux 3.2 or newer, or on aarch64 Linux {oldest} or newer;", page)


class OwnC(Room):
    """tools/malloc.c and tools/os.c do for aarch64, and here, what the kit's C code does for which they stand in."""

    CALLS, OWN = f"{ROOT}/tests/library/own.c", [f"{ROOT}/tools/{name}.c" for name in ("malloc", "os")]
    WORDS = ["one", "", "of eight", "nine long"]

    def compiled(self, compiler, *linked):
        """Returns the path of a program that calls what it is linked with."""
        path = f"{self.room}/calls"
        self.runs(compiler, "-std=c11", "-O2", self.CALLS, *linked, "-o", path)
        return path

    def test_each_returns_what_the_kit_s_does(self):
        need("rt", "gcc")
        emulator.need_tools()
        kept = [f"{making.kit()}/c/{name}" for name in ("liblibc_c.a", "libos_c.a")]
        wanted = self.runs(self.compiled("gcc", *kept), *self.WORDS)
        self.assertEqual(self.runs(self.compiled("gcc", *self.OWN), *self.WORDS), wanted)
        started = aarch64.starting(self.compiled(aarch64.TOOL, *self.OWN))
        self.assertEqual(self.runs(*started, *self.WORDS), wanted)


class OldProcessor(Room):
    """On an x86-64 processor below the level x86-64-v2 there is a sentence, and no signal."""

    def programs(self):
        """Yields programs that are linked with each library."""
        need("gcc")
        with open(f"{self.room}/prints.c", "w", encoding="ascii") as file:
            file.write(PRINTS)
        shared = [f"-L{BUILT}", "-lchipfire", f"-Wl,-rpath,{BUILT}"]
        for name, linked in (("shared", shared), ("static", [STATIC])):
            self.runs("gcc", f"-I{INCLUDE}", f"{self.room}/prints.c", *linked, "-o", f"{self.room}/{name}")
            yield f"{self.room}/{name}"

    def test_the_loader_refuses_what_is_linked_with_the_library(self):
        for program in self.programs():
            self.assertRegex(self.runs(*emulator.on_processor(emulator.LEAST, program)), r"\A\d+\n\Z")
            refused = run(*emulator.on_processor(emulator.TOO_OLD, program))
            self.assertEqual((refused.returncode, refused.stdout), (127, ""))
            self.assertRegex(refused.stderr, r"\A.*: CPU ISA level is lower than required\n\Z")

    def test_the_program_says_it_too(self):
        self.assertEqual(run(*emulator.on_processor(emulator.LEAST, PROGRAM)).returncode, 0)
        refused = run(*emulator.on_processor(emulator.TOO_OLD, PROGRAM))
        self.assertIn("this machine lacks a feature of x86-64-v2", refused.stderr)
        self.assertGreater(refused.returncode, 0)

    def test_the_library_carries_a_note_of_the_level(self):
        need("readelf")
        for path in (SHARED, STATIC):
            self.assertIn("x86 ISA needed: x86-64-v2\n", self.runs("readelf", "-W", "--notes", path))
