"""The examples that detect their own end, on threads: many runs as they are, and runs of three wrong uses of each.

When they end is compared with the truth, a count of open tasks or messages under a lock of its own. A run ends *early*
if the root says that it is over while some are open, and is *missed* if it does not say so 10 seconds after the last
one. There are 300 runs, and a wrong use is run until one ends early. CHIPFIRE_SOAK is the number of runs of each.
The last 100 runs of each leave logs: `chipfire judge` calls no claim of the right ones early, and of a wrong use at
least that of the run that ended early.
"""
import collections
import math
import os
import random
import sys
import tempfile
import threading
import time
import types

import chipfire
import ways
from library import BUILT, INCLUDE, PROGRAM, ROOT, STATIC, Room, need, run

#: How many runs there are, of a wrong use at most, and after how many early ends there are no more.
SOAK = int(os.environ.get("CHIPFIRE_SOAK") or 0)
RUNS, WRONG_RUNS, MOST_EARLY = (SOAK, SOAK, SOAK) if SOAK else (300, 10000, 1)
STEAL, KNIGHT = f"{ROOT}/examples/c/steal.c", f"{ROOT}/examples/python/knight.py"
MISSED_AFTER, LOGS = 10, 100
COMPILE = ["gcc", "-std=c11", "-O2", "-Wall", "-Wextra", "-Werror", "-pedantic", "-pthread", f"-I{INCLUDE}"]
WITH_SHARED = [f"-L{BUILT}", "-lchipfire", f"-Wl,-rpath,{BUILT}"]
#: How an example is counted, and made wrong: texts that stand once in it, and what stands there instead.
STEAL_COUNTED = [
    ("SIDE = 8,", "SIDE = 5, WAYS = 10,"),
    ('    printf("%" PRIu64 " ways\\n", ways);\n', ""),
    ("    if (has_room) me->tasks", "    if (has_room) opened(me);\n    if (has_room) me->tasks"),
    ("return false;\n    pthread_mutex_lock(&me->lock);", "return false;\n    pthread_mutex_lock(&me->lock);\n"
     "    received(me, edge);"),
    ("search(me, task);\n        pthread", "search(me, task);\n        if (has_task) finished(me);\n        pthread"),
]
STEAL_WRONG = {
    "got after the work": [("must(chipfire_books_got(&me->books, edge));", "late = (int64_t)edge;")],
    "acknowledged before the work": [("edge));\n    me->busy++;", "edge));\n    acknowledge(me);\n    me->busy++;")],
    "passive too early": [("me->count == 0 && me->busy == 0", "me->count == 0")],
}
KNIGHT_COUNTED = [
    ("        self.mail.put((edge, moves, None))", "        opened(edge)\n        self.mail.put((edge, moves, None))"),
    ("            is_nearer =", "            received(edge)\n            is_nearer ="),
    ("        with part.lock:\n            part.busy -=",
     "        finished(edge)\n        with part.lock:\n            part.busy -="),
    ("            self.mail.put((edge, None, word))", "            acked(edge, word)\n"
     "                self.mail.put((edge, None, word))"),
    ("part.books.settled(edge, word)", "part.books.settled(edge, word)\n            heard(edge, word)"),
    ("part.books.is_over()", "judged(part.books)"),
]
KNIGHT_WRONG = {
    "got after the work": [("part.books.got(edge)\n            ", ""),
                           ("part.busy -= 1\n", "part.busy -= 1\n            part.books.got(edge)\n")],
    "acknowledged before the work": [("            part.busy += 1\n", ""),
                                     ("        for out in", "        self.acknowledge(part)\n        with part.lock:\n"
                                      "            part.busy += 1\n        for out in")],
    "passive too early": [("acknowledge(part.busy == 0)", "acknowledge(True)")],
}
EDITED_IN = ["opened", "received", "finished", "acked", "heard", "judged"]
#: How many runs ended early or were missed, found what is wrong, or were stopped since the books refused something.
Outcome = collections.namedtuple("Outcome", "runs early missed wrong refused", defaults=(0,))


def edited(path, edits):
    """Returns the text of a file after edits."""
    with open(path, encoding="utf-8") as file:
        text = file.read()
    for old, new in edits:
        assert text.count(old) == 1, f"{path}: {text.count(old)} times: {old}"
        text = text.replace(old, new)
    return text


def moves_of_a_knight(side):
    """Returns how many moves lead to each square from a corner, found move by move."""
    squares = {(line, column) for line in range(side) for column in range(side)}
    found, edge = {it: math.inf for it in squares}, {(0, 0)}
    for moves in range(side * side):
        found.update((it, moves) for it in edge)
        edge = {(y, x) for y, x in squares if found[y, x] == math.inf
                and any(abs(y - line) * abs(x - column) == 2 for line, column in edge)}
    return found


class Judge:
    """Counts the open tasks of each run of knight.py, and writes its log: a square is a process, and an edge a channel."""

    def __init__(self):
        self.lock, self.draw = threading.Lock(), random.Random("library: knight")
        self.early = self.missed = self.refused = self.tasks = 0
        self.search, self.last = None, math.inf
        threading.Thread(target=self.watch, daemon=True).start()

    def pause(self):
        """Lets other threads go first, now and then."""
        if self.draw.random() < 0.3:
            time.sleep(self.draw.choice([0, 1e-4, 1e-3]))

    def row(self, kind, edge, end, count=1):
        """Writes `count` rows of the process at the tail of an edge, end 0, or at its head, end 1."""
        self.rows += [f"{self.numbers[self.ends[edge][end]]},{kind},{edge}\n"] * count

    def opened(self, edge):
        with self.lock:
            self.tasks += 1
            self.row("send", edge, 0)
            if edge == 0:
                self.row("passive", edge, 0)
        self.pause()

    def received(self, edge):
        with self.lock:
            self.row("receive", edge, 1)
            self.at_work[self.ends[edge][1]] += 1

    def finished(self, edge):
        self.pause()
        with self.lock:
            self.tasks -= 1
            self.at_work[self.ends[edge][1]] -= 1
            if self.at_work[self.ends[edge][1]] == 0:
                self.row("passive", edge, 1)
            self.last = time.monotonic()

    def acked(self, edge, word):
        with self.lock:
            self.row("tell", edge, 1, word - self.acknowledged[1, edge])
            self.acknowledged[1, edge] = word

    def heard(self, edge, word):
        with self.lock:
            self.row("hear", edge, 0, word - self.acknowledged[0, edge])
            self.acknowledged[0, edge] = max(word, self.acknowledged[0, edge])

    def judged(self, books):
        with self.lock:
            over = books.is_over()
            self.row("over", 0, 0, over)
            self.early += over and self.tasks > 0
        return over

    def watch(self):
        """Ends a run that is missed."""
        while True:
            time.sleep(1)
            with self.lock:
                if self.search and self.tasks == 0 and time.monotonic() > self.last + MISSED_AFTER:
                    self.missed += 1
                    self.search.mail.put(None)
                    self.search = None

    def run(self, search):
        """Returns what a search finds, and whether it ended when it should."""
        before = self.early + self.missed
        with self.lock:
            self.search, self.tasks, self.last = search, 0, math.inf
            self.ends, self.numbers = search.ends, {part: number for number, part in enumerate(search.parts)}
            self.at_work, self.acknowledged, self.rows = collections.Counter(), collections.Counter(), []
            self.row("active", 0, 0)
        try:
            found = search.find(4)
        except chipfire.Fault:
            self.refused += 1
            found = None
        with self.lock:
            self.search = None
        return found, self.early + self.missed == before and found is not None


def knights(edits, runs, most_early, folder):
    """Runs knight.py after edits on 3 by 3 squares `runs` times, or fewer if `most_early` have ended early. The last
    leave logs in a folder."""
    judge, example = Judge(), types.ModuleType("knight")
    example.__dict__.update({it: getattr(judge, it) for it in EDITED_IN})
    exec(compile(edited(KNIGHT, KNIGHT_COUNTED + edits), KNIGHT, "exec"), example.__dict__)
    right, run, wrong = moves_of_a_knight(3), 0, 0
    while run < runs and judge.early + judge.refused < most_early:
        found, is_timely = judge.run(example.Search(3))
        with open(f"{folder}/{run % LOGS}.csv", "w", encoding="ascii") as file:
            file.writelines(["process,kind,channel\n", *judge.rows])
        run, wrong = run + 1, wrong + (is_timely and found != right)
    return Outcome(run, judge.early, judge.missed, wrong, judge.refused)


class Soak(Room):
    def measured(self, name, *words, **how):
        """Returns the outcome that a command writes, and how many of its logs the judge ends with each status. Shows
        both, with the seconds that the command took."""
        begun, folder = time.monotonic(), tempfile.mkdtemp(dir=self.room)
        outcome = Outcome(*map(int, self.runs(*words, folder, **how).split()))
        shown = ", ".join(f"{number} {word}" for word, number in outcome._asdict().items())
        seconds = time.monotonic() - begun
        judged = collections.Counter(run(PROGRAM, "judge", it.path).returncode for it in os.scandir(folder))
        print(f"{name}: {shown}, {judged[2]} of {sum(judged.values())} logs early, {seconds:.0f} s", flush=True)
        return outcome, judged

    def is_right(self):
        self.assertEqual(self.outcome("right", RUNS), (Outcome(RUNS, 0, 0, 0), {0: min(LOGS, RUNS)}))

    def are_caught(self, wrong_uses):
        for name in wrong_uses:
            outcome, judged = self.outcome(name, WRONG_RUNS)
            self.assertGreater(outcome.early + outcome.refused, 0, name)
            self.assertGreaterEqual(judged[2], min(outcome.early, 1 if outcome.runs > LOGS else outcome.early), name)
            self.assertLessEqual(set(judged), {0, 2, 3}, name)


class Steal(Soak):
    def test_it_counts_the_ways(self):
        need("gcc")
        self.runs(*COMPILE, STEAL, STATIC, "-o", f"{self.room}/steal")
        self.assertEqual(self.runs(f"{self.room}/steal"), "92 ways\n")

    def test_a_message_that_is_acknowledged_twice_is_refused(self):
        """The root sends one message, so the books of the root refuse a second acknowledgement, if none does before."""
        need("gcc")
        twice = [("atomic_store(&acked[edge], word);", "atomic_store(&acked[edge], 2 * word);")]
        with open(f"{self.room}/twice.c", "w", encoding="utf-8") as file:
            file.write(edited(STEAL, twice))
        self.runs(*COMPILE, f"{self.room}/twice.c", STATIC, "-o", f"{self.room}/twice")
        ran = run(f"{self.room}/twice")
        self.assertEqual((ran.returncode, ran.stdout), (1, ""))
        self.assertIn("refusal 46: ", ran.stderr)

    def outcome(self, name, runs):
        """Runs steal.c `runs` times, or a wrong use."""
        need("gcc")
        with open(f"{self.room}/steal.c", "w", encoding="utf-8") as file:
            file.write(edited(STEAL, STEAL_COUNTED + STEAL_WRONG.get(name, [])))
        program = f"{self.room}/soak"
        self.runs(*COMPILE, f"-I{self.room}", f"{ROOT}/tests/library/soak.c", *WITH_SHARED, "-o", program)
        return self.measured(f"steal.c, {name}", program, str(runs), str(MOST_EARLY))

    def test_it_ends_when_it_is_over(self):
        self.is_right()

    def test_wrong_uses_are_caught(self):
        self.are_caught(STEAL_WRONG)


class Knight(Soak):
    def setUp(self):
        super().setUp()
        #: knight.py imports a package that carries the library, and what edits it the modules of the tests.
        places = ways.carried(self.room, PROGRAM), f"{ROOT}/tests"
        self.environment = {**os.environ, "PYTHONPATH": os.pathsep.join(places)}
        self.environment.pop("CHIPFIRE", None)

    def test_it_finds_what_one_finds_move_by_move(self):
        found = self.runs(sys.executable, KNIGHT, env=self.environment)
        right = moves_of_a_knight(8)
        self.assertEqual(found, "".join(" ".join(str(right[y, x]) for x in range(8)) + "\n" for y in range(8)))

    def outcome(self, name, runs):
        """Runs knight.py or a wrong use in a process of its own, since tests of memory follow in this one."""
        words = os.path.realpath(__file__), name, str(runs), str(MOST_EARLY)
        return self.measured(f"knight.py, {name}", sys.executable, *words, env=self.environment)

    def test_it_ends_when_it_is_over(self):
        self.is_right()

    def test_wrong_uses_are_caught(self):
        self.are_caught(KNIGHT_WRONG)


if __name__ == "__main__":
    print(*knights(KNIGHT_WRONG.get(sys.argv[1], []), *map(int, sys.argv[2:4]), sys.argv[4]))
