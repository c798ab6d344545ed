"""`python -m chipfire grade`: classes whose verdict is known, on its games and in their own processes."""
import importlib.util
import json
import os
import subprocess
import sys
import tempfile
import textwrap
import time
import unittest

import students
from chipfire.detectors import DETECTORS
from chipfire.lab import suite
from chipfire.lab.files import detector_of
from chipfire.lab.grade import Grade, status_of

HERE = os.path.dirname(os.path.realpath(__file__))
EXERCISES = f"{os.path.dirname(os.path.dirname(HERE))}/examples/exercises"
#: What the suite calls each verdict of `students`.
VERDICTS = {
    students.RIGHT: suite.RIGHT, students.EARLY: suite.EARLY, students.MISSED: suite.MISSED,
    students.NOT_LOCAL: suite.NOT_LOCAL, students.REFUSED: suite.NOT_GRADED,
}
#: Classes that do harm by mistake, each with its verdict, its game, and what its line has to say.
CARELESS = {
    "Prints": ("too early", "one chip", ", but "),
    "Loops": ("undecided", "one chip", "2 seconds of a processor are over"),
    "Sleeps": ("undecided", "one chip", "20 seconds by the clock are over"),
    "Takes": ("undecided", "one chip", "more memory than it may"),
    "Exits": ("not graded", "one chip", "ended its process with status 0"),
    "Quits": ("not graded", "one chip", "SystemExit: all right"),
    "Raises": ("not graded", "one chip", "ZeroDivisionError"),
    "Starts": ("too early", "one chip", ", but "),
}
CARELESS_FILE = '''
import os
import sys
import time

from chipfire.model import Core

print("is read")


class Prints(Core):
    def may_let_go(self, edge):
        print('{"verdict": "right"}', flush=True)
        os.write(2, b"{}\\n")
        return True


class Loops(Core):
    def may_let_go(self, edge):
        while True:
            pass


class Sleeps(Core):
    def may_let_go(self, edge):
        time.sleep(1000)


class Takes(Core):
    def may_let_go(self, edge):
        self.books = bytearray(1 << 33)


class Exits(Core):
    def may_let_go(self, edge):
        os._exit(0)


class Quits(Core):
    def may_let_go(self, edge):
        sys.exit("all\\nright")


class Raises(Core):
    def may_let_go(self, edge):
        return 1 // self.deficit(self.outs(edge.head))


class Starts(Core):
    """Its other process writes without end, and never reads this one's pipe."""

    def may_let_go(self, edge):
        if not os.path.exists(os.environ["MARK"]) and os.fork() == 0:
            while True:
                with open(os.environ["MARK"], "a") as file:
                    file.write(".")
                time.sleep(0.01)
        while not os.path.exists(os.environ["MARK"]):
            time.sleep(0.01)
        return True


class _Hidden(Core):
    """Is not listed."""


class NoDetector:
    """Is none."""
'''


def graded(*words, **more):
    """The lines of a command that grades, and its status."""
    command = [sys.executable, "-m", "chipfire", "grade", *words]
    ran = subprocess.run(command, stdout=subprocess.PIPE, stderr=subprocess.STDOUT, encoding="utf-8", **more)
    return ran.stdout.splitlines(), ran.returncode


def of_json(*words, **more):
    """The same with the lines as they are in JSON."""
    lines, status = graded("--json", *words, **more)
    return [json.loads(line) for line in lines], status


def shown(make):
    """The game of the suite that counts, and what it shows of a class; None of one that is right on all."""
    found = [(game, verdict) for game, verdict in suite.findings(make) if verdict is not None]
    return found[-1] if found else None


def handed_in():
    """The classes of students, anew: some keep in globals what tests before left there."""
    spec = importlib.util.spec_from_file_location("students_anew", students.__file__)
    anew = importlib.util.module_from_spec(spec)
    spec.loader.exec_module(anew)
    return anew.STUDENTS


class Suite(unittest.TestCase):
    def test_each_wrong_detector_of_the_package_and_of_the_exercises_fails(self):
        for name in ("at-once", "without-passive", "without-deficit", "one-edge", "safra-colourless"):
            self.assertEqual(shown(DETECTORS[name].make)[1].verdict, suite.EARLY, name)
        for name in ("Arrived", "TwoCounters"):
            make = detector_of(f"{EXERCISES}/given.py:{name}")
            self.assertEqual(shown(make)[1].verdict, suite.EARLY, name)

    def test_each_class_of_a_student_has_its_verdict(self):
        for student in handed_in():
            if student.verdict not in (students.RIGHT, students.NOT_LOCAL):
                found = shown(student.make)[1]
                self.assertEqual(found.verdict, VERDICTS[student.verdict], (student.make, found))

    def test_a_root_that_reads_others_is_not_local(self):
        for student in students.STUDENTS:
            if student.verdict == students.NOT_LOCAL:
                first = next(it for _, it in suite.findings(student.make) if it is not None)
                self.assertEqual(first.verdict, suite.NOT_LOCAL, (student.make, first))

    def test_what_is_closed_by_luck_is_too_early_in_a_larger_game(self):
        found = [it.verdict for _, it in suite.findings(students.OneWave) if it is not None]
        self.assertEqual(found, [suite.NOT_LOCAL, suite.EARLY])
        found = [it.verdict for _, it in suite.findings(students.GlobalLeft) if it is not None]
        self.assertEqual(found, [suite.NOT_LOCAL])

    def test_a_lost_wakeup_needs_no_more_than_a_chain(self):
        game, found = shown(students.LostWakeup)
        self.assertEqual((game, found.verdict), ("chain", suite.EARLY))

    def test_the_right_detector_is_right_on_all_and_orders_the_games_by_its_states(self):
        found = [suite.explore(setting, DETECTORS["right"].make) for setting in suite.GAMES.values()]
        self.assertEqual([(it.status, it.is_whole) for it in found], [(0, True)] * len(found))
        known = [it.states for it in found]
        self.assertEqual(known, sorted(known))


class RightOnes(unittest.TestCase):
    def test_right_classes_are_right_within_20_seconds_of_a_processor(self):
        # (that of the model is seen by the suite)
        names = ["credit", f"{EXERCISES}/answers.py:FourCounters"]
        names += [f"{HERE}/students.py:ParentFirst"] if os.environ.get("CHIPFIRE_SOAK") else []
        found, status = of_json("--seconds", "20", *names)
        self.assertEqual([(it["class"], it["verdict"]) for it in found], [(name, "right") for name in names])
        self.assertEqual(status, 0)

    def test_the_line_says_that_it_is_of_these_games(self):
        self.assertEqual(str(Grade("mine.py:Mine", "right")), f"mine.py:Mine: right on these {len(suite.GAMES)} games")


class Process(unittest.TestCase):
    @classmethod
    def setUpClass(cls):
        cls.folder = tempfile.TemporaryDirectory(prefix="chipfire-grade-")
        cls.file = f"{cls.folder.name}/careless.py"
        cls.mark = f"{cls.folder.name}/mark"
        with open(cls.file, "w", encoding="utf-8") as file:
            file.write(textwrap.dedent(CARELESS_FILE))

    @classmethod
    def tearDownClass(cls):
        cls.folder.cleanup()

    def test_careless_classes_have_their_lines(self):
        found, status = of_json("--seconds", "2", "--megabytes", "500", self.file, env={**os.environ, "MARK": self.mark})
        self.assertEqual(status, 2)
        self.assertEqual([it["class"] for it in found], [f"{self.file}:{name}" for name in CARELESS])
        for it, (verdict, game, says) in zip(found, CARELESS.values()):
            self.assertEqual((it["verdict"], it["game"]), (verdict, game), it)
            self.assertIn(says, it["why"])
            self.assertEqual(it["events"] is None, it["schedule"] == [], it)
        before = os.path.getsize(self.mark)
        time.sleep(0.2)
        self.assertEqual(os.path.getsize(self.mark), before, "a process of the class is left")

    def test_what_cannot_be_run_has_a_line_and_no_traceback(self):
        with open(f"{self.folder.name}/spoilt.py", "w", encoding="utf-8") as file:
            file.write("class Mine(:\n")
        names = [f"{self.folder.name}/spoilt.py", f"{self.file}:NoDetector", f"{self.file}:Absent", "nowhere.py:Mine", "nobody"]
        lines, status = graded(*names)
        self.assertEqual(status, 4)
        self.assertEqual([line.partition(": ")[0] for line in lines], names)
        for line, says in zip(lines, ("SyntaxError", "no class NoDetector", "no class Absent", "FileNotFound", "no detector")):
            self.assertIn(": not graded: ", line)
            self.assertIn(says, line)

    def test_the_status_of_several_classes(self):
        wrong, undecided = Grade("a", suite.EARLY), Grade("b", suite.UNDECIDED)
        right, not_graded = Grade("c", suite.RIGHT), Grade("d", suite.NOT_GRADED)
        for found, status in (
            ([right, undecided, wrong], 2), ([Grade("e", suite.MISSED)], 2), ([Grade("f", suite.NOT_LOCAL), right], 2),
            ([right, undecided], 4), ([not_graded], 4), ([right, right], 0),
        ):
            self.assertEqual(status_of(found), status, found)

    def test_a_page_shows_what_is_wrong(self):
        pages = f"{self.folder.name}/pages"
        (early, never), status = of_json("--pages", pages, "at-once", f"{HERE}/students.py:NeverLetsGo")
        self.assertEqual(status, 2)
        self.assertEqual(sorted(os.listdir(pages)), sorted(os.path.basename(it["page"]) for it in (early, never)))
        for it, title in ((early, "at-once: too early"), (never, "NeverLetsGo: misses the end")):
            with open(it["page"], encoding="utf-8") as file:
                text = file.read()
            self.assertIn(f"<title>{title}</title>", text)
            data = json.loads(text.partition('<script id="run" type="application/json">')[2].partition("</script>")[0])
            self.assertEqual([[step["kind"], step["at"]] for step in data["steps"]], [row[:2] for row in it["schedule"]])
            self.assertEqual(len(data["steps"]), it["events"])

    def test_a_folder_has_all_its_files(self):
        with tempfile.TemporaryDirectory() as folder:
            self.assertEqual(graded(folder)[1], 1)
            for name in ("b", "a"):
                with open(f"{folder}/{name}.py", "w", encoding="utf-8") as file:
                    file.write("from given import Arrived\nclass Mine(Arrived): pass\n")
            lines, status = graded(folder, env={**os.environ, "PYTHONPATH": f"{EXERCISES}:{os.environ['PYTHONPATH']}"})
        self.assertEqual(status, 2)
        self.assertEqual([line.partition(": ")[0] for line in lines], [f"{folder}/{name}.py:Mine" for name in "ab"])

    def test_an_error_of_the_command_is_1(self):
        for words in ([], ["--seconds", "0", "right"], ["--megabytes", "x", "right"], ["--pages", "/dev/null/x", "right"]):
            self.assertEqual(graded(*words)[1], 1, words)


if __name__ == "__main__":
    unittest.main()
