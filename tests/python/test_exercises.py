"""The exercises of docs/tasks/exercises.md: what they begin with is wrong, and each answer is right."""
import os
import re
import subprocess
import sys
import tempfile
import unittest

HERE = os.path.dirname(os.path.realpath(__file__))
EXAMPLES = f"{os.path.dirname(os.path.dirname(HERE))}/examples"
FED = [f"{EXAMPLES}/triangle/graph.json", f"{EXAMPLES}/triangle/no-chips.csv", "--feed", "4", "2", "--feed", "4", "1"]
#: Each class of the two files, with a game and the status of `explore`.
STATUSES = [
    ("given.py:Arrived", [], 2), ("given.py:TwoCounters", [], 2), ("given.py:TwoCounters", FED, 2),
    ("answers.py:Repaired", [], 0), ("answers.py:FourCounters", [], 0), ("answers.py:FourCounters", FED, 2),
    ("answers.py:FedFourCounters", [], 0), ("answers.py:FedFourCounters", FED, 0), ("answers.py:OneByOne", [], 0),
]


def explore(name, game):
    """The status of a command that explores a class, and what it says."""
    words = [sys.executable, "-m", "chipfire", "explore", f"{EXAMPLES}/exercises/{name}", *game]
    ran = subprocess.run(words, stdout=subprocess.PIPE, encoding="utf-8")
    return ran.returncode, ran.stdout


class Exercises(unittest.TestCase):
    def test_each_class_has_its_status(self):
        for name, game, status in STATUSES:
            self.assertEqual(explore(name, game)[0], status, (name, game))

    def test_signals_one_by_one(self):
        with tempfile.NamedTemporaryFile("w", suffix=".csv") as chips:
            chips.write("vertex,chips\n0,4\n")
            chips.flush()
            found = explore("answers.py:OneByOne", [f"{EXAMPLES}/detector/two-edges.json", chips.name])
        self.assertEqual((found[0], re.search("[0-9]+ states", found[1])[0]), (0, "516 states"))

    def test_no_class_is_left_out(self):
        for file in ("given.py", "answers.py"):
            with open(f"{EXAMPLES}/exercises/{file}", encoding="utf-8") as text:
                classes = re.findall(r"^class (\w+)", text.read(), re.MULTILINE)
            self.assertEqual({f"{file}:{name}" for name in classes}, {it for it, _, _ in STATUSES if it.startswith(file)})
