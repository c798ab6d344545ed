"""The scripts of examples/python, and the session that its README shows."""
import doctest
import os
import random
import re
import subprocess
import sys
import tempfile
import unittest
import zlib

import chipfire
import play
from test_sandpiles import CASES

HERE = os.path.dirname(os.path.realpath(__file__))
ROOT = os.path.dirname(os.path.dirname(HERE))
SCRIPTS = f"{ROOT}/examples/python"


def script(name, *arguments):
    """What a script of examples/python prints."""
    words = [sys.executable, f"{SCRIPTS}/{name}", *map(str, arguments)]
    return subprocess.run(words, stdout=subprocess.PIPE, encoding="utf-8", check=True).stdout


def played(side, chips):
    """The chips that lie on a square grid once the slow player of examples/play.py is through, and its firings."""
    grid = chipfire.grid(side, side)
    graph = {"vertices": grid.vertices, "sink": grid.sink, "edges": grid.edges}
    position = [0] * grid.vertices
    position[side * (side // 2) + side // 2] = chips
    fired = play.play(graph, position, 2**40, random.Random(1))
    return position, sum(fired)


def colours_of(picture, side, scale):
    """The colour of the middle of each square of a PNG file with a table of colours, by rows."""
    found = re.fullmatch(rb"\x89PNG\r\n\x1a\n....IHDR(.{13})....(.*)....IEND....", picture, re.DOTALL)
    width, height = int.from_bytes(found[1][:4], "big"), int.from_bytes(found[1][4:8], "big")
    assert (width, height, found[1][8:]) == (side * scale, side * scale, bytes([8, 3, 0, 0, 0]))
    points = zlib.decompress(found[2][found[2].index(b"IDAT") + 4 :])
    lines = [points[start + 1 : start + 1 + width] for start in range(0, len(points), width + 1)]
    middle = range(scale // 2, side * scale, scale)
    return [[lines[line][column] for column in middle] for line in middle]


class Scripts(unittest.TestCase):
    def test_the_identity_is_that_of_sage(self):
        case = next(it for it in CASES if it.how == "sandpiles.Grid(20, 20)")
        identity = case.named(case.stored["identity"])
        lines = [" ".join(str(identity[row, column]) for column in range(1, 21)) for row in range(1, 21)]
        self.assertEqual(script("identity.py").splitlines(), lines)

    def test_the_picture_shows_what_the_slow_player_finds(self):
        side, chips = 11, 400
        position, firings = played(side, chips)
        with tempfile.TemporaryDirectory(prefix="chipfire-python-") as folder:
            file_name = f"{folder}/heap.png"
            said = script("picture.py", side, chips, file_name)
            with open(file_name, "rb") as file:
                colours = colours_of(file.read(), side, 8)
        self.assertEqual(colours, [position[side * row : side * row + side] for row in range(side)])
        self.assertEqual(said, f"{file_name}: {side} by {side}, {firings} firings, {position[-1]} chips lost\n")

    def test_a_picture_says_how_it_is_asked_for(self):
        for words, said in [([], "usage: picture.py"), (["0", "9", "a.png"], "the width is below 1: 0"),
                            (["9", "-9", "a.png"], "below 0: -9"), (["9", "9", "a.xyz"], ".xyz")]:
            words = [sys.executable, f"{SCRIPTS}/picture.py", *words]
            ran = subprocess.run(words, capture_output=True, encoding="utf-8")
            self.assertEqual((ran.returncode, "Traceback" in ran.stderr), (2, False))
            self.assertIn(said, ran.stderr)
        self.assertIn("Drops a heap of chips", script("picture.py", "--help"))

    def test_the_path_fires_as_the_theorem_says(self):
        lines = []
        for n in range(1, 9):
            counts = [(n - abs(at)) * (n - abs(at) + 1) // 2 for at in range(-n, n + 1)]
            squares = sum(number * number for number in range(1, n + 1))
            lines.append(f"{2 * n + 1} chips: {squares} firing{'s' * (n > 1)}, {' '.join(map(str, counts))}")
        self.assertEqual(script("path_counts.py").splitlines(), lines)

    def test_the_early_acknowledgements_are_refused_as_the_slow_simulation_says(self):
        for length in (1, 4):
            with tempfile.TemporaryDirectory(prefix="chipfire-python-") as folder:
                said = script("early_acknowledgements.py", length, folder).splitlines()
                files = [f"{folder}/{name}" for name in ("graph.json", "chips.csv", "schedule.csv")]
                words = [sys.executable, f"{ROOT}/python/chipfire/lab/model.py", *files]
                wanted = subprocess.run(words, stdout=subprocess.PIPE, encoding="utf-8", check=True).stdout.splitlines()
            replies = [re.sub("   because .*", "", line.partition(": ")[2]) for line in said[:-1]]
            self.assertEqual([*replies, said[-1]], [*wanted[:-2], "the root is closed"])
            self.assertEqual(wanted[-2], "root closed")
            self.assertEqual(replies.count("not-now 15"), length)

    def test_the_session_of_the_readme(self):
        with open(f"{SCRIPTS}/README.md", encoding="utf-8") as file:
            sessions = doctest.DocTestParser().get_doctest(file.read().replace("```", ""), {}, "README.md", None, 0)
        output = []
        failed, tried = doctest.DocTestRunner(verbose=False).run(sessions, out=output.append)
        self.assertEqual((failed, tried > 5), (0, True), "".join(output))


if __name__ == "__main__":
    unittest.main()
