"""Figures that come back: exact means, exponents that are known exactly, and what a C program measures."""
import math
import os
import shutil
import subprocess
import tempfile
import unittest

import chipfire
from test_sandpiles import has


def directed(height, width):
    """The directed sandpile of Dhar and Ramaswamy (1989): a vertex sends a chip to the vertex below it, and one to the
    vertex beside that. The columns are joined, and the last row sends both chips to the sink."""
    import numpy

    vertex = numpy.arange(height * width)
    row, column = vertex // width, vertex % width
    below, beside = vertex + width, (row + 1) * width + (column + 1) % width
    inner, sink = row < height - 1, height * width
    ones = numpy.ones(int(inner.sum()), "i8")
    twice = [numpy.stack([vertex[inner], head[inner], ones], 1) for head in (below, beside)]
    last = numpy.stack([vertex[~inner], 0 * vertex[~inner] + sink, 0 * vertex[~inner] + 2], 1)
    return chipfire.Graph(height * width + 1, sink, numpy.concatenate([*twice, last]))


def stable_rows(n, vertices, seed):
    """Rows of 0 or 1 chips on each vertex but the sink, the last one: all are recurrent, each as probable as the others."""
    import numpy

    rows = numpy.random.default_rng(seed).integers(0, 2, (n, vertices))
    rows[:, -1] = 0
    return rows


def by_chains(rows):
    """Returns the mean of rows, one for each chain, and its error."""
    means = rows.mean(1)
    return means.mean(), means.std(ddof=1) / math.sqrt(len(means))


def exponent(rows, least, most):
    """Returns the exponent of all drops, and its error by those of the chains: drops of one chain depend on one another."""
    import numpy

    each = numpy.array([chipfire.power_law(row, least, most).exponent for row in rows])
    return chipfire.power_law(rows.ravel(), least, most).exponent, by_chains(each[:, None])[1]


def spans(found, side):
    """Returns for each drop of chains on a square grid whether it fired squares on two opposite borders."""
    import numpy

    fired, drops = found.fired, found.size.size
    row, column = fired.vertices // side, fired.vertices % side
    drop = numpy.repeat(numpy.arange(drops), numpy.diff(fired.offsets))
    borders = row == 0, row == side - 1, column == 0, column == side - 1
    top, bottom, left, right = (numpy.bincount(drop[it], minlength=drops) > 0 for it in borders)
    return (top & bottom | left & right).reshape(found.size.shape)


@unittest.skipUnless(has("numpy") and chipfire.library.find_library(), "NumPy or the library is not here")
class Published(unittest.TestCase):
    def near(self, found, wanted, error):
        self.assertLess(abs(found - wanted), 3 * error, (found, error))

    def test_the_mean_size_on_squares(self):
        # (Dhar, 1990: the sum of the inverse Laplacian, divided by the number of squares)
        found = chipfire.chains(chipfire.grid(64, 64), 16, 1500, seed=1)
        moments = chipfire.moments(found, orders=[1])
        self.near(moments.means[0], 153.04, moments.errors[0])

    def test_the_directed_sandpile(self):
        # (each chip makes a step for each row, and a firing makes two steps)
        height, width = 256, 64
        graph = directed(height, width)
        chips = stable_rows(32, graph.vertices, 1)
        found = chipfire.chains(graph, 32, 2000, seed=1, chips=chips, on=range(width), durations=True)
        moments = chipfire.moments(found, orders=[1])
        self.near(moments.means[0], height / 2, moments.errors[0])
        for rows, least, most, wanted in ((found.size, 16, 512, 4 / 3), (found.duration, 16, 128, 3 / 2)):
            law, error = exponent(rows, least, most)
            self.assertLess(error, 0.05)
            self.near(law, wanted, error)

    @unittest.skipUnless(shutil.which("gcc"), "gcc is not here")
    def test_moments_durations_and_spanning_beside_c(self):
        source = f"{os.path.dirname(os.path.abspath(__file__))}/ensemble.c"
        with tempfile.TemporaryDirectory() as room:
            program = f"{room}/ensemble"
            subprocess.run(["gcc", "-std=c11", "-O2", source, "-o", program, "-lm"], check=True)
            said = subprocess.check_output([program, "64", "40000", "1"], text=True)
        wanted = [tuple(map(float, line.split())) for line in said.splitlines()]
        found = chipfire.chains(
            chipfire.grid(64, 64), 16, 1500, seed=1, fired=True, durations=True
        )
        size = found.size.astype(float)
        measured = [size, size**2, found.duration, spans(found, 64)]
        self.assertEqual(len(wanted), len(measured))
        for (mean, error), rows in zip(wanted, measured):
            own, own_error = by_chains(rows)
            self.near(own, mean, math.hypot(error, own_error))


if __name__ == "__main__":
    unittest.main()
