"""Power laws of draws whose exponent is known, and the plot of them."""
import math
import random
import time
import unittest
from collections import Counter
from unittest import mock

import chipfire
from test_sandpiles import has


def drawn(exponent, least, most, count, seed):
    """Draws of a known power law."""
    sizes = range(least, most + 1)
    return random.Random(seed).choices(sizes, [size**-exponent for size in sizes], k=count)


def means(exponent, least, most, near):
    """The mean logarithm of the sizes of a power law, less that of one of them, by adding all up."""
    logs = [math.log1p((size - near) / near) for size in range(least, most + 1)]
    top = min(exponent * logs[0], exponent * logs[-1])
    weights = [math.exp(top - exponent * log) for log in logs]
    return math.fsum(map(float.__mul__, weights, logs)) / math.fsum(weights)


def quickest(call):
    """The least time of a call, of three."""
    times = []
    for _ in range(3):
        begun = time.thread_time()
        call()
        times.append(time.thread_time() - begun)
    return min(times)


class PowerLaw(unittest.TestCase):
    def test_the_exponent_of_a_known_law_is_found(self):
        for exponent, least, most, seed in [(1.5, 1, 2000, 1), (1.5, 5, 300, 2), (1.05, 1, 500, 3), (2.5, 1, 100, 4)]:
            law = chipfire.power_law(drawn(exponent, least, most, 100_000, seed), least, most)
            self.assertLess(abs(law.exponent - exponent), 0.02)
            self.assertLess(abs(law.exponent - exponent), 4 * law.error)
            self.assertEqual(law[2:5], (least, most, 100_000))

    def test_the_error_is_how_far_the_exponents_of_many_draws_lie_apart(self):
        laws = [chipfire.power_law(drawn(1.5, 1, 100, 500, seed), 1, 100) for seed in range(60)]
        squares = [((law.exponent - 1.5) / law.error) ** 2 for law in laws]
        self.assertTrue(0.5 < sum(squares) / 60 < 1.6, sum(squares) / 60)

    def test_what_lies_outside_is_left_out(self):
        sizes = drawn(1.5, 1, 50, 2000, 1)
        law = chipfire.power_law(sizes, 2, 20)
        self.assertEqual(law.used, sum(2 <= size <= 20 for size in sizes))
        self.assertEqual(chipfire.power_law([0] * 900 + [size for size in sizes if 2 <= size <= 20], 2, 20), law)
        self.assertEqual(chipfire.power_law(Counter(sizes), 2, 20), law)
        self.assertEqual(chipfire.power_law(sizes).most, max(sizes))

    def test_two_sizes_by_hand(self):
        # (three times as many of size 1 as of size 2: 2 ** exponent is 3)
        law = chipfire.power_law({0: 9, 1: 75, 2: 25})
        self.assertAlmostEqual(law.exponent, math.log2(3))
        self.assertAlmostEqual(law.error, 1 / math.sqrt(100 * 0.75 * 0.25 * math.log(2) ** 2))

    def test_the_mean_logarithm_of_the_law_is_that_of_the_sizes(self):
        for sizes, least, most in [([1, 1, 1, 2, 7, 300], 1, 300), ([1, 1, 3, 20, 6000], 1, 6000),
                                   ([1, 20_000], 1, 20_000),
                                   ([5] * 9 + [6], 5, 9000), ([9999] * 20 + [9000, 9990], 1, 10_000),
                                   ([400, 5000, 5000], 1, 8000), ([10**6] * 3 + [10**6 + 700], 10**6, 10**6 + 4000)]:
            law, near = chipfire.power_law(sizes, least, most), sizes[0]
            mean = math.fsum(math.log1p((size - near) / near) for size in sizes) / len(sizes)
            self.assertLess(abs(means(law.exponent, least, most, near) - mean), 1e-9 / law.error / len(sizes) ** 0.5)

    def test_sizes_that_are_seen_far_above_the_least_one(self):
        # (from the largest one down they are geometric then: 100 of 101 are one below it, each 100/201 of the next)
        for size in (10**4, 10**6):
            law = chipfire.power_law([size] * 100 + [size + 1])
            self.assertLess(abs(law.exponent / (size * -math.log(201 / 100)) - 1), 3 / size)
            self.assertEqual(law[2:5], (1, size + 1, 101))
        # (of two sizes, one of which is far more often: 2 ** exponent is 10^18)
        for sign, counts in [(1, {1: 10**18, 2: 1}), (-1, {1: 1, 2: 10**18})]:
            self.assertAlmostEqual(chipfire.power_law(counts).exponent, sign * 18 * math.log2(10))

    @unittest.skipUnless(has("numpy"), "NumPy is not here")
    def test_a_law_takes_no_longer_than_a_sum_over_its_range(self):
        import numpy

        for sizes in ([1, 3 * 10**6], [10**6] * 100 + [10**6 + 1]):
            own = quickest(lambda: chipfire.power_law(sizes))
            one = quickest(lambda: (numpy.arange(1.0, max(sizes) + 1) ** -1.5).sum())
            self.assertLess(own, 1.5 * one)

    def test_what_is_refused(self):
        for sizes, options in [([0, 0], {}), ([3, 3], {}), ([1, 2], {"least": 0}), ([1, 2], {"least": 2}),
                               ([1, 9], {"most": 0}), ([], {})]:
            with self.assertRaises(ValueError):
                chipfire.power_law(sizes, **options)
        for sizes, refusal, said in [([], ValueError, "two sizes that differ"), ([0, 0], ValueError, "two sizes"),
                                     ([1, 2.5], TypeError, "size 1 is no whole number: 2.5"),
                                     ("12", TypeError, "and no str: '12'"),
                                     ([1, 2, float("nan")], TypeError, "size 2 is no whole number: nan"),
                                     ({1: 2, 3: -1}, ValueError, "the count of size 3 is below 0: -1"),
                                     ({1: 0.5, 3: 1}, TypeError, "the count of size 1 is no whole number: 0.5"),
                                     ({1: 2**65, 3: 1}, ValueError, "count of size 1 is above 18446744073709551616")]:
            with self.assertRaisesRegex(refusal, said):
                chipfire.power_law(sizes)

    @unittest.skipUnless(has("numpy"), "NumPy is not here")
    def test_arrays(self):
        import numpy

        sizes = drawn(1.5, 1, 50, 2000, 1)
        wanted = chipfire.power_law(sizes)
        self.assertEqual(chipfire.power_law(numpy.array(sizes)), wanted)
        self.assertEqual(chipfire.power_law(numpy.array(sizes).reshape(20, 100)), wanted)
        self.assertEqual(chipfire.power_law(numpy.array(sizes, float)), wanted)
        with self.assertRaisesRegex(TypeError, "size 1 is no whole number: 1.5"):
            chipfire.power_law(numpy.array([1, 1.5, 2]))

    def test_the_line_of_sizes_far_above_the_least_one(self):
        axes = mock.MagicMock()
        with mock.patch("chipfire.ensembles.power_law.import_optional", return_value=None):
            chipfire.plot_sizes([10**6] * 100 + [10**6 + 1], axes=axes)
        (at, line), _ = axes.loglog.call_args
        # (the largest one is as often as it was seen, by a geometric law, and the least one never)
        self.assertEqual((at, line[0]), ([1, 10**6 + 1], 0))
        self.assertLess(abs(line[1] / (101 * (1 - 100 / 201)) - 1), 1e-5)

    @unittest.skipUnless(has("matplotlib"), "Matplotlib is not here")
    def test_the_plot(self):
        import matplotlib

        matplotlib.use("Agg")
        axes = chipfire.plot_sizes({0: 50, 1: 75, 2: 20, 3: 5, 4: 8}, 1, 2)
        points, line = axes.lines
        # (sizes 2 and 3 are 25, so 12.5 each; 4 to 7 are 8, so 2 each)
        self.assertEqual(points.get_ydata().tolist(), [75, 12.5, 2])
        self.assertEqual(points.get_xdata().tolist(), [1, math.sqrt(6), math.sqrt(28)])
        self.assertEqual([round(it, 6) for it in line.get_ydata()], [75, 20])
        self.assertIs(chipfire.plot_sizes([1, 2, 2], axes=axes), axes)


if __name__ == "__main__":
    unittest.main()
