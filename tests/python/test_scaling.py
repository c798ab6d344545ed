"""Moments, finite-size scaling and goodness of fit: on made numbers whose moments, exponents and distances are known."""
import math
import random
import unittest
from collections import Counter

import chipfire
from chipfire.ensembles import goodness
from test_powers import drawn
from test_sandpiles import has
from ways import once


def made_chains(rows, made=None):
    """Chains whose sizes are these rows."""
    import numpy

    size = numpy.array(rows, "i8")
    made = numpy.array(made or [size.shape[1]] * len(rows), "i8")
    seeds = tuple(map(str, range(len(rows))))
    return chipfire.Chains(seeds, size, size // 2, 0 * size, made, numpy.zeros((len(rows), 1), "i8"))


def made_sizes(exponent, dimension, length):
    """A histogram of the law with an exponential cutoff at the length to the power of the dimension. Sizes that grow by a
    fiftieth stand for all between them, and counts are exact to twelve digits."""
    cutoff = length**dimension
    counts = {size: size**-exponent * math.exp(-size / cutoff) for size in range(1, 400)}
    size = 400
    while size < 40 * cutoff:
        after = size + size // 50
        middle = (size + after - 1) / 2
        counts[round(middle)] = (after - size) * middle**-exponent * math.exp(-middle / cutoff)
        size = after
    return {size: round(1e18 * count) for size, count in counts.items() if count > 1e-18}


@once
@unittest.skipUnless(has("numpy"), "NumPy is not here")
class Moments(unittest.TestCase):
    def test_the_means_are_those_of_all_drops(self):
        rows, made = [[1, 2, 3, 0], [4, 0, 0, 0], [7, 7, 1, 2]], [3, 2, 4]
        there = [value for row, count in zip(rows, made) for value in row[:count]]
        for of, part in [("size", lambda it: it), ("area", lambda it: it // 2), ("lost", lambda it: 0)]:
            found = chipfire.moments(made_chains(rows, made), of, orders=(1, 2, 0.5))
            for order, mean in zip(found.orders.tolist(), found.means.tolist()):
                self.assertAlmostEqual(mean, sum(part(it) ** order for it in there) / len(there), 12)

    def test_the_error_is_that_of_the_means_of_chains(self):
        draw = random.Random(3)
        rows = [[draw.randrange(100) + 50 * (chain % 2) for _ in range(20)] for chain in range(60)]
        means = [sum(row) / 20 for row in rows]
        mean = sum(means) / 60
        wanted = math.sqrt(sum((it - mean) ** 2 for it in means) / 60 / 60)
        found = chipfire.moments(made_chains(rows), orders=[1], resamples=4000)
        self.assertLess(abs(found.errors[0] / wanted - 1), 0.1)
        self.assertEqual(chipfire.moments(made_chains([[5, 5], [5, 5]])).errors.tolist(), [0, 0, 0])

    def test_what_is_refused(self):
        for words, given, options in [("two chains", made_chains([[1]]), {}), ("no 'radius'", made_chains([[1], [2]]), {"of": "radius"}),
                                      ("no 'duration'", made_chains([[1], [2]]), {"of": "duration"}),
                                      ("below 2", made_chains([[1], [2]]), {"resamples": 1}),
                                      ("no drop", made_chains([[1], [2]], [0, 0]), {})]:
            self.assertRaisesRegex(ValueError, words, chipfire.moments, given, **options)


@once
@unittest.skipUnless(has("numpy"), "NumPy is not here")
class Scaling(unittest.TestCase):
    def test_exponents_that_were_put_in_come_back(self):
        for exponent, dimension in [(1.5, 2.0), (1.5, 1.5), (4 / 3, 2.25), (1.7, 2.5)]:
            sizes = {length: made_sizes(exponent, dimension, length) for length in (256, 512, 1024, 2048)}
            found = chipfire.collapse(sizes)
            self.assertLess(abs(found.exponent - exponent), 0.02)
            self.assertLess(abs(found.dimension - dimension), 0.02)
            slopes = [dimension * (order + 1 - exponent) for order in found.orders]
            self.assertLess(max(abs(one - other) for one, other in zip(found.slopes, slopes)), 0.05)

    def test_lines_without_scatter_have_no_error(self):
        # (the moments of one size grow as its powers: D is 2, and tau 1)
        found = chipfire.collapse({2: [4], 4: [16], 8: [64, 0]})
        self.assertAlmostEqual(found.dimension, 2, 9)
        self.assertAlmostEqual(found.exponent, 1, 9)
        self.assertLess(max(found.errors), 1e-6)
        self.assertEqual(chipfire.collapse({2: [4], 4: [16]}, orders=(1, 2)).errors, (0, 0))

    @unittest.skipUnless(has("matplotlib"), "Matplotlib is not here")
    def test_the_points_of_all_lengths_lie_on_one_curve(self):
        import matplotlib

        matplotlib.use("Agg")
        found = chipfire.collapse({length: made_sizes(1.5, 2.0, length) for length in (256, 1024, 4096)})
        axes = found.plot()
        curves = [[*zip(*line.get_data())] for line in axes.get_lines()]
        self.assertEqual(([len(it) > 10 for it in curves], len(axes.get_legend().get_texts())), ([True] * 3, 3))
        by_place = {}
        for place, height in curves[0]:
            by_place[round(math.log2(place) / 2)] = height
        for place, height in curves[1] + curves[2]:
            if (near := by_place.get(round(math.log2(place) / 2))) and 0.001 < place < 0.5:
                self.assertLess(abs(math.log(height / near)), 0.5)

    def test_what_is_refused(self):
        for words, given, options in [("two lengths", {4: [1]}, {}), ("above 0", {0: [1], 4: [2]}, {}), ("no size above 0", {1: [0], 4: [2]}, {}),
                                      ("two orders", {1: [1], 4: [2]}, {"orders": [1, 1]})]:
            self.assertRaisesRegex(ValueError, words, chipfire.collapse, given, **options)


@once
@unittest.skipUnless(has("numpy"), "NumPy is not here")
class Goodness(unittest.TestCase):
    def test_the_distance_is_that_of_the_sums(self):
        import numpy

        draw = random.Random(5)
        for exponent, least, most in [(1.0, 1, 40), (1.5, 3, 700), (2.2, 90, 3000), (0.7, 250, 2500), (1.3, 1, 5000)]:
            seen = Counter(draw.choices(range(least, most + 1), k=60))
            powers = [size**-exponent for size in range(least, most + 1)]
            total, count, chance, share, wanted = math.fsum(powers), 60, 0.0, 0.0, 0.0
            for size, power in zip(range(least, most + 1), powers):
                chance += power / total
                share += seen[size] / count
                wanted = max(wanted, abs(share - chance))
            self.assertAlmostEqual(goodness.distance(numpy, seen, exponent, least, most), wanted, 9)

    def test_the_best_least_size_is_where_the_law_begins(self):
        draw = random.Random(7)
        sizes = [size if size >= 30 else draw.randrange(1, 30) for size in drawn(1.6, 1, 20_000, 40_000, 2)]
        law = chipfire.power_law(sizes, "best", 20_000)
        self.assertTrue(24 <= law.least <= 60, law)
        self.assertLess(abs(law.exponent - 1.6), 0.05)
        self.assertEqual(law.used, sum(law.least <= size <= 20_000 for size in sizes))
        self.assertIsNone(law.p_value)
        fixed = chipfire.power_law(sizes, law.least, 20_000, trials=1)
        self.assertEqual(fixed[:6], law[:6])

    def test_a_true_law_is_not_refused_and_a_false_one_is(self):
        law = chipfire.power_law(drawn(1.5, 1, 1000, 3000, 4), 1, 1000, trials=40)
        self.assertGreater(law.p_value, 0.1)
        draw = random.Random(9)
        sizes = [1 + int(draw.expovariate(0.02)) for _ in range(3000)]
        self.assertEqual(chipfire.power_law(sizes, 1, 1000, trials=40).p_value, 0)
        one, other = (chipfire.power_law(drawn(1.5, 1, 90, 200, 4), "best", 90, trials=9, seed=seed) for seed in (1, 1))
        self.assertEqual(one, other)

    def test_a_best_range_is_a_decade_at_least(self):
        # (two sizes side by side fit some law exactly)
        draw = random.Random(9)
        sizes = [1 + int(draw.expovariate(0.02)) for _ in range(3000)] + [511, 512]
        self.assertLessEqual(chipfire.power_law(sizes, "best", 512).least, 51)

    def test_samples_have_what_was_seen_below(self):
        import numpy

        law = chipfire.PowerLaw(1.5, 0.1, 10, 500, 300)
        seen = {3: 50, 7: 50, 10: 200, 40: 100}
        found = goodness.sample(numpy, numpy.random.default_rng(1), law, seen)
        self.assertEqual((sum(found.values()), {*found} & {*range(10)}), (400, {3, 7}))
        self.assertTrue(all(size in (3, 7) or 10 <= size <= 500 for size in found))

    def test_candidates_have_two_sizes_that_differ(self):
        self.assertEqual(goodness.candidates([5, 5, 9, 2]), [2, 5])
        many = goodness.candidates(range(1, 10**6))
        self.assertEqual((many[0], many[-1], len(many) <= 64), (1, 99_999, True))
        self.assertRaisesRegex(ValueError, "two sizes that differ", chipfire.power_law, [4, 4, 0], "best")


if __name__ == "__main__":
    unittest.main()
