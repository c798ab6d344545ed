"""Power laws: the exponent of sizes, and a plot of how many there are of each."""

from __future__ import annotations

import base64
import html
import io
import itertools
import math
import operator
from collections import Counter
from collections.abc import Iterable, Mapping
from typing import Any, Literal, NamedTuple

from chipfire.ensembles import goodness
from chipfire.utils import as_int, as_ints, import_optional, is_of_networkx, listed

#: The greatest size, and the most that one may be seen.
MAX_SIZE = MAX_COUNT = 2**64

#: How many sizes at each end of a large range are added up one by one; by which power of 2 parts between them grow.
_ALONE = 128
_GROWTH = 1 / 4

#: The weights by which a sum differs from the integral at each end, by Gregory's formula with four differences.
_GREGORY = tuple(weight / 1440 for weight in (965, -462, 336, -146, 27))

#: The places on [-1, 1] and the weights of Gauss's rule of five.
_GAUSS = [(0.0, 128 / 225)] + [
    (sign * math.sqrt(5 + way * 2 * math.sqrt(10 / 7)) / 3, (322 - way * 13 * math.sqrt(70)) / 900)
    for way in (-1, 1)
    for sign in (-1, 1)
]


class PowerLaw(NamedTuple):
    """A discrete power law: from `least` to `most` the probability of a size is proportional to ``size ** -exponent``.

    Attributes
    ----------
    exponent : float
        The exponent for which the observed sizes are most probable.
    error : float
        The standard error of the exponent, if the sizes are independent.
    least, most : int
        The range of sizes.
    used : int
        How many sizes lie in the range.
    distance : float or None
        The Kolmogorov-Smirnov distance between the sizes and the law, if it was asked for.
    p_value : float or None
        The share of samples from the law whose distance is at least as large, if there were trials.

    See Also
    --------
    power_law

    Notes
    -----
    None of this is proved.

    Examples
    --------
    >>> chipfire.power_law({1: 8, 2: 2}).most
    2
    """

    exponent: float
    error: float
    least: int
    most: int
    used: int
    distance: float | None = None
    p_value: float | None = None


def power_law(
    sizes: Iterable[int] | Mapping[int, int],
    least: int | Literal["best"] = 1,
    most: int | None = None,
    *,
    trials: int = 0,
    seed: int = 0,
) -> PowerLaw:
    """Fits a discrete power law to sizes, by maximum likelihood.

    Parameters
    ----------
    sizes : iterable of int, or mapping of int to int
        The sizes one by one, or a histogram. Sizes that are 0 or out of the range are left out. At least two sizes must
        differ.
    least : int or "best", optional
        The least size of the range, 1 or more. With "best", up to 64 of the observed sizes are tried, and the size
        whose law has the least Kolmogorov-Smirnov distance is taken. The range above each size tried is at least a
        decade, if possible. This needs NumPy.
    most : int, optional
        The largest size of the range. By default the largest observed one. The range has up to 10,000,000 sizes.
    trials : int, optional
        How many samples are drawn from the law, and fitted in the same way, for a p-value. This needs NumPy.
    seed : int, optional
        The seed of the samples.

    Returns
    -------
    PowerLaw
        The exponent with its standard error, and the p-value if there are trials.

    Raises
    ------
    ImportError
        NumPy is missing, and `least` is "best" or `trials` is above 0.
    ValueError
        No two sizes in the range differ, or the range is too long.

    See Also
    --------
    plot_sizes, drops, collapse

    Notes
    -----
    The border of a grid cuts the power law of avalanches off, so choose `most` far below the largest size. A p-value
    below 0.1 speaks against the law, if there are 100 trials or more [1]_. Below a best least size, samples are drawn
    from the sizes observed there.

    The error and the p-value assume independent sizes. Drops of one chain are not independent, so the scatter of the
    exponents of several chains is a better error.

    None of this is proved.

    References
    ----------
    .. [1] A. Clauset, C. R. Shalizi and M. E. J. Newman, "Power-law distributions in empirical data", SIAM Review 51 (2009).

    Examples
    --------
    >>> chipfire.power_law({1: 8, 2: 2, 4: 1}, 1, 2).used
    10
    """
    told = counted(sizes)
    trials = as_int(trials, "the number of trials")
    is_best = least == "best"
    start = min(filter(None, told), default=1) if is_best else least
    start = as_int(start, "the least size", 1, MAX_SIZE)
    most = as_int(
        max([start, *told]) if most is None else most,
        "the greatest size",
        start,
        start + 10**7 - 1,
    )
    if not is_best and not trials:
        return _fitted(told, start, most)
    numpy = import_optional("numpy", "the distance of a law is found by NumPy")
    seen = {size: count for size, count in told.items() if start <= size <= most and count}
    find = _best if is_best else _measured
    law = find(numpy, seen, start, most)
    if not trials:
        return law
    draw = numpy.random.default_rng(seed)
    samples = (goodness.sample(numpy, draw, law, seen) for _ in range(trials))
    distances = [find(numpy, its, start, most).distance or 0.0 for its in samples]
    return law._replace(p_value=sum(it >= (law.distance or 0.0) for it in distances) / trials)


def _measured(numpy: Any, seen: Mapping[int, int], least: int, most: int) -> PowerLaw:
    """The law of the sizes of a range, with its distance from them."""
    law = _fitted(seen, least, most)
    return law._replace(distance=goodness.distance(numpy, seen, law.exponent, least, most))


def _best(numpy: Any, seen: Mapping[int, int], least: int, most: int) -> PowerLaw:
    """The law with the least distance, among those from different sizes on."""
    laws = [_measured(numpy, seen, it, most) for it in goodness.candidates([*seen])]
    if not laws:
        raise ValueError(f"a power law takes two sizes that differ, from {least} to {most}")
    return min(laws, key=lambda law: law.distance or 0.0)


def _fitted(told: Mapping[int, int], least: int, most: int) -> PowerLaw:
    """The law of the sizes of a range, by maximum likelihood."""
    seen = {size: count for size, count in told.items() if least <= size <= most}
    if len(seen) < 2:
        raise ValueError(f"a power law takes two sizes that differ, from {least} to {most}")
    count = sum(seen.values())
    near = max(seen, key=lambda size: seen[size])
    sizes_there = _Range(least, most, near)
    mean = math.fsum(
        times / count * math.log1p((size - near) / near) for size, times in seen.items()
    )
    exponent, variance = sizes_there.exponent(mean)
    return PowerLaw(exponent, 1 / math.sqrt(count * variance), least, most, count)


class _Range:
    """All sizes of a range, by logarithms from a size that is seen often: it is near to where their mean is wanted."""

    def __init__(self, least: int, most: int, near: int) -> None:
        #: How many sizes each place stands for, and the logarithm of the size there over `near`.
        offsets, self.counts = zip(*_places(most - least))
        self.logs = [math.log1p((offset + (least - near)) / near) for offset in offsets]
        self.first = self.logs[0]
        self.last = self.logs[-1]
        self.numpy = import_optional("numpy")
        self.arrays = [*map(self.numpy.array, (self.counts, self.logs))] if self.numpy else []

    def moments(self, exponent: float) -> tuple[float, float]:
        """The mean of the logarithms by this exponent, and their variance."""
        top = min(exponent * self.first, exponent * self.last)  # (so that the greatest weight is 1)
        if self.arrays:
            counts, logs = self.arrays
            weights = counts * self.numpy.exp(top - exponent * logs)
            total = float(weights.sum())
            mean = float((weights * logs).sum()) / total
            return mean, float((weights * (logs - mean) ** 2).sum()) / total
        weights = [
            count * math.exp(top - exponent * log) for count, log in zip(self.counts, self.logs)
        ]
        total = math.fsum(weights)
        mean = math.fsum(map(operator.mul, weights, self.logs)) / total
        return (
            mean,
            math.fsum(weight * (log - mean) ** 2 for weight, log in zip(weights, self.logs))
            / total,
        )

    def exponent(self, mean: float) -> tuple[float, float]:
        """The exponent by which the logarithms have this mean, and their variance by it, in Newton's steps: the mean
        falls with the exponent, by the variance. A step that leaves what is known halves that."""
        exponent = 1.0
        variance = 0.0
        low = -math.inf
        high = math.inf
        for _ in range(200):
            found, variance = self.moments(exponent)
            low, high = (exponent, high) if found > mean else (low, exponent)
            following = exponent + (found - mean) / variance if variance else math.nan
            if not low <= following <= high:
                following = (low + high) / 2
            step = following - exponent
            exponent = following
            if abs(step) <= 1e-9 * max(1.0, abs(exponent)):
                break
        return exponent, variance

    def ends(self, exponent: float) -> list[float]:
        """How probable the least size and the largest one are by this exponent."""
        top = min(exponent * self.first, exponent * self.last)
        total = math.fsum(
            count * math.exp(top - exponent * log) for count, log in zip(self.counts, self.logs)
        )
        return [math.exp(top - exponent * end) / total for end in (self.first, self.last)]


def _places(last: int) -> list[tuple[float, float]]:
    """Offsets from 0 to `last`, and for how many whole ones each stands. Their sum of a smooth function that falls from
    either end is that of all whole offsets.

    A range of up to 4 times `_ALONE` has each one. Else those at both ends are added up one by one. Between them stands
    the integral, by Gauss's rule on parts that grow with the distance from the ends, and Gregory's sums at its own.
    """
    if last < 4 * _ALONE:
        return [(offset, 1.0) for offset in range(last + 1)]
    found = [(float(offset), 1.0) for offset in range(_ALONE)]
    found += [(float(_ALONE + place), weight) for place, weight in enumerate(_GREGORY)]
    parts = math.ceil(math.log2(last / 2 / _ALONE) / _GROWTH)
    cuts = [_ALONE * (last / 2 / _ALONE) ** (part / parts) for part in range(parts + 1)]
    for low, high in zip(cuts, cuts[1:]):
        found += [
            (low + (high - low) * (1 + at) / 2, (high - low) * weight / 2) for at, weight in _GAUSS
        ]
    return found + [(last - offset, weight) for offset, weight in reversed(found)]


def plot_sizes(
    sizes: Iterable[int] | Mapping[int, int],
    least: int = 1,
    most: int | None = None,
    axes: Any = None,
) -> Any:
    """Draws with Matplotlib how many avalanches have each size, and their power law.

    Parameters
    ----------
    sizes : iterable of int, or mapping of int to int
        The sizes one by one, or a histogram. Sizes of 0 are left out.
    least, most : int, optional
        The range of sizes to which the power law is fitted.
    axes : matplotlib.axes.Axes, optional
        Where to draw. By default new axes are made.

    Returns
    -------
    matplotlib.axes.Axes
        The axes. Each point stands for the sizes from a power of 2 up to the next one, at their mean number.

    Raises
    ------
    ImportError
        Matplotlib is missing.
    ValueError
        No two sizes in the range differ.

    See Also
    --------
    power_law

    Notes
    -----
    None of this is proved.

    Examples
    --------
    >>> axes = chipfire.plot_sizes({1: 80, 2: 40, 4: 10})
    """
    pyplot = import_optional("matplotlib.pyplot", "a plot is one of Matplotlib")
    told = counted(sizes)
    law = power_law(told, least, most)
    axes = pyplot.subplots()[1] if axes is None else axes
    _draw_sizes(axes, told)
    line = [
        law.used * chance for chance in _Range(law.least, law.most, law.least).ends(law.exponent)
    ]
    axes.loglog([law.least, law.most], line, label=f"exponent {law.exponent:.3f} ± {law.error:.3f}")
    axes.legend()
    return axes


def _draw_sizes(axes: Any, told: Mapping[int, int]) -> None:
    """Draws the points of `plot_sizes` into axes: one for all sizes of the same number of bits."""
    counts: Counter[int] = Counter()
    for size, count in told.items():
        if size > 0:
            counts[size.bit_length()] += count
    middles = []
    heights = []
    for bits, count in sorted(counts.items()):
        if count:
            least = 2 ** (bits - 1)
            most = 2**bits - 1
            middles.append(math.sqrt(least * most))
            heights.append(count / least)  # (there are `least` sizes with this number of bits)
    axes.loglog(middles, heights, "o")
    axes.set_xlabel("size")
    axes.set_ylabel("how many, for each size")


def sizes_figure(sizes: Any, title: str) -> str | None:
    """What a notebook shows of an array of sizes, as HTML: the points of `plot_sizes`. None without Matplotlib, and if
    no size is above 0."""
    figures = import_optional("matplotlib.figure")
    if figures is None:
        return None
    numpy = import_optional("numpy", "Matplotlib takes NumPy")
    found = numpy.unique(numpy.asarray(sizes), return_counts=True)
    told = dict(zip(*(it.tolist() for it in found)))
    if max(told, default=0) < 1:
        return None
    figure = figures.Figure(figsize=(5, 3.5), tight_layout=True)
    _draw_sizes(figure.subplots(), told)
    picture = io.BytesIO()
    figure.savefig(picture, format="png")
    data = base64.b64encode(picture.getvalue()).decode()
    said = html.escape(title)
    drawn = f'<img alt="how many there are of each size" src="data:image/png;base64,{data}">'
    return f"<figure>{drawn}<figcaption>{said}</figcaption></figure>"


def counted(sizes: Any) -> Counter[int]:
    """How many there are of each size; those of an array of several rows too."""
    if isinstance(sizes, Mapping) and not is_of_networkx(sizes):
        named = as_ints([*sizes], lambda place: f"size {place}", None)
        counts = as_ints(
            [*sizes.values()], lambda place: f"the count of size {named[place]}", 0, MAX_COUNT
        )
        return Counter(dict(zip(named, counts)))
    values = listed(sizes, "sizes come one by one, or as a histogram")
    while values and isinstance(values[0], list):  # (the rows of an array)
        values = [*itertools.chain.from_iterable(values)]
    return Counter(as_ints(values, lambda place: f"size {place}", None))
