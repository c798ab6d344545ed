"""Moments of avalanches with their errors, and how they scale with the size of the system."""

from __future__ import annotations

import math
from collections.abc import Iterable, Mapping, Sequence
from dataclasses import dataclass
from typing import Any, NamedTuple

from chipfire.ensembles.chains import Chains
from chipfire.ensembles.drops import column_of
from chipfire.ensembles.histograms import Histograms
from chipfire.ensembles.power_law import counted
from chipfire.utils import as_int, import_optional

#: The orders of moments from which exponents are found, if none are said.
_ORDERS = (1.0, 1.25, 1.5, 1.75, 2.0, 2.25, 2.5, 2.75, 3.0)


class Moments(NamedTuple):
    """Means of powers of a column of drops.

    Attributes
    ----------
    orders : array of shape (q,)
        The powers.
    means : array of shape (q,)
        The mean of each power over all drops.
    errors : array of shape (q,)
        The standard error of each mean.

    See Also
    --------
    moments

    Notes
    -----
    None of this is proved.

    Examples
    --------
    >>> list(chipfire.moments(chipfire.chains(chipfire.path(3), 2, 4, seed=1), orders=[0]).errors)
    [0.0]
    """

    orders: Any
    means: Any
    errors: Any


def moments(
    chains: Chains | Histograms,
    of: str = "size",
    orders: Sequence[float] = (1, 2, 3),
    *,
    resamples: int = 1000,
    seed: int = 0,
) -> Moments:
    """Returns the moments of a column of chains, with their standard errors.

    Parameters
    ----------
    chains : Chains or Histograms
        The chains, two or more.
    of : {"size", "area", "lost", "duration"}, optional
        The column.
    orders : sequence of float, optional
        The powers whose means are taken.
    resamples : int, optional
        How many times the bootstrap draws chains.
    seed : int, optional
        The seed of the bootstrap.

    Returns
    -------
    Moments
        The mean of each power over all drops, and its standard error.

    Raises
    ------
    ImportError
        NumPy is missing.
    ValueError
        There are fewer than two chains.

    See Also
    --------
    chains, collapse

    Notes
    -----
    The bootstrap [1]_ draws whole chains, as many as there are, with replacement. So drops of one chain may depend on
    one another.

    None of this is proved.

    References
    ----------
    .. [1] B. Efron, "Bootstrap methods: another look at the jackknife", Annals of Statistics 7 (1979).

    Examples
    --------
    >>> chains = chipfire.chains(chipfire.grid(4, 4), 3, 5, seed=1)
    >>> list(chipfire.moments(chains, orders=[0]).means)
    [1.0]
    """
    numpy = import_optional("numpy", "moments are found by NumPy")
    rows = column_of(chains, of)
    if len(chains.seeds) < 2:
        raise ValueError("errors by the bootstrap take two chains at least")
    resamples = as_int(resamples, "the number of resamples", 2)
    made = numpy.asarray(chains.made, "f8")
    if not made.sum():
        raise ValueError("no drop was made")
    sums = numpy.array([_sums(numpy, rows, made, order) for order in orders])
    draw = numpy.random.default_rng(seed)
    times = draw.multinomial(len(made), [1 / len(made)] * len(made), resamples)
    weights = times @ made
    drawn = (sums @ times.T)[:, weights > 0] / weights[weights > 0]
    return Moments(numpy.array(orders), sums.sum(1) / made.sum(), drawn.std(1, ddof=1))


def _sums(numpy: Any, rows: Any, made: Any, order: float) -> Any:
    """The sum of a power of a column over the drops of each chain."""
    if isinstance(rows, list):  # (of histograms)
        return [math.fsum(count * size**order for size, count in its.items()) for its in rows]
    rows = numpy.asarray(rows, "f8")
    is_made = numpy.arange(rows.shape[1]) < made[:, None]
    return numpy.where(is_made, rows**order, 0.0).sum(1)


@dataclass(frozen=True, eq=False)
class Collapse:
    """How avalanches scale with the length of the system.

    The probability of a size is ``size ** -exponent * G(size / length ** dimension)``.

    Attributes
    ----------
    exponent : float
        The exponent tau.
    dimension : float
        The dimension D of avalanches.
    errors : (float, float)
        The standard errors of the exponent and the dimension, by the scatter of the moments about the fit.
    orders : array of shape (q,)
        The orders of the moments that were used.
    slopes : array of shape (q,)
        For each moment, the power of the length with which it grows.

    See Also
    --------
    collapse

    Notes
    -----
    None of this is proved.

    Examples
    --------
    >>> chipfire.collapse({4: [16], 8: [64], 16: [256]}).orders[0]
    1.0
    """

    exponent: float
    dimension: float
    errors: tuple[float, float]
    orders: Any
    slopes: Any
    _counts: Mapping[float, Mapping[int, int]]

    def plot(self, axes: Any = None) -> Any:
        """Draws with Matplotlib `size ** exponent` times the probability of each size against `size / length **
        dimension`. Draws into the given axes or new ones, and returns them. Where the law holds, the points of all
        lengths lie on one curve. Each point stands for the sizes from a power of 2 up to the next one.
        """
        pyplot = import_optional("matplotlib.pyplot", "a plot is one of Matplotlib")
        axes = pyplot.subplots()[1] if axes is None else axes
        for length, counts in sorted(self._counts.items()):
            sizes, chances = _points(counts)
            heights = [chance * size**self.exponent for size, chance in zip(sizes, chances)]
            places = [size / length**self.dimension for size in sizes]
            axes.loglog(places, heights, ".", label=f"{length:g}")
        axes.set_xlabel("size / length ** D")
        axes.set_ylabel("size ** tau * probability")
        axes.legend()
        return axes


def collapse(
    sizes: Mapping[float, Iterable[int] | Mapping[int, int]], orders: Sequence[float] = _ORDERS
) -> Collapse:
    """Fits the exponents of finite-size scaling.

    The probability of a size s in a system of length L is ``s ** -tau * G(s / L ** D)``. The moment of order q then
    grows as ``L ** (D * (q + 1 - tau))``, for q above tau - 1.

    Parameters
    ----------
    sizes : mapping of float to sizes
        For each length its avalanches: sizes one by one, rows of sizes, or a histogram. Sizes of 0 are left out. At
        least two lengths are needed.
    orders : sequence of float, optional
        The orders q of the moments.

    Returns
    -------
    Collapse
        The exponent tau, the dimension D, and their standard errors.

    Raises
    ------
    ImportError
        NumPy is missing.
    ValueError
        There are fewer than two lengths, or a length has no size above 0.

    See Also
    --------
    chains, moments, power_law

    Notes
    -----
    Lines are fitted by least squares to the logarithms of the moments, and another line to the slopes of these lines
    [1]_. Corrections to scaling are not fitted, so leave small systems out.

    None of this is proved.

    References
    ----------
    .. [1] C. Tebaldi, M. De Menech and A. L. Stella, "Multifractal scaling in the Bak-Tang-Wiesenfeld sandpile and edge
       events", Physical Review Letters 83 (1999).

    Examples
    --------
    All avalanches have the square of the length as their size:

    >>> found = chipfire.collapse({4: [16], 8: [64], 16: [256]})
    >>> round(found.exponent, 6), round(found.dimension, 6)
    (1.0, 2.0)
    """
    numpy = import_optional("numpy", "exponents are fitted by NumPy")
    told = {float(length): counted(its) for length, its in sizes.items()}
    if len(told) < 2 or not all(length > 0 for length in told):
        raise ValueError("scaling takes two lengths at least, above 0")
    if len({*orders}) < 2:
        raise ValueError("scaling takes two orders of moments at least")
    lengths = numpy.log([*told])
    logs = numpy.log([_moments_of(counts, orders) for counts in told.values()])
    slopes = numpy.polyfit(lengths, logs, 1)[0]
    orders = numpy.array(orders, "f8")
    (dimension, start), spread = _line(numpy, orders, slopes)
    exponent = 1 - start / dimension
    # The exponent is a quotient, so its error goes with how both depend on one another.
    gradient = numpy.array([start / dimension**2, -1 / dimension])
    errors = (math.sqrt(gradient @ spread @ gradient), math.sqrt(spread[0, 0]))
    return Collapse(float(exponent), float(dimension), errors, orders, slopes, told)


def _moments_of(counts: Mapping[int, int], orders: Sequence[float]) -> list[float]:
    """The mean of each power of the sizes above 0."""
    seen = {size: count for size, count in counts.items() if size > 0}
    total = sum(seen.values())
    if not total:
        raise ValueError("a length has no size above 0")
    return [
        math.fsum(count * size**order for size, count in seen.items()) / total for order in orders
    ]


def _line(numpy: Any, places: Any, values: Any) -> tuple[Any, Any]:
    """A line by least squares, and how far its slope and start scatter together."""
    if len(places) == 2:
        return numpy.polyfit(places, values, 1), numpy.zeros((2, 2))
    matrix = numpy.stack([places, numpy.ones(len(places))], 1)
    found, left, _, _ = numpy.linalg.lstsq(matrix, values, rcond=None)
    variance = float(left.sum()) / (len(places) - 2)
    return found, variance * numpy.linalg.inv(matrix.T @ matrix)


def _points(counts: Mapping[int, int]) -> tuple[list[float], list[float]]:
    """The middle of the sizes of each number of bits, and the mean probability of one of them."""
    total = sum(count for size, count in counts.items() if size > 0)
    bins: dict[int, int] = {}
    for size, count in counts.items():
        if size > 0 and count:
            bins[size.bit_length()] = bins.get(size.bit_length(), 0) + count
    pairs = [
        (2 ** (bits - 0.5), count / total / 2 ** (bits - 1)) for bits, count in sorted(bins.items())
    ]
    return [size for size, _ in pairs], [chance for _, chance in pairs]
