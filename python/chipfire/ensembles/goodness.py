"""How well a power law fits: the distance of Kolmogorov and Smirnov, and samples from the law."""

from __future__ import annotations

from collections.abc import Mapping, Sequence
from typing import Any

#: The most sizes from which a law is tried, and how many others must be at or above one of them.
_CANDIDATES = 64
_ABOVE = 2

#: How many times the size from which a law begins the largest one is. A shorter range fits almost any law.
_DECADE = 10

#: From which size on sums of powers are those of Euler and Maclaurin.
_LARGE = 100


def candidates(sizes: Sequence[int]) -> list[int]:
    """Sizes from which a law may begin: all up to a tenth of the largest, or some that are spread evenly among them.
    If none is so small, they are all but the greatest ones."""
    ordered = sorted({*sizes})
    found = [it for it in ordered if it * _DECADE <= ordered[-1]] or ordered[: 1 - _ABOVE]
    if len(found) <= _CANDIDATES:
        return found
    last = len(found) - 1
    places = {round(last ** (it / (_CANDIDATES - 1))) for it in range(_CANDIDATES)}
    return [found[place] for place in sorted({0, *places})]


def distance(numpy: Any, seen: Mapping[int, int], exponent: float, least: int, most: int) -> float:
    """How far the share of the sizes up to a size is from its probability by the law, where it is farthest."""
    sizes = numpy.array(sorted(size for size in seen if size >= least), "f8")
    counts = numpy.array([seen[int(size)] for size in sizes], "f8")
    shares = numpy.cumsum(counts) / counts.sum()
    before = numpy.concatenate([[0.0], shares[:-1]])
    ends = numpy.concatenate([sizes, sizes - 1, [most]])
    sums = _sums(numpy, exponent, least, ends)
    chances = sums[:-1] / sums[-1]
    count = len(sizes)
    return float(max(abs(shares - chances[:count]).max(), abs(before - chances[count:]).max()))


def _sums(numpy: Any, exponent: float, least: int, ends: Any) -> Any:
    """The sums of `(size / least) ** -exponent` from `least` to each of these ends."""
    small = numpy.arange(least, max(least, _LARGE) + 1, dtype="f8")
    first = numpy.concatenate([[0.0], numpy.cumsum((small / least) ** -exponent)])
    places = numpy.clip(ends - least + 1, 0, len(small)).astype("i8")
    found = first[places]
    start = small[-1]
    large = ends[ends > start]
    found[ends > start] += _integral(numpy, exponent, start, large) * (start / least) ** -exponent
    return found


def _integral(numpy: Any, exponent: float, start: float, ends: Any) -> Any:
    """The sums of `(size / start) ** -exponent` of all sizes after `start`, up to each end, by Euler and Maclaurin."""
    logs = numpy.log(ends / start)
    power = 1 - exponent
    whole = start * (numpy.expm1(power * logs) / power if power else logs)
    powers = (ends / start) ** -exponent
    return whole + (powers - 1) / 2 + exponent * (1 / start - powers / ends) / 12


def sample(numpy: Any, draw: Any, law: Any, seen: Mapping[int, int]) -> dict[int, int]:
    """As many sizes as were seen: from the law, and below its least size from what was seen there."""
    below = {size: count for size, count in seen.items() if size < law.least}
    total = sum(seen.values())
    of_law = int(draw.binomial(total, law.used / total))
    found: dict[int, int] = {}
    if below:
        chances = numpy.array([*below.values()], "f8")
        times = draw.multinomial(total - of_law, chances / chances.sum())
        found = {size: int(count) for size, count in zip(below, times) if count}
    sizes = numpy.arange(law.least, law.most + 1, dtype="f8")
    ends = numpy.cumsum((sizes / law.least) ** -law.exponent)
    places = numpy.searchsorted(ends, draw.random(of_law) * ends[-1], "right")
    values, counts = numpy.unique(numpy.minimum(places, len(sizes) - 1), return_counts=True)
    drawn = zip((values + law.least).tolist(), counts.tolist())
    return {**found, **dict(drawn)}
