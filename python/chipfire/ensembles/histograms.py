"""Histograms of what the drops of chains caused, in memory that does not grow with the number of drops."""

from __future__ import annotations

import itertools
from collections import Counter
from collections.abc import Sequence
from dataclasses import dataclass
from typing import Any

from chipfire.ensembles import archive
from chipfire.ensembles.drops import column_of, COLUMNS, TIMED_COLUMNS
from chipfire.ensembles.player import pairs_of, Plan, Tally
from chipfire.utils import as_int, FileName, import_optional, WithArea


@dataclass(frozen=True, repr=False, eq=False)
class Histograms(WithArea):
    """Histograms for each chain, which `chains` returns with ``collect="histogram"``. They add up as `Chains` do.

    Attributes
    ----------
    seeds : tuple of str
        The seed of each chain.
    size : list of Counter
        For each chain how many drops have each size that occurs.
    extent, area : list of Counter
        The same for the number of different vertices that fired.
    lost : list of Counter
        The same for the number of dissipated chips.
    sums : dict of (str, str) to list of int
        For each two columns, the sum of their products over the drops of each chain: ``sums["size", "lost"]``.
    made : array of shape (n,)
        How many drops each chain made.
    chips : array of shape (n, vertices)
        The chips after the last drop, with a column for each vertex, in the order of the numbers. The sink has all
        chips that it got.
    seed : int, float, str, bytes or None
        The seed from which `chains` plays the same again; None for chains of several seeds.
    first : int
        The number of the first chain of that seed.
    duration : list of Counter or None
        For each chain how many drops last for each number of rounds, if durations were asked for. Then `sums` has
        durations too.
    burn_in : int
        How many chips were dropped on each start before the first drop, as in `Chains`.

    See Also
    --------
    chains, moments, power_law

    Notes
    -----
    Proved: the numbers of each drop. Not proved: Python's counts and sums.

    Examples
    --------
    >>> found = chipfire.chains(chipfire.path(3), 2, 4, seed=1, collect="histogram")
    >>> sum(found.total().values())
    8
    """

    seeds: tuple[str, ...]
    size: list[Counter[int]]
    extent: list[Counter[int]]
    lost: list[Counter[int]]
    sums: dict[tuple[str, str], list[int]]
    made: Any
    chips: Any
    seed: int | float | str | bytes | None = None
    first: int = 0
    duration: list[Counter[int]] | None = None
    burn_in: int = 0

    def __repr__(self) -> str:
        drops = f"{sum(map(int, self.made)):,} drops"
        return f"<Histograms: {len(self.seeds)} chains, {drops}{played_in(self.burn_in)}>"

    def __add__(self, other: Histograms) -> Histograms:
        if not isinstance(other, Histograms):
            return NotImplemented
        if len(self.chips[0]) != len(other.chips[0]):
            raise ValueError("chains add up that have as many vertices")
        if (self.duration is None) != (other.duration is None):
            raise ValueError("histograms add up that all have durations, or none of them has")
        names = (*self._names(), "made", "chips")
        columns = {name: joined(getattr(self, name), getattr(other, name)) for name in names}
        sums = {pair: [*its, *other.sums[pair]] for pair, its in self.sums.items()}
        return Histograms(**columns, sums=sums, **following(self, other))

    def __radd__(self, other: int) -> Histograms:
        # (`sum` begins with 0)
        if other != 0:
            return NotImplemented
        return self

    def save(self, file: FileName) -> None:
        """Writes the histograms to an ``.npz`` file of NumPy, as `Drops.save` does. `Histograms.load` reads this
        file."""
        numpy = archive.numpy_of_files()
        arrays = {name: numpy.array(getattr(self, name), "i8") for name in ("made", "chips")}
        for name in self._names():
            arrays |= _arrays_of(name, getattr(self, name))
        sums = [[*map(int, self.sums[pair])] for pair in sorted(self.sums)]
        seed = archive.plain(self.seed, "the seed")
        said = {"seeds": self.seeds, "seed": seed, "first": self.first, "sums": sums}
        said["burn_in"] = self.burn_in
        archive.save(file, "Histograms", said, arrays)

    @classmethod
    def load(cls, file: FileName) -> Histograms:
        """Returns the histograms of a file that `save` wrote. Other files are refused, as by `Drops.load`."""
        return archive.load(file, "Histograms", _histograms_of)

    def total(self, of: str = "size") -> dict[int, int]:
        """How many drops of all chains have each size that occurs, in ascending order of sizes; or the same for `area`,
        `lost` or `duration`. The option's name `durations` works too."""
        counts: Counter[int] = Counter()
        for its in column_of(self, of):
            counts.update(its)
        return dict(sorted(counts.items()))

    def _names(self) -> tuple[str, ...]:
        """The names of the columns that are there."""
        return COLUMNS if self.duration is None else TIMED_COLUMNS


def _arrays_of(name: str, histograms: Sequence[Counter[int]]) -> dict[str, Any]:
    """The histograms of a column as arrays: how many numbers each has, these, and how often each occurs."""
    numpy = archive.numpy_of_files()
    counts = [sorted(its.items()) for its in histograms]
    pairs = numpy.array([*itertools.chain.from_iterable(counts)], "i8").reshape(-1, 2)
    lengths = numpy.array([*map(len, counts)], "i8")
    return {
        f"{name}_lengths": lengths,
        f"{name}_values": pairs[:, 0],
        f"{name}_counts": pairs[:, 1],
    }


def _counters_of(name: str, arrays: dict[str, Any], n: int) -> list[Counter[int]]:
    """The histograms of which `_arrays_of` made these arrays."""
    lengths, values, counts = (
        archive.whole(arrays[f"{name}_{it}"]) for it in ("lengths", "values", "counts")
    )
    if len(lengths) != n or not len(values) == len(counts) == lengths.sum() or (lengths < 0).any():
        raise ValueError(f"the histograms of {name} are not those of {n} chains")
    pairs = zip(values.tolist(), counts.tolist())
    return [Counter(dict(itertools.islice(pairs, length))) for length in lengths.tolist()]


def _histograms_of(said: dict[str, Any], arrays: dict[str, Any]) -> Histograms:
    """The histograms of what `Histograms.save` wrote."""
    seeds = tuple(said["seeds"])
    made, chips = archive.whole(arrays["made"]), archive.whole(arrays["chips"], 2)
    column_names = TIMED_COLUMNS if "duration_lengths" in arrays else COLUMNS
    columns: dict[str, Any] = {
        name: _counters_of(name, arrays, len(seeds)) for name in column_names
    }
    sums = [[as_int(it, "a sum") for it in row] for row in said["sums"]]
    pairs = sorted(pairs_of(column_names))
    if {len(made), len(chips), *map(len, sums)} != {len(seeds)} or len(sums) != len(pairs):
        raise ValueError("the chains differ in their numbers")
    first = as_int(said["first"], "the number of the first chain")
    seed = archive.value_of(said["seed"])
    return Histograms(
        seeds,
        **columns,
        sums=dict(zip(pairs, sums)),
        made=made,
        chips=chips,
        seed=seed,
        first=first,
        burn_in=burn_in_of(said),
    )


def histograms(plan: Plan, tally: Tally, made: Any, chips: Any) -> Histograms:
    """The histograms of a tally, by the number of drops that each chain made, and its chips with those of loops."""
    names = TIMED_COLUMNS if plan.timed else COLUMNS
    size, extent, lost, *timed = ([*its] for its in zip(*tally.counts))
    sums = {pair: [its[at] for its in tally.sums] for at, pair in enumerate(pairs_of(names))}
    duration = timed[0] if timed else None
    told = (plan.seed, plan.first, duration, plan.burn_in)
    return Histograms(plan.seeds, size, extent, lost, sums, made, chips, *told)


def joined(one: Any, other: Any) -> Any:
    """The rows of one and of another."""
    numpy = import_optional("numpy")
    return numpy.concatenate([one, other]) if hasattr(one, "dtype") else one + other


def following(one: Any, other: Any) -> dict[str, Any]:
    """The seeds of two results together, and the seed and first number from which one call plays all of them, if the second
    goes on where the first ends."""
    if twice := {*one.seeds} & {*other.seeds}:
        raise ValueError(
            f"both results have the chain of seed {min(twice)!r}: it would count twice"
        )
    if one.burn_in != other.burn_in:
        raise ValueError(f"{one.burn_in:,} chips play some starts in, and {other.burn_in:,} others")
    is_next = one.seed is not None and one.seed == other.seed
    is_next = is_next and one.first + len(one.seeds) == other.first
    return {
        "seeds": (*one.seeds, *other.seeds),
        "seed": one.seed if is_next else None,
        "first": one.first if is_next else 0,
        "burn_in": one.burn_in,
    }


def played_in(burn_in: int) -> str:
    """What a title says of starts that chips of a burn-in play in; nothing if there are none."""
    return f", starts played in by {burn_in:,} chips" if burn_in else ""


def burn_in_of(said: dict[str, Any]) -> int:
    """How many chips play starts in, by what is said in a file; older ones say nothing of them."""
    return as_int(said.get("burn_in", 0), "the number of chips of a burn-in")
