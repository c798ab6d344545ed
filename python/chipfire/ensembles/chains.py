"""Independent chains: many series of drops, each with a seed of its own."""

from __future__ import annotations

import itertools
from array import array
from collections.abc import Sequence
from concurrent.futures import Executor
from dataclasses import dataclass
from typing import Any, Literal, overload

from chipfire.backend import library
from chipfire.backend.commands import AnyGraph, known_graph, read_chips
from chipfire.backend.finding import ProgramNotFound
from chipfire.configurations.configuration import Chips, stabilized_rows
from chipfire.ensembles import archive
from chipfire.ensembles.checkpoint import opened
from chipfire.ensembles.drops import column_of, COLUMNS, histogram_of
from chipfire.ensembles.firings import Firings, firings, firings_of, stored
from chipfire.ensembles.histograms import (
    burn_in_of,
    following,
    Histograms,
    histograms,
    joined,
    played_in,
)
from chipfire.ensembles.player import places_of, Plan, spanning, table_of
from chipfire.ensembles.power_law import sizes_figure
from chipfire.ensembles.spread import Spread
from chipfire.ensembles.wilson import is_undirected
from chipfire.graphs.graph import Graph
from chipfire.progress import AnyProgress, Progress
from chipfire.utils import (
    as_int,
    as_ints,
    FILE,
    FileName,
    import_optional,
    in_order,
    known_seed,
    MAX_CHIPS,
    processors,
    require_memory,
    with_unit,
    WithArea,
)


#: The most chips that play a start in, if nobody says how many.
_MOST_BURN_IN = 2**32

#: The arrays of all chains beside those of `COLUMNS`.
_OTHERS = ("made", "chips")


@dataclass(frozen=True, repr=False, eq=False)
class Chains(WithArea):
    """What `chains` returns: arrays with a row for each chain, of NumPy if it is installed, else lists of rows.

    The sum of two results has the rows of the first, and then those of the second. If the second begins where the first
    ends, the sum is what one call for all chains returns.

    Attributes
    ----------
    seeds : sequence of str
        The seed of each chain: ``random_drops(graph, drops, seeds[k])`` yields the vertices of chain k. With ``on=``,
        they are ``random.Random(seeds[k]).choices(names, weights, k=drops)``, with the names and weights of `on` in its
        order. If `on` has only names, the weights are None.
    size : array of shape (n, drops)
        The number of firings of each drop, 0 for drops that were not made.
    extent, area : array of shape (n, drops)
        The number of different vertices that fired.
    lost : array of shape (n, drops)
        The number of chips that firings sent to the sink (dissipated).
    made : array of shape (n,)
        How many drops each chain made.
    chips : array of shape (n, vertices)
        The chips after the last drop, with a column for each vertex, in the order of the numbers. The sink has all
        chips that it got.
    fired : Firings or None
        Which vertices each drop fired, if that was asked for.
    seed : int, float, str, bytes or None
        The seed from which `chains` plays the same again; None for chains of several seeds.
    first : int
        The number of the first chain of that seed.
    duration : array of shape (n, drops) or None
        The number of rounds of each drop, if that was asked for. In a round, every legal vertex fires once.
    burn_in : int
        How many chips were dropped on each start before the first drop; 0 if starts were given or drawn.

    See Also
    --------
    chains, Histograms, moments

    Notes
    -----
    Proved: sizes, areas, dissipated chips, durations, what fired, and the chips at the end. Not proved: that Python
    passes them on, and sums of results.

    Examples
    --------
    >>> one, other = (chipfire.chains(chipfire.path(3), 2, 4, seed=1, first=at) for at in (0, 2))
    >>> len((one + other).seeds)
    4
    """

    seeds: Sequence[str]
    size: Any
    extent: Any
    lost: Any
    made: Any
    chips: Any
    fired: Firings | None = None
    seed: int | float | str | bytes | None = None
    first: int = 0
    duration: Any = None
    burn_in: int = 0

    def __repr__(self) -> str:
        return f"<Chains: {self._title()}>"

    def __add__(self, other: Chains) -> Chains:
        if not isinstance(other, Chains):
            return NotImplemented
        return _sum(self, other)

    def __radd__(self, other: int) -> Chains:
        # (`sum` begins with 0)
        if other != 0:
            return NotImplemented
        return self

    def _title(self) -> str:
        drops = f"{len(self.size[0])} drops{played_in(self.burn_in)}"
        return f"{len(self.seeds)} of up to {drops}"

    def _repr_html_(self) -> str | None:
        """What a notebook shows: how many avalanches have each size, if Matplotlib is there, and else the text."""
        return sizes_figure(self.size, f"Chains: {self._title()}")

    def histogram(self, of: str = "size") -> dict[int, int]:
        """How many drops of all chains have each size that occurs, in ascending order of sizes; or the same for `area`,
        `lost` or `duration`. Drops that were not made do not count."""
        rows = zip(column_of(self, of), self.made)
        return histogram_of(row[:made] for row, made in rows)

    def to_dataframe(self) -> Any:
        """A DataFrame of pandas with the 64-bit columns `size`, `extent`, `lost` and, if it was measured, `duration`.
        It has a row for each drop that was made. Its index has the numbers of the `chain` and of the `drop`, both from
        0. Raises ImportError without pandas."""
        pandas = import_optional("pandas", "a table is one of pandas")
        numpy = import_optional("numpy", "a table of pandas takes NumPy")
        names = [*COLUMNS] + ["duration"] * (self.duration is not None)
        columns = {name: numpy.asarray(getattr(self, name), "i8") for name in names}
        drops = numpy.arange(columns["size"].shape[1])
        is_made = drops < numpy.asarray(self.made, "i8")[:, None]
        index = pandas.MultiIndex.from_arrays(numpy.nonzero(is_made), names=["chain", "drop"])
        return pandas.DataFrame({name: it[is_made] for name, it in columns.items()}, index)

    def save(self, file: FileName) -> None:
        """Writes the chains to an `.npz` file of NumPy, as `Drops.save` does. `Chains.load` reads this file."""
        numpy = archive.numpy_of_files()
        seed = archive.plain(self.seed, "the seed")
        said = {"seeds": self.seeds, "seed": seed, "first": self.first, "names": None}
        said["burn_in"] = self.burn_in
        arrays = {name: numpy.array(getattr(self, name), "i8") for name in (*COLUMNS, *_OTHERS)}
        if self.duration is not None:
            arrays["duration"] = numpy.array(self.duration, "i8")
        if self.fired is not None:
            said["names"], columns = stored(self.fired)
            arrays |= columns
        archive.save(file, "Chains", said, arrays)

    @classmethod
    def load(cls, file: FileName) -> Chains:
        """Returns the chains of a file that `save` wrote. Other files are refused, as by `Drops.load`."""
        return archive.load(file, "Chains", _chains_of)


def _chains_of(said: dict[str, Any], arrays: dict[str, Any]) -> Chains:
    """The chains of what `Chains.save` wrote."""
    seeds = tuple(said["seeds"])
    size, extent, lost, chips = (archive.whole(arrays[name], 2) for name in (*COLUMNS, "chips"))
    made = archive.whole(arrays["made"])
    if {size.shape, extent.shape, lost.shape} != {(len(seeds), size.shape[1])}:
        raise ValueError("the columns differ in their shapes")
    if {len(chips), len(made)} != {len(seeds)} or ((made < 0) | (made > size.shape[1])).any():
        raise ValueError("the chains differ in their numbers")
    fired = firings_of(said["names"], arrays, size.size)
    seed = archive.value_of(said["seed"])
    first = as_int(said.get("first", 0), "the number of the first chain")
    duration = archive.whole(arrays["duration"], 2) if "duration" in arrays else None
    if duration is not None and duration.shape != size.shape:
        raise ValueError("the columns differ in their shapes")
    told = (fired, seed, first, duration, burn_in_of(said))
    return Chains(seeds, size, extent, lost, made, chips, *told)


def _sum(one: Chains, other: Chains) -> Chains:
    """The chains of two results."""
    widths = [[len(rows[0]) for rows in (it.size, it.chips)] for it in (one, other)]
    told = [(it.fired is None, it.duration is None) for it in (one, other)]
    if widths[0] != widths[1] or told[0] != told[1]:
        raise ValueError("chains add up that have as many drops and vertices, and the same columns")
    names = [*COLUMNS, *_OTHERS] + ["duration"] * (one.duration is not None)
    columns = {name: joined(getattr(one, name), getattr(other, name)) for name in names}
    fired = None
    if one.fired is not None and other.fired is not None:
        offsets = joined(one.fired.offsets, other.fired.offsets[1:] + one.fired.offsets[-1])
        vertices = joined(one.fired.vertices, other.fired.vertices)
        fired = Firings(offsets, vertices, joined(one.fired.counts, other.fired.counts))
    return Chains(**columns, fired=fired, **following(one, other))


@overload
def chains(
    graph: AnyGraph,
    n: int,
    drops: int,
    seed: Any,
    *,
    first: int = ...,
    chips: Chips | None = ...,
    burn_in: int | None = ...,
    on: Any = ...,
    amounts: Any = ...,
    workers: int | None = ...,
    executor: Executor | None = ...,
    fired: bool = ...,
    durations: bool = ...,
    until: str | None = ...,
    collect: Literal["columns"] = ...,
    progress: AnyProgress = ...,
    checkpoint: FileName | None = ...,
    partial: bool = ...,
) -> Chains:
    ...


@overload
def chains(
    graph: AnyGraph,
    n: int,
    drops: int,
    seed: Any,
    *,
    first: int = ...,
    chips: Chips | None = ...,
    burn_in: int | None = ...,
    on: Any = ...,
    amounts: Any = ...,
    workers: int | None = ...,
    executor: Executor | None = ...,
    durations: bool = ...,
    collect: Literal["histogram"],
    progress: AnyProgress = ...,
    partial: bool = ...,
) -> Histograms:
    ...


def chains(
    graph: AnyGraph,
    n: int,
    drops: int,
    seed: Any,
    *,
    first: int = 0,
    chips: Chips | None = None,
    burn_in: int | None = None,
    on: Any = None,
    amounts: Any = None,
    workers: int | None = None,
    executor: Executor | None = None,
    fired: bool = False,
    durations: bool = False,
    until: str | None = None,
    collect: Literal["columns", "histogram"] = "columns",
    progress: AnyProgress = None,
    checkpoint: FileName | None = None,
    partial: bool = False,
) -> Chains | Histograms:
    """Drops chips on random vertices in many independent chains.

    Each chain has its own seed and `drops` drops. Each drop falls on the chips that the drop before it left. Chains are
    numbered from `first`. A chain depends only on `seed` and its number, not on other chains or on the threads that
    play it.

    Parameters
    ----------
    graph : Graph or path
        The graph, or the name of its file.
    n : int
        The number of chains.
    drops : int
        The number of drops of each chain.
    seed : int, float, str, bytes, None, numpy.random.Generator or numpy.random.SeedSequence
        The seed from which the seeds of the chains are made, as in `random_drops`. If this is None or a Generator, the
        result has the seed that was drawn.
    first : int, optional
        The number of the first chain.
    chips : Chips, or array of shape (n, vertices) or (n, vertices - 1), optional
        One start for all chains, or a start for each chain. By default, each chain begins with its own
        `random_recurrent` configuration, so that its drops are stationary. On a directed graph, no such configuration
        can be drawn. There, each chain begins with the maximal stable configuration, which is recurrent, and a burn-in.
    burn_in : int, optional
        How many chips are dropped on each start before the first drop. Each falls on a vertex drawn uniformly from all
        vertices, including the sink. In chain k, the numbers of these vertices are
        ``random.Random(seeds[k] + " burn-in").choices(range(graph.vertices), k=burn_in)``. By default 0; on a directed
        graph without `chips`, twice the number of vertices times the square of the largest degree. By a bound on the
        eigenvalues of such drops, this default shrinks each component of the difference between the distribution of
        starts and the uniform distribution to less than 0.0004 of itself.
    on : iterable of hashable, or mapping of names to weights, optional
        The vertices on which chips fall. By default, all vertices but the sink, with equal probability.
    amounts : int or sequence of int, optional
        The number of chips of each drop. By default one.
    workers : int, optional
        The number of threads. By default one for each processor of this process.
    executor : concurrent.futures.Executor, optional
        An executor of `concurrent.futures`, Dask or mpi4py, which plays instead of threads. Its processes have this
        package and its library.
    fired : bool, optional
        Whether to return which vertices each drop fires. This needs NumPy.
    durations : bool, optional
        Whether to return the number of rounds of each drop. Drops are then played in rounds: in a round, every legal
        vertex fires once.
    until : {"loss", "spans"}, optional
        Where a chain ends. With "loss", it ends after the first drop that loses a chip to the sink. With "spans", it
        ends after the first drop whose firings touch two opposite borders of a two-dimensional grid, joined or not.
        This needs NumPy.
    collect : {"columns", "histogram"}, optional
        Whether to return a number for each drop, or only histograms. The memory of histograms does not grow with the
        number of drops, unless `amounts` has a number for each drop. Histograms cannot be combined with `fired`,
        `until` or `checkpoint`.
    progress : bool or callable, optional
        True shows progress by tqdm or in lines. A function is called with the number of drops made and the number of
        all drops. At the end, all drops count as made, including those that `until` left out.
    checkpoint : path, optional
        A file to which each part is written when it is done. A later call with the same arguments, or with more chains,
        continues from this file. The numbers in the file are trusted, so nobody else should be able to write to it.
    partial : bool, optional
        Whether an interrupt returns the drops made until then, instead of raising KeyboardInterrupt. Either happens
        within about a second. A long drop that has not ended by then is missing, and so are the other drops of the same
        call of the library: a thread finishes them, and their results are discarded. Chains that had not begun have the
        chips of their starts, without a burn-in. If their starts had not been drawn, they have only the chips of loops.
        A second interrupt is raised.

    Returns
    -------
    Chains or Histograms
        The results, with a row for each chain. A drop takes 24 bytes, or 32 with its duration, and a vertex 8 bytes in
        each chain. While threads play, a vertex takes up to 24 bytes in each chain, or 32 unless starts are drawn.

    Raises
    ------
    ProgramNotFound
        There is no library.
    MemoryError
        There is no room for the results. Nothing was played.
    ValueError
        Arguments do not fit together, or a checkpoint is that of another call.
    FileNotFoundError
        The folder of the checkpoint does not exist.

    See Also
    --------
    drops, moments, collapse, random_recurrent

    Notes
    -----
    Proved: sizes, areas, dissipated chips, durations and counts of the drops and, except for drops of many chips, which
    drop ends a chain. Not proved: that vertices are drawn uniformly, and which vertices are at borders.

    Examples
    --------
    >>> found = chipfire.chains(chipfire.grid(4, 4), 3, 5, seed=1)
    >>> [list(row).count(0) <= 5 for row in found.size], list(found.made)
    ([True, True, True], [5, 5, 5])
    """
    known = known_graph(graph)
    n = as_int(n, "the number of chains", 1)
    drops = as_int(drops, "the number of drops")
    is_counted = _is_counted(collect, until or fired or checkpoint)
    of_drops = 0 if is_counted else (24 + 8 * bool(durations)) * drops
    require_memory(n * (of_drops + 16 * known.vertices), f"{n:,} chains of {drops:,} drops")
    _refuse_options(until, fired, workers, executor)
    if checkpoint is not None and (seed is None or hasattr(seed, "bit_generator")):
        raise ValueError("a checkpoint takes a seed that is the same in the next call")
    known.require()
    if known.vertices < 2 and drops:
        raise ValueError("the graph has only its sink, and so no vertex to drop on")
    if until == "spans":
        spanning(known)
    plan = Plan(
        graph=known,
        seed=known_seed(seed),
        first=as_int(first, "the number of the first chain"),
        n=n,
        drops=drops,
        places=places_of(known, on),
        amounts=_amounts(amounts, drops),
        starts=_starts(known, chips, n),
        burn_in=_burn_in(known, chips, burn_in),
        until=until,
        fired=bool(fired),
        timed=bool(durations),
        counted=is_counted,
    )
    threads = _threads(n, workers)
    table = table_of(plan)
    with opened(checkpoint, plan) as file, Progress(progress, n * drops, "drops") as shown:
        Spread(plan, table, executor, threads, file).play(shown, partial)
    return _result(plan, table)


def _is_counted(collect: str, others: Any) -> bool:
    """Whether histograms are collected, which go with no others of the options."""
    if collect not in ("columns", "histogram"):
        raise ValueError(f"chains collect 'columns' or a 'histogram', and no {collect!r}")
    if collect == "histogram" and others:
        raise ValueError("a histogram goes with none of fired, until and checkpoint")
    return collect == "histogram"


def _refuse_options(
    until: str | None, fired: bool, workers: int | None, executor: Executor | None
) -> None:
    """Refuses what does not go together, or takes what is not here."""
    if until not in (None, "loss", "spans"):
        raise ValueError(f"chains go on until 'loss' or 'spans', and not {until!r}")
    if fired or until:
        import_optional("numpy", "what fired, and when to stop, are found by NumPy")
    if executor is not None and workers is not None:
        raise ValueError("either workers play, or an executor")
    if executor is not None and not hasattr(executor, "submit"):
        kind = type(executor).__name__
        raise TypeError(
            f"an executor is one of concurrent.futures, or has its `submit`, and this is a {kind}"
        )
    if executor is None and (why := library.why_none()):
        raise ProgramNotFound(2, f"chains take the library: {why}", "chipfire")


def _threads(n: int, workers: int | None) -> int:
    """How many threads play n chains."""
    if workers is None:
        workers = min(processors(), 64)
    return min(n, as_int(workers, "workers", 1, 64))


def _amounts(amounts: Any, drops: int) -> array[int] | int:
    """How many chips each drop has; one number, if all have as many."""
    if amounts is None:
        return 1
    found = in_order(amounts, "the amounts of drops are one for all, or one for each drop")
    if not isinstance(found, Sequence):
        return as_int(found, "the number of chips of a drop", 0, MAX_CHIPS)
    many = as_ints(found, lambda drop: f"the number of chips of drop {drop}", 0, MAX_CHIPS)
    if len(many) != drops:
        raise ValueError(
            f"there are {with_unit(drops, 'drop')}, and {with_unit(len(many), 'amount')}"
        )
    return array("Q", many)


def _burn_in(graph: Graph, chips: Any, burn_in: int | None) -> int:
    """How many chips play each start in: if no number is given, some on a directed graph whose starts are not given, and
    else none."""
    if burn_in is not None:
        return as_int(burn_in, "the number of chips of a burn-in", 0, MAX_CHIPS)
    if chips is not None or is_undirected(graph.loop_free):
        return 0
    usual = 2 * graph.vertices * max(graph.loop_free.degrees()) ** 2
    if usual > _MOST_BURN_IN:
        raise ValueError(
            f"the graph is directed, and {usual:,} chips would play a start in: `burn_in=` may say fewer"
        )
    return usual


def _starts(graph: Graph, chips: Any, n: int) -> array[int] | None:
    """The stable chips from which n chains begin, of the rows that were given, or of one form for all; None if each begins
    with a random recurrent configuration. Of a directed graph it is the greatest stable one."""
    if chips is None:
        if is_undirected(graph.loop_free):
            return None
        chips = graph.max_stable()
    found = read_chips(chips, graph) if isinstance(chips, FILE) else chips
    if getattr(found, "ndim", 1) > 1:
        found = in_order(found, "chips are rows, or those of all chains")
    if not _are_rows(graph, found):
        return _stable(graph, [graph.chips(found)]) * n
    rows = [graph.chips(row) for row in found]
    if len(rows) != n:
        raise ValueError(f"there are chips for {len(rows)} chains, and {n} chains")
    return _stable(graph, rows)


def _stable(graph: Graph, rows: Sequence[Sequence[int]]) -> array[int]:
    """These chips, one row after another, when all are stable."""
    begun = array("Q", graph.without_loops([*itertools.chain.from_iterable(rows)]))
    return stabilized_rows(graph.loop_free, begun, None)[0]


def _result(plan: Plan, table: Any) -> Chains | Histograms:
    """What was played, with a row for each chain in each column."""
    numpy = import_optional("numpy")
    chips = table.chips
    if plan.graph.loops:
        chips = plan.graph.with_loops(memoryview(chips))
    made = numpy.frombuffer(table.made, "q") if numpy else array("q", table.made)
    chips = _by_rows(numpy, chips, plan.n)
    if plan.counted:
        return histograms(plan, table, made, chips)
    size, extent, lost, *timed = (_by_rows(numpy, it, plan.n) for it in table.columns)
    fired = firings(plan.graph, table.columns[1], table.taken()) if plan.fired else None
    duration = timed[0] if timed else None
    rows = (size, extent, lost, made, chips, fired)
    return Chains(plan.seeds, *rows, plan.seed, plan.first, duration, plan.burn_in)


def _are_rows(graph: Graph, chips: Any) -> bool:
    """Whether chips are rows for chains, and not those of all: numbers, or rows of them in the graph's shape."""
    if not isinstance(chips, (list, tuple)) or hasattr(chips, "_fields"):
        return False
    if any(hasattr(row, "items") or hasattr(row, "prior") for row in chips):
        return True
    depths = {*map(_depth, chips)}
    if 0 in depths or not depths:
        return False
    return max(depths) > 1 or graph.shape != (len(chips), *{*map(len, chips)})


def _depth(form: Any) -> int:
    """In how many directions the numbers of a form stand: 0 if it is one number."""
    if hasattr(form, "ndim"):
        return int(form.ndim)
    if not isinstance(form, (list, tuple, range, array)):
        return 0
    return 1 + (_depth(form[0]) if form else 0)


def _by_rows(numpy: Any, numbers: array[int], n: int) -> Any:
    """Numbers in n rows."""
    if numpy:
        return numpy.frombuffer(numbers, "q").reshape(n, -1)
    width = len(numbers) // n
    return [array("q", numbers[it * width : (it + 1) * width]) for it in range(n)]
