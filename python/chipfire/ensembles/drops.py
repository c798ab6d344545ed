"""Chips that are dropped one after another, and what each of them caused."""

from __future__ import annotations

import contextlib
from array import array
from collections import Counter
from collections.abc import Callable, Iterable, Iterator, Mapping, Sequence
from dataclasses import dataclass
from typing import Any

from chipfire.backend import kept
from chipfire.backend.finding import ProgramNotFound
from chipfire.backend.portions import Portions
from chipfire.backend.process import refused
from chipfire.backend.report import Report
from chipfire.configurations.configuration import CHIPS_HEADER, Configuration, in_words
from chipfire.ensembles import archive
from chipfire.ensembles.firings import fall, Firings, firings, firings_of, Parts, Room, stored
from chipfire.ensembles.power_law import sizes_figure
from chipfire.graphs.graph import Graph
from chipfire.progress import AnyProgress, Progress
from chipfire.utils import (
    as_ints,
    FileName,
    import_optional,
    in_column,
    in_order,
    listed,
    MAX_LIMIT,
    with_unit,
    WithArea,
)

ROWS_HEADER = "vertex,chips,size,extent,lost\n"
#: The numbers of each drop, and those that it has if its duration is asked for.
COLUMNS = ("size", "extent", "lost")
TIMED_COLUMNS = (*COLUMNS, "duration")

#: How many drops become text at a time, and how many bytes of rows become numbers.
PART = 2**16
_BYTES = 2**20


@dataclass(frozen=True, repr=False, eq=False)
class Drops(WithArea):
    """The avalanches of drops, in columns with a number for each drop, in the order of the drops.

    The columns are arrays of NumPy if it is installed, else of the standard library.

    Attributes
    ----------
    size : array of shape (n,)
        The number of firings of each avalanche.
    extent, area : array of shape (n,)
        The number of different vertices that fired.
    lost : array of shape (n,)
        The number of chips that firings sent to the sink (dissipated).
    report : Report
        The report of one play of all chips: those at the start and those that were dropped.
    fired : Firings or None
        Which vertices each drop fired, if that was asked for.
    duration : array of shape (n,) or None
        The number of rounds of each drop, if that was asked for. In a round, every legal vertex fires once.

    See Also
    --------
    drops, Pile, Chains

    Notes
    -----
    A vertex that has fired 2^40 times in all stops the play of a drop. This drop is the last, and has no row. Then
    `report.closed` is false.

    Proved: each row, and the report. Not proved: that Python passes them on, and the histogram.

    Examples
    --------
    >>> chipfire.drops(chipfire.path(2), {0: 1, 1: 1}, [0, 1]).histogram()
    {0: 1, 2: 1}
    """

    size: Any
    extent: Any
    lost: Any
    report: Report
    fired: Firings | None = None
    duration: Any = None

    @classmethod
    def with_report_later(cls, columns: Mapping[str, Any], make: Callable[[], Report]) -> Drops:
        """Drops whose report is made when it is asked for."""
        found = cls.__new__(cls)
        vars(found).update(columns, _make=make)
        return found

    def __getattr__(self, name: str) -> Any:
        """The report that was not made yet; no other attribute comes later."""
        if name != "report" or "_make" not in vars(self):
            raise AttributeError(f"drops have no {name!r}")
        return vars(self).setdefault("report", self._make())

    def __getstate__(self) -> dict[str, Any]:
        return {name: getattr(self, name) for name in (*COLUMNS, "report", "fired", "duration")}

    def __setstate__(self, state: dict[str, Any]) -> None:
        vars(self).update(state)

    def __len__(self) -> int:
        return len(self.size)

    def __repr__(self) -> str:
        return f"<Drops: {self._title()}>"

    def _title(self) -> str:
        firings = with_unit(sum(self.size.tolist()), "firing")
        return f"{with_unit(len(self), 'avalanche')}, {firings}"

    def _repr_html_(self) -> str | None:
        """What a notebook shows: how many avalanches have each size, if Matplotlib is there, and else the text."""
        return sizes_figure(self.size, self._title())

    @property
    def configuration(self) -> Configuration:
        """The configuration after the last drop."""
        return self.report.configuration

    def histogram(self, of: str = "size") -> dict[int, int]:
        """How many drops have each size that occurs, in ascending order of sizes; or the same for `area`, `lost` or
        `duration`."""
        return histogram_of([column_of(self, of)])

    def to_dataframe(self) -> Any:
        """A DataFrame of pandas with the 64-bit columns `size`, `extent`, `lost` and, if it was measured, `duration`.
        Its index `drop` has the numbers of the drops, from 0. Raises ImportError without pandas."""
        pandas = import_optional("pandas", "a table is one of pandas")
        columns = {name: getattr(self, name) for name in self._names()}
        return pandas.DataFrame(columns, pandas.RangeIndex(len(self), name="drop"), dtype="int64")

    def _names(self) -> list[str]:
        """The names of the columns that are there."""
        return [*COLUMNS] + ["duration"] * (self.duration is not None)

    def save(self, file: FileName) -> None:
        """Writes the drops and the graph to an `.npz` file of NumPy, which `Drops.load` reads. An existing file is
        replaced when the new file is complete, and stays if an error comes before that. Names of vertices may be
        numbers, texts, bytes, None, and tuples of these; other names raise TypeError. Raises ImportError without NumPy.
        """
        numpy = archive.numpy_of_files()
        report = self.report
        said: dict[str, Any] = {"graph": None, "names": None}
        arrays = {name: numpy.array(getattr(self, name), "i8") for name in self._names()}
        for name in ("chips", "fired", "over", "sealed", "prior"):
            if getattr(report, name) is not None:
                arrays[name] = numpy.array(getattr(report, name), "i8")
        if self.fired is not None:
            said["names"], columns = stored(self.fired)
            arrays |= columns
        if report.graph is not None:
            said["graph"], columns = archive.graph_parts(report.graph)
            arrays |= columns
        archive.save(file, "Drops", said, arrays)

    @classmethod
    def load(cls, file: FileName) -> Drops:
        """Returns the drops of a file that `save` wrote. Other files, and files of a later version, raise a ValueError
        that says so. No code in a file is run."""
        return archive.load(file, "Drops", _drops_of)


def _drops_of(said: dict[str, Any], arrays: dict[str, Any]) -> Drops:
    """The drops of what `Drops.save` wrote."""
    size, extent, lost = (archive.whole(arrays[name]) for name in COLUMNS)
    duration = archive.whole(arrays["duration"]) if "duration" in arrays else None
    if {len(extent), len(lost), len(size if duration is None else duration)} != {len(size)}:
        raise ValueError("the columns differ in their lengths")
    graph = None if said["graph"] is None else archive.graph_of(said["graph"], arrays)
    chips, fired, over, sealed = (
        tuple(archive.whole(arrays[name]).tolist()) for name in ("chips", "fired", "over", "sealed")
    )
    prior = tuple(archive.whole(arrays["prior"]).tolist()) if "prior" in arrays else None
    report = Report(chips, fired, over, sealed, prior, graph)
    row_ends = firings_of(said.get("names"), arrays, len(size))
    return Drops(size, extent, lost, report, row_ends, duration)


def column_of(found: Any, of: str) -> Any:
    """A column of what drops, chains or histograms found. A `duration` is there if it was asked for; it has the name of
    that option too, `durations`."""
    name = "duration" if of == "durations" else of
    column = getattr(found, name, None) if name in (*TIMED_COLUMNS, "area") else None
    if column is None:
        raise ValueError(f"a drop has a 'size', an 'area' ('extent') and 'lost', and no {of!r}")
    return column


def histogram_of(rows: Iterable[Any]) -> dict[int, int]:
    """How many numbers of these rows are each that occurs, ascending."""
    counts: Counter[int] = Counter()
    for row in rows:
        counts.update(row.tolist())
    return dict(sorted(counts.items()))


def names_of(vertices: Any, what: str) -> Iterable[Any]:
    """The names of vertices that stand in an order; a mask is refused, since true and false are no names there."""
    wanted = f"the vertices of {what} are one for each drop"
    if getattr(getattr(vertices, "dtype", None), "kind", "") == "b":
        raise TypeError(f"{wanted}, and no mask")
    found: Any = in_order(vertices, wanted)
    if not isinstance(found, Iterable):
        raise TypeError(f"{wanted}, and not {found!r}")
    return found


def dropped_on(graph: Graph, vertices: Any, amounts: Any) -> tuple[array[int], array[int]]:
    """The numbers of the vertices, and how many chips fall on each: one, if there are no amounts."""
    at = _numbers_of(graph, vertices)
    if amounts is None:
        return at, array("Q", [1]) * len(at)
    many = in_column(amounts) if getattr(amounts, "ndim", 1) == 1 else None
    if many is None:
        given = listed(amounts, "the amounts of drops are one for each drop")
        many = in_words(as_ints(given, lambda drop: f"the number of chips of drop {drop}"))
    if len(many) != len(at):
        raise ValueError(
            f"there are {with_unit(len(at), 'drop')}, and {with_unit(len(many), 'amount')}"
        )
    return at, many


def _numbers_of(graph: Graph, vertices: Any) -> array[int]:
    """The numbers of vertices that stand in an order."""
    is_mask = getattr(getattr(vertices, "dtype", None), "kind", "") == "b"
    if isinstance(graph.names, range) and getattr(vertices, "ndim", 1) == 1 and not is_mask:
        found = in_column(vertices, 0, graph.vertices - 1)
        if found is not None:
            return found
    return array("Q", map(graph.number, names_of(vertices, "drops")))


class Measured:
    """Drops on a pile that the library keeps, with what is asked of them beside their columns."""

    def __init__(
        self,
        graph: Graph,
        count: int,
        fired: bool,
        durations: bool,
        progress: Progress | None = None,
    ) -> None:
        self._graph = graph
        self._progress = progress
        self._columns = [array("Q", bytes(8 * count)) for _ in range(3 + durations)]
        self._room = Room(graph.vertices) if fired else None
        self._parts: Parts = []
        #: How many drops were made, and the number of a fault that came of the last one, or 0.
        self.made = 0
        self.number = 0

    def play(self, pile: kept.KeptPile, at: array[int], amounts: array[int]) -> None:
        """Makes the drops, until the limit stops one. Another fault is raised."""
        in_calls(lambda *part: self._call(pile, *part), at, amounts, self._columns)

    def play_some(
        self, pile: kept.KeptPile, at: array[int], amounts: array[int]
    ) -> tuple[array[int], array[int]]:
        """Makes the drops as `play` does, or those before an interrupt, wherever it comes; the chips and counts then."""
        #: What was there when a call had ended: all of it changes at once.
        noted = (0, 0, pile.chips(), pile.fired())

        def call(where: Any, many: Any, rows: list[Any]) -> bool:
            nonlocal noted
            goes_on = self._call(pile, where, many, rows)
            noted = (self.made, len(self._parts), pile.chips(), pile.fired())
            return goes_on

        with contextlib.suppress(KeyboardInterrupt):
            in_calls(call, at, amounts, self._columns)
        self.made, parts, chips, fired = noted
        del self._parts[parts:]
        return chips, fired

    def _call(self, pile: kept.KeptPile, where: Any, many: Any, rows: list[Any]) -> bool:
        """Makes some of the drops; whether all of these were made."""
        self.number, place = fall(pile, self._room, where, many, rows)
        if self.number not in (0, kept.STOPPED):
            raise refused(self.number, self.made + place, self._graph)
        if self._room:
            self._parts += self._room.taken()
        self.made += place
        if self._progress:
            self._progress.show(self.made, self.made == len(self._columns[0]))
        return self.number == 0

    def told(self) -> dict[str, Any]:
        """The columns of the drops that were made, and what they fired, by their names."""
        size, extent, lost, *duration = shown([column[: self.made] for column in self._columns])
        found = {"size": size, "extent": extent, "lost": lost, "fired": None, "duration": None}
        if duration:
            found["duration"] = duration[0]
        if self._room:
            found["fired"] = firings(self._graph, extent, [(0, self._parts)])
        return found


def without_library() -> ProgramNotFound:
    """The error where the library is missing that measures drops."""
    why = "the library measures what drops fire, and for how many rounds, and is not here"
    return ProgramNotFound(2, why, "chipfire")


def measured_drops(
    graph: Graph,
    chips: array[int],
    at: array[int],
    amounts: array[int],
    fired: bool = False,
    durations: bool = False,
    progress: AnyProgress = None,
    partial: bool = False,
) -> Drops | None:
    """Drops by the library, with what is asked of them, on the pile that the graph keeps; None without the library. Those
    before an interrupt, if it is `partial`."""
    pile = kept.take(graph, chips, MAX_LIMIT)
    if pile is None:
        return None
    try:
        with Progress(progress, len(at), "drops") as shown:
            measured = Measured(graph, len(at), fired, durations, shown)
            number = pile.play()
            if number not in (0, kept.STOPPED):
                raise refused(number, 0, graph)
            ends = None
            if not number and partial:
                ends = measured.play_some(pile, at, amounts)
            elif not number:
                measured.play(pile, at, amounts)
            left, counts = ends or (pile.chips(), pile.fired())
    finally:
        kept.give_back(graph, pile)
    return Drops.with_report_later(measured.told(), lambda: _report(graph, left, counts))


def _report(graph: Graph, left: Sequence[int], fired: Sequence[int]) -> Report:
    """The report of a play that has left these chips."""
    over = [it for it, degree in enumerate(graph.degrees()) if 0 < degree <= left[it]]
    return Report(tuple(left), tuple(fired), tuple(over), graph=graph)


def in_calls(
    call: Callable[[Any, Any, list[Any]], bool],
    at: Any,
    amounts: Any,
    columns: Sequence[Any],
    some: int = 1,
) -> int:
    """Makes drops by calls, each of which says whether all its drops were made. One drop may be long, so the first call has
    one if no other number is said; later calls have more, or fewer if one takes a tenth of a second. How many the next
    one would have is returned, 1 at least; 0 if drops were not made."""
    portions = Portions(len(at), some)
    for part in portions:
        where, many, *rows = (memoryview(it)[part] for it in (at, amounts, *columns))
        if not call(where, many, rows):
            return 0
    return min(portions.size, len(at) or 1)


def parts_of(at: array[int], amounts: array[int]) -> Iterator[bytes]:
    """The text of a file of drops, in parts."""
    yield ",".join(CHIPS_HEADER).encode() + b"\n"
    for start in range(0, len(at), PART):
        rows = zip(at[start : start + PART], amounts[start : start + PART])
        yield "".join([f"{vertex},{count}\n" for vertex, count in rows]).encode()


def columns_of(text: str) -> list[Any]:
    """The sizes, areas and numbers of dissipated chips in the rows that the program writes."""
    columns = [array("q") for _ in range(3)]
    at = len(ROWS_HEADER)
    while at < len(text):
        end = text.rindex("\n", at, at + _BYTES)
        numbers = array("q", map(int, text[at:end].replace("\n", ",").split(",")))
        for place, column in enumerate(columns, 2):
            column.extend(numbers[place::5])
        at = end + 1
    return shown(columns)


def shown(columns: list[array[int]]) -> list[Any]:
    """Columns as whoever asked gets them."""
    numpy = import_optional("numpy")
    return [numpy.frombuffer(column, "q") if numpy else column for column in columns]
