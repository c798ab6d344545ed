"""Which vertices drops fire, how often, and for how many rounds."""

from __future__ import annotations

import time
from collections.abc import Sequence
from typing import Any, NamedTuple

from chipfire.backend import kept
from chipfire.backend.portions import Stopped
from chipfire.ensembles import archive
from chipfire.graphs.graph import Graph
from chipfire.utils import import_optional, numpy_in_use

#: How many vertices that fire a call has room for at least.
_ROOM = 2**18

#: How large the drops are that are put in order at a time, about. The size of a drop is how many numbers lie between its least
#: vertex and its greatest one, and at most this many for each vertex that fires.
_NEAR, _APART = 2**15, 2**4

#: What drops fire, in parts: the vertices, those of each drop in their order, and how often each fired.
Parts = list[tuple[Any, Any]]
#: The number of the first of some drops, and what they fire.
Piece = tuple[int, Parts]


class Firings(NamedTuple):
    """Which vertices each drop fired, as the rows of a sparse matrix.

    The entries of drop d begin at ``offsets[d]``, and end before ``offsets[d + 1]``. For drop d of chain k, use ``k *
    drops + d`` instead of d.

    Attributes
    ----------
    offsets : array of shape (n + 1,)
        Where the entries of each of n drops begin.
    vertices : array
        The names of the vertices that fired: those of each drop are in the order of the vertices' numbers. Names that
        are not whole numbers are in an array of objects.
    counts : array
        How often each of these vertices fired.

    See Also
    --------
    chains, drops

    Notes
    -----
    A vertex that fires takes 12 bytes, or 16 bytes in a graph with names. Before all are in one array, it takes up to
    24 bytes, or 32 bytes with names.

    Proved: which vertices fired, and the counts. Not proved: that Python passes them on, and puts them in order.

    Examples
    --------
    >>> found = chipfire.drops(chipfire.path(2), {0: 1, 1: 1}, [0, 1], fired=True).fired
    >>> found.offsets.tolist(), found.vertices.tolist(), found.counts.tolist()
    ([0, 2, 2], [0, 1], [1, 1])
    """

    offsets: Any
    vertices: Any
    counts: Any

    def to_scipy(self, graph: Graph) -> Any:
        """The counts as a sparse matrix of SciPy (`csr_array`), with a row for each drop and a column for each vertex,
        in the order of the numbers. Raises ImportError without SciPy."""
        sparse = import_optional("scipy.sparse", "a sparse matrix is one of SciPy")
        shape = (len(self.offsets) - 1, graph.vertices)
        return sparse.csr_array((self.counts, self._numbers(graph), self.offsets), shape)

    def radii(self, graph: Graph, vertices: Any) -> tuple[Any, Any]:
        """Two radii of each drop, where an edge has length 1; 0 if nothing fired. The graph is a two-dimensional square
        grid with open borders, or a region of one; other graphs raise ValueError. The radius is the greatest distance
        of a vertex that fired from the vertex of the drop, which `vertices` has. The gyration radius is the root mean
        square distance of the vertices that fired from their centre."""
        numpy = import_optional("numpy")
        places = _open_places(numpy, graph)
        origins = places[[graph.number(name) for name in vertices]]
        if len(origins) != len(self.offsets) - 1:
            raise ValueError(
                f"there are {len(self.offsets) - 1} drops, and {len(origins)} vertices"
            )
        lengths = numpy.diff(self.offsets)
        drop = numpy.repeat(numpy.arange(len(lengths)), lengths)
        fired = places[self._numbers(graph)]
        squares = ((fired - origins[drop]) ** 2).sum(1)
        farthest = numpy.zeros(len(lengths), "i8")
        numpy.maximum.at(farthest, drop, squares)
        area = numpy.maximum(lengths, 1)
        sums = [numpy.bincount(drop, fired[:, way], len(lengths)) for way in (0, 1)]
        moment = numpy.bincount(drop, (fired**2).sum(1), len(lengths))
        about_centre = moment / area - sum((it / area) ** 2 for it in sums)
        return numpy.sqrt(farthest), numpy.sqrt(numpy.maximum(about_centre, 0))

    def _numbers(self, graph: Graph) -> Any:
        """The numbers of the vertices that fired."""
        if isinstance(graph.names, range):
            return self.vertices
        numpy = import_optional("numpy")
        numbers = {name: number for number, name in enumerate(graph.names)}
        return numpy.array([numbers[name] for name in self.vertices.tolist()], "i8")


def shape_of(graph: Graph, therefore: str) -> tuple[int, int]:
    """The shape of a grid. Other graphs are refused, and the error says what that prevents."""
    if graph.shape is None:
        raise ValueError(f"the graph is no grid, so {therefore}")
    return graph.shape


def places_on_grid(numpy: Any, graph: Graph, width: int) -> Any:
    """The row and the column of each vertex of a grid so wide, by its number."""
    squares = numpy.array([*graph.squares], "i8")
    places = numpy.zeros((graph.vertices, 2), "i8")
    places[: len(squares)] = numpy.stack(numpy.divmod(squares, width), 1)
    return places


def ends_inside(numpy: Any, graph: Graph) -> tuple[Any, Any]:
    """The tails and the heads of the edges that do not lead to the sink."""
    tails, heads, _ = (numpy.array(column, "i8") for column in graph.columns)
    is_inside = heads != graph.sink
    return tails[is_inside], heads[is_inside]


def _open_places(numpy: Any, graph: Graph) -> Any:
    """The row and the column of each vertex of an open square grid of two directions, or of a region of one."""
    _, width = shape_of(graph, "nothing in it has a radius")
    places = places_on_grid(numpy, graph, width)
    tails, heads = ends_inside(numpy, graph)
    far = abs(places[tails] - places[heads]).sum(1)
    pairs = numpy.minimum(tails, heads) * graph.vertices + numpy.maximum(tails, heads)
    neighbours = _neighbours(numpy, numpy.delete(places, graph.sink, 0))
    if (far != 1).any() or len(numpy.unique(pairs)) != neighbours:
        raise ValueError(
            "radii are those on square grids of two directions with open borders, or on regions of them"
        )
    return places


def _neighbours(numpy: Any, places: Any) -> int:
    """How many pairs of these places are neighbours on a square grid."""
    width = (
        places.max(initial=0) + 2
    )  # (so the last of a row is no neighbour of the first of the next)
    squares = places[:, 0] * width + places[:, 1]
    return int(sum(numpy.isin(squares + step, squares).sum() for step in (1, width)))


class Room:
    """Memory in which the library writes what drops fire, and what it wrote, if that is kept: of each drop the vertices that
    fired, in the order of their numbers, and how often each did."""

    def __init__(self, vertices: int, is_kept: bool = True) -> None:
        numpy = import_optional("numpy", "what fired is kept by NumPy")
        size = max(_ROOM, 2 * vertices)
        self._vertices, self._times = numpy.empty(size, "u8"), numpy.empty(size, "u8")
        self._is_kept = is_kept
        self._parts: Parts = []
        #: The vertices that the last drop fired, in any order, until the next one is made.
        self.last: Any = self._vertices[:0]

    def drops(
        self,
        pile: kept.KeptPile,
        at: Any,
        amounts: Any,
        columns: Sequence[Any],
        until: kept.Until = kept.NEVER,
    ) -> tuple[int, int]:
        """Drops as `KeptPile.measure` makes them, in as many calls as there is room for."""
        numpy = import_optional("numpy")
        ends = numpy.empty(len(at), "u8")
        made = 0
        while True:
            where, many, *rest = (it[made:] for it in (at, amounts, *columns))
            room = (ends[made:], self._vertices, self._times)
            number, place = pile.measure(where, many, rest, room, until)
            if number not in (0, kept.STOPPED):
                return number, made + place
            if place:
                self._take(ends[made : made + place])
            made += place
            if number or made == len(at) or ends_run(until, self, columns, made):
                return number, made

    def _take(self, ends: Any) -> None:
        """Takes the rows that were written last, of drops whose rows end there."""
        numpy = import_optional("numpy")
        ends, vertices, times = (it.view("i8") for it in (ends, self._vertices, self._times))
        self.last = vertices[ends[-2] if len(ends) > 1 else 0 : ends[-1]]
        if not self._is_kept:
            return
        self._parts += ordered(numpy.diff(ends, prepend=0), vertices[: ends[-1]], times)

    def add_counts(self, counts: Sequence[int]) -> None:
        """Takes what one drop fires, as the count of each vertex."""
        numpy = import_optional("numpy")
        each = numpy.frombuffer(counts, "i8")
        self.last = each.nonzero()[0]
        if self._is_kept:
            self._parts.append((self.last.astype("i4"), each[self.last]))

    def taken(self) -> Parts:
        """What was written since it was taken the last time."""
        found, self._parts = self._parts, []
        return found


def joined(pieces: Sequence[Piece]) -> tuple[Any, Any]:
    """What the drops of all pieces fire, which may be in any order."""
    numpy = import_optional("numpy")
    parts = [(numpy.zeros(0, "i4"), numpy.zeros(0, "i8"))]
    for _, more in sorted(pieces, key=lambda piece: piece[0]):
        parts += more
    vertices, counts = map(numpy.concatenate, zip(*parts))
    return vertices, counts


def ordered(extents: Any, vertices: Any, times: Any) -> Parts:
    """What drops with these extents fire, in parts: the vertices of each drop in the order of their numbers, and how often
    they do."""
    numpy = import_optional("numpy")
    extents = extents[extents > 0]
    ends = numpy.cumsum(extents)
    least = numpy.minimum.reduceat(vertices, ends - extents)
    spans = numpy.maximum.reduceat(vertices, ends - extents) - least + 1
    found = []
    start = at = 0
    for cut in _cuts(numpy, spans, extents):
        some, part = slice(start, cut), slice(at, ends[cut - 1])
        ahead = numpy.cumsum(spans[some])
        places = numpy.repeat(ahead - spans[some] - least[some], extents[some]) + vertices[part]
        order = _order(numpy, places, int(ahead[-1]))
        found.append((vertices[part].astype("i4")[order], times[part][order]))
        start, at = cut, part.stop
    return found


def _cuts(numpy: Any, spans: Any, extents: Any) -> Any:
    """How many drops come before the end of each part that is put in order at a time. Its places have 16 bits, if the vertices
    of each drop have numbers near to each other."""
    sizes = numpy.minimum(spans, _APART * extents)
    starts = numpy.cumsum(sizes) - sizes
    is_last = numpy.diff(starts // _NEAR, append=-1) != 0
    is_last[:-1] |= sizes[1:] >= _NEAR
    return (numpy.flatnonzero(is_last) + 1).tolist()


def _order(numpy: Any, numbers: Any, most: int) -> Any:
    """The order of numbers from 0 on that are below `most`: by 16 bits at a time, of which NumPy makes no comparisons."""
    order = numpy.argsort(numbers.astype("u2"), kind="stable")
    for shift in range(16, (most - 1).bit_length(), 16):
        digits = (numbers >> shift).astype("u2")[order]
        order = order[numpy.argsort(digits, kind="stable")]
    return order


def fall(
    pile: kept.KeptPile,
    room: Room | None,
    at: Any,
    amounts: Any,
    columns: Sequence[Any],
    until: kept.Until = kept.NEVER,
) -> tuple[int, int]:
    """Drops on a pile, whose numbers go into the columns, the durations too if there is a fourth, and what they fire into the
    room, if there is one: the number of a fault, or 0, and how many were made, or the place of the fault. Fewer are made if
    one ends the run, or is `Stopped`. A drop of many chips is made in portions, but not if durations are measured.
    """
    if len(columns) > 3:
        return _fall_at_once(pile, room, at, amounts, columns, until)
    made = number = 0
    while made < len(amounts) and not number and not ends_run(until, room, columns, made):
        light = _light(amounts[made:], pile.light)
        where, many, *rows = (it[made : made + (light or 1)] for it in (at, amounts, *columns))
        try:
            if light:
                number, place = _fall_at_once(pile, room, where, many, rows, until)
            else:
                number, place = _pour(pile, room, where, many, rows)
        except Stopped:
            if not pile.is_own:
                raise
            break
        made += place
    return number, made


def ends_run(until: kept.Until, room: Room | None, columns: Sequence[Any], made: int) -> bool:
    """Whether the last of the drops that were made ends the run. The room has what they fired, if there are marks."""
    if made and until.loses and columns[2][made - 1]:
        return True
    if not (made and room and len(until.marks)):
        return False
    numpy = import_optional("numpy")
    bits = int(numpy.bitwise_or.reduce(until.marks[room.last]))
    return any(bits & both == both for both in (1, 2 | 4, 8 | 16))


def _light(amounts: Any, most: int) -> int:
    """How many drops of at most `most` chips come before one of more."""
    if amounts[0] > most:
        return 0
    numpy = numpy_in_use()
    if (int(numpy.asarray(amounts).max()) if numpy else max(amounts)) <= most:
        return len(amounts)
    return next(drop for drop, amount in enumerate(amounts) if amount > most)


def _fall_at_once(
    pile: kept.KeptPile,
    room: Room | None,
    at: Any,
    amounts: Any,
    columns: Sequence[Any],
    until: kept.Until,
) -> tuple[int, int]:
    """Drops each of which is made in one call."""
    begun = time.monotonic()
    number, made = _measured(pile, room, at, amounts, columns, until)
    pile.note(len(at), time.monotonic() - begun)
    if number == kept.STOPPED and pile.is_before(at[made], amounts[made]):
        where, many, *rows = (it[made:] for it in (at, amounts, *columns))
        number, more = _measured(pile, room, where, many, rows, until)
        made += more
    return number, made


def _measured(
    pile: kept.KeptPile,
    room: Room | None,
    at: Any,
    amounts: Any,
    columns: Sequence[Any],
    until: kept.Until,
) -> tuple[int, int]:
    """Drops by the call that measures what is asked for."""
    if room:
        return room.drops(pile, at, amounts, columns, until)
    return pile.measure(at, amounts, columns, until=until)


def _pour(
    pile: kept.KeptPile, room: Room | None, at: Any, amounts: Any, columns: Sequence[Any]
) -> tuple[int, int]:
    """One drop of many chips."""
    number, counts = pile.pour(at[0], amounts[0])
    if number:
        return number, 0
    for column, told in zip(columns, pile.told):
        column[0] = told
    if room:
        room.add_counts(counts)
    return 0, 1


def drops_of(extents: Any) -> Any:
    """The number of its drop for each vertex that drops with these extents fire."""
    numpy = import_optional("numpy")
    return numpy.repeat(numpy.arange(len(extents)), numpy.frombuffer(extents, "i8"))


def offsets_of(extents: Any) -> Any:
    """Where what each drop fired begins, of drops with these extents, and where the last one ends."""
    numpy = import_optional("numpy")
    return numpy.concatenate([[0], numpy.cumsum(numpy.frombuffer(extents, "i8"))])


def firings(graph: Graph, extents: Any, pieces: Sequence[Piece]) -> Firings:
    """What drops with these extents fire, by pieces."""
    vertices, counts = joined(pieces)
    return Firings(offsets_of(extents), _named(graph, vertices), counts)


def _named(graph: Graph, vertices: Any) -> Any:
    """The names of vertices that fired."""
    numpy = import_optional("numpy")
    if isinstance(graph.names, range):
        return vertices
    names = numpy.empty(graph.vertices, object)
    for vertex, name in enumerate(graph.names):
        names[vertex] = name
    names[graph.sink] = 0  # (it never fires)
    is_whole = all(type(name) is int and abs(name) < 2**63 for name in names)
    return (names.astype("i8") if is_whole else names)[vertices]


def stored(fired: Firings) -> tuple[list[Any] | None, dict[str, Any]]:
    """What fired as a file has it: names of vertices, if they are no whole numbers, and arrays."""
    numpy = archive.numpy_of_files()
    vertices = numpy.asarray(fired.vertices)
    if vertices.dtype != object:
        return None, fired._replace(vertices=vertices)._asdict()
    numbers = {name: it for it, name in enumerate(dict.fromkeys(vertices.tolist()))}
    places = numpy.array([numbers[it] for it in vertices.tolist()], "i8")
    return archive.plain_names(numbers), fired._replace(vertices=places)._asdict()


def firings_of(names: Sequence[Any] | None, arrays: dict[str, Any], count: int) -> Firings | None:
    """What `count` drops fired, of which `stored` made these names and arrays; None if there is nothing of it."""
    if "vertices" not in arrays:
        return None
    numpy = archive.numpy_of_files()
    offsets, counts = (archive.whole(arrays[name]) for name in ("offsets", "counts"))
    vertices = arrays["vertices"]
    if len(offsets) != count + 1 or not len(counts) == len(vertices) == offsets[-1]:
        raise ValueError("what fired is not that of these drops")
    if names is not None:
        found = numpy.empty(len(names), object)
        for place, name in enumerate(names):
            found[place] = archive.value_of(name)
        vertices = found[archive.whole(vertices)]
    return Firings(offsets, vertices, counts)
