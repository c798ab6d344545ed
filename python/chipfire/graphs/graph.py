"""The class of graphs: directed multigraphs with a sink."""

from __future__ import annotations

import contextlib
import copy
import functools
import itertools
import json
import operator
import os
import threading
import weakref
from array import array
from collections import Counter, OrderedDict
from collections.abc import Hashable, Iterable, Iterator, Mapping, Sequence, Set
from typing import Any

from chipfire.backend import library
from chipfire.backend.process import Kept
from chipfire.configurations import smith
from chipfire.configurations.configuration import Chips, Configuration, identity, Sums
from chipfire.graphs.edges import Columns, edge_columns, edge_rows, names_of_ends
from chipfire.graphs.named import parts_of_named
from chipfire.utils import (
    as_int,
    as_ints,
    FileName,
    in_column,
    in_order,
    is_of_networkx,
    MAX_LARGE_EDGES,
    MAX_LARGE_VERTICES,
    MAX_MULT,
    numpy_in_use,
    numpy_of,
    recoded,
    VertexNumber,
    with_unit,
)

#: How many edges become text at a time.
_PART = 2**16

#: The files of the graphs that were asked about last, by the graph's `id`, and how many of them are kept.
_FILES: OrderedDict[int, tuple[weakref.ref[Graph], Kept]] = OrderedDict()
_MOST_FILES = 64
_FILES_LOCK = threading.Lock()

#: What a graph is made of; all else is found out about it.
_MADE_OF = ("vertices", "sink", "columns", "names", "shape", "squares", "from_sink", "loops")

#: The answer that says whether each edge has one back, but for those to the sink.
NO_EDGE_IS_ONE_WAY = "no edge is one-way"


def _checked_names(names: tuple[Hashable, ...], vertices: int) -> tuple[Hashable, ...]:
    """Names, if there are none, or one for each vertex, all different."""
    if names and len(names) != vertices:
        raise ValueError(f"there are {len(names)} names, and the graph has {vertices} vertices")
    if len({*names}) < len(names):
        raise ValueError(f"two vertices are called {Counter(names).most_common(1)[0][0]!r}")
    return names


def _heads_of_first(columns: Columns, sink: int) -> list[int]:
    """Where the edges out of vertex 0 lead, but for those to the sink."""
    tails, heads, _ = columns
    numpy = numpy_in_use() if tails else None
    if numpy:
        ends = numpy.frombuffer(tails, "i"), numpy.frombuffer(heads, "i")
        heads_of_first: list[int] = ends[1][ends[0] == 0].tolist()
        return [head for head in heads_of_first if head != sink]
    return [head for tail, head in zip(tails, heads) if tail == 0 and head != sink]


def _are_neighbours(columns: Columns, squares: int, width: int) -> bool:
    """Whether the ends of each edge but those to the sink are neighbours on a grid of this number of squares."""
    tails, heads, _ = columns
    numpy = numpy_in_use() if tails else None
    if numpy:
        ends = numpy.frombuffer(tails, "i"), numpy.frombuffer(heads, "i")
        u, v = (column[ends[1] != squares] for column in ends)
        far = abs(u - v)
        return bool(((far == width) | (far == 1) & (u // width == v // width)).all())
    inner = ((tail, head) for tail, head in zip(tails, heads) if head != squares)
    return all(
        abs(u - v) == width or abs(u - v) == 1 and u // width == v // width for u, v in inner
    )


def _is_accepted(graph: Graph) -> bool:
    """Whether the library is there and takes the graph."""
    try:
        library.stabilize_all(graph.loop_free, *(array("Q") for _ in range(3)))
    except (OSError, ValueError):
        return False
    return True


def _checked_loops(loops: Sequence[int], vertices: int, sink: int) -> Sequence[int]:
    """Loops of each vertex, 0 of the sink; none, if no vertex has one."""
    held = [*as_ints(loops, lambda at: f"the loops of vertex {at}")]
    if held and len(held) != vertices:
        raise ValueError(f"there are loops of {len(held)} vertices, and the graph has {vertices}")
    if sink < len(held):
        held[sink] = 0
    return held if any(held) else ()


class Graph:
    """A directed multigraph with a sink: the sandpile graph.

    A graph never changes. A copy or a pickle has its parameters, but no cached results.

    Parameters
    ----------
    vertices : int
        The number of vertices. Vertices are numbered from 0.
    sink : int
        The number of the vertex that never fires.
    edges : iterable of (tail, head) or (tail, head, mult), or array of shape (m, 2) or (m, 3)
        The edges. A firing of the tail sends `mult` chips to the head, or one chip without `mult`.
    names : sequence of hashable, optional
        The names of the vertices in dicts, in the order of their numbers. By default, the names are the numbers.
    shape : (int, int), optional
        The numbers of rows and columns of a picture.
    squares : sequence of int, optional
        The square of each vertex in the picture, counted by rows. By default, this is the vertex's number. A sink that
        is the last vertex has no square.
    from_sink : sequence of (head, mult) or None, optional
        The edges out of the sink, which only `laplacian` shows. None means a reverse edge for each edge into the sink.
    loops : sequence of int, optional
        For each vertex, the number of chips that it keeps when it fires. To fire, the vertex needs these in addition to
        the chips that it sends.

    Attributes
    ----------
    edges : tuple of (int, int, int)
        The edges, by the numbers of their tails and heads, with their multiplicities. An edge's number is its index.

    Raises
    ------
    ValueError
        A number is out of range, or the names are not one different name for each vertex.

    See Also
    --------
    grid, from_networkx, from_edges, check

    Notes
    -----
    The program checks whether chipfire takes a graph: see `check`.

    None of this is proved: Python keeps the graph, and each play checks that it is valid.

    Examples
    --------
    >>> triangle = chipfire.Graph(3, 2, [(0, 1), (0, 2), (1, 0), (1, 2)])
    >>> triangle.degrees(), triangle.max_stable()
    ((2, 2, 0), {0: 1, 1: 1})
    """

    vertices: int
    sink: int
    columns: Columns
    names: Sequence[Hashable]
    squares: Sequence[int]
    from_sink: Sequence[tuple[int, int]] | None
    loops: Sequence[int]
    answers: dict[Any, Any]  # (what was found out about it)

    def __init__(
        self,
        vertices: int,
        sink: int,
        edges: Iterable[Sequence[int]],
        names: Sequence[Hashable] = (),
        shape: tuple[int, int] | None = None,
        squares: Sequence[int] | None = None,
        from_sink: Sequence[tuple[int, int]] | None = (),
        loops: Sequence[int] = (),
    ) -> None:
        vertices = as_int(vertices, "the number of vertices")
        sink = as_int(sink, "the sink")
        if squares is None:
            # (a vertex is on the square of its number, and a sink that is the last vertex on none)
            squares = range(vertices - 1 if sink == vertices - 1 else vertices)
        stored = vars(self)  # (since a graph is never changed, no attribute can be set)
        stored["vertices"] = vertices
        stored["sink"] = VertexNumber(sink)
        stored["names"] = _checked_names(tuple(names), vertices) or range(vertices)
        stored["loops"] = _checked_loops(loops, vertices, sink)
        stored["columns"] = edges if isinstance(edges, Columns) else edge_columns(edges)
        stored["from_sink"] = from_sink
        stored["squares"] = squares
        if shape is not None:
            stored["shape"] = shape
        stored["answers"] = {}

    def __setattr__(self, name: str, value: Any) -> None:
        raise AttributeError("a graph is never changed: make another one")

    def __getstate__(self) -> dict[str, Any]:
        stored = vars(self)
        return {name: stored[name] for name in _MADE_OF if name in stored}

    def __setstate__(self, state: dict[str, Any]) -> None:
        vars(self).update(state, answers={})

    def __eq__(self, other: object) -> bool:
        if not isinstance(other, Graph):
            return False
        return all(
            getattr(self, it) == getattr(other, it)
            for it in ("vertices", "sink", "names", "columns", "loops")
        )

    def __hash__(self) -> int:
        return hash((self.vertices, self.sink, *(column.tobytes() for column in self.columns)))

    def __repr__(self) -> str:
        sink = repr(self.names[self.sink]) if self.sink < self.vertices else self.sink
        return f"<Graph of {self.vertices} vertices, {len(self.columns.tails)} edges, sink {sink}>"

    @functools.cached_property
    def edges(self) -> tuple[tuple[int, int, int], ...]:
        """The edges as rows (tail, head, mult)."""
        return tuple(zip(*self.columns))

    @functools.cached_property
    def long_columns(self) -> Columns:
        """The columns of the edges as 64-bit numbers, which the library takes."""
        self.refuse_loops()
        return Columns(*(recoded(column, "Q") for column in self.columns))

    @functools.cached_property
    def shape(self) -> tuple[int, int] | None:
        """The shape of a grid that was not made as one; a single line of vertices is a row."""
        width = max(_heads_of_first(self.columns, self.sink), default=1)
        squares = self.vertices - 1
        width = squares if width == 1 else width
        if squares < 1 or self.sink != squares or squares % width:
            return None
        return (squares // width, width) if _are_neighbours(self.columns, squares, width) else None

    @classmethod
    def undirected(cls, edges: Iterable[Sequence[Any]], sink: Any) -> Graph:
        """The graph of undirected edges (name, name) or (name, name, mult), or of the edges of a graph of NetworkX.
        Each of them becomes one edge each way. A row of NetworkX that contains a "weight" has it as its multiplicity.
        Names that can be sorted are numbered in sorted order, and others in the order in which they come. Sinks are as
        in `from_networkx`.
        """
        rows = edge_rows(edges, False)
        return Graph(**parts_of_named(names_of_ends(rows), sink, rows, False))

    @classmethod
    def read(cls, file: FileName) -> Graph:
        """The graph of a graph file. `check(file)` says exactly what is wrong with a file that is refused."""
        with open(file, encoding="utf-8") as text:
            value = json.load(text)
        wanted = ["edges", "sink", "version", "vertices"]
        if not isinstance(value, dict) or sorted(value) != wanted or value["version"] != 1:
            raise ValueError(f"{os.fspath(file)} is no graph file of version 1")
        return cls(value["vertices"], value["sink"], value["edges"])

    def text(self) -> str:
        """The text of the graph file, which has no names."""
        return b"".join(self._parts()).decode()

    def write(self, file: FileName) -> None:
        """Writes the graph file."""
        with open(file, "wb") as out:
            out.writelines(self._parts())

    @property
    def kept(self) -> Kept:
        """The graph file that the program reads. It stays as long as this graph, or until 64 others are asked about."""
        key = id(self)
        with _FILES_LOCK:
            if key not in _FILES:
                _FILES[key] = weakref.ref(self, lambda _: _FILES.pop(key, None)), Kept(
                    self._parts()
                )
            _FILES.move_to_end(key)
            if len(_FILES) > _MOST_FILES:
                # Whoever plays on that graph has the file as long as that takes.
                _FILES.popitem(last=False)
            return _FILES[key][1]

    def _parts(self) -> Iterator[bytes]:
        """The text of the graph file in parts."""
        self.refuse_loops()
        yield b'{"edges":['
        for start in range(0, len(self.columns.tails), _PART):
            part = [column[start : start + _PART] for column in self.columns]
            numbers = array("i", bytes(4)) * (3 * len(part[0]))
            numbers[::3], numbers[1::3], numbers[2::3] = part
            text = ("[%d,%d,%d]," * len(part[0]) % tuple(numbers)).encode()
            yield b"," * (start > 0) + text[:-1]
        yield f'],"sink":{self.sink},"version":1,"vertices":{self.vertices}}}\n'.encode()

    def number(self, name: Hashable) -> int:
        """The number of the vertex with this name or, if the graph has no names, on this square (row, column). Raises
        KeyError if there is no such vertex, and TypeError for a vertex's number from a result if that vertex has
        another name."""
        if isinstance(name, int) and isinstance(self.names, range) and 0 <= name < self.vertices:
            return int(name)
        if isinstance(name, VertexNumber) and not isinstance(self.names, range):
            self._refuse_number(name)
        try:
            return self._numbers[name]
        except (KeyError, TypeError):
            hint = ""
            if (
                isinstance(name, tuple)
                and len(name) == 2
                and isinstance(self.names, range)
                and self.shape
            ):
                hint = f": a square of it is (row, column), below {self.shape}"
                (height, width) = self.shape
                with contextlib.suppress(ValueError):  # (which arrays raise)
                    if name[0] in range(height) and name[1] in range(width):
                        square = width * int(name[0]) + int(name[1])
                        if square in self._by_square:
                            return self._by_square[square]
            raise KeyError(f"the graph has no vertex {name!r}{hint}") from None

    @functools.cached_property
    def _by_square(self) -> Sequence[int] | dict[int, int]:
        """The vertices by their squares."""
        return (
            self.squares
            if isinstance(self.squares, range)
            else dict(zip(self.squares, itertools.count()))
        )

    @functools.cached_property
    def _numbers(self) -> dict[Hashable, int]:
        return dict(zip(self.names, itertools.count()))

    def degrees(self) -> tuple[int, ...]:
        """How many chips each vertex sends when it fires, in the order of the numbers; 0 for the sink."""
        return self._degrees

    @functools.cached_property
    def _degrees(self) -> tuple[int, ...]:
        found = [0] * self.vertices
        tails, _, mults = self.columns
        numpy = numpy_in_use() if tails else None
        if numpy:
            ends, sent = (numpy.frombuffer(it, "i") for it in (tails, mults))
            # (it adds up floats, which are exact below 2^53)
            if ends.max() < self.vertices and int(sent.max()) * len(sent) < 2**53:
                return tuple(numpy.bincount(ends, sent, self.vertices).astype("q").tolist())
        for tail, mult in zip(tails, mults):
            found[tail] += mult
        return tuple(found)

    def position_after(self, chips: Any, counts: Any) -> list[int]:
        """The chips of each vertex after these counts of firings, legal or not. Counts below 0 undo firings. Chips and
        counts may have any form that `chips` takes."""
        chips = self.numbers(chips)
        counts = self.numbers(counts, of="firings")
        found = [
            there - count * degree for there, count, degree in zip(chips, counts, self.degrees())
        ]
        for tail, head, mult in zip(*self.columns):
            found[head] += mult * counts[tail]
        return found

    def outs(self, vertex: int) -> list[int]:
        """The numbers of the edges out of a vertex, ascending."""
        return [edge for edge, tail in enumerate(self.columns.tails) if tail == vertex]

    def ins(self, vertex: int) -> list[int]:
        """The numbers of the edges into a vertex, ascending, without its root edge."""
        return [edge for edge, head in enumerate(self.columns.heads) if head == vertex]

    def root_edge(self, vertex: int) -> int:
        """The number of the edge on which a vertex gets the chips that it starts with, in schedules and traces."""
        return len(self.columns.tails) + vertex

    def is_like(self, other: Graph) -> bool:
        """Whether another graph is the same except for the order of edges and the names of vertices."""
        is_same = (self.vertices, self.sink, self.loops) == (
            other.vertices,
            other.sink,
            other.loops,
        )
        return is_same and (
            self.columns == other.columns or sorted(self.edges) == sorted(other.edges)
        )

    @functools.cached_property
    def wrong(self) -> str:
        """Why chipfire cannot play on this graph, with the names of its vertices; an empty text if it can."""
        return "" if _is_accepted(self) else self.why_refused

    @functools.cached_property
    def why_refused(self) -> str:
        """The same as `wrong`, found without asking the library: of a graph that was refused."""
        tails, heads, _ = self.columns
        sizes = (self.vertices, MAX_LARGE_VERTICES, "vertices"), (
            len(tails),
            MAX_LARGE_EDGES,
            "edges",
        )
        for count, most, word in sizes:
            if count > most:
                return f"the graph has {count} {word}, and {most} at most can be played on"
        if self.sink >= self.vertices:
            return f"the sink is {self.sink}, and there are {self.vertices} vertices"
        if max(max(tails, default=0), max(heads, default=0)) >= self.vertices:
            edge = next(
                edge for edge, ends in enumerate(zip(tails, heads)) if max(ends) >= self.vertices
            )
            return f"edge {edge} leads from {tails[edge]} to {heads[edge]}, and there are {self.vertices} vertices"
        into: list[list[int]] = [[] for _ in range(self.vertices)]
        for edge, (tail, head, mult) in enumerate(zip(*self.columns)):
            if not 1 <= mult <= MAX_MULT or tail in (head, self.sink):
                sends = f"sends {mult} chips, and 1 to {MAX_MULT} can be sent"
                why = "is a loop" if tail == head else "leaves the sink"
                ends = f"from {self.names[tail]!r} to {self.names[head]!r}"
                return f"edge {edge} {ends} {why if 1 <= mult <= MAX_MULT else sends}"
            into[head].append(tail)
        reached = {self.sink}
        waiting = [self.sink]
        for vertex in waiting:
            new = {*into[vertex]} - reached
            reached |= new
            waiting += new
        lost = [repr(name) for vertex, name in enumerate(self.names) if vertex not in reached]
        return (
            f"no walk leads to the sink from {len(lost)} of the vertices: {', '.join(lost[:5])}"
            if lost
            else ""
        )

    def require(self) -> None:
        """Refuses what is no graph to play on, if the program is not asked."""
        if self.wrong:
            raise ValueError(self.wrong)

    def refuse_loops(self) -> None:
        """Refuses a graph with loops, if only one without can be taken."""
        if self.loops:
            at, count = next((at, count) for at, count in enumerate(self.loops) if count)
            why = f"vertex {self.names[at]!r} has {with_unit(count, 'loop')}"
            raise ValueError(f"{why}: this takes a graph without loops")

    @property
    def loop_free(self) -> Graph:
        """The same graph without loops."""
        if self.loops and "loop_free" not in self.answers:
            self.answers["loop_free"] = copy.copy(self)
            vars(self.answers["loop_free"])["loops"] = ()
        return self.answers.get("loop_free", self)

    def without_loops(self, chips: Sequence[int]) -> Sequence[int]:
        """The chips of one game after another, as plays of `loop_free` begin: less by the loops. Fewer are refused."""
        found = [*map(operator.sub, chips, itertools.cycle(self.loops))] if self.loops else chips
        for at, (left, loops) in enumerate(zip(found, itertools.cycle(self.loops))):
            if left < 0 < loops:
                name = self.names[at % self.vertices]
                has = with_unit(chips[at], "chip")
                why = f"vertex {name!r} has {has} and {with_unit(loops, 'loop')}"
                raise ValueError(f"{why}: nothing is played on fewer chips than loops")
        return found

    def with_loops(self, chips: Sequence[int]) -> array[int]:
        """The chips of one game after another, of which plays of `loop_free` leave some: more by the loops."""
        return array(
            "Q", map(operator.add, chips, itertools.cycle(self.loops)) if self.loops else chips
        )

    def max_stable(self) -> Configuration:
        """The maximal stable configuration: each vertex but the sink has one chip less than it needs to fire."""
        self.require()
        needs = map(operator.add, self.degrees(), self.loops) if self.loops else self.degrees()
        return Configuration(self, [count - 1 for count in needs])

    def identity(self, *, program: FileName | None = None) -> Configuration:
        """The recurrent identity: `chipfire.identity`."""
        return Configuration(self, identity(self, program))

    def order(self) -> int:
        """The order of the sandpile group, and not the number of vertices: `chipfire.order`."""
        return smith.order(smith.reduced(self))

    def chips(self, chips: Chips) -> tuple[int, ...]:
        """Returns chips as one number for each vertex, 0 or more.

        Chips may be a mapping by names, such as a dict, a Series of pandas or a configuration; an array of the graph's
        shape, or its rows; a sequence with a number for each vertex, or for each vertex but the sink; one number, for
        every vertex but the sink; or a report. Configurations and reports of another graph are refused.
        """
        return self.numbers(chips, least=0)

    def _refuse_number(self, number: VertexNumber) -> None:
        """Refuses the number of a vertex in place of its name, if that is another one."""
        name = self.names[number] if number < self.vertices else None
        if name != number:
            raise TypeError(f"vertex {number} of a result is a number, and its name is {name!r}")

    def numbers(
        self, values: Any, least: int | None = None, of: str = "chips", *, with_sink: bool = False
    ) -> tuple[int, ...]:
        """The same, of `least` or more if that is given; or numbers of something else, as of "firings". If they are
        wanted `with_sink`, a sequence has one for the sink too, and one number is for all vertices.
        """
        return tuple(self.column(values, least, of, with_sink=with_sink))

    def column(
        self, values: Any, least: int | None = None, of: str = "chips", *, with_sink: bool = False
    ) -> array[int] | list[int]:
        """The same as an array of 64-bit numbers, which is the caller's own; or as a list, if one of them has more bits."""
        is_report = hasattr(values, "prior") and hasattr(values, "chips")
        if is_report or isinstance(values, Sums):
            if values.graph is not None and not values.graph.is_like(self):
                kind = "report" if is_report else type(values).__name__.lower()
                raise ValueError(f"the {kind} is one of another graph")
            if is_report or values.graph.names == self.names:
                values = values.chips if is_report else values.numbers
        found = self._whole_column(values, least, with_sink)
        if found is not None:
            return found
        is_named = hasattr(values, "items") and not any(
            hasattr(values, it) for it in ("columns", "toarray")
        )
        is_named = is_named and not is_of_networkx(values)
        rows = self._by_names(values) if is_named else self._in_order(values, of, with_sink)
        return as_ints(
            rows, lambda vertex: f"the number of {of} of vertex {self.names[vertex]!r}", least
        )

    def _whole_column(self, values: Any, least: int | None, with_sink: bool) -> array[int] | None:
        """Whole numbers of which none has to be read by itself: one for each vertex, or for each but the sink, or an
        array of NumPy of the graph's shape. None for all else."""
        if not isinstance(values, (list, tuple, array)) and not numpy_of(values):
            return None
        if getattr(values, "ndim", 1) > 1:
            return self._of_squares(values, least, with_sink)
        lacks_sink = len(values) == self.vertices - 1 and not with_sink
        if len(values) != self.vertices and not lacks_sink:
            return None
        found = in_column(values, least)
        if found is not None and lacks_sink:
            found.insert(self.sink, 0)
        return found

    def _of_squares(self, values: Any, least: int | None, with_sink: bool) -> array[int] | None:
        """The same of an array of the graph's shape, each square of which is a vertex."""
        if values.shape != self.shape or len(self.squares) != values.size:
            return None
        if not isinstance(self.squares, range):
            return None
        found = in_column(values, least)
        if found is not None:
            if self.sink < len(found) and not with_sink:
                found[self.sink] = 0
            found.extend([0] * (self.vertices - len(found)))
        return found

    def _by_names(self, values: Mapping[Hashable, Any]) -> list[Any]:
        found: dict[int, Any] = {}
        for name, count in values.items():
            vertex = self.number(name)
            if vertex in found:
                raise ValueError(f"vertex {name!r} is named twice")
            found[vertex] = count
        return [found.get(vertex, 0) for vertex in range(self.vertices)]

    def _in_order(self, values: Any, of: str, with_sink: bool) -> list[Any]:
        wanted = f"{of} are a dict by names, or numbers in an order"
        found = in_order(values, wanted)
        if isinstance(found, Set):
            raise TypeError(f"{wanted}, and no {type(values).__name__}: {values!r}")
        is_one = not isinstance(found, Iterable)
        inner = self.vertices - (not with_sink)
        rows = [found] * inner if is_one else list(found)
        if not {*map(type, rows)} <= {int, float}:
            rows = [
                in_order(row, wanted) if hasattr(row, "tolist") or hasattr(row, "columns") else row
                for row in rows
            ]
        # (an array of one direction, and what has fields of its own, has no rows)
        may_have = not is_one and getattr(values, "ndim", 2) > 1 and not hasattr(values, "_fields")
        if (
            may_have
            and rows
            and all(isinstance(row, (list, tuple, range, array, Iterator)) for row in rows)
        ):
            return self._by_squares([list(row) for row in rows], of, with_sink)
        if len(rows) == self.vertices - 1 and not with_sink:
            rows.insert(self.sink, 0)
        if len(rows) != self.vertices:
            if with_sink and len(rows) == self.vertices - 1:
                raise ValueError(
                    f"a divisor has chips on the sink too, and there are {len(rows)} numbers"
                )
            raise ValueError(
                f"there are {of} for {len(rows)} vertices, and the graph has {self.vertices}"
            )
        return rows

    def _by_squares(self, rows: list[list[Any]], of: str, with_sink: bool) -> list[Any]:
        """What stands in rows of the graph's shape, by numbers of vertices. The sink's square counts for nothing,
        unless its number is wanted too."""
        if self.shape is None or {*map(len, rows)} != {self.shape[1]} or len(rows) != self.shape[0]:
            widths = " or ".join(map(str, sorted({*map(len, rows)})))
            raise ValueError(
                f"the {of} stand in {len(rows)} rows of {widths}, and the graph has shape {self.shape}"
            )
        flat = list(itertools.chain(*rows))
        if any(isinstance(it, (list, tuple)) for it in flat):
            raise ValueError(
                f"the {of} stand in rows of rows, and the graph has shape {self.shape}"
            )
        if len(self.squares) < len(flat) and any(
            flat[it] for it in {*range(len(flat))}.difference(self.squares)
        ):
            raise ValueError(f"there are {of} on a square that is no vertex of the graph")
        found = [flat[square] for square in self.squares]
        if self.sink < len(found) and not with_sink:
            found[self.sink] = 0
        return found + [0] * (self.vertices - len(found))
