"""Grids and other lattices, and regions of them."""

from __future__ import annotations

import itertools
import math
from array import array
from collections.abc import Iterable, Mapping, Sequence, Set
from typing import Any, overload

from chipfire.graphs.edges import Columns
from chipfire.graphs.graph import Graph, NO_EDGE_IS_ONE_WAY
from chipfire.utils import as_int, in_order, MAX_LARGE_VERTICES

#: Which squares lie beside one of a lattice, as (rows down, columns to the right) by the parity of its row and column.
_BESIDE: dict[str, Sequence[Sequence[tuple[int, int]]]] = {
    "square": [((-1, 0), (0, -1), (0, 1), (1, 0))] * 2,
    "triangular": [((-1, 0), (-1, 1), (0, -1), (0, 1), (1, -1), (1, 0))] * 2,
    "hexagonal": [((0, -1), (0, 1), (1, 0)), ((-1, 0), (0, -1), (0, 1))],
}

#: What further sizes of a grid are called, and a number that no number of a vertex makes 0 or more.
_WORDS = [f"size in direction {it}" for it in range(3, 22)]
_FAR = 2**40


def sizes_of(
    what: str, width: Any, height: Any, rows: Any, columns: Any
) -> list[tuple[str, int | None]]:
    """The width and the height by what they are called, from either pair of names; other pairs are refused."""
    given = {"width": width, "height": height, "rows": rows, "columns": columns}
    said = [name for name, size in given.items() if size is not None]
    if said == ["rows", "columns"]:
        return [("number of columns", columns), ("number of rows", rows)]
    if said != ["width", "height"]:
        named = ", ".join(said) or "none of them"
        raise TypeError(f"{what} has a width and a height, or rows and columns; said: {named}")
    return [("width", width), ("height", height)]


@overload
def grid(
    width: int,
    height: int,
    *more: int,
    periodic: bool | Sequence[bool] = ...,
    loss: Any = ...,
    lattice: str = ...,
) -> Graph:
    ...


@overload
def grid(
    *,
    rows: int,
    columns: int,
    periodic: bool | Sequence[bool] = ...,
    loss: Any = ...,
    lattice: str = ...,
) -> Graph:
    ...


def grid(
    width: int | None = None,
    height: int | None = None,
    *more: int,
    rows: int | None = None,
    columns: int | None = None,
    periodic: bool | Sequence[bool] = False,
    loss: Any = 0,
    lattice: str = "square",
) -> Graph:
    """Returns a grid that dissipates chips at its border.

    Parameters
    ----------
    width, height : int
        The numbers of columns and of rows.
    *more : int
        The sizes in further directions. With a third size there are layers, and a square is vertex ``width * (height *
        layer + row) + column``.
    rows, columns : int, optional
        The same sizes by other names: ``grid(rows=height, columns=width)``.
    periodic : bool or sequence of bool, optional
        The directions whose borders are joined: True for all, or a value for each, the width first. Such a direction
        has at least two vertices.
    loss : int or Chips, optional
        How many more chips each firing dissipates: one number for all vertices, or one number for each. If all
        directions are periodic, some vertex needs a number above 0.
    lattice : {"square", "triangular", "hexagonal"}, optional
        The neighbours of a vertex, as in `region`. A hexagonal lattice needs an even size in each periodic direction.

    Returns
    -------
    Graph
        The graph. Vertex ``width * row + column`` is also called ``(row, column)``, and the sink is the last vertex.
        When a vertex on the border fires, it loses a chip to the sink for each side without a neighbour. SageMath calls
        this graph ``sandpiles.Grid(height, width)``.

    Raises
    ------
    ValueError
        A size is below 1, sizes are given twice, or the grid is too large.

    See Also
    --------
    torus, region, aztec, grid_for

    Notes
    -----
    None of this is proved: Python makes the graph, and each play checks that it is valid.

    Examples
    --------
    >>> chipfire.stabilize(chipfire.grid(2, 2), {(0, 0): 4})
    {0: 0, 1: 1, 2: 1, 3: 0}
    """
    sizes = [*sizes_of("a grid", width, height, rows, columns), *zip(_WORDS, more)]
    given = [as_int(it, f"the {word}", 1) for word, it in sizes]
    as_int(math.prod(given), "the number of squares", 1, MAX_LARGE_VERTICES - 1)
    joined = [*periodic] if isinstance(periodic, Iterable) else [periodic] * len(given)
    if wrong := [it for it in joined if it not in (False, True)]:
        raise TypeError(f"a direction is periodic or not, True or False, and not {wrong[0]!r}")
    if not any(joined) and not more and lattice == "square" and isinstance(loss, int) and loss == 0:
        return _plain_grid(*given)
    if lattice not in _BESIDE or more and lattice != "square":
        raise ValueError(
            f"no lattice of {len(given)} directions is named {lattice!r}; there are {', '.join(_BESIDE)}"
        )
    if len(joined) != len(given) or len(given) < 2 + len(more):
        raise ValueError(
            f"there are {2 + len(more)} directions, and {len(joined)} are periodic or not"
        )
    _require_periodic_sizes(given, joined, lattice)
    extents = given[::-1]
    sink = math.prod(given)
    shape = (sink // given[0], given[0])
    losses = Graph(sink + 1, sink, Columns(*(array("i") for _ in range(3))), shape=shape).numbers(
        loss, 0, "lost chips"
    )
    if losses[sink]:
        raise ValueError(f"the sink loses no chips, and {losses[sink]} are said")
    if all(joined) and not any(losses):
        raise ValueError("no chip leaves a grid that is periodic on all sides: it takes a loss")
    edges = _lattice_edges(extents, joined[::-1], lattice, range(sink), losses)
    return Graph(sink + 1, sink, edges, shape=shape, from_sink=None)


def _require_periodic_sizes(sizes: Sequence[int], joined: Sequence[bool], lattice: str) -> None:
    """Refuses a periodic direction of less than 2, or of an odd size on the hexagonal lattice, where its borders do not
    fit together."""
    for size, is_joined in zip(sizes, joined):
        if is_joined and (size < 2 or size % 2 and lattice == "hexagonal"):
            least = "an even size" if lattice == "hexagonal" else "a size of 2 or more"
            raise ValueError(f"a periodic direction has {least}, and the sizes are {sizes}")


def _lattice_edges(
    extents: Sequence[int],
    joined: Sequence[bool],
    lattice: str,
    squares: Sequence[int],
    losses: Sequence[int],
) -> list[tuple[int, int, int]]:
    """The edges of the `squares` of a lattice that are vertices, by rows, and the `losses` of each vertex besides."""
    units = [tuple(int(it == place) for it in range(len(extents))) for place in range(len(extents))]
    square = [*(tuple(-it for it in unit) for unit in units), *reversed(units)]
    ways = [square, square] if lattice == "square" else [[*some] for some in _BESIDE[lattice]]
    heads = {way: _moved(extents, joined, way) for some in ways for way in some}
    edges = []
    numbers = dict(zip(squares, itertools.count()))
    for at, place in enumerate(itertools.product(*map(range, extents))):
        if at in numbers:
            vertex = numbers[at]
            beside = [numbers.get(heads[way][at]) for way in ways[sum(place) % 2]]
            edges += [(vertex, head, 1) for head in beside if head is not None]
            if lost := losses[vertex] + beside.count(None):
                edges.append((vertex, len(squares), lost))
    return edges


def _moved(extents: Sequence[int], joined: Sequence[bool], way: Sequence[int]) -> list[int]:
    """The square that lies one way from each; below 0 if there is none."""
    axes: list[list[int]] = []
    stride = 1
    for extent, is_joined, step in [*zip(extents, joined, way)][::-1]:
        places = range(step, extent + step)
        axes.insert(
            0,
            [
                stride * (it % extent) if is_joined or it in range(extent) else -_FAR
                for it in places
            ],
        )
        stride *= extent
    return [*map(sum, itertools.product(*axes))]


def grid_for(chips: int) -> Graph:
    """Returns a square grid large enough to stabilize this many chips on its middle without loss.

    Parameters
    ----------
    chips : int
        The number of chips.

    Returns
    -------
    Graph
        The grid. Its middle is vertex ``graph.sink // 2``.

    Raises
    ------
    ValueError
        The number is below 0, or the grid would be too large.

    See Also
    --------
    grid

    Notes
    -----
    By a theorem of Levine and Peres [1]_, ``pi * r ** 2`` chips stay in a circle of radius ``(1 / sqrt(2) + e) * r +
    c``, for each e above 0 and some c. Here e is 0 and c is 2. This was tried for all piles of up to 9,000 chips, and
    for some larger piles. A million chips get 801 by 801 squares, and need 729 by 729.

    None of this is proved. If a report's sink has no chip, the grid was large enough.

    References
    ----------
    .. [1] L. Levine and Y. Peres, "Strong spherical asymptotics for rotor-router aggregation and the divisible sandpile",
       Potential Analysis 30 (2009), theorem 4.1.

    Examples
    --------
    >>> grid = chipfire.grid_for(2000)
    >>> chipfire.plain(grid, {grid.sink // 2: 2000}).chips[grid.sink]
    0
    """
    half = math.isqrt(int(as_int(chips, "the number of chips") / (2 * math.pi))) + 2
    if (2 * half + 1) ** 2 >= MAX_LARGE_VERTICES:
        raise ValueError(f"a square for {chips} chips has more than {MAX_LARGE_VERTICES} vertices")
    return grid(2 * half + 1, 2 * half + 1)


def _plain_grid(width: int, height: int) -> Graph:
    """The grid of two directions, each border of which dissipates chips: the rows between first and last are alike."""
    sink = width * height
    few = width * min(height, 3)
    alike = max(height - 2, 1)
    squares = array("i", range(sink))
    columns = Columns(array("i"), array("i"), array("i"))
    edges = _lattice_edges((min(height, 3), width), (False, False), "square", range(few), [0] * few)
    for row, first, rows in ((0, 0, 1), (1, 0, alike), (2, alike - 1, 1)):

        def below(vertex: int) -> array[int]:
            """A vertex and those below it in these rows, or the sink as often."""
            start = vertex + width * first
            return (
                array("i", [sink]) * rows
                if vertex == few
                else squares[start : start + width * rows : width]
            )

        one = [edge for edge in edges if edge[0] // width == row]
        part = [array("i", [0]) * (rows * len(one)) for _ in columns]
        for place, (tail, head, mult) in enumerate(one):
            for numbers, its in zip(part, (below(tail), below(head), array("i", [mult]) * rows)):
                numbers[place :: len(one)] = its
        for column, more in zip(columns, part):
            column.extend(more)
    found = Graph(sink + 1, sink, columns, shape=(height, width), from_sink=None)
    found.answers[NO_EDGE_IS_ONE_WAY] = True
    return found


def region(mask: Iterable[Iterable[Any]], lattice: str = "square") -> Graph:
    """Returns the graph of the squares of a mask.

    Parameters
    ----------
    mask : array or iterable of rows of bool
        Which squares are vertices. The vertices are numbered row by row.
    lattice : {"square", "triangular", "hexagonal"}, optional
        The neighbours of a vertex. A square lattice has 4. A triangular one has 6: these 4, the one above to the right
        and the one below to the left. A hexagonal one has 3: left, right, and below if ``row + column`` is even, else
        above.

    Returns
    -------
    Graph
        The graph, with the sink as its last vertex. When a vertex fires, it loses a chip to the sink for each neighbour
        that it lacks.

    Raises
    ------
    ValueError
        No square is a vertex, rows have different lengths, or the region is too large.

    See Also
    --------
    grid, aztec

    Notes
    -----
    None of this is proved: Python makes the graph, and each play checks that it is valid.

    Examples
    --------
    >>> ring = chipfire.region([[1, 1, 1], [1, 0, 1], [1, 1, 1]])
    >>> ring.vertices, ring.degrees()[0]
    (9, 4)
    """
    wanted = "a mask has rows of true and false"
    found: Any = in_order(mask, wanted)
    rows = [_mask_row(row) for row in (found if isinstance(found, Iterable) else [found])]
    if lattice not in _BESIDE:
        raise ValueError(f"no lattice is named {lattice!r}; there are {', '.join(_BESIDE)}")
    width = len(rows[0]) if rows else 0
    squares = [
        width * y + x for y, row in enumerate(rows) for x, is_there in enumerate(row) if is_there
    ]
    if {*map(len, rows)} != {width} or not squares:
        raise ValueError("a mask has rows of one length, and a square that is true")
    edges = _lattice_edges((len(rows), width), (False, False), lattice, squares, [0] * len(squares))
    return Graph(
        len(squares) + 1,
        len(squares),
        edges,
        shape=(len(rows), width),
        squares=squares,
        from_sink=None,
    )


def _mask_row(row: Any) -> list[Any]:
    """A row of a mask."""
    found = [str(row)]
    if isinstance(row, Iterable) and not isinstance(row, (bytes, Set, Mapping)):
        found = [it.tolist() if hasattr(it, "tolist") else it for it in row]
    if not all(isinstance(it, (int, float)) and it == it for it in found):
        raise TypeError(f"a row of a mask has true and false, and is not {found}")
    return found


def aztec(size: int) -> Graph:
    """Returns the Aztec diamond: the squares whose corners all lie in ``|x| + |y| <= size + 1``.

    Parameters
    ----------
    size : int
        The size, 1 or more. The longest rows have ``2 * size`` squares.

    Returns
    -------
    Graph
        The graph, with the sink as its last vertex. When a square fires, it loses a chip to the sink for each side
        without a neighbour.

    Raises
    ------
    ValueError
        The size is below 1, or the graph is too large.

    See Also
    --------
    grid, region

    Notes
    -----
    None of this is proved: Python makes the graph, and each play checks that it is valid.

    Examples
    --------
    >>> chipfire.aztec(2).vertices
    13
    """
    size = as_int(size, "the size of a diamond", 1)
    off = [abs(2 * place + 1 - 2 * size) for place in range(2 * size)]
    return region([[row + column <= 2 * size for column in off] for row in off])
