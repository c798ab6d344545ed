"""Edges in the forms in which they come: rows, columns, and views of NetworkX."""

from __future__ import annotations

from array import array
from collections.abc import Hashable, Iterable, Mapping, Sequence, Set
from typing import Any, NamedTuple

from chipfire.utils import (
    as_ints,
    in_column,
    in_order,
    is_of_networkx,
    numpy_of,
    recoded,
    sorted_if_possible,
)

#: The greatest end of an edge, and the greatest multiplicity, that a graph stores; less can be played on.
MAX_END = 2**31 - 1


class Columns(NamedTuple):
    """Edges by columns: their tails, their heads, and how many chips each sends."""

    tails: array[int]
    heads: array[int]
    mults: array[int]


def edge_rows(edges: Iterable[Any], is_directed: bool) -> list[tuple[Any, ...]]:
    """Edges (tail, head), (tail, head, mult) or (tail, head, attributes), as those of NetworkX are, all with their
    multiplicity. A row that has no order is an edge only if it leads both ways."""
    rows: list[tuple[Any, ...]] = []
    for edge, row in enumerate(_given_rows(edges, is_directed)):
        fields = _fields_of(row, is_directed)
        if len(fields) not in (2, 3) or any(isinstance(it, (list, set)) for it in fields):
            raise ValueError(f"edge {edge} is neither (tail, head) nor (tail, head, mult): {row!r}")
        tail, head, *rest = fields
        mult = rest[0] if rest else 1
        if isinstance(mult, Mapping):
            mult = mult.get("weight", 1)
        rows.append((tail, head, mult))
    return rows


def _fields_of(row: Any, is_directed: bool) -> tuple[Any, ...]:
    """What stands in the row of an edge; nothing, if it is no row."""
    if not isinstance(row, Iterable) or isinstance(row, (str, bytes, Mapping)):
        return ()
    if isinstance(row, Set) and (is_directed or len(row) > 2):
        return ()
    return tuple(row.tolist() if hasattr(row, "tolist") else row)


def _given_rows(edges: Any, is_directed: bool) -> Iterable[Any]:
    """The rows of edges. A view of NetworkX gives its rows without the keys of a multigraph, which are no numbers of
    chips. If edges lead one way, a view of an undirected graph is refused."""
    kind = type(edges).__name__
    if is_of_networkx(edges) and kind.endswith(("EdgeView", "EdgeDataView")):
        if is_directed and not kind.startswith(("Out", "In")):
            raise TypeError(
                f"edges lead one way, and those of this {kind} lead both ways: see Graph.undirected"
            )
        if kind.endswith("EdgeView"):
            return list(edges(data=False))
        # (a row is tail, head, key and data then, else tail, head and data)
        has_keys = getattr(edges, "keys", False) is True
        start = 3 if has_keys else 2
        return [(*row[:2], *row[start:]) for row in edges]
    try:
        found = in_order(edges, "edges are rows (tail, head, mult)")
    except TypeError:
        found = None
    if not isinstance(found, Iterable):
        hint = ""
        if is_of_networkx(edges):
            hint = ": see from_networkx"
        elif hasattr(edges, "iloc"):
            hint = ": see from_edges"
        raise TypeError(f"edges are rows (tail, head, mult), and this is a {kind}{hint}")
    if hasattr(edges, "toarray"):
        raise TypeError(f"edges are rows (tail, head, mult), and this is a {kind}, as of a matrix")
    return found


def edge_columns(edges: Iterable[Any]) -> Columns:
    """Rows (tail, head) or (tail, head, mult) by columns."""
    found = _columns_of_array(edges)
    if found is not None:
        return found
    rows = edge_rows(edges, True)

    def column(place: int, what: str) -> array[int]:
        values = [row[place] for row in rows]
        numbers = as_ints(values, lambda edge: f"the {what} of edge {edge}", 0, MAX_END)
        return array("i", numbers)

    return Columns(column(0, "tail"), column(1, "head"), column(2, "multiplicity"))


def _columns_of_array(edges: Any) -> Columns | None:
    """The columns of edges that are rows of an array of NumPy, whole numbers from 0 on; None if they are others."""
    if not numpy_of(edges) or edges.ndim != 2 or edges.shape[1] not in (2, 3):
        return None
    found = [in_column(edges[:, place], 0, MAX_END) for place in range(edges.shape[1])]
    columns = [recoded(it, "i") for it in found if it is not None]
    if len(columns) < len(found):
        return None
    ones = array("i", [1]) * len(edges)
    return Columns(*[*columns, ones][:3])


def names_of_ends(rows: Iterable[Sequence[Any]]) -> list[Any]:
    """The names of the ends of edges."""
    try:
        names = sorted_if_possible(dict.fromkeys(name for row in rows for name in row[:2]))
    except TypeError:
        wrong = next(name for row in rows for name in row[:2] if not isinstance(name, Hashable))
        raise TypeError(f"an end of an edge is no name: {wrong!r}") from None
    if lacking := [name for name in names if repr(name) in ("None", "nan", "NaT", "<NA>")]:
        raise ValueError(f"an edge of the table lacks an end, which is {lacking[0]!r} there")
    return names
