"""Graphs whose vertices have names, from edges between names."""

from __future__ import annotations

import math
from array import array
from collections.abc import Hashable, Iterable, Mapping
from decimal import Decimal
from fractions import Fraction
from typing import Any

from chipfire.graphs.edges import Columns, MAX_END
from chipfire.utils import as_int, numpy_of


def parts_of_named(
    names: Iterable[Hashable],
    sink: Any,
    edges: Iterable[tuple[Any, ...]],
    is_directed: bool,
    loops: str | None = None,
    scale: int = 1,
) -> dict[str, Any]:
    """What `Graph` takes for a graph of named vertices. Edges out of the sink are in the Laplacian alone, since it never
    fires."""
    if loops not in (None, "drop", "sage"):
        raise ValueError(
            f"loops are left out ('drop') or played as by SageMath ('sage'), and not {loops!r}"
        )
    names, numbers, sink_number = _numbered(list(names), sink)
    edges = list(edges)
    if not is_directed:
        edges += [(head, tail, mult) for tail, head, mult in edges]
    rows = _numbered_rows(edges, numbers, as_int(scale, "the scale of weights", 1))
    held = [0] * len(names)
    kept = []
    back = []
    for tail, head, mult in rows:
        if tail == head and loops == "sage":
            held[tail] += mult
        if tail != sink_number and not (tail == head and loops):
            kept.append((tail, head, mult))
        if tail == sink_number and tail != head:
            back.append((head, mult))
    return {
        "vertices": len(names),
        "sink": sink_number,
        "edges": kept,
        "names": names,
        "from_sink": back,
        "loops": held,
    }


def parts_of_arrays(
    source: Any, target: Any, weight: Any, sink: Any, is_directed: bool
) -> dict[str, Any] | None:
    """The same for edges whose ends have whole numbers as names, in arrays of NumPy; each sends one chip if there are
    no weights. None if there is a loop, or several sinks, or if some value has to be read by itself.
    """
    numpy = numpy_of(source)
    weight = numpy.ones(len(source), "i") if numpy and weight is None else weight
    columns = (source, target, weight)
    sink = sink.tolist() if hasattr(sink, "tolist") else sink
    if not all(map(_is_whole_column, columns)) or type(sink) is not int:
        return None
    if len({*map(len, columns)}) > 1 or (source == target).any():
        return None
    names = numpy.unique(numpy.concatenate((source, target)))
    # (numbers of both signs and others from 0 on are floats together)
    if names.dtype.kind == "f" or not int(names[0]) <= sink <= int(names[-1]):
        return None
    at = int(numpy.searchsorted(names, names.dtype.type(sink)))
    if names[at] != sink or not 1 <= weight.min() <= weight.max() <= MAX_END:
        return None
    tails, heads = (numpy.searchsorted(names, it.astype(names.dtype)) for it in (source, target))
    if not is_directed:
        tails, heads = numpy.concatenate((tails, heads)), numpy.concatenate((heads, tails))
        weight = numpy.concatenate((weight, weight))
    back = tails == at
    kept = [array("i", it[~back].astype("i").tobytes()) for it in (tails, heads, weight)]
    return {
        "vertices": len(names),
        "sink": at,
        "edges": Columns(*kept),
        "names": names.tolist(),
        "from_sink": [*zip(heads[back].tolist(), weight[back].tolist())],
    }


def _is_whole_column(column: Any) -> bool:
    """Whether this is an array of NumPy with whole numbers in one direction, and has some."""
    is_one = numpy_of(column) and column.ndim == 1 and len(column) > 0
    return bool(is_one) and column.dtype.kind in "iu"


def _numbered(names: list[Any], sink: Any) -> tuple[list[Any], dict[Any, int], int]:
    """The names of the vertices, of which several sinks become one, the last; their numbers; and the sink's."""
    sink = sink.tolist() if hasattr(sink, "tolist") else sink
    is_one = not isinstance(sink, (list, set, frozenset))
    given = [sink] if is_one else [*sink]
    if not all(isinstance(it, Hashable) for it in given):
        raise TypeError(
            f"a sink is the name of a vertex, or a list or set of them, and no {type(sink).__name__}"
        )
    sinks = dict.fromkeys(given)
    known = {*names}
    for name in sinks:
        if name not in known:
            raise KeyError(f"the graph has no vertex {name!r}")
    if not sinks:
        raise ValueError("the list of sinks is empty")
    if not is_one:
        names = [*(name for name in names if name not in sinks), "sink"]
        sink = "sink"
        if "sink" in names[:-1]:
            raise ValueError(
                "a vertex that is none of the sinks is called 'sink', as the one that they become"
            )
    numbers = {name: vertex for vertex, name in enumerate(names)}
    return names, {**numbers, **dict.fromkeys(sinks, numbers[sink])}, numbers[sink]


def _numbered_rows(
    edges: Iterable[tuple[Any, ...]], numbers: Mapping[Any, int], scale: int
) -> list[tuple[int, int, int]]:
    """Edges by the numbers of their ends, with their weights times the scale, which are whole numbers above 0."""
    of = "the multiplicity" if scale == 1 else f"{scale} times the weight"
    return [
        (
            numbers[tail],
            numbers[head],
            as_int(_scaled(mult, scale), f"{of} of the edge from {tail!r} to {head!r}", 1),
        )
        for tail, head, mult in edges
    ]


def _scaled(weight: Any, scale: int) -> Any:
    """`scale` times a weight, as an int if that is whole. A float stands for the whole number over `scale` to which it
    is the nearest float, if there is one: 0.1 times 10 is 1."""
    if scale == 1:
        return weight
    many = weight * scale
    if isinstance(weight, float) and math.isfinite(many) and round(many) / scale == weight:
        return round(many)
    if isinstance(weight, (Decimal, Fraction)) and many == int(many):
        return int(many)
    return many
