"""Where the vertices of a graph stand in a drawing. The same graph always gets the same places."""

from __future__ import annotations

import cmath
import math
from collections.abc import Iterable, Mapping, Sequence
from dataclasses import dataclass
from typing import Any

from chipfire.graphs.graph import Graph
from chipfire.graphs.lattices import grid

Point = tuple[float, float]

#: Up to this number of vertices the places come from distances; more are put in rows.
MOST_BY_DISTANCE = 100


@dataclass(frozen=True)
class Places:
    """Where each vertex stands, and the root; a step to the right is 1 in the first number, one down in the second.

    frame  the corners, upper left and lower right, of a frame that stands for the sink; None if the sink has a place
    """

    vertices: Sequence[Point]
    root: Point
    frame: tuple[Point, Point] | None = None


def columns_of(graph: Graph) -> int | None:
    """How many columns a graph has that is a grid as `chipfire.grid` makes it; None if it is none."""
    height, width = graph.shape or (0, 0)
    return width if width and graph.is_like(grid(width, height)) else None


def places_of(
    graph: Graph, started: Iterable[int], given: Mapping[Any, Point] | None = None
) -> Places:
    """The places of a graph whose root sends chips to the vertices `started`: given by names, of a grid, or found."""
    if given is not None:
        for name in graph.names:
            if name not in given or not all(map(math.isfinite, given[name])):
                raise ValueError(
                    f"the position of vertex {name!r} is no point: {given.get(name)!r}"
                )
        return _below_root([(float(given[name][0]), float(given[name][1])) for name in graph.names])
    columns = columns_of(graph)
    # The frame round the squares stands for the sink, since it takes what falls over the border.
    if columns:
        places = _in_rows(graph.vertices - 1, columns)
        rows = (graph.vertices - 1) // columns
        places.append(((columns - 1) / 2, rows - 0.2))
        return Places(
            places, ((columns - 1) / 2, -1.45), ((-0.8, -0.8), (columns - 0.2, rows - 0.2))
        )
    if graph.vertices > MOST_BY_DISTANCE:
        return _below_root(_in_rows(graph.vertices, math.isqrt(graph.vertices - 1) + 1))
    return _from_distances(graph, sorted(started))


def _below_root(places: Sequence[Point]) -> Places:
    """These places, and the root over their middle, as far off as they are from each other."""
    across, down = zip(*places)
    width = max(across) - min(across)
    height = max(down) - min(down)
    apart = max(width, height) / math.sqrt(len(places)) or 1.0
    return Places(places, (min(across) + width / 2, min(down) - apart))


def _in_rows(count: int, columns: int) -> list[Point]:
    return [(float(place % columns), float(place // columns)) for place in range(count)]


def _from_distances(graph: Graph, started: Sequence[int]) -> Places:
    """Places as far from each other as the walks between them are long, the sink below those with the root's chips."""
    points = _stressed(_distances(graph))
    down = points[graph.sink]
    away = down - (sum(points[vertex] for vertex in started) / len(started) if started else down)
    # The turn puts the sink right below the vertices that get chips.
    turn = 1j * abs(away) / away if abs(away) > 1e-9 else 1
    vertices = [(round((point * turn).real, 3), round((point * turn).imag, 3)) for point in points]
    across = [vertices[vertex][0] for vertex in started or [graph.sink]]
    root = (round(sum(across) / len(across), 3), min(down for _, down in vertices) - 1)
    widths, heights = zip(*vertices, root)
    # A drawing that is so high is laid on its side.
    if max(heights) - min(heights) > 2 * (max(widths) - min(widths)) + 1:
        vertices = [(down, across) for across, down in vertices]
        root = root[::-1]
    return Places(vertices, root)


def _distances(graph: Graph) -> list[list[int]]:
    """How many edges, in either direction, lie between any two vertices."""
    beside: list[set[int]] = [set() for _ in range(graph.vertices)]
    for tail, head, _ in graph.edges:
        beside[tail].add(head)
        beside[head].add(tail)
    rows = []
    for start in range(graph.vertices):
        found = {start: 0}
        waiting = [start]
        for vertex in waiting:
            new = beside[vertex] - found.keys()
            found |= dict.fromkeys(new, found[vertex] + 1)
            waiting += new
        rows.append([found[vertex] for vertex in range(graph.vertices)])
    return rows


def _stressed(distances: Sequence[Sequence[int]]) -> list[complex]:
    """Points whose distances come near to those that are wanted, near ones above all: stress majorization."""
    size = len(distances)
    # At first the points lie on a circle.
    points = [cmath.rect(size / 6, 2 * math.pi * vertex / size) for vertex in range(size)]
    for _ in range(min(2000, 1_000_000 // size**2 + 1) if size > 1 else 0):
        for vertex, wanted in enumerate(distances):
            total = 0j
            weights = 0.0
            for other, distance in enumerate(wanted):
                if distance:
                    away = points[vertex] - points[other]
                    weight = 1 / distance**2
                    total += weight * (points[other] + distance * away / (abs(away) or 1))
                    weights += weight
            points[vertex] = total / weights
    return points
