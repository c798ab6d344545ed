"""Plays as animations: positions at growing limits, or by chips that are dropped, as a page with a slider or a GIF."""

from __future__ import annotations

import functools
import html
import json
import os
import string
from collections.abc import Hashable, Iterable
from dataclasses import dataclass, field, replace

from chipfire.backend.commands import AnyGraph, AnyProgram, known_chips, known_graph, plain
from chipfire.backend.interrupts import on_threads
from chipfire.backend.report import Report
from chipfire.configurations.configuration import Chips
from chipfire.pictures import raster as rasters
from chipfire.pictures.picture import Palette, Picture, SCALE
from chipfire.utils import as_int, FileName, package_text, PAGE_POLICY, processors, write_text

#: How many limits there are, if none are given.
COUNT = 24


@dataclass(frozen=True)
class Frames:
    """Pictures of a play at growing limits, or of growing numbers of chips.

    Attributes
    ----------
    limits : tuple of int
        For each picture how often each vertex may fire, or how many chips were dropped.
    reports : tuple of Report
        The report of each picture.
    pictures : tuple of Picture
        The pictures of these reports.
    unit : str
        What the limits are called below a picture.

    See Also
    --------
    frames, frames_by_chips

    Notes
    -----
    Proved: the position in each picture. Not proved: that the pictures show it.

    Examples
    --------
    >>> chipfire.frames(chipfire.grid(3, 3), {4: 9}, [0, 1]).save("play.html")
    """

    limits: tuple[int, ...]
    reports: tuple[Report, ...] = field(repr=False)
    pictures: tuple[Picture, ...] = field(repr=False)
    unit: str = "Limit"

    def __post_init__(self) -> None:
        if not self.limits:
            raise ValueError("there are no pictures to show")

    def __len__(self) -> int:
        return len(self.limits)

    def save(self, file: FileName, scale: int = SCALE, seconds: float = 0.25) -> None:
        """Writes the animation: a page with a slider as `.html`, each picture for `seconds` as `.gif` (by Pillow)."""
        if os.fspath(file).lower().endswith(".html"):
            write_text(file, self.page())
        else:
            points = [picture.points(scale) for picture in self.pictures]
            rasters.write(file, points, self.pictures[0].colours(), round(1000 * seconds))

    def captions(self) -> list[str]:
        """What stands under each picture."""
        return [
            f"{self.unit} {limit}: {picture.title}"
            for limit, picture in zip(self.limits, self.pictures)
        ]

    def page(self) -> str:
        """The text of a page with a slider: one file that loads nothing."""
        shown = [
            {"source": it.data(), "caption": caption}
            for it, caption in zip(self.pictures, self.captions())
        ]
        first = self.pictures[0]
        used = {it for picture in self.pictures for row in picture.rows for it in {*row}}
        return string.Template(package_text("web", "animation.html")).substitute(
            frames=json.dumps(shown).replace("<", "\\u003c"),
            last=len(self) - 1,
            source=shown[0]["source"],
            caption=html.escape(shown[0]["caption"]),
            columns=len(first.rows[0]),
            rows=len(first.rows),
            legend=first.legend(used),
            policy=PAGE_POLICY,
        )

    def _repr_html_(self) -> str:
        return f'<iframe width="800" height="700" style="border:0" srcdoc="{html.escape(self.page())}"></iframe>'


def frames(
    graph: AnyGraph,
    chips: Chips,
    limits: Iterable[int] | None = None,
    *,
    columns: int | None = None,
    palette: Palette | None = None,
    program: AnyProgram = None,
) -> Frames:
    """Returns pictures of a play at growing limits.

    Parameters
    ----------
    graph : Graph or path
        The graph, or the name of its file.
    chips : Chips
        The chips at the start, in any form that `Graph.chips` takes, or the name of a chips file.
    limits : iterable of int, optional
        How often each vertex may fire at most, for each picture. By default up to 24 limits are spread evenly from 0
        to the end of the play.
    columns : int, optional
        How many vertices are in a row of the pictures, for a graph without a shape.
    palette : str or sequence of str, optional
        The colours, as in `Report.picture`.
    program : path, optional
        The program to run. By default, the program that the package finds.

    Returns
    -------
    Frames
        The pictures, and the report at each limit.

    Raises
    ------
    ValueError
        The graph or the chips are refused, by the package or by the program (`Fault`).
    KeyError
        No vertex has a given name.

    See Also
    --------
    frames_by_chips, Frames

    Notes
    -----
    The picture at each limit comes from a separate play.

    Proved: the position at each limit, which no order of the firings changes. Not proved: that the pictures show it.

    Examples
    --------
    >>> chipfire.frames(chipfire.grid(3, 3), {4: 9}, [0, 1, 2]).limits
    (0, 1, 2)
    """
    graph = known_graph(graph, program)
    known = dict[int, Report]()
    chips = known_chips(graph, chips, program)
    if limits is None:
        last = plain(graph, chips, program=program)
        known = {max(last.fired): last}
        most = max(last.fired)
        limits = sorted({most * step // (COUNT - 1) for step in range(COUNT)})
    limits = tuple(limits)
    # (side by side, the plays of large graphs would take too much memory)
    threads = 1 if graph.vertices > 200_000 else processors()

    def play(limit: int) -> Report:
        return known.get(limit) or plain(graph, chips, limit=limit, program=program)

    reports = tuple(on_threads([functools.partial(play, it) for it in limits], threads))
    return Frames(limits, reports, tuple(report.picture(columns, palette) for report in reports))


def frames_by_chips(
    graph: AnyGraph,
    vertex: Hashable,
    counts: Iterable[int],
    *,
    columns: int | None = None,
    palette: Palette | None = None,
    program: AnyProgram = None,
) -> Frames:
    """Returns pictures of growing numbers of chips on one vertex, each stabilized.

    Parameters
    ----------
    graph : Graph or path
        The graph, or the name of its file.
    vertex : hashable
        The name of the vertex that gets the chips.
    counts : iterable of int
        The numbers of chips, growing.
    columns : int, optional
        How many vertices are in a row of the pictures, for a graph without a shape.
    palette : str or sequence of str, optional
        The colours, as in `Report.picture`.
    program : path, optional
        The program to run. By default, the program that the package finds.

    Returns
    -------
    Frames
        A picture for each number of chips.

    Raises
    ------
    ValueError
        The graph or the chips are refused, by the package or by the program (`Fault`).
    KeyError
        No vertex has a given name.

    See Also
    --------
    frames

    Notes
    -----
    Proved: each position, to which all orders of drops and firings lead. Not proved: that the pictures show it.

    Examples
    --------
    >>> found = chipfire.frames_by_chips(chipfire.path(1), 0, [1, 2])
    >>> [it.configuration for it in found.reports]
    [{0: 1}, {0: 0}]
    """
    graph = known_graph(graph, program)
    counts = tuple(counts)
    reports = []
    held = 0
    at = graph.number(vertex)
    chips = [0] * graph.vertices
    total = (0,) * graph.vertices
    for count in counts:
        chips[at] += as_int(count, "the number of chips", held) - held
        reports.append(replace(plain(graph, chips, program=program), prior=total))
        chips = list(reports[-1].chips)
        total = reports[-1].total
        held = count
    return Frames(
        counts,
        tuple(reports),
        tuple(report.picture(columns, palette) for report in reports),
        "Chips",
    )
