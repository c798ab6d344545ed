"""Pictures of chips and of counts: files, notebooks, NumPy and Matplotlib.

A picture has a square for each vertex, placed by the graph's shape, or in the order of the numbers, `columns` in a row.
A sink that is the last vertex has no square; another one has a colour of its own, as all outside of a region has too.
"""

from __future__ import annotations

import base64
import html
import itertools
import math
import os
import sys
from collections.abc import Callable, Iterable, Mapping, Sequence
from dataclasses import dataclass
from typing import Any, TYPE_CHECKING, Union

from chipfire.pictures import raster as rasters
from chipfire.utils import as_array, as_int, AsArray, FileName, import_optional, write_text

if TYPE_CHECKING:
    from chipfire.graphs.graph import Graph


def _blend(corners: Sequence[str], count: int) -> tuple[str, ...]:
    """`count` colours, from the first of these to the last."""
    found = []
    for step in range(count):
        place, share = divmod(step * (len(corners) - 1), count - 1)
        low, high = (
            bytes.fromhex(corners[min(it, len(corners) - 1)][1:]) for it in (place, place + 1)
        )
        found.append(
            "#"
            + bytes(
                (a * (count - 1 - share) + b * share) // (count - 1) for a, b in zip(low, high)
            ).hex()
        )
    return tuple(found)


#: Colours of 0, 1, 2 .. chips; the last one is that of all larger numbers. On paper each is darker than the one before
#: it, but for that of four or more, which no grid has at its end. The 255 of "viridis" are for what is spread.
PALETTES: dict[str, Sequence[str]] = {
    "colours": ("#ffffff", "#f0c83c", "#286ebe", "#14141e", "#ec7050"),
    "greys": ("#ffffff", "#c8c8c8", "#8c8c8c", "#505050", "#000000"),
    "viridis": _blend(
        "#440154 #482878 #3e4989 #31688e #26828e #1f9e89 #35b779 #6ece58 #b5de2b #fde725".split(),
        255,
    ),
}

SINK_COLOUR = "#a5d8c2"
SCALE = 8

#: In notebooks, a picture wider or higher than the first, in squares, is shown as points, at most the second wide.
_MOST_SQUARES = 100
_MOST_POINTS = 800

#: The name of a palette, or its colours, each `#rrggbb`.
Palette = Union[str, Sequence[str]]

#: Where vertices stand, by their names: (to the right, down).
Positions = Mapping[Any, tuple[float, float]]

_SPREADS: dict[str, Callable[[int], float]] = {"linear": float, "log": math.log1p}
_SIGNS = "0123456789abcdefghijklmnopqrstuvwxyz"


@dataclass(frozen=True, repr=False)
class Picture:
    """Squares in rows, each with the number of its colour.

    Parameters
    ----------
    rows : sequence of sequence of int
        The squares.
    palette : tuple of str
        The colours, each ``#rrggbb``. The last one is that of the sink.
    title : str, optional
        What the picture shows, in words.
    most : int, optional
        The number of the last colour but the sink's, if the colours are spread from 0 to it.

    See Also
    --------
    frames, PALETTES

    Notes
    -----
    None of this is proved.

    Examples
    --------
    >>> chipfire.plain(chipfire.grid(3, 3), {4: 9}).picture().save("heap.png")
    """

    rows: Sequence[Sequence[int]]
    palette: tuple[str, ...]
    title: str = ""
    most: int | None = None

    def save(self, file: FileName, scale: int = SCALE) -> None:
        """Writes the picture with `scale` points for a square's side: `.svg`, `.png`, or what Pillow knows."""
        if os.fspath(file).lower().endswith(".svg"):
            write_text(file, self.svg(scale))
        else:
            rasters.write(file, [self.points(scale)], self.colours())

    def points(self, scale: int) -> list[bytes]:
        """The rows of points, with `scale` for a square's side."""
        scale = as_int(scale, "the scale", 1)
        lines = []
        for row in self.rows:
            line = bytearray(scale * len(row))
            for place in range(scale):
                line[place::scale] = bytes(row)
            lines += [bytes(line)] * scale
        return lines

    def colours(self) -> bytes:
        """The palette as bytes of red, green and blue."""
        return bytes.fromhex("".join(colour[1:] for colour in self.palette))

    def svg(self, scale: int = SCALE) -> str:
        """The text of an SVG file, which can be made as large as one likes."""
        width = len(self.rows[0])
        height = len(self.rows)
        scale = as_int(scale, "the scale", 1)
        size = f'viewBox="0 0 {width} {height}" width="{width * scale}" height="{height * scale}"'
        paths = [""] * len(self.palette)
        for y, row in enumerate(self.rows):
            x = 0
            for number, squares in itertools.groupby(row):
                length = len(list(squares))
                paths[number] += f"M{x} {y}h{length}v1h-{length}z"
                x += length
        shapes = (
            f'<path fill="{colour}" d="{path}"/>'
            for colour, path in zip(self.palette, paths)
            if path
        )
        head = f'<svg xmlns="http://www.w3.org/2000/svg" {size} shape-rendering="crispEdges" role="img">'
        return "\n".join([head, f"<title>{html.escape(self.title)}</title>", *shapes, "</svg>\n"])

    def labels(self) -> list[str]:
        """What each colour means; of spread ones, the two ends."""
        last = len(self.palette) - 2
        if self.most is not None:
            return ["0", *[""] * (last - 1), f"{self.most:,}", "the sink"]
        return [*map(str, range(last)), f"{last} or more", "the sink"]

    def legend(self, used: Iterable[int] | None = None) -> str:
        """The meaning of the colours that are used, or that stand in the picture, as HTML."""
        labels = self.labels()
        box = '<span style="display:inline-block;width:1em;height:1em;border:1px solid #555;background:{}"></span> {}'
        shown = sorted({*(itertools.chain(*self.rows) if used is None else used)})
        return "&ensp;".join(box.format(self.palette[it], labels[it]) for it in shown if labels[it])

    def __str__(self) -> str:
        """The picture as text: the number of each square's colour, and a gap for the sink."""
        count = len(self.palette) - 1
        # (colours share signs if there are more of them)
        most = max(count, len(_SIGNS))
        signs = [_SIGNS[number * len(_SIGNS) // most] for number in range(count)]
        signs.append(" ")
        return "\n".join("".join(signs[number] for number in row) for row in self.rows)

    __repr__ = __str__

    def data(self) -> str:
        """The picture as a data URL of a PNG file, with a point for each square."""
        return f"data:image/png;base64,{base64.b64encode(rasters.png(self.points(1), self.colours())).decode()}"

    def _repr_html_(self) -> str:
        width = len(self.rows[0])
        title = html.escape(self.title)
        longest = max(width, len(self.rows))
        if longest <= _MOST_SQUARES:
            drawn = self.svg()
        else:
            size = min(max(1, min(SCALE, _MOST_POINTS // longest)) * width, _MOST_POINTS)
            drawn = f'<img alt="{title}" src="{self.data()}" width="{size}" style="image-rendering:pixelated">'
        return f"<figure>{drawn}<figcaption>{title}<br>{self.legend()}</figcaption></figure>"


def _spread(counts: Iterable[int], scale: str, most: int, last: int) -> list[int]:
    """The colours of counts, from 0 to the last one, which the most has."""
    spread = _SPREADS[scale]
    top = spread(most) or 1
    return [min(int(last * spread(max(count, 0)) / top), last) for count in counts]


def _marks(picture: Picture, scale: str) -> dict[int, str]:
    """What stands beside a bar of a picture's colours, by their numbers; of spread ones also at counts between the two
    ends."""
    marks = dict(enumerate(picture.labels()[:-1]))
    most = picture.most
    if most is not None:
        between = [most * step // 4 for step in (1, 2, 3)]
        if scale == "log":
            between = [10**power for power in range(13) if 2 * 10**power <= most]
        for count in between:
            number = _spread([count], scale, most, len(picture.palette) - 2)[0]
            marks[number] = f"{count:,}"
    return {number: label for number, label in marks.items() if label}


def colours_of(palette: Palette) -> tuple[str, ...]:
    """The colours of a palette, by its name or as they are given, and that of the sink after them."""
    if isinstance(palette, str):
        if palette not in PALETTES:
            raise ValueError(f"no palette is named {palette!r}; there are {', '.join(PALETTES)}")
        palette = PALETTES[palette]
    for colour in palette:
        if (
            len(colour) != 7
            or colour[0] != "#"
            or not set(colour[1:].lower()) <= set("0123456789abcdef")
        ):
            raise ValueError(f"a colour is #rrggbb, and not {colour!r}")
    if not 2 <= len(palette) <= 255:
        raise ValueError(f"a palette has 2 to 255 colours, and not {len(palette)}")
    return (*palette, SINK_COLOUR)


def in_rows(
    graph: Graph | None, values: Sequence[int], columns: int | None, empty: int
) -> list[Sequence[int]]:
    """Values of all vertices but a last sink in rows: of `columns`, or of the graph's shape, with what is `empty`."""
    if columns is not None:
        columns = as_int(columns, "the number of columns", 1)
        is_last = len(values) % columns == 1 if graph is None else graph.sink == len(values) - 1
        squares = len(values) - is_last
        if not squares or squares % columns:
            raise ValueError(f"{squares} squares do not make rows of {columns}")
    elif graph is None or graph.shape is None:
        unknown = "the report does not know its graph" if graph is None else "the graph is no grid"
        raise ValueError(f"{unknown}: say how many columns the picture has")
    else:
        squares = math.prod(graph.shape)
        columns = graph.shape[1]
        if not isinstance(graph.squares, range):
            known = dict(zip(graph.squares, values))
            values = [known.get(square, empty) for square in range(squares)]
    return [values[start : start + columns] for start in range(0, squares, columns)]


def placed(
    graph: Graph, values: Sequence[int], positions: Positions, empty: int
) -> list[Sequence[int]]:
    """Values of the vertices that have positions, (to the right, down) by names, in rows of squares round them."""
    found: dict[tuple[int, int], Any] = {}
    for name, (right, down) in positions.items():
        other = found.setdefault((round(down), round(right)), name)
        if other != name:
            raise ValueError(
                f"vertices {other!r} and {name!r} stand on one square: spread the positions"
            )
    if not found:
        raise ValueError("there are no positions, and so no squares")
    numbers = {square: values[graph.number(name)] for square, name in found.items()}
    ys, xs = (range(min(side), max(side) + 1) for side in zip(*found))
    return [[numbers.get((y, x), empty) for x in xs] for y in ys]


class Drawn(AsArray):
    """What reports and configurations have besides: pictures of their chips, and of how often vertices fired."""

    graph: Graph | None

    def _values(self, of: str) -> Sequence[int]:
        raise NotImplementedError

    def _title(self, of: str) -> str:
        raise NotImplementedError

    def picture(
        self,
        columns: int | None = None,
        palette: Palette | None = None,
        *,
        of: str = "chips",
        scale: str | None = None,
        positions: Positions | None = None,
    ) -> Picture:
        """The picture of the chips, or `of` the "odometer": how often each vertex fired. Tested, not proved.

        `columns` is the number of squares in a row; a graph with a shape does not need it. `positions` instead gives
        the places of vertices by names, as (to the right, down); each vertex becomes a square. `palette` is the name of
        a palette, "colours", "greys" or "viridis", or a sequence of colours `#rrggbb`: one each for 0, 1, 2 .. chips,
        and the last for all larger numbers. With a `scale`, "linear" (for an odometer) or "log", the colours are spread
        from 0 to the largest number.
        """
        values = self._values(of)
        sink = None if self.graph is None else self.graph.sink
        scale = "linear" if scale is None and of == "odometer" else scale
        colours = colours_of(palette or ("viridis" if scale else "colours"))
        last = len(colours) - 2
        most = None
        numbers = [max(0, min(count, last)) for count in values]
        if scale:
            if scale not in _SPREADS:
                raise ValueError(f"a scale is 'linear' or 'log', and not {scale!r}")
            most = max((count for vertex, count in enumerate(values) if vertex != sink), default=0)
            numbers = _spread(values, scale, most, last)
        if sink is not None:
            numbers[sink] = last + 1
        if positions is None:
            rows = in_rows(self.graph, numbers, columns, last + 1)
        elif self.graph is None:
            raise ValueError("the report does not know its graph, and so no positions")
        else:
            rows = placed(self.graph, numbers, positions, last + 1)
        return Picture(tuple(map(bytes, rows)), colours, self._title(of), most)

    def image(
        self,
        file: FileName,
        columns: int | None = None,
        palette: Palette | None = None,
        scale: int | str = SCALE,
        *,
        of: str = "chips",
        positions: Positions | None = None,
        points: int = SCALE,
    ) -> None:
        """Writes what `picture` makes: `.png`, `.svg`, or with Pillow any other form. A square's side has as many
        points as `scale`, or as `points` if `scale` is "linear" or "log"."""
        spread, points = (scale, points) if isinstance(scale, str) else (None, scale)
        self.picture(columns, palette, of=of, scale=spread, positions=positions).save(file, points)

    def show(
        self, columns: int | None = None, palette: Palette | None = None, *, of: str = "chips"
    ) -> None:
        """Shows the picture in a notebook; elsewhere prints it as text, with the number of chips on each square."""
        picture = self.picture(columns, palette, of=of)
        notebook = sys.modules.get("IPython")
        if notebook is not None and notebook.get_ipython() is not None:
            notebook.display.display(picture)
        else:
            print(picture)

    def array(self, of: str = "chips", columns: int | None = None) -> Any:
        """The chips, or the "odometer", as an array of NumPy, by rows of the picture; 0 on the squares without any."""
        return as_array(self._in_rows(of, columns))

    def _for_array(self) -> Sequence[Any]:
        return self._in_rows("chips", None)

    def _in_rows(self, of: str, columns: int | None) -> list[Sequence[int]]:
        values = list(self._values(of))
        if self.graph is not None:
            values[self.graph.sink] = 0
        return in_rows(self.graph, values, columns, 0)

    def plot(
        self,
        columns: int | None = None,
        palette: Palette | None = None,
        axes: Any = None,
        *,
        of: str = "chips",
        scale: str | None = None,
        positions: Positions | None = None,
        bar: bool = False,
    ) -> Any:
        """Draws the picture with Matplotlib into the given axes or into new ones, and returns them. If `bar` is true, a
        colour bar stands beside the picture. All else is as in `picture`."""
        colors, pyplot = (
            import_optional(f"matplotlib.{it}", "a plot is one of Matplotlib")
            for it in ("colors", "pyplot")
        )
        picture = self.picture(columns, palette, of=of, scale=scale, positions=positions)
        axes = pyplot.subplots()[1] if axes is None else axes
        cmap = colors.ListedColormap(picture.palette)
        last = len(picture.palette) - 2
        image = axes.imshow(
            [list(row) for row in picture.rows], cmap=cmap, vmin=-0.5, vmax=last + 1.5
        )
        if bar:
            marks = _marks(picture, scale or "linear")
            drawn = axes.figure.colorbar(image, ax=axes, ticks=[*marks])
            drawn.ax.set_yticklabels(marks.values())
            drawn.ax.set_ylim(-0.5, last + 0.5)
        axes.set_title(picture.title)
        axes.set_axis_off()
        return axes

    def _repr_html_(self) -> str | None:
        """What a notebook shows: the picture if the graph has a shape, and else the text."""
        return (
            None if self.graph is None or self.graph.shape is None else self.picture()._repr_html_()
        )
