"""Reports: how a play stands at its end."""

from __future__ import annotations

import json
import operator
from collections.abc import Sequence
from dataclasses import dataclass

from chipfire.configurations.configuration import Configuration
from chipfire.graphs.graph import Graph
from chipfire.pictures.picture import Drawn
from chipfire.utils import FileName, VertexNumber, with_unit, write_text

_KEY = operator.attrgetter("chips", "fired", "over", "sealed", "prior")


@dataclass(frozen=True, repr=False, eq=False)
class Report(Drawn):
    """The end of a play: the result of `plain`, `run` and `resume`, and of a simulation whose root closed.

    Attributes
    ----------
    chips : tuple of int
        The chips of each vertex, including the sink, in the order of the numbers.
    fired : tuple of int
        How often each vertex fired in this stage, in the order of the numbers: the firing vector.
    over : tuple of int
        The numbers of the vertices that can fire but have fired as often as the limit allows. If vertices have other
        names, calls that take names refuse these numbers.
    sealed : tuple of int
        The numbers of the other vertices that stopped because an edge was sealed.
    prior : tuple of int or None
        How often each vertex fired in earlier stages, in the order of the numbers; None in a report of the first stage.
    graph : Graph or None
        The graph, if it is known. It is not part of the report's text.

    See Also
    --------
    plain, resume, verify

    Notes
    -----
    Two reports are equal if all their numbers are equal and, if both graphs are known, the graphs are equal too.

    Proved: the numbers. Not proved: that Python passes them on.

    Examples
    --------
    >>> report = chipfire.plain(chipfire.path(2), {0: 2, 1: 1})
    >>> report.closed, report.configuration, report.odometer
    (True, {0: 1, 1: 0}, {0: 1, 1: 1})
    """

    chips: tuple[int, ...]
    fired: tuple[int, ...]
    over: tuple[int, ...] = ()
    sealed: tuple[int, ...] = ()
    prior: tuple[int, ...] | None = None
    graph: Graph | None = None

    def __post_init__(self) -> None:
        vertices = len(self.chips) if self.graph is None else self.graph.vertices
        sizes = {
            len(self.chips),
            len(self.fired),
            vertices if self.prior is None else len(self.prior),
        }
        if sizes != {vertices} or not all(
            0 <= vertex < vertices for vertex in (*self.over, *self.sealed)
        ):
            raise ValueError(f"the lists of the report do not fit a graph of {vertices} vertices")
        if self.graph is not None and self.total[self.graph.sink]:
            raise ValueError("the sink of the graph fired in the report")
        for name in ("over", "sealed"):
            numbers = [VertexNumber(it) if type(it) is int else it for it in getattr(self, name)]
            object.__setattr__(self, name, tuple(numbers))

    def __eq__(self, other: object) -> bool:
        if not isinstance(other, Report) or _KEY(self) != _KEY(other):
            return False
        return self.graph is None or other.graph is None or self.graph.is_like(other.graph)

    def __hash__(self) -> int:
        return hash(_KEY(self))

    def __repr__(self) -> str:
        lists = f"chips={self.chips}, fired={self.fired}, " if len(self.chips) <= 12 else ""
        return f"<Report: {lists}{len(self.chips)} vertices, {self._title('chips')}>"

    @property
    def closed(self) -> bool:
        """Whether the play has ended: no vertex was stopped by a limit or a seal."""
        return not self.over and not self.sealed

    @property
    def total(self) -> tuple[int, ...]:
        """How often each vertex fired in this and all earlier stages."""
        return tuple(map(operator.add, self.prior, self.fired)) if self.prior else self.fired

    @property
    def configuration(self) -> Configuration:
        """The chips of all vertices but the sink, by names. If the report is `closed`, this is the stabilization."""
        return Configuration(self._known_graph(), self.chips)

    @property
    def odometer(self) -> Configuration:
        """How often each vertex but the sink fired, by names, in this and all earlier stages."""
        return Configuration(self._known_graph(), self.total)

    def _known_graph(self) -> Graph:
        if self.graph is None:
            raise ValueError(
                "this report does not know its graph: read it by Report.read(file, graph)"
            )
        return self.graph

    @classmethod
    def parse(cls, text: str, graph: Graph | None = None) -> Report:
        """The report of a text as the program writes it."""
        value = json.loads(text)
        try:
            if value.pop("version") in (1, 2):
                value.pop("closed", None)
                return cls(**{name: tuple(numbers) for name, numbers in value.items()}, graph=graph)
        except (AttributeError, KeyError, TypeError):
            pass
        raise ValueError("the text is no report")

    @classmethod
    def read(cls, file: FileName, graph: Graph | None = None) -> Report:
        """The report of a file. It is refused if it cannot be of the graph, as `fits` says."""
        with open(file, encoding="utf-8", newline="") as text:
            report = cls.parse(text.read(), graph)
        if graph is not None and not report.fits(graph):
            raise ValueError("the report is one of another graph")
        return report

    def fits(self, graph: Graph) -> bool:
        """Whether some play on the graph, from 0 chips or more on each vertex, could have ended as the report says."""
        if graph.vertices != len(self.chips):
            return False
        graph.refuse_loops()
        degrees = graph.degrees()
        start = graph.position_after(self.chips, [-count for count in self.total])
        # (what a sealed edge held back lies where it would have gone, and may make a vertex legal that never stopped)
        legal = {
            vertex
            for vertex, count in enumerate(self.chips)
            if count >= degrees[vertex] and not self.sealed
        }
        return min(start) >= 0 and legal <= {*self.over, graph.sink}

    def text(self) -> str:
        """The text of the report, byte for byte as the program writes it."""
        told = {
            name: value
            for name, value in vars(self).items()
            if name != "graph" and value is not None
        }
        told |= {"closed": self.closed, "version": 1 if self.prior is None else 2}
        return json.dumps(told, separators=(",", ":"), sort_keys=True) + "\n"

    def write(self, file: FileName) -> None:
        """Writes the report to a file, from which `resume` can continue."""
        write_text(file, self.text())

    def _values(self, of: str) -> Sequence[int]:
        if of not in ("chips", "odometer"):
            raise ValueError(f"a report has 'chips' and an 'odometer', and no {of!r}")
        return self.chips if of == "chips" else self.total

    def _title(self, of: str) -> str:
        """What the picture shows, in words."""
        words = [with_unit(sum(self.total), "firing")]
        if of == "odometer":
            return f"{words[0]}, at most {max(self.total, default=0):,} of a vertex"
        if self.graph is not None:
            words.append(f"{with_unit(self.chips[self.graph.sink], 'chip')} in the sink")
        if self.over:
            words.append(f"{with_unit(len(self.over), 'square')} could fire once more")
        if self.sealed:
            words.append(f"{with_unit(len(self.sealed), 'square')} stopped by a seal")
        return ", ".join(words)
