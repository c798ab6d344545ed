"""What somebody writes whose own code is checked strictly: mypy reads it, and `use` runs. Nothing in `wrong` may pass."""
from __future__ import annotations

from collections.abc import Iterator
from typing import Any, Dict, List, Optional, Tuple, TYPE_CHECKING

import chipfire

if TYPE_CHECKING:
    from typing_extensions import assert_type
else:

    def assert_type(value, kind):
        return value


Row = Tuple[int, ...]


def graphs() -> List[chipfire.Graph]:
    """A graph of each maker."""
    edges = [("a", "b", 2), ("b", "s", 1)]
    named = assert_type(chipfire.Graph.undirected(edges, "s"), chipfire.Graph)
    made = [named, chipfire.Graph(3, 2, [(0, 1, 3), (1, 2, 1)]), chipfire.grid(3, 2), chipfire.torus(3, 3)]
    made += [chipfire.grid(rows=2, columns=3), chipfire.torus(rows=3, columns=3), chipfire.grid(2, 2, 2, periodic=True, loss=1)]
    made += [chipfire.cycle(4), chipfire.path(3), chipfire.wheel(5), chipfire.complete(4), chipfire.aztec(1)]
    made += [chipfire.region([[True, False], [True, True]], "hexagonal"), chipfire.grid_for(40)]
    return made + [chipfire.from_edges({"source": ["a"], "target": ["s"]}, "s")]


def chips_in_each_form(grid: chipfire.Graph) -> List[chipfire.Configuration]:
    """Configurations of chips in each form."""
    forms: List[chipfire.Chips] = [2, [1, 2, 3, 4, 5, 6], {0: 7, (1, 2): 4}, [[1, 2, 3], [4, 5, 6]]]
    forms += [grid.max_stable(), chipfire.plain(grid, 3), (1, 2, 3, 4, 5, 6, 0)]
    return [chipfire.stabilize(grid, form) for form in forms]


def configurations(grid: chipfire.Graph) -> None:
    """What configurations are asked, and how they are added."""
    most = assert_type(grid.max_stable(), chipfire.Configuration)
    assert_type(~(most + most), chipfire.Configuration)
    assert_type(most & {0: 1}, chipfire.Configuration)
    assert_type(2 * most - 1, chipfire.Configuration)
    assert_type(most[0], int)
    assert_type(most.equivalent_superstable().degree, int)
    assert_type((most.is_stable(), most.is_recurrent(), most.is_superstable()), Tuple[bool, bool, bool])
    assert_type((grid.order(), grid.identity(), chipfire.order(grid)), Tuple[int, chipfire.Configuration, int])
    assert_type(chipfire.is_recurrent(grid, most), bool)
    assert_type(chipfire.inverse(grid, most), chipfire.Configuration)
    assert_type(most.inverse() + chipfire.Group(grid).identity, chipfire.Configuration)
    assert_type(chipfire.Group(grid).coordinates(most), Row)
    assert_type(chipfire.invariant_factors(grid), Row)
    assert_type(chipfire.are_recurrent(grid, [most, 3]), List[bool])


def options_that_change_the_type(grid: chipfire.Graph, is_wanted: bool) -> None:
    """Functions whose result is of another type with an option."""
    assert_type(chipfire.random_recurrent(grid, 1), chipfire.Configuration)
    assert_type(chipfire.random_recurrent(grid, "seed", 3), List[chipfire.Configuration])
    assert_type(chipfire.recurrents(grid), Iterator[chipfire.Configuration])
    assert_type(chipfire.superstables(grid, as_array=False), Iterator[chipfire.Configuration])
    assert_type(chipfire.recurrents(grid, as_array=True), Any)
    assert_type(chipfire.superstables(grid, as_array=is_wanted), Any)
    assert_type(chipfire.laplacian(grid), List[List[int]])
    assert_type(chipfire.reduced_laplacian(grid, sparse=False), List[List[int]])
    assert_type(chipfire.avalanche_polynomial(chipfire.cycle(4)), Dict[int, int])
    assert_type(chipfire.avalanche_polynomial(chipfire.cycle(4), multivariable=True), Dict[Row, int])


def results(grid: chipfire.Graph) -> None:
    """What plays and drops return."""
    report = assert_type(chipfire.plain(grid, 5, limit=9, guess={0: 1}), chipfire.Report)
    assert_type((report.chips, report.closed, report.odometer[0]), Tuple[Row, bool, int])
    found = assert_type(chipfire.drops(grid, 3, chipfire.random_drops(grid, 9, 1)), chipfire.Drops)
    assert_type(found.histogram("lost"), Dict[int, int])
    assert_type(found.fired, Optional[chipfire.Firings])
    assert_type(chipfire.verify(grid, 5, report), bool)
    assert_type(chipfire.power_law([1, 2, 2, 7]).exponent, float)
    assert_type(chipfire.avalanche(grid, 3, (0, 1)).size, int)
    divisor = assert_type(chipfire.Divisor(chipfire.cycle(4), 1), chipfire.Divisor)
    assert_type((divisor.rank(), divisor.is_effective()), Tuple[int, bool])
    assert_type(report.picture(of="odometer"), chipfire.Picture)
    assert_type(chipfire.Program().plain(grid, 3), chipfire.Report)


def use() -> int:
    """Does all of it, and returns how many graphs it made."""
    grid = chipfire.grid(3, 2)
    chips_in_each_form(grid)
    configurations(grid)
    options_that_change_the_type(chipfire.grid(2, 2), False)
    results(grid)
    return len(graphs())


def wrong(grid: chipfire.Graph) -> None:
    """Each line has a wrong type, by the error that mypy names."""
    chipfire.grid(3)  # type: ignore[call-overload]
    chipfire.grid(3, rows=3)  # type: ignore[call-overload]
    chipfire.torus(rows=3)  # type: ignore[call-overload]
    chipfire.grid(3, 3, rows=3, columns=3)  # type: ignore[call-overload]
    one: chipfire.Configuration = chipfire.random_recurrent(grid, 1, 3)  # type: ignore[assignment]
    chipfire.random_recurrent(grid, 1)[0].degree  # type: ignore[attr-defined]
    rows: List[List[int]] = chipfire.recurrents(grid)  # type: ignore[assignment]
    powers: Dict[int, int] = chipfire.avalanche_polynomial(grid, multivariable=True)  # type: ignore[assignment]
    chipfire.plain(7, one)  # type: ignore[arg-type]
    chipfire.plain(grid, rows, limits=3)  # type: ignore[call-arg]
    grid.identity() @ powers  # type: ignore[operator]
