"""Games that the library plays in this process, however long they are."""

from __future__ import annotations

import operator
from array import array
from collections.abc import Callable, Sequence
from typing import Any, TYPE_CHECKING

from chipfire.backend import kept, library
from chipfire.backend.portions import Portions
from chipfire.backend.process import refused
from chipfire.utils import FileName, MAX_CHIPS, MAX_LIMIT

if TYPE_CHECKING:
    from chipfire.graphs.graph import Graph

_NONE = array("Q")

#: What is called with a pile between two portions of a play, and may end it by an error.
Between = Callable[[kept.KeptPile], object]


def play(
    graph: Graph,
    chips: array[int],
    program: FileName | None,
    limit: int = MAX_LIMIT,
    guess: array[int] = _NONE,
    between: Between = kept.nothing,
) -> tuple[array[int], array[int], int] | None:
    """The chips and the counts at the end of one game after another, and how many vertices the limit stopped; or None
    if the program plays, since there is no library. A guess is one for a single game.

    Short games are played some in a call, and each long one on a pile, in portions between which an interrupt is seen. A
    game with a guess is played by a thread, which goes on after an interrupt.
    """
    found = library.loaded() if program is None else None
    if not found:
        return None
    if guess:
        return library.stabilize_from(found, graph, chips, limit, guess)
    width = graph.vertices or 1
    if len(chips) == width:
        return _played(found, graph, chips, limit, between)
    left, fired = chips[:], array("Q", bytes(8 * len(chips)))
    stopped = 0
    for games in Portions(len(chips) // width or 1):
        over: list[int | None] = [None]
        if games.stop - games.start > 1 or not chips:
            over = library.stabilize_some(found, graph, left, fired, games, limit)
        for game, count in enumerate(over, games.start):
            if count is None:
                numbers = slice(game * width, (game + 1) * width)
                end = _played(found, graph, chips[numbers], limit, between)
                left[numbers], fired[numbers], count = end
            stopped += count
    return left, fired, stopped


def _played(
    found: Any, graph: Graph, chips: array[int], limit: int, between: Between
) -> tuple[array[int], array[int], int]:
    """The same of one game, played on a pile."""
    pile = kept.taken(found, graph, chips, limit)
    pile.between = between
    try:
        number = pile.play()
        left, fired = pile.chips(), pile.fired()
    finally:
        kept.give_back(graph, pile)
    if number not in (0, kept.STOPPED):
        raise refused(number, 0, graph)
    over = sum(0 < degree <= count for degree, count in zip(graph.degrees(), left))
    return left, fired, over


def is_short(graph: Graph, program: FileName | None, chips: Sequence[int]) -> bool:
    """Whether a play takes a tenth of a second at most, which is tried; what it leaves nobody gets. So is one of a call that
    cannot be interrupted, if that plays the same. Not without the library."""
    found = library.loaded() if program is None else None
    if not found or sum(chips) > MAX_CHIPS:
        return False
    pile = kept.taken(found, graph, array("Q", chips), MAX_LIMIT)
    try:
        return pile.ends_soon()
    finally:
        kept.give_back(graph, pile)


def represents_soon(graph: Graph, program: FileName | None, chips: Sequence[int]) -> bool:
    """Whether the library is there and finds the representative of chips soon: it plays them, twice the greatest stable ones,
    and what becomes of both."""
    together = [*map(operator.add, chips, (2 * degree for degree in graph.degrees()))]
    if graph.sink < len(together):
        together[graph.sink] = 0
    return is_short(graph, program, together)
