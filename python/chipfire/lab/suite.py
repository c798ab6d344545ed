"""The games by which detectors are graded: small ones, on one of which each wrong detector that is known shows.

They are games of chip-firing whose root feeds nothing, without limits and seals, so a verdict says no more than that.
"""

from __future__ import annotations

from collections.abc import Iterator
from typing import NamedTuple, Union

from chipfire.graphs.graph import Graph
from chipfire.lab.explored import DetectorError
from chipfire.lab.explorer import explore
from chipfire.lab.machine import Schedule, Setting
from chipfire.lab.schedules import Detector

_LINE = Graph(2, 1, ((0, 1),))
_CHAIN = Graph(3, 2, ((0, 1), (1, 2)))
_FORK = Graph(3, 2, ((0, 1), (1, 0), (0, 2)))
_TRIANGLE = Graph(3, 2, ((0, 1), (0, 2), (1, 0), (1, 2)))
#: The games, smallest first.
GAMES = {
    "one chip": Setting(_LINE, (1, 0)),
    "two chips": Setting(_LINE, (2, 0)),
    "two edges": Setting(Graph(2, 1, ((0, 1), (0, 1))), (2, 0)),
    "ring of two": Setting(_CHAIN, (2, 0, 0), ring=2),
    "chain": Setting(_CHAIN, (1, 1, 0)),
    "way back": Setting(_FORK, (1, 1, 0)),
    "two starts": Setting(_TRIANGLE, (1, 2, 0)),
    "triangle": Setting(_TRIANGLE, (4, 0, 0)),
}
#: How many states of each game are visited; the right detectors that are known have fewer than 10,000.
MOST_STATES = 30_000

RIGHT = "right"
EARLY = "too early"
MISSED = "misses the end"
NOT_LOCAL = "not local"
UNDECIDED = "undecided"
NOT_GRADED = "not graded"
#: The verdicts, each of which counts more than those before; of the last two the first that is found.
_RANKS = {RIGHT: 0, UNDECIDED: 1, NOT_GRADED: 2, NOT_LOCAL: 3, MISSED: 4, EARLY: 4}
#: The verdict of each status of a search.
_VERDICTS = {0: RIGHT, 2: EARLY, 3: MISSED, 4: UNDECIDED, 5: NOT_LOCAL}


class Verdict(NamedTuple):
    """What games show of a detector, why in words, and the events that lead there."""

    verdict: str
    why: str = ""
    schedule: Union[Schedule, None] = None


def verdict_on(setting: Setting, detector: Detector) -> Verdict:
    """What one of the games shows of a detector. One that cannot be tried is not graded."""
    try:
        found = explore(setting, detector, most=MOST_STATES)
    except ValueError as error:
        if isinstance(error.__cause__, MemoryError):
            return Verdict(UNDECIDED, "it takes more memory than it may")
        way = error.schedule if isinstance(error, DetectorError) else None
        return Verdict(NOT_GRADED, str(error), way)
    except MemoryError:
        return Verdict(UNDECIDED, "the search takes more memory than it may")
    verdict = _VERDICTS[found.status]
    return Verdict(verdict, str(found).removeprefix(f"{verdict}: "), found.shown)


def findings(detector: Detector) -> Iterator[tuple[str, Union[Verdict, None]]]:
    """Plays the games in their order. Each is named before, and once more with what it shows, if that counts more than
    what was shown before: a root that is closed by luck may be closed too early in a larger game.
    """
    best = Verdict(RIGHT)
    for game, setting in GAMES.items():
        yield game, None
        verdict = verdict_on(setting, detector)
        if _RANKS[verdict.verdict] > _RANKS[best.verdict]:
            best = verdict
            yield game, best
        if verdict.verdict in (EARLY, MISSED, NOT_GRADED):
            return
