"""The game beside a search: the same events without a detector, so that none changes the game that it watches."""

from __future__ import annotations

from typing import Any, Union

from chipfire.lab.machine import Event
from chipfire.lab.model import Core, Edge
from chipfire.lab.schedules import EVENTS, Game, opened, WORK
from chipfire.lab.states import frozen, States

#: The events of the game; all others are the detector's.
GAME_EVENTS = frozenset((*EVENTS, WORK)) - {"ack", "settle", "read"}
#: What a detector may write of the model's.
BOOKS = frozenset(("acked", "settled", "parent"))


class Bare(Core):
    """A game that no detector watches."""

    def on_take(self, e: Edge) -> None:
        """Nobody is engaged."""

    def may_ack(self, e: Edge) -> int:
        return 0


class Shadow:
    """A game without a detector, whose states have numbers from 0, the start, on."""

    def __init__(self, setting: Game) -> None:
        self.core: Core = opened(setting, Bare)
        self.states = States(self.core)
        self.order = [self.states.noted()]
        self.numbers = {self.order[0]: 0}
        self.made: dict[tuple[int, tuple[Event, ...]], tuple[int, tuple[str, ...]]] = {}

    def after(self, number: int, step: tuple[Event, ...]) -> tuple[int, tuple[str, ...]]:
        """The number of the state after a step of the game, and the replies."""
        if (number, step) not in self.made:
            self.states.load(self.order[number])
            replies = tuple([self.core.step(*event) for event in step])
            reached = self.states.noted()
            found = self.numbers.setdefault(reached, len(self.order))
            if found == len(self.order):
                self.order.append(reached)
            self.made[number, step] = found, replies
        return self.made[number, step]

    def difference(self, number: int, core: Core) -> Union[str, None]:
        """What of the game is otherwise in another game than in this state, in words."""
        self.states.load(self.order[number])
        for index, e in enumerate(self.core.edges):
            if name := _other(e, core.edges[index]):
                return f"{name} of edge {index}"
        for index, vertex in enumerate(self.core.vertices):
            if name := _other(vertex, core.vertices[index]):
                return f"{name} of vertex {index}"
        return _other(self.core, core)


def _other(mine: Any, its: Any) -> Union[str, None]:
    """The first attribute of the game that is another in another part."""
    found = vars(its)
    names: list[str] = [name for name in vars(mine) if name not in BOOKS]
    return next((name for name in names if not _is_same(vars(mine)[name], found, name)), None)


def _is_same(value: Any, found: dict[str, Any], name: str) -> bool:
    """Whether an attribute has this value."""
    if name not in found:
        return False
    other = found[name]
    return other is value or bool(other == value) or bool(frozen(other) == frozen(value))
