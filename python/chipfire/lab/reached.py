"""The states that a search of all schedules reached, and the moves between them."""

from __future__ import annotations

import random
from array import array
from collections.abc import Iterator
from typing import Union

from chipfire.lab.endings import Moves
from chipfire.lab.machine import Event, Schedule

#: Events that happen one after the other, as one.
Step = tuple[Event, ...]
State = tuple[int, ...]


class Reached:
    """States by number in their order, from the start on. A move is a step with its replies, and has a number too."""

    def __init__(self, start: State) -> None:
        #: The states by number, and the number of each.
        self.order = [start]
        self.places = {start: 0}
        #: By the number of a state: from which state the search reached it, and by which move.
        self.came = [(-1, -1)]
        #: By the number of a state: whether the root is closed, and the state of the game without a detector.
        self.closed = [False]
        self.beside = array("i", [0])
        #: The numbers of the moves from state 0, then of those from state 1, and so on, and the states to which they lead.
        self.moves = array("i")
        self.heads = array("i")
        #: By the number of a state: where its moves begin in `moves` and `heads`. Those of the last state end at the end.
        self.firsts = array("q", [0])
        #: The moves by number, each a step's number and the replies, and the number of each.
        self.known: list[tuple[int, tuple[str, ...]]] = []
        self.numbers: dict[tuple[int, tuple[str, ...]], int] = {}
        #: The steps by number.
        self.steps: list[Step] = []

    def add(self, state: State, at: int, move: int, beside: int) -> None:
        """Adds a state to which a move leads."""
        self.places[state] = len(self.order)
        self.order.append(state)
        self.came.append((at, move))
        self.closed.append(False)
        self.beside.append(beside)

    def move(self, step: int, replies: tuple[str, ...]) -> int:
        """The number of a move."""
        number = self.numbers.setdefault((step, replies), len(self.numbers))
        if number == len(self.known):
            self.known.append((step, replies))
        return number

    def is_left(self, at: int) -> bool:
        """Whether the search went on from a state."""
        return at < len(self.firsts) - 1

    def after(self, at: int) -> range:
        """The places of the moves from a state."""
        return range(self.firsts[at], self.firsts[at + 1])

    def step(self, place: int) -> int:
        """The number of the step of the move at a place."""
        return self.known[self.moves[place]][0]

    def way(self, at: int) -> Schedule:
        """The events that led to a state."""
        steps = []
        while at:
            at, move = self.came[at]
            steps.append(self.steps[self.known[move][0]])
        return Schedule(event for step in reversed(steps) for event in step)

    def way_or_none(self, at: Union[int, None]) -> Union[Schedule, None]:
        return None if at is None else self.way(at)

    def length(self) -> int:
        """How many events led to the last state."""
        return len(self.way(len(self.order) - 1))

    def graph(self) -> Moves:
        """The states and moves in the form that finds how schedules end."""
        steps = array("i", [self.known[move][0] for move in self.moves])
        return Moves(self.closed, self.firsts, steps, self.heads)

    def reopened(self) -> Union[tuple[int, int], None]:
        """A closed state and a step from it after which the root is open."""
        for at in range(len(self.firsts) - 1):
            if self.closed[at]:
                for place in self.after(at):
                    if not self.closed[self.heads[place]]:
                        return at, self.step(place)
        return None

    def closings(self, random_ones: int) -> Iterator[Schedule]:
        """A shortest schedule to each state in which the root has just been closed, and random ones to a closed root."""
        for at, is_closed in enumerate(self.closed):
            if is_closed and not (at and self.closed[self.came[at][0]]):
                yield self.way(at)
        draw = random.Random(1)
        most = 10 * self.length() + 100
        for _ in range(random_ones):
            schedule = self.drawn(draw, most)
            if schedule is not None:
                yield schedule

    def drawn(self, draw: random.Random, most: int) -> Union[Schedule, None]:
        """A random schedule of at most `most` steps to a closed root, if it reaches one."""
        at = 0
        made: list[Event] = []
        for _ in range(most):
            if self.closed[at]:
                return Schedule(made)
            if not self.is_left(at) or not self.after(at):
                return None
            place = draw.choice(self.after(at))
            made += self.steps[self.step(place)]
            at = self.heads[place]
        return None
