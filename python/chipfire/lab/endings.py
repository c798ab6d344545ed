"""How the schedules of a game end: whether the root can always be closed, and what may go on for ever.

A `Moves` has the states of a search by number, and the moves from each: the numbers of their steps, and where they lead.
"""

from __future__ import annotations

from array import array
from collections import deque
from collections.abc import Callable, Collection, Iterator, Sequence
from typing import Union

#: A move: the number of its step, and the state to which it leads.
Move = tuple[int, int]


class Moves:
    """States from 0 on, which of them are closed, and the moves from each.

    The moves of all states stand one after the other in `steps` and `heads`; those of a state begin in `firsts`.
    """

    def __init__(
        self, closed: Sequence[bool], firsts: array[int], steps: array[int], heads: array[int]
    ) -> None:
        self.closed = closed
        self.firsts = firsts
        self.steps = steps
        self.heads = heads

    def moves(self, at: int) -> Iterator[Move]:
        """The moves from a state."""
        mine = slice(self.firsts[at], self.firsts[at + 1])
        return zip(self.steps[mine], self.heads[mine])

    def lost(self) -> Union[int, None]:
        """The first state from which no closed one can be reached."""
        able = bytearray(self.closed)
        heads = self.heads
        firsts = self.firsts
        waiting = [at for at in reversed(range(len(able))) if not able[at]]
        before = -1
        # (most moves lead to later states, so that a few rounds from the last one back do)
        while waiting and len(waiting) != before:
            before = len(waiting)
            for at in waiting:
                able[at] = any([able[head] for head in heads[firsts[at] : firsts[at + 1]]])
            waiting = [at for at in waiting if not able[at]]
        return waiting[-1] if waiting else None

    def round(
        self, is_due: Callable[[int], bool], is_free: Callable[[int], bool]
    ) -> Union[tuple[int, list[int]], None]:
        """The first state from which events can repeat for ever while the root stays open, though none that is possible
        again and again is forgotten; and the steps of such a round. None if there is none.

        is_due   whether a step is one that happens once at most, so that no round has it
        is_free  whether a step need never happen
        """
        open_states = {
            at
            for at, is_closed in enumerate(self.closed)
            if not is_closed and not any(is_due(step) for step, _ in self.moves(at))
        }
        rounds = []
        waiting = [open_states]
        while waiting:
            for among in self._components(waiting.pop()):
                taken = {step for at in among for step, head in self.moves(at) if head in among}
                forgotten = {
                    at
                    for at in among
                    if any(step not in taken and not is_free(step) for step, _ in self.moves(at))
                }
                if not forgotten:
                    rounds.append((min(among), among, taken))
                elif among - forgotten:
                    waiting.append(among - forgotten)
        if not rounds:
            return None
        first, among, taken = min(rounds, key=lambda it: it[0])
        return first, self._walk(first, among, taken)

    def _components(self, among: Collection[int]) -> Iterator[set[int]]:
        """The largest sets of some states, each of which leads to each of its own by one move or more."""
        before: dict[int, list[int]] = {at: [] for at in among}
        for at in among:
            for _, head in self.moves(at):
                if head in before:
                    before[head].append(at)
        seen: set[int] = set()
        for start in reversed(self._finished(among)):
            if start in seen:
                continue
            found = {start}
            waiting = [start]
            while waiting:
                more = [at for at in before[waiting.pop()] if at not in seen and at not in found]
                found.update(more)
                waiting += more
            seen |= found
            if len(found) > 1 or start in before[start]:
                yield found

    def _finished(self, among: Collection[int]) -> list[int]:
        """Some states in the order in which a search in depth is done with them."""
        order = []
        seen: set[int] = set()
        for start in among:
            if start in seen:
                continue
            seen.add(start)
            waiting = [(start, iter(self.moves(start)))]
            while waiting:
                at, moves = waiting[-1]
                head = next((it for _, it in moves if it in among and it not in seen), None)
                if head is None:
                    order.append(at)
                    waiting.pop()
                else:
                    seen.add(head)
                    waiting.append((head, iter(self.moves(head))))
        return order

    def _walk(self, first: int, among: Collection[int], steps: Collection[int]) -> list[int]:
        """Steps that go from a state through some states and back to it, each of `steps` among them."""
        made: list[int] = []
        at = first
        due = set(steps)
        while due:
            way, at = self._way(at, among, lambda step, head: step in due)
            made += way
            due.difference_update(way)
        if at != first:
            made += self._way(at, among, lambda step, head: head == first)[0]
        return made

    def _way(
        self, start: int, among: Collection[int], is_end: Callable[[int, int], bool]
    ) -> tuple[list[int], int]:
        """The fewest steps from a state through some states to a move that ends it, and the state then."""
        came: dict[int, tuple[int, int]] = {}
        waiting = deque([start])
        while True:
            at = waiting.popleft()
            for step, head in self.moves(at):
                if head not in among:
                    continue
                if is_end(step, head):
                    made = [step]
                    while at != start:
                        at, before = came[at]
                        made.append(before)
                    return made[::-1], head
                if head not in came and head != start:
                    came[head] = at, step
                    waiting.append(head)
