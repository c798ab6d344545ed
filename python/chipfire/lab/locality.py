"""What the root knows when it closes: the acts that a message reported to it.

In a log of `model_log` a process knows its own acts, and what the sender of a message knew that it got. A root that
closes and does not know of some act of the game has read another part, and no program on threads can do that. This is
what the program's `judge` finds in such a log if nothing is left at its end.
"""

from __future__ import annotations

from collections import Counter, defaultdict, deque
from collections.abc import Sequence
from typing import Union

#: The acts of the game, and what each is in words.
_ACTS = {
    "send": "sent a message on edge {}",
    "receive": "took a message of edge {}",
    "passive": "became passive",
}
_GETS = {"receive": "send", "hear": "tell"}


def unknown(log: Sequence[tuple[int, str, int]]) -> Union[tuple[int, str], None]:
    """An act of the game that the first claim in a log does not know: its process, and the act in words. None if the
    claim knows all."""
    clocks: dict[int, Counter[int]] = defaultdict(Counter)
    messages: dict[tuple[str, int], deque[Counter[int]]] = defaultdict(deque)
    acts: dict[int, list[tuple[int, str]]] = defaultdict(list)
    for process, kind, channel in log:
        clock = clocks[process]
        if kind in _GETS and messages[_GETS[kind], channel]:
            clock |= messages[_GETS[kind], channel].popleft()
        clock[process] += 1
        if kind in _GETS.values():
            messages[kind, channel].append(clock.copy())
        if kind in _ACTS:
            acts[process].append((clock[process], _ACTS[kind].format(channel)))
        if kind == "over":
            missed = (
                (teller, words)
                for teller, its in sorted(acts.items())
                for count, words in its
                if count > clock[teller]
            )
            return next(missed, None)
    return None
