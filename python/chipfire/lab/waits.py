"""Which rows of a log wait for a message that nobody sends: maximal progress on its rows, and who waits for whom then.

The program names the least process that waits after maximal progress, and that is proved. Not proved: what is found
here, which is tested. At a terminal the program says the same of a log in a file.
"""

from __future__ import annotations

from collections import Counter, defaultdict
from collections.abc import Callable, Hashable, Iterable, Sequence
from typing import Any, NamedTuple

_OUT = ("send", "tell")
_IN = ("receive", "hear")
_CONTROL = ("tell", "hear")
#: How many processes of a circle are named.
_SHOWN = 8


class Stream(NamedTuple):
    """The basic messages of a channel, or its control messages."""

    channel: Hashable
    is_control: bool


class Progress:
    """Maximal progress on a log: each process has made as many rows as it can, each after the message that it gets.

    The rows are (process, kind, channel), and the program found no fault in them but that they fit in no order.
    """

    def __init__(self, rows: Iterable[tuple[Hashable, Any, Hashable]]) -> None:
        self._steps: dict[Hashable, list[tuple[str, Stream]]] = defaultdict(list)
        self._senders: dict[Stream, Hashable] = {}
        for process, kind, channel in rows:
            stream = Stream(channel if kind in _OUT + _IN else 0, kind in _CONTROL)
            self._steps[process].append((kind, stream))
            if kind in _OUT:
                self._senders[stream] = process
        #: How many rows each process has made.
        self.made: dict[Hashable, int] = dict.fromkeys(self._steps, 0)
        self._got: Counter[Stream] = Counter()
        self._make_all()

    def _make_all(self) -> None:
        """Makes rows until each process has made its last, or waits. A stream has one process that gets."""
        sent: Counter[Stream] = Counter()
        waiting: dict[Stream, Hashable] = {}
        due = list(self._steps)
        while due:
            process = due.pop()
            steps = self._steps[process]
            while self.made[process] < len(steps):
                kind, stream = steps[self.made[process]]
                if kind in _IN:
                    if self._got[stream] == sent[stream]:
                        waiting[stream] = process
                        break
                    self._got[stream] += 1
                elif kind in _OUT:
                    sent[stream] += 1
                    if stream in waiting:
                        due.append(waiting.pop(stream))
                self.made[process] += 1

    def waits(self, process: Hashable) -> bool:
        """Whether a process has a row left."""
        return self.made[process] < len(self._steps[process])

    def cut(self) -> dict[Hashable, int]:
        """The first row that is not made, of each process that has one."""
        return {process: made for process, made in self.made.items() if self.waits(process)}

    def _way(self, process: Hashable) -> tuple[list[Hashable], int | None]:
        """From a process to the one that it waits for, and so on; and where in the list a circle begins, if it does."""
        way = [process]
        places = {process: 0}
        while True:
            stream = self._steps[way[-1]][self.made[way[-1]]][1]
            sender = self._senders.get(stream)
            if sender is None or not self.waits(sender):
                return way, None
            if sender in places:
                return way, places[sender]
            places[sender] = len(way)
            way.append(sender)

    def said(self, process: Hashable, row_of: Callable[[Hashable, int], int]) -> str:
        """Where the waits lead that begin at a process which waits. `row_of` numbers the rows of a process."""
        way, begin = self._way(process)
        if begin is not None:
            return self._circle(way, begin)
        last = way[-1]
        who = f"{_lead(len(way) - 1)} to process {last}, which" if len(way) > 1 else "it"
        stream = self._steps[last][self.made[last]][1]
        what = "control message" if stream.is_control else "message"
        at = f"{who} waits at its row {row_of(last, self.made[last])}"
        nobody = "no process sends there"
        if stream in self._senders:
            nobody = f"process {self._senders[stream]}, which sends there, has no row left"
        return f"{at} for {what} {self._got[stream]} of channel {stream.channel}, and {nobody}"

    def _circle(self, way: Sequence[Hashable], begin: int) -> str:
        """The processes of a circle, in which each waits for the next one."""
        circle = [str(process) for process in way[begin:]]
        lead = f"{_lead(begin)} to process {circle[0]}; " if begin else ""
        more = f", and {len(circle) - _SHOWN} more" if len(circle) > _SHOWN else ""
        names = ", ".join(circle[:_SHOWN])
        return f"{lead}each of these waits for the next, and the last for the first: {names}{more}"


def _lead(waits: int) -> str:
    return "from there 1 wait leads" if waits == 1 else f"from there {waits} waits lead"
