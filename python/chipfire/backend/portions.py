"""Work in portions, between two of which an interrupt is seen, and work that nobody can interrupt."""

from __future__ import annotations

import threading
import time
from collections.abc import Callable, Iterator
from typing import TypeVar

T = TypeVar("T")

#: How many seconds a portion takes at most, if it costs what the one before it did.
PORTION = 0.1


class Stopped(Exception):
    """Work that is not wanted any more, on a thread that no interrupt reaches."""


class Portions:
    """Parts of some work, a few of which make a portion. The first portion is small. The next one has more parts if a
    portion is short, and fewer if it takes a tenth of a second. Threads may share them, and take one after another.
    """

    def __init__(self, count: int, size: int = 1) -> None:
        self._count = count
        self._next = 0
        self._lock = threading.Lock()
        self._is_stopped = False
        #: How many parts the next portion has.
        self.size = size

    def __iter__(self) -> Iterator[slice]:
        while (part := self._taken()) is not None:
            begun = time.monotonic()
            yield part
            self._note(part.stop - part.start, time.monotonic() - begun)

    def _taken(self) -> slice | None:
        """The next portion; None if there is none."""
        with self._lock:
            if self._next >= self._count or self._is_stopped:
                return None
            start = self._next
            self._next = min(start + self.size, self._count)
            return slice(start, self._next)

    def _note(self, size: int, took: float) -> None:
        """Sizes the next portion by the seconds that one of this size took."""
        if took < PORTION / 10:
            size *= 8
        elif took < PORTION / 2:
            size *= 2
        elif took >= PORTION:
            size = size // 2 or 1
        with self._lock:
            self.size = size

    def stop(self) -> None:
        """Has no portion begin any more, and the threads that `go_on` end theirs."""
        self._is_stopped = True

    def go_on(self, *_: object) -> None:
        """Ends the portion of a thread, if all is to stop."""
        if self._is_stopped:
            raise Stopped


def apart(work: Callable[[], T], between: Callable[[], object] = lambda: None) -> T:
    """Returns the result of work that is not made in portions. A thread does it, so that an interrupt
    is seen at once, and what `between` raises, which is called about as often as between portions. The work then goes
    on to its end, and its result is dropped: it must write to nothing that others have."""
    found: list[T] = []
    errors: list[BaseException] = []

    def do() -> None:
        try:
            found.append(work())
        except BaseException as error:
            errors.append(error)

    thread = threading.Thread(target=do, name="chipfire", daemon=True)
    thread.start()
    while thread.is_alive():
        thread.join(PORTION)
        between()
    if errors:
        raise errors[0]
    return found[0]
