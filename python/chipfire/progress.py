"""What long work shows while it goes on: how much of it is done."""

from __future__ import annotations

import sys
import time
from collections.abc import Callable
from typing import Any, Union

from chipfire.utils import import_optional

#: What a call takes as `progress`: nothing is shown, a bar or lines are, or a function gets how much is done and of how much.
AnyProgress = Union[None, bool, Callable[[int, int], object]]

#: How many seconds lie between two calls of a function, and between two lines.
_CALLS = 0.2
_LINES = 1.0


class Progress:
    """Shows how much of some work is done: by a bar of tqdm if it is installed, else by lines on standard error, or by a
    function, which gets how much is done and how much there is. The total may be unknown. `with` ends it.
    """

    def __init__(self, asked: AnyProgress, total: int | None, what: str) -> None:
        self.total = total
        self.what = what
        self.function = asked if callable(asked) else None
        self.bar: Any = None
        self.is_shown = bool(asked)
        self.shown = -1
        self.next_time = time.monotonic()
        tqdm = import_optional("tqdm") if asked is True else None
        if tqdm:
            self.bar = tqdm.tqdm(total=total, unit=f" {what}", unit_scale=True)

    def __enter__(self) -> Progress:
        return self

    def __exit__(self, *_: object) -> None:
        if self.bar is not None:
            self.bar.close()

    @property
    def is_due(self) -> bool:
        """Whether it is shown, and nothing has just been said."""
        return self.is_shown and time.monotonic() >= self.next_time

    def show(self, done: int, is_last: bool = False) -> None:
        """Says how much is done, unless it has just been said."""
        if not self.is_shown:
            return
        now = time.monotonic()
        if done == self.shown or not is_last and now < self.next_time:
            return
        if self.function is not None:
            self.function(done, self.total or 0)
        elif self.bar is not None:
            self.bar.update(done - max(self.shown, 0))
        else:
            of_all = "" if self.total is None else f" of {self.total:,}"
            print(f"chipfire: {done:,}{of_all} {self.what}", file=sys.stderr, flush=True)
        self.shown = done
        self.next_time = now + (_LINES if self.function is None and self.bar is None else _CALLS)
