"""Plays a plan of chains by parts: on threads of this process, or by an executor, which may have other machines."""

from __future__ import annotations

import queue
import time
from collections.abc import Iterator, Mapping
from concurrent.futures import Executor, Future
from typing import Any

from chipfire.backend.interrupts import GRACE, Interrupts, Threads, WAIT
from chipfire.ensembles.checkpoint import Checkpoint
from chipfire.ensembles.player import AnyTable, begin, Plan, play, played, Table, Watch
from chipfire.progress import Progress

#: How many parts an executor gets, and each thread.
_OF_EXECUTOR = 64
_OF_THREAD = 4

Place = tuple[int, int]
#: The function that plays each part, and what it takes.
Calls = Mapping[Place, tuple[Any, ...]]


class Spread:
    """Chains that are played into a table.

    executor    what plays, or None
    workers     how many threads of this process play then
    checkpoint  where parts are that are done, or None
    """

    def __init__(
        self,
        plan: Plan,
        table: AnyTable,
        executor: Executor | None,
        workers: int,
        checkpoint: Checkpoint | None,
    ) -> None:
        self.plan = plan
        self.table = table
        self.executor = executor
        self.workers = workers
        self.checkpoint = checkpoint
        self.watch = Watch()
        #: How many drops are made of parts that are done, by an executor or before.
        self.made = 0
        #: The chains whose chips lie in the table, at their starts or later.
        self.there: list[Place] = []
        #: The parts that are not taken yet, and those of them that are done, which other threads report.
        self.futures: dict[Place, Future[AnyTable]] = {}
        self.done: queue.SimpleQueue[Place] = queue.SimpleQueue()
        #: Whether a thread has not ended its call, and writes nothing any more.
        self.is_left = False

    def play(self, progress: Progress, partial: bool) -> None:
        """Plays what is left. After an interrupt all stops soon: that is an error, unless it is `partial`."""
        if self.checkpoint and isinstance(self.table, Table):
            self.there += self.checkpoint.take(self.table)
        self.made = int(sum(sum(self.table.made[start:stop]) for start, stop in self.there))
        try:
            calls = self._calls_of_threads() if self.executor is None else self._calls_of_workers()
            with Interrupts() as interrupts:
                if self.executor is None:
                    self._by_threads(calls, progress, interrupts)
                else:
                    self._by_executor(self.executor, calls, progress, interrupts)
            progress.show(self.plan.n * self.plan.drops, is_last=True)
        except KeyboardInterrupt:
            # (after a second one threads may still write into the table)
            if not partial or self.futures:
                raise
            self._begin_given()

    def _gaps(self) -> Iterator[Place]:
        """The places of the chains whose chips are not in the table."""
        at = 0
        for start, stop in sorted(self.there):
            if at < start:
                yield at, start
            at = stop
        if at < self.plan.n:
            yield at, self.plan.n

    def _calls_of_threads(self) -> Calls:
        """What plays each part into the table, which gets the starts of all of them before."""
        calls = {}
        for gap in [*self._gaps()]:
            self._begin(gap)
            for place in _parts(*gap, _OF_THREAD * self.workers):
                calls[place] = (play, self.plan.part(*place), self.table.part(*place), self.watch)
        return calls

    def _calls_of_workers(self) -> Calls:
        """What plays each part into a table of its own."""
        places = [it for gap in self._gaps() for it in _parts(*gap, _OF_EXECUTOR)]
        return {place: (played, self.plan.part(*place)) for place in places}

    def _begin(self, place: Place) -> None:
        """Puts the starts of these chains into the table."""
        begin(self.plan.part(*place), self.table.part(*place))
        self.there.append(place)

    def _begin_given(self) -> None:
        """Puts the starts of all other chains into the table, if they were given: none are drawn."""
        for gap in [*self._gaps()] if self.plan.starts is not None else ():
            self._begin(gap)

    def _by_threads(self, calls: Calls, progress: Progress, interrupts: Interrupts) -> None:
        pool = Threads(self.workers)
        try:
            self._by_executor(pool, calls, progress, interrupts)
        finally:
            # (after an interrupt threads may still play)
            pool.shutdown(wait=not self.futures and not self.is_left)

    def _by_executor(
        self, executor: Executor, calls: Calls, progress: Progress, interrupts: Interrupts
    ) -> None:
        """Has an executor make calls, and takes what they return, as they are done."""
        try:
            for place, call in calls.items():
                self._submit(executor, place, call)
                interrupts.handle()
            while self.futures:
                if done := self._next_done():
                    self._take(done, self.futures.pop(done).result())
                progress.show(self.made + self.watch.made)
                interrupts.handle()
        except BaseException:
            self._stop(interrupts)
            raise

    def _submit(self, executor: Executor, place: Place, call: tuple[Any, ...]) -> None:
        self.futures[place] = future = executor.submit(*call)
        future.add_done_callback(lambda _: self.done.put(place))

    def _next_done(self) -> Place | None:
        """A part that is done, of which this was not said before; None if there is none for a while."""
        try:
            return self.done.get(timeout=WAIT)
        except queue.Empty:
            return None

    def _take(self, place: Place, part: Any) -> None:
        """Takes a part that is done. (What threads of this process make is in the table, and the watch counts it.)"""
        if self.executor is not None:
            self.table.put(*place, part)
            self.there.append(place)
            self.made += int(sum(part.made))
        if self.checkpoint and not self.watch.is_stopped:
            self.checkpoint.put(*place, part)

    def _stop(self, interrupts: Interrupts) -> None:
        """Has threads stop soon, and leaves those that do not; or takes what an executor has done until now."""
        self.futures = {place: it for place, it in self.futures.items() if not it.cancel()}
        if self.executor is None:
            self._stop_threads(interrupts)
            return
        for place, future in self.futures.items():
            if future.done() and not future.exception():
                self._take(place, future.result())
        self.futures = {}

    def _stop_threads(self, interrupts: Interrupts) -> None:
        """Has threads stop, and leaves those that are in a call for long: what comes of that goes nowhere."""
        self.watch.is_stopped = True
        end = time.monotonic() + GRACE
        while self.futures and time.monotonic() < end:
            if done := self._next_done():
                self.futures.pop(done, None)
            interrupts.handle()
        self.watch.leave()
        self.is_left, self.futures = bool(self.futures), {}


def _parts(start: int, stop: int, count: int) -> Iterator[Place]:
    """These places in as many parts, or as many as there are places."""
    parts = min(count, stop - start)
    ends = [start + (stop - start) * it // parts for it in range(parts + 1)]
    yield from zip(ends, ends[1:])
