"""Signals that wait, so that what their handlers raise leaves no lock held, and work on threads meanwhile."""

from __future__ import annotations

import functools
import inspect
import queue
import signal
import threading
import time
from collections.abc import Callable, Iterable
from concurrent.futures import Executor, Future, ThreadPoolExecutor
from typing import Any, TypeVar

T = TypeVar("T")

#: How many seconds pass at most until a signal is handled.
WAIT = 0.1

#: How many seconds a thread has to end its call after an interrupt. Then it is left, and ends it for nobody.
GRACE = 0.5

#: After how many seconds a signal that waits is handled by the next one like it.
_PATIENCE = 1.0


class Interrupts:
    """Signals that Python handles wait until `handle`, an interrupt too.

    A handler runs wherever the main thread is. What it raises may leave a lock of a pool held, and then all threads that
    take the lock wait for ever. Handlers run in no other thread, so there this does nothing."""

    def __init__(self) -> None:
        self._waits = False
        self._handlers: dict[int, Callable[[int, Any], Any]] = {}
        #: When the first signal of each number came that waits.
        self._came: dict[int, float] = {}

    def __enter__(self) -> Interrupts:
        if threading.current_thread() is threading.main_thread():
            handlers = {int(number): signal.getsignal(number) for number in signal.valid_signals()}
            self._handlers = {number: it for number, it in handlers.items() if callable(it)}
        self._waits = True
        try:
            for number in self._handlers:
                signal.signal(number, self._note)
        except BaseException:
            self._restore()
            raise
        return self

    def __exit__(self, *_: object) -> None:
        self._restore()
        self.handle()

    def _restore(self) -> None:
        """Has signals handled as before, by `_note` too, which stays if what one of them raises comes between."""
        self._waits = False
        for number, handler in self._handlers.items():
            signal.signal(number, handler)

    def _note(self, number: int, frame: Any) -> None:
        now = time.monotonic()
        if self._waits and now < self._came.setdefault(number, now) + _PATIENCE:
            return
        self._came.pop(number, None)
        self._handlers[number](number, frame)

    def handle(self) -> None:
        """Calls the handlers of the signals that came, which may raise KeyboardInterrupt."""
        while self._came:
            number, _ = self._came.popitem()
            self._handlers[number](number, inspect.currentframe())


class Threads(Executor):
    """Threads, each of which does one work after another. The end of the process waits for none of them."""

    def __init__(self, count: int) -> None:
        self._works: queue.SimpleQueue[tuple[Future[Any], Callable[[], Any]] | None]
        self._works = queue.SimpleQueue()
        self._threads = [
            threading.Thread(target=self._work, name="chipfire", daemon=True) for _ in range(count)
        ]
        for thread in self._threads:
            thread.start()

    def submit(self, call: Callable[..., T], /, *arguments: Any, **named: Any) -> Future[T]:
        """Has a thread make a call, after all earlier calls."""
        future: Future[T] = Future()
        self._works.put((future, functools.partial(call, *arguments, **named)))
        return future

    def _work(self) -> None:
        while work := self._works.get():
            future, call = work
            if future.set_running_or_notify_cancel():
                try:
                    future.set_result(call())
                except BaseException as error:
                    future.set_exception(error)
            del work, future, call

    def shutdown(self, wait: bool = True, *, cancel_futures: bool = False) -> None:
        """Ends the threads after all calls, and waits for that if asked."""
        for _ in self._threads:
            self._works.put(None)
        for thread in self._threads if wait else ():
            thread.join()


def on_threads(
    works: Iterable[Callable[[], T]], threads: int, stop: Callable[[], object] | None = None
) -> list[T]:
    """What each work returns; each of the threads does one after another. After an error or interrupt no other work
    begins, `stop` is called, and those that have begun are finished."""
    futures: list[Future[T]] = []
    done: queue.SimpleQueue[Future[T]] = queue.SimpleQueue()
    with Interrupts() as interrupts, ThreadPoolExecutor(threads) as pool:
        try:
            for work in works:
                futures.append(pool.submit(work))
                futures[-1].add_done_callback(done.put)
            left = len(futures)
            while left:
                interrupts.handle()
                try:
                    done.get(timeout=WAIT).result()
                except queue.Empty:
                    continue
                left -= 1
        except BaseException:
            if stop is not None:
                stop()
            for future in futures:
                future.cancel()
            raise
    return [future.result() for future in futures]
