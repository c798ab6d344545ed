"""When a program of one's own is over: a detector around its threads, coroutines or processes.

    detector = chipfire.Detector(["crawler", "writer"])
    detector.begin("crawler", "https://example.org")

Each process goes through its messages, and sends others:

    for page in detector["crawler"]:
        detector["crawler"].send("writer", fetch(page))

All these loops end once `detector.wait()` returns: then no message is in transit, and nobody is at work. In asyncio they
are `async for`, and one awaits the detector. `chipfire.lab.books` says what is proved.
"""

from __future__ import annotations

import glob
import importlib
import itertools
import os
import pickle
import queue
import threading
import time
from collections.abc import AsyncIterator, Callable, Generator, Hashable, Iterable, Iterator
from typing import Any, NamedTuple, Union

from chipfire.backend.process import Fault
from chipfire.lab.books import Books, read_books_log
from chipfire.lab.logs import judge_log, JudgedLog, Row
from chipfire.utils import FileName

#: The name of the process that every detector has for itself. No edge leads to it, and it alone begins active.
ROOT = "root"

#: What an inbox gets when all is over.
_OVER = None


class Message(NamedTuple):
    """A message of the computation, on an edge from `tail`."""

    edge: int
    tail: Hashable
    content: Any


class Answer(NamedTuple):
    """How many messages of an edge its head has acknowledged so far."""

    edge: int
    acknowledged: int


#: What an inbox may have: a refusal goes to the root, and the last is that all is over.
Item = Union[Message, Answer, Fault, None]


class _Numbers:
    """The numbers of edges, each greater by one than those before, for the threads of one process."""

    def __init__(self) -> None:
        self._lock = threading.Lock()
        self._count = itertools.count()

    def take(self) -> int:
        """A number that nobody else takes."""
        with self._lock:
            return next(self._count)


class _SharedNumbers:
    """The same for several processes of the system."""

    def __init__(self, context: Any) -> None:
        self._count = context.Value("Q", 0)

    def take(self) -> int:
        """A number that nobody else takes."""
        with self._count.get_lock():
            number = int(self._count.value)
            self._count.value += 1
        return number


def _same(content: Any) -> Any:
    """The content of a message, as it is."""
    return content


class _Backend(NamedTuple):
    """What back ends do not share: what makes an inbox, which never fills up; the numbers of edges; whether one awaits;
    and how the content of a message is packed. So what cannot be pickled is refused before it is noted.
    """

    inbox: Callable[[], Any]
    numbers: Any
    is_async: bool = False
    pack: Callable[[Any], Any] = _same
    unpack: Callable[[Any], Any] = _same


class Process:
    """One process of a detector: ``detector[name]``.

    A loop over a process gets its messages, one after another, and ends when the computation is over. Several threads,
    or coroutines, may loop over one process. If you use `receive` instead of the loop, call `done` once for each
    message, when all work that the message caused has ended.
    """

    def __init__(
        self, name: Hashable, books: Books, inboxes: dict[Hashable, Any], backend: _Backend
    ) -> None:
        self.name = name
        self.books = books
        self._inboxes = inboxes
        self._backend = backend
        self._edges: dict[Hashable, int] = {}
        self._tails: dict[int, Hashable] = {}
        #: How many messages are worked on.
        self._busy = 0
        self._lock = threading.Lock()

    def __getstate__(self) -> dict[str, Any]:
        # (what makes inboxes stays with the detector)
        return {**self.__dict__, "_lock": None, "_backend": self._backend._replace(inbox=list)}

    def __setstate__(self, state: dict[str, Any]) -> None:
        self.__dict__.update(state)
        self._lock = threading.Lock()

    def __repr__(self) -> str:
        return f"<Process {self.name!r}, at work on {self._busy}>"

    def send(self, to: Hashable, content: Any = None) -> None:
        """Sends a message to a process. The sender must be at work on a message."""
        if to not in self._inboxes or to == ROOT:
            raise KeyError(f"there is no process {to!r} to send to")
        packed = self._backend.pack(content)
        with self._lock:
            edge = self._edge_to(to)
            self._noted(self.books.sent, edge)
        self._inboxes[to].put_nowait(Message(edge, self.name, packed))

    def receive(self, timeout: float | None = None) -> Message | None:
        """The next message, or None when the computation is over. The process is at work on the message until
        `done`."""
        if self._backend.is_async:
            raise TypeError("in asyncio one loops by `async for`, or awaits receive_async()")
        while True:
            item = self._inboxes[self.name].get(True, timeout)
            if self._is_for_caller(item):
                return self._unpacked(item)

    async def receive_async(self) -> Message | None:
        """The same as `receive` in asyncio."""
        while True:
            item = await self._inboxes[self.name].get()
            if self._is_for_caller(item):
                return self._unpacked(item)

    def done(self) -> None:
        """Says that the work on a message, and all that the message caused here, has ended. When all messages are done,
        the process is passive."""
        with self._lock:
            if self._busy == 0:
                raise RuntimeError(f"process {self.name!r} is done with more messages than it got")
            self._busy -= 1
        self._acknowledge()

    def __iter__(self) -> Iterator[Any]:
        while (message := self.receive()) is not None:
            yield message.content
            self.done()

    async def __aiter__(self) -> AsyncIterator[Any]:
        while (message := await self.receive_async()) is not None:
            yield message.content
            self.done()

    def _unpacked(self, item: Item) -> Message | None:
        """A message as it was sent; None if it is none."""
        if not isinstance(item, Message):
            return None
        return item._replace(content=self._backend.unpack(item.content))

    def _edge_to(self, to: Hashable) -> int:
        """The edge to a process, which is made when something is first sent there."""
        if to not in self._edges:
            self._edges[to] = self._backend.numbers.take()
            self.books.add_out(self._edges[to])
        return self._edges[to]

    def _is_for_caller(self, item: Item) -> bool:
        """Notes what comes, and says whether the caller gets it: a message, or that all is over."""
        if isinstance(item, Answer):
            self._settle(item)
            return False
        if isinstance(item, Message):
            self._get(item)
        else:
            # (so that the next of several loops ends too)
            self._inboxes[self.name].put_nowait(_OVER)
            self.close_log()
        return True

    def close_log(self) -> None:
        """Closes the file of its rows."""
        with self._lock:
            self.books.close()

    def _get(self, message: Message) -> None:
        """Notes a message. Its edge may be new here."""
        with self._lock:
            if not self.books.has_in(message.edge):
                self.books.add_in(message.edge)
                self._tails[message.edge] = message.tail
            self._noted(self.books.got, message.edge)
            self._busy += 1

    def _settle(self, answer: Answer) -> None:
        """Notes acknowledgements, after which more may be acknowledged."""
        with self._lock:
            self._noted(self.books.settled, answer.edge, answer.acknowledged)
        self._acknowledge()

    def _acknowledge(self) -> None:
        """Acknowledges what may be."""
        with self._lock:
            pairs = self._noted(self.books.acknowledge, self._busy == 0)
        for edge, count in pairs:
            self._inboxes[self._tails[edge]].put_nowait(Answer(edge, count))

    def _noted(self, duty: Callable[..., Any], *words: Any) -> Any:
        """Calls a duty. A refusal goes to the root too, so that nobody waits for ever."""
        try:
            return duty(*words)
        except Fault as fault:
            self._inboxes[ROOT].put_nowait(fault)
            raise


class Detector:
    """Detects when the computation of your processes is over, and sends their messages.

    Each process has one inbox, which never fills up. Edges are made when they are needed. Each process loops over its
    messages, and sends others. `begin` sends the first messages, from the detector's root. `wait`, or ``await`` in
    asyncio, returns when the computation is over. A fault is raised in the process and, if `wait` has not returned yet,
    by `wait` too. In asyncio, make the detector inside the running loop.

    The files of a log are closed when the computation is over; the file of an operating-system process is closed when
    its loop ends. A detector is a context manager: the end of its block, or `close`, closes the files sooner.

    Parameters
    ----------
    processes : iterable of hashable
        The names of the processes.
    backend : {"threading", "asyncio", "multiprocessing"} or context, optional
        How processes run. With "multiprocessing", or a context of that module, pass ``detector[name]`` to an
        operating-system process as an argument, before it is used.
    log : path, optional
        The folder to make for the log. Each process writes a file of rows into it, and `check` judges the rows.

    Raises
    ------
    Fault
        A process does something that is not allowed, such as sending while it is passive.
    ProgramNotFound
        There is no library.

    See Also
    --------
    Books, judge_log

    Notes
    -----
    Proved: the counters of each process, and that the root does not report the end too early if the calls form a legal
    log. Not proved: that the inboxes and loops of Python produce a legal log.

    Examples
    --------
    >>> import threading
    >>> def work(me, got):
    ...     for number in me:
    ...         got.append(number)
    ...         if number:
    ...             me.send("worker", number - 1)
    >>> detector, got = chipfire.Detector(["worker"]), []
    >>> detector.begin("worker", 3)
    >>> threading.Thread(target=work, args=(detector["worker"], got)).start()
    >>> detector.wait(timeout=60)
    >>> got
    [3, 2, 1, 0]
    """

    def __init__(
        self,
        processes: Iterable[Hashable],
        backend: Any = "threading",
        *,
        log: FileName | None = None,
    ) -> None:
        self._backend = _backend(backend)
        self._log = log
        if log is not None:
            os.makedirs(log, exist_ok=True)
            if glob.glob(os.path.join(glob.escape(os.fspath(log)), "*.rows")):
                raise FileExistsError(f"{os.fspath(log)} has rows of a run before")
        self._inboxes: dict[Hashable, Any] = {}
        self._processes: dict[Hashable, Process] = {}
        #: Held by who adds a process, or says that all is over.
        self._lock = threading.Lock()
        self._is_over = False
        self._root = self._added(ROOT)
        for name in processes:
            self._added(name)

    def __getitem__(self, name: Hashable) -> Process:
        """The process of this name."""
        return self._processes[name]

    def join(self, name: Hashable) -> Process:
        """Adds a process, also while others run."""
        if isinstance(self._backend.numbers, _SharedNumbers):
            raise ValueError(
                "processes of the system share no inbox that comes later: name all at the start"
            )
        return self._added(name)

    def begin(self, name: Hashable, content: Any = None) -> None:
        """Starts a process by a message. Any other process works only when a process sends to it."""
        self._root.send(name, content)

    def wait(self, timeout: float | None = None) -> None:
        """Blocks until the computation has ended. Each `begin` comes before this call. Raises TimeoutError after `timeout`
        seconds."""
        inbox = self._inboxes[ROOT]
        if self._backend.is_async:
            raise TypeError("in asyncio a detector is awaited")
        until = None if timeout is None else time.monotonic() + timeout
        while not self._ends():
            left = None if until is None else max(0.0, until - time.monotonic())
            try:
                item = inbox.get(True, left)
            except queue.Empty:
                raise TimeoutError(f"it is not over after {timeout} seconds") from None
            self._hear(item)

    def close(self) -> None:
        """Closes the files of the log that are open here. Each later row opens its file again, and closes it."""
        with self._lock:
            processes = [*self._processes.values()]
        for process in processes:
            process.close_log()

    def __enter__(self) -> Detector:
        return self

    def __exit__(self, *_: object) -> None:
        self.close()

    def __await__(self) -> Generator[Any, None, None]:
        return self._wait_async().__await__()

    def check(self) -> JudgedLog:
        """What the program says of the rows that all processes wrote: whether the claim was right in every order."""
        if self._log is None:
            raise ValueError("the detector has no log")
        names = list(self._processes)
        rows: list[Row] = []
        for process in range(len(names)):
            file = self._file(process)
            if file is not None and os.path.isfile(file):
                rows += [(names[it], kind, edge) for it, kind, edge in read_books_log(file)]
        return judge_log(rows, processes=[ROOT])

    async def _wait_async(self) -> None:
        """The same as `wait` in asyncio."""
        while not self._ends():
            self._hear(await self._inboxes[ROOT].get())

    def _file(self, process: int) -> str | None:
        """The file of a process's rows, if there is a log."""
        return None if self._log is None else os.path.join(self._log, f"{process}.rows")

    def _added(self, name: Hashable) -> Process:
        """Adds a process. One that comes when all is over has nothing to do."""
        with self._lock:
            if name in self._processes:
                whose = ", the detector's own" if name == ROOT else ""
                raise ValueError(f"there is a process {name!r}{whose}")
            number = len(self._processes)
            books = Books(root=name == ROOT, process=number, log=self._file(number))
            inbox = self._inboxes[name] = self._backend.inbox()
            added = Process(name, books, self._inboxes, self._backend)
            self._processes[name] = added
            if self._is_over:
                inbox.put_nowait(_OVER)
        return added

    def _ends(self) -> bool:
        """Whether all is over. If it is, all processes get notice of it."""
        with self._root._lock:
            is_over = self._root.books.is_over()
        if is_over:
            self._tell_all()
        return is_over

    def _hear(self, item: Item) -> None:
        """Notes what the root gets: an acknowledgement, or a refusal, with which nothing can be known any more."""
        if isinstance(item, Fault):
            self._tell_all()
            raise item
        if isinstance(item, Answer):
            self._root._settle(item)

    def _tell_all(self) -> None:
        """Has the loops of all processes end."""
        with self._lock:
            self._is_over = True
            for name, inbox in self._inboxes.items():
                if name != ROOT:
                    inbox.put_nowait(_OVER)
        self.close()


def _backend(backend: Any) -> _Backend:
    """What a back end has, by its name, or by a context of multiprocessing."""
    if backend == "threading":
        return _Backend(queue.SimpleQueue, _Numbers())
    if backend == "asyncio":
        return _Backend(importlib.import_module("asyncio").Queue, _Numbers(), is_async=True)
    context = importlib.import_module(backend) if backend == "multiprocessing" else backend
    if not hasattr(context, "Value"):
        known = "threading, asyncio, multiprocessing or a context of that module"
        raise ValueError(f"there is no back end {backend!r}: it is {known}")
    shared = _SharedNumbers(context)
    return _Backend(context.Queue, shared, False, pickle.dumps, pickle.loads)
