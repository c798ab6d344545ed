"""The books of a process: its counters for the detector of Dijkstra and Scholten, kept by calls of the library.

The calls are proved; docs/tasks/detect-your-own.md says what that means, and which duties are the caller's. Each duty
may also write a row for `judge`, so that the logs of all processes show what the books of one cannot.
"""

from __future__ import annotations

import bisect
import ctypes
from array import array
from collections.abc import Iterable
from typing import Any, TextIO, Union

from chipfire.backend import library
from chipfire.backend.process import Fault
from chipfire.lab.logs import Row
from chipfire.utils import as_int, FILE, FileName

#: The parent of a process that no message engages: the number of no edge.
_NEUTRAL = 2**64 - 1

#: Faults: a count or an edge that the books refuse, and a passive process that sends.
_REFUSED, _PASSIVE = 46, 32

#: Where rows go: the end of a file, whose rows have no header, or of a list.
Log = Union[FileName, "list[Row]"]


def _as_edge(edge: Any) -> int:
    """The number of an edge. (ctypes would take the remainder of a greater one.)"""
    return as_int(edge, "an edge", 0, _NEUTRAL - 1)


class _Side:
    """The tallies of the edges into a process, or out of it: three words each, by ascending edges."""

    def __init__(self, edges: Iterable[int]) -> None:
        self.edges = sorted(map(_as_edge, edges))
        if len(set(self.edges)) < len(self.edges):
            raise ValueError("an edge is named twice")
        self.words = array("Q", [word for edge in self.edges for word in (edge, 0, 0)])

    def array(self) -> tuple[int, int]:
        """Where the tallies begin, and how many there are. An address stays until an edge is added."""
        if not self.edges:
            return _NOTHING.buffer_info()[0], 0
        return self.words.buffer_info()[0], len(self.edges)

    def add(self, edge: int) -> None:
        """Adds an edge with counts 0."""
        place = bisect.bisect_left(self.edges, edge)
        if self.edges[place : place + 1] == [edge]:
            raise ValueError(f"edge {edge} is there")
        self.edges.insert(place, edge)
        self.words[3 * place : 3 * place] = array("Q", (edge, 0, 0))

    def __contains__(self, edge: int) -> bool:
        place = bisect.bisect_left(self.edges, edge)
        return self.edges[place : place + 1] == [edge]


_NOTHING = array("Q", [0])


class Books:
    """The counters of one process for the detector of Dijkstra and Scholten, kept by calls of the library.

    Use `Books` in a program that sends messages by its own means; `Detector` sends messages for you. The process calls
    `sent` before a message can be received, `got` when a message arrives and before the work on it, and `acknowledge`
    and `settled` at any time. Only the root calls `is_over`. Only one thread may call at a time.

    Parameters
    ----------
    ins, outs : iterable of int, optional
        The numbers of the edges into the process and out of it.
    root : bool, optional
        Whether the process is the root: it begins at work, and no edge leads to it.
    process : int, optional
        The number of the process in the log.
    log : file or list, optional
        Gets a row (process, kind, channel) for `judge_log` at each call. Rows in files have no header. A file stays
        open until `close`.

    Raises
    ------
    Fault
        A call is refused, and changes nothing. The fault is 46 for a wrong edge or count, and 32 if the process sends
        while it is passive.
    ProgramNotFound
        There is no library.

    See Also
    --------
    Detector, judge_log

    Notes
    -----
    Books can be pickled; a log that is a list is copied.

    Proved: each call notes exactly its step on sound counters. If the calls of all processes form a legal log,
    `is_over` returns true only when the computation is over. Not proved: that your program calls at the right moments,
    and what Python adds.

    Examples
    --------
    The root sends a message, which is acknowledged:

    >>> root, other = chipfire.Books(outs=[0], root=True), chipfire.Books(ins=[0])
    >>> root.sent(0)
    >>> other.got(0)
    >>> root.is_over()
    False
    >>> for edge, count in other.acknowledge(passive=True):
    ...     _ = root.settled(edge, count)
    >>> root.is_over()
    True
    """

    def __init__(
        self,
        ins: Iterable[int] = (),
        outs: Iterable[int] = (),
        *,
        root: bool = False,
        process: int = 0,
        log: Log | None = None,
    ) -> None:
        self._ins = _Side(ins)
        self._outs = _Side(outs)
        if root and self._ins.edges:
            raise ValueError("no edge leads to the root: put one of your own before the process")
        self._owed = set[int]()
        self._open(_NEUTRAL)
        self.process = as_int(process, "process")
        self.is_root = root
        #: Whether the process may send: the root from the beginning, others from a message on, until they are passive.
        self.is_active = root
        self._has_claimed = False
        self._log = log
        self._file: TextIO | None = None
        self._keeps_file = True
        if root:
            self._note("active")

    def __getstate__(self) -> dict[str, Any]:
        own = {**self.__dict__, "_file": None}
        del own["_library"], own["_books"]
        return {**own, "parent": self._books.parent}

    def __setstate__(self, state: dict[str, Any]) -> None:
        own = {**state}
        parent = own.pop("parent")
        self.__dict__.update(own)
        self._open(parent)

    def __repr__(self) -> str:
        state = "active" if self.is_active else "passive"
        return f"<Books of process {self.process}, {state}, deficit {self.deficit}>"

    @property
    def deficit(self) -> int:
        """How many acknowledgements the process waits for."""
        return int(self._books.deficit)

    @property
    def parent(self) -> int | None:
        """The edge of the message that engaged the process; None if it is neutral."""
        parent = int(self._books.parent)
        return None if parent == _NEUTRAL else parent

    def add_in(self, edge: int) -> None:
        """Adds an edge into the process, as if the edge had been there from the start, with counts 0."""
        if self.is_root:
            raise ValueError("no edge leads to the root")
        self._ins.add(_as_edge(edge))
        self._point()

    def add_out(self, edge: int) -> None:
        """Adds an edge out of the process, as if the edge had been there from the start, with counts 0."""
        self._outs.add(_as_edge(edge))
        self._point()

    def has_in(self, edge: int) -> bool:
        """Whether the edge leads to the process."""
        return edge in self._ins

    def sent(self, edge: int) -> None:
        """Notes a message that the process sends, before any process can receive it."""
        edge = _as_edge(edge)
        if not self.is_active:
            raise _fault(_PASSIVE, self.process, f"it sends on edge {edge} while it is passive")
        self._call("sent", f"no message can be sent on edge {edge}", edge)
        self._note("send", edge)

    def got(self, edge: int) -> None:
        """Notes a message that the process receives, before the work on it begins."""
        edge = _as_edge(edge)
        self._call("got", f"no message can be got on edge {edge}", edge)
        self._owed.add(edge)
        self.is_active = True
        self._note("receive", edge)

    def acknowledge(self, passive: bool) -> list[tuple[int, int]]:
        """Acknowledges all messages that it may, and returns pairs of an edge and the number of its messages
        acknowledged so far.

        Pass each pair to the tail of its edge, for `settled`. A later pair of an edge replaces an earlier pair.
        `passive` says that the process sends nothing, and that only a message makes it work again.
        """
        if passive:
            self._rest()
        pairs = [self._acknowledged(edge, passive) for edge in sorted(self._owed, key=self._last)]
        return [(edge, count) for edge, more, count in pairs if more]

    def settled(self, edge: int, count: int) -> int:
        """Notes how many messages of an edge its head has acknowledged, by its latest count or an earlier one. Returns
        how many of these are new."""
        edge, count = _as_edge(edge), as_int(count, "a count", 0, _NEUTRAL)
        more = ctypes.c_uint64()
        why = f"{count} acknowledgements on edge {edge} are more than its messages"
        self._call("settled", why, edge, count, more)
        self._note("hear", edge, more.value)
        return more.value

    def is_over(self, ended: bool = True) -> bool:
        """Whether the computation is over. Only the root calls this. `ended` says that the root sends no more, and
        remains true for later calls."""
        if not self.is_root:
            raise ValueError(f"process {self.process} is not the root, which alone can know")
        if ended:
            self._rest()
        over = ctypes.c_uint64()
        has_ended = not self.is_active
        self._call("is_over", "its books are not sound", has_ended, over)
        if over.value and not self._has_claimed:
            self._has_claimed = True
            self._note("over")
        return bool(over.value)

    def close(self) -> None:
        """Closes the file of the log, if it is open. Each later row opens the file again, and closes it."""
        self._keeps_file = False
        if self._file is not None:
            self._file.close()
            self._file = None

    def _last(self, edge: int) -> tuple[bool, int]:
        """Sorts the parent after the others, since its last message waits for all of theirs."""
        return edge == self._books.parent, edge

    def _acknowledged(self, edge: int, passive: bool) -> tuple[int, int, int]:
        """Acknowledges what may be on an edge: how many messages that are, and how many with those before them."""
        count, so_far = ctypes.c_uint64(), ctypes.c_uint64()
        why = f"its acknowledgements on edge {edge}"
        self._call("acknowledge", why, edge, passive, count, so_far)
        if edge != self._books.parent:
            self._owed.discard(edge)
        self._note("tell", edge, count.value)
        return edge, count.value, so_far.value

    def _rest(self) -> None:
        """Notes that the process is passive, if it was not."""
        if self.is_active:
            self.is_active = False
            self._note("passive")

    def _open(self, parent: int) -> None:
        """Has the library keep the sums of both sides, with this parent."""
        self._library = library.books()
        self._books = library.BooksStruct(parent=parent)
        self._point()
        self._call("open", "its books are not sound")

    def _point(self) -> None:
        """Gives the library the addresses of both sides."""
        self._books.ins, self._books.ins_len = self._ins.array()
        self._books.outs, self._books.outs_len = self._outs.array()

    def _call(self, name: str, why: str, *words: Any) -> None:
        """Makes a call of the library; `why` says what a refusal means."""
        number = getattr(self._library, f"chipfire_books_{name}")(self._books, *words)
        if number:
            raise _fault(number, self.process, why)

    def _note(self, kind: str, channel: int = 0, times: int = 1) -> None:
        """Writes rows, if there is a log."""
        if self._log is None:
            return
        row = (self.process, kind, channel)
        if not isinstance(self._log, FILE):
            self._log += [row] * times
            return
        rows = f"{self.process},{kind},{channel}\n" * times
        if not self._keeps_file:
            with open(self._log, "a", encoding="ascii") as file:
                file.write(rows)
            return
        if self._file is None:
            self._file = open(self._log, "a", buffering=1, encoding="ascii")
        self._file.write(rows)


def read_books_log(file: FileName) -> list[Row]:
    """The rows of a file that books wrote."""
    with open(file, encoding="ascii") as lines:
        fields = [line.rstrip("\n").split(",") for line in lines]
    return [(int(process), kind, int(channel)) for process, kind, channel in fields]


def _fault(number: int, process: int, why: str) -> Fault:
    """The refusal of a duty of a process."""
    names = {_REFUSED: "Books", _PASSIVE: "Passive"}
    name = names.get(number, "NotYet")
    words = f"process {process}: {why}"
    return Fault(number, name, (process,), "", 1, words)
