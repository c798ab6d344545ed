"""libchipfire in this process: where it is, and its calls on arrays of whole numbers from 0 to 2^64 - 1.

    chips, fired, stopped = (array("Q", numbers) for numbers in ([9, 0, 0, 0, 0], [0] * 5, [0]))
    chipfire.library.stabilize_all(chipfire.grid(2, 2), chips, fired, stopped)

An array is an `array.array("Q")`, or one of NumPy of `uint64` in C's order that can be written. No two arrays of a call
overlap, and no other thread writes to one meanwhile. On a fault all stay as they were.

`plain`, `drops`, and what depends on them go this way, however long a play is, if neither the call nor CHIPFIRE names a
program, no file has the game, the library lies where the program does and has the package's version. A package for a C
library that is too old for the program carries the library alone. Else the program runs, as a process. So it does in
a forked child of a process that had more threads than one, of any language, since the library asks for memory: those of
NumPy's linear algebra count, too (OPENBLAS_NUM_THREADS=1 starts none). To load a library runs code of it, so it is seen
before whether somebody else can change it, and which version is stated of it.
"""

from __future__ import annotations

import ctypes
import functools
import hashlib
import os
import platform
import threading
import warnings
from array import array
from collections.abc import Sequence
from typing import Any, TYPE_CHECKING

from chipfire.backend.finding import (
    CARRIED,
    carries_library_alone,
    find_program,
    ProgramNotFound,
    source_of_version,
    version,
    version_of,
)
from chipfire.backend.portions import apart, Portions
from chipfire.backend.process import refused
from chipfire.backend.trust import doubt
from chipfire.utils import as_int, FileName, MAX_LIMIT, numpy_in_use, package_text

if TYPE_CHECKING:
    from chipfire.graphs.graph import Graph

#: How many visits of vertices and edges a call makes at most, in about a tenth of a second, that plays many games.
_VISITS = 2**26

_NAME = "libchipfire.so"
_REMEDY = "`./chipfire` in a clone of the repository puts program and library into target/, and a wheel carries both"
_NUMBER = ctypes.c_uint64
_SLICE = (ctypes.c_void_p, ctypes.c_size_t)
_OUT = ctypes.POINTER(_NUMBER)


class BooksStruct(ctypes.Structure):
    """The books of a process as the calls with sums take them: both sides, the parent, what is owed, and the deficit."""

    _fields_ = [
        ("ins", ctypes.c_void_p),
        ("ins_len", ctypes.c_size_t),
        ("outs", ctypes.c_void_p),
        ("outs_len", ctypes.c_size_t),
        ("parent", _NUMBER),
        ("owed", _NUMBER),
        ("deficit", _NUMBER),
    ]


_STRUCT = ctypes.POINTER(BooksStruct)

#: What the calls on the books of a process take.
_BOOKS: dict[str, tuple[Any, ...]] = {
    "sent": (*_SLICE, _NUMBER),
    "got": (*_SLICE, _OUT, _NUMBER),
    "may_ack": (*2 * _SLICE, _NUMBER, _NUMBER, _NUMBER, _OUT),
    "acked": (*2 * _SLICE, _OUT, _NUMBER, _NUMBER, _NUMBER),
    "settled": (*_SLICE, _NUMBER, _NUMBER, _OUT),
    "deficit": (*_SLICE, _OUT),
    "is_over": (*_SLICE, _NUMBER, _OUT),
    "books_check": (*2 * _SLICE, _NUMBER),
    "books_open": (_STRUCT,),
    "books_verify": (_STRUCT,),
    "books_sent": (_STRUCT, _NUMBER),
    "books_got": (_STRUCT, _NUMBER),
    "books_acknowledge": (_STRUCT, _NUMBER, _NUMBER, _OUT, _OUT),
    "books_settled": (_STRUCT, _NUMBER, _NUMBER, _OUT),
    "books_is_over": (_STRUCT, _NUMBER, _OUT),
}

#: The calls on rows of configurations, and what each takes after the graph.
_ROW_CALLS = {
    "chipfire_burning": (*_SLICE, *_SLICE),
    "chipfire_are_recurrent": (*_SLICE, *_SLICE),
    "chipfire_recurrent": (ctypes.c_size_t, *_SLICE),
    "chipfire_superstable": (ctypes.c_size_t, *_SLICE),
    "chipfire_inverse": (ctypes.c_size_t, *_SLICE),
    "chipfire_identity": _SLICE,
}

#: No numbers, one number, and an array of length 0, which points to something.
_NONE = array("Q")
_ZERO = array("Q", [0])
_NOTHING = _ZERO.buffer_info()[0], 0


class _Fork:
    """Whether this process was forked beside other threads: then it may take no memory in the library."""

    had_threads = False
    is_beside_threads = False

    @classmethod
    def before(cls) -> None:
        cls.had_threads = _count_threads() > 1

    @classmethod
    def in_child(cls) -> None:
        cls.is_beside_threads |= cls.had_threads


def _count_threads() -> int:
    """How many threads this process has, of any language; those of Python alone, if the system does not say."""
    try:
        return len(os.listdir("/proc/self/task"))
    except OSError:
        return threading.active_count()


if hasattr(os, "register_at_fork"):
    os.register_at_fork(before=_Fork.before, after_in_child=_Fork.in_child)


def _places(folder: str) -> list[str]:
    """Where the library may lie that goes with the program in a folder: beside it, or where both are installed."""
    beside = os.path.join(folder, _NAME)
    if os.path.basename(folder) != "bin":
        return [beside]
    installed = os.path.join(os.path.dirname(folder), "lib")
    return [
        beside,
        os.path.join(installed, _NAME),
        os.path.join(installed, f"{platform.machine()}-linux-gnu", _NAME),
    ]


def _stated(file: str, folder: str) -> str:
    """The version that is stated of a library that goes with the program in a folder, without loading it; "" if none is.

    A wheel, an archive and a Debian package have PROVED, which states the version and the library's checksum. In a
    clone the sources state it, and `./chipfire` keeps a stamp beside what it took or built of them: that is of these
    sources if the stamp is not older."""
    around = os.path.dirname(folder)
    beside = os.path.join(folder, "PROVED")
    installed = os.path.join(around, "share", "doc", "chipfire", "PROVED")
    for proved in (beside, installed):
        if os.path.isfile(proved):
            lines = package_text(proved).splitlines()
            with open(file, "rb") as library:
                checksum = hashlib.sha256(library.read()).hexdigest()
            # (of another machine than x86-64 it stands before the name)
            is_meant = any(line.endswith(f"{_NAME} sha256:{checksum}") for line in lines)
            return lines[0].partition(" ")[2] if is_meant else ""
    if not all(map(os.path.isfile, _stamp_and_source(folder))) or _has_old_stamp(folder):
        return ""
    return version_of(around)


def _stamp_and_source(folder: str) -> tuple[str, str]:
    """The stamp of `./chipfire` in a folder, and the source of the version that is of this stamp unless it is newer."""
    return os.path.join(folder, "chipfire.stamp"), source_of_version(os.path.dirname(folder))


def _has_old_stamp(folder: str) -> bool:
    """Whether the source has changed after the stamp."""
    stamp, source = _stamp_and_source(folder)
    if not os.path.isfile(stamp) or not os.path.isfile(source):
        return False
    changed = os.stat(source)
    return os.stat(stamp).st_mtime_ns < max(changed.st_mtime_ns, changed.st_ctime_ns)


def _why_not(file: str, folder: str) -> str | None:
    """Why a library that is there is not loaded, which would run code of it; None if it may be."""
    # (what the package carries is trusted as the package is)
    why = None if folder == os.path.dirname(CARRIED) else doubt(file)
    if why:
        return f"{file} is not loaded, since {why}"
    stated = _stated(file, folder)
    if not stated and _has_old_stamp(folder):
        stamp, source = _stamp_and_source(folder)
        return f"{file} is not loaded, since {source} has changed after {stamp}, which ./chipfire renews"
    if not stated:
        return f"{file} is not loaded, since neither PROVED nor the stamp of ./chipfire states its version"
    return (
        None if stated == version() else f"{file} has version {stated}, and the package {version()}"
    )


def _load(file: str) -> ctypes.CDLL:
    """Loads the library, and says what its calls take."""
    found = ctypes.CDLL(file)
    found.chipfire_version.restype = _NUMBER
    number = found.chipfire_version()
    own = f"{number // 10**6}.{number // 1000 % 1000}.{number % 1000}"
    if own != version():
        raise OSError(f"it has version {own}, and the package {version()}")
    calls = (
        (found.chipfire_stabilize_all, 4),
        (found.chipfire_avalanches, 6),
        (found.chipfire_verify, 3),
    )
    for call, slices in calls:
        _declare(call, _NUMBER, *slices * _SLICE)
    for name, words in _ROW_CALLS.items():
        _declare(getattr(found, name), *words)
    _declare_piles(found)
    for name, words in _BOOKS.items():
        call = getattr(found, f"chipfire_{name}")
        call.restype = _NUMBER
        call.argtypes = [*words]
    return found


def _declare(call: Any, *words: Any) -> None:
    """Says what a call takes: a graph, these words, and where to write the place of a fault."""
    call.restype = _NUMBER
    call.argtypes = [_NUMBER, _NUMBER, *3 * _SLICE, *words, _OUT]


def _declare_piles(found: ctypes.CDLL) -> None:
    """Says what the calls on piles take."""
    pile = number_at = ctypes.c_void_p
    calls = (
        (found.chipfire_pile_new, (_NUMBER, _NUMBER, *3 * _SLICE, _NUMBER, *_SLICE, number_at)),
        (found.chipfire_pile_put, (_NUMBER, *_SLICE)),
        (found.chipfire_pile_play, (_NUMBER, number_at)),
        (found.chipfire_pile_measure, (*2 * _SLICE, _NUMBER, *8 * _SLICE, number_at)),
        (
            found.chipfire_pile_random_recurrent,
            (_NUMBER, _NUMBER, ctypes.c_size_t, *_SLICE, number_at),
        ),
        (found.chipfire_pile_chips, _SLICE),
        (found.chipfire_pile_fired, _SLICE),
        (found.chipfire_pile_size, ()),
    )
    for call, words in calls:
        call.restype = _NUMBER
        call.argtypes = [pile, *words]
    # (it takes values of these types, which are made once: to convert numbers takes as long as a short drop)
    found.chipfire_pile_drop.restype = _NUMBER
    found.chipfire_pile_free.restype = None
    found.chipfire_pile_free.argtypes = [pile]


@functools.cache
def _beside(named: str | None = None) -> tuple[ctypes.CDLL | None, str]:
    """The library of the program that is found, and an empty text; or None, and why it is not loaded. It is kept for
    each program that CHIPFIRE `named`."""
    is_alone = carries_library_alone() and not named
    folder = os.path.dirname(CARRIED if is_alone else os.path.realpath(find_program()))
    file = next(filter(os.path.isfile, _places(folder)), None)
    if file is None:
        return None, f"there is none beside {folder}"
    try:
        why = _why_not(file, folder)
        if why is None:
            return _load(file), ""
    except (OSError, AttributeError) as error:
        why = f"{file} cannot be loaded: {error}"
    if not named:
        warnings.warn(f"{why}: each call starts the program, slower", stacklevel=2)
    return None, why


def loaded() -> ctypes.CDLL | None:
    """The library, if CHIPFIRE does not name a program and this process was not forked beside threads."""
    return None if _why_not_asked() else _beside()[0]


def _why_not_asked() -> str:
    """Why no library is asked for, even if there is one."""
    if os.environ.get("CHIPFIRE"):
        return "CHIPFIRE names a program, which takes its place"
    if _Fork.is_beside_threads:
        return 'this process was forked beside threads: start it by multiprocessing.get_context("spawn")'
    return ""


def why_none() -> str:
    """Why there is no library to call, and how one gets it; "" if there is one."""
    if why := _why_not_asked():
        return why
    found, why = _beside()
    return f"{why}; {_REMEDY}" if found is None else ""


def find_library() -> str | None:
    """The library's file, or None if each call starts the program."""
    return str(found._name) if (found := loaded()) else None


def books() -> ctypes.CDLL:
    """The library, for its calls on the books of processes. They take no program's place, so CHIPFIRE may name one: then
    it is the library that lies beside that."""
    named = os.environ.get("CHIPFIRE")
    found, why = _beside(named) if named else _beside()
    if found is None:
        raise ProgramNotFound(2, f"books are calls of the library, and {why}; {_REMEDY}", _NAME)
    return found


def slice_of(name: str, numbers: Any) -> tuple[int, int]:
    """Where an array begins, and how many numbers it has."""
    if isinstance(numbers, array) and numbers.typecode == "Q":
        return numbers.buffer_info() if numbers else _NOTHING
    try:
        view = memoryview(numbers)
        if view.format in ("Q", "L"):
            return (
                (ctypes.addressof(ctypes.c_char.from_buffer(view)), view.nbytes // 8)
                if view.nbytes
                else _NOTHING
            )
    except TypeError:
        pass
    kind = "array of 64-bit numbers from 0 on, one after another, that can be written"
    raise TypeError(f"the {name} are no {kind}: {type(numbers).__name__}")


def _call(call: Any, graph: Graph, numbers: Sequence[int], *arrays: Any, but: int = 0) -> int:
    """Makes a call of the library, with some numbers between graph and arrays. A fault is raised, `but` this one, whose
    number is returned; 0 if there is none."""
    place = _NUMBER()
    of_graph = (min(graph.vertices, 2**64 - 1), min(graph.sink, 2**64 - 1))
    # As long as there are views no array gets another length.
    views = [memoryview(numbers) for numbers in arrays]
    words = [
        word for column in (*graph.long_columns, *arrays) for word in slice_of("numbers", column)
    ]
    status: int = call(*of_graph, *words[:6], *numbers, *words[6:], place)
    for view in views:
        view.release()
    if status not in (0, but):
        raise refused(status, place.value, graph)
    return status


def _call_on(call: str, graph: Graph, limit: int, **arrays: Any) -> None:
    """Makes a call on arrays of others, which must not overlap."""
    found = loaded()
    if found is None:
        raise ProgramNotFound(2, f"there is no library to call: {why_none()}", _NAME)
    edges = [("edges", column) for column in graph.long_columns]
    ends = sorted(slice_of(name, numbers) for name, numbers in [*edges, *arrays.items()])
    if any(start + 8 * length > other for (start, length), (other, _) in zip(ends, ends[1:])):
        raise ValueError(f"two of the {', '.join(arrays)} overlap")
    _call(getattr(found, call), graph, [as_int(limit, "limit", 0, MAX_LIMIT)], *arrays.values())


def stabilize_all(
    graph: Graph,
    chips: Any,
    fired: Any,
    stopped: Any,
    *,
    guesses: Any = _NONE,
    limit: int = MAX_LIMIT,
) -> None:
    """Stabilizes many games on a graph. `chips` has those of one game after another, and gets those at the end.

    `fired` is as long, and gets how often each vertex fired. `stopped` gets of each game how many vertices the limit
    stopped. `guesses` is empty, or as long as `chips`: how often each vertex may have fired in the end.
    """
    _call_on(
        "chipfire_stabilize_all",
        graph,
        limit,
        guesses=guesses,
        chips=chips,
        fired=fired,
        stopped=stopped,
    )


def avalanches(
    graph: Graph,
    at: Any,
    amounts: Any,
    chips: Any,
    sizes: Any,
    extents: Any,
    losts: Any,
    *,
    limit: int = MAX_LIMIT,
) -> None:
    """Drops `amounts` of chips on the vertices `at`, one after another, on `chips`, which gets what lies there then.

    `sizes`, `extents` and `losts` get the numbers of each drop, as `Drops` has them. The limit counts all firings of a
    vertex; if it stops the play of a drop, that is fault 13."""
    rows = {"sizes": sizes, "extents": extents, "losts": losts}
    _call_on("chipfire_avalanches", graph, limit, at=at, amounts=amounts, chips=chips, **rows)


def stabilize_some(
    found: ctypes.CDLL, graph: Graph, chips: array[int], fired: array[int], games: slice, limit: int
) -> list[int | None]:
    """Plays some of the games that lie one after another, as `stabilize_all` does; how many vertices of each the limit
    stopped, or None of one that is too long for this call, whose chips and counts are any then.

    By a smaller limit of its own the call makes a known number of visits at most, whatever the games are.
    """
    width = graph.vertices
    size = (games.stop - games.start) * (width + len(graph.columns.tails))
    within = min(limit, _VISITS // max(size, 1))
    numbers = slice(games.start * width, games.stop * width)
    arrays = [memoryview(it)[numbers] for it in (chips, fired)]
    stopped = _ZERO * (len(arrays[0]) // (width or 1))
    _call(found.chipfire_stabilize_all, graph, [within], _NONE, *arrays, stopped)
    return [None if over and within < limit else over for over in stopped]


def stabilize_from(
    found: ctypes.CDLL,
    graph: Graph,
    chips: array[int],
    limit: int,
    guess: array[int],
) -> tuple[array[int], array[int], int]:
    """Plays a game as `stabilize_all` does, from counts that are a guess: chips, counts, and how many vertices the limit
    stopped. If it is no short play, a thread makes it."""

    def work(within: int) -> tuple[array[int], array[int], int]:
        left, fired, stopped = chips[:], _ZERO * len(chips), _ZERO[:]
        _call(found.chipfire_stabilize_all, graph, [within], guess, left, fired, stopped)
        return left, fired, stopped[0]

    within = min(limit, _VISITS // max(graph.vertices + len(graph.columns.tails), 1))
    if max(guess) <= within:
        found_soon = work(within)
        if not found_soon[2] or within == limit:
            return found_soon
    return apart(lambda: work(limit))


def is_end(
    graph: Graph,
    chips: array[int],
    fired: array[int],
    ends: array[int],
    program: FileName | None,
    limit: int,
) -> bool | None:
    """Whether these are the counts and the chips at the end of a game; or None if that is the program's to say.

    To verify what is right takes passes over the graph, and what is wrong is played. If that may be long, it is found here
    that it is wrong: the counts leave other chips, or a vertex may fire. Counts beyond these are too high, and the library
    lowers them, by a thread."""
    found = loaded() if program is None else None
    if not found:
        return None
    call, arrays = found.chipfire_verify, (chips, fired, ends)

    def is_end_within(most: int) -> bool:
        return _call(call, graph, [most], *arrays, but=53) == 0

    # (a game that is stopped here and not by its limit has a vertex that fires more often)
    within = min(limit, max(fired, default=0) + 1)
    if within * (graph.vertices + len(graph.columns.tails)) <= _VISITS:
        return is_end_within(within)
    if _may_end(graph, chips, fired, ends, limit):
        return apart(lambda: is_end_within(limit))
    # (the library refuses what is no game, in any case)
    is_end_within(0)
    return False


def _may_end(
    graph: Graph, chips: array[int], fired: array[int], ends: array[int], limit: int
) -> bool:
    """Whether these counts leave these chips, of which each vertex has too few to fire, or has fired as often as the limit
    allows. A graph on which nothing can be played has no such counts."""
    if graph.wrong or max(fired) > limit or _left(graph, chips, fired) != ends:
        return False
    vertices = zip(graph.degrees(), ends, fired)
    return all(not degree or count < degree or times == limit for degree, count, times in vertices)


def _left(graph: Graph, chips: array[int], fired: array[int]) -> array[int]:
    """The chips that counts leave, each less a multiple of 2^64."""
    numpy = numpy_in_use()
    if not numpy:
        return array("Q", [count % 2**64 for count in graph.position_after(chips, fired)])
    tails, heads, mults = (numpy.frombuffer(column, "q") for column in graph.long_columns)
    left = array("Q", chips)
    count = numpy.frombuffer(left, "q")
    sent = mults * numpy.frombuffer(fired, "q")[tails]
    numpy.add.at(count, heads, sent)
    numpy.subtract.at(count, tails, sent)
    return left


def _call_of(name: str, program: FileName | None) -> Any:
    """The call of this name, if there is a library; it is made where a play is short, since it cannot be interrupted."""
    found = loaded() if program is None else None
    return getattr(found, name) if found else None


def burning(graph: Graph, program: FileName | None) -> tuple[array[int], array[int]] | None:
    """The least burning script and its chips; or None if that is Python's to find."""
    call = _call_of("chipfire_burning", program)
    if not call:
        return None
    script, chips = _ZERO * graph.vertices, _ZERO * graph.vertices
    _call(call, graph, [], script, chips)
    return script, chips


def are_recurrent(graph: Graph, rows: array[int], program: FileName | None) -> array[int] | None:
    """Of each configuration 1 if it is recurrent, else 0; or None if that is Python's to find. Only stable ones are played,
    so what a call takes is like what the one before it took."""
    call = _call_of("chipfire_are_recurrent", program)
    if not call:
        return None
    width = graph.vertices
    flags = _ZERO * (len(rows) // (width or 1))
    for some in Portions(len(flags) or 1):
        numbers = memoryview(rows)[some.start * width : some.stop * width]
        _call(call, graph, [], numbers, memoryview(flags)[some])
    return flags


def representative(
    graph: Graph, form: str, chips: array[int], program: FileName | None
) -> array[int] | None:
    """The `recurrent`, the `superstable` or the `inverse` configuration of a class, in place of the chips; or None if that
    is Python's to find, and then these stay."""
    call = _call_of(f"chipfire_{form}", program)
    if not call:
        return None
    _call(call, graph, [1], chips)
    return chips


def identity(graph: Graph, program: FileName | None) -> array[int] | None:
    """The identity of the sandpile group; or None if that is Python's to find."""
    call = _call_of("chipfire_identity", program)
    if not call:
        return None
    found = _ZERO * graph.vertices
    _call(call, graph, [], found)
    return found
