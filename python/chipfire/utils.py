"""What all modules depend on: limits, whole numbers, files and their rows, and libraries that may be missing."""

from __future__ import annotations

import contextlib
import csv
import importlib
import io
import itertools
import math
import operator
import os
import random
import struct
import sys
from array import array
from collections.abc import Callable, ItemsView, Iterable, Iterator, Mapping, Sequence
from typing import Any, Union

#: The most of a graph, and of a large one.
MAX_VERTICES = 4096
MAX_EDGES = 65_536
MAX_LARGE_VERTICES = 2**21
MAX_LARGE_EDGES = 2**23
MAX_MULT = 2**20

#: The most chips of a game, the most firings of a vertex, and the greatest limit.
MAX_CHIPS = MAX_LIMIT = 2**40

#: How far from 0 a number of NumPy may be that becomes one of 64 bits unseen.
_FAR = 2**62

FileName = Union[str, "os.PathLike[str]"]

#: What the name of a file is, if it is given in place of what stands in the file.
FILE = (str, os.PathLike)

HERE = os.path.dirname(os.path.realpath(__file__))

#: What a page may load and start, as browsers take it: the style and the script that stand in it.
PAGE_POLICY = "default-src 'none'; style-src 'unsafe-inline'; script-src 'unsafe-inline'"


class VertexNumber(int):
    """The number of a vertex, in a result. A call that takes names refuses it, if the name of that vertex is another."""

    __slots__ = ()


def as_int(value: Any, what: str, least: int | None = 0, most: int | None = None) -> int:
    """A whole number of a range: an int, what stands for one, as the numbers of NumPy and Sage do, or a float like 4.0.
    `least` and `most` are the ends of the range; None sets no end."""
    try:
        is_like_one = callable(getattr(value, "is_integer", None)) and value.is_integer()
        number = int(value) if is_like_one else operator.index(value)
    except TypeError:
        raise TypeError(f"{what} is no whole number: {value!r}") from None
    if least is not None and number < least:
        raise ValueError(f"{what} is below {least}: {number}")
    if most is not None and number > most:
        raise ValueError(f"{what} is above {most}: {number}")
    return number


def as_ints(
    values: Sequence[Any],
    what: Callable[[int], str],
    least: int | None = 0,
    most: int | None = None,
) -> array[int] | list[int]:
    """Many numbers, each as `as_int` has it; `what` says which is in a place."""
    found = in_column(values, least, most)
    if found is not None:
        return found
    with contextlib.suppress(TypeError, ValueError):
        return [as_int(value, "", least, most) for value in values]
    return [as_int(value, what(place), least, most) for place, value in enumerate(values)]


def as_tuple(numbers: array[int] | list[int]) -> tuple[int, ...]:
    """These numbers as a tuple, which takes a third less time by the bytes of an array than by its items."""
    if isinstance(numbers, array):
        return struct.unpack(f"{len(numbers)}{numbers.typecode}", numbers)
    return tuple(numbers)


def in_column(values: Any, least: int | None = 0, most: int | None = None) -> array[int] | None:
    """Whole numbers of a range as an array of 64-bit numbers, copied once, if none has to be read by itself: ints of
    Python, or an array of NumPy, row by row. None for others."""
    numpy = numpy_of(values)
    if numpy:
        return _column_of_array(numpy, values, least, most)
    if not isinstance(values, (list, tuple, range, array)):
        return None
    # (scalars of NumPy, and arrays, may be no numbers)
    if isinstance(values, (list, tuple)) and any(
        hasattr(it, "tolist") for it in {*map(type, values)}
    ):
        return None
    for code in "Qq":  # (as long as each is an int of up to 64 bits; most often none is below 0)
        try:
            found = array(code, values)
        except (OverflowError, TypeError):
            continue
        is_least = least is None or code == "Q" and least == 0 or min(found, default=least) >= least
        if is_least and (most is None or max(found, default=most) <= most):
            return found
    return None


def numpy_of(given: Any) -> Any:
    """NumPy, if this is an array of it that has numbers, in one direction at least and without a mask; else None."""
    kind = type(given)
    if kind.__name__ != "ndarray" or kind.__module__ != "numpy":
        return None
    is_of_numbers = given.dtype.kind in "biuf" and given.ndim > 0
    return import_optional("numpy") if is_of_numbers else None


def numpy_in_use() -> Any:
    """NumPy, if this process has it already, and else None: where what it saves is not worth to import it."""
    return import_optional("numpy") if "numpy" in sys.modules else None


def _column_of_array(
    numpy: Any, given: Any, least: int | None, most: int | None
) -> array[int] | None:
    """The numbers of an array of NumPy, row by row, if all are whole and of a range."""
    low, high = (given.min().item(), given.max().item()) if given.size else (0, 0)
    least = -_FAR if least is None else least
    most = _FAR if most is None else most
    # (so NaN is refused)
    if not least <= low <= high <= most:
        return None
    if given.dtype.kind == "f" and (given % 1).any():
        return None
    return _copied(numpy, given, "Q" if low >= 0 else "q")


def recoded(column: array[int], code: str) -> array[int]:
    """The numbers of an array in one of another type, into which they fit."""
    numpy = numpy_in_use()
    if not numpy or not column:
        return array(code, column)
    return _copied(numpy, numpy.frombuffer(column, column.typecode), code)


def _copied(numpy: Any, given: Any, code: str) -> array[int]:
    """An array of NumPy, row by row, as one of Python."""
    found: array[int] = array(code, [0]) * given.size
    if given.size:
        numpy.copyto(numpy.frombuffer(found, code).reshape(given.shape), given, casting="unsafe")
    return found


def sorted_if_possible(names: Iterable[Any]) -> list[Any]:
    """Names in their order, or in that in which they come if they have none."""
    names = list(names)
    with contextlib.suppress(TypeError):
        return sorted(names)
    return names


def import_optional(name: str, wanted: str = "") -> Any:
    """A module of a library. If it is not installed, None, or an ImportError that says what was `wanted` of it."""
    try:
        return importlib.import_module(name)
    except ImportError:
        if wanted:
            raise ImportError(f"{wanted}, which is not installed") from None
        return None


def is_of_networkx(given: Any) -> bool:
    """Whether something is a graph of NetworkX, or a view of one."""
    return any(kind.__module__.partition(".")[0] == "networkx" for kind in type(given).__mro__)


def in_order(given: Any, wanted: str) -> Any:
    """Values that stand in an order, or one alone, as Python's own: an array of any library is a list, or one of rows.
    What has no order, or only names of columns, is refused by its name, after words for what is `wanted`.
    """
    found = given
    if hasattr(found, "toarray"):  # (the sparse ones of SciPy)
        require_memory(8 * math.prod(found.shape), "the places of a sparse array")
        found = found.toarray()
    # Dates, and rows by names, have these kinds.
    is_other = hasattr(found, "__array_interface__") and found.dtype.kind in "mMV"
    is_other = is_other or hasattr(found, "columns") or is_of_networkx(found)
    found = found.tolist() if hasattr(found, "tolist") and not is_other else found
    if is_other or isinstance(found, (str, bytes, bytearray, set, frozenset, Mapping, ItemsView)):
        text = repr(given)
        shown = f": {text}" if len(text) <= 60 and "\n" not in text else ""
        raise TypeError(f"{wanted}, and no {type(given).__name__}{shown}")
    return found


def listed(given: Any, wanted: str) -> list[Any]:
    """Values that stand in an order, as a list; one alone is refused."""
    found = in_order(given, wanted)
    if not isinstance(found, Iterable):
        raise TypeError(f"{wanted}, and not {found!r}")
    return list(found)


def no_graph(given: Any, wanted: str) -> TypeError:
    """What is said of something that is no graph where one is `wanted`."""
    kind = type(given)
    hint = ": chipfire.from_networkx makes one of it" if is_of_networkx(given) else ""
    name = kind.__name__ if kind.__module__ == "builtins" else f"{kind.__module__}.{kind.__name__}"
    return TypeError(f"{wanted}, and not of {name}{hint}")


def as_array(numbers: Sequence[Any], dtype: Any = None) -> Any:
    """Whole numbers, or rows of them, as an array of NumPy, of 64 bits by default."""
    numpy = import_optional("numpy", "an array is one of NumPy")
    exact = numpy.array(numbers, dtype=object)
    kind = numpy.dtype("int64" if dtype is None else dtype)
    if kind.kind in "iu" and exact.size:
        ends = (exact.min(), exact.max())
        held = numpy.iinfo(kind)
        if ends[0] < held.min or ends[1] > held.max:
            raise OverflowError(
                f"numbers from {ends[0]} to {ends[1]} are more than {kind} holds: dtype=object does"
            )
    return exact.astype(kind)


class AsArray:
    """What NumPy takes for whole numbers, or rows of them."""

    def _for_array(self) -> Sequence[Any]:
        raise NotImplementedError

    def __array__(self, dtype: Any = None, copy: bool | None = None) -> Any:
        if copy is not None and not copy:
            raise ValueError(f"an array of a {type(self).__name__} is always a copy")
        return as_array(self._for_array(), dtype)


class WithArea:
    """A result with the numbers of different vertices that fired, as `extent`."""

    extent: Any

    @property
    def area(self) -> Any:
        """How many different vertices fired: `extent` by the name that the field has for it."""
        return self.extent


def known_seed(seed: Any) -> int | float | str | bytes:
    """A seed as the one value that it stands for: a whole number, also of NumPy or a float like 3.0, as an int; another
    float; a text or bytes. For None the system draws a number of 64 bits, and a `Generator` of NumPy the next one that
    it has. That of a `SeedSequence` is the first of its state, the same each time."""
    if seed is None:
        return random.getrandbits(64)
    if hasattr(seed, "bit_generator") and hasattr(seed, "integers"):
        return int(seed.integers(2**64, dtype="uint64"))
    if hasattr(seed, "generate_state"):
        return int(seed.generate_state(1, "uint64")[0])
    if isinstance(seed, (str, bytes, bytearray)):
        return seed if isinstance(seed, str) else bytes(seed)
    with contextlib.suppress(TypeError):
        return as_int(seed, "the seed", None)
    if isinstance(seed, float) and seed == seed:
        return seed
    kinds = "a number, a text, bytes, or a Generator or SeedSequence of NumPy"
    raise TypeError(f"a seed is {kinds}, and no {type(seed).__name__}")


def random_generator(seed: Any) -> random.Random:
    """What draws by a seed, as Python's `random` does by its value."""
    return random.Random(known_seed(seed))


def processors() -> int:
    """How many processors this process may use."""
    return len(os.sched_getaffinity(0)) if hasattr(os, "sched_getaffinity") else os.cpu_count() or 1


def require_memory(count: int, what: str) -> None:
    """Refuses what takes more bytes than the machine has, or than this process may have, before it begins."""
    # (which not every system has)
    limits = [2**63]
    resource = import_optional("resource")
    if resource:
        soft, _ = resource.getrlimit(resource.RLIMIT_AS)
        limits += [
            it for it in (soft, os.sysconf("SC_PHYS_PAGES") * os.sysconf("SC_PAGE_SIZE")) if it >= 0
        ]
    if count > min(limits):
        raise MemoryError(f"{what} take {count:,} bytes, and there are {min(limits):,}")


def with_unit(count: int, word: str) -> str:
    """A number of something: "1 chip", "4 chips"."""
    return f"{count:,} {word}" + ("" if count == 1 else "s")


def package_text(*names: str) -> str:
    """The text of a file that belongs to the package."""
    with open(os.path.join(HERE, *names), encoding="utf-8", errors="surrogateescape") as file:
        return file.read()


def write_text(file: FileName, text: str) -> None:
    """Writes a file of UTF-8, with the line ends that the text has."""
    with open(file, "w", encoding="utf-8", newline="") as out:
        out.write(text)


def rows_text(header: Sequence[str], rows: Iterable[Sequence[Any]]) -> str:
    text = io.StringIO()
    csv.writer(text, lineterminator="\n").writerows(itertools.chain([header], rows))
    return text.getvalue()


def has_header(file: FileName, header: Sequence[str]) -> bool:
    """Whether a file of rows has this header."""
    with open(file, encoding="utf-8-sig", errors="replace", newline="") as text:
        return next(csv.reader(text), None) == list(header)


def read_rows(file: FileName, header: Sequence[str]) -> Iterator[list[str]]:
    """The rows of a file after its header. The program says what exactly is wrong with a file that it reads."""
    with open(file, encoding="utf-8-sig", newline="") as text:
        rows = [row for row in csv.reader(text) if row]
    if not rows or rows[0] != list(header):
        raise ValueError(f"{os.fspath(file)} does not begin with {','.join(header)}")
    for index, row in enumerate(rows[1:]):
        if len(row) != len(header):
            raise ValueError(f"{os.fspath(file)}: row {index} has not {len(header)} fields")
        yield row
