"""Files of results: arrays of NumPy beside a header that says what they are, written whole and read without pickles."""

from __future__ import annotations

import contextlib
import json
import os
import shutil
from array import array
from collections.abc import Callable, Iterable, Mapping
from typing import Any, BinaryIO, TypeVar

from chipfire.graphs.edges import Columns
from chipfire.graphs.graph import Graph
from chipfire.utils import as_int, FileName, import_optional, require_memory

T = TypeVar("T")

#: The version of these files.
VERSION = 1

#: The name of the array that is the text of the header, and how a file begins that has several arrays.
_HEADER = "header"
_MAGIC = b"PK\x03\x04"


def numpy_of_files() -> Any:
    """NumPy, which these files take."""
    return import_optional("numpy", "a file of results is one of NumPy")


def save(file: FileName, kind: str, said: Mapping[str, Any], arrays: Mapping[str, Any]) -> None:
    """Writes a result of this kind: arrays of numbers, and what else is said of it, as JSON has it. A file that is
    there already is replaced when the new one is whole, and stays as it was if that fails."""
    numpy = numpy_of_files()
    header = {**said, "chipfire": kind, "version": VERSION}
    text = numpy.frombuffer(json.dumps(header, sort_keys=True).encode("ascii"), "u1")
    _write_whole(file, lambda out: numpy.savez(out, **{_HEADER: text}, **arrays))


def _write_whole(file: FileName, write: Callable[[BinaryIO], object]) -> None:
    """Writes a new file, which takes the place and the mode of the one that is there when it is whole."""
    target = os.path.realpath(file)
    is_there = os.path.exists(target)
    if is_there and not os.path.isfile(target):
        raise ValueError(f"{os.fspath(file)} is no file that can be replaced")
    folder, name = os.path.split(target)
    beside = os.path.join(folder, f".{name[:80]}.{os.urandom(8).hex()}")
    with open(beside, "xb") as out:
        try:
            if is_there:
                shutil.copymode(target, beside)
            write(out)
            out.flush()
            os.fsync(out.fileno())
            os.replace(beside, target)
        except BaseException:
            with contextlib.suppress(OSError):
                os.unlink(beside)
            raise


def load(file: FileName, kind: str, make: Callable[[dict[str, Any], dict[str, Any]], T]) -> T:
    """What is made of the header and the arrays of a file of this kind. Another kind, a later version, and what is no
    such file are refused."""
    numpy = numpy_of_files()
    name = os.fspath(file)
    wrong = f"{name} is no file of chipfire's {kind}"
    with open(file, "rb") as given:
        if given.read(len(_MAGIC)) != _MAGIC:
            raise ValueError(wrong)
        given.seek(0)
        try:
            with numpy.load(given, allow_pickle=False) as parts:
                size = sum(it.file_size for it in parts.zip.infolist())
                require_memory(size, f"the arrays of {name}")
                arrays = {it: parts[it] for it in parts.files}
            header = json.loads(arrays.pop(_HEADER).tobytes())
            found = (header.pop("chipfire"), header.pop("version"))
        except (MemoryError, OSError):
            raise
        except Exception as error:  # (whatever a file can have)
            raise ValueError(wrong) from error
    if found[0] != kind:
        raise ValueError(f"{name} has {found[0]} of chipfire, and no {kind}")
    if found[1] != VERSION:
        raise ValueError(
            f"{name} is of version {found[1]}, and this chipfire reads version {VERSION}"
        )
    try:
        return make(header, arrays)
    except (AttributeError, IndexError, KeyError, TypeError, ValueError) as error:
        raise ValueError(f"{wrong}: {error}") from error


def whole(numbers: Any, directions: int = 1) -> Any:
    """Whole numbers of a file, or rows of them, as an array of 64 bits."""
    if numbers.dtype.kind != "i" or numbers.ndim != directions:
        raise ValueError(f"an array has {numbers.dtype} in {numbers.ndim} directions")
    return numbers.astype("i8", copy=False)


def plain(value: Any, what: str) -> Any:
    """A name or a seed as JSON has it: a tuple is a list there, and bytes are an object."""
    value = value.item() if hasattr(value, "dtype") and hasattr(value, "item") else value
    if value is None or type(value) in (bool, int, float, str):
        return value
    if type(value) is bytes:
        return {"bytes": value.hex()}
    if type(value) is tuple:
        return [plain(it, what) for it in value]
    kinds = "numbers, texts, bytes, None and tuples of them"
    raise TypeError(f"{what} cannot be saved, since it is none of {kinds}: {value!r}")


def value_of(stored: Any) -> Any:
    """The name or the seed that `plain` made this of."""
    if isinstance(stored, list):
        return tuple(map(value_of, stored))
    return bytes.fromhex(stored["bytes"]) if isinstance(stored, dict) else stored


def plain_names(names: Iterable[Any]) -> list[Any]:
    """The names of vertices as JSON has them."""
    return [plain(name, f"the name {name!r} of a vertex") for name in names]


def graph_parts(graph: Graph) -> tuple[dict[str, Any], dict[str, Any]]:
    """A graph as what is said of it, and arrays."""
    numpy = numpy_of_files()
    back = graph.from_sink
    said = {
        "vertices": graph.vertices,
        "sink": graph.sink,
        "shape": graph.shape,
        "names": None if isinstance(graph.names, range) else plain_names(graph.names),
        "from_sink": None if back is None else [[int(head), int(mult)] for head, mult in back],
        "squares": None if isinstance(graph.squares, range) else [*map(int, graph.squares)],
        "loops": [*map(int, graph.loops)],
    }
    return said, {name: numpy.array(it) for name, it in graph.columns._asdict().items()}


def graph_of(said: Mapping[str, Any], arrays: Mapping[str, Any]) -> Graph:
    """The graph of what `graph_parts` made."""
    columns = [whole(arrays[name]) for name in Columns._fields]
    if len({*map(len, columns)}) > 1 or any(((it < 0) | (it >= 2**31)).any() for it in columns):
        raise ValueError("the edges are none")
    shape = said["shape"]
    if shape is not None:
        shape = as_int(shape[0], "a shape"), as_int(shape[1], "a shape")
    squares = said["squares"]
    if squares is not None:
        squares = [as_int(square, "a square") for square in squares]
    back = said["from_sink"]
    if back is not None:
        back = [(head, mult) for head, mult in back]
    return Graph(
        vertices=said["vertices"],
        sink=said["sink"],
        edges=Columns(*(array("i", it.astype("i4").tobytes()) for it in columns)),
        names=[*map(value_of, said["names"] or ())],
        shape=shape,
        squares=squares,
        from_sink=back,
        loops=said["loops"],
    )
