"""Files of chains that are played by parts: what a run has done so far, from which another run goes on."""

from __future__ import annotations

import contextlib
import errno
import hashlib
import json
import os
import sqlite3
from array import array
from collections.abc import Iterator
from typing import Any

from chipfire.ensembles.firings import drops_of, joined, ordered
from chipfire.ensembles.player import Plan, spanning, Table
from chipfire.utils import FileName, import_optional

#: The numbers by which SQLite knows these files from those of other programs, and their version.
_APPLICATION = 0x63686970
_VERSION = 2

_TABLES = """
    CREATE TABLE plan (name TEXT PRIMARY KEY, value TEXT);
    CREATE TABLE parts (first INTEGER PRIMARY KEY, n INTEGER, made BLOB, chips BLOB, drops BLOB, vertices BLOB,
        counts BLOB, size BLOB, extent BLOB, lost BLOB, duration BLOB);
"""


def _digest(*columns: Any) -> str:
    """A text that other numbers do not have."""
    found = hashlib.sha256()
    for column in columns:
        numbers = array("q", column).tobytes()
        found.update(len(numbers).to_bytes(8, "little") + numbers)
    return found.hexdigest()


def _said(plan: Plan) -> dict[str, str]:
    """What chains have in common that a file holds, whichever they are."""
    graph = plan.graph
    starts = plan.starts
    if starts is not None:
        row = starts[: graph.vertices]
        starts = row if starts == row * plan.n else starts
    values = {
        "graph": _digest([graph.vertices, graph.sink], *graph.columns, graph.loops),
        "seed": repr(plan.seed),
        "drops": plan.drops,
        "on": [_digest(plan.places.vertices), plan.places.weights],
        "amounts": _digest(plan.amounts_of(0, plan.drops)),
        "chips": None if starts is None else _digest(starts),
        "until": plan.until,
        "fired": plan.fired,
        "durations": plan.timed,
    }
    if plan.burn_in:
        values["burn_in"] = plan.burn_in
    if plan.until == "spans":
        values["shape"] = _digest(spanning(graph))
    return {name: json.dumps(value) for name, value in values.items()}


class Checkpoint:
    """A file of SQLite with the parts of chains that are done. Each part is there whole or not at all."""

    def __init__(self, file: FileName, plan: Plan) -> None:
        self.file = os.fspath(file)
        self.plan = plan
        self._rows = _connected(self.file)
        try:
            self._open(_said(plan))
        except BaseException:
            self._rows.close()
            raise

    def close(self) -> None:
        self._rows.close()

    def _open(self, said: dict[str, str]) -> None:
        """Makes the tables of a new file, or compares what an old one is of."""
        try:
            kind, version = (self._pragma(it) for it in ("application_id", "user_version"))
            is_new = not self._rows.execute("SELECT count(*) FROM sqlite_master").fetchone()[0]
        except sqlite3.DatabaseError as error:
            raise ValueError(f"{self.file} is no checkpoint of chains: {error}") from None
        if is_new:
            self._begin(said)
        elif kind != _APPLICATION:
            raise ValueError(f"{self.file} is no checkpoint of chains")
        elif version != _VERSION:
            raise ValueError(
                f"{self.file} is of version {version}, and this chipfire reads version {_VERSION}"
            )
        else:
            self._compare(said)

    def _pragma(self, name: str) -> int:
        return int(self._rows.execute(f"PRAGMA {name}").fetchone()[0])

    def _begin(self, said: dict[str, str]) -> None:
        self._rows.executescript(f"PRAGMA application_id = {_APPLICATION};")
        self._rows.executescript(f"PRAGMA user_version = {_VERSION}; BEGIN; {_TABLES} COMMIT;")
        with self._rows:
            self._rows.executemany("INSERT INTO plan VALUES (?, ?)", said.items())

    def _compare(self, said: dict[str, str]) -> None:
        there = dict(self._rows.execute("SELECT name, value FROM plan"))
        others = [name for name in {**said, **there} if there.get(name) != said.get(name)]
        if others:
            raise ValueError(f"{self.file} has chains of other {', '.join(others)}")

    def take(self, table: Table) -> list[tuple[int, int]]:
        """Copies what is there of the chains to play into the table, each chain once even if several parts have it; the places
        of all, in their order."""
        found = []
        at = 0
        for first, n, *columns in self._rows.execute("SELECT * FROM parts ORDER BY first"):
            part_start = first - self.plan.first
            start = max(part_start, at)
            stop = min(part_start + n, self.plan.n)
            if start < stop:
                part = self._part(n, columns, table)
                table.put(start, stop, part.cut(start - part_start, stop - part_start))
                found.append((start, stop))
                at = stop
        return found

    def _part(self, n: int, columns: list[bytes], table: Table) -> Table:
        """The table of n chains that has these columns; one of another shape is refused."""
        made, chips, *rows = (array("Q", it) for it in (*columns[:2], *columns[5:]))
        if not self.plan.timed:
            rows.pop()
        shapes = [len(it) for it in (made, chips, *rows)]
        wanted = [n, n * table.width] + [n * table.drops] * len(table.columns)
        if shapes != wanted or max(made) > table.drops:
            raise ValueError(f"{self.file} has a part that is none of these chains")
        fired = [(0, [_fired(rows[1], columns[2:5])])] if self.plan.fired else []
        return Table(table.drops, table.width, rows, made, chips, fired)

    def put(self, start: int, stop: int, part: Table) -> None:
        """Writes the part in these places, which is done."""
        fired: list[Any] = [b""] * 3
        if self.plan.fired:
            fired = [drops_of(part.columns[1]), *joined(part.fired)]
        numbers = [part.made, part.chips, *fired, *part.columns]
        if not self.plan.timed:
            numbers.append(b"")
        row = [self.plan.first + start, stop - start, *map(bytes, numbers)]
        with self._rows:
            marks = ", ".join("?" * len(row))
            self._rows.execute(f"INSERT OR REPLACE INTO parts VALUES ({marks})", row)


def _connected(file: str) -> sqlite3.Connection:
    """What reads and writes a file, which is new if there is none yet."""
    folder = os.path.dirname(os.path.abspath(file))
    if not os.path.isdir(folder):
        raise FileNotFoundError(errno.ENOENT, "a checkpoint is in a folder that is there", folder)
    try:
        return sqlite3.connect(file, timeout=60)
    except sqlite3.OperationalError as error:
        raise ValueError(f"{file} is no checkpoint of chains: {error}") from None


def _fired(extents: array[int], columns: list[bytes]) -> tuple[Any, Any]:
    """What drops with these extents fired, by the columns of a file: the number of the drop of each vertex, the vertices, in
    any order in each drop, and how often each fired."""
    numpy = import_optional("numpy")
    drops, vertices, counts = map(numpy.frombuffer, columns, ("i8", "i4", "i8"))
    is_one_each = len(drops) == len(vertices) == len(counts)
    if not is_one_each or not numpy.array_equal(drops, drops_of(extents)):
        raise ValueError("what fired is not that of these drops")
    return joined([(0, ordered(numpy.frombuffer(extents, "i8"), vertices, counts))])


@contextlib.contextmanager
def opened(file: FileName | None, plan: Plan) -> Iterator[Checkpoint | None]:
    """A checkpoint that is closed in the end; None if no file is named."""
    if file is None:
        yield None
        return
    found = Checkpoint(file, plan)
    try:
        yield found
    finally:
        found.close()
