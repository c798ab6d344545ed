"""Logs of any distributed program: the verdicts on their claims that all is over, and logs of other forms.

A log is rows (process, kind, channel), those of a process in its order; docs/FORMATS.md has the kinds.
"""

from __future__ import annotations

import csv
import itertools
import json
import os
import re
from collections import Counter, defaultdict
from collections.abc import Callable, Hashable, Iterable, Iterator, Mapping, Sequence
from dataclasses import dataclass
from typing import Any, NamedTuple, Union

from chipfire.backend.process import ask, Fault, Kept
from chipfire.lab.waits import Progress
from chipfire.utils import FILE, FileName, rows_text, sorted_if_possible

_HEADER = ("process", "kind", "channel")
_SENDS = ("send", "tell")
_GETS = ("receive", "hear")
#: How a message that was sent so is got.
_GOT_BY = dict(zip(_SENDS, _GETS))
KINDS = (*_SENDS, *_GETS, "passive", "active", "over")

#: How a result of the program begins, and its fault of rows that fit together in no order.
_BEGINS = ("over ", "end ")
_STUCK = 70

#: Its fault of a process that is expected; those of rows have lesser numbers.
_ABSENT = 34

Row = tuple[Any, Any, Any]

#: The key of a value in an object, its place in a list, or a function that finds the value there.
Key = Union[str, int, Callable[[Any], Any]]


class LogClaim(NamedTuple):
    """A claim: row `row` of a process, from 0. It is early if something is `left`, and else right. `past` has how many
    rows of each process are before an early one, if that was asked for."""

    process: Hashable
    row: int
    left: str | None
    past: dict[Hashable, int]


@dataclass(frozen=True)
class JudgedLog:
    """What the program says of a log: its claims, by process and row; "claimed", "missed", "unclaimed", or "open: "
    with what is left, as the end, or "early" if the first early claim alone was asked for; and the first row of each
    process that was left out."""

    claims: tuple[LogClaim, ...]
    end: str
    cut: Mapping[Hashable, int]

    @property
    def is_right(self) -> bool | None:
        """Whether all claims are right; None if there is none."""
        return all(claim.left is None for claim in self.claims) if self.claims else None

    def __str__(self) -> str:
        lines = [f"cut {process} {row}" for process, row in self.cut.items()]
        for process, row, left, past in self.claims:
            lines.append(f"over {process} {row} " + ("right" if left is None else f"early: {left}"))
            lines += [f"past {other} {count}" for other, count in past.items()]
        return "\n".join([*lines, f"end {self.end}"])


def judge_log(
    log: Iterable[Iterable[Any]] | FileName,
    *,
    past: bool = False,
    first: bool = False,
    processes: int | Iterable[Hashable] = 0,
    reactive: bool = False,
    cut: bool = False,
    progress: bool = False,
    program: FileName | None = None,
) -> JudgedLog:
    """Checks the claims in a log of any distributed program that its computation is over.

    Parameters
    ----------
    log : iterable of rows, or path
        Rows (process, kind, channel) with any hashable names; or a file of such rows with numbers and a header.
    past : bool, optional
        Whether to report the causal past of each early claim: how many rows of each process come before it in every
        order.
    first : bool, optional
        Whether to report only the first early claim (the lowest process, then the lowest row), if there is one.
    processes : int or iterable of hashable, optional
        The processes that must have a row, or their number if they are 0, 1 and so on. If all rows of a process that
        began active are lost, an early claim might be called right.
    reactive : bool, optional
        For processes that do not log when they become passive. A process that gets a message then counts as active
        until its last ``send`` before it gets the next message. A process that sends before it gets any message begins
        active. If a process is active for longer, an early claim may be called right; in a trial, this happened to 2 of
        90.
    cut : bool, optional
        For logs that are cut off. If the rows have no possible order, the rows that still wait after maximal progress
        are left out, and so are all rows after them.
    progress : bool, optional
        Whether to write a line to `sys.stderr` about once a second that says which claim is being checked.
    program : path, optional
        The program to run. By default, the program that the package finds.

    Returns
    -------
    JudgedLog
        The verdict on each claim, and how the log ends.

    Raises
    ------
    Fault
        A row is refused, or the rows have no possible order. The fault's place is a row, or a process (by its name) and
        one of its rows. The fault's `words` say where the waits from there end.

    See Also
    --------
    read_json_lines, read_shiviz, model_log, judge

    Notes
    -----
    Proved: the verdicts on the rows as they are numbered for the program, and that leaving rows out by `cut` keeps
    the verdicts on the claims before them, if each process that begins active has its first row. Not proved: that
    Python numbers the names and passes the verdicts on, `reactive`, and where the waits lead.

    Examples
    --------
    >>> rows = [("a", "active", 0), ("a", "send", "work"), ("a", "passive", 0), ("a", "hear", "done"), ("a", "over", 0)]
    >>> rows += [("b", "receive", "work"), ("b", "tell", "done"), ("b", "passive", 0)]
    >>> print(chipfire.judge_log(rows))
    over a 4 early: process b is active
    end missed
    """
    options: dict[str, Any] = {
        "past": bool(past),
        "first": bool(first),
        "progress": bool(progress),
    }
    if isinstance(log, FILE) and not (reactive or cut) and isinstance(processes, int):
        options["processes"] = processes or None
        try:
            return _judged(ask(program, "judge", [("log", log)], options, begins=_BEGINS), None, {})
        except Fault as fault:
            raise _with_waits(fault, log) from None
    expected = range(processes) if isinstance(processes, int) else processes
    rows = _Rows(_read(log, program) if isinstance(log, FILE) else log, reactive, expected)
    try:
        return _asked(rows, {**options, "processes": rows.expected or None}, program, {})
    except Fault as fault:
        if fault.number != _STUCK:
            raise rows.fault(fault) from None
        reached = rows.progress()
        if not cut:
            raise rows.stuck(fault, reached) from None
    rows.keep(reached.made)
    return _asked(rows, options, program, rows.own_cut(reached.cut()))


def _asked(
    rows: _Rows, options: Mapping[str, Any], program: FileName | None, cut: Mapping[Hashable, int]
) -> JudgedLog:
    """What the program says of rows, of which some were `cut` off."""
    text = ask(program, "judge", [("log", rows.kept())], options, begins=_BEGINS)
    return _judged(text, rows, cut)


def _with_waits(fault: Fault, file: FileName) -> Fault:
    """A fault of a file; if its rows fit in no order, with the words that say where the waits lead."""
    if fault.number != _STUCK or not os.path.isfile(file):  # (a pipe cannot be read again)
        return fault
    try:
        rows = _Rows(_as_rows(_records(file)[1:]))
    except (OSError, ValueError, csv.Error):
        return fault
    process, row = fault.place
    progress = rows.progress()
    if progress.cut().get(process) != row:  # (the file has changed)
        return fault
    return rows.stuck(fault, progress)


def _read(file: FileName, program: FileName | None) -> list[Row]:
    """The rows of a file, if the program finds no fault in their fields, whatever they mean together."""
    try:
        header, *rows = _records(file)
    except (OSError, ValueError, csv.Error):
        # (the program says first what is wrong with the file)
        ask(program, "judge", [("log", file)], begins=_BEGINS)
        raise
    # Rows of `passive` alone always fit together, so that a fault is one of a field.
    passive_rows = [_as_passive(row) for row in rows]
    text = rows_text(header, passive_rows)
    ask(program, "judge", [("log", Kept([text.encode()]))], begins=_BEGINS)
    return _as_rows(rows)


def _as_passive(row: list[str]) -> list[str]:
    """A row of the kind `passive` in place of another kind; a kind that there is not stays."""
    if len(row) > 1 and row[1] in KINDS:
        return [row[0], "passive", *row[2:]]
    return row


def _records(file: FileName) -> list[list[str]]:
    """The header and the rows of a file, as text."""
    with open(file, encoding="utf-8-sig", errors="replace", newline="") as text:
        return list(filter(None, csv.reader(text)))


def _as_rows(rows: Iterable[Sequence[str]]) -> list[Row]:
    return [(int(process), kind, int(channel)) for process, kind, channel in rows]


def _judged(text: str, rows: _Rows | None, gone: Mapping[Hashable, int]) -> JudgedLog:
    """What the program wrote, with the names of rows in place of numbers, if it did not read them in a file."""
    processes, channels = (
        (list(rows.processes), list(rows.channels)) if rows else (range(2**22), range(2**24))
    )
    names: dict[str, Sequence[Any]] = {"process": processes, "channel": channels}

    def named(words: str) -> str:
        return re.sub(
            "(process|channel) ([0-9]+)", lambda it: f"{it[1]} {names[it[1]][int(it[2])]}", words
        )

    *lines, end = text.splitlines()
    claims: list[LogClaim] = []
    for word, process, number, *said in (line.split(" ", 3) for line in lines):
        name = names["process"][int(process)]
        count = int(number)
        count = rows.own(name, count) if rows else count
        if word == "over":
            claims.append(LogClaim(name, count, named(said[0].partition(": ")[2]) or None, {}))
        elif count:
            claims[-1].past[name] = count
    return JudgedLog(tuple(claims), named(end.partition(" ")[2]), gone)


def _numbered(names: Iterable[Hashable]) -> dict[Hashable, int]:
    """The numbers of names, from 0, in their order, if they have one."""
    return dict(zip(sorted_if_possible(names), itertools.count()))


def _fields(row: Any) -> tuple[Any, ...]:
    """The fields of a row that was given, or none if it is not a row of three."""
    if isinstance(row, (str, bytes)) or not isinstance(row, Iterable):
        return ()
    fields = tuple(row)
    return fields if len(fields) == len(_HEADER) else ()


class _Rows:
    """Rows with any names. Row `i` of those that were given has place 2i, so that one can be put in before it, at 2i - 1,
    and after it, at 2i + 1."""

    def __init__(
        self, log: Iterable[Any], is_reactive: bool = False, expected: Iterable[Hashable] = ()
    ) -> None:
        self.given = list(log)
        #: The place and the fields of each row; a row that is none has no fields.
        self.rows = [(2 * index, _fields(row)) for index, row in enumerate(self.given)]
        if is_reactive:
            self.rows += list(_activity(self.rows))
            self.rows.sort(key=lambda placed: placed[0])
        processes = dict.fromkeys(row[0] for _, row in self.rows if row)
        channels = dict.fromkeys(row[2] for _, row in self.rows if row and row[1] in _SENDS + _GETS)
        #: The numbers of names. The processes that are expected have the least.
        self.processes = _numbered(dict.fromkeys(expected))
        #: How many processes are expected.
        self.expected = len(self.processes)
        others = _numbered(name for name in processes if name not in self.processes)
        self.processes |= {name: self.expected + number for name, number in others.items()}
        self.channels = _numbered(channels)
        #: The places of the rows of each process.
        self.places: dict[Hashable, list[int]] = defaultdict(list)
        for place, row in self.rows:
            self.places[row[0] if row else None].append(place)
        #: Of each process: entry `k` says how many of its first `k` rows were given.
        self.given_of = {
            process: [0, *itertools.accumulate(1 - place % 2 for place in places)]
            for process, places in self.places.items()
        }

    def kept(self) -> Kept:
        """The file that the program reads; a row that is none has one field there."""
        rows = [self._by_numbers(row) if row else ("",) for _, row in self.rows]
        return Kept([rows_text(_HEADER, rows).encode(errors="replace")])

    def _by_numbers(self, row: Sequence[Any]) -> tuple[Any, ...]:
        """A row by the numbers of its process and its channel."""
        process, kind, channel = row
        has_channel = kind in _SENDS + _GETS
        return self.processes[process], kind, self.channels[channel] if has_channel else 0

    def own(self, process: Hashable, count: int) -> int:
        """How many of the first rows of a process were given."""
        return self.given_of[process][count]

    def fault(self, refusal: Fault) -> Fault:
        """A fault of the program, by the rows and the names that were given."""
        if refusal.number == _ABSENT:
            name = list(self.processes)[refusal.place[0]]
            words = f"process {name!r} has no row in the log"
            return Fault(
                refusal.number, refusal.name, (name,), refusal.explanation, refusal.status, words
            )
        if not (24 <= refusal.number < _ABSENT and refusal.place):  # (the place is a row)
            return refusal
        index = self.rows[refusal.place[0]][0] // 2
        words = f"row {index} of the log is {self.given[index]!r}"
        return Fault(
            refusal.number, refusal.name, (index,), refusal.explanation, refusal.status, words
        )

    def progress(self) -> Progress:
        """Maximal progress on these rows. The program found no fault in them but that they fit in no order."""
        return Progress((row[0], row[1], row[2]) for _, row in self.rows)

    def stuck(self, refusal: Fault, progress: Progress) -> Fault:
        """The fault of rows that fit in no order, by the names that were given, and where the waits lead."""
        process, row = refusal.place
        name = list(self.processes)[process]
        index = self.places[name][row] // 2
        words = f"row {index} of the log is {self.given[index]!r}; {progress.said(name, self.own)}"
        place = (name, self.own(name, row))
        return Fault(
            refusal.number, refusal.name, place, refusal.explanation, refusal.status, words
        )

    def keep(self, made: Mapping[Hashable, int]) -> None:
        """Keeps this number of rows of each process, and leaves out those after them."""
        count: Counter[Hashable] = Counter()
        rows = []
        for place, row in self.rows:
            count[row[0]] += 1
            if count[row[0]] <= made[row[0]]:
                rows.append((place, row))
        self.rows = rows

    def own_cut(self, cut: Mapping[Hashable, int]) -> dict[Hashable, int]:
        """The rows at which processes were cut, by the rows that were given, in the order of their numbers."""
        return {name: self.own(name, cut[name]) for name in self.processes if name in cut}


def _activity(rows: Iterable[tuple[int, Sequence[Any]]]) -> Iterator[tuple[int, Row]]:
    """What is put in: `active` before a first row that sends, `passive` after the last sent before the next is got."""
    first = dict[Hashable, int]()
    last = dict[Hashable, int]()
    for place, (process, kind, _) in (it for it in rows if it[1]):
        begin = first.setdefault(process, place)
        if kind == "receive" and process in last:
            yield last[process] + 1, (process, "passive", 0)
        if kind == "send" and begin >= 0:
            yield begin - 1, (process, "active", 0)
        if kind in ("send", "receive", "active"):
            first[process] = -1
            last[process] = place
        elif kind == "passive":
            last.pop(process, None)
    for process, place in last.items():
        yield place + 1, (process, "passive", 0)


def read_json_lines(
    files: Iterable[FileName] | FileName,
    *,
    process: Key | None = "process",
    kind: Key = "kind",
    channel: Key = "channel",
) -> list[Row]:
    r"""Reads logs of JSON lines as rows for `judge_log`.

    Parameters
    ----------
    files : path or iterable of path
        The files, with an object in each line.
    process : str, callable or None, optional
        The key of the process, or a function that finds it in an object. With None, each file is a process, named by
        the file.
    kind : str or callable, optional
        The key of the kind, or a function that finds it. A line whose kind is None is skipped.
    channel : str or callable, optional
        The key of the channel, or a function that finds it. Lists become tuples.

    Returns
    -------
    list of (process, kind, channel)
        The rows.

    Raises
    ------
    ValueError
        A line is wrong. The error names the file and the line.

    See Also
    --------
    judge_log, read_shiviz

    Notes
    -----
    None of this is proved.

    Examples
    --------
    >>> import pathlib
    >>> text = '{"process": "a", "kind": "passive", "channel": 0}\n{"process": "a", "kind": "over", "channel": 0}\n'
    >>> _ = pathlib.Path("log.json").write_text(text)
    >>> chipfire.read_json_lines("log.json")
    [('a', 'passive', 0), ('a', 'over', 0)]
    """
    rows: list[Row] = []
    for file in [files] if isinstance(files, FILE) else files:
        with open(file, "rb") as lines:
            for number, line in ((it, line) for it, line in enumerate(lines, 1) if line.strip()):
                try:
                    its = json.loads(line)
                    if said := _known(_value(its, kind)):
                        name = os.fspath(file) if process is None else _value(its, process)
                        rows.append(
                            (name, said, _value(its, channel) if said in _SENDS + _GETS else 0)
                        )
                        hash(rows[-1])
                except Exception as error:  # (whatever a function does)
                    why = f"{os.fspath(file)}: line {number}: {type(error).__name__}: {error}"
                    raise ValueError(why) from error
    return rows


def _value(of: Any, key: Key) -> Any:
    value = key(of) if callable(key) else of[key]
    return (
        tuple(_value(value, it) for it in range(len(value)))
        if isinstance(value, (list, tuple))
        else value
    )


def _known(kind: Any) -> Any:
    if kind is not None and kind not in KINDS:
        raise ValueError(f"there is no kind {kind!r}, but {', '.join(KINDS)}")
    return kind


class _Event(NamedTuple):
    """An event of a log with clocks. If its text does not name its message, that is the host and its count there."""

    line: int
    host: str
    clock: Mapping[str, int]
    kind: str | None
    message: Hashable


def read_shiviz(
    log: FileName,
    kind_of: Callable[[str], str | None],
    *,
    message_of: Callable[[str], Hashable] = lambda _: None,
    expression: str = r"(?<host>\S*) (?<clock>{.*})\n(?<event>.*)",
    gaps: bool = False,
) -> list[Row]:
    r"""Reads a log of GoVector or ShiViz as rows for `judge_log`.

    Parameters
    ----------
    log : str or path
        The text of the log, or the name of its file.
    kind_of : callable
        Returns the kind of an event from its text, or None to skip the event.
    message_of : callable, optional
        Returns, from the text of an event, the message that the event sends or gets, or None if the clocks are to say
        it. The clocks cannot name the sender of a message that brings nothing new.
    expression : str, optional
        The regular expression of ShiViz, by default the one for GoVector. If each event stands above its clock, use
        ``(?<event>.*)\n(?<host>\S*) (?<clock>{.*})``.
    gaps : bool, optional
        Whether to take a log that lacks some of the events that its clocks count, such as the log of a logger with
        levels. If a ``send``, an ``active``, or a ``tell`` that was heard is missing, an early claim may be called
        right.

    Returns
    -------
    list of (process, kind, channel)
        The rows. A message has a channel for each process that gets it. A message that nobody gets is not seen.

    Raises
    ------
    ValueError
        A line is wrong, or its clock counts an event that is missing. The error names the line.

    See Also
    --------
    judge_log, read_json_lines, shiviz

    Notes
    -----
    None of this is proved.

    Examples
    --------
    >>> log = 'a {"a":1}\nrests\na {"a":2}\nclaims\n'
    >>> rows = chipfire.read_shiviz(log, lambda text: {"rests": "passive", "claims": "over"}[text])
    >>> [row[:2] for row in rows]
    [('a', 'passive'), ('a', 'over')]
    """
    events = list(_events(log, kind_of, message_of, expression))
    # (the clock of an event counts more than that of one that it depends on)
    events.sort(key=lambda event: sum(event.clock.values()))
    if not gaps:
        _require_all(events)
    events = list(_with_messages(events))
    #: The hosts that get each message, as the keys of a dictionary in the order of the events.
    receivers: dict[tuple[str, Hashable], dict[str, None]] = defaultdict(dict)
    for event in events:
        if event.kind in _GETS:
            receivers[event.kind, event.message][event.host] = None
    rows: list[Row] = []
    for event in events:
        hosts: list[str | None] = [event.host]
        if event.kind in _SENDS:
            hosts = [*receivers[_GOT_BY[event.kind], event.message]] or [None]
        if event.kind is not None:
            rows += [(event.host, event.kind, (event.message, host)) for host in hosts]
    return rows


def _with_messages(events: Iterable[_Event]) -> Iterator[_Event]:
    """The events, each that gets a message with that message; one whose clock does not go on is refused."""
    places: dict[tuple[str, int], _Event] = {}
    clocks: dict[str, Mapping[str, int]] = defaultdict(dict)
    for event in events:
        host = event.host
        count = event.clock[host]
        if count <= clocks[host].get(host, 0):
            words = "the clock is no further than in an event before it"
            raise ValueError(f"line {event.line}: {words}")
        if event.kind in _GETS and event.message is None:
            event = event._replace(message=_sent(event, clocks[host], places))
        clocks[host] = event.clock
        places[host, count] = event
        yield event


def _require_all(events: Iterable[_Event]) -> None:
    """Refuses events without one that a clock counts: that of a process counts its own, from 1."""
    there = {(it.host, it.clock[it.host]) for it in events}
    for it in events:
        for host, count in it.clock.items():
            last = count - 1 if host == it.host else count  # (the one before it, of its own)
            if last > 0 and (host, last) not in there:
                why = f"the clock counts event {last} of {host!r}, which is not there"
                raise ValueError(f"line {it.line}: {why}; gaps=True takes the log as it is")


def _sent(
    it: _Event, known: Mapping[str, int], places: Mapping[tuple[str, int], _Event]
) -> Hashable:
    """The message that an event gets: the one of its news that knows of all others sent it."""
    news = [
        (host, count)
        for host, count in it.clock.items()
        if host != it.host and count > known.get(host, 0)
    ]
    for sender in filter(None, map(places.get, news)):
        if sender.kind in _SENDS and all(
            sender.clock.get(host, 0) >= count for host, count in news
        ):
            return sender.message
    raise ValueError(
        f"line {it.line}: the clock does not say who sent the message: give message_of"
    )


def _events(
    log: FileName,
    kind_of: Callable[[str], str | None],
    message_of: Callable[[str], Hashable],
    expression: str,
) -> Iterator[_Event]:
    """The events of a log, at whose head its expression may stand."""
    pattern = re.compile(re.sub(r"\(\?<(?![=!])", "(?P<", expression))
    text = str(log).replace("\r\n", "\n")
    if text and "\n" not in text:
        with open(log, encoding="utf-8-sig") as file:
            text = file.read()
    for line, words in enumerate(
        pattern.sub(lambda it: "\n" * it[0].count("\n"), text).split("\n"), 1
    ):
        if words.strip() and not words.startswith("(?<"):
            raise ValueError(f"line {line}: {expression} does not read {words!r}")
    line = 1
    begin = 0
    for match in pattern.finditer(text):
        line = line + text.count("\n", begin, match.start())
        begin = match.start()
        host = match["host"]
        said = match["event"].strip()
        try:
            clock = json.loads(match["clock"])
            kind = _known(kind_of(said))
            if (
                not isinstance(clock, dict)
                or not {int} >= {*map(type, clock.values())}
                or clock.get(host, 0) < 1
            ):
                raise ValueError(f"{clock} is no clock of {host!r}")
            # A set takes what can be a name, and nothing else.
            (message,) = {message_of(said) if kind in _SENDS + _GETS else None}
        except Exception as error:  # (whatever a function does)
            raise ValueError(f"line {line}: {type(error).__name__}: {error}") from error
        place = None if kind in _GETS else (host, clock[host])
        yield _Event(line, host, clock, kind, place if message is None else message)
