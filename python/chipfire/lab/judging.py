"""A judge of the log of somebody's own machine that plays a game."""

from __future__ import annotations

import difflib
from collections.abc import Collection, Iterable, Iterator, Sequence
from dataclasses import dataclass
from typing import Any, NamedTuple

from chipfire.lab.machine import Setting
from chipfire.lab.model import Core
from chipfire.lab.schedules import EVENTS, opened
from chipfire.utils import as_int, FILE, FileName, MAX_CHIPS, read_rows

#: The header of a log, and what a row may name that claims something: the root, with the reply `closed` or `open`.
LOG_HEADER = ("event", "at", "count", "reply")
CLAIM = "root"


class Claim(NamedTuple):
    """What a row says of the root: "closed" or "open". It is false if the root is closed, and something is left."""

    row: int
    said: str
    is_true: bool
    left: tuple[str, ...]


@dataclass(frozen=True)
class Judged:
    """The verdict on a log.

    row       the index of the first row whose reply is not the right detector's or does not fit the game, or None
    told      the log's reply there
    right     the right detector's
    fits      whether the game can go as the log says. If not, there is no verdict on what comes from that row on
    claims    what the rows before it that are called `root` say of the root, each judged where it stands
    is_missed whether the log ends, the root is open in its last claim, and nothing is left
    """

    row: int | None
    told: str
    right: str
    fits: bool
    claims: tuple[Claim, ...]
    is_missed: bool

    @property
    def _said(self) -> Claim | None:
        """The first claim that is false, or else the last."""
        return next(
            (claim for claim in self.claims if not claim.is_true),
            self.claims[-1] if self.claims else None,
        )

    @property
    def claim(self) -> str | None:
        """The first claim that is false, or else the last: "closed" or "open"; None if nothing is claimed."""
        return self._said and self._said.said

    @property
    def is_true(self) -> bool | None:
        """Whether all claims are true; None if none is false, and the log does not fit the game."""
        is_true = all(claim.is_true for claim in self.claims)
        return None if is_true and not self.fits else is_true

    @property
    def left(self) -> tuple[str, ...]:
        """What is left at that claim."""
        return self._said.left if self._said else ()

    def _said_of_replies(self) -> str:
        if self.row is None:
            return "each reply is that of the right detector"
        if self.fits:
            return f"row {self.row}: the log says {self.told!r}, the right detector {self.right!r}"
        return (
            f"the log does not fit the game: row {self.row} says {self.told!r}, and the game "
            f"{self.right!r}; what follows is not judged"
        )

    def __str__(self) -> str:
        said = [self._said_of_replies()]
        if self._said is not None:
            rest = f", since {'; '.join(self.left)}" if self.left else ", and nothing is left"
            is_true = str(self._said.is_true).lower()
            said.append(
                f"the claim in row {self._said.row} that the root is {self.claim} is {is_true}{rest}"
            )
        if self.is_missed:
            said.append("the end is missed: nothing is left, and the root is open")
        return "; ".join(said)


def judge(
    setting: Setting, log: Iterable[Sequence[Any]] | FileName, *, also: Collection[str] = ()
) -> Judged:
    """Checks the log of your own machine, which played a game, against the model.

    Parameters
    ----------
    setting : Setting
        The game.
    log : iterable of rows, or path
        Rows of an event, its place, a count and its reply; or a file of such rows with the header
        ``event,at,count,reply``. A row ``root,0,0,closed`` claims that the root is closed, and a row ``root,0,0,open``
        that it is open.
    also : collection of str, optional
        Events of the machine's own detector, such as those of a token. `judge` ignores them.

    Returns
    -------
    Judged
        The first reply that differs from the right detector's, the verdict on each claim, and what is left at the
        end.

    Raises
    ------
    ValueError
        A row is malformed, an event is neither known nor listed, or the log is that of another computation.

    See Also
    --------
    judge_log, explore

    Notes
    -----
    A claim is judged at its row, and only by the game: by what was taken, fired and sent. So a detector that
    acknowledges in another way than the right detector has a row that differs, but its claims may be right. If a log
    ends with an open root and nothing is left, it missed the end, so log until your machine rests. Messages may be
    acknowledged and settled one by one. An edge holds as many messages as the log puts there. The log may report an
    edge as full when it holds one message.

    None of this is proved, and the program is not run.

    Examples
    --------
    The root closes while vertex 0 can fire:

    >>> from chipfire import detectors
    >>> log = [("take", 4, 0, "got 0 4"), ("ack", 4, 0, "done 1"), ("settle", 4, 0, "done 1"), ("root", 0, 0, "closed")]
    >>> chipfire.judge(detectors.DETECTORS["right"].game, log).is_true
    False
    """
    core = opened(setting)
    core.ring = MAX_CHIPS
    claims: list[Claim] = []
    row: int | None = None
    logged = right = ""
    for index, (kind, at, count, reply) in enumerate(_rows(log, also)):
        if kind == CLAIM:
            left = tuple(core.left())
            claims.append(Claim(index, reply, reply == "open" or not left, left))
        elif kind in EVENTS:
            said = _right_reply(core, kind, at, count, reply)
            if said != reply and kind not in ("ack", "settle", "end", "read"):
                return Judged(index, reply, said, False, tuple(claims), False)
            if said != reply and row is None:
                row = index
                logged = reply
                right = said
    is_missed = bool(claims) and claims[-1].said == "open" and not core.left()
    return Judged(row, logged, right, True, tuple(claims), is_missed)


def _rows(
    log: Iterable[Sequence[Any]] | FileName, also: Collection[str]
) -> Iterator[tuple[str, int, int, str]]:
    """The rows of a log, each with its numbers."""
    try:
        rows = list(read_rows(log, LOG_HEADER)) if isinstance(log, FILE) else log
    except ValueError as error:
        raise ValueError(f"{error}: this is no log of a detector of chip-firing") from None
    for index, row in enumerate(rows):
        if isinstance(row, str) or len(row) != len(LOG_HEADER):
            raise ValueError(
                f"row {index} has not {len(LOG_HEADER)} fields: {', '.join(LOG_HEADER)}"
            )
        kind, at, count, reply = str(row[0]), *row[1:3], str(row[3]).strip()
        if kind not in (*EVENTS, CLAIM, *also):
            near = difflib.get_close_matches(kind.lower(), [*EVENTS, CLAIM, *also], 1)
            meant = f"{near[0]} is near" if near else "this is no log of a detector of chip-firing"
            raise ValueError(
                f"row {index}: there is no event {kind!r}: {meant}, and `also` lists events of your own"
            )
        if kind == CLAIM and reply not in ("closed", "open"):
            raise ValueError(
                f"row {index} claims that the root is {reply!r}, which is neither closed nor open"
            )
        numbers = [
            _number(value, f"row {index}: {name}")
            for name, value in (("at", at), ("count", count or 0))
        ]
        yield kind, numbers[0], numbers[1], reply


def _number(value: Any, what: str) -> int:
    if isinstance(value, str):
        if not value.strip().lstrip("-").isdecimal():
            raise ValueError(f"{what} is no whole number: {value!r}")
        value = int(value)
    return as_int(value, what)


def _right_reply(core: Core, kind: str, at: int, count: int, logged: str) -> str:
    """Plays an event of a log on the model, and returns the reply that is right: the log's own, `logged`, if it may be.

    The model acknowledges and settles all that it can, and reads the root once that is closed. A log may acknowledge
    or settle less, call an edge full that has a message, and read the root once nothing is left.
    """
    e = core.edges[at] if at < len(core.edges) else None
    done = _number_done(logged)
    if kind == "clear" and logged == "full" and e is not None and e.delivered < len(e.sent):
        e.clear = False
        return logged
    if kind == "ack" and e is not None and 0 < done <= core.may_ack(e):
        e.acked += done
        if core.vertices[e.head].parent == at and e.acked == e.delivered:
            core.vertices[e.head].parent = None
        return logged
    if kind in ("settle", "end"):
        e = core.edges[core.graph_edges] if kind == "end" else e
        if e is not None and 0 <= done <= e.acked - e.settled:
            e.settled += done
            core.ended = core.ended or kind == "end"
            return logged
    is_read = kind == "read" and at < len(core.vertices)
    if is_read and done == core.vertices[at].fired and not core.left():
        return logged
    return core.step(kind, at, count)


def _number_done(reply: str) -> int:
    """The number of a reply "done NUMBER"; -1 of any other reply."""
    word, *numbers = reply.split() or [""]
    if word == "done" and len(numbers) == 1 and numbers[0].isdecimal():
        return int(numbers[0])
    return -1
