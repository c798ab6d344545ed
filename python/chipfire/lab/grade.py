"""Grades classes of others on the games of `suite`, each in a process of its own."""

from __future__ import annotations

import json
import os
import re
from collections.abc import Iterable, Iterator, Sequence
from dataclasses import asdict, dataclass
from typing import Any, Union

from chipfire.lab.alone import Facts, Limits, Task, facts_of
from chipfire.lab.suite import EARLY, GAMES, MISSED, NOT_LOCAL, RIGHT


@dataclass(frozen=True)
class Grade:
    """What a class results in.

    name      the class as it was named
    verdict   "right", "too early", "not local", "misses the end", "undecided" or "not graded"
    game      the game that decides, by its name in `suite.GAMES`; None if it is none, or all
    events    how many events lead there; None if no schedule does
    why       what is left, what was too much or what went wrong, in words
    schedule  these events
    page      the file of the page that shows them; None if there is none
    """

    name: str
    verdict: str
    game: Union[str, None] = None
    events: Union[int, None] = None
    why: str = ""
    schedule: Sequence[Sequence[Any]] = ()
    page: Union[str, None] = None

    def __str__(self) -> str:
        if self.verdict == RIGHT:
            return f"{self.name}: right on these {len(GAMES)} games"
        where = f" in game {self.game}" if self.game else ""
        return f"{self.name}: {self.verdict}{where}: {self.why}"

    def json(self) -> str:
        """The same as one line of JSON."""
        own = asdict(self)
        return json.dumps({"class": own.pop("name"), **own})


def status_of(found: Iterable[Grade]) -> int:
    """The status of several classes: 2 if one is wrong, or else 4 if one is undecided or not graded."""
    verdicts = {grade.verdict for grade in found}
    if verdicts & {EARLY, MISSED, NOT_LOCAL}:
        return 2
    return 0 if verdicts <= {RIGHT} else 4


def grades(
    names: Iterable[str],
    limits: Limits = Limits(),
    pages: Union[str, None] = None,
    program: Union[str, None] = None,
) -> Iterator[Grade]:
    """The grades of classes, in their order.

    names    FILE.py:CLASS, FILE.py for all classes of a file, a folder for all its files, or the name of a detector
    pages    a folder for the pages of what is wrong, which is made if it is not there
    program  the program chipfire, if not the one that is found
    """
    if pages is not None:
        os.makedirs(pages, exist_ok=True)
    for name in names:
        for one in _files(name) if os.path.isdir(name) else [name]:
            facts = {"classes": [one]}
            if one.endswith(".py"):
                facts = facts_of(Task(one, limits))
            if "classes" not in facts:
                yield _grade(one, facts)
            for found in facts.get("classes", ()):
                task = Task(found, limits, _page_of(found, pages), program)
                yield _grade(found, facts_of(task))


def _files(folder: str) -> list[str]:
    """The files of a folder that may have classes."""
    found = [os.path.join(folder, it) for it in sorted(os.listdir(folder)) if it.endswith(".py")]
    if not found:
        raise ValueError(f"there is no file of Python in {folder}")
    return found


def _page_of(name: str, pages: Union[str, None]) -> Union[str, None]:
    """The file of the page of a class."""
    return pages and os.path.join(pages, re.sub(r"[^\w.-]", "_", name) + ".html")


def _grade(name: str, facts: Facts) -> Grade:
    """The grade by what the process of a class reported."""
    events = facts["schedule"]
    return Grade(
        name,
        facts["verdict"],
        facts.get("game"),
        None if events is None else len(events),
        _plain(facts["why"]),
        events or (),
        facts.get("page"),
    )


def _plain(text: str) -> str:
    """A text on one line, without what a terminal would obey."""
    return " ".join("".join(it if it.isprintable() else " " for it in text).split())
