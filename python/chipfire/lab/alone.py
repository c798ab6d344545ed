"""A process for one class of somebody else, with limits of time and memory, that is ended with all that it started.

It reports on a pipe in lines of JSON, so that what a class prints spoils nothing. It is no sandbox: a class has the
rights of whoever grades it.
"""

from __future__ import annotations

import contextlib
import json
import os
import select
import signal
import subprocess
import sys
import time
from collections.abc import Callable
from typing import Any, NamedTuple, Union

from chipfire.lab.files import detector_of, detectors_of
from chipfire.lab.machine import Setting
from chipfire.lab.pages import page
from chipfire.lab.schedules import Detector, detector_name, play
from chipfire.lab.suite import (
    EARLY,
    findings,
    GAMES,
    MISSED,
    NOT_GRADED,
    NOT_LOCAL,
    RIGHT,
    UNDECIDED,
    Verdict,
)
from chipfire.lab.wrong import wrong_page
from chipfire.utils import import_optional, with_unit

#: How the process begins: with the paths of modules that this one has.
_START = "import sys; sys.path[:] = sys.argv[3:]; from chipfire.lab.alone import main; main()"
#: How many times as long a process may last by the clock.
SLOWEST = 10
#: Facts that are reported: they are added to those before.
Facts = dict[str, Any]


class Limits(NamedTuple):
    """What the process of a class may take: seconds of a processor, of which each may take `SLOWEST` by the clock."""

    seconds: int = 60
    megabytes: int = 1000


class Task(NamedTuple):
    """What a process is for: a class, or the file whose classes it lists.

    name     FILE.py:CLASS, or FILE.py
    page     the file of the page of what is wrong, or none
    program  the program chipfire, if not the one that is found
    """

    name: str
    limits: Limits = Limits()
    page: Union[str, None] = None
    program: Union[str, None] = None


def facts_of(task: Task) -> Facts:
    """What a process of its own reports: it always has a verdict, or classes."""
    limits = task.limits
    ours, theirs = os.pipe()
    words = [sys.executable, "-c", _START, str(theirs), json.dumps(task)]
    quiet: Any = dict.fromkeys(("stdin", "stdout", "stderr"), subprocess.DEVNULL)
    until = time.monotonic() + SLOWEST * limits.seconds
    with open(ours, "rb", buffering=0) as pipe:
        try:
            running = subprocess.Popen(
                [*words, *sys.path], pass_fds=[theirs], start_new_session=True, **quiet
            )
        finally:
            os.close(theirs)
        try:
            facts = _heard(pipe.fileno(), until)
        finally:
            is_late = time.monotonic() >= until
            with contextlib.suppress(ProcessLookupError):
                os.killpg(running.pid, signal.SIGKILL)
            running.wait()
    if facts.keys() & {"verdict", "classes"}:
        return {"game": facts.get("now"), **facts}
    unsaid = _unsaid(running.returncode, is_late, limits)
    return {"game": facts.get("now"), **unsaid._asdict()}


def _heard(pipe: int, until: float) -> Facts:
    """The facts that come on a pipe, until it is closed, an empty line comes or the time is over."""
    facts: Facts = {}
    rest = b""
    while True:
        ready, _, _ = select.select([pipe], [], [], max(until - time.monotonic(), 0))
        more = os.read(pipe, 65_536) if ready else b""
        *lines, rest = (rest + more).split(b"\n")
        for line in lines:
            facts |= json.loads(line or "{}")
        if not more or b"" in lines:
            return facts


def _unsaid(status: int, is_late: bool, limits: Limits) -> Verdict:
    """The verdict on a class whose process reported none."""
    if status == -signal.SIGXCPU:
        over = f"{with_unit(limits.seconds, 'second')} of a processor are over"
        return Verdict(UNDECIDED, over)
    if is_late:
        over = f"{with_unit(SLOWEST * limits.seconds, 'second')} by the clock are over"
        return Verdict(UNDECIDED, over)
    how = f"by signal {-status}" if status < 0 else f"with status {status}"
    return Verdict(NOT_GRADED, f"the class ended its process {how}")


# In the process of the class:


def main() -> None:
    """Grades a class, or lists the classes of a file, in this process, which is there for that alone."""
    pipe = int(sys.argv[1])
    name, limits, page_file, program = json.loads(sys.argv[2])
    task = Task(name, Limits(*limits), page_file, program)
    os.set_inheritable(pipe, False)
    sys.argv[:] = [name]
    _limit(task.limits)

    def report(facts: Facts) -> None:
        os.write(pipe, f"{json.dumps(facts)}\n".encode())

    try:
        _grade(task, report)
    except BaseException as error:  # (whatever the class does)
        kind = "" if isinstance(error, (OSError, ValueError)) else f"{type(error).__name__}: "
        report(Verdict(NOT_GRADED, f"{kind}{error}")._asdict())
    os.write(pipe, b"\n")


def _limit(limits: Limits) -> None:
    """Limits this process, and what it starts. The alarm ends it if nobody is there to do so."""
    resource = import_optional("resource", "limits need the module resource of Python")
    memory = limits.megabytes << 20
    wanted = {
        resource.RLIMIT_CPU: (limits.seconds, limits.seconds + 1),
        resource.RLIMIT_AS: (memory, memory),
        resource.RLIMIT_CORE: (0, 0),
    }
    for what, ends in wanted.items():
        _, hard = resource.getrlimit(what)
        kept = ends if hard == resource.RLIM_INFINITY else [min(end, hard) for end in ends]
        resource.setrlimit(what, tuple(kept))
    signal.alarm(SLOWEST * limits.seconds + 5)


def _grade(task: Task, report: Callable[[Facts], None]) -> None:
    """Reports the verdict on a class, or the classes of a file."""
    if task.name.endswith(".py"):
        report({"classes": detectors_of(task.name)})
        return
    detector = detector_of(task.name)
    best = Verdict(RIGHT)
    where = None
    for game, verdict in findings(detector):
        report({"now": game})
        if verdict is not None:
            best = verdict
            where = game
            report({"game": where, **best._asdict()})
    if where is None:
        report({"game": None, **best._asdict()})
    elif best.verdict in (EARLY, MISSED, NOT_LOCAL) and task.page is not None:
        report(_page(task.page, GAMES[where], detector, best, task.program))


def _page(
    file: str, setting: Setting, detector: Detector, verdict: Verdict, program: Union[str, None]
) -> Facts:
    """Writes the page of the events that show what is wrong."""
    title = f"{detector_name(detector)}: {verdict.verdict}"
    try:
        if verdict.verdict == EARLY:
            wrong_page(detector, file, setting, title=title, program=program)
        else:
            page(play(setting, verdict.schedule or (), detector), file, title=title)
    except Exception as error:  # (the verdict stays)
        return {"why": f"{verdict.why}; there is no page: {error}"}
    return {"page": file}
