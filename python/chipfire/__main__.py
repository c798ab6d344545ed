"""The package from the command line.

    python -m chipfire page GRAPH CHIPS SCHEDULE >run.html
    python -m chipfire page GRAPH CHIPS TRACE >run.html
    python -m chipfire wrong DETECTOR [GRAPH CHIPS] >wrong.html
    python -m chipfire choose DETECTOR [GRAPH CHIPS] >choose.html
    python -m chipfire explore DETECTOR [GRAPH CHIPS]
    python -m chipfire grade CLASS ..
    python -m chipfire judge GRAPH CHIPS LOG
    python -m chipfire judge LOG
    python -m chipfire judge-log FILE
    python -m chipfire board

DETECTOR is a name or FILE.py:CLASS. `explore` ends with status 0 if the detector is right in all schedules of this game,
2 if it can close the root too early, 3 if it can miss the end, 4 if there are more states than --most, and 5 if it reads
other vertices; with 2, 3 and 5 a schedule shows it. `grade` ends with 0 if all classes are right on its games, 2 if one is
wrong, and 4 if one is not decided or cannot be run. `judge` ends with 0 if all claims of the log are true, 2 if one is
false, and 3 if the log misses the end; with LOG alone it is the program's `judge`. `board` opens the page beside the program
on which sandpiles are played. An error is 1.
"""

from __future__ import annotations

import argparse
import os
import pathlib
import re
import shutil
import subprocess
import sys
import tempfile
import webbrowser
from collections.abc import Callable, Hashable
from typing import Any, NoReturn

from chipfire.lab.alone import Limits
from chipfire.lab.choosing import choice_page_text
from chipfire.lab.detectors import DETECTORS, known_detector
from chipfire.lab.explorer import DetectorError, explore
from chipfire.lab.files import detector_of
from chipfire.lab.grade import grades, status_of
from chipfire.backend.finding import environment, find_program
from chipfire.lab.judging import judge
from chipfire.lab.layout import Point
from chipfire.lab.ledger import Disagreement
from chipfire.lab.logs import judge_log, KINDS, read_json_lines, read_shiviz
from chipfire.lab.machine import SCHEDULE_HEADER, TRACE_HEADER, Setting
from chipfire.lab.pages import page_text, recorded, refuse_more
from chipfire.backend.commands import known_chips, known_graph, simulate
from chipfire.backend.trust import doubt
from chipfire.utils import as_int, MAX_LIMIT, has_header as begins, read_rows, rows_text
from chipfire.lab.wrong import wrong_page_text


def _positions(file: str) -> dict[int, Point]:
    rows = read_rows(file, ("vertex", "right", "down"))
    return {int(vertex): (float(right), float(down)) for vertex, right, down in rows}


def _page(asked: argparse.Namespace) -> str:
    game = (asked.graph, asked.chips, asked.events)
    options = {"limit": asked.limit, "ring": asked.ring, "program": asked.program}
    refuse_more(asked.events)
    if not begins(asked.events, TRACE_HEADER):
        run = simulate(*game, rounds=asked.rounds, fed=asked.fed, books=True, **options)
    elif asked.rounds is None and not asked.fed:
        run = recorded(*game, **options)
    else:
        raise ValueError("--rounds and --fed go with a schedule; a trace is a run without them")
    title = asked.title or "A run of chipfire"
    places = asked.positions and _positions(asked.positions)
    return page_text(run, title=title, positions=places, program=asked.program)


def _setting(files: list[str], asked: argparse.Namespace, **options: Any) -> Setting:
    """The game of two files."""
    if len(files) != 2:
        raise ValueError("a game is GRAPH and CHIPS, two files")
    known = known_graph(files[0], asked.program)
    return Setting(known, known_chips(known, files[1], asked.program), **options)


def _tried(asked: argparse.Namespace) -> str:
    """The page of a detector that is tried."""
    setting = _setting(asked.game, asked) if asked.game else None
    options = {"title": asked.title, "positions": asked.positions and _positions(asked.positions)}
    options |= {"program": asked.program} if asked.text is wrong_page_text else {}
    return str(asked.text(detector_of(asked.name), setting, **options))


def _explore(asked: argparse.Namespace) -> tuple[str, int]:
    """What is found, with the shortest schedule, and the status."""
    detector = detector_of(asked.name)
    known = known_detector(asked.name if asked.name in DETECTORS else "right").game
    options: dict[str, Any] = {"limit": asked.limit, "ring": asked.ring, "fed": bool(asked.feed)}
    setting = (
        _setting(asked.game, asked, **options)
        if asked.game
        else Setting(known.graph, known.chips, **options)
    )
    found = explore(
        setting,
        detector,
        most=asked.most,
        whole_sends=asked.whole_sends,
        feeds=asked.feed,
        seals=asked.seal,
    )
    rows = "" if found.shown is None else rows_text(SCHEDULE_HEADER, found.shown)
    return f"{found}\n{rows}", found.status


def _grade(asked: argparse.Namespace) -> tuple[str, int]:
    """Writes the line of each class as soon as it is graded, and returns the status."""
    found = []
    seconds = as_int(asked.seconds, "--seconds", 1)
    limits = Limits(seconds, as_int(asked.megabytes, "--megabytes", 1))
    for grade in grades(asked.names, limits, asked.pages, asked.program):
        found.append(grade)
        line = grade.json() if asked.json else str(grade)
        sys.stdout.buffer.write(f"{line}\n".encode(errors="surrogateescape"))
        sys.stdout.buffer.flush()
    return "", status_of(found)


def _judge(asked: argparse.Namespace) -> tuple[str, int]:
    """The verdict on a log, and the status."""
    *game, log = asked.files
    if not game:
        words = [asked.program or find_program(), "judge", log]
        ran = subprocess.run(words, stdout=subprocess.PIPE, encoding="utf-8", env=environment())
        return ran.stdout, ran.returncode
    judged = judge(_setting(game, asked, fed=asked.fed), log, also=asked.also)
    if not judged.fits and judged.is_true is None:
        raise ValueError(str(judged))
    text = f"{judged}\n"
    if not judged.is_true:
        return text, 2
    return text, 3 if judged.is_missed else 0


def _kind_of(asked: argparse.Namespace) -> Callable[[str], str | None]:
    """The kind of an event by its text: its first word; or that of the first --kind that the text begins with, if any."""
    kinds = []
    for said in asked.kind:
        begin, _, kind = said.rpartition("=")
        if not begin or kind not in KINDS:
            raise ValueError(f"--kind {said} is no TEXT=KIND with a kind among {', '.join(KINDS)}")
        kinds.append((re.compile(begin), kind))
    if not kinds:
        return lambda text: text.split()[0] if text.split() else text
    return lambda text: next((kind for begin, kind in kinds if begin.match(text)), None)


def _message_of(asked: argparse.Namespace) -> Callable[[str], Hashable]:
    """The message of an event by its text: what --message finds there, or its first group."""
    pattern = re.compile(asked.message or r"(?!)")

    def message_of(text: str) -> Hashable:
        found = pattern.search(text)
        return found and found[1 if pattern.groups else 0]

    return message_of


def _rows_of_log(asked: argparse.Namespace, files: list[str]) -> Any:
    """What is to be judged: rows that are read here, or the name of a file of rows."""
    kind_of = _kind_of(asked)
    if asked.json:
        process, kind, channel = asked.keys
        name = None if process == "-" else process
        return read_json_lines(
            files, process=name, kind=lambda line: kind_of(str(line[kind])), channel=channel
        )
    if len(files) > 1:
        raise ValueError("only a log of JSON lines may lie in several files")
    if not asked.shiviz:
        return files[0]
    message_of = _message_of(asked)
    more = {"expression": asked.expression} if asked.expression else {}
    return read_shiviz(files[0], kind_of, message_of=message_of, gaps=asked.gaps, **more)


def _judge_log(asked: argparse.Namespace) -> tuple[str, int]:
    """The verdicts on the claims in a log of any program, and the status."""
    with tempfile.TemporaryDirectory(prefix="chipfire-") as folder:
        files = [f"{folder}/stdin" if file == "-" else file for file in asked.files]
        if "-" in asked.files:
            with open(f"{folder}/stdin", "wb") as kept:
                shutil.copyfileobj(sys.stdin.buffer, kept)
        names = ("past", "first", "processes", "reactive", "cut", "progress", "program")
        options = {name: getattr(asked, name) for name in names}
        judged = judge_log(_rows_of_log(asked, files), **options)
    return f"{judged}\n", {True: 0, False: 2, None: 3}[judged.is_right]


class _Parser(argparse.ArgumentParser):
    """A parser of arguments by which an error is 1, since 2 is a verdict."""

    def error(self, message: str) -> NoReturn:
        self.exit(1, f"{self.format_usage()}{self.prog}: error: {message}\n")


def _add(
    commands: Any, name: str, says: str, more: str = "", **defaults: Any
) -> argparse.ArgumentParser:
    """Adds a command, what the list of all and its own help say of it, and what only its own help says more."""
    command: argparse.ArgumentParser = commands.add_parser(name, help=says, description=says + more)
    command.set_defaults(**defaults)
    command.add_argument(
        "--program", metavar="FILE", help="the program chipfire, if not the one that is found"
    )
    return command


def _board(asked: argparse.Namespace) -> str:
    """Opens the page of sandpiles in a browser; where it is."""
    folder = os.path.dirname(os.path.realpath(asked.program or find_program()))
    page = os.path.join(folder, "js", "chipfire.html")
    if not os.path.isfile(page):
        raise ValueError(
            f"{page} is not there: tools/webassembly.py and tools/board.py of the repository make it"
        )
    if why := doubt(page):
        raise ValueError(f"{page} is not opened, since {why}")
    if not asked.no_browser:
        webbrowser.open(pathlib.Path(page).as_uri())
    return f"{page}\n"


def _add_page(commands: Any) -> None:
    says = "writes a page of HTML on which a run can be watched event by event"
    command = _add(commands, "page", says, make=_page)
    command.add_argument("graph", metavar="GRAPH", help="a graph file")
    command.add_argument("chips", metavar="CHIPS", help="a chips file")
    says = "a schedule, or the trace of a recorded run (run --trace)"
    command.add_argument("events", metavar="SCHEDULE", help=says)
    _add_limits(command, None, None)
    says = "how many rounds of turns follow a schedule at most"
    command.add_argument("--rounds", type=int, metavar="N", help=says)
    command.add_argument("--fed", action="store_true", help="the schedule may feed chips")
    _add_style(command)


def _add_wrong(commands: Any) -> None:
    says = (
        "writes a page of the shortest schedule on which a wrong detector says too early that all "
        "is over"
    )
    more = ", beside the right one"
    command = _add(commands, "wrong", says, more, make=_tried, text=wrong_page_text)
    _add_detector(command)
    _add_style(command)


def _add_choose(commands: Any) -> None:
    says = "writes a page on which one picks each event among those that may happen"
    more = ", on a game of at most 2,000 states"
    command = _add(commands, "choose", says, more, make=_tried, text=choice_page_text)
    _add_detector(command)
    _add_style(command)


def _add_explore(commands: Any) -> None:
    says = (
        "tries all schedules of a small game: status 0 right in this game, 2 too early, "
        "3 can miss the end, 4 too many states, 5 reads other vertices"
    )
    command = _add(commands, "explore", says, make=_explore)
    _add_detector(command)
    says = "how many states are visited"
    command.add_argument("--most", type=int, default=100_000, metavar="N", help=says)
    says = "a send is one step, and not clear, claim and put: fewer states, and less is found"
    command.add_argument("--whole-sends", action="store_true", help=says)
    _add_limits(command, MAX_LIMIT, 1)
    says = "the root feeds CHIPS on its edge EDGE, each feed after the others"
    command.add_argument(
        "--feed",
        type=int,
        nargs=2,
        action="append",
        default=[],
        metavar=("EDGE", "CHIPS"),
        help=says,
    )
    says = "the edge EDGE may be sealed"
    command.add_argument("--seal", type=int, action="append", default=[], metavar="EDGE", help=says)


def _add_grade(commands: Any) -> None:
    says = (
        "grades classes on small games: status 0 all right on these, 2 one is wrong, 4 one is "
        "undecided or cannot be run"
    )
    command = _add(commands, "grade", says, make=_grade)
    says = "FILE.py:CLASS; FILE.py for all its classes, or a folder for all its files"
    command.add_argument("names", metavar="CLASS", nargs="+", help=says)
    says = "how long each class may take on a processor, and ten times as long by the clock (%(default)s)"
    command.add_argument("--seconds", type=int, default=Limits().seconds, metavar="N", help=says)
    says = "how much memory each class has at most (%(default)s)"
    command.add_argument(
        "--megabytes", type=int, default=Limits().megabytes, metavar="N", help=says
    )
    says = "a line of JSON for each class"
    command.add_argument("--json", action="store_true", help=says)
    says = "writes a page for each class that is wrong into this folder"
    command.add_argument("--pages", metavar="FOLDER", help=says)


def _add_judge(commands: Any) -> None:
    says = (
        "judges a log: status 0 if its claims are true, 2 if one is false, 3 if it misses the end"
    )
    command = _add(commands, "judge", says, make=_judge)
    says = "GRAPH, CHIPS and a log of rows event,at,count,reply; or a log of any program alone"
    command.add_argument("files", metavar="FILE", nargs="+", help=says)
    says = "an event of its own detector"
    command.add_argument("--also", action="append", default=[], metavar="EVENT", help=says)
    command.add_argument("--fed", action="store_true", help="the root may feed chips")


def _add_judge_log(commands: Any) -> None:
    says = "judges a log of any program: status 0 if its claims are right, 2 if one is early, 3 if there is none"
    more = ". A log is rows process,kind,channel, or JSON lines, or a log of ShiViz or GoVector"
    command = _add(commands, "judge-log", says, more, make=_judge_log)
    says = "the log; - is standard input"
    command.add_argument("files", metavar="FILE", nargs="+", help=says)
    form = command.add_mutually_exclusive_group()
    form.add_argument(
        "--json", action="store_true", help="the log is JSON lines, in one file or more"
    )
    form.add_argument("--shiviz", action="store_true", help="the log has clocks")
    says = "the keys of JSON lines; for PROCESS - each file is a process"
    keys = ("PROCESS", "KIND", "CHANNEL")
    usual = [key.lower() for key in keys]
    command.add_argument("--keys", nargs=3, default=usual, metavar=keys, help=says)
    says = "the kind of what begins with this regular expression; all else is passed over"
    command.add_argument("--kind", action="append", default=[], metavar="TEXT=KIND", help=says)
    says = "finds the message in the text of an event with a clock, by its first group"
    command.add_argument("--message", metavar="EXPRESSION", help=says)
    says = "how events and clocks stand in the log, as ShiViz takes it"
    command.add_argument("--expression", metavar="EXPRESSION", help=says)
    says = "expects a row of each process from 0 to below N"
    command.add_argument("--processes", type=int, default=0, metavar="N", help=says)
    for name, says in [
        ("gaps", "takes a log without events that its clocks count"),
        ("past", "reports the causal past of each early claim: how many rows of each process"),
        ("first", "ends at the first early claim, by process and row"),
        ("reactive", "for processes that do not log when they are passive"),
        ("cut", "leaves out the rows that wait after maximal progress, and all after them"),
        ("progress", "writes which claim is judged, about once a second"),
    ]:
        command.add_argument(f"--{name}", action="store_true", help=says)


def _add_board(commands: Any) -> None:
    says = "opens the page on which sandpiles are played, and writes its address"
    command = _add(commands, "board", says, make=_board)
    command.add_argument("--no-browser", action="store_true", help="only writes the address")


def _add_detector(command: argparse.ArgumentParser) -> None:
    """The arguments that name a detector and a game."""
    says = f"FILE.py:CLASS, or one of {', '.join(DETECTORS)}"
    command.add_argument("name", metavar="DETECTOR", help=says)
    says = "another game than that of the detector"
    command.add_argument("game", metavar="GRAPH CHIPS", nargs="*", help=says)


def _add_limits(command: argparse.ArgumentParser, limit: int | None, ring: int | None) -> None:
    says = "how often each vertex may fire"
    command.add_argument("--limit", type=int, default=limit, metavar="F", help=says)
    says = "how many cells the ring of an edge has"
    command.add_argument("--ring", type=int, default=ring, metavar="R", help=says)


def _add_style(command: argparse.ArgumentParser) -> None:
    """The options for the style of a page."""
    command.add_argument("--title", metavar="TEXT", help="what stands above the page")
    says = "where the vertices stand: rows vertex,right,down"
    command.add_argument("--positions", metavar="FILE", help=says)


def _arguments() -> argparse.ArgumentParser:
    parser = _Parser(prog="python -m chipfire", description="chipfire's Python package.")
    commands = parser.add_subparsers(required=True, metavar="COMMAND")
    for add in (
        _add_page,
        _add_wrong,
        _add_choose,
        _add_explore,
        _add_grade,
        _add_judge,
        _add_judge_log,
        _add_board,
    ):
        add(commands)
    return parser


def main() -> int:
    asked = _arguments().parse_args()
    try:
        made = asked.make(asked)
        text, status = made if isinstance(made, tuple) else (made, 0)
        sys.stdout.buffer.write(text.encode())
    except (Disagreement, OSError, ValueError) as error:
        print(f"chipfire: {error}", file=sys.stderr)
        if isinstance(error, DetectorError) and error.schedule:
            sys.stdout.write(rows_text(SCHEDULE_HEADER, error.schedule))
        return 1
    except SystemExit as error:
        print(f"chipfire: the detector ended the command with exit({error})", file=sys.stderr)
        return 1
    return int(status)


if __name__ == "__main__":
    sys.exit(main())
