"""The program chipfire as a process: how it is asked, and what it refuses."""

from __future__ import annotations

import ctypes
import functools
import json
import os
import re
import signal
import subprocess
import sys
import tempfile
import warnings
import weakref
from collections.abc import Iterable, Mapping, Sequence
from typing import Any, TYPE_CHECKING, Union

from chipfire.backend.finding import (
    carries_library_alone,
    environment,
    find_program,
    on_path,
    ProgramNotFound,
)
from chipfire.utils import FileName, MAX_LARGE_EDGES, MAX_LARGE_VERTICES, package_text

if TYPE_CHECKING:
    from chipfire.graphs.graph import Graph

#: The faults of a graph file, and of a file of rows.
_OF_GRAPH = (*range(1, 9), 20, 21, 22)
_OF_ROWS = (*range(23, 29), 10)

#: What makes a process end with the thread that started it (PR_SET_PDEATHSIG), if the system has that; and the words
#: that have setpriv do the same, sooner than Python makes a copy of itself to do it.
_PRCTL = ctypes.CDLL(None).prctl if sys.platform == "linux" else None
_SETPRIV = "setpriv", "--pdeathsig", "KILL", "--"


class TraceCut(UserWarning):
    """The warning of `run` that a vertex has more rows than its trace holds. `replay` may refuse such a trace.

    See Also
    --------
    run, replay

    Notes
    -----
    Proved: that a trace is cut exactly if the program reports this. Not proved: that Python passes the report on.

    Examples
    --------
    >>> import warnings
    >>> with warnings.catch_warnings(record=True) as caught:
    ...     warnings.simplefilter("always")
    ...     _ = chipfire.run(chipfire.path(2), {0: 9}, trace="trace.csv", trace_rows=1)
    >>> [it.category.__name__ for it in caught]
    ['TraceCut']
    """


class Fault(ValueError):
    """The program or the library refuses its input, or what it was asked to do.

    Attributes
    ----------
    number : int
        The number of the fault: 24 in ``fault 24 Row 3``.
    name : str
        The name of the fault: "Row".
    place : tuple
        The numbers after the name: (3,). If the processes of a log have names, a process stands here by its name.
    explanation : str
        What ``chipfire explain`` says of this number; empty if it says nothing.
    status : int
        The exit status: 1, or 3 if a run did not finish.
    words : str
        Which file has the fault, or what is wrong with the graph, with the names of its vertices.

    See Also
    --------
    explain, check

    Notes
    -----
    Proved: which fault a file has. Not proved: that Python passes it on.

    Examples
    --------
    >>> try:
    ...     chipfire.plain(chipfire.Graph(2, 1, [(0, 0), (0, 1)]), [1, 0])
    ... except chipfire.Fault as fault:
    ...     print(fault.number, fault.name, fault.place)
    6 Loop (0,)
    """

    def __init__(
        self,
        number: int,
        name: str,
        place: tuple[Any, ...],
        explanation: str,
        status: int,
        words: str = "",
    ) -> None:
        super().__init__(number, name, place, explanation, status, words)
        self.number = number
        self.name = name
        self.place = place
        self.explanation = explanation
        self.status = status
        self.words = words

    def __str__(self) -> str:
        line = " ".join(["fault", str(self.number), self.name, *map(str, self.place)])
        line += f": {self.words}" if self.words else ""
        # (an explanation speaks of files and a shell: of --large, and of options that Python calls otherwise)
        told = re.sub(r"[^.]*--large`[^.]*\.", "", self.explanation)
        told = re.sub(r"--([a-z-]+)", lambda option: option[1].replace("-", "_"), told)
        return f"{line}\n{told}" if told and not self.words.endswith(".") else line


class Kept:
    """A file without a name that the program reads or writes. It goes with this object, or however Python ends."""

    def __init__(self, parts: Iterable[bytes]) -> None:
        file = tempfile.TemporaryFile()
        weakref.finalize(self, file.close)
        file.writelines(parts)
        file.flush()
        self.number = file.fileno()

    def text(self) -> str:
        """Its contents, including what the program wrote."""
        with open(f"/dev/fd/{self.number}", encoding="utf-8", newline="") as file:
            return file.read()


#: What a file is called in faults, or the option that names it; and its name, or the file as it is kept here.
Input = tuple[str, Union[FileName, Kept]]


def ask(
    program: FileName | None,
    command: str,
    inputs: Sequence[Input] = (),
    options: Mapping[str, Any] | None = None,
    graph: Graph | None = None,
    begins: str | tuple[str, ...] = '{"chips":[',
) -> str:
    """Runs a command, and returns what it writes, which has to begin with `begins`; a fault is raised. `graph` is the
    one that is asked about, if Python has it: the fault names its vertices. An option that is None or False is left
    out, and one that is True has no value."""
    path = find_program() if program is None else os.fspath(program)
    options = {"large": command != "explain", **(options or {})}
    words = [command, *(_word_of(kind, file) for kind, file in inputs)]
    for name, value in options.items():
        if value is True:
            words.append(f"--{name}")
        elif value is not None and value is not False:
            words.append(f"--{name}={value}")
    kept = [file.number for _, file in inputs if isinstance(file, Kept)]
    status, output, errors = _started([path, *words], kept)
    if status in (1, 3) and errors and errors[-1].startswith("chipfire: fault "):
        number, name, *place = errors[-1].split()[2:]
        where = tuple(map(int, place))
        if int(number) == 91:
            wrong = _untaken(path, words, inputs)
        else:
            wrong = _meant(int(number), where, words, inputs, graph)
        raise Fault(int(number), name, where, _explained(path, number), status, wrong)
    if status not in (0, 2, 3) or not output.startswith(begins):
        raise RuntimeError(
            f"{path} {command} ended with status {status} and no answer of chipfire: {' '.join(errors)}"
        )
    if "chipfire: trace cut" in errors:
        warnings.warn(
            "a vertex took and fired more often than its trace has rows", TraceCut, stacklevel=3
        )
    return output


def _word_of(kind: str, file: FileName | Kept) -> str:
    """The word of the command line for a file, after its option if it has one."""
    name = f"/dev/fd/{file.number}" if isinstance(file, Kept) else os.fspath(file)
    if name.startswith("-"):
        name = f"./{name}"  # (else it would be an option)
    return f"{kind}={name}" if kind.startswith("--") else name


def _explained(program: str, number: int | str) -> str:
    status, told, _ = _started([program, "explain", str(number)])
    return told.strip() if status == 0 else ""


def _explained_anyhow(number: int) -> str:
    """What the program says of a fault of the library, or what a package says that carries the library alone."""
    if carries_library_alone():
        told = json.loads(package_text("program", "faults.json"))
        return str(told.get(str(number), "")).strip()
    return _explained(find_program(), number)


def refused(number: int, place: int, graph: Graph) -> Fault:
    """The fault of this number in a call of the library, as the program would report it."""
    explanation = _explained_anyhow(number)
    name, *letters = explanation.partition(":")[0].split()[2:] or [""]
    where = (place,) * len(letters)
    return Fault(number, name, where, explanation, 1, _meant(number, where, ["plain"], (), graph))


def _meant(
    number: int,
    place: tuple[int, ...],
    words: Sequence[str],
    inputs: Sequence[Input],
    graph: Graph | None,
) -> str:
    """Which of the files a fault is about, by its name, or what is wrong with the graph that Python has."""
    if number <= 8 and graph is not None:
        return f"{graph.why_refused}."
    if number in (1, 3, 30):
        most = (
            ""
            if words[0] == "judge"
            else f"1 to {MAX_LARGE_VERTICES} vertices, up to {MAX_LARGE_EDGES} edges, and "
        )
        return f"{words[0]} takes {most}files of up to {2**28} bytes."
    if number == 92:
        return f"{re.sub('^--[a-z]+=', '', words[place[0]])} cannot be opened, or is also written"
    kinds = {
        kind: file
        for kind, file in inputs
        if not isinstance(file, Kept) or kind in ("schedule", "trace")
    }
    if number in (*_OF_GRAPH, *_OF_ROWS):
        kinds = {
            kind: file for kind, file in kinds.items() if (kind == "graph") == (number in _OF_GRAPH)
        }
    names = [
        f"the {kind}" if isinstance(file, Kept) else os.fspath(file) for kind, file in kinds.items()
    ]
    return f"in {' or '.join(names)}" if names and number <= 53 else ""


def _untaken(program: str, words: Sequence[str], inputs: Sequence[Input]) -> str:
    """Which words the program does not take, each by itself; all of them, if it takes each of them so."""
    kinds = [kind for kind, _ in inputs]
    files = [kind for kind in kinds if kind != "number" and not kind.startswith("--")]
    others = [word for word, kind in zip(words[1:], kinds) if kind not in files] + [
        *words[1 + len(kinds) :]
    ]
    # (a file without a name cannot be opened, so nothing is played to find this out)
    nameless = [words[0], *[""] * len(files)]
    wrong = [word for word in words if re.search("[\ud800-\udfff]", word)]
    if not wrong and _is_untaken(program, nameless):
        wrong = [words[0]]
    elif not wrong:
        wrong = [word for word in others if _is_untaken(program, [*nameless, word])]
    kept = {
        f"/dev/fd/{file.number}": f"({kind})" for kind, file in inputs if isinstance(file, Kept)
    }
    told = [ascii(kept.get(word, word))[1:-1] for word in wrong or words]
    return f"it does not take the word{'s' * (len(told) > 1)} `{' '.join(told)}`"


def _is_untaken(program: str, words: Sequence[str]) -> bool:
    """Whether the program says that these words are no command."""
    return "chipfire: fault 91 Usage" in _started([program, *words])[2]


@functools.cache
def _has_setpriv() -> bool:
    """Whether setpriv is there, and can do what `_started` has it do."""
    setpriv = on_path(_SETPRIV[0])
    if setpriv is None:
        return False
    words = [*_SETPRIV, _while_alive(setpriv), "--version"]
    quiet = subprocess.DEVNULL
    return (
        subprocess.run(words, stdin=quiet, stdout=quiet, stderr=quiet, env=environment()).returncode
        == 0
    )


def _while_alive(file: str) -> str:
    """A name of a file that leads to it only as long as this process lives."""
    return f"/proc/{os.getpid()}/root{os.path.abspath(file)}"


def _bind(parent: int) -> None:
    """Ends this process with the thread that started it, also if that has ended before."""
    if _PRCTL is not None:
        _PRCTL(1, signal.SIGKILL)
        if os.getppid() != parent:
            os._exit(1)


def _started(words: Sequence[str], kept: Sequence[int] = ()) -> tuple[int, str, list[str]]:
    """Runs the program to its end, or to that of this Python: its status, its output, and the lines of its errors."""
    # (a signal of this Python's end reaches whoever has asked for it; if it ended sooner, setpriv finds no program)
    errors: list[str] = []
    program = on_path(words[0])
    if program is None:
        raise ProgramNotFound(2, "no program that can be started", words[0])
    by_setpriv = _has_setpriv()
    command = [*_SETPRIV, _while_alive(program)] if by_setpriv else [program]
    with tempfile.TemporaryFile("w+", encoding="utf-8", newline="") as output:
        running = subprocess.Popen(
            [*command, *words[1:]],
            stdin=subprocess.DEVNULL,
            stdout=output,
            stderr=subprocess.PIPE,
            encoding="utf-8",
            errors="replace",
            pass_fds=kept,
            preexec_fn=None if by_setpriv else functools.partial(_bind, os.getpid()),
            env=environment(),
        )
        with running:
            try:
                for line in running.stderr or ():
                    if line.startswith("chipfire: progress: "):
                        print(line, end="", file=sys.stderr, flush=True)
                    else:
                        errors.append(line.rstrip("\n"))
            except BaseException:
                running.kill()
                raise
        output.seek(0)
        return running.returncode, output.read(), errors
