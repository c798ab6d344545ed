"""Where the program is, and which version the package and a clone of the repository have.

The head of the package gives the order in which places are searched. What the user names, by CHIPFIRE or the PATH, and
what the package carries is started as it is. A clone is found by other means, so its program is started, and
`./chipfire` in it run, only if nobody but this user and root can change what lies there (`chipfire.trust`).
"""

from __future__ import annotations

import functools
import glob
import json
import os
import platform
import re
import shutil
import subprocess
import sys
import warnings
from collections.abc import Iterator
from urllib.parse import unquote_to_bytes, urlsplit

from chipfire.backend.trust import doubt, doubt_below
from chipfire.utils import HERE, package_text

#: The package's folder as Python came to it, perhaps by symbolic links, and the clone that it may lie in.
_PACKAGE = os.path.dirname(os.path.dirname(__file__)) if os.path.isabs(__file__) else HERE
_AROUND = os.path.join(_PACKAGE, os.pardir, os.pardir)

#: What the package may carry: the program, and the library, perhaps alone.
CARRIED = os.path.join(HERE, "program", "chipfire")
CARRIED_LIBRARY = os.path.join(HERE, "program", "libchipfire.so")

#: The machines with Linux that there is a program for.
MACHINES = "x86_64", "aarch64"

#: The folders of a clone that `./chipfire` reads and runs.
_READ = "crates", "include", "js", "packing", "python", "release", "target", "tools"

#: What a package without a program can do, and what helps.
_WORKS = "graphs, their matrices and sandpile groups, pictures, and explore, play, judge, page and choice_page for schedules"
_WITHOUT = (
    f"{_WORKS[0].upper()}{_WORKS[1:]} work without it; what plays a game raises ProgramNotFound."
)
_REMEDY = (
    "Name a program by the environment variable CHIPFIRE, or put one on the PATH: ./chipfire in a clone of the "
    "repository takes or builds target/chipfire, and docs/PACKAGES.md there names packages that have one"
)


#: What works on other systems than those, as ./chipfire says it.
_ELSEWHERE = (
    "here work the page release/chipfire.html in a browser, the package release/chipfire-*.tgz in Node (js/README.md), "
    "and in Python what needs no program"
)


class ProgramNotFound(FileNotFoundError):
    """The program chipfire is in none of the searched places, or it cannot be started.

    See Also
    --------
    Program

    Notes
    -----
    None of this is proved.

    Examples
    --------
    >>> try:
    ...     chipfire.Program("/nowhere/chipfire").check(chipfire.path(1))
    ... except chipfire.ProgramNotFound:
    ...     print("no program")
    no program
    """


def elsewhere() -> str:
    """Why there is no program for this system, and what works on it; an empty text if there is one."""
    system = f"{platform.system()} {platform.machine()}"
    if system in {f"Linux {it}" for it in MACHINES}:
        return ""
    return f"it is for Linux on {' or '.join(MACHINES)}, and this is {system}: {_ELSEWHERE}"


def _noted(name: str) -> str | None:
    """What `build_wheel.py` noted in the package, if it did."""
    return package_text(name) if os.path.isfile(os.path.join(HERE, name)) else None


def _lies_in_clone() -> bool:
    """Whether the package's folder is that of a clone, or may be."""
    return os.path.join(os.path.realpath(_AROUND), "python", "chipfire") == HERE


def source_of_version(clone: str) -> str:
    """The file of a clone that has its version."""
    return os.path.join(clone, "crates", "chip_arguments", "src", "help_texts.rt")


def version_of(clone: str) -> str:
    """The version that a clone's sources state, or ""."""
    with open(source_of_version(clone), encoding="utf-8") as file:
        stated = re.search('VERSION: &str = "(.*)"', file.read())
    return stated[1] if stated else ""


def version() -> str:
    """The version: the program's source has it, or it was noted when the package was installed."""
    has_source = _lies_in_clone() and os.path.isfile(source_of_version(_AROUND))
    return (version_of(_AROUND) if has_source else _noted("version")) or "unknown"


def search_path() -> str:
    """The PATH without its empty and relative entries, which would be searched from whatever folder one is in."""
    return os.pathsep.join(it for it in os.get_exec_path() if os.path.isabs(it))


def environment() -> dict[str, str]:
    """The environment of what is started: this one, but for the PATH."""
    return {**os.environ, "PATH": search_path()}


def on_path(name: str) -> str | None:
    """The program of a name on the PATH, or the one at a path."""
    return shutil.which(name, path=search_path())


def _folder_of(told: object) -> str | None:
    """The folder that pip was named, by what stands in direct_url.json; None if it was named something else."""
    if (
        not isinstance(told, dict)
        or not isinstance(told.get("dir_info"), dict)
        or not isinstance(told.get("url"), str)
    ):
        return None
    parts = urlsplit(told["url"])
    is_here = (
        parts.scheme == "file"
        and parts.netloc.lower() in ("", "localhost")
        and not parts.query + parts.fragment
    )
    folder = os.fsdecode(unquote_to_bytes(parts.path))
    is_other = not told.keys().isdisjoint(("vcs_info", "archive_info"))
    return (
        folder
        if is_here and not is_other and os.path.isabs(folder) and "\0" not in folder
        else None
    )


@functools.cache
def _installed_from() -> str | None:
    """The folder around the one that pip was named, if the dist-info beside the package says so."""
    name = f"chipfire-{_noted('version') or '*'}.dist-info"
    files = glob.glob(os.path.join(glob.escape(os.path.dirname(HERE)), name, "direct_url.json"))
    try:
        # (in a sticky folder somebody else may have put one beside the package)
        is_own = len(files) == 1 and os.stat(files[0]).st_uid == os.stat(HERE).st_uid
        folder = _folder_of(json.loads(package_text(files[0]))) if is_own else None
    except (OSError, ValueError, RecursionError):  # (it is damaged)
        return None
    return folder and os.path.join(folder, os.pardir)


def _clones() -> Iterator[str]:
    """The clones that the package lies in and was installed from: a clone has crates/."""
    for clone in (_AROUND if _lies_in_clone() else None, _installed_from()):
        if clone and os.path.isdir(os.path.join(clone, "crates")):
            yield clone


def _believe(top: str, why: str | None) -> None:
    """Refuses a clone, if somebody else may decide what lies in it."""
    if why:
        remedy = "change that by chown or chmod, or, if you trust it all the same, name its program by CHIPFIRE"
        raise ProgramNotFound(2, f"the clone {top} is not used, since {why}: {remedy}", top)


@functools.cache
def _takes(top: str) -> bool:
    """Whether `./chipfire` of a clone takes the program in its release, and could start it."""
    starter = os.path.join(top, "chipfire")
    quiet = subprocess.DEVNULL
    _believe(top, doubt(starter, top) or doubt_below(top, _READ))
    return (
        subprocess.run([starter, "--take"], stdin=quiet, stdout=quiet, env=environment()).returncode
        == 0
    )


def _program_of(clone: str, is_asked: bool) -> str:
    """What starts the program of a clone: its target/chipfire, or else its `./chipfire`, if that would take the
    program in the release.

    If it is asked for that, `./chipfire` takes the program now. Else no process starts: `./chipfire` counts as a
    starter in the clone that the package lies in, and not in the one that the package was installed from.
    """
    top = os.path.realpath(clone)
    taken = os.path.join(top, "target", "chipfire")
    starter = os.path.join(top, "chipfire")
    _believe(top, doubt(clone, top))
    if not os.access(taken, os.X_OK):
        proved = os.path.join(top, "release", "PROVED")
        is_released = os.path.isfile(proved) and os.access(starter, os.X_OK)
        would_take = is_released and (_takes(top) if is_asked else clone == _AROUND)
        if not would_take:
            raise ProgramNotFound(2, f"the clone {top} has none: ./chipfire there builds it", top)
    # (what `./chipfire` took just now is there)
    if not os.access(taken, os.X_OK):
        return starter
    _believe(top, doubt(taken, top))
    return taken


def _found(is_asked: bool) -> str:
    """The program's file, or what would start it; without asking, no process is started to find out."""
    if named := os.environ.get("CHIPFIRE") or (CARRIED if os.access(CARRIED, os.X_OK) else None):
        return named
    whys = []
    for clone in () if elsewhere() else _clones():
        try:
            return _program_of(clone, is_asked)
        except ProgramNotFound as why:
            whys.append(str(why.strerror))
    if there := on_path("chipfire"):
        return there
    if there_is_none := elsewhere():
        raise ProgramNotFound(2, there_is_none, "chipfire")
    none = "it neither lies in a clone of the repository nor was installed from the folder of one that is still there"
    clones = "; ".join(whys) or none
    noted = _noted("without")
    carried = "the package carries none" + (f", since {noted}" if noted else "")
    raise ProgramNotFound(2, f"{carried}; {clones}; none is on the PATH", "chipfire")


def find_program() -> str:
    """The program's file; the head of the package gives the order in which places are searched."""
    try:
        return _found(is_asked=True)
    except ProgramNotFound as why:
        remedy = "" if elsewhere() else f". {_REMEDY}"
        raise ProgramNotFound(
            2, f"the program is not found: {why.strerror}{remedy}", "chipfire"
        ) from None


def carries_library_alone() -> bool:
    """Whether the package carries the library, and no program."""
    return os.path.isfile(CARRIED_LIBRARY) and not os.access(CARRIED, os.X_OK)


def warn_without_program() -> None:
    """Warns who imports the package if it has neither program nor library, and says why. This starts no process."""
    try:
        if not carries_library_alone():
            _found(is_asked=False)
    except ProgramNotFound as why:
        told = (
            f"{why.strerror}, which is {_WORKS}"
            if elsewhere()
            else f"{why.strerror}. {_WITHOUT} {_REMEDY}."
        )
        warnings.warn(f"chipfire has no program: {told}", RuntimeWarning, stacklevel=3)


def start_program() -> None:
    """Becomes the program that the package carries, with the words of this process: the command `chipfire` of pip."""
    os.execv(CARRIED, [CARRIED, *sys.argv[1:]])
