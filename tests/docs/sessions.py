"""The pages of the repository do what they show.

A block of a page that begins with ```console is a session: a line `$ ` is a command for bash, lines `> ` after it
go on with it, and all others are what it writes, on standard output and standard error together. A command ends with
status 0, or the next one is `echo $?` and shows which it was. A line `..` stands for any lines. The blocks of a page are
one session, at the top of a clone of its own in which nothing was started yet, as the page has to say before its first
block. The line by which the first start says where the program comes from is left out. In the end git may find nothing
in the clone that is new or changed. The clones have the program, with the libraries beside it, in release/.

There is no network. For a page that imports NumPy, `python3` is that of the system, if the one on the PATH has it not.
A block that wants what is not here, such as a compiler or virtual environments of Python, is left out. If the rest of
its page is well, the page is shown as skipped, with what was left out.
"""
import functools
import os
import re
import shutil
import subprocess
import tempfile
import unittest

from paths import ROOT

SECONDS = 300
SYSTEM = "/usr/bin/python3"
MARK = "\0"
COMPILER = re.compile(r"^(?:.*&& )?(gcc|g\+\+|go|rustc) ", re.MULTILINE)
#: What a page says of where its commands are run.
PLACE = "in the repository's top folder"
#: The line of a first start.
FIRST = re.compile(r"chipfire: the program comes from release/: .*\n")


class Command:
    """One command of a page: its lines, what it has to write, and where it and its block stand."""

    def __init__(self, text, place, block):
        self.text, self.place, self.block, self.wanted = text, place, block, []

    def fits(self, lines):
        """Whether it wrote what the page shows, where `..` stands for any lines."""
        pattern = "".join("(?:.*\n)*" if line == ".." else re.escape(line) + "\n" for line in self.wanted)
        return re.fullmatch(pattern, "".join(f"{line}\n" for line in lines)) is not None


def commands_of(page):
    """The commands of a page's sessions, in their order."""
    found, inside = [], False
    with open(page, encoding="utf-8") as file:
        for number, line in enumerate(file.read().splitlines(), 1):
            place = f"{os.path.relpath(page, ROOT)}:{number}"
            if line.startswith("```"):
                inside, block = line == "```console", place
            elif inside and line.startswith("$ "):
                found.append(Command(line[2:], place, block))
            elif inside and line.startswith(">") and found and not found[-1].wanted:
                found[-1].text += "\n" + line[2:]
            elif inside and found:
                found[-1].wanted.append(line)
            elif inside:
                raise ValueError(f"{place}: a session begins with a command")
    return found


def pages():
    """The pages of the repository that have sessions."""
    listed = subprocess.run(["git", "-C", ROOT, "grep", "-lz", "--untracked", "^```console", "--", "*.md"],
                            check=True, capture_output=True, encoding="utf-8")
    return [f"{ROOT}/{it}" for it in sorted(listed.stdout.split("\0")) if it]


def names_its_place(page):
    """Whether a page says before its first session where that is run."""
    with open(page, encoding="utf-8") as file:
        before = file.read().partition("```console")[0]
    return PLACE in " ".join(before.split())


@functools.cache
def python_with_numpy():
    """The first Python that has NumPy, or None."""
    for python in filter(None, (shutil.which("python3"), SYSTEM)):
        if os.path.exists(python) and subprocess.run([python, "-c", "import numpy"], capture_output=True).returncode == 0:
            return python
    return None


def wants_numpy(commands):
    """Whether some command of a page imports NumPy."""
    return any(re.search("import .*numpy", command.text) for command in commands)


def tools_of(command):
    """What a command wants beside a shell and Python, each with whether it is here."""
    for tool in COMPILER.findall(command.text):
        yield tool, shutil.which(tool) is not None
    if "venv" in command.text:
        yield "ensurepip", subprocess.run(["python3", "-c", "import ensurepip"], capture_output=True).returncode == 0


def missing(commands):
    """The blocks of a page that want what is not here, each with that."""
    if wants_numpy(commands) and python_with_numpy() is None:
        return {it.block: "NumPy" for it in commands}
    return {it.block: tool for it in commands for tool, is_here in tools_of(it) if not is_here}


def environment(commands, tools):
    """The environment of a page's session, with a folder for tools: nothing in it names a program, a library or a package
    of chipfire."""
    if wants_numpy(commands):
        os.symlink(python_with_numpy(), f"{tools}/python3")
    own = {name: it for name, it in os.environ.items() if not name.startswith(("CHIPFIRE", "PYTHON", "VIRTUAL_ENV"))}
    return {**own, "PATH": f"{tools}:{os.environ['PATH']}", "PIP_NO_INDEX": "1", "PIP_DISABLE_PIP_VERSION_CHECK": "1"}


def played(top, commands):
    """What each command wrote and its status, from one bash at the top of a clone."""
    steps = "".join(f"{it.text}\nstatus=$?; printf '\\0%s\\0' $status; (exit $status)\n" for it in commands)
    with tempfile.TemporaryDirectory(prefix="chipfire-docs-") as room:
        with open(f"{room}/session", "w", encoding="utf-8") as file:
            file.write(steps)
        how = {"stdin": subprocess.DEVNULL, "stdout": subprocess.PIPE, "stderr": subprocess.STDOUT, "encoding": "utf-8"}
        ran = subprocess.run(["bash", f"{room}/session"], cwd=top, env=environment(commands, room), timeout=SECONDS, **how)
    parts = FIRST.sub("", ran.stdout).split(MARK)
    return list(zip(parts[0::2], parts[1::2]))


def left_in(top):
    """What git finds in a clone that is new or changed."""
    return subprocess.run(["git", "-C", top, "status", "--porcelain"], check=True, capture_output=True, encoding="utf-8").stdout


def faults_of_page(page, top):
    """What of a page as a whole is wrong, once its session has ended at the top of a clone."""
    faults = []
    if not names_its_place(page):
        faults.append(f"it does not say before its first session: {PLACE}")
    if left := left_in(top):
        faults.append(f"it leaves in the clone:\n{left}")
    return faults


def wrong_commands(commands, top):
    """Yields for each command of a page, played at the top of a clone, its place and text, and what of it is not as the
    page shows."""
    outcomes = played(top, commands)
    outcomes += [("the session had ended before", "0")] * (len(commands) - len(outcomes))
    following = [*commands[1:], None]
    for command, after, (text, status) in zip(commands, following, outcomes):
        faults = []
        if not command.fits(text.splitlines()):
            faults.append("shown:\n" + "\n".join(command.wanted) + "\ncame:\n" + text)
        if status != "0" and (after is None or after.text != "echo $?"):
            faults.append(f"it ended with status {status}, which the page does not show")
        yield f"{command.place} {command.text}", faults


def faults_of(page):
    """Returns what is wrong with a page."""
    import made
    import test_released

    commands = commands_of(page)
    left_out = missing(commands)
    with made.ending:
        top = test_released.clone()
        wrong = wrong_commands([it for it in commands if it.block not in left_out], top)
        found = [f"{name}: {fault}" for name, faults in wrong for fault in faults]
        found += faults_of_page(page, top)
    if left_out and not found:
        raise unittest.SkipTest("all but " + ", ".join(f"{block}, for want of {it}" for block, it in left_out.items()))
    return found


def tests():
    for page in pages():
        yield os.path.relpath(page, ROOT), functools.partial(faults_of, page)
