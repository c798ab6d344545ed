"""What the program's own --help says of its commands, operands and options. The documents are made of it."""
from __future__ import annotations

import re
import subprocess
from dataclasses import dataclass

OPTION = re.compile(
    r"\s+(?:-(?P<short>\w), )?--(?P<long>[a-z-]+)(?: <(?P<value>[A-Z-]+)>)?\s{2,}(?P<text>\S.*)"
)
OPERAND = re.compile(r"\s+(?P<name><[A-Z]+>|\[[A-Z]+\])\s{2,}(?P<text>\S.*)")
COMMAND = re.compile(r"\s+(?P<name>[a-z]+)\s{2,}(?P<text>\S.*)")
#: The options whose value is the name of a file.
FILE = "FILE"


@dataclass(frozen=True)
class Option:
    """An option: `--long`, perhaps `-short`, and what its value is called where it has one."""

    short: str | None
    long: str
    value: str | None
    text: str

    def words(self):
        """Returns what a user may type for it."""
        return [f"--{self.long}"] + ([f"-{self.short}"] if self.short else [])


@dataclass(frozen=True)
class Command:
    """The program itself, with no name, or one of its commands."""

    name: str
    summary: str
    usage: str
    operands: tuple[tuple[str, str], ...]
    options: tuple[Option, ...]
    #: The names of the commands, of the program itself alone, without `help`, which says what --help does.
    commands: tuple[str, ...]
    #: The paragraphs after the options.
    notes: tuple[str, ...]

    def files(self):
        """Returns the names of its operands that are files: those that have to be there."""
        return [name for name, _ in self.operands if name.startswith("<")]


def rows(blocks, title, form):
    """Returns what the rows of the block with this title say."""
    block = next((it for it in blocks if it.startswith(f"{title}:\n")), f"{title}:")
    found = [form.fullmatch(line) for line in block.split("\n")[1:]]
    if None in found:
        raise ValueError(f"a row of the help that is not understood, under {title}: {block}")
    return [it.groupdict() for it in found]


def read_help(name, text):
    """Returns the command that a text of help is about."""
    blocks = text.strip("\n").split("\n\n")
    titles = ("Usage: ", "Arguments:\n", "Options:\n", "Commands:\n")
    return Command(
        name=name,
        summary=blocks[0],
        usage=next(it for it in blocks if it.startswith("Usage: ")).removeprefix("Usage: "),
        operands=tuple((it["name"], it["text"]) for it in rows(blocks, "Arguments", OPERAND)),
        options=tuple(Option(**it) for it in rows(blocks, "Options", OPTION)),
        commands=tuple(
            it["name"] for it in rows(blocks, "Commands", COMMAND) if it["name"] != "help"
        ),
        notes=tuple(it for it in blocks[1:] if not it.startswith(titles)),
    )


def output_of(program, *words):
    """Returns what the program writes on standard output."""
    return subprocess.run(
        [program, *words], check=True, capture_output=True, encoding="utf-8"
    ).stdout


def read_program(program):
    """Returns the program's own help and that of each of its commands."""
    whole = read_help("", output_of(program, "--help"))
    return whole, [read_help(name, output_of(program, name, "--help")) for name in whole.commands]


def version_of(program):
    """Returns the version that the program reports."""
    return output_of(program, "--version").split()[1]
