"""The tables of docs/FORMATS.md say what the program and the Python package say: commands with their options and exit
statuses, rules, and faults. What the help of the program says of exit statuses is compared with that of its commands.
"""
import functools
import re

from packing import usage  # (what --help says)
from paths import ROOT


def rows(page, cells):
    """Returns the rows of the page's tables that have `cells` cells."""
    found = [[cell.strip() for cell in line.strip("|").split(" | ")] for line in page.splitlines() if line.startswith("|")]
    return [row for row in found if len(row) == cells]


def shown(option):
    """Returns an option as the pages write it."""
    return f"--{option.long}" + (f" {option.value}" if option.value else "")


def clauses(command):
    """Returns what a help says of exit statuses, by the status."""
    (text,) = (" ".join(it.split()) for it in command.notes if it.startswith("Exit status: "))
    return {int(status): its for status, its in re.findall(r"(?:^Exit status: |; )(\d) ([^;]*)", text)}


def statuses(page, program):
    """The exit statuses of the commands by the page, where 1 is any command's, and by their help."""
    said = {}
    for cell, _, status in rows(page, 3):
        if found := re.match(r"`([a-z]+) [A-Z\[]", cell):
            said[found[1]] = {1, *map(int, status.split(", "))}
    _, its = usage.read_program(program)
    return said, {it.name: {*clauses(it)} for it in its}


def statuses_of_all(page, program):
    """The commands that end with 2 and 3, and the faults that end with 3, by the help of the program; by that of the
    commands, and by the page. Those that stop vertices are together."""
    whole, its = usage.read_program(program)
    said, stopped = clauses(whole), "some vertex was stopped"
    named, true = {}, {}
    for status in (2, 3):
        its_clauses = {it.name: clauses(it).get(status) for it in its}
        groups = {name: stopped if re.search("stopped|halted", its or "") else name for name, its in its_clauses.items()}
        true[status] = {groups[name] for name in groups if its_clauses[name]}
        named[status] = {*re.findall(r"`([a-z]+)`", said[status]), *re.findall(stopped, said[status])}
    return (named, re.findall(r"fault \d+", said[3])), (true, re.findall(r"that `run` has (fault \d+)", page))


def commands(page, program):
    """The commands of the page, each with its options, and those of the program."""
    said = {}
    for cell, _, _ in rows(page, 3):
        for name, words in re.findall(r"`([a-z]+)((?: [A-Z]+| \[[^\]]*\])+)`", cell):
            said[name] = sorted(re.findall(r"\[(--[^\]]+)\]", words))
    _, its = usage.read_program(program)
    return said, {it.name: sorted(shown(option) for option in it.options if option.long != "help") for it in its}


def rules(page, _program):
    """The rules of the page, and those of the Python package."""
    said = {}
    for one, its, other, others in rows(page, 4):
        if one.isdigit() and other.isdigit():
            said |= {int(one): its, int(other): others}
    import chipfire

    return said, chipfire.RULES


def faults(page, program):
    """The faults of the page by their numbers, with their names and what follows them, and the list of `explain`."""
    said = set()
    for numbers, names, *_ in rows(page, 3):
        if re.fullmatch(r"\d+(, \d+)*", numbers):
            said.update(zip(map(int, numbers.split(", ")), re.findall(r"`([^`]+)`", names)))
    listed = re.findall(r"^fault (\d+) ([^:]+): .", usage.output_of(program, "explain"), re.MULTILINE)
    return sorted(said), [(int(number), name) for number, name in listed]


def faults_of(program, table):
    """Returns what is wrong with a table."""
    with open(f"{ROOT}/docs/FORMATS.md", encoding="utf-8") as file:
        page = file.read()
    said, true = table(page, program)
    return [] if said == true else [f"docs/FORMATS.md or the help has {said}, and in truth they are {true}"]


def tests(program):
    for table in (commands, statuses, statuses_of_all, rules, faults):
        yield table.__name__.replace("_", " "), functools.partial(faults_of, program, table)
