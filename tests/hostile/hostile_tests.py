"""The list of the tests that use the program in hostile ways: it gives the right result or says what went wrong, and
nothing else.

    texts     random games whose files are mutated: the result, or the first fault, is the one of expected.py
    logs      random logs that are spoilt: the verdicts, or the first fault, are those of expected.py
    memory    each request for memory is refused in turn, and each with all after it
    calls     opens, reads and writes fail, are cut short, move one byte, are interrupted, each in turn
    system    closed streams and pipes, devices, folders, limits of the system, signals, several programs at once

What must come is known from outside: from expected.py, which shares nothing with the program, and from the results that
lie under examples/. Refused calls are those of refuse.c, which is built by `cc` and loaded before the C library. A test
has many facts, and a fault names its own.
"""

import functools

import calls
import listed
import machine
import memory
import spoilt
import system
import texts
import worked
from paths import EXAMPLES

#: How many mutated files there are, how many spoilt logs, and how many runs that are killed; and in a long run.
TEXTS, MANY_TEXTS = 12_000, 1_000_000
LOGS, MANY_LOGS = 30_000, 1_000_000
KILLS, MANY_KILLS = 20, 1_000
#: How many mutated files or spoilt logs are one test.
BLOCK = 250


def faults_of(facts, *arguments):
    """Returns what is wrong with facts, each a name and a function that finds its faults."""
    found = []
    for name, test in facts(*arguments):
        found += [f"{name}: {fault}" for fault in listed.faults_of(listed.Test(name, test))]
    return found


def on_machine(program, facts, *arguments):
    """The same of facts that take the machine first."""
    return faults_of(facts, machine.of(program), *arguments)


def blocks(program, module, count):
    """Yields the tests of `count` runs, a block each."""
    for number, begin in enumerate(range(0, count, BLOCK)):
        numbers = range(begin, min(begin + BLOCK, count))
        yield str(number), functools.partial(faults_of, module.facts, program, numbers)


def of_runs(program, module, runs):
    """Yields a test for each run and for each kind of what is done to it."""
    for run in runs:
        for kind in module.kinds(run):
            name = f"{run.name}: {kind.__name__.replace('_', ' ')}"
            yield name, functools.partial(on_machine, program, kind, run)


def of_system(program, runs, kills):
    """Yields those of the system, and others that are of one run or of none."""
    yield from of_runs(program, system, runs)
    for run in [runs[0], *(it for it in runs if it.threads)]:
        name = f"{run.name}: killed"
        yield name, functools.partial(on_machine, program, system.killed, run, range(kills))
    for kind, *more in system.others(runs):
        words = [kind.__name__.replace("_", " "), *(it for it in more if isinstance(it, str))]
        yield " ".join(words), functools.partial(on_machine, program, kind, *more)


def tests(program, is_long):
    """Returns all tests."""
    runs = worked.worked_runs(EXAMPLES)
    sets = {
        "texts": blocks(program, texts, MANY_TEXTS if is_long else TEXTS),
        "logs": blocks(program, spoilt, MANY_LOGS if is_long else LOGS),
        "memory": of_runs(program, memory, runs),
        "calls": of_runs(program, calls, runs),
        "system": of_system(program, runs, MANY_KILLS if is_long else KILLS),
    }
    return listed.named(sets)
