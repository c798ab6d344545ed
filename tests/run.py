#!/usr/bin/env python3
"""Runs the tests of the built program, of its libraries and packages, of the Python package and of the pages.

    tests/run.py [GROUP ..] [NAME ..] [-k WORDS] [--lf] [--list] [--long] [--durations N] [--program FILE]

GROUPS are these, all of them if none is named:

    cli       the command line: cases, random games, large ones, what is reported and written
    python    python/chipfire and examples/python, by each way of ways.py, on the system's Python if it has one
    docs      what the pages show, in a fresh clone; what they cite; the tables of docs/FORMATS.md
    hostile   mutated files, refused memory, failing reads and writes, the system around the program
    library   the libraries, from C, by ctypes, and from JavaScript as WebAssembly; the page that is made of that
    package   the packages that ./package makes

A NAME begins the name of a test, or what follows its set; WORDS stand somewhere in it; with --lf the tests are made that
failed when they were made last. --list shows the names. --long makes many more mutated files, logs and large games.
--durations shows the N processes that used most of the processors, and the N tests that took longest. FILE is the
program that ./chipfire built, if not said; the libraries lie beside it.

The tests of python, library and package are classes of unittest, and those of the other groups are lists. Pytest runs
them if their Python has it; else unittest runs the classes, and a loop goes through the lists. Processes do this side by
side, as many as there are processors. A test that is skipped is shown with its reason and counted as
neither. A group that is run as a whole may have no fewer tests than counts.txt says. The last line is `N passed, N
failed`, and the status is 0 only if nothing failed.
"""

import argparse
import collections
import concurrent.futures
import contextlib
import dataclasses
import importlib
import importlib.util
import json
import multiprocessing
import multiprocessing.util
import os
import resource
import shutil
import subprocess
import sys
import tempfile
import time
import typing
import unittest

import paths

paths.add()
import counts  # noqa: E402
import job  # noqa: E402
import listed  # noqa: E402
import ways  # noqa: E402

SYSTEM = "/usr/bin/python3"
#: The names of tests that failed when they were made last, each after its group.
LAST = f"{paths.ROOT}/target/tests-failed"
LISTS = ("cli", "docs", "hostile")
HAS_PYTEST = importlib.util.find_spec("pytest") is not None
#: The groups whose modules share what one of them makes first.
SHARING = ("package",)
#: What takes longest, the first of it most: a group with a set of it, or all of it. It is begun before all else, and if
#: it is listed it is dealt out to several processes.
LONGEST = (
    "package",
    "python test_browser",
    "hostile calls",
    "cli large",
    "cli emulated",
    "hostile texts",
    "hostile logs",
    "hostile system",
    "hostile memory",
    "docs pages",
    "library test_web",
    "python test_notebooks",
    "python test_divisors",
    "library test_cpp",
    "library test_games",
    "library test_board",
    "python test_documented",
    "python test_modules",
    "python test_schedules",
    "python test_loops",
    "python test_pages",
    "python test_logs",
    "python test_computations",
    "python test_configurations",
    "python test_package",
    "cli progress",
    "cli crews",
    "cli drops",
    "cli guesses",
    "cli verdicts",
    "cli logs",
    "cli feeds",
    "cli closing",
)
#: The listed tests of each group by their names. (Processes that are forked have them too.)
TESTS = {}


@dataclasses.dataclass
class Job:
    """Tests that one process makes, one after another: those of a set, or with `names` some of them."""

    group: str
    of_set: str
    names: typing.Optional[list] = None
    way: str = ""
    python: str = sys.executable
    is_long: bool = False

    def place(self):
        """Where it stands among what takes longest, or after all of that."""
        words = [self.group, f"{self.group} {self.of_set}"]
        return min((LONGEST.index(it) for it in words if it in LONGEST), default=len(LONGEST))

    def title(self):
        """What distinguishes it from others."""
        of_python = [self.way, self.python] if self.group == "python" else []
        return ", ".join([f"{self.group} {self.of_set}", *of_python])


@dataclasses.dataclass
class Made:
    """The outcome of a job: the reader of its tests, the outcome and the time of each, the seconds of the job and those of
    processors, and what else was shown."""

    reader: str
    outcomes: dict
    took: dict = dataclasses.field(default_factory=dict)
    seconds: float = 0.0
    used: float = 0.0
    shown: str = ""

    def count(self, word):
        return sum(it[0] == word for it in self.outcomes.values())


def listed_tests(group, program, is_long):
    """Returns the tests of a list, by their names."""
    module = importlib.import_module(f"{group}_tests")
    return {it.name: it for it in module.tests(program, is_long)}


def modules_of(group):
    """Returns the modules of a group of unittest classes."""
    names = sorted(os.listdir(f"{paths.HERE}/{group}"))
    return [it[: -len(".py")] for it in names if it.startswith("test_") and it.endswith(".py")]


def roads_of(group):
    """Yields the ways that a group of unittest classes goes, each with its Python and its modules."""
    modules = modules_of(group)
    if group != "python":
        yield "", sys.executable, modules
        return
    python = SYSTEM if os.path.exists(SYSTEM) else sys.executable
    for way in ways.WAYS:
        yield way, python, ways.modules(way, modules)


def outcome_of(test):
    """Returns what came of a listed test, a word and a text."""
    try:
        faults = listed.faults_of(test)
    except unittest.SkipTest as skipped:
        return job.SKIPPED, str(skipped)
    return (job.FAILED, "\n".join(faults)) if faults else (job.PASSED, "")


def read(its, program, is_listed=False):
    """Has job.py make the tests of a job, or list them."""
    modules = [f"test_{its.group}"] if its.group in LISTS else its.of_set.split()
    asked = {"group": its.group, "modules": modules, "way": its.way or ways.PROCESS}
    asked |= {"program": program, "names": its.names, "listed": is_listed, "long": its.is_long}
    with tempfile.NamedTemporaryFile("r", prefix="chipfire-job-", encoding="utf-8") as file:
        how = {
            "stdout": subprocess.PIPE,
            "stderr": subprocess.STDOUT,
            "encoding": "utf-8",
            "errors": "replace",
        }
        words = [its.python, f"{paths.HERE}/job.py", file.name]
        ran = subprocess.run(words, input=json.dumps(asked), cwd=paths.ROOT, **how)
        text = file.read()
    if text:
        return Made(**json.loads(text), shown=ran.stdout)
    lost = {its.of_set: (job.FAILED, f"it ended with status {ran.returncode}")}
    return Made("no reader", lost, shown=ran.stdout)


def looped(its):
    """Returns what came of a job of listed tests, made one after another in this process."""
    result = Made("a loop", {})
    for name in its.names:
        begun = time.monotonic()
        result.outcomes[name] = outcome_of(TESTS[its.group][name])
        result.took[name] = time.monotonic() - begun
    return result


def used():
    """Returns the seconds of processors that this process used, and those that it started and that ended."""
    whose = (resource.RUSAGE_SELF, resource.RUSAGE_CHILDREN)
    return sum(it.ru_utime + it.ru_stime for it in map(resource.getrusage, whose))


def made(its, program):
    """Returns what came of a job."""
    begun, used_before = time.monotonic(), used()
    is_loop = its.group in LISTS and not HAS_PYTEST
    result = looped(its) if is_loop else read(its, program)
    result.seconds = time.monotonic() - begun
    result.used = used() - used_before
    return result


class Choice:
    """Which tests are asked for."""

    def __init__(self, asked):
        self.groups = [it for it in asked.words if it in paths.GROUPS] or list(paths.GROUPS)
        self.starts = [it for it in asked.words if it not in paths.GROUPS]
        self.words, self.last = asked.k, last_failed() if asked.lf else None
        self.is_whole = not (self.starts or self.words or asked.lf)
        self.is_long = asked.long

    def has(self, group, name):
        """Whether a test is asked for."""
        is_one = not self.starts or any(listed.is_named(name, it) for it in self.starts)
        is_one &= not self.words or listed.has_words(name, self.words)
        return is_one and (self.last is None or (group, name) in self.last)


def last_failed():
    """Returns the tests that failed when they were made last, each by its group and name."""
    with contextlib.suppress(FileNotFoundError), open(LAST, encoding="utf-8") as file:
        return {tuple(line.rstrip("\n").split(" ", 1)) for line in file}
    return set()


def keep_failed(results):
    """Notes which tests failed, and which of those before did not."""
    its = [
        (it.group, name, word)
        for it, result in results
        for name, (word, _) in result.outcomes.items()
    ]
    failed = {(group, name) for group, name, word in its if word == job.FAILED}
    kept = (last_failed() - {(group, name) for group, name, _ in its}) | failed
    os.makedirs(os.path.dirname(LAST), exist_ok=True)
    with open(LAST, "w", encoding="utf-8") as file:
        file.writelines(f"{group} {name}\n" for group, name in sorted(kept))


def jobs_of_list(group, choice, lanes):
    """Yields the jobs of a list, and deals long sets out."""
    sets = collections.defaultdict(list)
    for name in TESTS[group]:
        if choice.has(group, name):
            sets[name.partition("::")[0]].append(name)
    for of_set, names in sets.items():
        parts = min(lanes, len(names)) if f"{group} {of_set}" in LONGEST else 1
        yield from (
            Job(group, of_set, names[at::parts], is_long=choice.is_long) for at in range(parts)
        )


def names_of_classes(group, choice, program):
    """Returns the names of the tests of unittest classes that are asked for."""
    names = read(Job(group, " ".join(modules_of(group))), program, is_listed=True).outcomes
    return [it for it in names if choice.has(group, it)]


def dealt(group, modules, lanes):
    """Deals modules out. A long one is alone, and those that share what they make are together. The others are in one part
    for each process, since each part starts a Python."""
    if group in SHARING:
        return [modules] * bool(modules)
    alone = [it for it in modules if f"{group} {it}" in LONGEST]
    others = [it for it in modules if it not in alone]
    return [*([it] for it in alone), *(others[at::lanes] for at in range(min(lanes, len(others))))]


def jobs_of_classes(group, choice, program, lanes):
    """Yields the jobs of a group of unittest classes."""
    names = None if choice.is_whole else names_of_classes(group, choice, program)
    for way, python, modules in roads_of(group):
        if names is not None:
            modules = [it for it in modules if any(name.startswith(f"{it}::") for name in names)]
        for part in dealt(group, modules, lanes):
            its = names and [it for it in names if it.partition("::")[0] in part]
            yield Job(group, " ".join(part), its, way, python)


def jobs_of(choice, program, lanes):
    """Returns the jobs of the tests that are asked for, the longest first."""
    jobs = []
    for group in choice.groups:
        if group in LISTS:
            jobs += jobs_of_list(group, choice, lanes)
        else:
            jobs += jobs_of_classes(group, choice, program, lanes)
    return sorted(jobs, key=Job.place)


def show(its, result):
    """Shows what came of a job: what failed as a whole, and what was skipped by name."""
    words = (job.PASSED, job.FAILED, job.SKIPPED)
    said = ", ".join(f"{result.count(word)} {word}" for word in words)
    time_of_it = f"{result.seconds:.1f} s, {result.used:.1f} s of processors"
    print(f"== {its.title()}: {said} by {result.reader} in {time_of_it}")
    for name, (word, text) in result.outcomes.items():
        if word == job.SKIPPED:
            print(f"SKIPPED {name}: {text}")
        elif word == job.FAILED:
            print(f"FAILED {name}", *text.splitlines(), sep="\n    ")
            print(f"To repeat it: {listed.repeating(its.group, name)}")
    if result.shown and result.count(job.FAILED):
        print("It wrote:", *result.shown.splitlines(), sep="\n    ")
    sys.stdout.flush()


def use_room(room):
    """Has a process of the pool write into a folder of its own. It takes that away when it ends, beside the others."""
    tempfile.tempdir = tempfile.mkdtemp(dir=room)
    # (some tests try there what another user may do)
    os.chmod(tempfile.tempdir, 0o711)
    multiprocessing.util.Finalize(None, shutil.rmtree, (tempfile.tempdir, True), exitpriority=0)


def run_all(jobs, program, lanes):
    """Runs jobs side by side, shows what comes of each, and returns all of it."""
    results = []
    with tempfile.TemporaryDirectory(prefix="chipfire-tests-") as room:
        os.chmod(room, 0o711)
        fork = multiprocessing.get_context("fork")
        with concurrent.futures.ProcessPoolExecutor(lanes, fork, use_room, (room,)) as pool:
            begun = {pool.submit(made, it, program): it for it in jobs}
            for future in concurrent.futures.as_completed(begun):
                its, error = begun[future], future.exception()
                lost = {its.of_set: (job.FAILED, repr(error))}
                results.append((its, Made("no reader", lost) if error else future.result()))
                show(*results[-1])
    return results


def show_durations(results, count):
    """Shows the `count` processes that used most of the processors, and the `count` tests that took longest."""
    print(f"== the {count} processes with most seconds of processors")
    for its, result in sorted(results, key=lambda it: -it[1].used)[:count]:
        print(f"{result.used:8.1f} s {its.title()}")
    tests = [
        (seconds, f"{its.title().partition(' ')[0]} {name}")
        for its, result in results
        for name, seconds in result.took.items()
    ]
    print(f"== the {count} tests that took longest")
    for seconds, name in sorted(tests, reverse=True)[:count]:
        print(f"{seconds:8.1f} s {name}")


def too_few(results):
    """Yields what is wrong with the numbers of tests of whole groups."""
    numbers, seconds = collections.Counter(), collections.Counter()
    for its, result in results:
        numbers[its.group, its.way] += len(result.outcomes)
        seconds[its.group, its.way] += result.used
    for (group, road), count in numbers.items():
        said = f"{count} tests, {seconds[group, road]:.0f} s of processors"
        print(f"== {group} {road}".rstrip() + f": {said}")
        yield from counts.wrong(group, road, count)


def parsed():
    """Returns what is asked for."""
    parser = argparse.ArgumentParser(description="Runs tests; see the head of this file.")
    parser.add_argument("--program", default=paths.PROGRAM, metavar="FILE")
    parser.add_argument("-k", metavar="WORDS", help="only tests whose names have these words")
    parser.add_argument(
        "--lf", action="store_true", help="only tests that failed when they were made last"
    )
    parser.add_argument("--list", action="store_true", help="shows the names of the tests")
    parser.add_argument(
        "--long", action="store_true", help="many more mutated files, logs and large games"
    )
    parser.add_argument(
        "--durations", type=int, default=0, metavar="N", help="shows what took longest, N of it"
    )
    parser.add_argument("words", nargs="*", metavar="GROUP or NAME")
    return parser.parse_intermixed_args()


def show_names(choice, program):
    """Shows the names of the tests that are asked for, each after its group."""
    for group in choice.groups:
        if group in LISTS:
            names = [it for it in TESTS[group] if choice.has(group, it)]
        else:
            names = names_of_classes(group, choice, program)
        for name in names:
            print(group, name)


def main():
    asked = parsed()
    program = os.path.realpath(asked.program)
    lanes = len(os.sched_getaffinity(0))
    choice = Choice(asked)
    if wrong := ways.missing(program):
        print(wrong, "0 passed, 1 failed", sep="\n")
        return 1
    ways.take(ways.PROCESS, program, None)
    for group in set(LISTS) & set(choice.groups):
        TESTS[group] = listed_tests(group, program, asked.long)
    if asked.list:
        show_names(choice, program)
        return 0
    jobs = jobs_of(choice, program, lanes)
    if not jobs:
        print("No test has such a name, or failed before.", "0 passed, 1 failed", sep="\n")
        return 1
    results = run_all(jobs, program, lanes)
    keep_failed(results)
    if asked.durations:
        show_durations(results, asked.durations)
    wrong = list(too_few(results)) if choice.is_whole else []
    for line in wrong:
        print(f"FAILED {line}")
    passed, failed = (sum(it.count(word) for _, it in results) for word in (job.PASSED, job.FAILED))
    print(f"{passed} passed, {failed + len(wrong)} failed")
    return 1 if failed or wrong else 0


if __name__ == "__main__":
    sys.exit(main())
