"""Tests that are listed: each has a name and a function that finds its faults. tests/run.py and pytest go through the same
lists.

A name is `SET::TEST`, as in `chains::17`. A test may raise `unittest.SkipTest` with a reason.
"""

import atexit
import collections
import contextlib
import functools
import io
import os
import random
import re
import shlex
import tempfile
import traceback
import typing
import unittest

import paths


#: What Hypothesis has tried.
SHRUNK = []


#: The names of the tests that pytest is given, or None for all.
chosen: typing.Optional[typing.Collection[str]] = None


class Test(typing.NamedTuple):
    """A test of a list; `faults` returns what is wrong, each a text, and nothing if all is well."""

    name: str
    faults: typing.Callable


def named(sets):
    """Returns the tests of these sets, in their order; each set is a name with its tests."""
    tests = [Test(f"{name}::{test}", faults) for name, its in sets.items() for test, faults in its]
    counts = collections.Counter(it.name for it in tests)
    if twice := [name for name, count in counts.items() if count > 1]:
        raise ValueError(f"these names stand twice: {', '.join(twice)}")
    return tests


def drawn(count, seed, faults_of, *more):
    """Yields `count` tests of what is drawn at random; their names are their numbers. `faults_of` gets the generator, and
    `more`."""
    for number in range(count):
        yield str(number), functools.partial(of_seed, f"{seed} {number}", faults_of, *more)


def of_seed(seed, faults_of, *more):
    """Returns what is wrong with what is drawn by a seed. The first time it also shows the faults of the smallest example
    that Hypothesis finds, if Hypothesis is here."""
    faults = faults_of(random.Random(seed), *more)
    if not faults or (faults_of, more) in SHRUNK:
        return faults
    SHRUNK.append((faults_of, more))
    smallest = shrunk(lambda draw: faults_of(draw, *more))
    return [*faults, "The smallest that was found:", *smallest] if smallest else faults


def shrunk(faults_of):
    """Returns what is wrong with the smallest thing that Hypothesis draws and that is wrong, or nothing."""
    try:
        import hypothesis
    except ImportError:
        return []
    found = []
    settings = hypothesis.settings(
        derandomize=True,
        database=None,
        deadline=None,
        suppress_health_check=list(hypothesis.HealthCheck),
    )

    @settings
    @hypothesis.given(hypothesis.strategies.randoms(use_true_random=False))
    def try_one(draw):
        found[:] = faults_of(draw)
        assert not found

    # (what it finds is in `found`; what is wrong now and then may be reported as one more error)
    with contextlib.suppress(Exception), contextlib.redirect_stdout(io.StringIO()):
        try_one()
    return found


def joined(play, *arguments):
    """Returns the faults of one test, of facts that a function yields, each a name with what is wrong."""
    return [f"{name}: {fault}" for name, faults in play(*arguments) for fault in faults]


def folder(prefix):
    """Returns a new folder that is there as long as this process."""
    made = tempfile.TemporaryDirectory(prefix=prefix)
    atexit.register(made.cleanup)
    return made.name


def faults_of(test):
    """Returns what a test finds wrong; one that itself goes wrong has found something."""
    try:
        return list(test.faults())
    except unittest.SkipTest:
        raise
    except Exception:
        return [traceback.format_exc()]


def has_words(name, words):
    """Whether a name has these words, in small letters or capitals; a number at their ends is a whole one."""
    before = r"(?<!\d)" if words[:1].isdigit() else ""
    after = r"(?!\d)" if words[-1:].isdigit() else ""
    return re.search(before + re.escape(words) + after, name, re.IGNORECASE) is not None


def is_named(name, start):
    """Whether a name, or what follows its set, begins so; a number at the end is a whole one."""
    after = r"(?!\d)" if start[-1:].isdigit() else ""
    wanted = re.compile(re.escape(start) + after)
    return bool(wanted.match(name) or wanted.match(name.partition("::")[2]))


def repeating(group, name):
    """Returns the command that makes one test again."""
    program = os.environ["CHIPFIRE_PACKED"]
    more = "" if program == paths.PROGRAM else f" --program {shlex.quote(program)}"
    return f"tests/run.py {group} -k {shlex.quote(name)}{more}"


def for_pytest(group, tests):
    """Returns the tests of a group as one that pytest makes with each of them."""
    import pytest

    every = tests(os.environ["CHIPFIRE_PACKED"], bool(os.environ.get("CHIPFIRE_LONG")))
    if chosen is not None:
        every = [it for it in every if it.name in chosen]

    @pytest.mark.parametrize("test", every, ids=[it.name for it in every])
    def test_of_group(test):
        if faults := faults_of(test):
            again = f"To repeat it: {repeating(group, test.name)}"
            pytest.fail("\n".join([*faults, again]), pytrace=False)

    return test_of_group
