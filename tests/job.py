"""Runs modules of unittest classes on the Python that starts it, by pytest where that is there, and else by unittest.

    tests/job.py FILE <WHAT

tests/run.py starts it. WHAT is a JSON object: the `group`, its `modules`, the `way` and the `program`, the `names` of the
tests or null for all of them, whether they are only to be `listed`, and whether there are many more (`long`). FILE gets
the `reader`, for each test by its name what came of it, a word and a text, and how long it took with what was set up for it.
"""

import collections
import contextlib
import importlib
import importlib.util
import json
import sys
import tempfile
import time
import traceback
import unittest

import listed
import paths
import ways

#: What pytest would say of pytest.ini, where it keeps no cache.
IGNORED = "ignore::pytest.PytestConfigWarning"
PASSED, FAILED, SKIPPED = "passed", "failed", "skipped"


class Outcomes(dict):
    """What came of each test by its name, and how long it took. What a test or a part of it did wrong is never forgotten."""

    def __init__(self):
        super().__init__()
        self.took = collections.Counter()

    def add(self, name, word, text=""):
        before, said = self.get(name, (PASSED, ""))
        if before == FAILED:
            self[name] = (FAILED, f"{said}\n{text}")
        elif before == PASSED or word == FAILED:
            self[name] = (word, text)


def name_of(case):
    """Returns the name of a test of unittest, or of that which it is a part of: its module, class and method."""
    return getattr(case, "test_case", case).id().replace(".", "::")


def cases_of(suite):
    """Yields the tests of a suite, one after the other."""
    for test in suite:
        if isinstance(test, unittest.TestSuite):
            yield from cases_of(test)
        else:
            yield test


class Result(unittest.TestResult):
    """Notes what comes of each test, and of the set-up of classes under their names."""

    def __init__(self):
        super().__init__()
        self.outcomes = Outcomes()
        self.since = time.monotonic()

    def stopTest(self, test):
        super().stopTest(test)
        begun, self.since = self.since, time.monotonic()
        self.outcomes.took[name_of(test)] += self.since - begun

    def addSuccess(self, test):
        self.outcomes.add(name_of(test), PASSED)

    def addFailure(self, test, err):
        super().addFailure(test, err)
        self.outcomes.add(name_of(test), FAILED, self.failures[-1][1])

    def addError(self, test, err):
        super().addError(test, err)
        self.outcomes.add(name_of(test), FAILED, self.errors[-1][1])

    def addSkip(self, test, reason):
        self.outcomes.add(name_of(test), SKIPPED, reason)

    def addSubTest(self, test, subtest, err):
        super().addSubTest(test, subtest, err)
        if err is not None:
            self.outcomes.add(name_of(test), FAILED, [*self.errors, *self.failures][-1][1])

    def addExpectedFailure(self, test, err):
        self.outcomes.add(name_of(test), PASSED)

    def addUnexpectedSuccess(self, test):
        self.outcomes.add(name_of(test), FAILED, "it was expected to fail")


def cases_in(modules, outcomes):
    """Returns the tests of these modules; of one that cannot be imported it is noted why."""
    cases = []
    for name in modules:
        try:
            module = importlib.import_module(name)
        except unittest.SkipTest as skipped:
            outcomes.add(name, SKIPPED, str(skipped))
        except Exception:
            outcomes.add(name, FAILED, traceback.format_exc())
        else:
            cases += cases_of(unittest.defaultTestLoader.loadTestsFromModule(module))
    return cases


def by_unittest(asked):
    """Returns what came of the tests that are asked for, by unittest."""
    result = Result()
    cases = cases_in(asked["modules"], result.outcomes)
    if asked["names"] is not None:
        cases = [it for it in cases if name_of(it) in asked["names"]]
    unittest.TestSuite(cases).run(result)
    tell_of_classes(cases, result.outcomes)
    return result.outcomes


def tell_of_classes(cases, outcomes):
    """Gives the outcome of the set-up of a class to all its tests that did not run, as pytest does, and the outcome of its
    end to the last one that ran."""
    last = {name_of(it).rpartition("::")[0]: name_of(it) for it in cases}
    for case in (it for it in cases if name_of(it) not in outcomes):
        place = f"setUpClass ({name_of(case).rpartition('::')[0]})"
        outcomes.add(name_of(case), *outcomes.get(place, (FAILED, "it did not run")))
    for name, test in last.items():
        outcomes.pop(f"setUpClass ({name})", None)
        if end := outcomes.pop(f"tearDownClass ({name})", None):
            outcomes.add(test, *end)


class Recorder:
    """A plugin of pytest that takes the tests with some names, and notes what comes of each."""

    def __init__(self, names):
        self.names, self.outcomes = names, Outcomes()

    def name_of(self, node):
        """Returns the name of a test as unittest has it, or a list."""
        if "[" in node:
            return node.partition("[")[2].removesuffix("]")
        path, *parts = node.split("::")
        return "::".join([path.rpartition("/")[2].removesuffix(".py"), *parts])

    def pytest_collection_modifyitems(self, config, items):
        if self.names is not None:
            left = [it for it in items if self.name_of(it.nodeid) not in self.names]
            items[:] = [it for it in items if it not in left]
            config.hook.pytest_deselected(items=left)

    def pytest_collectreport(self, report):
        self.note(report, is_whole=False)

    def pytest_runtest_logreport(self, report):
        self.note(report, is_whole=report.when == "call")

    def note(self, report, is_whole):
        """Notes what a report says; that all went well only where it is one of a whole test."""
        name = self.name_of(report.nodeid)
        self.outcomes.took[name] += getattr(report, "duration", 0)
        if hasattr(report, "wasxfail"):
            self.outcomes.add(name, PASSED)
        elif report.skipped:
            self.outcomes.add(name, SKIPPED, report.longrepr[2].removeprefix("Skipped: "))
        elif report.failed:
            self.outcomes.add(name, FAILED, report.longreprtext)
        elif is_whole:
            self.outcomes.add(name, PASSED)


def by_pytest(asked):
    """Returns what came of the tests that are asked for, by pytest; tests/conftest.py takes the way."""
    import pytest

    # (a list makes only those)
    listed.chosen = asked["names"]
    recorder = Recorder(asked["names"])
    files = [f"{paths.HERE}/{asked['group']}/{it}.py" for it in asked["modules"]]
    options = [
        f"--program={asked['program']}",
        f"--way={asked['way']}",
        *["--long"] * asked["long"],
    ]
    status = pytest.main(
        ["-q", "-p", "no:cacheprovider", "-W", IGNORED, *options, *files], plugins=[recorder]
    )
    if status not in (pytest.ExitCode.OK, pytest.ExitCode.TESTS_FAILED):
        recorder.outcomes.add(" ".join(asked["modules"]), FAILED, f"pytest ended with {status!r}")
    return recorder.outcomes


def known(asked):
    """Returns the tests that there are; what comes of them is not known."""
    outcomes = Outcomes()
    for case in cases_in(asked["modules"], outcomes):
        outcomes.add(name_of(case), PASSED)
    return outcomes


def main():
    asked = json.load(sys.stdin)
    has_pytest = importlib.util.find_spec("pytest") is not None
    reader = "pytest" if has_pytest else "unittest"
    with contextlib.ExitStack() as stack:
        if asked["listed"] or not has_pytest:
            folder = tempfile.TemporaryDirectory(prefix="chipfire-tests-")
            ways.take(asked["way"], asked["program"], stack.enter_context(folder))
        by_reader = by_pytest if has_pytest else by_unittest
        outcomes = known(asked) if asked["listed"] else by_reader(asked)
    with open(sys.argv[1], "w", encoding="utf-8") as file:
        json.dump({"reader": reader, "outcomes": outcomes, "took": outcomes.took}, file)


if __name__ == "__main__":
    main()
