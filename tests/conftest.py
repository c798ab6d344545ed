"""What pytest needs for the tests: the program and the way to it, where modules lie, and what `-k` means.

    python3 -m pytest tests/cli -k "one chip short"

`--program` names the program, else it is the one that ./chipfire built; `--way` says how the Python package finds it
(ways.py). `-k` takes words that stand in a test's name as they are; else they are an expression of pytest's. A whole
group may have no fewer tests than tests/counts.txt says.
"""

import os
import tempfile

import counts
import listed
import parts
import paths
import pytest
import ways

FOLDER = pytest.StashKey()
SHORT = pytest.StashKey()


def pytest_addoption(parser):
    group = parser.getgroup("chipfire")
    group.addoption("--program", default=paths.PROGRAM, metavar="FILE")
    group.addoption("--way", choices=ways.WAYS, default=ways.PROCESS)
    group.addoption("--long", action="store_true", help="more mutated files, logs and large games")


def pytest_configure(config):
    program = os.path.realpath(config.option.program)
    if wrong := ways.missing(program):
        raise pytest.UsageError(wrong)
    config.stash[FOLDER] = tempfile.TemporaryDirectory(prefix="chipfire-tests-")
    ways.take(config.option.way, program, config.stash[FOLDER].name)
    parts.show()
    if config.option.long:
        os.environ["CHIPFIRE_LONG"] = "yes"


def pytest_unconfigure(config):
    if FOLDER in config.stash:
        config.stash[FOLDER].cleanup()


def name_of(item):
    """Returns the name of a test: of a list, or its module, class and method."""
    if hasattr(item, "callspec"):
        return item.callspec.id
    path, *parts = item.nodeid.split("::")
    return "::".join([os.path.basename(path).removesuffix(".py"), *parts])


def whole_groups(config):
    """Returns the groups all of whose tests are collected."""
    asked = [os.path.realpath(it.partition("::")[0]) for it in config.args if "::" not in it]
    folders = {name: f"{paths.HERE}/{name}" for name in paths.GROUPS}
    is_whole = {
        name: any(f"{it}/".startswith(f"{one}/") for one in asked) for name, it in folders.items()
    }
    is_last = getattr(config.option, "lf", False)
    return [name for name in is_whole if is_whole[name] and not is_last]


@pytest.hookimpl(tryfirst=True)
def pytest_collection_modifyitems(config, items):
    config.stash[SHORT] = []
    for group in whole_groups(config):
        made = sum(f"{it.path}".startswith(f"{paths.HERE}/{group}/") for it in items)
        way = config.option.way if group == "python" else ""
        config.stash[SHORT] += counts.wrong(group, way, made)
    words = config.option.keyword
    chosen = [it for it in items if words and listed.has_words(name_of(it), words)]
    if chosen:
        config.option.keyword = ""
        config.hook.pytest_deselected(items=[it for it in items if it not in chosen])
        items[:] = chosen


def pytest_sessionfinish(session):
    if session.config.stash.get(SHORT, []) and session.exitstatus == pytest.ExitCode.OK:
        session.exitstatus = pytest.ExitCode.TESTS_FAILED


def pytest_terminal_summary(terminalreporter, config):
    for line in config.stash.get(SHORT, []):
        terminalreporter.write_line(line, red=True)
