"""The ways in which tests find the program and the package, and which modules of tests/python go which way.

By the *process* the environment variable CHIPFIRE names the program, so that each call of the package starts it. By the
*library* the package lies in a folder with program and library, as in a wheel. *Without* is the same without NumPy and
the other packages that it can do without: they are hidden (without.py). A class of tests that plays nothing and asks for
none of them goes one way alone (`once`).
"""

import hashlib
import os
import shutil
import subprocess

import paths
import without

WAYS = PROCESS, LIBRARY, WITHOUT = ("process", "library", "without")
SHARED, STATIC = "libchipfire.so", "libchipfire.a"
#: The modules that test what the library returns, and those that ask for what may be hidden. All go by the process, but
#: for those in which no process returns anything.
BY_LIBRARY = (
    "test_broken",
    "test_configurations",
    "test_counts",
    "test_detector",
    "test_divisors",
    "test_documented",
    "test_drops",
    "test_ensembles",
    "test_forms",
    "test_groups",
    "test_hands",
    "test_kept",
    "test_library",
    "test_loops",
    "test_notebooks",
    "test_own_books",
    "test_package",
    "test_polynomials",
    "test_published",
    "test_sandpile_words",
    "test_sandpiles",
    "test_spread",
    "test_wrong_inputs",
)
NOT_BY_PROCESS = (
    "test_broken",
    "test_detector",
    "test_documented",
    "test_notebooks",
    "test_own_books",
    "test_published",
)
BY_WITHOUT = (
    "test_configurations",
    "test_counts",
    "test_drops",
    "test_ensembles",
    "test_examples",
    "test_exchange",
    "test_forms",
    "test_hands",
    "test_kept",
    "test_lattices",
    "test_library",
    "test_pictures",
    "test_powers",
    "test_sandpile_words",
    "test_sandpiles",
    "test_spread",
    "test_without",
    "test_wrong_inputs",
)


def once(tests):
    """A class of tests whose results depend on no way: by the library and without packages there are none of them."""
    return tests if os.environ.get("CHIPFIRE_WAY", PROCESS) == PROCESS else None


def modules(way, every):
    """Returns the modules of tests/python, among all of them, that go a way."""
    by_process = [it for it in every if it not in NOT_BY_PROCESS]
    chosen = {PROCESS: by_process, LIBRARY: BY_LIBRARY, WITHOUT: BY_WITHOUT}[way]
    return [it for it in every if it in chosen]


def missing(program):
    """Returns what is not there of a program and the libraries beside it, as a sentence, or nothing."""
    folder = os.path.dirname(program)
    here = set(os.listdir(folder)) if os.path.isdir(folder) else set()
    if os.access(program, os.X_OK) and {SHARED, STATIC} <= here:
        return ""
    return f"{program} is no program, or has no libraries beside it: ./chipfire builds all"


def carried(folder, program):
    """Returns a folder with the package, which carries the program and the library with what is stated of it."""
    package = shutil.copytree(f"{paths.PACKAGE}/chipfire", f"{folder}/chipfire")
    os.mkdir(f"{package}/program")
    shutil.copy(program, f"{package}/program/chipfire")
    shutil.copy(f"{os.path.dirname(program)}/{SHARED}", f"{package}/program")
    how = {"stdout": subprocess.PIPE, "encoding": "ascii", "check": True}
    version_line = subprocess.run([program, "--version"], **how).stdout
    with open(f"{package}/program/{SHARED}", "rb") as file:
        digest = hashlib.sha256(file.read()).hexdigest()
    stated = f"{version_line}{SHARED} sha256:{digest}\n"
    for name, text in (("version", version_line.split()[-1]), ("program/PROVED", stated)):
        with open(f"{package}/{name}", "w", encoding="ascii") as file:
            file.write(text)
    return folder


def take(way, program, folder):
    """Has the tests of this process go a way, which may write into a folder: their environment and what they import."""
    os.environ.update(
        CHIPFIRE_PACKED=program,
        CHIPFIRE_BUILT=os.path.dirname(program),
        CHIPFIRE_WAY=way,
        PYTHONDONTWRITEBYTECODE="1",
    )
    package = paths.PACKAGE
    if way == PROCESS:
        os.environ["CHIPFIRE"] = program
    else:
        os.environ.pop("CHIPFIRE", None)
        package = carried(folder, program)
    os.environ["PYTHONPATH"] = package
    if way == WITHOUT:
        os.environ["PYTHONPATH"] += f"{os.pathsep}{paths.HERE}"
        os.environ[without.NAME] = ",".join(without.OPTIONAL)
        without.hide()
    paths.add(package)
