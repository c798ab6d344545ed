"""Where the tests, what they test and what knows the right results lie. Nothing else in tests/ edits `sys.path`."""

import functools
import importlib.util
import os
import sys

HERE = os.path.dirname(os.path.realpath(__file__))
ROOT = os.path.dirname(HERE)
EXAMPLES = f"{ROOT}/examples"
PACKAGE = f"{ROOT}/python"
#: The program that is tested if no other one is named.
PROGRAM = f"{ROOT}/target/chipfire"
#: The groups of tests, each a folder.
GROUPS = ("cli", "python", "docs", "hostile", "library", "package")
#: The folders whose modules a test may import, the first ones first where a name stands twice.
FOLDERS = [*(f"{HERE}/{it}" for it in GROUPS), HERE, PACKAGE, EXAMPLES, f"{ROOT}/tools", ROOT]


def add(package=PACKAGE):
    """Has the modules of the tests imported from here, and chipfire from a folder."""
    sys.dont_write_bytecode = True
    folders = [package, *FOLDERS]
    sys.path[:] = [*folders, *(it for it in sys.path if os.path.realpath(it or ".") not in folders)]


@functools.cache
def model():
    """chipfire.model alone: the package, which finds and asks the program, is not imported."""
    spec = importlib.util.spec_from_file_location("model_alone", f"{PACKAGE}/chipfire/lab/model.py")
    module = importlib.util.module_from_spec(spec)
    spec.loader.exec_module(module)
    return module
