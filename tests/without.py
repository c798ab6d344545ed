"""Hides packages from this Python, and from those that it starts, as if they were not installed.

The environment variable CHIPFIRE_WITHOUT names them, with commas between them. A Python with this folder on its
PYTHONPATH hides them as it starts (sitecustomize.py); any other one calls `hide` before it imports anything else.
"""
import importlib.machinery
import os
import sys

HERE = os.path.dirname(os.path.realpath(__file__))
NAME = "CHIPFIRE_WITHOUT"
#: The packages that the Python package uses if they are there, and those that users bring to it.
OPTIONAL = ("numpy", "pandas", "scipy", "networkx", "matplotlib", "PIL")


def hidden():
    """The names of the packages that are hidden."""
    return set(filter(None, os.environ.get(NAME, "").split(",")))


class Finder(importlib.machinery.PathFinder):
    """Finds what the path has, but for hidden packages."""

    @classmethod
    def find_spec(cls, fullname, path=None, target=None):
        if fullname.partition(".")[0] in hidden():
            return None
        return super().find_spec(fullname, path, target)


def hide():
    """Hides the packages, and does nothing if that was done, or if there are none."""
    if not hidden() or Finder in sys.meta_path:
        return
    loaded = sorted(hidden() & sys.modules.keys())
    if loaded:
        raise RuntimeError(f"{NAME} comes too late: {', '.join(loaded)} is imported already")
    sys.meta_path[:] = [
        Finder if it is importlib.machinery.PathFinder else it for it in sys.meta_path
    ]


def environment(*folders, **variables):
    """The environment of a Python that a test starts, which imports from these folders and has these variables alone.

    Packages that are hidden here are hidden there.
    """
    given = {"PYTHONPATH": os.pathsep.join(folders), "PYTHONDONTWRITEBYTECODE": "1", **variables}
    if hidden():
        given["PYTHONPATH"] = os.pathsep.join([*folders, HERE])
        given[NAME] = os.environ[NAME]
    return given
