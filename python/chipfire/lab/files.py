"""Detectors in files of users: the class of FILE.py:CLASS, and all classes of a file."""

from __future__ import annotations

import os
import runpy
import sys
from typing import Any

from chipfire.lab.detectors import known_detector
from chipfire.lab.model import Core
from chipfire.lab.schedules import Detector

#: The module of what a file defines itself, by `runpy`.
_MODULE = "<run_path>"


def detector_of(name: str) -> Detector:
    """A detector by its name, or the class in FILE.py:CLASS."""
    file, colon, wanted = name.rpartition(":")
    if name.endswith(".py"):
        raise ValueError(f"{name} is a file, and a detector is a class in it: {name}:CLASS")
    if not colon:
        known_detector(name)
        return name
    made = _run(file).get(wanted)
    if isinstance(made, type) and issubclass(made, Core):
        return made
    raise ValueError(f"{file} has no class {wanted} that is made of chipfire.model.Core")


def detectors_of(file: str) -> list[str]:
    """The names FILE.py:CLASS of the detectors that a file defines, in their order."""
    made = _run(file)
    own = [
        name
        for name, it in made.items()
        if isinstance(it, type) and issubclass(it, Core) and it.__module__ == _MODULE
    ]
    names = [f"{file}:{name}" for name in own if not name.startswith("_")]
    if not names:
        raise ValueError(f"{file} has no class that is made of chipfire.model.Core")
    return names


def _run(file: str) -> dict[str, Any]:
    """What a file defines, whose imports may stand beside it, as for a file that Python starts."""
    sys.path.insert(0, os.path.dirname(os.path.abspath(file)))
    try:
        return runpy.run_path(file)
    except (Exception, SystemExit) as error:  # (whatever the file does)
        raise ValueError(f"{file}: {type(error).__name__}: {error}") from error
