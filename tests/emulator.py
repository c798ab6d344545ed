"""What starts programs for other processors here: QEMU, with the C library of the cross compiler. Tests that take what is
not here are skipped by name."""

import functools
import os
import shlex
import shutil
import unittest

import listed
from packing import aarch64

#: An emulated processor of the level x86-64-v2, and one that is older.
LEAST, TOO_OLD = "Nehalem", "Penryn"


def need_tools():
    """Skips a test where what makes and starts programs for aarch64 is missing."""
    if lacks := aarch64.missing(is_tried=True):
        raise unittest.SkipTest(lacks)


@functools.cache
def built_for_aarch64(folder):
    """Returns where what was built for aarch64 lies beside a program in a folder, if it is there and can be started."""
    its = f"{folder}/{aarch64.FOLDER}"
    if not os.path.isdir(its):
        raise unittest.SkipTest("nothing was built for aarch64 beside the program: ./test does that")
    need_tools()
    return its


@functools.cache
def command(program):
    """Returns the path of a command that starts a program for aarch64."""
    path = f"{listed.folder('chipfire-emulated-')}/{os.path.basename(program)}"
    with open(path, "w", encoding="utf-8") as file:
        file.write(f'#!/bin/sh\nexec {shlex.join(aarch64.starting(program))} "$@"\n')
    os.chmod(path, 0o755)
    return path


def on_processor(name, *words):
    """Returns the words that start a program for x86-64 on an emulated processor."""
    if shutil.which("qemu-x86_64") is None:
        raise unittest.SkipTest("there is no qemu-x86_64")
    return ["qemu-x86_64", "-cpu", name, *words]
