"""Program and libraries for aarch64: how they are made on another machine, and how they lie in one folder."""
import os
import re
import subprocess

from contents import AARCH64, PROGRAM, version
from packing import build, scripts
from packing.repository import Refused, content

NAME = FOLDER = AARCH64.name
TITLE = "What is for aarch64"
#: How it is made: PROVED says so.
MADE = (
    "what is proved of chipfire and chip_exports, lowered and compiled by the kit for aarch64 (generic), and linked with "
    "tools/malloc.c and tools/os.c in place of the kit's own C code; no proof covers these two"
)
SCRIPTS = ("aarch64.py",)
#: The cross compiler that makes it, and what starts its programs here.
TOOL, STARTS = "aarch64-linux-gnu-gcc", "qemu-aarch64"
C_LIBRARY = "libc.so.6"


def found(name):
    """Returns where the cross compiler finds a file of the machine's, or None."""
    words = [TOOL, f"-print-file-name={name}"]
    asked = subprocess.run(words, check=True, stdout=subprocess.PIPE, encoding="utf-8")
    path = os.path.realpath(asked.stdout.strip())
    return path if os.path.isfile(path) else None


def missing(is_tried=False):
    """Returns what it lacks here to be made, or to be tried too, as a sentence, or nothing."""
    tools_for = {TOOL: "gcc-aarch64-linux-gnu", **({STARTS: "qemu-user"} if is_tried else {})}
    if lacks := scripts.lacking(tools_for):
        return lacks
    if found(C_LIBRARY) and found("Scrt1.o"):
        return ""
    return f"{TOOL} has no C library: Debian's package libc6-dev-arm64-cross has it"


def tools():
    """Returns the versions of compiler and C library that are here, or None if one is missing."""
    compiler = scripts.first_line(TOOL, "--version")
    library = found(C_LIBRARY) if compiler else None
    version_of = re.search(rb"GNU C Library \((.*?)\)", content(library)) if library else None
    return f"{compiler}, {version_of[1].decode()}" if version_of else None


def starting(*words):
    """Returns the words that start a program for aarch64 here."""
    return [STARTS, "-L", os.path.dirname(os.path.dirname(found(C_LIBRARY))), *words]


def try_in(folder):
    """Refuses what was made in a folder of another, if it does not start."""
    words = starting(f"{folder}/{FOLDER}/{PROGRAM}", "--version")
    if not scripts.prints(words, f"chipfire {version()}\n"):
        raise Refused(f"the program for aarch64 does not start by {STARTS}")


def built_in(folder):
    """Returns what was made in a folder of another, bytes by the words of PROVED."""
    return build.built_in(f"{folder}/{FOLDER}", AARCH64)


def differing(built, folder):
    """Returns the words of PROVED whose files are others in what was made, or in a folder of another."""
    here = built_in(folder)
    return [word for word in AARCH64.built if built[word] != here[word]]
