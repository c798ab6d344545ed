"""What the benchmarks share: where all lies, the words that each takes, and a play that is stopped if it takes too long.

Who imports it finds the Python package of this repository, too.
"""
import argparse
import os
import runpy
import signal
import subprocess
import sys
import threading
import time
from dataclasses import dataclass
from typing import Optional

BENCH = os.path.dirname(os.path.realpath(__file__))
ROOT = os.path.dirname(BENCH)
runpy.run_path(f"{ROOT}/tools/paths.py")
#: Where the files of the benchmarks are made anew.
ROOM = f"{ROOT}/target/bench"
#: The program that ./chipfire built, and ./chipfire, which starts it.
BUILT = f"{ROOT}/target/chipfire"
STARTER = f"{ROOT}/chipfire"
#: The benchmark that was started.
NAME = os.path.relpath(os.path.realpath(sys.argv[0]), ROOT).removesuffix(".py")


@dataclass(frozen=True)
class Played:
    """What came of a command: its seconds, its status, None if it was stopped, and the most memory that it had."""

    seconds: float
    status: Optional[int]
    megabytes: float


def stop(why):
    """Ends the benchmark, which has failed."""
    sys.exit(f"{NAME}: {why}")


def parser(description, turns=None, program=BUILT):
    """Returns what reads the words of a benchmark, to which it adds its own: the turns, if it has any, and the program."""
    form = argparse.RawDescriptionHelpFormatter
    words = argparse.ArgumentParser(prog=NAME, description=description, formatter_class=form)
    if turns is not None:
        words.add_argument("--turns", type=int, default=turns)
    words.add_argument("--program", type=os.path.realpath, default=program, metavar="FILE")
    return words


def read_words(words):
    """Returns what was asked for, and makes the folder for the files."""
    asked = words.parse_args()
    os.makedirs(ROOM, exist_ok=True)
    return asked


def built_program():
    """Has ./chipfire build the program, where it must, and names it."""
    if subprocess.run([STARTER, "--help"], stdout=subprocess.DEVNULL, check=False).returncode:
        stop("./chipfire --help failed")
    return BUILT


def compiled(words, source, name, libraries=()):
    """Compiles a source in bench/ by these words, links it with libraries, and returns the path of what it makes."""
    subprocess.run([*words, "-o", f"{ROOM}/{name}", f"{BENCH}/{source}", *libraries], check=True)
    return f"{ROOM}/{name}"


def play(words, out, patience):
    """Runs a command, its output into a file, and stops it after `patience` seconds."""
    to_file = (os.POSIX_SPAWN_OPEN, 1, out, os.O_WRONLY | os.O_CREAT | os.O_TRUNC, 0o644)
    begun = time.perf_counter()
    process = os.posix_spawn(words[0], words, os.environ, file_actions=[to_file])
    stopper = threading.Timer(patience, os.kill, [process, signal.SIGKILL])
    stopper.start()
    _, ended, usage = os.wait4(process, 0)
    seconds = time.perf_counter() - begun
    stopper.cancel()
    status = os.waitstatus_to_exitcode(ended)
    return Played(seconds, None if status == -signal.SIGKILL else status, usage.ru_maxrss / 1000)


def bytes_of(path):
    """Returns the bytes of a file."""
    with open(path, "rb") as file:
        return file.read()
