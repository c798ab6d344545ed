"""The program under test, and a library loaded before it that has calls fail."""
import functools
import itertools
import os
import struct
import subprocess
import sys

import launch
import listed
from worked import FILE

HERE = os.path.dirname(os.path.realpath(__file__))
KINDS = ["alloc", "read", "out", "err", "file", "open", "thread"]
LAST = 10**9


class Machine:
    """Starts the program, as it is or with calls that fail. The word `FILE` stands for a new one."""

    def __init__(self, program, room):
        self.program, self.room = program, room
        self.numbers = itertools.count()
        self.library = f"{room}/refuse.so"
        words = ["cc", "-shared", "-fPIC", "-O1", "-Wall", "-Werror", "-o", self.library, f"{HERE}/refuse.c", "-ldl"]
        subprocess.run(words, check=True)

    def start(self, words, environment=None, actions=(), limits=None):
        """Starts the program, under limits of the system as limited.py takes them."""
        before = [sys.executable, f"{HERE}/limited.py", limits] if limits else []
        path = f"{self.room}/{next(self.numbers)}" if FILE in words else None
        words = [path if word == FILE else word for word in words]
        return launch.start([*before, self.program, *words], environment, actions, path)

    def run(self, words, actions=()):
        return self.start(words, actions=actions).end()

    def run_under(self, limits, words, actions=()):
        return self.start(words, actions=actions, limits=limits).end()

    def run_refusing(self, words, *plan):
        """Runs the program under a plan of refuse.c, each part (kind, from, to, how); with it how many calls of each
        kind there were, and how many of them failed."""
        tally = os.memfd_create("tally")
        os.truncate(tally, 16 * len(KINDS))
        text = ";".join(" ".join(str(it) for it in part) for part in plan)
        with os.fdopen(tally, "rb") as file:
            path = f"/proc/{os.getpid()}/fd/{tally}"
            given = {"LD_PRELOAD": self.library, "HOSTILE_PLAN": text, "HOSTILE_TALLY": path}
            ran = self.start(words, given).end()
            counts = struct.unpack(f"{2 * len(KINDS)}q", file.read())
        return ran, dict(zip(KINDS, zip(counts[::2], counts[1::2])))

    def calls(self, words):
        """How many calls of each kind a run makes that nothing fails in."""
        _, tally = self.run_refusing(words)
        return {kind: calls for kind, (calls, _) in tally.items()}


@functools.cache
def of(program):
    """The machine of this process, whose library is built once."""
    return Machine(program, listed.folder("chipfire-hostile-"))
