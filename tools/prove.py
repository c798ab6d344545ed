#!/usr/bin/env python3
"""Proves crates side by side, each as one process, and first those with the longest chain of crates above them.

    tools/prove.py NAME ..              the crates of these names, and all that they depend on
    tools/prove.py --above NAME ..      these, all above them, and all below; standard output names the former two
    tools/prove.py --beside PID NAME .. the crates, beside a process that also works: two processors are left to it
    tools/prove.py --lanes              nothing: prints how many crates it would prove at a time

In one folder the kit's command `rt` proves one crate at a time, since it locks all that a crate depends on, and shares
the crate among the processors by copies of itself, which together do twice the work. Here each crate is proved in a
room of its own below target/rooms/, with a copy of the sources and what is built of the crates below it, so that no
crate waits for another's lock. What `rt` keeps for later checks goes back to where it keeps it.

Standard error has a line for each crate that is proved, with how much is left by the costs in tools/costs.txt. What
`rt` says of a crate goes into target/NAME.log. The status is 0 where all are proved.
"""

import contextlib
import fcntl
import os
import shutil
import signal
import subprocess
import sys
import time
from concurrent.futures import FIRST_COMPLETED, ThreadPoolExecutor, wait

import paths  # noqa: F401  (it has Python find the others)
from packing.crates import below, libraries, name_in, rows
from packing.repository import ROOT

CRATES = f"{ROOT}/crates"
TARGET = f"{ROOT}/target"
# How many crates are proved at a time at most. The longest chain of crates bounds the time: what goes on beside it ends
# sooner anyway, and slows it.
LANES = 3
# What one check takes at most, in bytes.
MEMORY = 3 << 30
# What a crate costs that has no line in tools/costs.txt, in seconds.
USUAL_COST = 60
# What proves a crate: a library for the crates above it, the program, which rt builds only to run it, or another program.
# (Copies of the prover that share a crate take longer than one alone, even where no other crate can be proved.)
LIBRARY = ["rt", "lib", "--jobs", "1"]
PROGRAM = ["rt", "run", "--jobs", "1", "--", "--help"]
OTHER_PROGRAM = ["rt", "check", "--jobs", "1"]
# The commands that run, by crate.
COMMANDS = {}


def say(text):
    print(f"chipfire: {text}", file=sys.stderr, flush=True)


def costs():
    """Returns the seconds that proving each crate took where they were written down."""
    if not os.path.isfile(f"{ROOT}/tools/costs.txt"):
        return {}
    pairs = [row.split() for row in rows(f"{ROOT}/tools/costs.txt")]
    return {name: float(seconds) for name, seconds in pairs}


def is_alive(process):
    """Returns whether the process with this number is there."""
    try:
        os.kill(process, 0)
    except ProcessLookupError:
        return False
    return True


def lanes(taken=0):
    """Returns how many crates are proved at a time, where this number of processors is taken: one for each that is
    left, as many as memory holds."""
    with open("/proc/meminfo", encoding="ascii") as lines:
        sizes = dict(line.split(":") for line in lines)
    free = int(sizes["MemAvailable"].split()[0]) << 10
    return max(1, min(LANES, len(os.sched_getaffinity(0)) - taken, free // MEMORY))


def bring(part, room, by):
    """Puts a folder of the repository's crates, where it is there, into the same place of a room."""
    if os.path.isdir(f"{CRATES}/{part}"):
        shutil.copytree(f"{CRATES}/{part}", f"{room}/crates/{part}", copy_function=by)


def keep(name, room):
    """Moves what was kept of a crate from a room to where rt keeps it."""
    if os.path.isdir(f"{room}/crates/{name}/out"):
        shutil.rmtree(f"{CRATES}/{name}/out", ignore_errors=True)
        os.rename(f"{room}/crates/{name}/out", f"{CRATES}/{name}/out")


def words_for(name):
    """Returns the command that proves a crate."""
    if not os.path.isfile(f"{CRATES}/{name}/src/main.rt"):
        return LIBRARY
    return PROGRAM if name == "chipfire" else OTHER_PROGRAM


def prove(name, lower):
    """Proves a crate in a room, over what was kept of it and of those that it depends on. Returns its status and
    its seconds."""
    begun, room = time.monotonic(), f"{TARGET}/rooms/{name}"
    # (a run that was killed left its room)
    keep(name, room)
    shutil.rmtree(room, ignore_errors=True)
    os.makedirs(f"{room}/crates/{name}")
    with open(f"{room}/crates.txt", "w", encoding="utf-8") as its_rows:
        its_rows.writelines(
            f"{row}\n" for row in rows(f"{ROOT}/crates.txt") if name_in(row) in [*lower, name]
        )
    for crate in [*lower, name]:
        for part in ("src", "specs", "proofs"):
            bring(f"{crate}/{part}", room, shutil.copy2)
    for crate in lower:
        bring(f"{crate}/out/rlib", room, os.link)
    if os.path.isdir(f"{CRATES}/{name}/out"):
        os.rename(f"{CRATES}/{name}/out", f"{room}/crates/{name}/out")
    with open(f"{TARGET}/{name}.log", "w", encoding="utf-8") as log:
        how = {"stdin": subprocess.DEVNULL, "stdout": log, "stderr": log}
        COMMANDS[name] = subprocess.Popen(words_for(name), cwd=f"{room}/crates/{name}", **how)
        status = COMMANDS[name].wait()
        del COMMANDS[name]
    keep(name, room)
    shutil.rmtree(room)
    return status, time.monotonic() - begun


class Work:
    """What is to be proved, what it costs, and what is proved."""

    def __init__(self, names, direct):
        known = costs()
        self.direct = direct
        self.left = list(names)
        self.proved = set()
        self.cost = {it: known.get(it, USUAL_COST) for it in names}
        self.total = len(names)
        self.spent = self.planned = 0.0
        # The cost of the longest chain that begins with a crate. (A crate comes after those that it depends on.)
        self.chain = {}
        for name in reversed(names):
            above = [self.chain[it] for it in self.chain if name in direct[it]]
            self.chain[name] = self.cost[name] + max(above, default=0)

    def next(self):
        """Takes the crate with the longest chain above it of those that wait for nothing, if there is one."""
        ready = [it for it in self.left if self.proved.issuperset(self.direct[it])]
        if not ready:
            return None
        first = max(ready, key=self.chain.get)
        self.left.remove(first)
        return first

    def end(self, name, seconds):
        self.proved.add(name)
        self.spent += seconds
        self.planned += self.cost[name]

    def minutes_left(self, running, places):
        """Returns how many minutes are left, by the costs and by how quick this machine has been, if anything is proved."""
        open_ones = [*self.left, *running]
        work = sum(self.cost[it] for it in open_ones) / places
        longest = max((self.chain[it] for it in open_ones), default=0)
        return max(work, longest) * (self.spent / self.planned if self.planned else 1) / 60


def minutes(name):
    """Returns how many minutes it takes to prove a crate and all that it depends on, by the costs."""
    direct = libraries()
    return Work([*below(name, direct), name], direct).minutes_left([], lanes())


def prove_all(names, direct, neighbour):
    """Proves these crates, each of which comes after those that it depends on. Returns whether all are proved.

    Two processors are left to the neighbour, a process that works too, as long as it does: what slows the first crate of
    the longest chain delays all."""
    work, places, running = Work(names, direct), lanes(), {}
    few = lanes(taken=2)
    with ThreadPoolExecutor(places) as pool, ended_by_signals():
        while work.left or running:
            if neighbour and not is_alive(neighbour):
                neighbour = None
            while len(running) < (few if neighbour else places) and (name := work.next()):
                running[pool.submit(prove, name, below(name, direct))] = name
            for done in wait(running, 1 if neighbour else None, FIRST_COMPLETED).done:
                name, (status, seconds) = running.pop(done), done.result()
                if status:
                    say_failure(name, seconds)
                    return False
                work.end(name, seconds)
                left = work.minutes_left(running.values(), places)
                now = f"{name} proved ({seconds:.0f} s), {len(work.proved)} of {work.total} crates"
                say(f"{now}, some {left:.0f} min left" if left >= 1 else now)
    return True


@contextlib.contextmanager
def ended_by_signals():
    """Ends the commands that run where what stands in it ends before they do, by a signal too."""
    for it in (signal.SIGTERM, signal.SIGHUP):
        signal.signal(it, lambda number, _: sys.exit(128 + number))
    try:
        yield
    finally:
        for it in [*COMMANDS.values()]:
            it.terminate()


def say_failure(name, seconds):
    """Shows why a crate is not proved."""
    say(f"{name} failed after {seconds:.0f} s; {TARGET}/{name}.log ends with:")
    with open(f"{TARGET}/{name}.log", encoding="utf-8", errors="replace") as lines:
        sys.stderr.writelines(list(lines)[-30:])


def lock(names):
    """Waits until no rt works in these crates' folders, and keeps others out as rt does until the program ends."""
    held = [os.open(f"{CRATES}/{it}", os.O_RDONLY) for it in sorted(names)]
    for it in held:
        fcntl.flock(it, fcntl.LOCK_EX)


def main(words):
    if words == ["--lanes"]:
        print(lanes())
        return 0
    direct = libraries()
    neighbour = None
    if words[:1] == ["--beside"]:
        neighbour, words = int(words[1]), words[2:]
    asked = [it for it in words if it != "--above"]
    unknown = [it for it in asked if it not in direct]
    if unknown:
        say(f"crates.txt has no line for {' '.join(unknown)}")
        return 1
    if "--above" in words:
        asked = [it for it in direct if {it, *below(it, direct)}.intersection(asked)]
        print(*asked, sep="\n")
    names = []
    for it in asked:
        names += [low for low in [*below(it, direct), it] if low not in names]
    os.makedirs(TARGET, exist_ok=True)
    lock(names)
    return 0 if prove_all(names, direct, neighbour) else 1


if __name__ == "__main__":
    sys.exit(main(sys.argv[1:]))
