"""Each line of `--progress` and its numbers, of small games and a log whose outcomes are known by hand.

A line comes once a second at most. So standard error is a pipe that has room for one line, and a line is taken out only
when the program has waited for a second to write the next one: so it reports whatever it does after that, too.
"""
import concurrent.futures
import fcntl
import functools
import itertools
import json
import os
import re
import subprocess
import tempfile
import threading
import time

SECONDS, PAUSE, LOOK = 60, 1.01, 0.005
# How many lines are taken out so slowly.
SLOW = 40
PAGE = 4096
# Vertices 0 and 1 send a chip to each other and one to the sink 2: of 4 chips on vertex 0, it fires twice and vertex 1
# once, and 1, 0 and 3 are left. Of PAIRS 2 and 3 are another pair, and 4 is the sink of both. On the third graph vertex 0
# gets 6 chips from vertex 1, which never fires, and sends 5 to the sink 2: its one firing of 5 chips passes no test.
PAIR = [[0, 1, 1], [0, 2, 1], [1, 0, 1], [1, 2, 1]]
PAIRS = [[0, 1, 1], [0, 4, 1], [1, 0, 1], [1, 4, 1], [2, 3, 1], [2, 4, 1], [3, 2, 1], [3, 4, 1]]
LEAKING = [[0, 2, 5], [1, 0, 6], [1, 2, 1]]


def graph_of(edges, vertices):
    return json.dumps({"edges": edges, "sink": vertices - 1, "version": 1, "vertices": vertices})


def report_of(chips, fired, over=(), **prior):
    """The text of a report, which is of version 2 where it has a `prior`."""
    end = {"chips": chips, "closed": not over, "fired": fired, "over": list(over), "sealed": []}
    return json.dumps({**end, **prior, "version": 1 + len(prior)}, separators=(",", ":"), sort_keys=True) + "\n"


def waits(process):
    """Waits until a process waits for something, and then for a second. It may have ended instead."""
    until = time.monotonic() + SECONDS
    while process.poll() is None and time.monotonic() < until:
        with open(f"/proc/{process.pid}/stat", encoding="ascii") as file:
            state = file.read().rpartition(") ")[2][0]
        if state == "S":
            time.sleep(PAUSE)
            return
        time.sleep(LOOK)


def paced_run(program, words, files):
    """All lines of progress of a command, its output and its status. Its graph is standard input."""
    ours, theirs = os.pipe2(os.O_DIRECT)
    fcntl.fcntl(theirs, fcntl.F_SETPIPE_SZ, PAGE)
    os.write(theirs, b"\n")
    lines = []
    with tempfile.TemporaryDirectory(prefix="chipfire-paced-") as room, open(ours, "rb", buffering=0) as pipe:
        for name, text in files.items():
            with open(f"{room}/{name}", "w", encoding="ascii") as file:
                file.write(text)
        how = {"stdin": subprocess.PIPE, "stdout": subprocess.PIPE, "cwd": room}
        with subprocess.Popen([program, *words.split(), "--progress"], stderr=theirs, **how) as process:
            os.close(theirs)
            guard = threading.Timer(SECONDS, process.kill)
            guard.start()
            waits(process)
            process.stdin.write(files["graph"].encode())
            process.stdin.close()
            for number in itertools.count():
                if number < SLOW:
                    waits(process)
                if not (line := pipe.read(PAGE)):
                    break
                lines.append(line.decode())
            guard.cancel()
            said = "".join(lines[1:]).replace("chipfire: progress: ", "").splitlines()
            return said, process.stdout.read().decode(), process.wait()


class Play:
    """A command that reports progress: its words and files, in the order in which it reads them; what it writes, and its
    status; the other lines than those of its rounds and of what it reads; how often all vertices fire, and how many of
    these firings it begins with."""

    numbers = re.compile("([0-9]+) rounds, ([0-9]+) firings")

    def __init__(self, words, files, output, others=(), firings=0, given=0, status=0):
        self.words, self.files, self.outcome = words, files, (output, status)
        self.firings, self.given = firings, given
        self.others = [*(f"reading, {len(text)} bytes" for text in files.values()), *others]

    def wrong(self, program):
        """What is wrong with the lines, and with the outcome."""
        lines, *outcome = paced_run(program, self.words, self.files)
        found = [[*map(int, it.groups())] for it in map(self.numbers.fullmatch, lines) if it]
        others = [line for line, _ in itertools.groupby(lines) if not self.numbers.fullmatch(line)]
        wrong = [] if tuple(outcome) == self.outcome else [f"expected {self.outcome}, got {outcome}"]
        wrong += [] if others == self.others else [f"expected the lines {self.others}, got {others}"]
        return wrong + ([] if found and self.are_true(found) else [f"the numbers are {found}"])

    def are_true(self, found):
        """Whether rounds make at least one firing each beside those that the play begins with, and reach all firings."""
        is_well = all(0 <= rounds <= firings - self.given for rounds, firings in found) and found == sorted(found)
        rounds, firings = found[-1]
        return is_well and firings == self.firings and (rounds > 0) == (firings > self.given)


class Turns(Play):
    """`run` by one worker: its turns, and how many of the root's messages are not acknowledged yet."""

    numbers = re.compile("([0-9]+) turns of worker 0, the root's deficit is ([0-9]+)")

    def __init__(self, words, files, output, messages):
        super().__init__(f"{words} --workers 1", files, output)
        self.messages = messages

    def are_true(self, found):
        """Whether there are ever more turns, and never more messages than the root sends."""
        turns, deficits = zip(*found)
        return 0 < turns[0] and [*turns] == sorted({*turns}) and max(deficits) <= self.messages


class Claims(Play):
    """`judge` on a log, which is standard input: the number of each claim, and of all."""

    numbers = re.compile("claim ([0-9]+) of ([0-9]+)")

    def __init__(self, log, output, claims, status):
        super().__init__("judge -", {"graph": log}, output, status=status)
        self.claims = claims

    def are_true(self, found):
        return found == [[claim, self.claims] for claim in range(1, self.claims + 1)]


def rows(name, *numbers):
    return f"vertex,{name}\n" + "".join(f"{vertex},{number}\n" for vertex, number in numbers)


ON_PAIR = {"graph": graph_of(PAIR, 3), "chips": rows("chips", (0, 4))}
ON_PAIRS = {"graph": graph_of(PAIRS, 5), "chips": rows("chips", (0, 4), (4, 11))}
ON_LEAKING = {"graph": graph_of(LEAKING, 3), "chips": rows("chips", (0, 5))}
NO_CHIPS = {"graph": graph_of(PAIR, 3), "chips": rows("chips")}
END, END_OF_PAIRS = report_of([1, 0, 3], [2, 1, 0]), report_of([1, 0, 0, 0, 14], [2, 1, 0, 0, 0])
READ, READ_PAIRS, READ_LEAKING = (f"read {it} edges" for it in ("3 vertices, 4", "5 vertices, 8", "3 vertices, 3"))


def writing(text):
    return f"writing {len(text)} bytes"


def plays():
    """Plays from the start, by name."""
    yield "plain", Play("plain - chips", ON_PAIR, END, [READ, writing(END)], 3)
    first = report_of([2, 1, 1], [1, 0, 0], [0])
    yield "plain, stopped by its limit", Play("plain - chips --limit 1", ON_PAIR, first, [READ, writing(first)], 1, 0, 2)
    second, files = report_of([1, 0, 3], [1, 1, 0], prior=[1, 0, 0]), {"graph": ON_PAIR["graph"], "report": first}
    yield "resume", Play("resume - report", files, second, [READ, writing(second)], 2)
    # (chips on the sink: nothing fires)
    files, row = {**ON_PAIR, "drops": rows("chips", (2, 100))}, "vertex,chips,size,extent,lost\n2,100,0,0,0\n"
    lines = [READ, writing(report_of([1, 0, 103], [2, 1, 0]))]
    yield "avalanches", Play("avalanches - chips drops --report report", files, row, lines, 3)
    yield "run", Turns("run - chips", ON_PAIRS, END_OF_PAIRS, 2)
    yield "run, dealt out", Turns("run - chips --dealt", ON_PAIRS, END_OF_PAIRS, 2)
    steps = ["0,active", "0,over", "0,passive", "1,over", "0,tell", "1,hear", "1,over"]
    log = "".join(f"{row}\n" for row in ["process,kind,channel", *(f"{step},0" for step in steps)])
    lines = ["over 0 1 early: process 0 is active", "over 1 0 early: process 0 is active", "over 1 2 right", "end claimed"]
    yield "judge", Claims(log, "".join(f"{line}\n" for line in lines), 3, 2)
    yield "run, fed", Turns("run - chips --feed feed", {**NO_CHIPS, "feed": rows("chips", (0, 4), (2, 0))}, END, 2)


def guesses():
    """Plays that begin with counts, by name. Those of a firing sequence are used as they are."""

    def guess(files, counts, use, end, *others):
        name, files = "plain - chips --guess guess", {**files, "guess": rows("fired", *enumerate(counts))}
        return Play(name, files, end, [READ if len(counts) < 5 else READ_PAIRS, f"guess {use}", writing(end)], *others)

    def verify(files, report, lines, *others, output="verified\n"):
        return Play("verify - chips report", {**files, "report": report}, output, lines, *others)

    yield "the true counts", guess(ON_PAIR, [2, 1], "certified", END, 3, 3)
    yield "a firing", guess(ON_PAIR, [1, 0], "played on", END, 3, 1)
    # (of the first pair the counts are true, and on the other one there is no chip: that half is lowered to nothing)
    half = [2, 1, 1, 1, 0]
    yield "a half is used", guess(ON_PAIRS, half, "lowered", END_OF_PAIRS, 3, 3)
    lines = [READ_PAIRS, "guess lowered", "chipfire: fault 53 Differs 2"]
    yield "verify uses a half", verify(ON_PAIRS, report_of([1, 0, 0, 0, 14], half), lines, 3, 3, 1, output="")
    yield "no chip lies", guess(NO_CHIPS, [1, 1], "dropped", report_of([0, 0, 0], [0, 0, 0]))
    yield "verify", verify(ON_PAIR, END, [READ, "guess certified"], 3, 3)
    lines = [READ_LEAKING, "guess dropped"]
    yield "verify plays from the start", verify(ON_LEAKING, report_of([0, 0, 5], [1, 0, 0]), lines, 1)


def faults_of(program):
    """What is wrong with the plays, which are made side by side, since each waits for seconds."""
    names, made = zip(*plays(), *guesses())
    with concurrent.futures.ThreadPoolExecutor(len(made)) as threads:
        wrong = threads.map(lambda play: play.wrong(program), made)
        return [f"{name}: {fault}" for name, faults in zip(names, wrong) for fault in faults]


def tests(program):
    yield "each line of progress", functools.partial(faults_of, program)
