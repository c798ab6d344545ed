"""Detectors of the end on threads, right and wrong ones: their logs, and what `judge` says of them.

A process is a thread with a mailbox. It works on tasks, sends others more of them, and writes its rows as
docs/tasks/judge-a-log.md asks. Process 0 begins. No claim of a right detector may be called early, and of each wrong
one at least one must be. A claim that was made while a task was open must be called early.
"""
import fractions
import functools
import queue
import random
import sys
import tempfile
import threading
import time

import logs

RUNS = 100
PROCESSES, ROOT, GENERATIONS = 5, 0, 30
#: How many tasks come of the first one, and of each other.
FIRST, OTHERS = 3, [0, 1, 1, 2]
#: How many times as often a wrong detector is run at most, where none of its claims was called early before.
MORE = 10
SECONDS = 60
STOP = None


class Process(threading.Thread):
    """One process: `rows` is its log, and `tasks` are those it has, each the generations that may follow."""

    def __init__(self, run, number, detector):
        super().__init__(daemon=True)
        self.run_of, self.number, self.draw = run, number, random.Random(f"{run.seed} {number}")
        self.mail, self.rows, self.tasks = queue.SimpleQueue(), [], []
        self.detector = detector(self)

    def row(self, kind, tail=0, head=0):
        self.rows.append((self.number, kind, PROCESSES * tail + head))

    def pause(self):
        """Lets other threads go first, now and then."""
        if self.draw.random() < 0.3:
            time.sleep(self.draw.choice([0, 0, 1e-4]))

    def post(self, kind, to, *message):
        """Writes a row and sends what it is of."""
        self.row(kind, self.number, to)
        self.pause()
        self.run_of.processes[to].mail.put((kind, self.number, *message))
        self.pause()

    def tell(self, to, news=None):
        self.post("tell", to, news)

    def claim(self):
        """Claims that all is over, once."""
        if not self.run_of.is_over:
            self.row("over")
            self.run_of.claimed()

    def take(self, kind, tail, *message):
        """Takes a message from the mailbox."""
        self.row({"send": "receive", "tell": "hear"}[kind], tail, self.number)
        if kind == "send":
            task, note = message
            self.tasks.append(task)
            self.detector.got(tail, note)
        else:
            self.detector.heard(tail, *message)

    def work(self):
        """Works on a task."""
        task = self.tasks[-1]
        count = 0
        if task:
            count = FIRST if task == GENERATIONS else self.draw.choice(OTHERS)
        for _ in range(count):
            to = self.draw.choice([it for it in range(PROCESSES) if it != self.number])
            self.run_of.count(1)
            self.post("send", to, task - 1, self.detector.sent())
        self.tasks.pop()
        self.run_of.count(-1)
        if not self.tasks:
            self.row("passive")
            self.detector.rest()

    def run(self):
        if self.number == ROOT:
            self.row("active")
            self.tasks.append(GENERATIONS)
        while True:
            self.pause()
            if self.tasks and (self.mail.empty() or self.draw.random() < 0.3):
                self.work()
            elif (message := self.mail.get()) is STOP:
                return
            else:
                self.take(*message)


class Run:
    """A run of a detector; `open` tasks are in a mailbox, or a process has them."""

    def __init__(self, detector, seed):
        self.seed, self.lock, self.open, self.is_over, self.is_early = seed, threading.Lock(), 1, False, False
        self.processes = [Process(self, number, detector) for number in range(PROCESSES)]
        for it in self.processes:
            it.start()
        for it in self.processes:
            it.join(SECONDS)

    def count(self, more):
        with self.lock:
            self.open += more

    def claimed(self):
        with self.lock:
            self.is_over, self.is_early = True, self.open > 0
        for it in self.processes:
            it.mail.put(STOP)

    def rows(self):
        return [row for it in self.processes for row in it.rows]


class Detector:
    """What a process does for a detector: when it sends a message, got one, heard news, and is passive."""

    def __init__(self, process):
        self.process, self.is_root = process, process.number == ROOT


class DijkstraScholten(Detector):
    def __init__(self, process):
        super().__init__(process)
        self.parent, self.deficit = ROOT if self.is_root else None, 0

    def sent(self):
        self.deficit += 1

    def got(self, tail, _):
        if self.parent is None:
            self.parent = tail
        else:
            self.process.tell(tail)

    def heard(self, *_):
        self.deficit -= 1
        self.rest()

    def rest(self):
        if self.process.tasks or self.deficit > 0 or self.parent is None:
            return
        parent, self.parent = self.parent, None
        if self.is_root:
            self.process.claim()
        else:
            self.process.tell(parent)


class AtOnce(DijkstraScholten):
    """Acknowledges a message when it comes."""

    def got(self, tail, _):
        self.process.tell(tail)


class WithoutDeficit(DijkstraScholten):
    """Acknowledges when it is passive, whatever became of its own messages; the root alone counts."""

    def sent(self):
        self.deficit += self.is_root


class Safra(Detector):
    has_colours = True

    def __init__(self, process):
        super().__init__(process)
        self.count, self.is_black, self.token = 0, False, (0, True) if self.is_root else None

    def sent(self):
        self.count += 1

    def got(self, *_):
        self.count -= 1
        self.is_black = True

    def heard(self, _, token):
        self.token = token
        self.rest()

    def rest(self):
        if self.process.tasks or self.token is None:
            return
        total, is_black = self.token[0] + self.count, self.has_colours and (self.token[1] or self.is_black)
        self.token, self.is_black = None, False
        if self.is_root and total == 0 and not is_black:
            self.process.claim()
        else:
            self.process.tell((self.process.number - 1) % PROCESSES, (0, False) if self.is_root else (total, is_black))


class Colourless(Safra):
    has_colours = False


class Credit(Detector):
    def __init__(self, process):
        super().__init__(process)
        self.credit = fractions.Fraction(self.is_root)

    def sent(self):
        self.credit /= 2
        return self.credit

    def got(self, _, credit):
        self.credit += credit

    def heard(self, _, credit):
        self.credit += credit
        self.rest()

    def rest(self):
        if not self.process.tasks and self.is_root and self.credit == 1:
            self.process.claim()
        elif not self.process.tasks and not self.is_root:
            self.process.tell(ROOT, self.credit)
            self.credit = fractions.Fraction(0)


class CreditAtOnce(Credit):
    """Gives credit back when it comes, and sends without any."""

    def got(self, tail, credit):
        super().got(tail, credit)
        if not self.is_root:
            self.process.tell(ROOT, self.credit)
            self.credit = fractions.Fraction(0)


class CountedOnce(Detector):
    """Each reports to the root how many messages it sent less those it got, and the root adds what it heard last."""

    def __init__(self, process):
        super().__init__(process)
        self.count, self.known = 0, {}

    def sent(self):
        self.count += 1

    def got(self, *_):
        self.count -= 1

    def heard(self, tail, count):
        self.known[tail] = count
        self.rest()

    def rest(self):
        if not self.is_root:
            self.process.tell(ROOT, self.count)
        elif not self.process.tasks and self.count + sum(self.known.values()) == 0:
            self.process.claim()


RIGHT = [DijkstraScholten, Safra, Credit]
WRONG = [AtOnce, WithoutDeficit, Colourless, CreditAtOnce, CountedOnce]


def faults_of(verdict, run, is_right):
    """What is wrong with the verdict on the log of a run."""
    lines, status, fault = verdict
    forms = {0: ("right", "end claimed"), 2: ("early", "end ")}
    claim, end = forms.get(status, ("", ""))
    if fault or len(lines) != 2 or claim not in lines[0] or not lines[1].startswith(end):
        return [f"no verdict on one claim: {verdict} of {run.rows()}"]
    if status == 2 and is_right or status == 0 and run.is_early:
        return [f"{lines[0]}: {run.rows()}"]
    return []


def judged(program, detector):
    """Runs a detector and judges its logs. Returns what is wrong with the verdicts."""
    number, early, faults, is_right = 0, 0, [], detector in RIGHT
    with tempfile.TemporaryDirectory() as room:
        while number < RUNS or number < MORE * RUNS and early == 0 and not is_right:
            run = Run(detector, f"{detector.__name__} {number}")
            verdict = logs.verdict(program, room, run.rows(), False)
            number, early, faults = number + 1, early + (verdict[1] == 2), faults + faults_of(verdict, run, is_right)
    if early == 0 and not is_right:
        faults.append(f"of {number} claims none is called early")
    return faults


def judged_side_by_side(program, detector):
    """The same, where threads give way to each other more often than Python has them do."""
    interval = sys.getswitchinterval()
    sys.setswitchinterval(1e-5)
    try:
        return judged(program, detector)
    finally:
        sys.setswitchinterval(interval)


def tests(program):
    for detector in RIGHT + WRONG:
        yield detector.__name__, functools.partial(judged_side_by_side, program, detector)
