"""Logs of distributed programs, drawn at random, and what `judge` says of them.

What must come is known from the definitions alone, by all consistent cuts: a cut is a number of rows of each process, and is
consistent if it can be reached from the empty one row by row, each met where it stands. The logs are small; some have a
row lost, doubled or moved, or their rows in another order. A second run has the rows of the processes mixed in another
way, and must write the same. Of a log in no order, a terminal also gets where the waits lead.
"""
import subprocess
import tempfile
from collections import Counter

import listed
import terminal

LOGS = 1000
BASIC = {"send": 1, "receive": -1}
CONTROL = {"tell": 1, "hear": -1}
NAMES = {31: "End", 32: "Passive", 33: "Woken", 34: "Absent", 70: "Stuck"}
SECONDS = 60


class Fault(Exception):
    """A row with a fault: its number and place."""


def stream(kind, channel):
    return (kind in CONTROL, channel)


def delta(kind):
    return BASIC.get(kind, 0) or CONTROL.get(kind, 0)


def row_faults(rows):
    """Raises the first fault of a row in the file's order: 31, 32, 33."""
    ends, active = {}, {}
    for at, (process, kind, channel) in enumerate(rows):
        if delta(kind):
            end = (stream(kind, channel), delta(kind))
            if ends.setdefault(end, process) != process:
                raise Fault(31, at)
        if kind == "send" and not active.get(process, False):
            raise Fault(32, at)
        if kind == "active" and process in active:
            raise Fault(33, at)
        active[process] = kind in ("active", "receive") or active.get(process, False) and kind != "passive"


class Log:
    def __init__(self, rows):
        self.processes = sorted({process for process, _, _ in rows})
        self.steps = {p: [(kind, channel) for q, kind, channel in rows if q == p] for p in self.processes}
        self.begun = {p: self.steps[p][0][0] == "active" for p in self.processes}
        self.empty, self.whole = tuple(0 for _ in self.processes), tuple(len(self.steps[p]) for p in self.processes)

    def flight(self, cut):
        """How many messages of each stream are in transit."""
        flight = Counter()
        for p, count in zip(self.processes, cut):
            for kind, channel in self.steps[p][:count]:
                if delta(kind):
                    flight[stream(kind, channel)] += delta(kind)
        return flight

    def got(self, cut, channel):
        return sum(self.steps[p][:count].count(("receive", channel)) for p, count in zip(self.processes, cut))

    def active(self, cut):
        """The processes that are active, ascending."""
        found = []
        for p, count in zip(self.processes, cut):
            now = self.begun[p]
            for kind, _ in self.steps[p][:count]:
                now = kind == "receive" or now and kind != "passive"
            if now:
                found.append(p)
        return found

    def left(self, cut):
        """What is left after this cut: the least message of the least channel in transit, or the least active process."""
        ways = sorted(channel for (control, channel), count in self.flight(cut).items() if count and not control)
        if ways:
            return f"message {self.got(cut, ways[0])} of channel {ways[0]} is on its way"
        active = self.active(cut)
        return f"process {active[0]} is active" if active else None

    def nexts(self, cut):
        """The cuts with one row more, which is enabled."""
        flight = self.flight(cut)
        for at, (p, count) in enumerate(zip(self.processes, cut)):
            if count < len(self.steps[p]):
                kind, channel = self.steps[p][count]
                if delta(kind) >= 0 or flight[stream(kind, channel)] > 0:
                    yield at, cut[:at] + (count + 1,) + cut[at + 1:]

    def expect(self, processes):
        """Raises the fault of a log in which one of the first processes has no row."""
        for p in range(processes):
            if p not in self.steps:
                raise Fault(34, p)

    def reached(self, furthest):
        """Raises the fault of a log whose maximal progress is this cut, where that is not the whole."""
        for p, count in zip(self.processes, furthest):
            if count < len(self.steps[p]):
                raise Fault(70, p, count)

    def cuts(self, begin):
        """The cuts that can be reached from this one."""
        seen, todo = {begin}, [begin]
        while todo:
            for _, cut in self.nexts(todo.pop()):
                if cut not in seen:
                    seen.add(cut)
                    todo.append(cut)
        return seen


def last_line(log, right):
    """The last line, by the number of right claims."""
    left = log.left(log.whole)
    if right or left:
        return "end claimed" if right else f"end open: {left}"
    return "end unclaimed" if any(log.flight(log.whole).values()) else "end missed"


def lines_of(log, least_of, with_past, first=False):
    """The lines and the status; `least_of` finds the least cut before a claim, of a process at a place and its row. With
    `first` those of the first early claim alone, if there is one."""
    lines, early, right = [], 0, 0
    for at, p in enumerate(log.processes):
        for row in [it for it, (kind, _) in enumerate(log.steps[p]) if kind == "over"]:
            least = least_of(at, row)
            left = log.left(least)
            own = [f"over {p} {row} " + (f"early: {left}" if left else "right")]
            early, right = early + bool(left), right + (not left)
            if left and with_past:
                own += [f"past {q} {count}" for q, count in zip(log.processes, least) if count]
            if left and first:
                return [*own, "end early"], 2
            lines += own
    lines.append(last_line(log, right))
    if early:
        return lines, 2
    return lines, 0 if right else 3


def judged(log, with_past, first=False, processes=0):
    """The lines and the status by all cuts, or the fault that is raised."""
    log.expect(processes)
    cuts = log.cuts(log.empty)
    furthest = max(cuts, key=sum)
    assert all(all(map(int.__ge__, furthest, cut)) for cut in cuts)
    log.reached(furthest)

    # (where the whole can be reached, it can be reached from each cut that can)
    def least_of(at, row):
        moments = [cut for cut in cuts if cut[at] == row and any(q == at for q, _ in log.nexts(cut))]
        least = tuple(map(min, *moments)) if len(moments) > 1 else moments[0]
        assert least in moments
        later = log.cuts(least[:at] + (row + 1,) + least[at + 1:])
        assert bool(log.left(least)) == any(log.left(cut) for cut in [*moments, *later])
        return least

    return lines_of(log, least_of, with_past, first)


def furthest_of(rows):
    """A log, and the cut at its maximal progress."""
    log = Log(rows)
    return log, max(log.cuts(log.empty), key=sum)


def waits_of(log, furthest):
    """The words on the waits from the least process with a row left at this cut. A process waits for the one that sends on
    the stream of its next row."""
    made = dict(zip(log.processes, furthest))
    left = {p: log.steps[p][made[p]] for p in log.processes if made[p] < len(log.steps[p])}
    senders = {stream(*step): p for p in log.processes for step in log.steps[p] if delta(step[0]) > 0}
    way = [min(left)]
    while (sender := senders.get(stream(*left[way[-1]]))) in left and sender not in way:
        way.append(sender)
    last = way[-1]
    if sender in way:
        waits, last = way.index(sender), sender
        names = ", ".join(map(str, way[waits:]))
        end = f"{'; ' * (waits > 0)}each of these waits for the next, and the last for the first: {names}"
    else:
        waits, (kind, channel) = len(way) - 1, left[last]
        got = log.steps[last][:made[last]].count((kind, channel))
        message = f"{'control ' * (kind in CONTROL)}message {got} of channel {channel}"
        nobody = "no process sends there" if sender is None else f"process {sender}, which sends there, has no row left"
        end = f"{', which' if waits else 'it'} waits at its row {made[last]} for {message}, and {nobody}"
    return f"from there {waits} wait{'s' * (waits > 1)} lead{'s' * (waits == 1)} to process {last}" * (waits > 0) + end


def random_log(draw, most=9, slips=0.05):
    """A log of up to `most` rows and an `active` of each of up to four processes. A share `slips` of the rows may be
    wrong."""
    processes = draw.randint(1, 4)
    rows = [(p, "active", 0) for p in range(processes) if draw.random() < 0.5]
    active = {p: True for p, _, _ in rows}
    flight, ends = Counter(), {}
    for _ in range(draw.randint(0, most)):
        p, channel = draw.randrange(processes), draw.randrange(3)
        kind = draw.choice(["send", "send", "receive", "receive", "tell", "hear", "passive", "over"])
        if draw.random() >= slips:
            end = (stream(kind, channel), delta(kind))
            if kind == "send" and not active.get(p) or delta(kind) < 0 and not flight[stream(kind, channel)]:
                continue
            if delta(kind) and ends.setdefault(end, p) != p:
                continue
        rows.append((p, kind, channel))
        flight[stream(kind, channel)] += delta(kind)
        active[p] = kind == "receive" or active.get(p, False) and kind != "passive"
    spoilt = draw.random()
    if rows and spoilt < 0.1:
        rows.pop(draw.randrange(len(rows)))
    elif rows and spoilt < 0.2:
        rows.insert(draw.randrange(len(rows)), draw.choice(rows))
    elif spoilt < 0.3:
        draw.shuffle(rows)
    return rows


def mixed(draw, rows):
    """The rows of each process in their order, and the processes mixed in another way."""
    owners = [p for p, _, _ in rows]
    draw.shuffle(owners)
    each = {p: iter([row for row in rows if row[0] == p]) for p in owners}
    return [next(each[p]) for p in owners]


def verdict(program, room, rows, with_past, first=False, processes=0):
    """What the program writes of a log: the lines, the status and the line of its fault."""
    with open(f"{room}/log.csv", "w", encoding="ascii") as file:
        file.write("process,kind,channel\n" + "".join(f"{p},{kind},{channel}\n" for p, kind, channel in rows))
    words = [program, "judge", f"{room}/log.csv", *["--past"] * with_past, *["--first"] * first]
    words += [f"--processes={processes}"] * (processes > 0)
    ran = subprocess.run(words, capture_output=True, text=True, timeout=SECONDS)
    return ran.stdout.splitlines(), ran.returncode, ran.stderr


def expected(rows, with_past, first=False, processes=0):
    """What it must write."""
    try:
        row_faults(rows)
        return *judged(Log(rows), with_past, first, processes), ""
    except Fault as fault:
        number, *place = fault.args
        return [], 1, f"chipfire: fault {number} {NAMES[number]} {' '.join(map(str, place))}\n"


def faults_of(draw, program):
    """What is wrong with the verdicts on a random log, and on the same rows mixed in another way."""
    rows = random_log(draw)
    options = draw.random() < 0.5, draw.random() < 0.3, draw.choice([0, 0, 0, 1, 2, 3, 4, 5])
    faults = []
    with tempfile.TemporaryDirectory(prefix="chipfire-log-") as room:
        for them in (rows, mixed(draw, rows)):
            must, came = expected(them, *options), verdict(program, room, them, *options)
            if must != came:
                faults.append(f"{them} with {options}: expected {must}, came {came}")
    if " 70 " in must[2]:
        place = must[2].partition("Stuck ")[2].strip()
        waits = waits_of(*furthest_of(rows))
        faults += terminal.wrong_waits(program, [f"{p},{kind},{channel}" for p, kind, channel in rows], place, waits)
    return faults


def tests(program):
    return listed.drawn(LOGS, "log", faults_of, program)
