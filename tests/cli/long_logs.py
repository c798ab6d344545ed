"""Long logs, whose verdicts are known by hand: as many rows as a file has room for, and logs on which a judge is slow that
visits rows again and again.

A time is the program's own on a processor. It is compared with the time for another log of as many rows, judged in the
same run: for a judge that is linear in the rows both take about as long, whatever the machine and what else runs there.
"""
import functools
import resource
import subprocess
import tempfile

SECONDS = 120
# How often the other's time a log may take, and how many seconds more.
TIMES, MORE = 10, 1
HEADER = "process,kind,channel\n"
MOST_BYTES = 16_777_216
CLAIMS = PROCESSES = 2**17


def claims(count):
    """The rows of a process that claims so often and is active at no time: each claim is right."""
    return ["0,over,0\n"] * count


def one_claim(count):
    """As many rows, of which only the last one is a claim."""
    return ["0,passive,0\n"] * (count - 1) + claims(1)


def all_right(count):
    """The verdicts on `count` right claims of process 0, its first rows, and the status."""
    return "".join(f"over 0 {row} right\n" for row in range(count)) + "end claimed\n", "", 0


def largest_log():
    """A log of as many bytes as there may be, each row of which is a claim: its rows, and how many these are."""
    count, longer = divmod(MOST_BYTES - len(HEADER), len(claims(1)[0]))
    return claims(count - longer) + ["0,over,10\n"] * longer, count


def control_ring(count):
    """The rows of each of `count` processes, which pass a control message on until process 0 hears it and claims."""
    yield ["0,tell,0\n", f"0,hear,{count - 1}\n", *claims(1)]
    for process in range(1, count):
        yield [f"{process},hear,{process - 1}\n", f"{process},tell,{process}\n"]


def basic_ring(count):
    """The same by a basic message. Of process 1 it is not known, when process 0 claims, that it is passive again."""
    yield ["0,active,0\n", "0,send,0\n", f"0,receive,{count - 1}\n", "0,passive,0\n", *claims(1)]
    for process in range(1, count):
        yield [f"{process},receive,{process - 1}\n", f"{process},send,{process}\n", f"{process},passive,0\n"]


RINGS = {
    "control": (control_ring, ("over 0 2 right\nend claimed\n", "", 0)),
    "basic": (basic_ring, ("over 0 4 early: process 1 is active\nend missed\n", "", 2)),
}


def joined(parts):
    return [row for part in parts for row in part]


class Judge:
    """The program, and a folder for the logs that it judges."""

    def __init__(self, program, folder):
        self.program, self.folder = program, folder

    def judged(self, rows, wanted, *words):
        """Judges a log: what is wrong with the verdicts, and the seconds on a processor."""
        with open(f"{self.folder}/log.csv", "w", encoding="ascii") as file:
            file.write(HEADER + "".join(rows))
        before = resource.getrusage(resource.RUSAGE_CHILDREN)
        how = {"capture_output": True, "text": True, "cwd": self.folder, "timeout": SECONDS}
        try:
            ran = subprocess.run([self.program, "judge", "log.csv", *words], **how)
        except subprocess.TimeoutExpired:
            return [f"it had not ended after {SECONDS} seconds"], 0
        after = resource.getrusage(resource.RUSAGE_CHILDREN)
        seconds = after.ru_utime + after.ru_stime - before.ru_utime - before.ru_stime
        came = ran.stdout, ran.stderr, ran.returncode
        if came == wanted:
            return [], seconds
        short = [(out[:80], len(out), err[:200], status) for out, err, status in (wanted, came)]
        return ["expected {}, got {}".format(*short)], seconds

    def compared(self, rows, wanted, others, wanted_of_others):
        """What is wrong with the verdicts on a log, or with their time beside that for other rows."""
        base_faults, base = self.judged(others, wanted_of_others, "--large")
        faults, seconds = self.judged(rows, wanted, "--large")
        if seconds > TIMES * base + MORE:
            faults.append(f"it took {seconds:.3f} seconds on a processor, and the others {base:.3f}")
        return base_faults + faults


def most_claims(judge):
    """What is wrong with the largest log, each row of which is a claim."""
    rows, count = largest_log()
    assert len(HEADER) + sum(map(len, rows)) == MOST_BYTES and count > 2**20
    return judge.judged(rows, all_right(count))[0]


def many_claims(judge):
    """What is wrong with a log of claims beside one of as many rows with one claim."""
    other = (f"over 0 {CLAIMS - 1} right\nend claimed\n", "", 0)
    return judge.compared(claims(CLAIMS), all_right(CLAIMS), one_claim(CLAIMS), other)


def turned(judge, ring, wanted):
    """What is wrong with a ring whose last process stands first, beside the same in its order."""
    parts = [*ring(PROCESSES)]
    return judge.compared(joined(reversed(parts)), wanted, joined(parts), wanted)


def faults_of(program, test, *more):
    """What a test finds wrong, which takes a `Judge`."""
    with tempfile.TemporaryDirectory(prefix="chipfire-long-") as folder:
        return test(Judge(program, folder), *more)


def tests(program):
    yield "as many claims as there may be", functools.partial(faults_of, program, most_claims)
    yield f"{CLAIMS} claims", functools.partial(faults_of, program, many_claims)
    for name, ring in RINGS.items():
        name = f"a ring of {name} messages, the last process first"
        yield name, functools.partial(faults_of, program, turned, *ring)
