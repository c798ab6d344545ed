"""The files of --report and --trace: not one that a standard stream goes into, and a report that is there whole or not.

The game is the triangle of examples/. Four chips on vertex 0 end at 1, 0 and 3, and one more on vertex 0 fires it once:
1 more chip on vertex 1 and on the sink.
"""
import functools
import os
import shutil
import signal
import stat
import subprocess
import tempfile
import threading
import unittest

from paths import EXAMPLES
from progress import ENDLESS as LONGEST
from progress import write_uphill

SECONDS = 60
DROPS = "vertex,chips\n0,1\n"
ROWS = b"vertex,chips,size,extent,lost\n0,1,1,1,1\n"
REPORT = b'{"chips":[0,1,4],"closed":true,"fired":[3,1,0],"over":[],"sealed":[],"version":1}\n'
OLD = b"what was there before, which is longer than what is written now, be that a report or the rows of a trace\n"
GAME = ["graph.json", "chips.csv"]
DROPPED = ["avalanches", *GAME, "drops.csv", "--report"]
RUN = ["run", *GAME, "--workers", "1", "--trace"]
# A row, and then a drop without an end, of the game that `write_uphill` writes.
ENDLESS = ["avalanches", "graph.json", "none.csv", "drops.csv", "--report"]
NOBODY = 65534


class Room:
    """A folder with the game, and a program to play it."""

    def __init__(self, program, folder):
        self.program, self.folder = program, folder
        for name in ("graph.json", "chips.csv"):
            shutil.copy(f"{EXAMPLES}/triangle/{name}", folder)
        self.write("drops.csv", DROPS.encode())
        self.before = set(os.listdir(folder))

    def path(self, name):
        return f"{self.folder}/{name}"

    def write(self, name, text, mode=0o644):
        with open(self.path(name), "wb") as file:
            file.write(text)
        os.chmod(self.path(name), mode)

    def read(self, name):
        with open(self.path(name), "rb") as file:
            return file.read()

    def start(self, words, **how):
        return subprocess.Popen([self.program, *words], cwd=self.folder, **{"stdout": -1, "stderr": -1} | how)

    def ran(self, words, **how):
        """The output of a run, its errors and its status."""
        with self.start(words, **how) as process:
            out, err = process.communicate(timeout=SECONDS)
        return out, err, process.returncode

    def more(self):
        """The files beside those of the game."""
        return sorted(set(os.listdir(self.folder)) - self.before)


def compared(*pairs):
    """What differs of pairs of what came and what must come."""
    return [f"expected {wanted}, got {came}" for came, wanted in pairs if came != wanted]


def fault(text):
    return b"", f"chipfire: fault {text}\n".encode(), 1


def used(room, words, stream, name):
    """A file that a standard stream goes into is refused and kept, by its own name or by another one."""
    room.write("same", OLD)
    os.link(room.path("same"), room.path("hard"))
    os.symlink("same", room.path("soft"))
    with open(room.path("same"), "r+b") as file:
        out, err, status = room.ran([*words, name], **{stream: file})
    number = len(words)
    said = f"chipfire: fault 92 Open {number}\n".encode()
    if stream == "stderr":
        return compared((out, b""), (status, 1), (room.read("same"), said + OLD[len(said) :]))
    return compared((err, said), (status, 1), (room.read("same"), OLD))


def replaced(room):
    """A report takes the place of a file, whose mode it keeps, and nothing is left beside."""
    room.write("report.json", OLD, 0o640)
    came = room.ran([*DROPPED, "report.json"])
    mode = stat.S_IMODE(os.stat(room.path("report.json")).st_mode)
    return compared((came, (ROWS, b"", 0)), (room.read("report.json"), REPORT), (mode, 0o640), (room.more(), ["report.json"]))


def made(room):
    """A report where there was none has the mode of any new file."""
    came = room.ran([*DROPPED, "report.json"], umask=0o027)
    mode = stat.S_IMODE(os.stat(room.path("report.json")).st_mode)
    return compared((came, (ROWS, b"", 0)), (room.read("report.json"), REPORT), (mode, 0o640), (room.more(), ["report.json"]))


def kept(room):
    """After a fault the old report is still there, and nothing is beside it; where there was none there is none."""
    room.write("report.json", OLD, 0o600)
    room.write("drops.csv", b"vertex,chips\n7,1\n")
    first = room.ran([*DROPPED, "report.json"])
    second = room.ran([*DROPPED, "other.json"])
    wanted = fault("26 Vertex 0")
    mode = stat.S_IMODE(os.stat(room.path("report.json")).st_mode)
    found = compared((first, wanted), (second, wanted), (room.read("report.json"), OLD), (mode, 0o600))
    return found + compared((room.more(), ["report.json"]))


def cut(room):
    """Rows that cannot be written leave the old report."""
    room.write("report.json", OLD)
    with open("/dev/full", "wb") as full:
        _, err, status = room.ran([*DROPPED, "report.json"], stdout=full)
    wanted = b"chipfire: fault 93 Write 0\n", 1
    return compared(((err, status), wanted), (room.read("report.json"), OLD), (room.more(), ["report.json"]))


def stopped(room, name, left, begun):
    """What is wrong where each signal stops the program while it plays. `name` is the file of the report, `left` what has
    to be in the folder after that, and `begun` what the program prints before the long drop."""
    found = []
    for number in (signal.SIGINT, signal.SIGTERM, signal.SIGKILL):
        process = room.start([*ENDLESS, name], stderr=subprocess.DEVNULL, preexec_fn=hear_signals)
        with process:
            came = process.stdout.read(len(begun))
            process.send_signal(number)
            process.stdout.read()
        found += compared((came, begun), (process.returncode, -number), (room.more(), left))
    return found


def hear_signals():
    """Has SIGINT end the process. A shell has it ignored by what it starts in the background."""
    signal.signal(signal.SIGINT, signal.SIG_DFL)


def interrupted(room):
    """A program that is stopped while it plays leaves what was there: the old report, or none, and nothing beside."""
    write_uphill(room.folder, LONGEST)
    room.write("report.json", OLD, 0o640)
    room.write("there", OLD)
    os.link(room.path("there"), room.path("hard"))
    os.symlink("there", room.path("soft"))
    os.symlink("nowhere", room.path("dangling"))
    room.before, left = room.before | {"none.csv"}, ["dangling", "hard", "report.json", "soft", "there"]
    rows = b"vertex,chips,size,extent,lost\n%d,1,0,0,0\n" % LONGEST
    found = []
    for name in ["report.json", "new.json", "hard", "soft", "dangling", "n" * 250]:
        found += stopped(room, name, left, rows)
    return found + compared((room.read("report.json"), OLD), (room.read("there"), OLD))


def grouped(room):
    """A report is written in the place of a file of another group, which keeps that."""
    room.write("report.json", OLD, 0o640)
    groups = [group for group in (NOBODY, *os.getgroups()) if group != os.stat(room.path("report.json")).st_gid]
    try:
        os.chown(room.path("report.json"), -1, groups[0])
    except (PermissionError, IndexError):
        raise unittest.SkipTest("no file can be given to another group here") from None
    before = os.stat(room.path("report.json"))
    came = room.ran([*DROPPED, "report.json"])
    after = os.stat(room.path("report.json"))
    found = compared((came, (ROWS, b"", 0)), (room.read("report.json"), REPORT), (room.more(), ["report.json"]))
    owned = [(it.st_ino, it.st_uid, it.st_gid, it.st_mode) for it in (after, before)]
    return found + compared(tuple(owned))


def linked(room):
    """A link stays one: the report goes into what it names, also through a second name of it, and into a new file."""
    room.write("there", OLD)
    os.link(room.path("there"), room.path("hard"))
    os.symlink("there", room.path("soft"))
    os.symlink("new", room.path("dangling"))
    found = []
    for name, target in [("hard", "there"), ("soft", "there"), ("dangling", "new")]:
        came = room.ran([*DROPPED, name])
        found += compared((came, (ROWS, b"", 0)), (room.read(target), REPORT))
        room.write("there", OLD)
    are_links = [os.path.islink(room.path(name)) for name in ("soft", "dangling")]
    same = os.path.samefile(room.path("hard"), room.path("there"))
    more = ["dangling", "hard", "new", "soft", "there"]
    return found + compared((are_links, [True, True]), (same, True), (room.more(), more))


def piped(room):
    """A pipe gets the report, be it one with a name or standard output, which has the rows before it."""
    os.mkfifo(room.path("pipe"))
    read = []
    thread = threading.Thread(target=lambda: read.append(room.read("pipe")), daemon=True)
    thread.start()
    came = room.ran([*DROPPED, "pipe"])
    thread.join(SECONDS)
    found = compared((came, (ROWS, b"", 0)), (read, [REPORT]), (room.more(), ["pipe"]))
    return found + compared((room.ran([*DROPPED, "/dev/stdout"]), (ROWS + REPORT, b"", 0)))


def full(room):
    """A device that takes nothing is reported without a number, since the rows are out."""
    wanted = ROWS, b"chipfire: fault 93 Write\n", 1
    return compared((room.ran([*DROPPED, "/dev/full"]), wanted), (room.more(), []))


def nowhere(room):
    """What is no place for a file is refused before anything is read, and so is a file that may not be written."""
    os.mkdir(room.path("folder"))
    found = []
    os.remove(room.path("drops.csv"))
    os.mkfifo(room.path("drops.csv"))
    # (held open, so that opening the pipe does not wait; who reads it waits for ever)
    for name in ["", "folder", "folder/", "missing/report.json", "graph.json/report.json", "x" * 300]:
        with open(os.open(room.path("drops.csv"), os.O_RDWR), "wb"):
            found += compared((room.ran([*DROPPED, name]), fault("92 Open 5")))
    return found + compared((room.more(), ["folder"]))


def closed_folder(room):
    """In a folder that cannot be written a report goes into the file that is there, and a new one is refused."""
    program = shutil.copy(room.program, room.folder)
    room.write("report.json", OLD, 0o666)
    room.write("read-only.json", OLD, 0o444)
    os.chmod(room.folder, 0o555)
    words = [program, *DROPPED]
    how = {"cwd": room.folder, "capture_output": True, "timeout": SECONDS}
    if os.geteuid() == 0:
        how |= {"user": NOBODY, "group": NOBODY, "extra_groups": []}
    came = [subprocess.run([*words, name], **how) for name in ("report.json", "new.json", "read-only.json")]
    os.chmod(room.folder, 0o755)
    wanted = [(ROWS, b"", 0), fault("92 Open 5"), fault("92 Open 5")]
    found = compared(([(it.stdout, it.stderr, it.returncode) for it in came], wanted))
    return found + compared((room.read("report.json"), REPORT), (room.read("read-only.json"), OLD))


def mounted(room):
    """A file on which another one is mounted cannot be renamed over, and gets the bytes."""
    room.write("report.json", OLD)
    room.write("other", OLD)
    mount = f"mount --bind {room.path('other')} report.json && exec {room.program} {' '.join(DROPPED)} report.json"
    ran = subprocess.run(["unshare", "-m", "sh", "-c", mount], cwd=room.folder, capture_output=True, timeout=SECONDS)
    if ran.returncode != 0 and b"chipfire: fault" not in ran.stderr:
        raise unittest.SkipTest("no file can be mounted on another one here")
    came = ran.stdout, ran.stderr, ran.returncode
    return compared((came, (ROWS, b"", 0)), (room.read("other"), REPORT), (room.more(), ["other", "report.json"]))


def faults_of(program, test, *more):
    """What a test finds wrong, which takes a `Room`."""
    with tempfile.TemporaryDirectory(prefix="chipfire-written-") as folder:
        return test(Room(program, folder), *more)


def tests(program):
    for test in (replaced, made, kept, cut, interrupted, grouped, linked, piped, full, nowhere, closed_folder, mounted):
        yield test.__name__, functools.partial(faults_of, program, test)
    for words in (DROPPED, RUN):
        for stream in ("stdout", "stderr"):
            for name in ("same", "hard", "soft", f"/dev/{stream}"):
                named = f"{words[0]} into {name}, which is its {stream}"
                yield named, functools.partial(faults_of, program, used, words, stream, name)
