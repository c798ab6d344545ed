"""Long plays with `--progress`: lines on standard error, one a second at most, and all else as without it.

The game is a chain on which each vertex but the last sends two chips back for one that it sends on, so that each vertex
more doubles the firings: no counts are found for it that shorten the play. With 25 vertices it takes a few seconds, and
with 40 nobody waits for its end. And a heap on a lattice, for which counts are found, after many steps.
"""
import functools
import json
import math
import os
import re
import select
import subprocess
import tempfile
import time

SECONDS = 60
SHORT, LONG, ENDLESS = 5, 25, 40
# The heap of which it is guessed for many seconds how it ends: the side of its lattice, and its chips.
SIDE, HEAP = 801, 1_200_000
# How many bytes the first piece of an input has that is read slowly, and how many seconds later the rest comes.
FIRST, PAUSE = 7, 1.3
READ = b"chipfire: progress: reading, %d bytes\n"
ROUNDS = re.compile(rb"chipfire: progress: ([0-9]+) rounds, ([0-9]+) firings\n")
TURNS = re.compile(rb"chipfire: progress: ([0-9]+) turns of worker 0, the root's deficit is ([0-9]+)\n")
LINES = {"plain": ROUNDS, "resume": ROUNDS, "run": TURNS, "avalanches": ROUNDS}
# What a command plays beside the graph: `avalanches` drops a chip on the sink, and then the chips of the others.
STARTS = {
    "plain": ["chips.csv"],
    "resume": ["report.json"],
    "run": ["chips.csv"],
    "avalanches": ["none.csv", "drops.csv"],
}
# What a command is at where it makes no rounds or turns.
ON_ONE_THREAD = re.compile(
    rb"chipfire: progress: (reading, [0-9]+ bytes|read [0-9]+ vertices, [0-9]+ edges"
    rb"|guessing, [0-9]+ steps, this try is off by [0-9]+ chips|writing [0-9]+ bytes)\n"
)
OTHERWISE = {
    "plain": ON_ONE_THREAD,
    "resume": ON_ONE_THREAD,
    "avalanches": ON_ONE_THREAD,
    "run": re.compile(rb"chipfire: progress: reading, [0-9]+ bytes\n"),
}


def write_uphill(folder, length):
    """Writes the game of a chain with `length` vertices before its sink, its chips, and a report of no play."""
    edges = [[v, v + 1, 1] for v in range(length)] + [[v, v - 1, 2] for v in range(1, length)]
    with open(f"{folder}/graph.json", "w", encoding="utf-8") as file:
        json.dump({"edges": edges, "sink": length, "version": 1, "vertices": length + 1}, file)
    for name, rows in [("chips", "0,64\n"), ("none", ""), ("drops", f"{length},1\n0,64\n")]:
        with open(f"{folder}/{name}.csv", "w", encoding="utf-8") as file:
            file.write(f"vertex,chips\n{rows}")
    with open(f"{folder}/report.json", "w", encoding="utf-8") as file:
        chips, none = [64] + [0] * length, [0] * (length + 1)
        said = {"chips": chips, "closed": True, "fired": none, "over": [], "sealed": [], "version": 1}
        file.write(json.dumps(said, separators=(",", ":")) + "\n")


def write_heap(folder):
    """Writes the game of a heap on a square lattice with loss at its rim. The search of its counts takes seconds."""
    at = lambda row, column: row * SIDE + column if 0 <= row < SIDE > column >= 0 else SIDE * SIDE
    steps = [(1, 0), (-1, 0), (0, 1), (0, -1)]
    squares = [(row, column) for row in range(SIDE) for column in range(SIDE)]
    edges = [f"[{at(r, c)},{at(r + down, c + right)},1]" for r, c in squares for down, right in steps]
    with open(f"{folder}/graph.json", "w", encoding="utf-8") as file:
        sizes = f'"sink":{SIDE * SIDE},"version":1,"vertices":{SIDE * SIDE + 1}'
        file.write(f'{{"edges":[{",".join(edges)}],{sizes}}}')
    with open(f"{folder}/chips.csv", "w", encoding="utf-8") as file:
        file.write(f"vertex,chips\n{at(SIDE // 2, SIDE // 2)},{HEAP}\n")


def guessed(program):
    """What is wrong with the lines of a long search: in each kind of line only the numbers of one try may fall. (Lines
    of reading are left out: each file's bytes are counted from 0.)"""
    with tempfile.TemporaryDirectory(prefix="chipfire-progress-") as room:
        write_heap(room)
        words, lines = words_of(program, "plain", "--large", "--progress"), []
        with subprocess.Popen(words, stdout=subprocess.DEVNULL, stderr=subprocess.PIPE, bufsize=0, cwd=room) as process:
            until = time.monotonic() + SECONDS
            while sum(b"guessing" in line for line in lines) < 3 and (line := line_of(process, until)):
                lines.append(line)
            process.kill()
    kinds = {}
    for line in lines:
        if b"reading" in line:
            continue
        said = re.sub(rb"this try is off by [0-9]+ chips", b"", line)
        numbers = [int(number) for number in re.findall(rb"[0-9]+", said)]
        kinds.setdefault(re.sub(rb"[0-9]+", b"", said), []).append(numbers)
    if sum(b"guessing" in line for line in lines) < 3:
        return [f"these are no three lines of a search: {lines}"]
    falls = [rows for rows in kinds.values() if any(list(it) != sorted(it) for it in zip(*rows))]
    return [f"numbers fall: {falls}"] if falls else []


def words_of(program, command, *options):
    """The words that play such a game."""
    return [program, command, "graph.json", *STARTS[command], *options]


def line_of(process, until):
    """The next line on the standard error of a process, or what there is of it until some moment."""
    line = b""
    while not line.endswith(b"\n") and select.select([process.stderr], [], [], max(until - time.monotonic(), 0))[0]:
        some = process.stderr.read(1)
        if not some:
            break
        line += some
    return line


def wrong_lines(command, lines, seconds):
    """What is wrong with the lines of a command that ran for `seconds` at most."""
    rounds = [line for line in lines if not OTHERWISE[command].fullmatch(line)]
    found = [LINES[command].fullmatch(line) for line in rounds]
    if not all(found):
        return [f"these are no lines of {command}: {lines}"]
    if len(lines) > seconds:
        return [f"{len(lines)} lines in {seconds:.3f} seconds"]
    done = [int(it[1]) for it in found]
    return [] if done == sorted(set(done)) and all(done) else [f"what is done does not grow: {lines}"]


def goes_on(program, *words, output=b""):
    """What is wrong with the first two lines of a play without an end, and with its output until then."""
    with tempfile.TemporaryDirectory(prefix="chipfire-progress-") as room, tempfile.TemporaryFile() as out:
        write_uphill(room, ENDLESS)
        begun = time.monotonic()
        words = words_of(program, *words, "--progress")
        process = subprocess.Popen(words, stdout=out, stderr=subprocess.PIPE, bufsize=0, cwd=room)
        with process:
            lines = [line_of(process, begun + SECONDS) for _ in range(2)]
            seconds = time.monotonic() - begun
            process.kill()
        out.seek(0)
        written = out.read()
    return wrong_lines(words[1], lines, seconds) + ([f"it wrote {written!r}"] if written != output else [])


def same(program, *words):
    """What a long play that ends prints otherwise with the option than without it."""
    with tempfile.TemporaryDirectory(prefix="chipfire-progress-") as room:
        write_uphill(room, LONG)
        how = {"stdout": subprocess.PIPE, "stderr": subprocess.PIPE, "cwd": room, "timeout": SECONDS}
        words = words_of(program, *words)
        quiet = subprocess.run(words, **how)
        begun = time.monotonic()
        ran = subprocess.run([*words, "--progress"], **how)
        seconds = time.monotonic() - begun
    if not ran.stderr.endswith(quiet.stderr):
        return [f"expected {quiet.stderr!r} at the end of {ran.stderr!r}"]
    lines = ran.stderr[: len(ran.stderr) - len(quiet.stderr)].splitlines(keepends=True)
    wanted, came = (quiet.stdout, quiet.returncode), (ran.stdout, ran.returncode)
    return wrong_lines(words[1], lines, seconds) + ([] if came == wanted else [f"expected {wanted}, got {came}"])


def read_slowly(program, name, *words):
    """What a command does wrong whose input of this name comes in two pieces, more than a second apart."""
    with tempfile.TemporaryDirectory(prefix="chipfire-progress-") as room:
        write_uphill(room, SHORT)
        with open(f"{room}/{name}", "rb") as file:
            text = file.read()
        how = {"stdout": subprocess.PIPE, "stderr": subprocess.PIPE, "cwd": room}
        words = words_of(program, *words)
        quiet = subprocess.run(words, timeout=SECONDS, **how)
        os.remove(f"{room}/{name}")
        os.mkfifo(f"{room}/{name}")
        process = subprocess.Popen([*words, "--progress"], **how)
        with open(f"{room}/{name}", "wb", buffering=0) as pipe:
            pipe.write(text[:FIRST])
            time.sleep(PAUSE)
            pipe.write(text[FIRST:])
        out, lines = process.communicate(timeout=SECONDS)
    wrong = [] if (out, process.returncode) == (quiet.stdout, quiet.returncode) else [f"it wrote {out!r}"]
    # (a slow machine may tell of the first piece alone, and of what comes later)
    first, *others = lines.splitlines(keepends=True) or [b""]
    if first not in [READ % FIRST, READ % len(text)]:
        wrong.append(f"the first line is {first!r}")
    return wrong + wrong_lines(words[1], others, math.inf)


def tests(program):
    """Yields long games."""
    rows = b"vertex,chips,size,extent,lost\n%d,1,0,0,0\n" % ENDLESS
    turns = ["--workers", "1", "--turns", "3000000"]
    listed = [
        ("plain says that it reads a graph", read_slowly, "graph.json", "plain"),
        ("plain says that it reads chips", read_slowly, "chips.csv", "plain"),
        ("run says that it reads a graph", read_slowly, "graph.json", "run"),
        ("run says that it reads chips", read_slowly, "chips.csv", "run"),
        ("resume says that it reads a report", read_slowly, "report.json", "resume"),
        ("plain says how it goes on", goes_on, "plain"),
        ("resume says how it goes on", goes_on, "resume"),
        ("run says how it goes on", goes_on, "run"),
        ("run says how it goes on, one worker", goes_on, "run", "--workers", "1"),
        ("run says how it goes on, dealt out", goes_on, "run", "--dealt"),
        ("plain says how a search goes on", guessed),
        ("avalanches says how a drop goes on, after its rows", functools.partial(goes_on, output=rows), "avalanches"),
        ("a long play prints the same", same, "plain"),
        ("a long stage prints the same", same, "resume"),
        ("a long drop prints the same", same, "avalanches"),
        ("a play stopped by its limit prints the same", same, "plain", "--limit", "200000000"),
        ("a fault comes after the lines of progress", same, "run", *turns),
    ]
    for name, test, *words in listed:
        yield name, functools.partial(test, program, *words)
