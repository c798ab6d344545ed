"""What the program says of a fault at a terminal, tried in a pseudo-terminal: below the line of the fault it names the file
and the row, or what is wrong with the arguments; of a log in no order also where its waits lead. Where standard error is
no terminal there is that line alone. And standard input where it is closed, and where it is the file of a trace.
"""
import functools
import os
import pty
import subprocess
import tempfile

SECONDS = 60
# How many rows a long log has.
ROWS = 100_000
FILES = {
    "graph.json": '{"edges":[[0,1,1],[0,2,1],[1,0,1],[1,2,1]],"sink":2,"version":1,"vertices":3}',
    "far.json": '{"edges":[],"sink":1,"version":1,"vertices":2}',
    "chips.csv": "vertex,chips\n0,4\n",
    "none.csv": "vertex,chips\n",
    "words.csv": "vertex,chips\n0,4\n1,some\n",
    "short.csv": "vertex,chips\n0\n",
    "beyond.csv": "vertex,chips\n0,4\n1,2\n3,1\n",
    "twice.csv": "vertex,fired\n0,2\n1,1\n0,2\n",
    "early.csv": "event,at,count\ntake,4,0\nwait,0,0\n",
    "trace.csv": "vertex,kind,edge,count\n0,fire,0,1\n",
    "report.json": '{"chips":[4],"closed":true,"fired":[0],"over":[],"sealed":[],"version":1}\n',
    "played.json": '{"chips":[2,1,1],"closed":true,"fired":[1,0,0],"over":[],"sealed":[],"version":1}\n',
}
NUMBER = "fault 25 Number i: a field of row i is not a number"
# For each command the fault, and the lines below it, without the one that names `explain`.
BELOW = {
    "plain graph.json words.csv": ("25 Number 1", ["in words.csv: row 1, which is line 3 if no line is empty", NUMBER]),
    "plain words.csv chips.csv": ("20 NotJson", ["in words.csv", "fault 20 NotJson: the graph file is not JSON"]),
    "avalanches graph.json chips.csv short.csv":
        ("24 Row 0", ["in short.csv: row 0, which is line 2 if no line is empty", "fault 24 Row i: row i has fewer or more fields than the header"]),
    "plain graph.json beyond.csv":
        ("26 Vertex 2", ["in beyond.csv: row 2, which is line 4 if no line is empty", "fault 26 Vertex i: row i names a vertex, an edge, a process or a channel that does not exist"]),
    "plain graph.json chips.csv --guess twice.csv":
        ("27 Repeated 2", ["in twice.csv: row 2, which is line 4 if no line is empty", "fault 27 Repeated i: row i names a vertex that an earlier row named"]),
    "plain graph.json .": ("29 Read", ["in .", "fault 29 Read: a file could be opened, but not read"]),
    "check far.json": ("8 Unreached 0", ["in far.json", "fault 8 Unreached v: no walk leads from vertex v to the sink"]),
    "plain graph.json far.csv": ("92 Open 2", ["in far.csv", "fault 92 Open n: the file that argument n names could not be opened"]),
    "plain - chips.csv": ("20 NotJson", ["in -", "fault 20 NotJson: the graph file is not JSON"]),
    "run graph.json none.csv --feed words.csv":
        ("25 Number 1", ["in words.csv: row 1, which is line 3 if no line is empty", NUMBER]),
    "run graph.json none.csv --trace chips.csv --feed chips.csv":
        ("92 Open 4", ["in chips.csv", "fault 92 Open n: the file that argument n names could not be opened"]),
    "run graph.json chips.csv --workers 1 --turns 1":
        ("61 Unfinished 1", ["fault 61 Unfinished n: the threads made all their turns before the game was over"]),
    "simulate graph.json chips.csv early.csv":
        ("28 Kind 1", ["in early.csv: row 1, which is line 3 if no line is empty", "fault 28 Kind i: row i has an unknown kind"]),
    "replay graph.json none.csv trace.csv":
        ("70 Stuck 0 0", ["in trace.csv", "fault 70 Stuck v i: the rows of a trace or a log have no possible order"]),
    "resume graph.json report.json":
        ("52 Mismatch", ["in report.json", "fault 52 Mismatch: the report has another number of vertices than the graph"]),
    "recurrent graph.json beyond.csv":
        ("26 Vertex 2", ["in beyond.csv: row 2, which is line 4 if no line is empty", "fault 26 Vertex i: row i names a vertex, an edge, a process or a channel that does not exist"]),
    "identity far.json": ("8 Unreached 0", ["in far.json", "fault 8 Unreached v: no walk leads from vertex v to the sink"]),
    "verify graph.json chips.csv played.json":
        ("53 Differs 0", ["in played.json", "fault 53 Differs v: the report is not of this game, and v is the least vertex that differs"]),
}
# Logs in no order: their rows, the place of the fault, and where the waits lead from there, which is seen by hand.
CYCLE = "each of these waits for the next, and the last for the first:"
WAITS = {
    "a cycle of two": ("0,hear,1 0,tell,0 1,hear,0 1,tell,1", "0 0", f"{CYCLE} 0, 1"),
    "a cycle of three":
        ("0,active,0 0,receive,2 0,send,0 0,tell,1 1,hear,1 1,tell,0 2,active,0 2,hear,0 2,send,2", "0 1", f"{CYCLE} 0, 2, 1"),
    "a process that waits for itself": ("0,hear,0 0,tell,0", "0 0", f"{CYCLE} 0"),
    "one wait before a cycle":
        ("0,hear,1 1,hear,2 1,tell,1 2,hear,3 2,tell,2 2,tell,0 1,hear,0 2,hear,4 1,tell,3", "0 0",
         f"from there 1 wait leads to process 1; {CYCLE} 1, 2"),
    "two waits before a process that waits for itself":
        ("0,hear,0 1,tell,0 1,hear,9 2,hear,1 2,tell,9 2,tell,1 0,hear,0 1,tell,0", "0 1",
         f"from there 2 waits lead to process 2; {CYCLE} 2"),
    "nobody sends":
        ("0,passive,0 1,passive,0 1,receive,3", "1 1",
         "it waits at its row 1 for message 0 of channel 3, and no process sends there"),
    "nobody sends after one wait":
        ("0,receive,1 3,active,0 3,hear,1 3,send,1", "0 0",
         "from there 1 wait leads to process 3, which waits at its row 1 for control message 0 of channel 1, and no process sends there"),
    "a sender without a row left":
        ("0,tell,5 0,over,0 1,hear,5 1,hear,5", "1 1",
         "it waits at its row 1 for control message 1 of channel 5, and process 0, which sends there, has no row left"),
    "a sender without a row left after two waits":
        ("2,hear,0 2,hear,0 2,tell,1 1,hear,1 1,tell,2 0,hear,2 3,tell,0", "0 0",
         "from there 2 waits lead to process 2, which waits at its row 1 for control message 1 of channel 0, and "
         "process 3, which sends there, has no row left"),
    "a basic message of a channel with control messages":
        ("0,active,0 0,tell,4 1,hear,4 1,receive,4 0,passive,0", "1 1",
         "it waits at its row 1 for message 0 of channel 4, and no process sends there"),
}
# Commands that are none, and the words that have to stand below the fault.
WRONG = {
    "run graph.json chips.csv --wrokers 3": ["--wrokers", "--workers"],
    "plain graph.json chips.csv --limit 1e3": ["1e3", "--limit"],
    "plain graph.json": ["CHIPS", "Usage: ", "plain"],
    "expalin 21": ["expalin", "explain"],
    "--limt 5": ["'--limt'"],
    "plain graph.json chips.csv --limit -1": ["'-1'"],
    "plain graph.json chips.csv --limit=-1": ["'-1'", "--limit"],
    "plain graph.json chips.csv --limit": ["--limit"],
    "plain graph.json chips.csv --limit=1099511627777": ["'1099511627777'", "--limit"],
    "plain graph.json chips.csv --limit 3 --limit 4": ["--limit"],
    "plain graph.json chips.csv --large=3": ["'3'", "--large"],
    "plain graph.json chips.csv more.csv": ["'more.csv'"],
    "simulate graph.json chips.csv early.csv --ring 65": ["'65'", "--ring"],
    "explain 15": ["'15'"],
    "explain -- 15": ["'15'"],
    "explain what": ["'what'"],
    "explain 21 22": ["'22'"],
    "explain 36893488147419103232": ["'36893488147419103232'"],
    "explain rule 200": ["'200'"],
    "explain rule two": ["'two'"],
    "plain graph.json caf\udce9.csv": [r"'caf\xe9.csv'"],
    "pl\udcffin graph.json chips.csv": [r"'pl\xffin'"],
    f"plain {'x' * 5000} \udcff.csv": [r"'\xff.csv'"],
}


def run(program, words, is_terminal, more=(), **how):
    """The status of a run, its standard output, and its standard error, which may be a terminal. `more` are files beside
    FILES."""
    with tempfile.TemporaryDirectory(prefix="chipfire-terminal-") as room:
        for name, text in [*FILES.items(), *more]:
            with open(f"{room}/{name}", "w", encoding="utf-8") as file:
                file.write(text)
        ours, theirs = pty.openpty() if is_terminal else os.pipe()
        how = {"stdin": subprocess.DEVNULL, "stdout": subprocess.PIPE, "stderr": theirs, "cwd": room, **how}
        ran = subprocess.run([program, *words.split()], timeout=SECONDS, encoding="utf-8", **how)
        os.close(theirs)
        written = b""
        try:
            while some := os.read(ours, 4096):
                written += some
        except OSError:  # (so ends what a terminal gave whose other side is closed)
            pass
        os.close(ours)
        with open(f"{room}/chips.csv", encoding="utf-8") as file:
            kept = file.read() == FILES["chips.csv"]
    return ran.returncode, ran.stdout, written.decode().replace("\r\n", "\n"), kept


def wrong_below(program, words):
    """What is wrong with the lines on a fault that is known."""
    fault, more = BELOW[words]
    line = f"chipfire: fault {fault}\n"
    number = fault.split()[0]
    below = "".join(f"  {it}\n" for it in [*more, f"`chipfire explain {number}` says more."])
    status = 3 if number == "61" else 1
    wanted = (status, "", line + below, True), (status, "", line, True)
    got = run(program, words, True), run(program, words, False)
    return [] if got == wanted else [f"expected {wanted}, got {got}"]


def wrong_waits(program, rows, place, waits, words="judge log.csv --large"):
    """What is wrong with the lines on a log in no order, in a file, and as standard input."""
    log = "process,kind,channel\n" + "".join(f"{row}\n" for row in rows)
    line = f"chipfire: fault 70 Stuck {place}\n"
    meaning = "fault 70 Stuck v i: the rows of a trace or a log have no possible order"
    below = "".join(f"  {it}\n" for it in [f"in {words.split()[1]}", meaning, waits, "`chipfire explain 70` says more."])
    wanted = (1, "", line + below, True), (1, "", line, True)
    how = {"more": [("log.csv", log)], "preexec_fn": take_log}
    got = run(program, words, True, **how), run(program, words, False, **how)
    return [] if got == wanted else [f"expected {wanted}, got {got}"]


def ring(count):
    """The rows of `count` processes, each of which hears of the one before it, and the first of the last."""
    for process in range(count):
        yield f"{process},hear,{(process - 1) % count}"
        yield f"{process},tell,{process}"


def chain(count):
    """The rows of `count` processes, each of which hears of the one after it; what the last one hears has no tell."""
    for process in range(count):
        yield f"{process},hear,{process + 1}"
        yield f"{process},tell,{process}"


def wrong_usage(program, words):
    """What is wrong with the lines on arguments that are no command."""
    status, out, written, _ = run(program, words, True)
    line, _, below = written.partition("\n")
    alone = run(program, words, False)
    missing = [it for it in [*WRONG[words], "error: "] if it not in below]
    is_well = (status, out, line) == (1, "", "chipfire: fault 91 Usage") and alone == (1, "", line + "\n", True)
    return [] if is_well and not missing else [f"{missing} is missing, or the rest is wrong: {written!r}, {alone}"]


def without_input(program, words):
    """What is wrong where standard input is closed: nothing is read in its place, though a file gets its number."""
    got = run(program, words, False, stdin=None, preexec_fn=lambda: os.close(0))
    wanted = 1, "", "chipfire: fault 29 Read\n", True
    return [] if got == wanted else [f"expected {wanted}, got {got}"]


def traced_into_input(program):
    """What is wrong where the file of a trace is standard input, which it would empty."""
    got = run(program, "run graph.json - --trace chips.csv", False, shell=False, stdin=None, preexec_fn=take_chips)
    wanted = 1, "", "chipfire: fault 92 Open 4\n", True
    return [] if got == wanted else [f"expected {wanted}, got {got}"]


def take_chips():
    """Has standard input be the chips, in the process that is about to be the program."""
    os.dup2(os.open("chips.csv", os.O_RDONLY), 0)


def take_log():
    """Has standard input be the log."""
    os.dup2(os.open("log.csv", os.O_RDONLY), 0)


def waits_tests(program):
    """Logs in no order, of which some are long."""
    for name, (rows, place, waits) in WAITS.items():
        yield f"waits: {name}", functools.partial(wrong_waits, program, rows.split(), place, waits)
    rows, place, waits = WAITS["a cycle of two"]
    for words in ("judge - --large", "judge log.csv --first", "judge log.csv --past --processes 2"):
        yield f"waits: chipfire {words}", functools.partial(wrong_waits, program, rows.split(), place, waits, words)
    for count in (8, 9, ROWS // 2):
        more = f", and {count - 8} more" if count > 8 else ""
        named = ", ".join(["0", *(str(count - it) for it in range(1, 8))])
        cycle = f"{CYCLE} {named}{more}"
        yield f"waits: a cycle of {count}", functools.partial(wrong_waits, program, [*ring(count)], "0 0", cycle)
    for count in (3, ROWS // 2):
        lead = f"from there {count - 1} waits lead to process {count - 1}, which waits at its row 0"
        end = f"for control message 0 of channel {count}, and no process sends there"
        chained = f"{lead} {end}"
        yield f"waits: a chain of {count}", functools.partial(wrong_waits, program, [*chain(count)], "0 0", chained)


def tests(program):
    yield from waits_tests(program)
    for words in BELOW:
        yield f"chipfire {words}", functools.partial(wrong_below, program, words)
    for words in WRONG:
        yield f"chipfire {shown(words)}", functools.partial(wrong_usage, program, words)
    for words in ("check -", "plain graph.json -", "run graph.json none.csv --feed -"):
        yield f"standard input is closed: chipfire {words}", functools.partial(without_input, program, words)
    yield "a trace into standard input", functools.partial(traced_into_input, program)


def shown(words):
    """Words as a name: without their middle where they are long, and bytes that are no text as numbers."""
    short = words if len(words) <= 80 else f"{words[:40]} .. {words[-20:]}"
    return short.encode(errors="surrogateescape").decode(errors="backslashreplace")
