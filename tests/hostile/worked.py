"""Runs with results from outside: those that lie under examples/, which tests/cli/answers.py compares with the scripts there.

A command is one more line in one of the lists that `worked_runs` joins. Words that end as files do are taken from
examples/; the word `FILE` is a file that the run writes: its traces, or a report after its output.
"""
import dataclasses
import functools

import expected

NO_MEMORY = "90 NoMemory"
FILE_ENDS = (".json", ".csv")
FILE = "{file}"
TRACE_HEADER = b"vertex,kind,edge,count\n"
CHIPS_HEADER = b"vertex,chips\n"
# Five more chips on vertex 0 of the triangle, after four: 6,0,3 fires three times at 0 and once at 1.
DROPPED = b"vertex,chips,size,extent,lost\n0,5,4,2,4\n"
TOGETHER = b'{"chips":[1,1,7],"closed":true,"fired":[5,2,0],"over":[],"sealed":[],"version":1}\n'


@dataclasses.dataclass
class Worked:
    """A run with its result; `also` are the faults that may come in its place where the system refuses something."""

    name: str
    words: list
    out: bytes = b""
    status: int = 0
    fault: str = ""
    also: tuple = (NO_MEMORY,)
    # Whether it makes the same calls in every run, and how many threads it starts.
    is_steady: bool = True
    threads: int = 0
    # Where the play searches counts: a limit in place of its last word that is never reached, and yet so near that none
    # are searched.
    near_limit: str = ""
    # The report that it writes to `FILE`, if it does, after all of `out`.
    report: bytes = b""

    def unsearched(self):
        """The same run without its search of counts."""
        return dataclasses.replace(self, words=[*self.words[:-1], self.near_limit])

    def files(self):
        """The files of the run as they are opened, that of feeds last, each with its number among the arguments."""
        found = [(at, word) for at, word in enumerate(self.words) if word.endswith(FILE_ENDS)]
        return sorted(found, key=lambda file: self.words[file[0] - 1] == "--feed")

    def opens(self):
        """The numbers of the arguments that are opened, in their order: the file that is written is the last one."""
        return [at for at, _ in self.files()] + [at for at, word in enumerate(self.words) if word == FILE]

    def bytes_of_files(self):
        found = []
        for _, path in self.files():
            with open(path, "rb") as file:
                found.append(file.read())
        return found

    def options(self):
        """The options of the run that a model takes, by their names: numbers, `complete` and `past`."""
        pairs = zip(self.words, self.words[1:])
        numbers = {word[2:]: int(value) for word, value in pairs if word.startswith("--") and value.isdigit()}
        return numbers | {name: f"--{name}" in self.words for name in ("complete", "past", "first")}

    def line(self):
        return line_of(self.fault) if self.fault else b""

    def differences(self, ran):
        """What of a finished run is not its result."""
        found = differences(ran, self.out, self.line(), self.status)
        return found or self.file_faults(ran, is_whole=not self.fault)

    def faulted(self, ran, fault, out=b""):
        """What of a finished run is not this fault, with these bytes on its output."""
        return differences(ran, out, line_of(fault), 1) or self.file_faults(ran)

    def differences_or_fault(self, ran):
        """The same, where one of the other faults may come instead."""
        outs = (b"", self.out) if self.report else (b"",)
        if any(not self.faulted(ran, fault, out) for fault in self.also for out in outs):
            return []
        return self.differences(ran)

    def unwritten(self, ran, has_errors=True):
        """What of a finished run is wrong where its output could not be written, nor its errors if so said."""
        line = self.line() or line_of("93 Write 0")
        return differences(ran, b"", line if has_errors else b"", 1) or self.file_faults(ran)

    def unsaid(self, ran):
        """What of a finished run is wrong where nothing could be written to its errors."""
        return differences(ran, self.out, b"", self.status) or self.file_faults(ran, is_whole=not self.fault)

    def file_faults(self, ran, is_whole=False):
        """What of the file that a run left is no beginning of the right one, or not the whole of it if so said."""
        if FILE not in self.words or not (ran.file or is_whole):
            return []
        text = ran.file or b""
        if self.report:
            is_well = text == self.report if is_whole else self.report.startswith(text)
            return [] if is_well else [f"this is not the report: {text!r}"]
        lines = text[: text.rfind(b"\n") + 1]
        if not (lines.startswith(TRACE_HEADER) or TRACE_HEADER.startswith(text)) or (is_whole and text != lines):
            return [f"these are no traces: {text!r}"]
        graph_text, *chips_texts = self.bytes_of_files()
        graph = expected.read_graph(graph_text)
        chips, feeds = (expected.read_chips(it, graph) for it in (chips_texts + [CHIPS_HEADER])[:2])
        try:
            traces = expected.read_traces(lines or TRACE_HEADER, graph)
            limit = self.options().get("limit", expected.MAX_CHIPS)
            replay = expected.Replay(graph, chips, traces, limit, feeds)
            replay.use_all(is_whole)
        except expected.Fault as fault:
            return [f"traces of a run are {fault}: {text!r}"]
        fired = b'"fired":%b' % str(replay.fired).replace(" ", "").encode()
        return [f"the firings of {text!r} are not those of the report"] if is_whole and fired not in ran.out else []


def line_of(fault):
    return f"chipfire: fault {fault}\n".encode()


def differences(ran, out, err, status):
    """What of a finished run is not as it must be."""
    found, wanted = (ran.out, ran.err, ran.status), (out, err, status)
    return [] if found == wanted else [f"expected {wanted}, got {found}"]


def fault_differences(ran, fault):
    """What of a finished run is not this fault, with nothing on its output."""
    return differences(ran, b"", line_of(fault), 1)


def started(examples, name, words, shown=None, **more):
    """A run with its files in a folder, whose output is that of a file there if one is named."""
    words = [f"{examples}/{word}" if word.endswith(FILE_ENDS) else word for word in words.split()]
    if shown:
        with open(f"{examples}/{shown}", "rb") as file:
            more["out"] = file.read()
    return Worked(name, words, **more)


def plays(run, triangle):
    """The runs that play a game, drop on it, or go to recurrent configurations."""
    return [
        run("small triangle", f"plain {triangle}", "triangle/report.json"),
        run("with progress", f"plain {triangle} --progress", "triangle/report.json"),
        run(
            "begun near the end",
            "plain path/graph.json path/chips.csv --limit 1099511627776",
            "path/report.json",
            near_limit="1000",
        ),
        run("guessed by a report", f"plain {triangle} --guess triangle/report.json", "triangle/report.json"),
        run("a guess that is chips", f"plain {triangle} --guess triangle/chips.csv", fault="23 Header", status=1),
        run("small triangle, large", f"plain {triangle} --large", "triangle/report.json"),
        run("no words", "", "triangle/report.json"),
        run("dropped", f"avalanches {triangle} stages/chips.csv", out=DROPPED),
        run(
            "dropped, with a report",
            f"avalanches {triangle} stages/chips.csv --report {FILE}",
            out=DROPPED,
            report=TOGETHER,
        ),
        run("drops that are a graph", f"avalanches {triangle} triangle/graph.json", fault="23 Header", status=1),
        run("a representative", f"recurrent {triangle}", out=b"vertex,chips\n0,1\n1,0\n2,0\n", status=2),
        run("chips to represent that are a graph", "recurrent triangle/graph.json chain/graph.json", fault="23 Header", status=1),
        run("an identity, large", "identity --large triangle/graph.json", out=b"vertex,chips\n0,1\n1,1\n2,0\n"),
    ]


def readings(run, triangle):
    """The runs that read what was written of a game, or go on from it."""
    return [
        run("graph of the chain", "check chain/graph.json", "chain/check.txt"),
        run("graph of the chain, large", "check --large chain/graph.json", "chain/check.txt"),
        run("first stage", "plain triangle/graph.json stages/chips.csv --limit 1", "stages/first.json", status=2),
        run("last stage", "resume triangle/graph.json stages/second.json", "stages/third.json"),
        run("large last stage", "resume --large triangle/graph.json stages/second.json", "stages/third.json"),
        run("verified", f"verify {triangle} triangle/report.json", out=b"verified\n"),
        run("not verified", f"verify {triangle} stages/third.json", fault="53 Differs 0", status=1),
        run(
            "sealed half way",
            f"simulate {triangle} detector/sealed-half-way.csv --rounds 10",
            "detector/sealed-half-way.txt",
            status=2,
        ),
        run("left open", f"simulate {triangle} detector/left-open.csv", "detector/left-open.txt", status=3),
        run("replayed to its end", f"replay --complete {triangle} triangle/trace.csv", out=b"fire 0 2\nfire 1 1\n"),
        run("replayed run", f"replay {triangle} triangle/trace.csv", out=b"fire 0 2\nfire 1 1\n"),
        run("judged", "judge --past logs/early.csv", "logs/early.txt", status=2),
        run("a log that is a graph", "judge triangle/graph.json", fault="23 Header", status=1),
    ]


def on_threads(run, triangle):
    """The runs on threads."""
    return [
        run(
            "on two threads",
            f"run {triangle} --trace {FILE}",
            "triangle/report.json",
            also=(NO_MEMORY, "65 Spawn"),
            is_steady=False,
            threads=2,
        ),
        run(
            "fed on two threads",
            f"run triangle/graph.json triangle/no-chips.csv --feed triangle/chips.csv --trace {FILE}",
            "triangle/report.json",
            also=(NO_MEMORY, "65 Spawn"),
            is_steady=False,
            threads=2,
        ),
        run(
            "dealt out to two threads and fed",
            f"run --dealt triangle/graph.json triangle/no-chips.csv --feed triangle/chips.csv --trace {FILE}",
            "triangle/report.json",
            also=(NO_MEMORY, "65 Spawn"),
            is_steady=False,
            threads=2,
        ),
    ]


def refusals(run):
    """Runs that are refused."""
    return [
        run("chips that are a graph", "plain triangle/graph.json chain/graph.json", fault="23 Header", status=1),
        run(
            "feeds that are a graph",
            "run --feed triangle/graph.json triangle/graph.json triangle/chips.csv",
            fault="23 Header",
            status=1,
        ),
        run("a report that is a graph", "resume triangle/graph.json chain/graph.json", fault="50 NotReport", status=1),
        run("no command", "spin", fault="91 Usage", status=1),
    ]


def worked_runs(examples):
    """All the runs, with their files in this folder."""
    run, triangle = functools.partial(started, examples), "triangle/graph.json triangle/chips.csv"
    return [*plays(run, triangle), *readings(run, triangle), *on_threads(run, triangle), *refusals(run)]
