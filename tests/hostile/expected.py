"""What chipfire must return for files with whatever bytes: the result, or the first fault.

It shares nothing with the program. JSON is read by Python's own reader, rows by the automaton of `Rows`, and the games
are played by chipfire.model and by `play` below, which fires a vertex as often as it can at a time. Logs are judged by
all their cuts, as tests/cli/logs.py does, or where there are too many by `least_cut` below.
"""
import dataclasses
import functools
import json
import math
import re

import logs
import paths
import play as slow_player

MAX_MULT = 1 << 20
MAX_CHIPS = 1 << 40
MAX_PRIOR = 1 << 60
MAX_DEPTH = 127
# A play that takes more rounds than this is not judged.
MAX_ROUNDS = 20_000
# How many cuts a log may have to be judged by all of them.
MAX_CUTS = 500

EVENTS_OF_VERTICES = {b"fire", b"halt", b"read"}
EVENTS_OF_EDGES = {b"take", b"ack", b"clear", b"claim", b"put", b"settle", b"seal", b"feed"}
EVENTS_ANYWHERE = {b"end"}
KINDS_OF_MESSAGES = {b"send", b"receive", b"tell", b"hear"}
KINDS_ALONE = {b"passive", b"active", b"over"}


@dataclasses.dataclass(frozen=True)
class Limits:
    """How many vertices and edges a graph may have, how many bytes a file, how many processes and channels a log."""

    vertices: int
    edges: int
    bytes: int
    processes: int
    channels: int


STANDARD = Limits(4_096, 65_536, 16_777_216, 8_192, 131_072)
LARGE = Limits(2_097_152, 8_388_608, 268_435_456, 4_194_304, 16_777_216)


class Fault(Exception):
    """The first fault, as the program reports it: its number, name and place."""


class Unjudged(Exception):
    """This play takes too long here."""


@dataclasses.dataclass
class Outcome:
    """What must come: `out` are its bytes, or a function that returns what is wrong with some bytes."""

    out: object = b""
    fault: str = ""
    status: int = 0

    def differences(self, out, err, status):
        """What of a finished run is not as it must be."""
        found = []
        line = f"chipfire: fault {self.fault}\n".encode() if self.fault else b""
        if (err, status) != (line, self.status):
            found.append(f"expected status {self.status} and {line!r}, got status {status} and {err!r}")
        if callable(self.out):
            found += self.out(out)
        elif out != self.out:
            found.append(f"expected {self.out!r}, got {out!r}")
        return found


class Model:
    """The program, made of examples/play.py, of chipfire.model and of tests/cli/logs.py."""

    def __init__(self, play, simulate, logs):
        self.play, self.simulate_script, self.logs = play, simulate, logs

    def judged(self, text, past, first, processes, limits):
        """What `judge` must return for a text."""
        try:
            log = self.logs.Log(read_log(text, self.logs.row_faults, limits))
            lines, status = verdicts(self.logs, log, past, first, processes)
            return Outcome("".join(f"{it}\n" for it in lines).encode(), status=status)
        except Fault as fault:
            return Outcome(fault=str(fault), status=1)
        except self.logs.Fault as fault:
            number, *place = fault.args
            return Outcome(fault=f"{number} {self.logs.NAMES[number]} {' '.join(map(str, place))}", status=1)

    def outcome(self, command, files, limit=MAX_CHIPS, large=False, ring=1, rounds=0, fed=False, complete=False, past=False,
               first=False, processes=0, **_):
        """What the program must return for a command and its files, each some bytes; threads change nothing.

        A third file of `run` is the one of its feeds, and one of `plain` a guess, which changes nothing either.
        """
        limits = LARGE if large else STANDARD
        if command == "judge":
            return self.judged(files[0], past, first, processes, limits)
        try:
            graph = read_graph(files[0], limits)
            if command == "check":
                return Outcome(f"{self.play.check(graph)}\n".encode())
            if command == "identity":
                return Outcome(chips_text(recurrent(graph, [0] * graph["vertices"])))
            if command == "resume":
                return resumed(graph, files[1], limit, limits)
            chips = read_chips(files[1], graph, limits)
            if command == "run" and len(files) > 2:
                chips = with_feeds(chips, read_chips(files[2], graph))
            if command == "avalanches":
                return dropped(graph, chips, read_pairs(files[2], graph, b"chips", limits, may_repeat=True))
            if command == "recurrent":
                return represented(graph, chips)
            if command == "plain" and len(files) > 2:
                read_guess(files[2], graph, limits)
            if command == "verify":
                return verified(graph, chips, files[2], limit, limits)
            if command in ("plain", "run"):
                return report_outcome(graph, chips, limit)
            if command == "simulate":
                return self.simulated(graph, chips, read_schedule(files[2], graph), limit, ring, rounds, fed)
            return replayed(graph, chips, read_traces(files[2], graph), limit, complete)
        except Fault as fault:
            return Outcome(fault=str(fault), status=1)

    def simulated(self, graph, chips, events, limit, ring, rounds, fed):
        core = self.simulate_script.Core(graph, chips, limit, ring, fed)
        lines = [core.step(*event) for event in events]
        core.drive(rounds)
        if not core.is_closed():
            lines.append("root open")
            return Outcome("".join(f"{line}\n" for line in lines).encode(), status=3)
        lines += ["root closed", core.report()]
        status = 0 if json.loads(lines[-1])["closed"] else 2
        return Outcome("".join(f"{line}\n" for line in lines).encode(), status=status)


@functools.cache
def reference():
    """The program as it must be."""
    return Model(slow_player, paths.model(), logs)


def whole(text, limits=STANDARD):
    if len(text) > limits.bytes:
        raise Fault("30 TooLong")
    return text


class NoWhole:
    """A number that is no whole number of 64 bits."""


def whole_number(text):
    if len(text) > 310 or abs(int(text)) >= 2**1024:
        raise ValueError("a number too large")
    number = NoWhole if text.startswith("-") else int(text)
    return number if number is NoWhole or number < 2**64 else NoWhole


def broken_number(text):
    if float(text) in (float("inf"), float("-inf")):
        raise ValueError("a number too large")
    return NoWhole


def no_constant(text):
    raise ValueError(f"no JSON: {text}")


def no_half_pairs(value):
    """Raises an error where a text, alone or in an array, has half a pair of surrogates."""
    if isinstance(value, str):
        value.encode()
    elif isinstance(value, list):
        for item in value:
            no_half_pairs(item)


def object_of(pairs):
    """The object of these members, of which the last of a name counts."""
    for name, value in pairs:
        no_half_pairs(name)
        no_half_pairs(value)
    return dict(pairs)


def depth_of(text):
    """How deep arrays and objects are nested, as far as the text is JSON."""
    depth = most = 0
    for token in re.findall(r'"(?:[^"\\]|\\.)*"?|[\[\]{}]', text, re.DOTALL):
        depth += {"[": 1, "{": 1, "]": -1, "}": -1}.get(token, 0)
        most = max(most, depth)
    return most


def read_json(text):
    try:
        text = text.decode()
        if depth_of(text) > MAX_DEPTH:
            raise ValueError("nested too deep")
        hooks = {"parse_int": whole_number, "parse_float": broken_number, "parse_constant": no_constant}
        found = json.loads(text, object_pairs_hook=object_of, **hooks)
        no_half_pairs(found)
        return found
    except ValueError as error:
        raise Fault("20 NotJson") from error


def is_whole(value):
    return isinstance(value, int) and not isinstance(value, bool)


def is_row(row):
    return isinstance(row, list) and len(row) == 3 and all(is_whole(it) for it in row)


def has_graph_shape(found):
    if not isinstance(found, dict) or set(found) != {"edges", "sink", "version", "vertices"}:
        return False
    if not all(is_whole(found[name]) for name in ("sink", "version", "vertices")):
        return False
    return isinstance(found["edges"], list) and all(is_row(row) for row in found["edges"])


def read_graph(text, limits=STANDARD):
    graph = read_json(whole(text, limits))
    if not has_graph_shape(graph):
        raise Fault("21 Shape")
    if graph["version"] != 1:
        raise Fault("22 Version")
    check_graph(graph, limits)
    return graph


def check_graph(graph, limits):
    vertices, sink, edges = graph["vertices"], graph["sink"], graph["edges"]
    if not 1 <= vertices <= limits.vertices:
        raise Fault("1 Vertices")
    if sink >= vertices:
        raise Fault("2 Sink")
    if len(edges) > limits.edges:
        raise Fault("3 EdgeCount")
    for i, (tail, head, mult) in enumerate(edges):
        if tail >= vertices or head >= vertices:
            raise Fault(f"4 Endpoint {i}")
        if not 1 <= mult <= MAX_MULT:
            raise Fault(f"5 Mult {i}")
        if tail == head:
            raise Fault(f"6 Loop {i}")
        if tail == sink:
            raise Fault(f"7 FromSink {i}")
    reached, new = {sink}, [sink]
    while new:
        new = list({tail for tail, head, _ in edges if head in new} - reached)
        reached.update(new)
    for v in range(vertices):
        if v not in reached:
            raise Fault(f"8 Unreached {v}")


class Rows:
    """Reads records of fields: commas between them, a line's end after them, quotes, and nothing trimmed."""

    def __init__(self):
        self.records, self.fields, self.field = [], [], bytearray()
        self.state = self.at_record

    def end_field(self):
        self.fields.append(bytes(self.field))
        self.field.clear()

    def end_record(self):
        self.end_field()
        self.records.append(self.fields)
        self.fields = []
        return self.at_record

    def at_record(self, byte):
        return self.at_record if byte in b"\r\n" else self.at_field(byte)

    def at_field(self, byte):
        return self.in_quotes if byte == b'"' else self.in_field(byte)

    def in_field(self, byte):
        if byte in b"\r\n":
            return self.end_record()
        if byte == b",":
            self.end_field()
            return self.at_field
        self.field += byte
        return self.in_field

    def in_quotes(self, byte):
        if byte == b'"':
            return self.after_quote
        self.field += byte
        return self.in_quotes

    def after_quote(self, byte):
        if byte == b'"':
            self.field += byte
            return self.in_quotes
        return self.in_field(byte)

    def read(self, text):
        for at in range(len(text)):
            self.state = self.state(text[at : at + 1])
        # (bound methods are new each time, so they are compared by value)
        if self.state != self.at_record:
            self.end_record()
        return self.records


def read_rows(text, header, limits=STANDARD):
    """The rows after the header, each with as many fields, or a fault that says where that ends."""
    text = whole(text, limits)
    records = Rows().read(text[3:] if text.startswith(b"\xef\xbb\xbf") else text)
    if not records or records[0] != header:
        raise Fault("23 Header")
    for i, row in enumerate(records[1:]):
        if len(row) != len(header):
            raise Fault(f"24 Row {i}")
        yield i, row


def numbers(i, *fields):
    if any(not re.fullmatch(rb"[0-9]{1,20}", field) or int(field) >= 2**64 for field in fields):
        raise Fault(f"25 Number {i}")
    return [int(field) for field in fields]


def read_pairs(text, graph, name, limits=STANDARD, may_repeat=False):
    """The vertices that rows name with their numbers of this name, in order."""
    found, named = [], set()
    for i, row in read_rows(text, [b"vertex", name], limits):
        vertex, number = numbers(i, *row)
        if vertex >= graph["vertices"]:
            raise Fault(f"26 Vertex {i}")
        if vertex in named and not may_repeat:
            raise Fault(f"27 Repeated {i}")
        named.add(vertex)
        found.append((vertex, number))
    return found


def read_chips(text, graph, limits=STANDARD):
    found = dict(read_pairs(text, graph, b"chips", limits))
    if sum(found.values()) > MAX_CHIPS:
        raise Fault("10 Total")
    return [found.get(v, 0) for v in range(graph["vertices"])]


def read_guess(text, graph, limits):
    """Looks whether a guess is one: a report, or rows."""
    if not whole(text, limits).startswith(b"{"):
        read_pairs(text, graph, b"fired", limits)
    elif len(read_report(text, limits)[0]) != graph["vertices"]:
        raise Fault("52 Mismatch")


def with_feeds(chips, feeds):
    """The chips of a game that is fed: it is played as if it had all of them at the start."""
    together = [first + more for first, more in zip(chips, feeds)]
    if sum(together) > MAX_CHIPS:
        raise Fault("10 Total")
    return together


def read_schedule(text, graph):
    events = []
    all_edges = len(graph["edges"]) + graph["vertices"]
    for i, (kind, *rest) in read_rows(text, [b"event", b"at", b"count"]):
        if kind not in EVENTS_OF_VERTICES | EVENTS_OF_EDGES | EVENTS_ANYWHERE:
            raise Fault(f"28 Kind {i}")
        at, count = numbers(i, *rest)
        is_there = at < (graph["vertices"] if kind in EVENTS_OF_VERTICES else all_edges)
        if kind not in EVENTS_ANYWHERE and not is_there:
            raise Fault(f"26 Vertex {i}")
        events.append((kind.decode(), at, count))
    return events


def read_traces(text, graph):
    traces = [[] for _ in range(graph["vertices"])]
    for i, (vertex, kind, *rest) in read_rows(text, [b"vertex", b"kind", b"edge", b"count"]):
        if kind not in (b"take", b"fire"):
            raise Fault(f"28 Kind {i}")
        vertex, edge, count = numbers(i, vertex, *rest)
        is_edge = kind == b"fire" or edge < len(graph["edges"]) + graph["vertices"]
        if vertex >= graph["vertices"] or not is_edge:
            raise Fault(f"26 Vertex {i}")
        traces[vertex].append((kind.decode(), edge, count))
    return traces


def log_rows(text, limits):
    """The rows of a log, each once it is read: its process, kind and channel."""
    for i, (process, kind, channel) in read_rows(text, [b"process", b"kind", b"channel"], limits):
        if kind not in KINDS_OF_MESSAGES | KINDS_ALONE:
            raise Fault(f"28 Kind {i}")
        process, channel = numbers(i, process, channel)
        if process >= limits.processes or kind in KINDS_OF_MESSAGES and channel >= limits.channels:
            raise Fault(f"26 Vertex {i}")
        yield process, kind.decode(), channel


def read_log(text, row_faults, limits):
    """The rows of a log. What the rows before a fault decide comes first."""
    rows = []
    try:
        for row in log_rows(text, limits):
            rows.append(row)
    finally:
        row_faults(rows)
    return rows


def least_cut(log, at, row):
    """The least cut with `row` rows of process `at`: where more is got than sent, its sender has made one more row."""
    tails = {("tell" == kind, channel): it for it, p in enumerate(log.processes)
             for kind, channel in log.steps[p] if kind in ("send", "tell")}
    cut = [row if it == at else 0 for it in range(len(log.processes))]
    while lacking := [stream for stream, count in log.flight(cut).items() if count < 0]:
        cut[tails[lacking[0]]] += 1
    return tuple(cut)


def verdicts(logs, log, with_past, first=False, processes=0):
    """The lines and the status for a log without faults in its rows."""
    if math.prod(count + 1 for count in log.whole) <= MAX_CUTS:
        return logs.judged(log, with_past, first, processes)
    log.expect(processes)
    cut = log.empty
    while step := next(log.nexts(cut), None):
        cut = step[1]
    log.reached(cut)
    return logs.lines_of(log, lambda at, row: least_cut(log, at, row), with_past, first)


def degrees(graph):
    found = [0] * graph["vertices"]
    for tail, _, mult in graph["edges"]:
        found[tail] += mult
    return found


def play(graph, chips, limit, before=None):
    """Fires until no vertex may, beyond the counts before. Changes the chips, and returns the counts and the vertices at
    the limit."""
    degree, sink = degrees(graph), graph["sink"]
    out = [[] for _ in chips]
    for tail, head, mult in graph["edges"]:
        out[tail].append((head, mult))
    fired = list(before or [0] * len(chips))
    movers = [v for v in range(len(chips)) if v != sink]
    for _ in range(MAX_ROUNDS):
        is_still = True
        for v in movers:
            times = min(chips[v] // degree[v], limit - fired[v])
            if times:
                is_still = False
                fired[v] += times
                chips[v] -= times * degree[v]
                for head, mult in out[v]:
                    chips[head] += times * mult
        if is_still:
            return fired, [v for v in movers if chips[v] >= degree[v]]
    raise Unjudged


def dropped(graph, chips, drops):
    """The rows of drops, until the limit stops one."""
    if sum(chips) + sum(count for _, count in drops) > MAX_CHIPS:
        raise Fault("10 Total")
    lines = ["vertex,chips,size,extent,lost"]
    fired, over = play(graph, chips, MAX_CHIPS)
    for vertex, count in drops:
        if over:
            break
        chips[vertex] += count
        lost, before = -chips[graph["sink"]], fired
        fired, over = play(graph, chips, MAX_CHIPS, before)
        more = [after - first for first, after in zip(before, fired)]
        row = vertex, count, sum(more), sum(it > 0 for it in more), lost + chips[graph["sink"]]
        lines += [] if over else [",".join(map(str, row))]
    return Outcome("".join(f"{line}\n" for line in lines).encode(), status=2 if over else 0)


def settled(graph, chips):
    """The stabilization of chips off the sink, or the fault for which there is none within the limits."""
    chips = [0 if v == graph["sink"] else count for v, count in enumerate(chips)]
    if sum(chips) > MAX_CHIPS:
        raise Fault("10 Total")
    if play(graph, chips, MAX_CHIPS)[1]:
        raise Fault("13 Stopped 0")
    return [0 if v == graph["sink"] else count for v, count in enumerate(chips)]


def burning_chips(graph):
    """What vertices lose on balance by the burning script of Speer: while one gains, it fires once more."""
    degree, sink = degrees(graph), graph["sink"]
    script = [int(v != sink) for v in range(graph["vertices"])]
    for _ in range(MAX_ROUNDS):
        lost = [count * times for count, times in zip(degree, script)]
        for tail, head, mult in graph["edges"]:
            lost[head] -= mult * script[tail]
        lost[sink] = 0
        gaining = [v for v, count in enumerate(lost) if count < 0]
        if not gaining:
            return lost
        for v in gaining:
            script[v] += 1
    raise Unjudged


def burnt(graph, chips):
    """The recurrent chips that are equivalent to these: twice as many burning chips come each time, until they burn off."""
    burning, times, before = burning_chips(graph), 1, None
    while chips != before:
        before = chips
        chips = [count + times * more for count, more in zip(chips, burning)]
        play(graph, chips, math.inf)
        chips[graph["sink"]] = 0
        times *= 2
    return chips


def recurrent(graph, chips):
    """The same, or the fault of one of three stabilizations: of twice the greatest stable chips, of these chips, and of the
    rest of these with what the first dissipated."""
    twice = [2 * max(count - 1, 0) for count in degrees(graph)]
    lost = [count - left for count, left in zip(twice, settled(graph, twice))]
    settled(graph, [count + more for count, more in zip(settled(graph, chips), lost)])
    return burnt(graph, settled(graph, chips))


def chips_text(chips):
    return "".join(f"{row}\n" for row in ["vertex,chips", *(f"{v},{count}" for v, count in enumerate(chips))]).encode()


def represented(graph, chips):
    """The recurrent chips that are equivalent to these, and whether they are these."""
    found = recurrent(graph, chips)
    chips[graph["sink"]] = 0
    return Outcome(chips_text(found), status=0 if found == chips else 2)


def report_outcome(graph, chips, limit, prior=None):
    """The report of a play from these chips, of version 2 where there is something prior."""
    fired, over = play(graph, chips, limit)
    said = {"chips": chips, "closed": not over, "fired": fired, "over": over, "sealed": [], "version": 1}
    if prior is not None:
        said = {**said, "prior": prior, "version": 2}
    text = json.dumps(said, separators=(",", ":"), sort_keys=True)
    return Outcome(f"{text}\n".encode(), status=2 if over else 0)


NUMBER = rb"(?:0|[1-9][0-9]*)"
LIST = rb"\[((?:%b(?:,%b)*)?)\]" % (NUMBER, NUMBER)
REPORT = re.compile(
    rb'\{"chips":%b,"closed":(true|false),"fired":%b,"over":%b(?:,"prior":%b)?,"sealed":%b,"version":([12])\}\n'
    % ((LIST,) * 5)
)


def read_report(text, limits):
    """The chips and firings of a report, what was fired before, and the lists of halted vertices."""
    found = REPORT.fullmatch(whole(text, limits))
    if not found:
        raise Fault("50 NotReport")
    chips, fired, over, prior, sealed = (listed(found[it]) for it in (1, 3, 4, 5, 6))
    is_two = found[7] == b"2"
    is_report = (
        1 <= len(chips) <= limits.vertices
        and len(fired) == len(chips)
        and max(chips + fired) <= MAX_CHIPS
        and is_two == (found[5] is not None)
        and (not is_two or (len(prior) == len(chips) and max(prior) <= MAX_PRIOR))
        and all(it == sorted(set(it)) and it[-1:] < [len(chips)] for it in (over, sealed))
        and not set(over) & set(sealed)
        and (found[2] == b"true") == (not over and not sealed)
    )
    if not is_report:
        raise Fault("50 NotReport")
    return chips, fired, prior if is_two else [0] * len(chips), (over, sealed)


def listed(text):
    return [int(it) for it in text.split(b",")] if text else []


def resumed(graph, text, limit, limits):
    chips, fired, prior, _ = read_report(text, limits)
    if len(chips) != graph["vertices"]:
        raise Fault("52 Mismatch")
    if sum(chips) > MAX_CHIPS:
        raise Fault("10 Total")
    before = [a + b for a, b in zip(prior, fired)]
    for v, count in enumerate(before):
        if count > MAX_PRIOR:
            raise Fault(f"51 Prior {v}")
    return report_outcome(graph, chips, limit, before)


def verified(graph, chips, text, limit, limits):
    """That a report is the one of this game, or the least vertex where it differs."""
    held, fired, prior, halted = read_report(text, limits)
    if len(held) != graph["vertices"]:
        raise Fault("52 Mismatch")
    counts, over = play(graph, chips, limit)
    for v in range(len(chips)):
        said = prior[v] + fired[v], held[v], *(v in them for them in halted)
        if said != (counts[v], chips[v], v in over, False):
            raise Fault(f"53 Differs {v}")
    return Outcome(b"verified\n")


class Replay:
    """Takes the rows of traces one by one, as far as they fit; a vertex that is fed gets that after its first chips."""

    def __init__(self, graph, chips, traces, limit, feeds=None):
        self.graph, self.traces, self.limit, self.degree = graph, traces, limit, degrees(graph)
        self.edges = len(graph["edges"])
        given = zip(chips, feeds or [0] * len(chips))
        self.messages = [[] for _ in graph["edges"]] + [[it for it in of_vertex if it] for of_vertex in given]
        self.taken = [0] * len(self.messages)
        self.chips, self.fired, self.used = ([0] * len(chips) for _ in range(3))

    def head(self, edge):
        return self.graph["edges"][edge][1] if edge < self.edges else edge - self.edges

    def next_of(self, v):
        """How the next row of a vertex stands: `fits`, `wrong`, `waits` or, where there is none, `done`."""
        if self.used[v] == len(self.traces[v]):
            return "done"
        kind, edge, count = self.traces[v][self.used[v]]
        if kind == "fire":
            is_met = v != self.graph["sink"] and count >= 1 and self.chips[v] >= count * self.degree[v]
            return "fits" if is_met and self.fired[v] + count <= self.limit else "wrong"
        if self.head(edge) != v:
            return "wrong"
        if self.taken[edge] == len(self.messages[edge]):
            return "waits"
        return "fits" if self.messages[edge][self.taken[edge]] == count else "wrong"

    def use(self, v):
        """Takes the next row of a vertex, which fits."""
        kind, edge, count = self.traces[v][self.used[v]]
        self.used[v] += 1
        if kind == "take":
            self.taken[edge] += 1
            self.chips[v] += count
            return
        self.chips[v] -= count * self.degree[v]
        self.fired[v] += count
        for e, (tail, _, mult) in enumerate(self.graph["edges"]):
            if tail == v:
                self.messages[e].append(count * mult)

    def use_all(self, is_whole=True):
        """Takes rows as long as one fits, and names the row that is wrong, or left if all are to be taken."""
        vertices = range(len(self.traces))
        while any(self.next_of(v) == "fits" for v in vertices):
            for v in vertices:
                while self.next_of(v) == "fits":
                    self.use(v)
        for state in ("wrong", "waits") if is_whole else ("wrong",):
            for v in vertices:
                if self.next_of(v) == state:
                    raise Fault(f"70 Stuck {v} {self.used[v]}")

    def left(self):
        """The lines of what is left: messages that were not taken, and vertices that have the chips to fire."""
        waiting = [len(sent) - taken for sent, taken in zip(self.messages, self.taken)]
        lines = [f"left: edge {e} has {count} messages\n" for e, count in enumerate(waiting) if count]
        for v, chips in enumerate(self.chips):
            if v != self.graph["sink"] and chips >= self.degree[v]:
                lines.append(f"left: vertex {v} {'can fire' if self.fired[v] < self.limit else 'is at its limit'}\n")
        return "".join(lines).encode()

    def use_until_fire(self, v):
        """Takes the rows of a vertex before its next firing, as far as they fit."""
        while self.next_of(v) == "fits" and self.traces[v][self.used[v]][0] == "take":
            self.use(v)


def replayed(graph, chips, traces, limit, complete):
    used = Replay(graph, chips, traces, limit)
    used.use_all()
    left = used.left() if complete else b""
    status = 2 if left else 0
    return Outcome(lambda out: faults_of_firings(Replay(graph, chips, traces, limit), out, left), status=status)


def faults_of_firings(replay, out, left):
    """What is wrong with the lines of a replay: each must be the next firing of its vertex, enabled at that place. The
    lines of what is left come last."""
    if not out.endswith(left):
        return [f"expected {left!r} at the end of {out!r}"]
    for line in out[: len(out) - len(left)].splitlines(keepends=True):
        found = re.fullmatch(rb"fire (%b) (%b)\n" % (NUMBER, NUMBER), line)
        v, count = (int(found[1]), int(found[2])) if found else (0, 0)
        if not found or v >= len(replay.traces):
            return [f"no firing: {line!r}"]
        replay.use_until_fire(v)
        if replay.next_of(v) != "fits" or replay.traces[v][replay.used[v]][::2] != ("fire", count):
            return [f"{line!r} comes where it does not fit, in {out!r}"]
        replay.use(v)
    for v in range(len(replay.traces)):
        replay.use_until_fire(v)
    left = [v for v in range(len(replay.traces)) if replay.next_of(v) != "done"]
    return [f"rows of {left} are left after {out!r}"] if left else []
