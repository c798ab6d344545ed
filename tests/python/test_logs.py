"""Logs of distributed programs: what `judge_log` says of them, and logs of other forms.

Small logs are judged by hand, and random ones by all their consistent cuts (tests/cli/logs.py).
"""
import json
import random
import re
import unittest
from collections import Counter, defaultdict

import chipfire
import logs
from chipfire.lab import computations
from chipfire.lab import detectors
from chipfire.lab import schedules
from test_package import TRIANGLE, WithFolder

FOUR = chipfire.Setting(TRIANGLE, (4, 0, 0))
GRID = chipfire.grid(2, 2)

#: Process a wakes b, which wakes c, and each acknowledges when it is passive and has its acknowledgement.
FIRST = [("a", "active", 0), ("a", "send", "x"), ("a", "passive", 0), ("a", "hear", "x"), ("a", "over", 0)]
LAST = [("c", "receive", "y"), ("c", "passive", 0), ("c", "tell", "y")]
RIGHT = [*FIRST, *LAST, *(("b", kind, it) for kind, it in [
    ("receive", "x"), ("send", "y"), ("passive", 0), ("hear", "y"), ("tell", "x")])]
#: Here b acknowledges at once: by hand, when a claims b is active, and a has made 4 rows and b 2.
AT_ONCE = [*FIRST, *LAST, *(("b", kind, it) for kind, it in [
    ("receive", "x"), ("tell", "x"), ("send", "y"), ("passive", 0), ("hear", "y")])]


def named(rows, processes, channels):
    return [(processes(process), kind, channels(channel)) for process, kind, channel in rows]


def lines_of(rows, **options):
    """What is said of rows: the lines, or the number and the place of the fault."""
    try:
        return str(chipfire.judge_log(rows, **options)).split("\n")
    except chipfire.Fault as fault:
        return [fault.number, *fault.place]


def verdicts(rows, with_past=False):
    """The lines by all cuts, or the fault that is raised."""
    logs.row_faults(rows)
    return logs.judged(logs.Log(rows), with_past)[0]


def expected(rows, with_past=False):
    """The same, or what the fault has."""
    try:
        return verdicts(rows, with_past)
    except logs.Fault as fault:
        return list(fault.args)


def with_own_channels(draw, rows):
    """The rows of a run with a channel for each basic message, and the number of messages that overtake another one, drawn
    at random; none if a message is got here before it is sent."""
    sent, overtaken, apart = defaultdict(list), 0, []
    for at, (process, kind, channel) in enumerate(rows):
        if kind == "send":
            sent[channel].append(100 + at)
            channel = 100 + at
        elif kind == "receive":
            if not sent[channel]:
                return rows, 0
            which = draw.randrange(len(sent[channel]))
            overtaken += which > 0
            channel = sent[channel].pop(which)
        apart.append((process, kind, channel))
    return apart, overtaken


def fault_of(test, rows, **options):
    with test.assertRaises(chipfire.Fault) as raised:
        chipfire.judge_log(rows, **options)
    return raised.exception


class Verdicts(unittest.TestCase):
    def test_a_right_claim(self):
        judged = chipfire.judge_log(RIGHT)
        self.assertEqual((judged.claims, judged.end, judged.cut), ((("a", 4, None, {}),), "claimed", {}))
        self.assertIs(judged.is_right, True)
        self.assertEqual(str(judged), "over a 4 right\nend claimed")

    def test_an_early_claim_and_what_is_before_it(self):
        judged = chipfire.judge_log(AT_ONCE, past=True)
        self.assertEqual(judged.claims, (("a", 4, "process b is active", {"a": 4, "b": 2}),))
        self.assertIs(judged.is_right, False)
        lines = ["over a 4 early: process b is active", "past a 4", "past b 2", "end missed"]
        self.assertEqual(str(judged).split("\n"), lines)
        self.assertEqual(chipfire.judge_log(AT_ONCE).claims[0].past, {})

    def test_a_message_in_transit(self):
        rows = [("a", "active", 0), ("a", "send", "w"), *([("a", "send", ("to", "b"))] * 2), ("a", "passive", 0)]
        rows += [("b", "receive", ("to", "b")), ("b", "passive", 0), ("c", "receive", "w"), ("c", "passive", 0)]
        rows += [("b", "tell", 1), ("c", "tell", 2), ("a", "hear", 1), ("a", "hear", 2), ("a", "over", 0)]
        judged = chipfire.judge_log(rows)
        self.assertEqual(judged.claims[0].left, "message 1 of channel ('to', 'b') is on its way")
        self.assertEqual(judged.end, "open: message 1 of channel ('to', 'b') is on its way")

    def test_ends(self):
        claimless = [row for row in RIGHT if row[1] != "over"]
        for rows, end in [
            ([], "missed"), (claimless, "missed"), ([("a", "active", 0)], "open: process a is active"),
            ([row for row in claimless if row[:2] != ("a", "hear")], "unclaimed"),
        ]:
            judged = chipfire.judge_log(iter(rows))
            self.assertEqual((judged.claims, judged.end, judged.is_right), ((), end, None))

    def test_a_reactive_process_that_logs_when_it_is_passive(self):
        # By hand: b sends, hears of it, tells a, and is at work until its row 4. Without that row it would count as
        # passive after the last message that it sent, which is before a hears of it.
        rows = [("a", "send", "x"), ("a", "hear", "x"), ("a", "over", 0), ("c", "receive", "y"), ("c", "tell", "y")]
        rows += [("b", *it) for it in [("receive", "x"), ("send", "y"), ("hear", "y"), ("tell", "x"), ("passive", 0)]]
        self.assertEqual(lines_of(rows, reactive=True), ["over a 2 early: process b is active", "end missed"])
        self.assertEqual(lines_of(rows[:-1], reactive=True), ["over a 2 right", "end claimed"])

    def test_names_of_any_kind(self):
        for names in [
            {"a": 7, "b": -3, "c": 10**30}, {"a": ("p", 0), "b": ("p", 1), "c": ("q", 0)},
            {"a": None, "b": "b", "c": 2.5}, {"a": frozenset("a"), "b": frozenset("b"), "c": frozenset()},
        ]:
            judged = chipfire.judge_log(named(AT_ONCE, names.get, lambda it: (it, names.get("b"))), past=True)
            self.assertEqual(judged.claims[0].left, f"process {names['b']} is active")
            self.assertEqual(judged.claims[0].past, {names["a"]: 4, names["b"]: 2})

    def test_names_of_any_text(self):
        names = {"a": "end open: process 1\nover", "b": "channel 0: early", "c": '"process 2"'}
        claim, = chipfire.judge_log(named(AT_ONCE, names.get, str), past=True).claims
        self.assertEqual(claim, (names["a"], 4, f"process {names['b']} is active", {names["a"]: 4, names["b"]: 2}))

    def test_channels_of_kinds_without_one_are_no_names(self):
        rows = [(process, kind, [] if kind in ("active", "passive", "over") else it) for process, kind, it in RIGHT]
        self.assertIs(chipfire.judge_log(rows).is_right, True)

    def test_a_program_that_is_named(self):
        self.assertIs(chipfire.Program(chipfire.find_program()).judge_log(RIGHT).is_right, True)
        with self.assertRaises(chipfire.ProgramNotFound):
            chipfire.judge_log(RIGHT, program="/nowhere")

    def test_more_processes_and_channels_than_a_small_log_has(self):
        rows = [("root", "active", 0), *(("root", "send", it) for it in range(140_000)), ("root", "passive", 0)]
        rows += [row for it in range(10_000) for row in ((str(it), "receive", it), (str(it), "passive", 0))]
        judged = chipfire.judge_log([*rows, ("root", "over", 0)])
        self.assertEqual(judged.claims, (("root", 140_002, "message 0 of channel 0 is on its way", {}),))


class Faults(WithFolder):
    def test_rows_that_are_none(self):
        for row in [(), ("a",), ("a", "send"), ("a", "send", "x", 1), "abc", b"abc", 5, None]:
            fault = fault_of(self, [*RIGHT, row])
            self.assertEqual((fault.number, fault.name, fault.place), (24, "Row", (13,)))
            self.assertIn(f"row 13 of the log is {row!r}", str(fault))
        with self.assertRaises(TypeError):
            chipfire.judge_log([([], "over", 0)])

    def test_each_fault_of_a_row(self):
        woken = ("a", "active", 0)
        for rows, number, place in [
            *(([woken, ("a", kind, "x")], 28, 1) for kind in ("Send", None, "se\nnd", "\ud800", '"send"', "")),
            ([woken, ("a", "send", "x"), ("b", "tell", "x"), ("a", "tell", "x")], 31, 3),
            ([("a", "send", "x")], 32, 0), ([woken, woken], 33, 1),
        ]:
            for options in [{}, {"cut": True}, {"reactive": number != 32}]:
                fault = fault_of(self, rows, **options)
                self.assertEqual((fault.number, fault.place), (number, (place,)), rows)
                self.assertIn(f"row {place} of the log is {rows[place]!r}", str(fault))

    def test_rows_that_fit_in_no_order(self):
        rows = [row for row in RIGHT if row[:2] != ("b", "tell")]
        fault = fault_of(self, rows)
        self.assertEqual((fault.number, fault.name, fault.place), (70, "Stuck", ("a", 3)))
        self.assertIn("row 3 of the log is ('a', 'hear', 'x')", str(fault))
        rows = [("z", "over", 0), *(row for row in rows if row[1] not in ("active", "passive"))]
        fault = fault_of(self, rows, reactive=True)
        # (before a's row 1 an `active` is put in, and after it a `passive`)
        self.assertEqual((fault.number, fault.place), (70, ("a", 1)))
        self.assertIn("row 2 of the log is ('a', 'hear', 'x')", str(fault))

    def test_rows_after_those_that_fit(self):
        rows = [*RIGHT, ("b", "hear", "lost"), ("b", "over", 0), ("c", "receive", "z"), ("a", "over", 0)]
        self.assertEqual(fault_of(self, rows).place, ("b", 5))
        lines = ["cut b 5", "cut c 3", "over a 4 right", "over a 5 right", "end claimed"]
        self.assertEqual(lines_of(rows, cut=True), lines)
        self.assertEqual(chipfire.judge_log(rows, cut=True).cut, {"b": 5, "c": 3})

    def test_files(self):
        rows = named(RIGHT, "abc".index, lambda it: "xy".find(str(it)) + 1)
        text = "process,kind,channel\n" + "".join(f"{','.join(map(str, row))}\n" for row in rows)
        file = self.file("log.csv", text)
        for options in [{}, {"past": True}, {"cut": True}, {"reactive": True}]:
            self.assertEqual(lines_of(file, **options), ["over 0 4 right", "end claimed"])
        activity = self.file("activity.csv", re.sub(".*,(active|passive),.*\n", "", text))
        self.assertEqual(lines_of(activity, reactive=True), ["over 0 2 right", "end claimed"])
        self.assertEqual(lines_of(activity), [32, 0])

    def test_files_with_faults(self):
        head = "process,kind,channel\n"
        for text, number, place in [
            ("", 23, ()), ("process,kind\n", 23, ()), (f"{head}0,over\n", 24, (0,)),
            (f"{head}0,over,0\n0,over,x\n", 25, (1,)), (f"{head}-1,over,0\n", 25, (0,)),
            (f"{head}0,tell,99999999\n", 26, (0,)), (f"{head}0,Over,0\n", 28, (0,)), (f"{head}0,hear,0\n", 70, (0, 0)),
        ]:
            file = self.file("log.csv", text)
            fault = fault_of(self, file)
            self.assertEqual((fault.number, fault.place), (number, place))
            self.assertTrue(number == 70 or file in str(fault))
            if number < 26 or number == 28:
                for options in ({"reactive": True}, {"cut": True}):
                    fault = fault_of(self, file, **options)
                    self.assertEqual((fault.number, fault.place), (number, place), text)
        for options in ({}, {"reactive": True}):
            self.assertEqual(fault_of(self, self.file("none"), **options).number, 92)
        with open(file, "ab") as out:
            out.truncate(2**28 + 1)
        self.assertIn("judge takes files of up to 268435456 bytes.", str(fault_of(self, file)))


    def test_fields_of_a_file_before_what_its_rows_mean(self):
        for row, number in [
            ("1,over", 24), ("1,over,x", 25), (f"1,over,{'1' * 5000}", 25), ("1,tell,\u0661", 25),
            (f"1,over,{2**64}", 25), (f"{2**22},over,0", 26), ("1,Over,0", 28), (f"1,{'s' * 200_000},0", 28),
        ]:
            file = self.file("log.csv", f"process,kind,channel\n0,passive,0\n1,hear,0\n{row}\n")
            for options in ({"reactive": True}, {"cut": True}):
                fault = fault_of(self, file, **options)
                self.assertEqual((fault.number, fault.place), (number, (2,)), row[:40])


class Random(unittest.TestCase):
    """Random logs: what is said of them by all consistent cuts."""

    def drawn(self, seed, count, **options):
        draw = random.Random(seed)
        for _ in range(count):
            yield draw, logs.random_log(draw, **options)

    def test_numbers(self):
        for draw, rows in self.drawn(1, 200):
            with_past = draw.random() < 0.5
            self.assertEqual(lines_of(rows, past=with_past), expected(rows, with_past), rows)

    def test_names(self):
        found = Counter()
        for _, rows in self.drawn(2, 400):
            # (names go the other way round, so that another process is the least)
            must = expected(named(rows, lambda it: 3 - it, lambda it: 2 - it), True)
            if must[0] == 70:
                must[1] = "abcd"[must[1]]
            must = [it if isinstance(it, int) else in_letters(it) for it in must]
            came = lines_of(named(rows, "dcba".__getitem__, "CBA".__getitem__), past=True)
            self.assertEqual(came, must, rows)
            found[came[0] if isinstance(came[0], int) else came[0].split()[0]] += 1
        self.assertEqual({"over", "end", 31, 32, 33, 70}, found.keys())

    def test_names_without_an_order(self):
        for _, rows in self.drawn(3, 100):
            came = lines_of(named(rows, [0, "b", None, ()].__getitem__, [1j, (), ""].__getitem__))
            must = expected(rows)
            came, must = (Counter(re.findall(r"right|early|\bend \w+|^\[\d+", str(it))) for it in (came, must))
            self.assertEqual(came, must, rows)

    def test_logs_that_are_cut_off(self):
        count = 0
        for _, rows in self.drawn(4, 3000):
            must = expected(rows)
            if must[0] != 70:
                continue
            log = logs.Log(rows)
            furthest = dict(zip(log.processes, max(log.cuts((0,) * len(log.processes)), key=sum)))
            made, kept = Counter(), []
            for row in rows:
                kept += [row] * (made[row[0]] < furthest[row[0]])
                made[row[0]] += 1
            judged = chipfire.judge_log(rows, cut=True)
            self.assertEqual(judged.cut, {it: row for it, row in furthest.items() if row < made[it]})
            self.assertEqual(str(judged).split("\n")[len(judged.cut):], expected(kept))
            count += 1
        self.assertGreater(count, 30)

    def test_the_verdicts_on_a_log_that_is_cut_off_are_those_on_the_whole(self):
        count = 0
        for draw, rows in self.drawn(6, 2000, most=14, slips=0):
            # (each process with a part of its rows, and with the first: it says who begins active)
            length = {it: draw.randint(1, 6) for it in range(4)}
            made, kept = Counter(), []
            for row in rows:
                made[row[0]] += 1
                kept += [row] * (made[row[0]] <= length[row[0]])
            whole = expected(rows)
            if isinstance(whole[0], str) and len(kept) < len(rows) and expected(kept)[0] == 70:
                judged = chipfire.judge_log(kept, cut=True)
                lines = [line for line in str(judged).split("\n") if line.startswith("over ")]
                self.assertLessEqual({*lines}, {*whole}, (rows, kept))
                count += len(lines)
        self.assertGreater(count, 10)

    def test_rows_that_are_not_there(self):
        """docs/tasks/judge-a-log.md says which can make an early claim right."""
        found = Counter()
        for _, rows in self.drawn(7, 800, slips=0):
            for at, (_, kind, channel) in enumerate(rows):
                gone = {at}
                if kind == "tell":
                    hears = [it for it, row in enumerate(rows) if row[1:] == ("hear", channel)]
                    gone |= {*hears[sum(row[1:] == ("tell", channel) for row in rows[:at]):][:1]}
                both = (expected(rows), expected([row for it, row in enumerate(rows) if it not in gone]))
                if kind != "over" and all(isinstance(lines[0], str) for lines in both):
                    was, now = ([line.split(" ")[3] for line in lines if line.startswith("over")] for lines in both)
                    found.update((kind, *it) for it in zip(was, now))
        self.assertEqual({it[0] for it in found if it[1:] == ("early:", "right")}, {"send", "active"})
        rows = [*(("b", kind, 0) for kind in ("active", "tell", "passive", "tell")), ("a", "hear", 0), ("a", "over", 0)]
        self.assertEqual(lines_of(rows), ["over a 1 early: process b is active", "end unclaimed"])
        self.assertEqual(lines_of([rows[0], *rows[2:]]), ["over a 1 right", "end claimed"])

    def test_messages_that_overtake_one_another(self):
        """Basic messages of a channel may come in any order: the verdicts on claims are those where each message has a
        channel of its own."""
        count = 0
        for draw, rows in self.drawn(8, 10_000, most=14, slips=0):
            apart, overtaken = with_own_channels(draw, rows)
            if overtaken and any(kind == "over" for _, kind, _ in rows) and isinstance(expected(rows)[0], str):
                both = (lines_of(rows), expected(apart))
                was, now = ([line.split(" ")[:4] for line in lines if line.startswith("over")] for lines in both)
                self.assertEqual(was, now, rows)
                count += 1
        self.assertGreater(count, 40)

    def test_reactive_processes(self):
        found = Counter()
        for draw, rows in self.drawn(5, 500):
            # (no `passive`, or some)
            part = draw.choice([0, 0, 0.3])
            rows = [row for row in rows if row[1] not in ("active", "passive") or draw.random() < part]
            must = reactive(rows)
            if isinstance(must[0], int) and must[0] != 70:
                continue
            self.assertEqual(lines_of(rows, past=True, reactive=True), must, rows)
            first = str(must[0])
            found["early" if "early" in first else first.split()[0]] += 1
        self.assertGreater(min(found[it] for it in ("early", "over", "end", "70")), 5, found)


def in_letters(line):
    """A line of the program with letters for numbers."""
    line = re.sub(r"(over|process|past) (\d)", lambda it: f"{it[1]} {'abcd'[int(it[2])]}", line)
    return re.sub(r"channel (\d)", lambda it: f"channel {'ABC'[int(it[1])]}", line)


def reactive(rows):
    """What is to be said of the rows of reactive processes, by their parts: each begins with a `receive`."""
    told_rows, own = [], {}
    for process in sorted({row[0] for row in rows}):
        parts = [[]]
        for index, row in enumerate(row for row in rows if row[0] == process):
            parts += [[]] * (row[1] == "receive")
            parts[-1:] = [[*parts[-1], (row, index)]]
        mine = []
        for part in parts:
            kinds = [row[1] for row, _ in part]
            if not mine and "send" in kinds and "active" not in kinds:
                mine.append(((process, "active", 0), None))
            sends = [at for at, kind in enumerate(kinds) if kind == "send"]
            if "passive" not in kinds and (sends or kinds[:1] in (["receive"], ["active"])):
                part.insert((sends or [0])[-1] + 1, ((process, "passive", 0), None))
            mine += part
        told_rows += [row for row, _ in mine]
        own[process] = [index for _, index in mine]
    lines = []
    for line in (must := expected(told_rows, True)):
        words = str(line).split(" ")
        if words[0] == "over":
            words[2] = str(own[int(words[1])][int(words[2])])
        elif words[0] == "past":
            words[2] = str(sum(it is not None for it in own[int(words[1])][:int(words[2])]))
        lines += [" ".join(words)] * (words[0] != "past" or words[2] != "0")
    if not isinstance(must[0], int):
        return lines
    return [70, must[1], own[must[1]][must[2]]] if must[0] == 70 else must


class JsonLines(WithFolder):
    #: The right log, as three programs wrote it.
    WORDS = {
        "recv": "receive", "send": "send", "ack": "tell", "acked": "hear", "idle": "passive", "begin": "active",
        "done": "over",
    }

    def logs_of(self, rows):
        """A file for each process, without its name."""
        back, files = {kind: word for word, kind in self.WORDS.items()}, []
        for name in "abc":
            mine = [row for row in rows if row[0] == name]
            lines = [json.dumps({"event": back[kind], "on": [["c"], it]}) for _, kind, it in mine]
            files.append(self.file(f"{name}.log", "\n".join(['{"event": "debug"}', *lines, ""])))
        return files

    def test_a_file_for_each_process(self):
        files = self.logs_of(AT_ONCE)
        rows = chipfire.read_json_lines(files, process=None, kind=lambda it: self.WORDS.get(it["event"]), channel="on")
        names = dict(zip("abc", files))
        wanted = [row for name in "abc" for row in AT_ONCE if row[0] == name]
        of = ("send", "receive", "tell", "hear")
        self.assertEqual(rows, [(names[name], kind, (("c",), it) if kind in of else 0) for name, kind, it in wanted])
        self.assertEqual(chipfire.judge_log(rows).claims[0].left, f"process {files[1]} is active")

    def test_one_file_of_all(self):
        text = "".join(f'{json.dumps({"process": row[0], "kind": row[1], "channel": row[2]})}\r\n\n' for row in RIGHT)
        self.assertEqual(chipfire.read_json_lines(self.file("log", f"\ufeff{text}")), RIGHT)
        self.assertEqual(chipfire.read_json_lines([]), [])
        file = self.file("log", '{"kind": null}\n{"kind": "over", "process": 3}')
        self.assertEqual(chipfire.read_json_lines(file), [(3, "over", 0)])
        file = self.file("log", '["tell", [1, [2]]]\n')
        rows = chipfire.read_json_lines(file, process=1, kind=0, channel=lambda it: (it[1], "b"))
        self.assertEqual(rows, [((1, (2,)), "tell", ((1, (2,)), "b"))])

    def test_what_is_wrong_is_reported_with_file_and_line(self):
        for line, words in [
            ("{", "JSONDecodeError"), ("[1]", "TypeError"), ("3", "TypeError"), ("{}", "KeyError: 'kind'"),
            ("\xff", "Error"), ('{"kind": []}', "there is no kind ()"),
            ('{"kind": "Send"}', "ValueError: there is no kind 'Send', but send, tell"),
            ('{"kind": "over"}', "KeyError: 'process'"), ('{"kind": "tell", "process": 1}', "KeyError: 'channel'"),
            ('{"kind": "over", "process": {}}', "TypeError: unhashable"), ("[" * 100_000, "RecursionError"),
            ('{"kind": "tell", "process": 1, "channel": [{}]}', "TypeError: unhashable"),
        ]:
            file = self.file("log")
            with open(file, "wb") as out:
                out.write(b'\n{"kind": "over", "process": 1}\n' + line.encode("latin-1"))
            with self.assertRaises(ValueError) as raised:
                chipfire.read_json_lines([file])
            self.assertTrue(str(raised.exception).startswith(f"{file}: line 3: "), raised.exception)
            self.assertIn(words, str(raised.exception))
        with self.assertRaisesRegex(ValueError, "line 2: ZeroDivisionError"):
            chipfire.read_json_lines(file, kind=lambda it: 1 / 0)
        with self.assertRaises(FileNotFoundError):
            chipfire.read_json_lines(self.file("none"))


#: The layout with which ShiViz begins.
SHIVIZ = r"(?<event>.*)\n(?<host>\S*) (?<clock>{.*})"


def clocked(rows):
    """The events of rows that can happen as they stand: host, clock, text; and which of them get what is known."""
    clocks, flight, got, events, known = defaultdict(Counter), defaultdict(list), Counter(), [], set()
    for number, (process, kind, channel) in enumerate(rows):
        host = f"p{process}"
        clock, way, text = clocks[host], (kind in logs.CONTROL, channel), f"{kind} {channel}"
        clock[host] += 1
        if logs.delta(kind) < 0:
            sender, sent = flight[way].pop(0)
            known |= {number} if clock[sender] >= sent[sender] else set()
            clock |= sent
            text += f" #{got[way]}"
            got[way] += 1
        elif logs.delta(kind) > 0:
            text += f" #{len(flight[way]) + got[way]}"
            flight[way].append((host, Counter(clock)))
        events.append((host, dict(clock), text))
    return events, known


def govector(events):
    return "".join(f"{host} {json.dumps(clock)}\n{text}\n" for host, clock, text in events)


def kind_of(text):
    return None if text.startswith("(") else text.split()[0]


def message_of(text):
    return text.partition(" ")[2] or None


class ShiViz(WithFolder):
    #: Process a wakes b and c by one event, and hears of both, by hand.
    BROADCAST = [
        ("a", {"a": 1}, "active"), ("a", {"a": 2}, "send"), ("a", {"a": 3}, "passive"),
        ("b", {"a": 2, "b": 1}, "receive"), ("b", {"a": 2, "b": 2}, "passive"), ("b", {"a": 2, "b": 3}, "tell"),
        ("c", {"a": 2, "c": 1}, "receive"), ("c", {"a": 2, "c": 2}, "(works)"), ("c", {"a": 2, "c": 3}, "passive"),
        ("c", {"a": 2, "c": 4}, "tell"), ("a", {"a": 4, "b": 3, "c": 0}, "hear"),
        ("a", {"a": 5, "b": 3, "c": 4}, "hear"), ("a", {"a": 6, "b": 3, "c": 4}, "over"),
    ]

    def test_a_broadcast(self):
        rows = chipfire.read_shiviz(govector(self.BROADCAST), kind_of)
        sent, heard = ("a", 2), [(("b", 3), "a"), (("c", 4), "a")]
        rows_of = {name: [row[1:] for row in rows if row[0] == name] for name in "abc"}
        of = {name: [row for row in its if logs.delta(row[0])] for name, its in rows_of.items()}
        self.assertEqual(of["a"], [*(("send", (sent, it)) for it in "bc"), *(("hear", it) for it in heard)])
        self.assertEqual(of["b"], [("receive", (sent, "b")), ("tell", heard[0])])
        self.assertEqual(of["c"], [("receive", (sent, "c")), ("tell", heard[1])])
        self.assertEqual([row[0] for row in rows_of["c"]], ["receive", "passive", "tell"])
        self.assertEqual(str(chipfire.judge_log(rows)), "over a 6 right\nend claimed")
        early = chipfire.read_shiviz(govector([*self.BROADCAST[:-2], self.BROADCAST[-1]]), kind_of, gaps=True)
        self.assertIn("early: message 0 of channel (('a', 2), 'c') is on its way", str(chipfire.judge_log(early)))

    def test_a_message_that_nobody_gets(self):
        rows = chipfire.read_shiviz('a {"a": 1}\nsend\na {"a": 2}\nover\n', kind_of)
        self.assertEqual(rows[0], ("a", "send", (("a", 1), None)))

    def test_a_message_that_comes_twice(self):
        events = [("a", {"a": 1}, "active"), ("a", {"a": 2}, "send 1"), ("b", {"a": 2, "b": 1}, "receive 1")]
        twice = [*events, ("b", {"a": 2, "b": 2}, "receive 1")]
        rows = chipfire.read_shiviz(govector(twice), kind_of, message_of=message_of)
        self.assertEqual(rows[1:], [("a", "send", ("1", "b")), *[("b", "receive", ("1", "b"))] * 2])
        self.assertEqual(lines_of(rows), [70, "b", 1])

    def test_both_layouts_from_a_text_and_a_file(self):
        wanted = chipfire.read_shiviz(govector(self.BROADCAST), kind_of)
        self.assertEqual(chipfire.read_shiviz(govector(self.BROADCAST).replace("\n", "\r\n"), kind_of), wanted)
        other = "".join(f"{text}\n{host} {json.dumps(clock)}\n" for host, clock, text in self.BROADCAST)
        self.assertEqual(chipfire.read_shiviz(other, kind_of, expression=SHIVIZ), wanted)
        shuffled = [(host, clock, f"INFO {text}\n") for host, clock, text in self.BROADCAST]
        random.Random(1).shuffle(shuffled)
        head = r"(?<host>\S*) (?<clock>{.*})\n(?<event>.*)"
        text = f"{head}\n\n{govector(shuffled)}"
        read = chipfire.read_shiviz(self.file("log", text), lambda it: kind_of(it.partition(" ")[2]))
        self.assertEqual(sorted(read, key=str), sorted(wanted, key=str))
        self.assertEqual(str(chipfire.judge_log(read)), "over a 6 right\nend claimed")
        self.assertEqual(chipfire.read_shiviz("", kind_of), [])

    def test_random_logs(self):
        draw, found = random.Random(1), Counter()
        while min(found[it] for it in ("right", "early", "refused")) < 30:
            rows = logs.random_log(draw)
            try:
                must = verdicts(rows)
                events, known = clocked(rows)
            except (logs.Fault, IndexError):
                continue
            must = [(line.split()[1], line.split()[3].strip(":")) for line in must if line.startswith("over")]
            text = govector(events)
            for way in [{"message_of": message_of}, {}]:
                try:
                    judged = chipfire.judge_log(chipfire.read_shiviz(text, kind_of, **way))
                except ValueError as error:
                    self.assertTrue(not way and known and "give message_of" in str(error), (error, rows))
                    found["refused"] += 1
                    continue
                self.assertFalse(not way and known, rows)
                came = [(claim.process[1:], "early" if claim.left else "right") for claim in judged.claims]
                self.assertEqual(came, must, rows)
                found.update(it for _, it in came)

    def test_a_line_that_is_lost_is_refused(self):
        # By hand: b begins active, reports to a that it is passive, and is not, and a claims. Without b's first line b
        # would begin passive, and the claim be right.
        events = [("b", {"b": 1}, "active"), ("b", {"b": 2}, "tell"), ("a", {"a": 1, "b": 2}, "hear"),
                  ("a", {"a": 2, "b": 2}, "over"), ("b", {"b": 3}, "passive")]
        judged = chipfire.judge_log(chipfire.read_shiviz(govector(events), kind_of))
        self.assertEqual(judged.claims[0].left, "process b is active")
        with self.assertRaisesRegex(ValueError, "^line 1: the clock counts event 1 of 'b', which is not there; gaps"):
            chipfire.read_shiviz(govector(events[1:]), kind_of)
        self.assertIs(chipfire.judge_log(chipfire.read_shiviz(govector(events[1:]), kind_of, gaps=True)).is_right, True)

    def test_each_line_that_is_lost_and_counted(self):
        draw, found = random.Random(2), Counter()
        while min(found[it] for it in (True, False)) < 100:
            rows = logs.random_log(draw, slips=0)
            try:
                events, _ = clocked(rows)
            except IndexError:  # (rows in an order in which they cannot happen)
                continue
            for at, (host, clock, _) in enumerate(events):
                left = [*events[:at], *events[at + 1:]]
                is_counted = any(it.get(host, 0) >= clock[host] for _, it, _ in left)
                text = govector(left)
                found[is_counted] += 1
                chipfire.read_shiviz(text, kind_of, message_of=message_of, gaps=True)
                if is_counted:
                    with self.assertRaisesRegex(ValueError, f"event {clock[host]} of {host!r}, which is not there"):
                        chipfire.read_shiviz(text, kind_of, message_of=message_of)
                else:
                    chipfire.read_shiviz(text, kind_of, message_of=message_of)

    def test_what_is_wrong_is_reported_with_its_line(self):
        good = 'a {"a": 1}\nsend\n'
        for text, words in [
            ("nothing\n", "line 1: .* does not read 'nothing'"),
            (f"{good}\nb [1]\nreceive\n", "line 4: .* does not read"),
            (f"{good}b {{1}}\nreceive\n", "line 3: JSONDecodeError: Expecting"),
            *((f"{good}b {{{it}}}\nreceive\n", "line 3: .* is no clock of 'b'") for it in (
                '"a": 1', '"b": 1.5', '"b": 0', '"b": null')),
            (f'{good}b {{"b": 1}}\nOver\n', "line 3: ValueError: there is no kind 'Over'"),
            (f"{good}{good}", "line 3: the clock is no further"),
            ('a {"a": 1, "b": 2}\nsend\na {"a": 2}\npassive\nb {"b": 1}\ntell\nb {"b": 2}\ntell\n',
             "line 1: the clock is no further"),
            (f"{good}b {{\"b\": 1}}\n\n", "line 3: IndexError"),
            (f'{good}b {{"b": 1}}\nreceive\n', "line 3: .* give message_of"),
            (f'{good}b {{"a": 2, "b": 1}}\nreceive\n', "line 3: the clock counts event 2 of 'a', which is not there"),
            (f'{good}a {{"a": 3}}\nover\n', "line 3: the clock counts event 2 of 'a', which is not there"),
            (f'{good}b {{"b": 1, "c": 1}}\nover\n', "line 3: the clock counts event 1 of 'c'"),
            (f'a {{"a": 1}}\nover\nb {{"a": 1, "b": 1}}\nhear\n', "line 3: .* give message_of"),
        ]:
            with self.assertRaisesRegex(ValueError, f"^{words}"):
                chipfire.read_shiviz(text, kind_of)
        with self.assertRaisesRegex(ValueError, "^line 3: .* give message_of"):
            chipfire.read_shiviz(f'{good}b {{"a": 2, "b": 1}}\nreceive\n', kind_of, gaps=True)
        with self.assertRaisesRegex(ValueError, "^line 1: TypeError: unhashable"):
            chipfire.read_shiviz(good, kind_of, message_of=lambda _: [])
        with self.assertRaises(FileNotFoundError):
            chipfire.read_shiviz(self.file("none"), kind_of)
        with self.assertRaises(re.error):
            chipfire.read_shiviz(good, kind_of, expression="(")
        with self.assertRaises(IndexError):
            chipfire.read_shiviz(good, kind_of, expression=r"(?<host>\S*) (?<clock>{.*})\n.*")


def drawn(setting, detector, seed, feeds=(), seals=()):
    """A random schedule until the root is closed, which also feeds and seals all that is said, at any time."""
    core, draw, made = schedules.opened(setting, detector), random.Random(seed), []
    feeds, seals = list(feeds), list(seals)
    while not core.is_closed():
        events = [event for event in core.enabled() if event[0] != "end" or not feeds]
        if feeds:
            e = core.edges[feeds[0][0]]
            events += [("feed", *feeds[0]) if e.clear else ("clear", e.number, 0)] * (e.put == len(e.sent))
        event = draw.choice(events + [("seal", it, 0) for it in seals])
        core.step(*event)
        made.append(event)
        feeds = feeds[1:] if event[0] == "feed" else feeds
        seals = [it for it in seals if event != ("seal", it, 0)]
    return made


class Models(unittest.TestCase):
    RIGHT = ("right", "any-order", "safra", "credit")
    GAMES = (
        FOUR, chipfire.Setting(TRIANGLE, (0, 0, 0)), chipfire.Setting(TRIANGLE, (5, 3, 1), ring=2),
        chipfire.Setting(TRIANGLE, (7, 2, 0), limit=2), chipfire.Setting(GRID, (5, 3, 0, 4, 0)),
        computations.Flooding(GRID), computations.ShortestPaths(TRIANGLE, (0, 1)),
        computations.RandomWalk(TRIANGLE, {0: 3, 1: 2}), computations.Firing(TRIANGLE, (6, 1, 0)),
        computations.WorkStealing(chipfire.Graph(3, 2, ((0, 1), (1, 0), (0, 2))), 3),
    )

    def test_a_schedule_by_hand(self):
        sends = [("clear", 0), ("claim", 0), ("put", 0), ("clear", 1), ("claim", 1), ("put", 1)]
        events = [("take", 4), ("fire", 0, 2), ("take", 0), *sends, ("take", 0), ("ack", 0), ("settle", 0), ("take", 1),
                  ("ack", 1), ("settle", 1), ("ack", 4)]
        rows = schedules.model_log(FOUR, "right", [*events, ("settle", 4)])
        # (vertex 1 gets two chips, and may fire: it is active until it does)
        own = {it: [f"{kind} {at}" for process, kind, at in rows if process == it] for it in range(4)}
        self.assertEqual(own[3], ["active 0", "send 4", "passive 0"])
        self.assertEqual(own[0], ["receive 4", "send 0", "send 1", "passive 0", "hear 1"])
        self.assertEqual(own[1], ["receive 0"])
        self.assertEqual(own[2], ["receive 1", "passive 0", "tell 1"])

    def test_what_a_tail_sees_of_a_cell_and_of_a_seal_is_logged(self):
        # (seven edges, so a cell of edge 0 is logged on 7 and its seal on 14)
        sends = [("clear", 0), ("claim", 0), ("put", 0), ("clear", 1), ("claim", 1), ("put", 1)]
        events = [("take", 4), ("fire", 0, 1), *sends, ("fire", 0, 1), ("clear", 0), ("seal", 0), ("take", 0),
                  ("clear", 0), ("clear", 0), ("claim", 0)]
        rows = schedules.model_log(FOUR, "right", events)
        self.assertEqual([row for row in rows if row[0] == 1], [(1, "receive", 0), (1, "tell", 7), (1, "passive", 0)])
        self.assertEqual([row[1:] for row in rows if row[0] == 0],
                         [("receive", 4), ("send", 0), ("send", 1), ("hear", 7), ("hear", 14)])
        root = [("active", 0), ("send", 4), ("passive", 0), ("tell", 14)]
        self.assertEqual([row[1:] for row in rows if row[0] == 3], root)

    def test_right_detectors_are_right(self):
        count = 0
        for game in self.GAMES:
            for detector in self.RIGHT:
                for seed in range(16):
                    self.judge(game, detector, chipfire.random_schedule(game, seed, detector))
                    count += 1
        fed, ring = (chipfire.Setting(TRIANGLE, (4, 0, 0), fed=True, ring=ring) for ring in (1, 2))
        for game, feeds, seals in [(fed, [(4, 2), (5, 3)], []), (ring, [(4, 3)], [0]), (FOUR, [], [0, 3])]:
            for detector in self.RIGHT:
                for seed in range(16):
                    self.judge(game, detector, drawn(game, detector, seed, feeds, seals))
                    count += 1
        self.assertGreaterEqual(count, 800)

    def judge(self, game, detector, events):
        judged = chipfire.judge_log(chipfire.model_log(game, detector, events))
        self.assertEqual([claim.left for claim in judged.claims], [None], (detector, events))

    def test_each_wrong_detector_is_found(self):
        wrong = []
        for name, known in detectors.DETECTORS.items():
            found = chipfire.explore(known.game, name).schedule
            if found is not None:
                wrong.append(name)
                self.assertIs(chipfire.judge_log(chipfire.model_log(known.game, name, found)).is_right, False)
        self.assertEqual(wrong, ["at-once", "without-passive", "without-deficit", "one-edge", "safra-colourless"])
        early = Counter()
        for name in wrong:
            for game in self.GAMES:
                for seed in range(4):
                    events = chipfire.random_schedule(game, seed, name)
                    if schedules.is_early(schedules.played(game, name, events)):
                        early[name] += 1
                        self.assertIs(chipfire.judge_log(chipfire.model_log(game, name, events)).is_right, False)
        self.assertGreater(sum(early.values()), 40)

    def test_a_claim_that_is_missing(self):
        events = chipfire.random_schedule(FOUR, 1)
        judged = chipfire.judge_log(chipfire.model_log(FOUR, "right", events[:-1]))
        self.assertEqual((judged.is_right, judged.end), (None, "unclaimed"))

    def test_a_detector_of_ones_own_says_who_sends_to_whom(self):
        class Asks(detectors.AtOnce):
            """Asks once."""

            def own_events(self):
                yield "ask", 0, 0

            def ask(self, at):
                return "done"

        with self.assertRaisesRegex(ValueError, "ask is an event of Asks, whose `tells` does not say"):
            chipfire.model_log(FOUR, Asks, [("ask", 0, 0)])
        Asks.tells = lambda self, kind, at: [(3, at), (at, 3)]
        rows = chipfire.model_log(FOUR, Asks, [("ask", 0, 0)])
        # (after 3 times 7 channels, of 4 times 4 pairs)
        self.assertEqual(rows[-4:], [(3, "tell", 33), (0, "hear", 33), (0, "tell", 24), (3, "hear", 24)])


if __name__ == "__main__":
    unittest.main()
