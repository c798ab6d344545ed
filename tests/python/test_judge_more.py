"""More of `judge_log`: where the waits of a stuck log lead, long logs that are cut off, and `python3 -m chipfire judge-log`.

Small logs are judged by hand, and random ones by all their consistent cuts (tests/cli/logs.py).
"""
import contextlib
import io
import json
import os
import random
import re
import subprocess
import sys
import unittest
from collections import Counter
from unittest import mock

import chipfire
from chipfire.backend import process
from test_package import ROOT, WithFolder

sys.path.append(f"{ROOT}/tests/cli")
import logs  # noqa: E402  (verdicts by all consistent cuts)

#: A wakes b, which wakes c, and each acknowledges when it is passive and has its acknowledgement.
ROWS = [
    (0, "active", 0), (0, "send", 0), (0, "passive", 0), (0, "hear", 0), (0, "over", 0),
    (1, "receive", 0), (1, "send", 1), (1, "passive", 0), (1, "hear", 1), (1, "tell", 0),
    (2, "receive", 1), (2, "passive", 0), (2, "tell", 1),
]
EARLY = [*ROWS[:5], (1, "receive", 0), (1, "tell", 0), (1, "passive", 0)]


def without(*gone):
    return [row for row in ROWS if row not in gone]


def words_of(test, rows, **options):
    """What the fault of a stuck log says after its row."""
    with test.assertRaises(chipfire.Fault) as raised:
        chipfire.judge_log(rows, **options)
    test.assertEqual(raised.exception.number, 70)
    return raised.exception.words.partition("; ")[2]


def csv_of(rows):
    return "process,kind,channel\n" + "".join(f"{','.join(map(str, row))}\n" for row in rows)


class Waits(WithFolder):
    def test_the_sender_has_no_row_left(self):
        words = "it waits at its row 5 for control message 1 of channel 0, and process 1, which sends there, has no row left"
        self.assertEqual(words_of(self, [*ROWS, (0, "hear", 0)]), words)

    def test_nobody_sends_there(self):
        words = "it waits at its row 3 for control message 0 of channel 0, and no process sends there"
        self.assertEqual(words_of(self, without((1, "tell", 0))), words)

    def test_a_wait_that_leads_to_another_process(self):
        lead = "from there 1 wait leads to process 1, which"
        words = f"{lead} waits at its row 3 for control message 0 of channel 1, and no process sends there"
        self.assertEqual(words_of(self, without((2, "tell", 1))), words)
        lead = "from there 2 waits lead to process 2, which"
        words = f"{lead} waits at its row 0 for message 0 of channel 1, and no process sends there"
        self.assertEqual(words_of(self, without((1, "send", 1))), words)

    def test_a_doubled_row_far_from_the_least_process(self):
        # Each process but the last waits for the token of the one after it; the last heard its message twice.
        last = 124
        rows = [row for it in range(last) for row in [(it, "hear", it + 1), (it, "tell", it)]]
        rows += [(last, "hear", last + 1)] * 2 + [(last, "tell", last), (last + 1, "tell", last + 1)]
        lead = f"from there {last} waits lead to process {last}, which waits at its row 1"
        nobody = f"process {last + 1}, which sends there, has no row left"
        self.assertEqual(words_of(self, rows), f"{lead} for control message 1 of channel {last + 1}, and {nobody}")

    def test_a_circle(self):
        two = [(1, "hear", 2), (2, "hear", 1), (1, "tell", 1), (2, "tell", 2)]
        words = "each of these waits for the next, and the last for the first:"
        self.assertEqual(words_of(self, two), f"{words} 1, 2")
        lead = "from there 1 wait leads to process 1;"
        self.assertEqual(words_of(self, [(0, "hear", 3), *two, (1, "tell", 3)]), f"{lead} {words} 1, 2")
        ring = [row for it in range(10) for row in [(it, "hear", (it + 1) % 10), (it, "tell", it)]]
        self.assertEqual(words_of(self, ring), f"{words} 0, 1, 2, 3, 4, 5, 6, 7, and 2 more")

    def test_names_and_the_rows_of_reactive_processes(self):
        rows = [("a", "send", "x"), ("a", "hear", "y"), ("b", "receive", "x"), ("b", "hear", "lost"), ("b", "tell", "y")]
        lead = "from there 1 wait leads to process b, which waits at its row 1"
        words = f"{lead} for control message 0 of channel lost, and no process sends there"
        self.assertEqual(words_of(self, rows, reactive=True), words)

    def test_files(self):
        rows = without((2, "tell", 1))
        file = self.file("log.csv", csv_of(rows))
        with self.assertRaises(chipfire.Fault) as raised:
            chipfire.judge_log(file)
        self.assertEqual(raised.exception.place, (0, 3))
        words = f"row 3 of the log is (0, 'hear', 0); {words_of(self, rows)}"
        self.assertEqual(raised.exception.words, words)

    def test_a_pipe_is_not_read_again(self):
        file = self.file("pipe")
        os.mkfifo(file)
        with subprocess.Popen(["sh", "-c", f'printf "{csv_of([(0, "hear", 0)])}" >{file}']):
            with self.assertRaises(chipfire.Fault) as raised:
                chipfire.judge_log(file)
        self.assertEqual((raised.exception.place, raised.exception.words), ((0, 0), ""))

    def test_random_logs(self):
        """The last process of the words waits for a stream whose sender, by all cuts, has no row left; or all of a circle
        wait."""
        draw, found = random.Random(1), Counter()
        for _ in range(4000):
            rows = logs.random_log(draw, slips=0.2)
            try:
                logs.row_faults(rows)
            except logs.Fault:
                continue
            log = logs.Log(rows)
            furthest = dict(zip(log.processes, max(log.cuts(log.empty), key=sum)))
            left = {it: count for it, count in furthest.items() if count < len(log.steps[it])}
            if left:
                words = words_of(self, rows)
                found[self.checked(log, rows, left, words)] += 1
        self.assertGreater(min(found[it] for it in ("nobody", "no row", "circle")), 3, found)

    def checked(self, log, rows, left, words):
        """Which form words have, which are compared with what all cuts say."""
        if "each of these" in words:
            circle = [int(it) for it in words.rpartition(": ")[2].split(", ")]
            for one, other in zip(circle, [*circle[1:], circle[0]]):
                kind, channel = log.steps[one][left[one]]
                self.assertIn(other, left)
                self.assertIn((other, {"hear": "tell", "receive": "send"}[kind], channel), rows)
            return "circle"
        last = int((re.search(r"to process (\d+)", words) or [0, min(left)])[1])
        row, which, channel = map(int, re.search(r"row (\d+) for .*message (\d+) of channel (\d+)", words).groups())
        kind, where = log.steps[last][left[last]]
        self.assertEqual((row, channel), (left[last], where))
        self.assertEqual(which, log.steps[last][:row].count((kind, where)))
        senders = {it[0] for it in rows if it[1:] == ({"hear": "tell", "receive": "send"}[kind], where)}
        self.assertFalse(senders & left.keys())
        self.assertEqual("no process sends there" in words, not senders)
        return "no row" if senders else "nobody"


class FirstAndExpected(WithFolder):
    """`first` and `processes`."""

    TWO = [(1, "active", 0), (1, "over", 0), (1, "over", 0), (3, "over", 0)]

    def test_the_first_early_claim(self):
        judged = chipfire.judge_log(self.TWO, first=True, past=True)
        self.assertEqual(judged.claims, ((1, 1, "process 1 is active", {1: 1}),))
        self.assertEqual((judged.end, judged.is_right), ("early", False))
        self.assertEqual(str(judged), "over 1 1 early: process 1 is active\npast 1 1\nend early")
        file = self.file("log.csv", csv_of(self.TWO))
        self.assertEqual(chipfire.judge_log(file, first=True, past=True), judged)
        self.assertEqual(str(chipfire.judge_log(ROWS, first=True)), "over 0 4 right\nend claimed")

    def test_processes_that_are_expected(self):
        named = [("a", "over", 0), ("b", "passive", 0)]
        for rows, processes, absent in [
            (self.TWO, 1, 0), (self.TWO, [1, 3], None), (self.TWO, [3, 2, 1], 2), (named, ["b", "a"], None),
            (named, ["c", "b", "a"], "c"), (named, "aa", None), (named, 2, 0), ([], [None], None),
            (ROWS, 3, None), (ROWS, 4, 3),
        ]:
            for options in [{}, {"cut": True}, {"reactive": True}]:
                if absent is None and rows:
                    chipfire.judge_log(rows, processes=processes, **options)
                    continue
                with self.assertRaises(chipfire.Fault) as raised:
                    chipfire.judge_log(rows, processes=processes, **options)
                fault = raised.exception
                self.assertEqual((fault.number, fault.name, fault.place), (34, "Absent", (absent,)))
                self.assertIn(f"process {absent!r} has no row in the log", str(fault))

    def test_files_and_processes(self):
        file = self.file("log.csv", csv_of(self.TWO))
        for processes in (3, range(3)):
            with self.assertRaises(chipfire.Fault) as raised:
                chipfire.judge_log(file, processes=processes)
            self.assertEqual((raised.exception.number, raised.exception.place), (34, (0,)))
        for processes in (-1, 2**22 + 1):
            with self.assertRaises(chipfire.Fault) as raised:
                chipfire.judge_log(file, processes=processes)
            self.assertEqual(raised.exception.number, 91)

    def test_a_process_whose_rows_are_cut_off_is_there(self):
        judged = chipfire.judge_log([("a", "over", 0), ("b", "hear", 0)], cut=True, processes="ab")
        self.assertEqual(str(judged), "cut b 0\nover a 0 right\nend claimed")

    def test_random_logs(self):
        draw, found = random.Random(2), Counter()
        for _ in range(300):
            rows, options = logs.random_log(draw), (draw.random() < 0.5, draw.random() < 0.5, draw.choice([0, 0, 2, 3, 4]))
            try:
                logs.row_faults(rows)
                must = logs.judged(logs.Log(rows), *options)[0]
            except logs.Fault as fault:
                must = list(fault.args)
            try:
                came = str(chipfire.judge_log(rows, **dict(zip(("past", "first", "processes"), options)))).split("\n")
            except chipfire.Fault as fault:
                came = [fault.number, *fault.place]
            self.assertEqual(came, must, (rows, options))
            found[must[0] if isinstance(must[0], int) else must[-1]] += 1
        self.assertGreater(min(found[it] for it in (34, "end early", "end claimed")), 3, found)


class LongLogs(unittest.TestCase):
    def test_the_program_is_started_twice_for_any_number_of_cuts(self):
        # Each process has one hear more than the one before it has tells: by hand each is cut at its row 20.
        count, turns = 300, 10
        rows = [
            row for it in range(count)
            for row in [*[(it, "tell", it), (it, "hear", (it - 1) % count)] * turns, (it, "hear", (it - 1) % count), (it, "over", 0)]
        ]
        started = process._started
        with mock.patch.object(process, "_started", side_effect=started) as called:
            judged = chipfire.judge_log(rows, cut=True)
        asked = [call.args[0] for call in called.call_args_list if "judge" in call.args[0]]
        self.assertEqual(len(asked), 2)
        self.assertEqual(judged.cut, dict.fromkeys(range(count), 2 * turns))
        self.assertEqual((judged.claims, judged.end), ((), "missed"))


class Progress(WithFolder):
    def test_lines_of_progress_are_asked_for_and_handed_on(self):
        program = self.file("program", "#!/bin/sh\necho chipfire: progress: $* >&2\necho end missed\n")
        os.chmod(program, 0o755)
        for wanted in (True, False):
            errors = io.StringIO()
            with contextlib.redirect_stderr(errors):
                judged = chipfire.judge_log(ROWS, progress=wanted, program=program)
            self.assertEqual(judged.end, "missed")
            self.assertTrue(errors.getvalue().startswith("chipfire: progress: judge"))
            self.assertEqual("--progress" in errors.getvalue(), wanted)


class Command(WithFolder):
    """`python3 -m chipfire judge-log`."""

    def ran(self, *words, **options):
        command = [sys.executable, "-m", "chipfire", "judge-log", *words]
        package = os.path.dirname(os.path.dirname(chipfire.__file__))
        environment = {**os.environ, "PYTHONPATH": package}
        ran = subprocess.run(command, capture_output=True, encoding="utf-8", env=environment, timeout=60, **options)
        return ran.stdout.splitlines(), ran.returncode, ran.stderr

    def test_rows(self):
        right = ["over 0 4 right", "end claimed"]
        self.assertEqual(self.ran(self.file("log", csv_of(ROWS))), (right, 0, ""))
        self.assertEqual(self.ran("-", input=csv_of(ROWS)), (right, 0, ""))
        lines = ["over 0 4 early: process 1 is active", "past 0 4", "past 1 2", "end missed"]
        self.assertEqual(self.ran(self.file("log", csv_of(EARLY)), "--past"), (lines, 2, ""))
        lines = ["over 0 4 early: process 1 is active", "end early"]
        self.assertEqual(self.ran(self.file("log", csv_of(EARLY)), "--first", "--processes", "2"), (lines, 2, ""))
        lines, status, errors = self.ran(self.file("log"), "--processes=3")
        self.assertEqual((lines, status, errors.split(":")[1]), ([], 1, " fault 34 Absent 2"))
        self.assertEqual(self.ran(self.file("log", csv_of(ROWS[:1]))), (["end open: process 0 is active"], 3, ""))
        rows = without((0, "passive", 0), (1, "passive", 0), (2, "passive", 0))
        self.assertEqual(self.ran(self.file("log", csv_of(rows)), "--reactive"), (["over 0 3 right", "end claimed"], 0, ""))

    def test_faults(self):
        lines, status, errors = self.ran(self.file("log", csv_of(without((1, "tell", 0)))))
        self.assertEqual((lines, status), ([], 1))
        self.assertTrue(errors.startswith("chipfire: fault 70 Stuck 0 3: row 3 of the log is (0, 'hear', 0); it waits at"))
        self.assertEqual(self.ran(self.file("log"), "--cut")[:2], (["cut 0 3", "end missed"], 3))
        for words in [["log", "log"], ["log", "--kind", "x=y"], ["log", "--kind", "send"], ["log", "--shiviz", "--json"]]:
            lines, status, errors = self.ran(*words, cwd=self.folder)
            self.assertEqual((lines, status, "Traceback" in errors), ([], 1, False), words)

    def test_json_lines(self):
        for name in "abc":
            mine = [row for row in ROWS if row[0] == "abc".index(name)]
            lines = [{"act": f"{kind} it", "on": channel, "who": name} for _, kind, channel in mine]
            self.file(name, "".join(f"{json.dumps(line)}\n" for line in lines))
        files = [self.file(name) for name in "abc"]
        right = ["over a 4 right", "end claimed"]
        self.assertEqual(self.ran("--json", "--keys", "who", "act", "on", "--", *files), (right, 0, ""))
        right = [f"over {files[0]} 4 right", "end claimed"]
        self.assertEqual(self.ran("--json", "--keys", "-", "act", "on", "--", *files), (right, 0, ""))
        lines, status, errors = self.ran("--json", files[0])
        self.assertEqual((lines, status), ([], 1))
        self.assertIn(f"{files[0]}: line 1: KeyError", errors)
        kinds = [f"--kind={kind}={kind}" for kind in ("active", "send", "hear", "over")]
        early = ["over a 3 early: message 0 of channel 0 is on its way", "end open: message 0 of channel 0 is on its way"]
        files = [self.file("a"), self.file("d", '{"act": "tell", "on": 0, "who": "d"}\n')]
        self.assertEqual(self.ran("--json", *kinds, "--kind=t=tell", "--keys", "who", "act", "on", "--", *files), (early, 2, ""))

    def test_a_log_with_clocks(self):
        text = 'a {"a":1}\nbegins\na {"a":2}\nsends 7\na {"a":3}\nrests\nb {"a":2, "b":1}\ngets 7\nb {"a":2, "b":2}\nrests\n'
        text += 'b {"a":2, "b":3}\nacks\na {"a":4, "b":3}\nsees\na {"a":5, "b":3}\nclaims\n'
        kinds = {"begins": "active", "sends": "send", "gets": "receive", "acks": "tell", "sees": "hear", "rests": "passive"}
        words = ["--shiviz", *(f"--kind={word}={kind}" for word, kind in kinds.items()), "--kind=claims=over"]
        right = ["over a 4 right", "end claimed"]
        self.assertEqual(self.ran(self.file("log", text), *words), (right, 0, ""))
        self.assertEqual(self.ran("-", *words, input=text), (right, 0, ""))
        self.assertEqual(self.ran(self.file("log"), *words, r"--message=\d+|ack|sees"), ([], 1, mock.ANY))
        lost = self.file("lost", text.replace('a {"a":1}\nbegins\n', ""))
        lines, status, errors = self.ran(lost, *words)
        self.assertEqual((lines, status), ([], 1))
        self.assertIn("the clock counts event 1 of 'a', which is not there", errors)
        self.assertEqual(self.ran(lost, *words, "--gaps")[1], 1)
        above = re.sub(r"(.*})\n(.*)\n", r"\2\n\1\n", text)
        expression = r"(?<event>.*)\n(?<host>\S*) (?<clock>{.*})"
        self.assertEqual(self.ran(self.file("above", above), *words, "--expression", expression), (right, 0, ""))
        lines, status, errors = self.ran(self.file("log"), "--shiviz")
        self.assertEqual((lines, status), ([], 1))
        self.assertIn("line 1: ValueError: there is no kind 'begins'", errors)


if __name__ == "__main__":
    unittest.main()
