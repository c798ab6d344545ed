"""The package's objects and commands, on games whose results are known from outside.

The triangle has edges 0 to 1, 0 to the sink 2, 1 to 0 and 1 to the sink. Its plays are worked by hand in docs/GAME.md,
its schedules in examples/detector/README.md, and examples/ has the files that are compared here.
"""
import contextlib
import gc
import io
import itertools
import json
import os
import pickle
import re
import shutil
import signal
import subprocess
import sys
import tempfile
import time
import unittest
from unittest import mock

import chipfire
import model
import without
from chipfire.backend import process

HERE = os.path.dirname(os.path.realpath(__file__))
ROOT = os.path.dirname(os.path.dirname(HERE))
EXAMPLES = f"{ROOT}/examples"
TRIANGLE = chipfire.Graph(3, 2, ((0, 1), (0, 2), (1, 0), (1, 2)))
TRIANGLE_FILE = f"{EXAMPLES}/triangle/graph.json"
CHIPS_FILE = f"{EXAMPLES}/triangle/chips.csv"


def text_of(file_name):
    with open(file_name, encoding="utf-8", newline="") as file:
        return file.read()


class WithFolder(unittest.TestCase):
    """A test that has a folder of its own."""

    def setUp(self):
        room = tempfile.TemporaryDirectory(prefix="chipfire-python-")
        self.addCleanup(room.cleanup)
        self.folder = room.name

    def file(self, name, text=None):
        path = os.path.join(self.folder, name)
        if text is not None:
            with open(path, "w", encoding="utf-8", newline="") as file:
                file.write(text)
        return path

    def program(self, line):
        """A program that does what a line for a shell says, and prints the report of the triangle."""
        path = self.file("program", f"#!/bin/sh\n{line}\ncat {EXAMPLES}/triangle/report.json\n")
        os.chmod(path, 0o755)
        return path


class Graphs(WithFolder):
    def test_an_edge_without_a_multiplicity_sends_one_chip(self):
        self.assertEqual(TRIANGLE.edges, ((0, 1, 1), (0, 2, 1), (1, 0, 1), (1, 2, 1)))

    def test_a_graph_file_is_that_of_the_examples(self):
        TRIANGLE.write(self.file("graph.json"))
        self.assertEqual(json.loads(text_of(self.file("graph.json"))), json.loads(text_of(TRIANGLE_FILE)))
        self.assertEqual(chipfire.Graph.read(TRIANGLE_FILE), TRIANGLE)

    def test_the_grid_is_that_of_the_examples(self):
        self.assertEqual(chipfire.grid(8, 8), chipfire.Graph.read(f"{EXAMPLES}/grid/graph.json"))

    def test_a_path_dissipates_chips_at_both_ends(self):
        edges = [(0, 1, 1), (0, 3, 1), (1, 0, 1), (1, 2, 1), (2, 1, 1), (2, 3, 1)]
        graph = chipfire.path(3)
        self.assertEqual((graph.vertices, graph.sink, sorted(graph.edges)), (4, 3, edges))

    def test_each_vertex_of_a_torus_has_four_neighbours(self):
        graph = chipfire.torus(4, 3)
        heads = sorted(head for tail, head, _ in graph.edges if tail == 5)
        self.assertEqual((graph.vertices, graph.sink, heads), (12, 0, [1, 4, 6, 9]))
        self.assertEqual(graph.degrees(), (0,) + (4,) * 11)

    def test_edges_by_their_numbers(self):
        self.assertEqual((TRIANGLE.outs(1), TRIANGLE.ins(2), TRIANGLE.root_edge(0)), ([2, 3], [1, 3], 4))

    def test_names_and_numbers(self):
        graph = chipfire.Graph(2, 1, [(0, 1, 3)], ["a", "out"])
        self.assertEqual((graph.number("out"), graph.max_stable(), graph.chips({"a": 7})), (1, {"a": 2}, (7, 0)))
        with self.assertRaises(KeyError):
            graph.number("b")

    def test_what_is_no_graph_or_no_chips(self):
        for vertices, edges, names in [(2, [(0,)], ()), (2, [(0, -1)], ()), (2, [], ["a"]), (2, [], ["a", "a"])]:
            with self.assertRaises(ValueError):
                chipfire.Graph(vertices, 1, edges, names)
        for many in (2**31, 2**70):
            with self.assertRaisesRegex(ValueError, f"the head of edge 1 is above 2147483647: {many}"):
                chipfire.Graph(2, 1, [(0, 1), (0, many)])
        for chips in [[1], [1, 2, 3, 4], [1, 2, -3], {0: -1}, -1, [[1, 2, 3]], [[1], [2]]]:
            with self.assertRaises(ValueError):
                TRIANGLE.chips(chips)
        with self.assertRaises(TypeError):
            TRIANGLE.chips([0.5, 0, 0])
        with self.assertRaises(KeyError):
            TRIANGLE.chips({5: 1})

    def test_a_file_that_is_no_graph(self):
        for text in ["[]", "{}", '{"edges":[],"sink":0,"version":2,"vertices":1}']:
            with self.assertRaises(ValueError):
                chipfire.Graph.read(self.file("graph.json", text))


class Plain(WithFolder):
    def test_the_small_triangle(self):
        report = chipfire.plain(TRIANGLE, [4, 0, 0])
        self.assertEqual((report.chips, report.fired, report.over, report.sealed), ((1, 0, 3), (2, 1, 0), (), ()))
        self.assertTrue(report.closed)
        self.assertEqual((report.configuration, report.odometer), ({0: 1, 1: 0}, {0: 2, 1: 1}))

    def test_chips_as_a_list_a_dict_and_a_file_are_the_same(self):
        wanted = chipfire.Report((1, 0, 3), (2, 1, 0))
        for graph in (TRIANGLE, TRIANGLE_FILE):
            for chips in ([4, 0, 0], (4, 0, 0), {0: 4}, CHIPS_FILE):
                self.assertEqual(chipfire.plain(graph, chips), wanted)

    def test_a_play_of_files_knows_its_graph(self):
        self.assertEqual(chipfire.plain(TRIANGLE_FILE, CHIPS_FILE).odometer, {0: 2, 1: 1})

    def test_a_limit_stops_a_play(self):
        report = chipfire.plain(TRIANGLE, [5, 0, 0], limit=2)
        self.assertEqual((report.chips, report.fired, report.over), ((2, 0, 3), (2, 1, 0), (0,)))
        self.assertFalse(report.closed)

    def test_a_play_whose_progress_is_shown(self):
        report = chipfire.plain(TRIANGLE, [5, 0, 0], limit=2, progress=True)
        self.assertEqual((report.chips, report.fired, report.over), ((2, 0, 3), (2, 1, 0), (0,)))
        with self.assertRaises(chipfire.Fault) as raised:
            chipfire.run(TRIANGLE, [4, 0, 0], turns=1, progress=True)
        self.assertEqual((raised.exception.number, raised.exception.status), (61, 3))

    def test_the_progress_of_a_play_goes_to_standard_error(self):
        lines = ["chipfire: progress: 1 rounds, 3 firings", "chipfire: progress: 2 rounds, 4 firings"]
        program = self.program("; ".join(f"echo '{line}' >&2" for line in lines))
        with contextlib.redirect_stderr(io.StringIO()) as progress:
            reports = [chipfire.plain(TRIANGLE, [4, 0, 0], program=program, progress=True)]
            reports.append(chipfire.resume(TRIANGLE, reports[0], program=program, progress=True))
        self.assertEqual(([it.fired for it in reports], progress.getvalue().splitlines()), ([(2, 1, 0)] * 2, 2 * lines))

    def test_what_is_there_or_not_goes_by_its_truth(self):
        program = self.program(f'echo "$@" >{self.file("words")}')
        for value in (1, "yes", [0], 0, "", None):
            chipfire.plain(TRIANGLE_FILE, CHIPS_FILE, progress=value, program=program)
            words = ["plain", TRIANGLE_FILE, CHIPS_FILE, "--large", *["--progress"] * bool(value)]
            self.assertEqual(text_of(self.file("words")).split(), words)

    def test_each_option_is_handed_on(self):
        options = {"limit": 1, "ring": 2, "workers": 3, "dealt": True, "turns": 4, "trace_rows": 5, "progress": True}
        program = self.program(f'echo "$@" >{self.file("words")}')
        chipfire.run(TRIANGLE, {0: 4}, trace="/trace", feed=CHIPS_FILE, program=program, **options)
        words = "--large --limit=1 --ring=2 --workers=3 --dealt --turns=4 --trace-rows=5 --progress --trace=/trace"
        handed = text_of(self.file("words")).split()
        self.assertEqual(set(handed[3:]), {*words.split(), f"--feed={CHIPS_FILE}"})

    def test_the_largest_numbers(self):
        report = chipfire.plain(chipfire.Graph(2, 1, [(0, 1)]), [2**40, 0])
        self.assertEqual((report.chips, report.fired), ((0, 2**40), (2**40, 0)))

    def test_the_reports_of_the_examples(self):
        for game in ("triangle", "chain", "batch", "grid", "cycle", "path"):
            report = chipfire.plain(f"{EXAMPLES}/{game}/graph.json", f"{EXAMPLES}/{game}/chips.csv")
            self.assertEqual(report.text(), text_of(f"{EXAMPLES}/{game}/report.json"))

    def test_a_file_whose_name_begins_as_an_option(self):
        before = os.getcwd()
        self.addCleanup(os.chdir, before)
        os.chdir(self.folder)
        TRIANGLE.write("--graph.json")
        chipfire.write_chips("-c", TRIANGLE, {0: 4})
        self.assertEqual(chipfire.plain("--graph.json", "-c", limit=1).fired, (1, 0, 0))


class NumbersOfVertices(unittest.TestCase):
    """Results that name vertices by numbers: each call that takes names refuses them where names are others."""

    OTHERS = chipfire.Graph(3, 2, TRIANGLE.edges, [1, 0, "out"])

    def results(self, graph):
        """Numbers of vertices that results have: here that of the first one."""
        report = chipfire.plain(graph, [5, 0, 0], limit=1)
        books = chipfire.simulate(graph, [4, 0, 0], [("take", 4)], books=True).boards[-1].engaged
        fired = chipfire.replay(graph, [4, 0, 0], [(0, "take", 4, 4), (0, "fire", 0, 2)])
        return [report.over[0], chipfire.Report((3, 1, 1), (1, 0, 0), (0,)).over[0], fired[0].vertex, *books]

    def calls(self, graph, vertex):
        """What calls make of a vertex."""
        pile = chipfire.Pile(graph, 1)
        yield lambda: tuple(pile.drop(vertex))
        yield lambda: list(pile.drops([vertex]).size)
        yield lambda: list(chipfire.drops(graph, 0, [vertex]).size)
        yield lambda: chipfire.avalanche(graph, 1, vertex).fired
        yield lambda: chipfire.plain(graph, {vertex: 4}).fired
        yield lambda: chipfire.Configuration(graph, 1)[vertex]
        yield lambda: graph.number(vertex)

    def test_they_are_no_names_where_names_are_others(self):
        for vertex in self.results(self.OTHERS):
            self.assertEqual((vertex, repr(vertex), f"{vertex}", vertex + 1), (0, "0", "0", 1))
            for call in self.calls(self.OTHERS, vertex):
                self.assertRaisesRegex(TypeError, "vertex 0 of a result is a number, and its name is 1", call)
        for call in self.calls(self.OTHERS, 0):
            call()

    def test_they_are_names_where_there_are_no_others(self):
        same = chipfire.Graph(3, 2, TRIANGLE.edges, [0, "b", "out"])
        for graph in (TRIANGLE, same):
            for vertex in self.results(graph):
                wanted = [call() for call in self.calls(graph, 0)]
                self.assertEqual([call() for call in self.calls(graph, vertex)], wanted)

    def test_so_is_the_sink_of_a_graph(self):
        graph = chipfire.Graph(3, 2, TRIANGLE.edges, [1, 2, 0])
        for sink in (graph.sink, chipfire.check(graph).sink, pickle.loads(pickle.dumps(graph)).sink):
            self.assertRaisesRegex(TypeError, "vertex 2 of a result is a number, and its name is 0", graph.number, sink)
            self.assertEqual((graph.number(2), TRIANGLE.number(sink)), (1, 2))

    def test_a_report_keeps_them_as_they_are_written(self):
        report = chipfire.plain(self.OTHERS, [5, 0, 0], limit=1)
        for again in (chipfire.Report.parse(report.text(), self.OTHERS), pickle.loads(pickle.dumps(report))):
            self.assertEqual((again, again.text(), again.over), (report, report.text(), (0,)))
            self.assertRaises(TypeError, self.OTHERS.number, again.over[0])


class Stages(WithFolder):
    def test_three_stages_are_those_of_the_examples(self):
        first = chipfire.plain(TRIANGLE, [5, 0, 0], limit=1)
        second = chipfire.resume(TRIANGLE, first, limit=1)
        third = chipfire.resume(TRIANGLE, second)
        for report, name in [(first, "first"), (second, "second"), (third, "third")]:
            self.assertEqual(report.text(), text_of(f"{EXAMPLES}/stages/{name}.json"))
        self.assertEqual((third.total, third.closed, third.odometer), ((3, 1, 0), True, {0: 3, 1: 1}))

    def test_a_report_goes_through_a_file(self):
        chipfire.plain(TRIANGLE, [5, 0, 0], limit=1).write(self.file("first.json"))
        first = chipfire.Report.read(self.file("first.json"), TRIANGLE)
        self.assertEqual((first.over, first.configuration), ((0,), {0: 3, 1: 1}))
        self.assertEqual(chipfire.resume(TRIANGLE_FILE, self.file("first.json")).total, (3, 1, 0))

    def test_a_report_of_another_graph(self):
        report = chipfire.plain(chipfire.grid(4, 3), {5: 9}, limit=1)
        report.write(self.file("report.json"))
        for graph in (TRIANGLE, chipfire.grid(3, 3), chipfire.grid(5, 3), chipfire.torus(4, 4)):
            with self.assertRaises(ValueError):
                chipfire.Report.read(self.file("report.json"), graph)
        with self.assertRaisesRegex(ValueError, "another graph"):
            chipfire.resume(chipfire.grid(3, 4), report)
        edges = tuple(reversed(TRIANGLE.edges))
        named = chipfire.plain(chipfire.Graph(3, 2, edges, ["a", "b", "out"]), {"a": 5}, limit=1)
        self.assertEqual(chipfire.resume(TRIANGLE_FILE, named).total, (3, 1, 0))

    def test_a_report_that_no_play_on_the_graph_can_have(self):
        chipfire.plain(chipfire.grid(4, 3), {5: 200, 0: 9}).write(self.file("report.json"))
        for graph in (chipfire.grid(3, 4), chipfire.grid(2, 6), chipfire.grid(12, 1), chipfire.path(12)):
            with self.assertRaisesRegex(ValueError, "another graph"):
                chipfire.Report.read(self.file("report.json"), graph)
            with self.assertRaisesRegex(ValueError, "another graph"):
                chipfire.resume(graph, chipfire.Report.read(self.file("report.json")))
        # (worked by hand: nobody fired, so only who could fire shows that it is none of this graph)
        for chips, over, fits in [((2, 0, 0), (), False), ((2, 0, 0), (0,), True), ((1, 1, 9), (), True)]:
            self.assertEqual(chipfire.Report(chips, (0, 0, 0), over).fits(TRIANGLE), fits)
        # (0 fired once and 1 has not got its chip: it would have begun with -1)
        self.assertFalse(chipfire.Report((0, 0, 1), (1, 0, 0)).fits(TRIANGLE))
        for name in ("first", "second", "third"):
            chipfire.Report.read(f"{EXAMPLES}/stages/{name}.json", TRIANGLE)
        sealed = chipfire.simulate(TRIANGLE, [5, 0, 0], chipfire.Schedule().seal(1), rounds=10).report
        sealed.write(self.file("report.json"))
        self.assertEqual(chipfire.Report.read(self.file("report.json"), TRIANGLE), sealed)

    def test_reports_of_two_graphs_are_not_equal(self):
        wide, high = (chipfire.plain(chipfire.grid(*size), {}) for size in ((4, 3), (3, 4)))
        self.assertNotEqual(wide, high)
        self.assertEqual(wide, chipfire.Report((0,) * 13, (0,) * 13))
        self.assertNotEqual(wide, chipfire.Report((0,) * 13, (0,) * 12 + (1,)))

    def test_a_report_whose_lists_do_not_fit(self):
        start = {"graph": TRIANGLE, "chips": (3, 1, 1), "fired": (1, 0, 0), "over": (0,)}
        wrong = [{"chips": (3, 1)}, {"fired": (1, 0, 0, 0)}, {"prior": (1, 0)}, {"over": (3,)}, {"sealed": (-1,)}]
        for changed in [*wrong, {"fired": (1, 0, 1)}, {"graph": None, "fired": ()}]:
            with self.subTest(changed), self.assertRaises(ValueError):
                chipfire.Report(**{**start, **changed})

    def test_a_report_without_its_graph_has_no_names(self):
        with self.assertRaises(ValueError):
            chipfire.Report((1,), (0,)).configuration


class Large(WithFolder):
    """Graphs past the standard limits: 5,000 vertices, each with an edge that sends two chips to the sink."""

    FAN = chipfire.Graph(5000, 4999, [(vertex, 4999, 2) for vertex in range(4999)])
    CHIPS = {0: 5, 1: 1, 4998: 3}

    def fault_of(self, call, *arguments, **options):
        with self.assertRaises(chipfire.Fault) as caught:
            call(*arguments, **options)
        return caught.exception.number, caught.exception.place

    def test_a_large_graph_is_checked(self):
        wanted = chipfire.Check(5000, 4999, 4999, (2,) * 4999 + (0,), (1,) * 4999 + (0,))
        self.assertEqual(chipfire.check(self.FAN), wanted)

    def test_a_large_game_in_one_stage_and_in_two(self):
        whole = chipfire.plain(self.FAN, self.CHIPS, progress=True)
        self.assertEqual(whole, chipfire.Report((1, 1, *[0] * 4996, 1, 6), (2, 0, *[0] * 4996, 1, 0)))
        self.assertEqual(chipfire.stabilize(self.FAN, self.CHIPS), whole.configuration)
        first = chipfire.plain(self.FAN, self.CHIPS, limit=1)
        self.assertEqual((first.over, first.chips[4999]), ((0,), 4))
        second = chipfire.resume(self.FAN, first)
        self.assertEqual((second.chips, second.total, second.over), (whole.chips, whole.fired, ()))

    def test_a_large_game_of_files(self):
        self.FAN.write(self.file("graph.json"))
        chipfire.write_chips(self.file("chips.csv"), self.FAN, self.CHIPS)
        report = chipfire.plain(self.file("graph.json"), self.file("chips.csv"))
        self.assertEqual((report.fired[0], report.graph, sum(report.odometer.values())), (2, self.FAN, 3))
        report.write(self.file("report.json"))
        self.assertEqual(chipfire.resume(self.file("graph.json"), self.file("report.json")).total[0], 2)

    def test_a_small_graph_has_large_files(self):
        # (17 million bytes, which is more than a program takes without --large)
        rows = "00000000000000000002,00000000000000000001\n" * 400_000
        found = chipfire.drops(TRIANGLE, {}, self.file("drops.csv", f"vertex,chips\n{rows}"))
        self.assertEqual((len(found), found.report), (400_000, chipfire.Report((0, 0, 400_000), (0, 0, 0))))
        with open(self.file("large.csv"), "w", encoding="ascii") as file:
            file.truncate(2**28 + 1)
        with self.assertRaisesRegex(chipfire.Fault, "plain takes .* files of up to 268435456 bytes") as caught:
            chipfire.plain(TRIANGLE, file.name)
        self.assertEqual(caught.exception.name, "TooLong")

    def test_large_graphs_and_files_of_them(self):
        self.FAN.write(self.file("graph.json"))
        for graph in (self.FAN, self.file("graph.json")):
            self.assertEqual(chipfire.check(graph).edges, 4999)
            first = chipfire.plain(graph, {0: 5}, limit=1)
            self.assertEqual(chipfire.resume(graph, first).total[0], 2)
            self.assertEqual(chipfire.stabilize(graph, {0: 5}), {**dict.fromkeys(range(4999), 0), 0: 1})

    def test_the_machine_takes_large_graphs_too(self):
        self.assertEqual(chipfire.run(self.FAN, {0: 5}).fired[0], 2)
        self.assertEqual(chipfire.simulate(self.FAN, {0: 5}, [], rounds=3).report.fired[0], 2)
        self.assertEqual(list(chipfire.replay(self.FAN, {}, [])), [])
        many = chipfire.Graph(2, 1, [(0, 1)] * 65537)
        for play in (chipfire.plain, chipfire.run):
            self.assertEqual(play(many, {0: 65538}).fired, (1, 0))

    def test_the_limits_of_a_large_graph(self):
        most = chipfire.MAX_LARGE_VERTICES
        for vertices, fault in [(most, (8, (1,))), (most + 1, (1, ()))]:
            with self.subTest(vertices=vertices):
                self.assertEqual(self.fault_of(chipfire.check, chipfire.Graph(vertices, 0, ())), fault)

    def test_the_identity_of_a_large_grid(self):
        grid = chipfire.grid(70, 70)
        identity = chipfire.identity(grid)
        self.assertTrue(chipfire.is_recurrent(grid, identity))
        self.assertEqual(chipfire.add(grid, identity, identity), identity)
        self.assertEqual(identity, {70 * (square % 70) + square // 70: chips for square, chips in identity.items()})
        self.assertEqual(chipfire.recurrent_representative(grid, {}), identity)


class Detector(WithFolder):
    def test_the_schedules_of_the_examples(self):
        triangle = (TRIANGLE_FILE, CHIPS_FILE)
        edges = (f"{EXAMPLES}/detector/two-edges.json", f"{EXAMPLES}/detector/two-chips.csv")
        games = [("engaging-message-last", edges, {}), ("deficit", triangle, {}), ("left-open", triangle, {})]
        for name, game, options in [*games, ("sealed-half-way", triangle, {"rounds": 10})]:
            schedule = f"{EXAMPLES}/detector/{name}.csv"
            for rows in (schedule, chipfire.read_schedule(schedule)):
                simulation = chipfire.simulate(*game, rows, **options)
                self.assertEqual(self.text(simulation), text_of(f"{EXAMPLES}/detector/{name}.txt"))

    @staticmethod
    def text(simulation):
        end = f"root closed\n{simulation.report.text()}" if simulation.root_closed else "root open\n"
        return "".join(f"{reply}\n" for reply in simulation.replies) + end

    def test_a_root_may_close_though_the_report_is_not_closed(self):
        simulation = chipfire.simulate(TRIANGLE, [4, 0, 0], chipfire.Schedule().seal(1), rounds=10)
        self.assertTrue(simulation.root_closed)
        self.assertEqual((simulation.report.sealed, simulation.report.closed), ((0,), False))

    def test_a_reply_in_words(self):
        events = chipfire.Schedule().take(4).ack(4)
        took, early = chipfire.simulate(TRIANGLE, {0: 4}, events).replies
        self.assertEqual((took.kind, took.numbers, took.is_done, took.rule), ("got", (0, 4), True, None))
        self.assertEqual((str(early), early.is_done), ("not-now 15", False))
        self.assertEqual(early.rule, "a message of the edge may be acknowledged now")
        self.assertEqual((took.name, took.why, early.name), (None, None, "Engaged"))
        self.assertEqual(early.why, "the message that engaged the vertex may not be acknowledged yet")

    def test_the_names_of_rules_are_those_of_the_program(self):
        listed = subprocess.run([chipfire.find_program(), "explain", "rule"], capture_output=True, encoding="utf-8").stdout
        named = {int(number): (name, why) for number, name, why in re.findall(r"(?m)^rule (\d+) (\w+): (.*)$", listed)}
        self.assertEqual(chipfire.machine.UNMET, named)
        self.assertEqual(chipfire.machine.UNMET.keys(), chipfire.RULES.keys())

    def test_the_books_of_the_small_run(self):
        game = [f"{EXAMPLES}/detector/{name}" for name in ("small-run.json", "two-chips.csv", "small-run.csv")]
        simulation = chipfire.simulate(*game, books=True)
        self.assertEqual((len(simulation.replies), len(simulation.boards)), (23, 23))
        # after A got b: docs/DETECTOR.md, step 7
        engaged = {0: chipfire.machine.Books(3, 1, {1: 1, 3: 1}), 1: chipfire.machine.Books(0, 2, {0: 1})}
        self.assertEqual(simulation.boards[13], chipfire.Board(1, engaged))
        self.assertEqual(simulation.boards[-1], chipfire.Board(0, {}))
        self.assertEqual(chipfire.simulate(*game).replies, simulation.replies)
        self.assertEqual(chipfire.simulate(*game).boards, ())

    def test_a_play_that_is_fed(self):
        events = chipfire.Schedule().feed(4, 3).take(4).feed(4, 1).end()
        simulation = chipfire.simulate(TRIANGLE, {}, events, fed=True, rounds=10)
        self.assertEqual(" ".join(map(str, simulation.replies[:4])), "done 0 sent 0 3 done 3 got 0 3")
        self.assertEqual((simulation.report.chips, simulation.report.fired), ((1, 0, 3), (2, 1, 0)))
        late = chipfire.simulate(TRIANGLE, {}, chipfire.Schedule().end().feed(4, 1), fed=True).replies
        self.assertEqual(late[1].rule, "no event has ended the feeding yet")
        self.assertFalse(chipfire.simulate(TRIANGLE, {}, [], fed=True, rounds=10).root_closed)

    def test_an_empty_schedule_of_an_empty_game_closes(self):
        self.assertTrue(chipfire.simulate(TRIANGLE, {}, []).root_closed)

    def test_a_schedule_goes_through_a_file(self):
        events = chipfire.Schedule().take(4).fire(0, 2).send(0).halt(0).settle(0).seal(1).read(0).feed(6, 9).end()
        chipfire.write_schedule(self.file("schedule.csv"), events)
        self.assertEqual(chipfire.read_schedule(self.file("schedule.csv")), events)
        lines = ["event,at,count", "take,4,0", "fire,0,2", "clear,0,0", "claim,0,0", "put,0,0", "halt,0,0"]
        lines += ["settle,0,0", "seal,1,0", "read,0,0", "clear,6,0", "feed,6,9", "put,6,0", "end,0,0", ""]
        self.assertEqual(text_of(self.file("schedule.csv")), "\n".join(lines))


class Traces(WithFolder):
    def test_the_trace_of_the_examples(self):
        trace = f"{EXAMPLES}/triangle/trace.csv"
        rows = chipfire.read_trace(trace)
        for given in (trace, rows):
            self.assertEqual(chipfire.replay(TRIANGLE, [4, 0, 0], given), [(0, 2), (1, 1)])
        chipfire.write_trace(self.file("trace.csv"), rows)
        self.assertEqual(text_of(self.file("trace.csv")), text_of(trace))


class Rows(WithFolder):
    def test_a_mark_of_the_byte_order_is_no_part_of_the_header(self):
        chips = self.file("chips.csv", f"\ufeff{text_of(CHIPS_FILE)}")
        self.assertEqual(chipfire.read_chips(chips, TRIANGLE), (4, 0, 0))
        schedule = self.file("schedule.csv", "\ufeffevent,at,count\nfire,0,2\n")
        self.assertEqual(chipfire.read_schedule(schedule), [("fire", 0, 2)])
        noted = self.file("noted.csv", "\ufeffevent,at,count,note\ntake,4,0,all four\n")
        for found in (chipfire.read_schedule(noted), chipfire.simulate(TRIANGLE, {0: 4}, noted)):
            self.assertEqual(found.notes, {0: "all four"})
        trace = self.file("trace.csv", "\ufeffvertex,kind,edge,count\n0,fire,0,2\n")
        self.assertEqual(chipfire.read_trace(trace), [(0, "fire", 0, 2)])

    def test_chips_that_the_program_refuses(self):
        rows = {"0,1\n-1,5": (25, 1), "0,-7": (25, 0), "1,2\n0,1\n1,2": (27, 2), "9,1": (26, 0), "0": (24, 0)}
        for text, (number, row) in rows.items():
            with self.subTest(text), self.assertRaises(chipfire.Fault) as caught:
                chipfire.read_chips(self.file("chips.csv", f"vertex,chips\n{text}\n"), TRIANGLE)
            self.assertEqual((caught.exception.number, caught.exception.place), (number, (row,)))


class Refusals(WithFolder):
    def refused(self, call, *arguments, **options):
        with self.assertRaises(chipfire.Fault) as caught:
            call(*arguments, **options)
        return caught.exception

    def test_a_fault_has_number_name_and_place(self):
        fault = self.refused(chipfire.check, chipfire.Graph(4, 3, [(0, 1), (1, 0), (2, 3)]))
        self.assertEqual((fault.number, fault.name, fault.place, fault.status), (8, "Unreached", (0,), 1))

    def test_a_fault_with_two_numbers(self):
        trace = [(1, "take", 0, 1), (0, "take", 4, 4), (0, "fire", 0, 2)]
        fault = self.refused(chipfire.replay, TRIANGLE, {0: 4}, trace)
        self.assertEqual((fault.number, fault.name, fault.place), (70, "Stuck", (1, 0)))

    def test_a_fault_says_what_the_program_explains(self):
        fault = self.refused(chipfire.plain, TRIANGLE, self.file("chips.csv", "vertex,chips\n0,4\n0,-1\n"))
        self.assertEqual((fault.number, fault.place), (25, (1,)))
        self.assertEqual(fault.explanation, chipfire.explain(25).strip())
        self.assertTrue(str(fault).startswith(f"fault 25 Number 1: in {self.file('chips.csv')}\nfault 25"))

    def test_files_are_counted_from_the_command(self):
        for files, place in [(("missing", CHIPS_FILE), 1), ((TRIANGLE_FILE, "missing"), 2)]:
            fault = self.refused(chipfire.plain, *files, limit=3)
            self.assertEqual((fault.number, fault.name, fault.place), (92, "Open", (place,)))

    def test_faults_of_every_command(self):
        wrong = self.file("wrong", "{")
        self.assertEqual(self.refused(chipfire.check, wrong).number, 20)
        self.assertEqual(self.refused(chipfire.simulate, TRIANGLE, {0: 1}, [("jump", 0)]).number, 28)
        self.assertEqual(self.refused(chipfire.resume, TRIANGLE, wrong).number, 50)
        for many in (2**40 + 1, 2**64, 2**90):
            self.assertEqual(self.refused(chipfire.plain, TRIANGLE, {0: many}).number, 10)
            self.assertEqual(self.refused(chipfire.plain, TRIANGLE, [2**40, many, 0]).number, 10)


class Mistakes(WithFolder):
    """Each mistake has one exception, in the words of who made it."""

    def test_a_file_that_is_no_good_is_one_fault_however_the_chips_come(self):
        bad, none = self.file("bad.json", "{"), self.file("none.json")
        for name, number, said in [(bad, 20, "in .*bad.json"), (none, 92, "none.json cannot be opened")]:
            calls = [(chipfire.check, ()), (chipfire.identity, ()), (chipfire.order, ())]
            calls += [(chipfire.resume, (CHIPS_FILE,))]
            for chips in (CHIPS_FILE, {0: 1}, [1, 0, 0], 1):
                calls += [(chipfire.plain, (chips,)), (chipfire.is_recurrent, (chips,)), (chipfire.frames, (chips,))]
                calls += [(chipfire.run, (chips,)), (chipfire.simulate, (chips, [])), (chipfire.replay, (chips, []))]
            for call, others in calls:
                with self.subTest(call=call.__name__, chips=others):
                    fault = self.fault(call, name, *others)
                    self.assertRegex(str(fault), said)
                    self.assertEqual(fault.number, number)

    def test_a_graph_file_of_another_shape_is_one_fault_too(self):
        whole = {"edges": [[0, 1, 1]], "sink": 1, "version": 1, "vertices": 2}
        wrong = [{"edges": 5}, {"edges": [3]}, {"edges": [[0, 1, "1"]]}, {"vertices": "2"}, {"sink": None}]
        texts = [json.dumps({**whole, **it}) for it in [*wrong, {"version": 2}]]
        texts += ["[" * 5000, '{"edges":[]}', "\udcff"]
        for text in texts:
            with open(self.file("graph.json"), "w", encoding="utf-8", errors="surrogateescape") as file:
                file.write(text)
            with self.subTest(text[:50]):
                faults = [self.fault(chipfire.plain, file.name, chips) for chips in (CHIPS_FILE, {0: 1})]
                numbers = {fault.number for fault in faults}
                self.assertEqual(len(numbers), 1)
                self.assertLessEqual(numbers, {20, 21, 22})

    def test_what_is_no_report(self):
        for text in (
            '{"version":1}', '{"version":3}', "[]", "{", '{"chips":1,"fired":[],"over":[],"sealed":[],"version":1}',
            '{"chips":[1],"fired":[0],"over":["a"],"sealed":[],"version":1}',
        ):
            with self.subTest(text), self.assertRaises(ValueError):
                chipfire.Report.read(self.file("report.json", text))

    def test_the_file_of_rows_is_named(self):
        wrong = self.file("wrong.csv", "no,header\n")
        for call, arguments, said in [
            (chipfire.plain, (TRIANGLE, wrong), f"in {wrong}"),
            (chipfire.simulate, (TRIANGLE, CHIPS_FILE, wrong), f"in {CHIPS_FILE} or {wrong}"),
            (chipfire.simulate, (TRIANGLE, {}, wrong), f"in {wrong}"),
            (chipfire.simulate, (TRIANGLE, {}, [("jump", 0)]), "in the schedule"),
            (chipfire.replay, (TRIANGLE, {}, [(7, "take", 0, 1)]), "in the trace"),
            (chipfire.resume, (TRIANGLE, wrong), f"in {wrong}"),
        ]:
            with self.subTest(said), self.assertRaises(chipfire.Fault) as caught:
                call(*arguments)
            self.assertEqual(caught.exception.words, said)
        with self.assertRaises(chipfire.Fault) as caught:
            chipfire.run(TRIANGLE, {}, feed=wrong)
        self.assertEqual((caught.exception.number, caught.exception.words), (23, f"in {wrong}"))
        none = self.file("none.csv")
        for call, option in [(chipfire.run, {"feed": none}), (chipfire.plain, {"guess": none})]:
            fault = self.fault(call, TRIANGLE, {}, **option)
            self.assertEqual((fault.number, fault.words), (92, f"{none} cannot be opened, or is also written"))

    def test_vertices_are_called_by_their_names(self):
        for edges, said in [
            ([("a", "b"), ("b", "a")], "no walk leads to the sink from 2 of the vertices: 'a', 'b'"),
            ([("a", "out"), ("b", "b")], "edge 1 from 'b' to 'b' is a loop"),
            ([("a", "out"), ("out", "b")], "edge 1 from 'out' to 'b' leaves the sink"),
        ]:
            names = ["a", "b", "out"]
            graph = chipfire.Graph(3, 2, [tuple(map(names.index, edge)) for edge in edges], names)
            for call, more in [
                (chipfire.check, ()), (chipfire.plain, ({},)), (chipfire.run, ({},)), (chipfire.order, ()),
                (chipfire.identity, ()), (chipfire.is_recurrent, ({},)), (chipfire.is_stable, ({},)),
                (chipfire.simulate, ({}, [])), (chipfire.burning_script, ()), (chipfire.laplacian, ()),
                (lambda it: list(chipfire.recurrents(it)), ()),
            ]:
                with self.subTest(said, call=call), self.assertRaisesRegex(ValueError, said):
                    call(graph, *more)

    def test_no_option_of_a_shell_is_spoken_of(self):
        report = self.file("report.json", "[]")
        large = chipfire.Graph(2**21 + 1, 0, [])
        for call, arguments in [(chipfire.check, (large,)), (chipfire.plain, (TRIANGLE, {0: 2**41})),
                                (chipfire.resume, (TRIANGLE, report)), (chipfire.check, (self.file("none"),))]:
            with self.assertRaises(chipfire.Fault) as caught:
                call(*arguments)
            self.assertNotIn("--", str(caught.exception))
        self.assertIn("2097153 vertices, and 2097152 at most", str(self.fault(chipfire.check, large)))
        few = self.file("few.json", '{"edges":[],"sink":0,"version":1,"vertices":0}')
        self.assertIn("check takes 1 to 2097152 vertices", str(self.fault(chipfire.check, few)))
        no_chips = self.file("chips.csv", "vertex,chips\n")
        self.assertIn("run takes 1 to 2097152 vertices", str(self.fault(chipfire.run, few, no_chips)))

    def fault(self, call, *arguments, **options):
        with self.assertRaises(chipfire.Fault) as caught:
            call(*arguments, **options)
        return caught.exception

    def test_an_option_out_of_its_range_is_named(self):
        ranges = {
            "limit": (-1, 2**40 + 1), "ring": (0, 65), "workers": (0, 65), "turns": (0, 2**40 + 1),
            "trace_rows": (-1, 2**20 + 1), "rounds": (-1, 2**40 + 1),
        }
        for name, wrong in ranges.items():
            call, others = (chipfire.simulate, [[]]) if name == "rounds" else (chipfire.run, [])
            refused = [(value, ValueError, "(above|below)") for value in wrong]
            for value, refusal, said in [*refused, (1.5, TypeError, "no whole"), ("1", TypeError, "no whole")]:
                with self.subTest(name), self.assertRaisesRegex(refusal, f"^{name.replace('_', '.')} is {said}"):
                    call(TRIANGLE, {}, *others, **{name: value})
        report = chipfire.plain(TRIANGLE, {})
        for call, others in [(chipfire.plain, [{}]), (chipfire.resume, [report]), (chipfire.replay, [{}, []])]:
            with self.assertRaisesRegex(ValueError, "^limit is above"):
                call(TRIANGLE, *others, limit=2**41)

    def test_words_that_the_program_does_not_take_are_reported(self):
        fault = self.fault(chipfire.explain, 999)
        self.assertEqual((fault.number, fault.words), (91, "it does not take the word `999`"))
        usage = "{ echo 'chipfire: fault 91 Usage' >&2; exit 1; }"
        tried = [
            ("test $1 = explain", "word `plain`"),
            ('case "$*" in *--limit*) false;; esac', "word `--limit=3`"),
            ('case "$*" in *--l*) false;; esac', "words `--large --limit=3`"),
            ('case "$*" in *--large*--limit*) false;; esac', f"words `plain (graph) {CHIPS_FILE} --large --limit=3`"),
        ]
        for taken, words in tried:
            fault = self.fault(chipfire.plain, TRIANGLE, CHIPS_FILE, limit=3, program=self.program(f"{taken} || {usage}"))
            said = f"fault 91 Usage: it does not take the {words}"
            self.assertEqual(str(fault).partition("\n")[0].rstrip(), said, fault)
        taken = 'case "$*" in *--limit*) false;; plain*) test $# -ge 3;; esac'
        fault = self.fault(chipfire.plain, CHIPS_FILE, CHIPS_FILE, limit=3, program=self.program(f"{taken} || {usage}"))
        self.assertEqual(fault.words, "it does not take the word `--limit=3`")

    def test_of_the_words_one_that_is_no_utf_8_is_reported(self):
        fault = self.fault(chipfire.plain, TRIANGLE, os.fsdecode(b"caf\xe9.csv"), limit=3)
        self.assertEqual((fault.number, fault.words), (91, r"it does not take the word `caf\udce9.csv`"))

    def test_what_is_no_graph_at_all(self):
        for value in (None, 3, {0: [1]}):
            for call in (chipfire.check, chipfire.order, lambda it: chipfire.plain(it, {}), chipfire.identity):
                with self.subTest(value), self.assertRaisesRegex(TypeError, "a graph is a chipfire.Graph or the name"):
                    call(value)

    def test_a_program_that_is_another_one(self):
        chipfire.identity(TRIANGLE)  # (the result of one program is not that of another)
        for program in ("/bin/true", "/bin/echo", self.program("exit 7")):
            for call in (lambda **it: chipfire.plain(TRIANGLE, {}, **it), lambda **it: chipfire.check(TRIANGLE, **it),
                         lambda **it: chipfire.is_recurrent(TRIANGLE, {}, **it),
                         lambda **it: chipfire.identity(TRIANGLE, **it)):
                with self.subTest(program), self.assertRaisesRegex(RuntimeError, "no answer of chipfire"):
                    call(program=program)

    def test_families_have_sizes(self):
        for call, sizes in [
            (chipfire.grid, (-2, -3)), (chipfire.grid, (0, 3)), (chipfire.grid, (3, 0)), (chipfire.path, (0,)),
            (chipfire.cycle, (2,)), (chipfire.torus, (2, 3)), (chipfire.complete, (0,)), (chipfire.wheel, (3,)),
            (chipfire.aztec, (0,)), (chipfire.region, ([],)), (chipfire.region, ([[0, 0]],)),
            (chipfire.region, ([[1], [1, 1]],)),
        ]:
            with self.subTest(call.__name__, sizes=sizes), self.assertRaises(ValueError):
                call(*sizes)
        with self.assertRaisesRegex(ValueError, "no lattice is named 'round'"):
            chipfire.region([[1]], "round")

    def test_a_graph_is_never_changed(self):
        with self.assertRaisesRegex(AttributeError, "never changed"):
            TRIANGLE.sink = 0


class Killed(WithFolder):
    """Whatever becomes of Python, no program goes on and no file is left."""

    # (a shell that starts the tests beside others has them ignore SIGINT)
    PLAY = ("import chipfire, signal, threading\nsignal.signal(signal.SIGINT, signal.default_int_handler)\n"
            "if %r: chipfire.backend.process._has_setpriv = lambda: False\n"
            "g = chipfire.grid(9, 9)\n"
            "play = lambda: chipfire.plain(g, {0: 4}, program=%r)\n%s")

    def setUp(self):
        super().setUp()
        os.mkdir(self.file("temporary"))
        self.file("pids", "")

    def begun(self, how, is_copied=False, before=""):
        """A Python that plays by a program that does not end by itself, either started by setpriv or as a copy."""
        program = self.program(f"echo $$ >>{self.file('pids')}; exec sleep 60")
        environment = {**os.environ, "TMPDIR": self.file("temporary"), "PATH": before + os.environ["PATH"]}
        python = subprocess.Popen([sys.executable, "-c", self.PLAY % (is_copied, program, how)], env=environment,
                                  stderr=subprocess.DEVNULL)
        self.addCleanup(python.wait)
        self.addCleanup(python.kill)
        return python

    def processes(self, name="pids"):
        """The numbers of processes that a file has."""
        return [int(line) for line in text_of(self.file(name)).splitlines(True) if line.endswith("\n")]

    def wait(self, is_so):
        for _ in range(2000):
            if is_so():
                return
            time.sleep(0.02)
        self.fail("it took more than forty seconds")

    @staticmethod
    def is_running(process):
        try:
            with open(f"/proc/{process}/stat", encoding="ascii") as file:
                return file.read().rpartition(")")[2].split()[0] != "Z"
        except (FileNotFoundError, ProcessLookupError):
            return False

    @unittest.skipUnless(sys.platform == "linux", "only Linux signals to a process that its parent ended")
    def test_the_program_ends_with_python_and_leaves_no_file(self):
        thread = "threading.Thread(target=play).start()"
        cases = [(signal.SIGTERM, "play()"), (signal.SIGINT, "play()"), (signal.SIGKILL, "play()"),
                 (signal.SIGTERM, thread), (signal.SIGKILL, thread)]
        for (sent, how), is_copied in itertools.product(cases, (False, True)):
            with self.subTest(sent, how=how, is_copied=is_copied):
                self.file("pids", "")
                python = self.begun(how, is_copied)
                self.wait(self.processes)
                self.assertTrue(self.is_running(*self.processes()))
                python.send_signal(sent)
                self.wait(lambda: not self.is_running(*self.processes()))
                python.wait(10)
                self.assertEqual(os.listdir(self.file("temporary")), [])

    @unittest.skipUnless(process._has_setpriv(), "this system has no setpriv that sets a signal for a parent's end")
    def test_a_python_that_ends_before_setpriv_has_asked_starts_no_program(self):
        # Another setpriv comes first on the path. It waits, and begins after Python has ended.
        waits = f"echo $$ >>{self.file('waiting')}; until test -e {self.file('go')}; do sleep 0.05; done"
        script = f"#!/bin/sh\ncase $* in *--version) ;; *) {waits};; esac\nexec {shutil.which('setpriv')} \"$@\"\n"
        os.mkdir(self.file("first"))
        os.chmod(self.file("first/setpriv", script), 0o755)
        for how in ("play()", "threading.Thread(target=play).start()"):
            self.file("waiting", "")
            python = self.begun(how, before=self.file("first") + ":")
            self.wait(lambda: self.processes("waiting"))
            python.kill()
            python.wait(10)
            self.assertTrue(self.is_running(*self.processes("waiting")))
            self.file("go", "")
            self.wait(lambda: not self.is_running(*self.processes("waiting")))
            self.assertEqual(self.processes(), [])
            os.remove(self.file("go"))

    @unittest.skipUnless(sys.platform == "linux", "only Linux signals to a process that its parent ended")
    def test_a_python_that_is_killed_at_once(self):
        # (from before the program starts until after it has: whichever is first, nothing is left)
        for step in range(20):
            python = self.begun("play()", is_copied=step % 4 == 3)
            time.sleep(0.12 + 0.01 * step)
            python.kill()
            python.wait(10)
        time.sleep(0.5)
        self.wait(lambda: not any(map(self.is_running, self.processes())))

    def test_a_graph_is_written_once_and_goes_with_the_object(self):
        graph, count, program = chipfire.grid(4, 4), lambda: len(os.listdir("/dev/fd")), chipfire.find_program()
        chipfire.is_recurrent(chipfire.path(2), {}, program=program)
        gc.collect()
        before = count()
        for _ in range(9):
            chipfire.is_recurrent(graph, graph.max_stable(), program=program)
        self.assertEqual(count(), before + 1)
        with mock.patch.object(chipfire.Graph, "_parts", side_effect=AssertionError):
            chipfire.plain(graph, {0: 9}, program=program)
        kept = pickle.dumps(graph)
        del graph
        gc.collect()
        self.assertEqual(count(), before)
        copy = pickle.loads(kept)
        self.assertEqual((copy, copy.shape, chipfire.plain(copy, {0: 9}).fired[0]), (chipfire.grid(4, 4), (4, 4), 2))

    def test_many_graphs_keep_few_files_open(self):
        play = ("import chipfire, concurrent.futures, resource\n"
                "resource.setrlimit(resource.RLIMIT_NOFILE, (128, 128))\n"
                "paths = [chipfire.path(1 + n % 7) for n in range(200)]\n"
                "program = chipfire.find_program()\n"
                "play = lambda graph: chipfire.plain(graph, {0: 9}, program=program).chips[0]\n"
                "one = [play(path) for path in paths + paths[:9]]\n"
                "with concurrent.futures.ThreadPoolExecutor(4) as pool: several = list(pool.map(play, paths))\n"
                "print(one[:200] == several, *one[200:])")
        ran = subprocess.run([sys.executable, "-c", play], capture_output=True, encoding="utf-8")
        paths = [chipfire.path(1 + n % 7) for n in range(9)]
        wanted = [model.stabilized(path, [9, *[0] * (path.vertices - 1)])[0][0] for path in paths]
        self.assertEqual((ran.stdout.split(), ran.stderr), (["True", *map(str, wanted)], ""))


class Checks(unittest.TestCase):
    def test_the_triangle(self):
        self.assertEqual(chipfire.check(TRIANGLE), chipfire.Check(3, 4, 2, (2, 2, 0), (1, 1, 0)))

    def test_degrees_are_those_of_the_program(self):
        grid, path, torus = chipfire.grid(5, 3), chipfire.path(4), chipfire.torus(3, 4)
        for graph in (grid, path, torus, chipfire.cycle(6), chipfire.complete(5)):
            self.assertEqual(chipfire.check(graph).degrees, graph.degrees())


class Finding(WithFolder):
    def test_package_and_program_have_one_version(self):
        ran = subprocess.run([chipfire.find_program(), "--version"], capture_output=True, encoding="utf-8")
        self.assertEqual(ran.stdout.split()[-1], chipfire.__version__)

    def test_a_program_that_is_not_there(self):
        with self.assertRaises(chipfire.ProgramNotFound):
            chipfire.check(TRIANGLE, program=self.file("nothing"))

    def test_the_program_is_named_found_or_missed(self):
        program = chipfire.find_program()
        os.symlink(program, self.file("chipfire"))
        with mock.patch.dict(os.environ, {"CHIPFIRE": "/elsewhere"}):
            self.assertEqual(chipfire.Program().path, "/elsewhere")
            self.assertEqual(chipfire.Program(program).path, program)
        ask = "import chipfire; print(chipfire.find_program())"
        shutil.copytree(f"{ROOT}/python/chipfire", self.file("copy/chipfire"))
        for path, status in [(self.folder, 0), (f"{self.folder}/empty", 1)]:
            environment = without.environment(self.file("copy"), PATH=path)
            ran = subprocess.run([sys.executable, "-c", ask], env=environment, capture_output=True, encoding="utf-8")
            self.assertEqual((ran.returncode, ran.stdout), (status, "" if status else f"{self.folder}/chipfire\n"))

    def test_pip_installs_the_package_and_it_finds_the_program_that_is_built_later(self):
        clone, source = self.file("clone"), "crates/chip_arguments/src"
        for folder in ("python", "packing", "tools", source):
            shutil.copytree(f"{ROOT}/{folder}", f"{clone}/{folder}")
        words = [sys.executable, "-m", "pip", "install", "--quiet", "--no-index", "--disable-pip-version-check"]
        shutil.copytree(f"{ROOT}/python", self.file("alone"))
        copied = [*words, "--target", self.folder, self.file("alone")]
        ran = subprocess.run(copied, capture_output=True, encoding="utf-8")
        self.assertIn("chipfire is installed from a checkout of its repository", ran.stderr)
        subprocess.run([*words, "--target", self.folder, f"{clone}/python"], check=True, stderr=subprocess.DEVNULL)
        os.mkdir(f"{clone}/target")
        os.symlink(chipfire.find_program(), f"{clone}/target/chipfire")
        ask = "import chipfire as it; print(it.__file__, it.__version__, it.plain(it.path(1), [3]).fired)"
        environment = without.environment(self.folder, PATH="")
        ran = subprocess.run([sys.executable, "-c", ask], env=environment, capture_output=True, encoding="utf-8")
        self.assertEqual(ran.stdout, f"{self.folder}/chipfire/__init__.py {chipfire.__version__} (1, 0)\n")
        files = [TRIANGLE_FILE, CHIPS_FILE, f"{EXAMPLES}/triangle/trace.csv"]
        words = [sys.executable, "-m", "chipfire", "page", *files]
        ran = subprocess.run(words, env=environment, cwd=self.folder, capture_output=True, encoding="utf-8")
        self.assertEqual((ran.stdout[:15], ran.stderr), ("<!doctype html>", ""))


class Running(WithFolder):
    """The command `run`, if the program has it."""

    def setUp(self):
        super().setUp()
        if subprocess.run([chipfire.find_program(), "run", "--help"], capture_output=True).returncode:
            self.skipTest("this program has no command run")

    def test_the_small_triangle_and_its_trace(self):
        report = chipfire.run(TRIANGLE, {0: 4}, workers=1, trace=self.file("trace.csv"))
        self.assertEqual(report, chipfire.Report((1, 0, 3), (2, 1, 0)))
        self.assertEqual(sum(count for _, count in chipfire.replay(TRIANGLE, {0: 4}, self.file("trace.csv"))), 3)

    def test_a_trace_that_is_cut_is_warned_of(self):
        with self.assertWarns(chipfire.TraceCut):
            chipfire.run(TRIANGLE, {0: 4}, workers=1, trace=self.file("trace.csv"), trace_rows=1)

    def test_a_run_that_is_not_finished(self):
        with self.assertRaises(chipfire.Fault) as caught:
            chipfire.run(TRIANGLE, {0: 4}, workers=2, turns=1)
        self.assertEqual((caught.exception.number, caught.exception.status), (61, 3))

    def test_a_run_that_is_dealt_out(self):
        for workers in (1, 2, 3, 64):
            with self.subTest(workers=workers):
                report = chipfire.run(TRIANGLE, {0: 3}, workers=workers, dealt=True, feed={0: 1})
                self.assertEqual(report, chipfire.Report((1, 0, 3), (2, 1, 0)))
        self.assertEqual(chipfire.run(TRIANGLE, {0: 4}, workers=1, dealt=True, turns=7).fired, (2, 1, 0))
        with self.assertRaises(chipfire.Fault) as caught:
            chipfire.run(TRIANGLE, {0: 4}, workers=1, dealt=True, turns=6)
        self.assertEqual((caught.exception.number, caught.exception.status), (61, 3))

    def test_a_run_that_is_fed(self):
        for start, feed in [({}, {0: 4}), ({0: 3}, [1, 0, 0]), ([4, 0, 0], {}), ({}, CHIPS_FILE)]:
            with self.subTest(start=start, feed=feed):
                for graph in (TRIANGLE, TRIANGLE_FILE):
                    self.assertEqual(chipfire.run(graph, start, feed=feed), chipfire.Report((1, 0, 3), (2, 1, 0)))

    def test_feeds_go_by_names(self):
        graph = chipfire.Graph(2, 1, [(0, 1, 3)], ["a", "out"])
        report = chipfire.run(graph, {"a": 2}, feed={"a": 5, "out": 1}, limit=1)
        self.assertEqual((report.chips, report.over), ((4, 4), (0,)))
        with self.assertRaises(KeyError):
            chipfire.run(graph, {}, feed={"b": 1})

    def test_feeds_that_are_refused(self):
        for feed, fault in [({2: 1}, (10, ())), (self.file("none.csv"), (92, (3,))), (TRIANGLE_FILE, (23, ()))]:
            with self.subTest(feed=feed), self.assertRaises(chipfire.Fault) as caught:
                chipfire.run(TRIANGLE, {2: chipfire.MAX_CHIPS}, feed=feed)
            self.assertEqual((caught.exception.number, caught.exception.place), fault)


if __name__ == "__main__":
    unittest.main()
