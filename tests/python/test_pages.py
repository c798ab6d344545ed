"""Pages of runs: the state after each event, how rounds and traces are spelled out, and the text of a page.

The state is compared with the program's replies, books and reports, and with the sums of the replies, on the schedules
of examples/detector and on random ones.
"""
import dataclasses
import html
import json
import os
import random
import re
import subprocess
import sys
import tempfile
import time
import unittest

import chipfire
from chipfire.lab import choosing
from chipfire.lab import layout
from chipfire.lab import ledger
from chipfire.lab import sentences
from chipfire.lab import wrong
from strategies import drawn

HERE = os.path.dirname(os.path.realpath(__file__))
ROOT = os.path.dirname(os.path.dirname(HERE))
EXAMPLES = f"{ROOT}/examples"
TRIANGLE = chipfire.Graph(3, 2, ((0, 1), (0, 2), (1, 0), (1, 2)))

#: The schedules of examples/detector: their graph, chips and options, as its README has them.
DETECTOR = {
    "engaging-message-last": ("detector/two-edges.json", "detector/two-chips.csv", {}),
    "deficit": ("triangle/graph.json", "triangle/chips.csv", {}),
    "sealed-half-way": ("triangle/graph.json", "triangle/chips.csv", {"rounds": 10}),
    "left-open": ("triangle/graph.json", "triangle/chips.csv", {}),
    "small-run": ("detector/small-run.json", "detector/two-chips.csv", {}),
    "fed-twice": ("triangle/graph.json", "triangle/no-chips.csv", {"fed": True, "rounds": 10}),
    "engaged-twice": ("detector/engaged-twice.json", "detector/two-chips.csv", {}),
}


def detector(name, **more):
    """The simulation of a schedule of examples/detector."""
    graph, chips, options = DETECTOR[name]
    files = [f"{EXAMPLES}/{graph}", f"{EXAMPLES}/{chips}", f"{EXAMPLES}/detector/{name}.csv"]
    return chipfire.simulate(*files, **options, **more)


class Tally:
    """The state, added up from the replies alone."""

    def __init__(self, setting):
        graph, self.setting = setting.graph, setting
        self.rows = [*graph.edges, *((None, vertex, 0) for vertex in range(graph.vertices))]
        counts = dict.fromkeys(("pending", "claimed", "sent", "taken", "acknowledged", "settled"), 0)
        self.edges = [dict(counts) for _ in self.rows]
        for edge in self.edges:
            edge.update(cells=[], clear=False, refused=False, sealed=False)
        self.vertices = [{"chips": 0, "fired": 0, "halted": None, "parent": None} for _ in range(graph.vertices)]
        self.ended = not setting.fed
        for vertex, count in enumerate(setting.chips):
            if count:
                self.edges[graph.root_edge(vertex)].update(sent=1, cells=[(0, count)])

    def outs(self, vertex):
        return [edge for edge, (tail, _, _) in zip(self.edges, self.rows) if tail == vertex]

    def state(self):
        deficits = {vertex: sum(it["sent"] - it["settled"] for it in self.outs(vertex))
                    for vertex in (None, *range(len(self.vertices)))}
        root = {"deficit": deficits[None], "ended": self.ended, "closed": self.ended and not deficits[None]}
        vertices = [{**it, "deficit": deficits[vertex]} for vertex, it in enumerate(self.vertices)]
        edges = [{**it, "owed": it["taken"] - it["acknowledged"]} for it in self.edges]
        return {"root": [root], "vertices": vertices, "edges": edges}

    def note(self, event, reply):
        if not reply.is_done or event.kind == "read":
            return
        number, numbers = event.at, reply.numbers
        if event.kind in ("fire", "halt"):
            vertex = self.vertices[number]
            if event.kind == "halt":
                vertex["halted"] = ("seal", "limit")[numbers[0]]
                return
            vertex["fired"] = numbers[0]
            vertex["chips"] -= event.count * self.setting.graph.degrees()[number]
            for edge, (tail, _, mult) in zip(self.edges, self.rows):
                edge.update({"pending": event.count * mult} if tail == number else {})
            return
        if event.kind == "end":
            self.ended, number = True, len(self.setting.graph.edges)
        edge, vertex = self.edges[number], self.vertices[self.rows[number][1]]
        if reply.kind == "got":
            self.assert_next(edge, numbers)
            edge["cells"], edge["taken"] = edge["cells"][1:], edge["taken"] + 1
            vertex["chips"] += numbers[1]
            vertex["parent"] = number if vertex["parent"] is None else vertex["parent"]
        elif event.kind == "ack":
            edge["acknowledged"] += numbers[0]
            if vertex["parent"] == number and edge["acknowledged"] == edge["taken"]:
                vertex["parent"] = None
        elif event.kind == "clear":
            edge["clear"] = reply.kind == "done"
        elif reply.kind == "sealed":
            edge.update(clear=False, refused=True)
        elif reply.kind == "sent":
            edge.update(pending=0, clear=False, sent=numbers[0] + 1, claimed=numbers[1])
        elif event.kind == "put":
            edge.update(claimed=0, cells=[*edge["cells"], (edge["sent"] - 1, numbers[0])])
        elif event.kind in ("settle", "end"):
            edge["settled"] += numbers[0]
        elif event.kind == "seal":
            edge["sealed"] = True

    @staticmethod
    def assert_next(edge, numbers):
        assert edge["cells"][0] == numbers, (edge, numbers)

    def position(self):
        """The chips of each vertex, with all that is in transit to it."""
        found = [it["chips"] for it in self.vertices]
        for edge, (_, head, _) in zip(self.edges, self.rows):
            found[head] += edge["pending"] + edge["claimed"] + sum(count for _, count in edge["cells"])
        return tuple(found)


def random_graph(numbers):
    """A graph of a few vertices, each with an edge to a later one, and the last as the sink."""
    size = numbers.randint(2, 6)
    edges = [(tail, numbers.randint(tail + 1, size - 1), numbers.randint(1, 2)) for tail in range(size - 1)]
    for _ in range(numbers.randint(0, 6)):
        tail, head = numbers.randrange(size - 1), numbers.randrange(size)
        if tail != head:
            edges.append((tail, head, numbers.randint(1, 3)))
    return chipfire.Graph(size, size - 1, edges)


def random_game(numbers, fed):
    """The setting of a small game, which may be limited."""
    graph = random_graph(numbers)
    chips = [numbers.randint(0, 9) for _ in range(graph.vertices)]
    limit = numbers.choice([1, 2, 2**40])
    return chipfire.Setting(graph, tuple(chips), limit, numbers.randint(1, 3), fed)


def random_events(numbers, graph, count):
    """Events of all kinds, most of them at a vertex that an event before was at, so that many are done."""
    edges = len(graph.edges) + graph.vertices
    kinds = ["take", "ack", "fire", "clear", "claim", "put", "settle"] * 6 + ["halt", "seal", "read", "feed", "end"]
    events, at = [], 0
    for _ in range(count):
        kind = numbers.choice(kinds)
        at = at if numbers.random() < 0.6 else numbers.randrange(edges)
        place = at % graph.vertices if kind in ("fire", "halt", "read", "end") else at
        events.append(chipfire.Event(kind, place, numbers.randint(1, 3)))
    return events


def asked(setting, events, **options):
    """What the program returns for a schedule, with its books."""
    game = {"limit": setting.limit, "ring": setting.ring, "fed": setting.fed}
    return chipfire.simulate(setting.graph, setting.chips, events, books=True, **game, **options)


def data_of(text):
    """What a page shows, as it stands in its text."""
    return json.loads(re.search(r'<script id="run" type="application/json">(.*?)</script>', text, re.DOTALL)[1])


class States(unittest.TestCase):
    """A ledger gets the program's replies, and its state is then what these add up to."""

    def follow(self, simulation):
        book, tally = ledger.Ledger(simulation.setting), Tally(simulation.setting)
        shown = book.state()
        self.assertEqual(shown, tally.state())
        for event, reply, board in zip(simulation.schedule, simulation.replies, simulation.boards):
            tally.note(event, reply)
            for kind, index, name, value in book.note(event, reply):
                self.assertNotEqual(shown[kind][index][name], value)
                shown[kind][index] = {**shown[kind][index], name: value}
            self.assertEqual(shown, tally.state())
            book.compare(board)
        book.close(simulation.report)
        if simulation.root_closed:
            self.assertEqual(tally.position(), simulation.report.chips)

    def test_the_schedules_of_the_examples(self):
        for name in DETECTOR:
            with self.subTest(name):
                simulation = detector(name, books=True)
                events = chipfire.lab.pages.spell_rounds(simulation.setting, simulation.schedule, simulation.rounds)
                self.follow(asked(simulation.setting, events))

    def test_random_schedules(self):
        done = set()
        for seed in range(60):
            numbers = random.Random(seed)
            setting = random_game(numbers, fed=seed % 2 == 0)
            events = random_events(numbers, setting.graph, 250)
            with self.subTest(seed=seed):
                simulation = asked(setting, events)
                self.follow(simulation)
            done |= {(event.kind, reply.kind) for event, reply in zip(events, simulation.replies)}
        wanted = {("take", "got"), ("take", "empty"), ("clear", "full"), ("claim", "sent"), ("claim", "sealed"),
                  ("feed", "sent"), ("halt", "done"), ("ack", "done"), ("read", "done"), ("end", "done")}
        self.assertEqual(wanted - done, set())


class Disagreements(unittest.TestCase):
    """Replies that do not fit together are refused, each for what does not fit."""

    def setUp(self):
        self.simulation = detector("deficit", books=True)

    def refused(self, what, **changed):
        changed_run = dataclasses.replace(self.simulation, **changed)
        book = ledger.Ledger(changed_run.setting)
        with self.assertRaisesRegex(ledger.Disagreement, what):
            for event, reply in chipfire.lab.pages.compared(changed_run, book):
                book.note(event, reply)
            book.close(changed_run.report)

    def with_board(self, index, **changed):
        boards = list(self.simulation.boards)
        boards[index] = dataclasses.replace(boards[index], **changed)
        return tuple(boards)

    def with_reply(self, index, kind, *numbers):
        replies = list(self.simulation.replies)
        self.assertEqual(replies[index].kind, kind)
        replies[index] = chipfire.Reply(kind, numbers)
        return tuple(replies)

    def test_books_that_are_others(self):
        self.refused("the root's deficit", boards=self.with_board(3, root_deficit=2))
        self.refused("the books", boards=self.with_board(3, engaged={}))
        for books in (chipfire.machine.Books(5, 1, {4: 1}), chipfire.machine.Books(4, 2, {4: 1}), chipfire.machine.Books(4, 1, {4: 2})):
            self.refused("the books", boards=self.with_board(3, engaged={0: books}))

    def test_replies_that_are_others(self):
        for index, shown, known in [(0, "got 0 3", "got 0 4"), (1, "done 3", "done 2"), (3, "sent 0 3", "sent 0 2"),
                                   (3, "sent 1 2", "sent 0 2"), (4, "done 1", "done 2")]:
            kind, *numbers = shown.split()
            replies = self.with_reply(index, kind, *map(int, numbers))
            self.refused(f"the program says {shown}, and the model {known}", replies=replies)

    def test_a_page_shows_no_replies_but_the_programs(self):
        # What a hasty detector would reply is no reply of the program.
        early = chipfire.Simulation.parse("got 0 4\ndone 1\ndone 1\nroot open\n")
        game = chipfire.Setting(TRIANGLE, (4, 0, 0))
        events = tuple(chipfire.Event(kind, 4) for kind in ("take", "ack", "settle"))
        with self.assertRaisesRegex(ledger.Disagreement, "event 1: the program replies not-now 15, and not done 1"):
            chipfire.lab.pages.page_text(dataclasses.replace(early, setting=game, schedule=events))
        for changed in ({"boards": self.with_board(3, root_deficit=2)}, {"report": None}):
            with self.assertRaises(ledger.Disagreement):
                chipfire.lab.pages.page_text(dataclasses.replace(self.simulation, **changed))

    def test_a_report_that_is_another(self):
        report = self.simulation.report
        for changed in ({"chips": (0, 1, 3)}, {"fired": (2, 2, 0)}, {"over": (0,)}, {"sealed": (1,)}):
            self.refused("the end", report=dataclasses.replace(report, **changed))
        self.refused("the end: the program says None", report=None)


class Spelled(unittest.TestCase):
    """Rounds and traces become the events that they stand for."""

    def test_rounds_reach_the_programs_end_by_events_that_do_something(self):
        halts, closed = set(), 0
        for seed in range(60):
            numbers = random.Random(seed)
            setting = random_game(numbers, fed=False)
            begun = random_events(numbers, setting.graph, seed % 3 * 40)
            with self.subTest(seed=seed):
                for rounds in (seed % 7, seed % 7 + 1, 300):
                    events = chipfire.lab.pages.spell_rounds(setting, begun, rounds)
                    self.assertEqual(list(events[: len(begun)]), begun)
                    run, whole = asked(setting, events), asked(setting, begun, rounds=rounds)
                    self.assertEqual((run.report, run.replies[: len(begun)]), (whole.report, whole.replies))
                    replied = list(zip(events, run.replies))
                    idle = [(event, reply) for event, reply in replied[len(begun):]
                            if reply.kind in ("not-now", "empty", "full")
                            or event.kind == "settle" and str(reply) == "done 0"]
                    self.assertEqual(idle, [])
                    halts |= {reply.numbers for event, reply in replied if event.kind == "halt" and reply.is_done}
                    closed += run.root_closed
        self.assertEqual((halts, closed > 60), ({(0,), (1,)}, True))

    @drawn(lambda numbers: random_game(numbers, fed=False), 12)
    def test_a_recorded_run_takes_and_fires_what_was_recorded(self, setting):
        options = {"limit": setting.limit, "ring": setting.ring, "workers": 2}
        with tempfile.TemporaryDirectory(prefix="chipfire-python-") as folder:
            report = chipfire.run(setting.graph, setting.chips, trace=f"{folder}/trace.csv", **options)
            trace = chipfire.read_trace(f"{folder}/trace.csv")
            run = chipfire.recorded(setting.graph, setting.chips, f"{folder}/trace.csv", limit=setting.limit)
        self.assertEqual(run.report, report)
        self.assertEqual(sorted(rows_of(run), key=lambda row: row.vertex), trace)

    def test_the_ring_of_a_recorded_run(self):
        # Vertex 0 fires `count` times, 1 fires when it has all these messages, and 2 takes first what comes from 1.
        for count, ring in [(3, 2), (65, 64)]:
            graph = chipfire.Graph(4, 3, [(0, 2), (0, 1), (1, 2, count), (2, 3, 1000)])
            trace = [(0, "take", 4, 2 * count), *[(0, "fire", 0, 1)] * count, *[(1, "take", 1, 1)] * count,
                     (1, "fire", 0, 1), (2, "take", 2, count), *[(2, "take", 0, 1)] * count]
            game = (graph, {0: 2 * count}, trace)
            self.assertEqual(chipfire.recorded(*game).setting.ring, ring)
            larger = min(ring + 1, 64)
            self.assertEqual(chipfire.recorded(*game, ring=larger).setting.ring, larger)
            with self.assertRaisesRegex(ValueError, f"rings of {ring - 1} cell"):
                chipfire.recorded(*game, ring=ring - 1)

    def test_a_trace_that_fits_nowhere_is_the_programs_fault(self):
        with self.assertRaises(chipfire.Fault) as caught:
            chipfire.recorded(TRIANGLE, {0: 4}, [(0, "take", 4, 4), (0, "fire", 0, 3)])
        self.assertEqual((caught.exception.number, caught.exception.place), (70, (0, 1)))

    def test_a_trace_that_was_cut_leaves_the_root_open(self):
        run = chipfire.recorded(TRIANGLE, {0: 4}, [(0, "take", 4, 4), (0, "fire", 0, 2), (1, "take", 0, 2)])
        self.assertFalse(run.root_closed)
        self.assertIn("that the root is open", chipfire.lab.pages.page_text(run))


def rows_of(simulation):
    """The takes and firings of a simulation, as rows of a trace."""
    heads = [head for _, head, _ in simulation.setting.graph.edges] + list(range(simulation.setting.graph.vertices))
    for event, reply in zip(simulation.schedule, simulation.replies):
        if event.kind == "take":
            yield chipfire.TraceRow(heads[event.at], "take", event.at, reply.numbers[1])
        elif event.kind == "fire":
            yield chipfire.TraceRow(event.at, "fire", 0, event.count)


class Words(unittest.TestCase):
    """Events, replies and changes in sentences."""

    def setUp(self):
        self.words = sentences.Sentences(chipfire.Graph(3, 2, TRIANGLE.edges, ["a", "b", "out"]))

    def test_events(self):
        said = {
            ("take", 4, 0): "Vertex a takes the next message from the root (edge 4).",
            ("ack", 1, 0): "The sink out acknowledges to vertex a what it may (edge 1).",
            ("fire", 1, 2): "Vertex b fires twice.",
            ("fire", 1, 1200): "Vertex b fires 1,200 times.",
            ("settle", 4, 0): "The root reads how many messages vertex a has acknowledged (edge 4).",
            ("seal", 0, 0): "The stopper seals the edge from vertex a to vertex b (edge 0).",
            ("feed", 5, 1): "The root feeds 1 chip to vertex b (edge 5).",
            ("end", 9, 0): "The root notes that nothing more is fed.",
            ("halt", 0, 0): "Vertex a halts.",
        }
        self.assertEqual({event: self.words.event(chipfire.Event(*event)) for event in said}, said)

    def test_a_sink_of_that_name_is_called_so_once(self):
        words = sentences.Sentences(chipfire.Graph(2, 1, [(0, 1)], ["a", "sink"]))
        said = "The stopper seals the edge from vertex a to the sink (edge 0)."
        self.assertEqual(words.event(chipfire.Event("seal", 0, 0)), said)

    def test_replies(self):
        said = [
            ("take", chipfire.Reply("got", (0, 4)), "Got the message with place 0: 4 chips."),
            ("take", chipfire.Reply("empty"), "The cell is empty: there is no message."),
            ("claim", chipfire.Reply("sealed"), "The edge is sealed: the claim is refused."),
            ("halt", chipfire.Reply("done", (0,)), "Done: a claim was refused."),
            ("halt", chipfire.Reply("done", (1,)), "Done: it fired as often as the limit allows."),
            ("settle", chipfire.Reply("done", (1,)), "Done: 1 new acknowledgement seen."),
            ("fire", chipfire.Reply("not-now", (7,)),
             "Refused, by rule 7: the vertex has too few chips for these firings. Nothing was done."),
        ]
        for kind, reply, words in said:
            self.assertEqual(self.words.reply(chipfire.Event(kind, 0), reply), words)

    def test_changes(self):
        said = {
            ("vertices", 0, "parent", 4): "vertex a: engaged by edge 4, by the root",
            ("vertices", 0, "parent", None): "vertex a: neutral",
            ("vertices", 2, "chips", 1): "the sink out: 1 chip",
            ("edges", 3, "cells", ((2, 5),)): "edge 3: 5 chips at place 2 in its cells",
            ("edges", 3, "sealed", True): "edge 3: sealed",
            ("root", 0, "closed", True): "the root is closed",
        }
        self.assertEqual({change: self.words.change(change) for change in said}, said)

    def test_each_event_and_reply_of_random_schedules_has_words(self):
        numbers = random.Random(5)
        setting = random_game(numbers, fed=True)
        simulation = asked(setting, random_events(numbers, setting.graph, 600))
        words, book = sentences.Sentences(setting.graph), ledger.Ledger(setting)
        for event, reply in zip(simulation.schedule, simulation.replies):
            said = [words.event(event), words.reply(event, reply), *map(words.change, book.note(event, reply))]
            self.assertFalse([text for text in said if "None" in text or "{" in text or len(text) < 5], event)


class Layouts(unittest.TestCase):
    def test_a_grid_is_drawn_as_one(self):
        places = layout.places_of(chipfire.grid(3, 2), [0])
        squares = [(0, 0), (1, 0), (2, 0), (0, 1), (1, 1), (2, 1)]
        self.assertEqual([(x, y) for x, y in places.vertices[:6]], squares)
        (left, top), (right, bottom) = places.frame
        self.assertTrue(left < 0 < 2 < right and top < 0 < 1 < bottom and places.root[1] < top)
        self.assertEqual([layout.columns_of(chipfire.grid(*size)) for size in [(3, 2), (2, 3), (4, 1)]], [3, 2, 4])
        self.assertIsNone(layout.columns_of(chipfire.path(4)))

    def test_given_places(self):
        given = {"a": (0, 0), "b": (2, 0), "out": (1, 2)}
        graph = chipfire.Graph(3, 2, TRIANGLE.edges, ["a", "b", "out"])
        self.assertEqual(layout.places_of(graph, [0], given).vertices, [(0, 0), (2, 0), (1, 2)])
        for wrong in ({"a": (0, 0), "b": (2, 0)}, {**given, "out": (1, float("nan"))}):
            with self.assertRaisesRegex(ValueError, "vertex 'out'"):
                layout.places_of(graph, [0], wrong)

    def test_no_two_stand_on_each_other(self):
        for graph in (chipfire.cycle(12), chipfire.torus(4, 4), chipfire.complete(7), chipfire.torus(12, 12), TRIANGLE,
                      chipfire.Graph(1, 0, ())):
            places = layout.places_of(graph, range(graph.vertices))
            points = [complex(*point) for point in [*places.vertices, places.root]]
            apart = min(abs(a - b) for i, a in enumerate(points) for b in points[:i])
            self.assertGreater(apart, 0.3, graph.vertices)

    def test_neighbours_of_a_cycle_stand_nearer_than_others(self):
        points = [complex(*point) for point in layout.places_of(chipfire.cycle(8), [4]).vertices]
        for i, point in enumerate(points):
            nearest = sorted(range(8), key=lambda other: abs(points[other] - point))[1:3]
            self.assertEqual(set(nearest), {(i + 1) % 8, (i - 1) % 8})

    def test_the_root_is_up_and_the_sink_down(self):
        places = layout.places_of(TRIANGLE, [0])
        self.assertLess(places.root[1], min(down for _, down in places.vertices))
        self.assertEqual(places.vertices[2][1], max(down for _, down in places.vertices))


class Pages(unittest.TestCase):
    def setUp(self):
        room = tempfile.TemporaryDirectory(prefix="chipfire-python-")
        self.addCleanup(room.cleanup)
        self.folder = room.name

    def test_a_page_has_a_step_for_each_event(self):
        data = data_of(chipfire.lab.pages.page_text(detector("deficit")))
        self.assertEqual(len(data["steps"]), 32)
        self.assertEqual(data["words"][data["steps"][1]["event"]], "Vertex 0 fires twice.")
        changed = [change[:4] for change in data["steps"][0]["changes"]]
        self.assertEqual(sorted(changed), [
            ["edges", 4, "cells", []], ["edges", 4, "owed", 1], ["edges", 4, "taken", 1],
            ["vertices", 0, "chips", 4], ["vertices", 0, "parent", 4],
        ])

    def test_rounds_are_shown_too(self):
        data = data_of(chipfire.lab.pages.page_text(detector("sealed-half-way")))
        self.assertGreater(len(data["steps"]), len(detector("sealed-half-way").schedule))
        self.assertEqual(data["words"][data["steps"][-1]["changes"][-1][4]], "the root is closed")

    def test_a_root_edge_is_drawn_where_chips_were_fed(self):
        for fed, edges in [(False, [4]), (True, [4, 5])]:
            run = chipfire.simulate(TRIANGLE, {0: 4}, chipfire.Schedule().feed(5, 1), fed=fed)
            self.assertEqual(data_of(chipfire.lab.pages.page_text(run))["rootEdges"], edges)

    def test_a_page_without_books_asks_for_them(self):
        self.assertEqual(
            chipfire.lab.pages.page_text(detector("deficit")), chipfire.lab.pages.page_text(detector("deficit", books=True))
        )
        with self.assertRaisesRegex(ValueError, "does not know what was asked"):
            chipfire.lab.pages.page_text(chipfire.Simulation((), None))

    def test_more_rows_than_a_page_shows_are_refused_at_once(self):
        said = "a page shows at most 10,000 "
        with self.assertRaisesRegex(ValueError, f"{said}rows of a schedule or a trace"):
            chipfire.lab.pages.page_text(chipfire.simulate(TRIANGLE, {0: 4}, [("settle", 4)] * 10_001))
        with self.assertRaisesRegex(ValueError, f"{said}rows"):
            chipfire.lab.pages.page_text(chipfire.play(chipfire.Setting(TRIANGLE, {0: 4}), [("settle", 4)] * 10_001))
        self.assertEqual(len(data_of(chipfire.lab.pages.page_text(
            chipfire.simulate(TRIANGLE, {0: 4}, [("settle", 4)] * 10_000)))["steps"]), 10_000)
        with self.assertRaisesRegex(ValueError, f"{said}events of rounds"):
            chipfire.lab.pages.page_text(chipfire.simulate(chipfire.grid(20, 20), {190: 2000}, [], rounds=10_000))
        with self.assertRaisesRegex(ValueError, f"{said}rows"):
            chipfire.recorded(TRIANGLE, {0: 4}, [(0, "take", 4, 4)] * 10_001)
        with open(f"{self.folder}/trace.csv", "w", encoding="utf-8") as file:
            file.write("vertex,kind,edge,count\n")
            file.writelines(["0,take,4,4\n"] * 2_000_000)
        began = time.process_time()
        with self.assertRaisesRegex(ValueError, f"{said}rows"):
            chipfire.recorded(TRIANGLE, {0: 4}, f"{self.folder}/trace.csv")
        self.assertLess(time.process_time() - began, 1)

    def test_a_page_stands_alone(self):
        text = chipfire.lab.pages.page_text(detector("deficit"))
        self.assertEqual(set(re.findall(r"[a-z]+://[^\s\"']*", text)), {"http://www.w3.org/2000/svg"})
        self.assertEqual(re.findall(r"\b(?:src|href|url|import)\b\s*[=(]", text), [])

    def test_names_cannot_end_the_script(self):
        name = '</script><b title="x">&amp;'
        graph = chipfire.Graph(3, 2, TRIANGLE.edges, [name, "b", "out"])
        simulation = chipfire.simulate(graph, {name: 4}, [("take", 4)])
        text = chipfire.lab.pages.page_text(simulation, title=name)
        self.assertNotIn(name, text)
        self.assertIn(f"<title>{html.escape(name)}</title>", text)
        self.assertEqual(data_of(text)["names"][0], name)

    def test_the_same_run_has_the_same_page(self):
        make = ("import chipfire, sys; g = chipfire.torus(4, 4); s = chipfire.simulate(g, {5: 9}, [], rounds=3); "
                "chipfire.page(s, sys.argv[1])")
        pages = []
        for seed in ("1", "2"):
            file = f"{self.folder}/{seed}.html"
            subprocess.run([sys.executable, "-c", make, file], env={**os.environ, "PYTHONHASHSEED": seed}, check=True)
            with open(file, encoding="utf-8") as text:
                pages.append(text.read())
        self.assertEqual(pages[0], pages[1])

    def test_every_page_says_what_is_proved_and_what_is_not(self):
        text = chipfire.lab.pages.page_text(detector("deficit"))
        for words in ("They are proved", "tested and not proved", "each of the 32 events"):
            self.assertIn(words, " ".join(text.split()))

    def test_a_refusal_says_why(self):
        data = data_of(chipfire.lab.pages.page_text(detector("deficit")))
        refused = [step for step in data["steps"] if not step["done"]]
        said = [f"{data['words'][step['event']]} {data['words'][step['reply']]}" for step in refused]
        wait = "Refused, by rule 15: it still waits for"
        self.assertEqual(said, [
            f"Vertex 0 tries to acknowledge to the root (edge 4). {wait} 2 acknowledgements (from vertex 1 and the sink 2). "
            "Nothing was done.",
            f"Vertex 0 tries to acknowledge to the root (edge 4). {wait} 1 acknowledgement (from vertex 1). "
            "Nothing was done.",
            f"Vertex 1 tries to acknowledge to vertex 0 (edge 0). {wait} 2 acknowledgements (from vertex 0 and the sink 2). "
            "Nothing was done.",
        ])
        game = (chipfire.Graph(2, 1, ((0, 1), (0, 1))), {0: 2})
        events = chipfire.Schedule().take(2).ack(2).fire(0).ack(2).clear(0).claim(0).ack(2).put(0).send(1)
        data = data_of(chipfire.lab.pages.page_text(chipfire.simulate(*game, events.take(0).take(1).ack(0))))
        said = [data["words"][step["reply"]].split(": ")[1] for step in data["steps"] if not step["done"]]
        self.assertEqual(said, [
            "it can still fire. Nothing was done.",
            "it still has 2 chips to send. Nothing was done.",
            "it still has 1 chip to send; it has a message that is claimed and not put; it still waits for "
            "1 acknowledgement (from the sink 1). Nothing was done.",
            "it still owes 1 acknowledgement on edge 1. Nothing was done.",
        ])

    def test_questions_of_events_and_their_answers(self):
        data = data_of(chipfire.lab.pages.page_text(detector("deficit")))
        asked = [(data["words"][step["ask"]], step["yes"]) for step in data["steps"] if "ask" in step]
        self.assertEqual(asked[0], ("Is there a message from the root that vertex 0 can take (edge 4)?", True))
        self.assertIn(("May vertex 0 acknowledge to the root (edge 4)?", False), asked)
        self.assertEqual(asked[-1], ("Does the root see a new acknowledgement of vertex 0 (edge 4)?", True))
        kinds = {step["kind"] for step in data["steps"] if "ask" not in step}
        self.assertEqual(kinds, {"claim", "put"})

    def test_the_answer_to_an_acknowledgement_is_the_programs(self):
        forbidden = set()
        games = [(random_game(random.Random(seed), fed=False), random.Random(seed)) for seed in range(20)]
        runs = [asked(setting, random_events(numbers, setting.graph, 250)) for setting, numbers in games]
        for run in [*runs, detector("engaging-message-last")]:
            setting, data = run.setting, data_of(chipfire.lab.pages.page_text(run))
            for event, reply, step in zip(run.schedule, run.replies, data["steps"]):
                self.assertEqual(step["done"], reply.is_done)
                if event.kind == "ack" and event.at < len(setting.graph.edges) + setting.graph.vertices:
                    self.assertEqual((step["yes"], "why" in step), (reply.is_done, not reply.is_done))
                    named = {data["reasons"][it] for it in step.get("why", [])}
                    self.assertEqual(named == {"it owes nothing on this edge"}, reply.name == "NothingOwed")
                    forbidden |= named
        self.assertEqual(forbidden, {*data["reasons"]})

    def test_a_wrong_detector_is_asked_what_the_rule_allows(self):
        for name, step, why in [("at-once", 1, "it is not passive"), ("without-passive", 1, "it is not passive"),
                                ("without-deficit", 8, "it waits for acknowledgements")]:
            data = data_of(wrong.wrong_page_text(name))
            found = data["steps"][step]
            self.assertEqual((found["yes"], found["done"]), (False, True))
            self.assertEqual([data["reasons"][it] for it in found["why"]], [why])

    def test_the_end_is_said(self):
        said = {name: data_of(chipfire.lab.pages.page_text(detector(name)))["end"]["text"] for name in DETECTOR}
        self.assertEqual(said["deficit"], "The root is closed: all is over.")
        stopped = "A limit or a seal stopped a vertex."
        self.assertEqual(said["sealed-half-way"], f"The root is closed: all is over. {stopped}")
        self.assertEqual(said["left-open"], "The root is open: it waits for 1 acknowledgement.")
        run = chipfire.simulate(TRIANGLE, {}, [], fed=True)
        end = data_of(chipfire.lab.pages.page_text(run))["end"]
        self.assertEqual(end, {"text": "The root is open: it has not noted the end of feeding.", "isWrong": False})


class Notes(unittest.TestCase):
    """Notes stand in a fourth column, which the program never sees."""

    def test_a_schedule_with_notes(self):
        events = chipfire.Schedule().take(4).note("four, at once").fire(0, 2).ack(4).note('why "not"?')
        with tempfile.TemporaryDirectory(prefix="chipfire-python-") as folder:
            chipfire.write_schedule(f"{folder}/noted.csv", events)
            with open(f"{folder}/noted.csv", encoding="utf-8") as file:
                self.assertEqual(file.read(), 'event,at,count,note\ntake,4,0,"four, at once"\nfire,0,2,\n'
                                              'ack,4,0,"why ""not""?"\n')
            read = chipfire.read_schedule(f"{folder}/noted.csv")
            self.assertEqual((list(read), read.notes), (list(events), {0: "four, at once", 2: 'why "not"?'}))
            run = chipfire.simulate(TRIANGLE, {0: 4}, f"{folder}/noted.csv")
        self.assertEqual((run.notes, run.replies), (read.notes, chipfire.simulate(TRIANGLE, {0: 4}, events).replies))
        steps = data_of(chipfire.lab.pages.page_text(run))["steps"]
        self.assertEqual([step.get("note") for step in steps], ["four, at once", None, 'why "not"?'])

    def test_what_is_no_schedule_is_the_programs_fault(self):
        with tempfile.NamedTemporaryFile("w", suffix=".csv") as file:
            file.write("event,at,count,notes\ntake,4,0,\n")
            file.flush()
            with self.assertRaises(chipfire.Fault) as caught:
                chipfire.simulate(TRIANGLE, {0: 4}, file.name)
        self.assertEqual(caught.exception.number, 23)


class WrongDetectors(unittest.TestCase):
    """Pages of detectors that close too early, beside the right one."""

    def test_the_page_of_each(self):
        for name, left in [("at-once", "vertex 0 can still fire"), ("without-passive", "vertex 0 can still fire"),
                           ("without-deficit", "edge 0 has 1 message and edge 1 has 1 message"),
                           ("one-edge", "edge 5 has 1 message")]:
            with self.subTest(name):
                text = wrong.wrong_page_text(name)
                data = data_of(text)
                self.assertEqual(data["end"], {"text": f"The root is closed; {left}.", "isWrong": True})
                self.assertEqual(len(data["steps"]), len(data["beside"]["steps"]))
                closed = [change[3] for step in data["steps"] for change in step["changes"] if change[2] == "closed"]
                self.assertEqual(closed, [True])
                page = " ".join(text.split())
                self.assertIn("This is a <strong>wrong detector</strong>", page)
                self.assertIn("Neither the model nor this search is proved", page)

    def test_the_right_one_beside_is_the_program(self):
        data = data_of(wrong.wrong_page_text("at-once"))
        said = [[data["words"][step["reply"]] for step in steps] for steps in (data["steps"], data["beside"]["steps"])]
        self.assertEqual(said[0], ["Got the message with place 0: 4 chips.", "Done: 1 message acknowledged.",
                                   "Done: 1 new acknowledgement seen."])
        self.assertEqual(said[1], ["Got the message with place 0: 4 chips.",
                                   "Refused, by rule 15: it can still fire. Nothing was done.",
                                   "Done: 0 new acknowledgements seen."])
        with self.assertRaises(chipfire.ProgramNotFound):
            wrong.wrong_page_text("at-once", program="/nowhere")

    def test_a_root_that_was_closed_too_early_stays_so(self):
        # By hand: after three events the root is closed, and vertex 0 has three chips and fires. After 16 all is over.
        events = chipfire.Schedule().take(4).ack(4).settle(4).fire(0).send(0).send(1)
        for edge in (0, 1):
            events.take(edge).ack(edge).settle(edge)
        game, early = chipfire.Setting(TRIANGLE, (3, 0, 0)), "The root was closed too early, after event 3."
        for count, said in ((2, "The root is open."), (3, "The root is closed; vertex 0 can still fire."), (16, early),
                            (4, "The root is closed; edge 0 has 1 chip pending and edge 1 has 1 chip pending.")):
            run = chipfire.play(game, events[:count], "at-once")
            self.assertEqual(data_of(chipfire.lab.pages.page_text(run))["end"], {"text": said, "isWrong": count > 2})

        class Forgets(chipfire.detectors.AtOnce):
            """Says that all is over before anything happens, and then that it is not."""

            def is_closed(self):
                return not any(e.delivered for e in self.edges)

        end = data_of(chipfire.lab.pages.page_text(chipfire.play(game, events, Forgets)))["end"]
        self.assertEqual(end, {"text": early.replace("3", "0"), "isWrong": True})

    def test_what_is_not_wrong_has_no_page(self):
        for name, said in [("right", "in no schedule of this game, which has 3,755 states"),
                           ("hasty", "no detector 'hasty'"), ("any-order", "in no schedule")]:
            with self.assertRaisesRegex(ValueError, said):
                wrong.wrong_page_text(name)
        # (the sink alone, with no chips: there is nothing to get wrong)
        with self.assertRaisesRegex(ValueError, "which has 1 state$"):
            wrong.wrong_page_text("at-once", chipfire.Setting(chipfire.Graph(1, 0, ()), (0,)))


class Choices(unittest.TestCase):
    """Pages with all states of a game."""

    def test_all_states_and_moves(self):
        data = data_of(choosing.choice_page_text("right"))
        found = data["choices"]
        self.assertEqual([len(found[name]) for name in ("moves", "ends")], [1405, 1405])
        self.assertEqual({target for moves in found["moves"] for _, target in moves}, {*range(1, 1405)})
        ends = [(not moves, end and end["text"]) for moves, end in zip(found["moves"], found["ends"])]
        self.assertEqual({*ends}, {(False, None), (True, "The root is closed: all is over.")})

    def test_an_end_that_is_missed(self):
        class Never(chipfire.model.Core):
            def may_let_go(self, e):
                return False

        text = choosing.choice_page_text(Never, chipfire.Setting(TRIANGLE, (2, 0, 0)))
        ends = [end for end in data_of(text)["choices"]["ends"] if end]
        self.assertEqual({(end["text"], end["isWrong"]) for end in ends},
                         {("The root is open, and nothing can happen any more.", True)})
        self.assertIn("the class <code>Never</code>", text)

    def test_books_that_a_detector_does_not_keep(self):
        class Looks(chipfire.model.Core):
            """Reads all parts at once, which nobody can, and acknowledges nothing."""

            def may_ack(self, e):
                return 0

            def is_closed(self):
                return not self.left()

        books = {"deficit", "parent", "acknowledged", "settled", "owed"}
        for detector, kept in ((Looks, set()), ("right", books), ("without-deficit", books)):
            data = data_of(choosing.choice_page_text(detector, chipfire.Setting(TRIANGLE, (2, 0, 0))))
            changed = {name for step in data["choices"]["steps"] for _, _, name, _, _ in step["changes"]}
            self.assertEqual((changed & books, "hidden" in data), (kept, not kept))
            self.assertEqual(data["start"]["root"][0]["deficit"], int(bool(kept)))
            ends = {end["text"] for end in data["choices"]["ends"] if end}
            self.assertIn("The root is closed: all is over.", ends)

    def test_what_has_no_page(self):
        for name, setting, said in [("right", chipfire.Setting(TRIANGLE, (6, 0, 0)), "more than 2,000 states"),
                                    ("safra", None, "events of its own"), ("hasty", None, "no detector 'hasty'")]:
            with self.assertRaisesRegex(ValueError, said):
                choosing.choice_page_text(name, setting)
        with self.assertRaisesRegex(TypeError, "the events of a chipfire.Setting, and not of Flooding"):
            choosing.choice_page_text("right", chipfire.computations.Flooding(TRIANGLE))


class CommandLine(unittest.TestCase):
    def ask(self, *words):
        return subprocess.run([sys.executable, "-m", "chipfire", *words], capture_output=True, encoding="utf-8")

    def test_a_page_of_a_schedule(self):
        graph, chips = f"{EXAMPLES}/triangle/graph.json", f"{EXAMPLES}/triangle/no-chips.csv"
        ran = self.ask("page", graph, chips, f"{EXAMPLES}/detector/fed-twice.csv", "--fed", "--rounds", "10")
        self.assertEqual((ran.returncode, ran.stderr), (0, ""))
        self.assertEqual(ran.stdout, chipfire.lab.pages.page_text(detector("fed-twice")))

    def test_a_page_of_a_trace(self):
        files = [f"{EXAMPLES}/triangle/{name}" for name in ("graph.json", "chips.csv", "trace.csv")]
        ran = self.ask("page", *files, "--title", "Recorded")
        self.assertEqual((ran.returncode, ran.stderr), (0, ""))
        self.assertEqual(ran.stdout, chipfire.lab.pages.page_text(chipfire.recorded(*files), title="Recorded"))
        self.assertEqual(self.ask("page", *files, "--rounds", "3").returncode, 1)

    def test_the_limit_and_the_ring_of_a_game(self):
        files = [f"{EXAMPLES}/triangle/{name}" for name in ("graph.json", "chips.csv")]
        schedule, trace = f"{EXAMPLES}/detector/deficit.csv", f"{EXAMPLES}/triangle/trace.csv"
        run = chipfire.simulate(*files, schedule, limit=1, ring=2, rounds=9)
        self.assertEqual((run.report.over, run.setting.ring), ((0,), 2))
        ran = self.ask("page", *files, schedule, "--limit", "1", "--ring", "2", "--rounds", "9")
        self.assertEqual(ran.stdout, chipfire.lab.pages.page_text(run))
        ran = self.ask("page", *files, trace, "--limit", "7", "--ring", "4")
        run = chipfire.recorded(*files, trace, limit=7, ring=4)
        self.assertEqual((ran.stdout, run.setting.limit), (chipfire.lab.pages.page_text(run), 7))

    def test_places_from_a_file(self):
        files = [f"{EXAMPLES}/triangle/{name}" for name in ("graph.json", "chips.csv", "trace.csv")]
        with tempfile.NamedTemporaryFile("w", suffix=".csv") as places:
            places.write("vertex,right,down\n0,0,0\n1,2,0\n2,1,1.5\n")
            places.flush()
            ran = self.ask("page", *files, "--positions", places.name)
        self.assertEqual(data_of(ran.stdout)["places"]["vertices"], [[0, 0], [2, 0], [1, 1.5]])

    def test_a_page_of_a_wrong_detector(self):
        ran = self.ask("wrong", "without-deficit")
        self.assertEqual((ran.returncode, ran.stderr), (0, ""))
        self.assertEqual(ran.stdout, wrong.wrong_page_text("without-deficit"))
        game = [f"{EXAMPLES}/detector/two-edges.json", f"{EXAMPLES}/detector/two-chips.csv"]
        ran = self.ask("wrong", "without-deficit", *game, "--title", "Two edges")
        self.assertEqual(data_of(ran.stdout)["sink"], 1)
        self.assertIn("<h1>Two edges</h1>", ran.stdout)
        for words, said in [(["any-order"], "in no schedule of this game, which has 4,331 states"),
                            (["at-once", "graph.json"], "GRAPH and CHIPS")]:
            ran = self.ask("wrong", *words)
            self.assertEqual((ran.returncode, ran.stdout), (1, ""))
            self.assertIn(said, ran.stderr)

    def test_a_page_of_choices(self):
        ran = self.ask("choose", "right", "--title", "Pick")
        self.assertEqual((ran.returncode, ran.stderr), (0, ""))
        self.assertEqual(ran.stdout, choosing.choice_page_text("right", title="Pick"))
        with tempfile.TemporaryDirectory(prefix="chipfire-python-") as folder:
            with open(f"{folder}/mine.py", "w", encoding="utf-8") as file:
                file.write("from chipfire.model import Core\n\nclass Mine(Core):\n    pass\n")
            game = [f"{EXAMPLES}/detector/two-edges.json", f"{EXAMPLES}/detector/two-chips.csv"]
            ran = self.ask("choose", f"{folder}/mine.py:Mine", *game)
        self.assertEqual(len(data_of(ran.stdout)["choices"]["moves"]), 30)
        ran = self.ask("choose", "at-once")
        self.assertEqual((ran.returncode, ran.stdout), (1, ""))
        self.assertIn("more than 2,000 states", ran.stderr)

    def test_what_is_wrong_is_one_line(self):
        files = [f"{EXAMPLES}/triangle/{name}" for name in ("graph.json", "chips.csv")]
        for events, line in [("/nowhere.csv", "No such file"), (f"{EXAMPLES}/triangle/chips.csv", "fault 23 Header")]:
            ran = self.ask("page", *files, events)
            self.assertEqual((ran.returncode, ran.stdout), (1, ""))
            self.assertRegex(ran.stderr, f"^chipfire: .*{line}")
