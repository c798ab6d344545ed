"""Computations of any kind under the detectors: what they compute, how many states they have, who closes too early."""
import itertools
import json
import os
import re
import tempfile
import unittest

import chipfire
import second_search
from chipfire.lab import computations
from chipfire.lab import detectors
from chipfire.lab import model
from chipfire.lab import schedules
from test_pages import TRIANGLE

#: Two vertices that send each other messages, and three in a row.
PAIR = chipfire.Graph(2, 1, ((0, 1), (1, 0)))
ROW = chipfire.Graph(3, 2, ((0, 1), (1, 0), (1, 2), (2, 1)))
#: From vertex 0 it is 3 to vertex 1 at once, and 2 by way of vertex 2.
LONG = chipfire.Graph(3, 2, ((0, 1, 3), (0, 2, 1), (2, 1, 1), (1, 2, 1)))
#: Games of the four computations that are not chip-firing, and of chip-firing without the machine.
GAMES = {
    "flooding": (computations.Flooding(TRIANGLE), computations.Flooding(ROW, (0, 1)),
                 computations.Flooding(chipfire.Graph(3, 2, ((0, 1), (0, 2))), (1, 0))),
    "shortest paths": (computations.ShortestPaths(LONG), computations.ShortestPaths(LONG, (1, 0))),
    "random walk": (computations.RandomWalk(ROW, {0: 2}), computations.RandomWalk(TRIANGLE, {0: 1, 1: 1})),
    "work stealing": (computations.WorkStealing(PAIR, 1), computations.WorkStealing(PAIR, 2)),
}
WALK = GAMES["random walk"][0]
FIRING = computations.Firing(TRIANGLE, (4, 0, 0))
RIGHT = ("right", "any-order", "safra", "credit")
WRONG = ("at-once", "without-passive", "without-deficit", "one-edge", "safra-colourless")


class Counts(chipfire.Computation):
    """Keeps a count in itself, which all games share."""

    count = 0

    def on_start(self):
        return [(0, 0)]

    def on_message(self, state, edge, load):
        self.count += 1
        return [(out, 0) for out in state.outs if self.count < 3]


class Stranger(Counts):
    """Sends on an edge of another vertex."""

    def on_message(self, state, edge, load):
        return [(1, 0)]


class InTheClass(Counts):
    """Keeps the count in its class."""

    def on_message(self, state, edge, load):
        InTheClass.count += 1
        return ()


class Heard(chipfire.Computation):
    """Floods, and keeps in a set what it heard of."""

    begins = {"heard": set()}

    def on_start(self):
        return [(0, 0)]

    def on_message(self, state, edge, load):
        is_first = not state.heard
        state.heard.add(edge)
        return [(out, 0) for out in state.outs if is_first]


class Tree(Heard):
    """Has a name that the model has."""

    begins = {"heard": set(), "parent": None}


class Lost(computations.Flooding):
    """Sends on an edge that is not there."""

    def on_message(self, state, edge, load):
        return [(9, 0)]


def plain_edges(graph):
    return [edge[:2] for edge in graph.edges]


class Ends(unittest.TestCase):
    """What stands at the vertices when the root is closed, in many schedules."""

    def end(self, game, seed):
        core = schedules.played(game, "right", chipfire.random_schedule(game, seed))
        self.assertEqual((core.is_closed(), core.left()), (True, []))
        return core.vertices

    def test_what_is_reached_is_marked(self):
        graph = chipfire.Graph(5, 4, ((0, 1), (1, 0), (1, 2), (3, 4), (3, 0)))
        for seed in range(30):
            marks = [state.marked for state in self.end(computations.Flooding(graph), seed)]
            self.assertEqual(marks, [True, True, True, False, False])

    def test_the_distances_are_those_by_hand(self):
        for seed in range(30):
            far = [[state.distance for state in self.end(game, seed)] for game in GAMES["shortest paths"]]
            self.assertEqual(far, [[0, 2, 1], [0, 0, 1]])

    def test_each_task_is_done_once(self):
        for depth, seed in itertools.product(range(4), range(15)):
            states = self.end(computations.WorkStealing(ROW, depth), seed)
            self.assertEqual(sum(state.done for state in states), 2**depth)

    def test_tokens_make_as_many_hops_as_they_have(self):
        for seed in range(30):
            core = schedules.played(WALK, "right", chipfire.random_schedule(WALK, seed))
            self.assertEqual(sum(len(e.sent) for e in core.edges[: core.graph_edges]), 2)

    def test_chips_are_those_of_the_machine(self):
        # By hand: whatever fires when, the triangle ends with no chip on vertex 0, one on vertex 1, three on the sink.
        wanted = chipfire.plain(TRIANGLE, (4, 0, 0))
        for seed in range(30):
            states = self.end(FIRING, seed)
            self.assertEqual([state.chips for state in states], list(wanted.chips))
            self.assertEqual([state.fired for state in states], list(wanted.fired))


class Explorer(unittest.TestCase):
    def test_the_states_are_as_many_as_a_second_search_finds(self):
        edges = plain_edges
        games = [
            (GAMES["flooding"][0], second_search.flooding(edges(TRIANGLE), 3, (0,))),
            (GAMES["flooding"][1], second_search.flooding(edges(ROW), 3, (0, 1))),
            (GAMES["work stealing"][0], second_search.stealing(edges(PAIR), 2, 1)),
            (GAMES["work stealing"][1], second_search.stealing(edges(PAIR), 2, 2)),
            (computations.WorkStealing(ROW, 1), second_search.stealing(edges(ROW), 3, 1)),
        ]
        for (game, slow), (name, rule) in itertools.product(games, second_search.RULES.items()):
            states, least = second_search.searched(slow, rule)
            found = chipfire.explore(game, name)
            with self.subTest(name, game=type(game).__name__):
                if found.schedule is None:
                    self.assertEqual((found.states, None, None), (states, least, found.lost))
                else:
                    self.assertEqual(len(found.schedule), least)

    def test_each_state_has_a_set_of_its_own(self):
        # (what was heard follows from what was taken, so it adds no states to those of a mark)
        for graph in (TRIANGLE, ROW):
            marks, sets = (chipfire.explore(make(graph)) for make in (computations.Flooding, Heard))
            self.assertEqual((sets.states, sets.schedule, sets.lost), (marks.states, None, None))
        self.assertEqual(Heard.begins, {"heard": set()})

    def test_the_right_ones_never_close_too_early_and_always_close(self):
        for name, game in itertools.product(RIGHT, [FIRING, *itertools.chain(*GAMES.values())]):
            found = chipfire.explore(game, name)
            self.assertEqual((found.schedule, found.lost, found.is_whole), (None, None, True), name)

    def test_each_wrong_one_is_early_on_two_computations(self):
        for name in WRONG:
            early = set()
            for kind, game in ((kind, game) for kind, games in GAMES.items() for game in games):
                if len(early) < 2 and kind not in early:
                    found = chipfire.explore(game, name)
                    if found.schedule is not None:
                        core = schedules.played(game, name, found.schedule)
                        self.assertEqual((core.is_closed(), tuple(core.left())), (True, found.left))
                        early.add(kind)
            self.assertEqual(len(early), 2, f"{name}: {early}")

    def test_the_shortest_schedules_by_hand(self):
        # Whoever acknowledges at once does so with the tasks in hand; whoever forgets its deficit has to put first.
        found = chipfire.explore(GAMES["work stealing"][0], "at-once")
        self.assertEqual((list(found.schedule), found.left),
                         ([("take", 2, 0), ("ack", 2, 0), ("settle", 2, 0)], ("vertex 0 is at work",)))
        found = chipfire.explore(GAMES["flooding"][0], "without-deficit")
        self.assertEqual(list(found.schedule),
                         [("take", 4, 0), ("put", 0, 0), ("put", 1, 0), ("ack", 4, 0), ("settle", 4, 0)])
        self.assertEqual(found.left, ("edge 0 has 1 message", "edge 1 has 1 message"))

    def test_a_detector_of_ones_own_and_a_state_elsewhere(self):
        class ByACount(model.Core):
            def is_closed(self):
                return all(len(e.sent) == e.delivered for e in self.edges)

        self.assertIsNone(chipfire.explore(GAMES["flooding"][0], ByACount).schedule)
        found = chipfire.explore(GAMES["random walk"][0], ByACount)
        self.assertEqual((list(found.schedule), found.left), ([("take", 4, 0)], ("vertex 0 is at work",)))
        with self.assertRaisesRegex(ValueError, "Counts.count stands in a computation, and changed"):
            chipfire.explore(Counts(ROW))
        for game, said in (
            (Stranger(ROW), "vertex 0 sends on edge 1, which is none of its own"),
            (Lost(ROW), "vertex 0 sends on edge 9, which is none of its own"),
            (computations.Flooding(ROW, (3,)), "the root sends to vertex 3, which is not there"),
            (computations.Flooding(ROW, (-1,)), "the root sends to vertex -1, which is not there"),
            (InTheClass(ROW), "InTheClass.count stands in a class, and changed"),
            (Tree(ROW), "Tree.begins has 'parent', which the model keeps"),
        ):
            with self.assertRaisesRegex(ValueError, said):
                chipfire.explore(game)
        for options, said in (({"seals": (0,)}, "the game is not one of chip-firing"),
                              ({"feeds": ((4, 1),)}, "the setting is not fed")):
            with self.assertRaisesRegex(ValueError, said):
                chipfire.explore(GAMES["flooding"][0], **options)


class Written(unittest.TestCase):
    """What is written of runs."""

    def data(self, text):
        return json.loads(re.search('<script id="run" type="application/json">(.*?)</script>', text, re.S)[1])

    def page(self, make):
        with tempfile.TemporaryDirectory(prefix="chipfire-python-") as folder:
            make(os.path.join(folder, "page.html"))
            with open(f"{folder}/page.html", encoding="utf-8") as file:
                return file.read()

    def test_clocks_are_those_worked_out_by_hand(self):
        events = [("take", 2), ("work", 0, 1), ("put", 0), ("take", 0)]
        self.assertEqual(chipfire.shiviz(GAMES["work stealing"][0], events).splitlines(), [
            '0 {"0":1}', "take 2: got 0", '0 {"0":2}', "work 0: done", '0 {"0":3}', "put 0: done 0",
            '1 {"0":3, "1":1}', "take 0: got 0",
        ])

    def test_a_page_of_each_computation_and_detector(self):
        for game in (FIRING, *(games[-1] for games in GAMES.values())):
            for name in ("right", "safra", "credit"):
                run = chipfire.play(game, chipfire.random_schedule(game, 2, name), name)
                self.assertEqual((run.root_closed, run.left), (True, ()))
                text = self.page(lambda file, run=run: chipfire.page(run, file))
                data = self.data(text)
                self.assertEqual(len(data["steps"]), len(run.schedule))
                self.assertEqual(data["end"], {"text": "The root is closed: all is over.", "isWrong": False})
                self.assertIn("Nothing on this page is proved", text)
                self.assertEqual("own" in data["start"]["root"][0], name != "right")

    #: The facts that are books of acknowledgements, and the titles of their columns.
    BOOKS = {"deficit", "parent", "acknowledged", "settled", "owed"}
    COLUMNS = {"deficit", "engaged by", "owed", "acknowledged", "settled", "unseen"}

    def books_changed(self, steps):
        """Which facts of the books change in some steps."""
        return {name for step in steps for _, _, name, _, _ in step["changes"]} & self.BOOKS

    def test_books_that_no_detector_keeps_are_not_on_its_page(self):
        class OneWave(model.Core):
            """Asks each vertex once, engages by the rule that is there, and never acknowledges."""

            asked = 0

            def may_ack(self, e):
                return 0

            def own_events(self):
                if self.asked < len(self.vertices) and self.is_passive(self.asked):
                    yield "ask", self.asked, 0

            def ask(self, at):
                self.asked += 1
                return "done"

            def is_closed(self):
                return self.asked == len(self.vertices)

        for game in (detectors.DETECTORS["right"].game, FIRING):
            for detector in ("right", "at-once", "one-edge", "safra", "credit", "safra-colourless", OneWave):
                events = chipfire.random_schedule(game, 1, detector)
                data = self.data(self.page(lambda file: chipfire.page(chipfire.play(game, events, detector), file)))
                is_kept, start = detector in ("right", "at-once", "one-edge"), data["start"]
                self.assertEqual(self.books_changed(data["steps"]), self.BOOKS if is_kept else set(), detector)
                self.assertEqual(start["root"][0]["deficit"], int(is_kept))
                self.assertEqual(self.COLUMNS & {*data.get("hidden", ())}, set() if is_kept else self.COLUMNS)
            # (beside it stand the books of the right one, whose root waits for its message)
            for detector in ("safra-colourless", OneWave):
                data = self.data(self.page(lambda file: chipfire.wrong_page(detector, file, game)))
                self.assertEqual(self.books_changed(data["steps"]), set())
                beside = data["beside"]
                self.assertEqual([it["start"]["root"][0]["deficit"] for it in (data, beside)], [0, 1])
                if detector != OneWave:
                    self.assertLessEqual({"parent", "owed"}, self.books_changed(beside["steps"]))

    def test_who_acknowledges_nothing_yet_has_books(self):
        class OneByOne(model.Core):
            """Acknowledges one message at a time."""

            def may_ack(self, e):
                return min(super().may_ack(e), 1)

        data = self.data(self.page(lambda file: chipfire.page(chipfire.play(FIRING, [("take", 4)], OneByOne), file)))
        self.assertEqual(self.books_changed(data["steps"]), {"parent", "owed"})

    def test_nobody_is_asked_of_an_acknowledgement_where_there_are_none(self):
        for detector, count in (("right", 1), ("safra", 0)):
            run = chipfire.play(FIRING, [("take", 4), ("ack", 4)], detector)
            data = self.data(self.page(lambda file: chipfire.page(run, file)))
            self.assertEqual(sum("yes" in step for step in data["steps"] if step["kind"] == "ack"), count)

    def test_states_and_loads_are_on_the_page(self):
        run = chipfire.play(GAMES["shortest paths"][0], [("take", 4), ("put", 0)])
        data = self.data(self.page(lambda file: chipfire.page(run, file)))
        taken = [change[:4] for change in data["steps"][0]["changes"]]
        self.assertIn(["vertices", 0, "chips", "0"], taken)
        self.assertIn(["edges", 0, "claimed", "3"], taken)
        self.assertIn(["edges", 0, "cells", [[0, "3"]]], [change[:4] for change in data["steps"][1]["changes"]])
        self.assertEqual(data["end"], {"text": "The root is open.", "isWrong": False})

    def test_a_message_that_carries_0_is_claimed(self):
        # Vertex 0 claims one on each of its edges, and puts that of edge 0.
        run = chipfire.play(GAMES["flooding"][0], [("take", 4), ("put", 0)])
        data = self.data(self.page(lambda file: chipfire.page(run, file)))
        said = [[data["words"][word] for *_, word in step["changes"]] for step in data["steps"]]
        self.assertEqual([it for it in said[0] if "claimed" in it],
                         ["edge 0: 0 claimed and not put", "edge 1: 0 claimed and not put"])
        self.assertIn("edge 0: nothing claimed", said[1])

    def test_a_page_of_a_wrong_detector_is_one_of_a_class_too(self):
        class Hasty(model.Core):
            """Lets go at once."""

            def may_let_go(self, e):
                return True

        for game in (GAMES["work stealing"][1], schedules.Setting(TRIANGLE, (4, 0, 0))):
            text = self.page(lambda file, game=game: chipfire.wrong_page(Hasty, file, game))
            data = self.data(text)
            self.assertEqual((len(data["steps"]), len(data["beside"]["steps"]), data["end"]["isWrong"]), (3, 3, True))
            self.assertIn("Lets go at once", text)
            self.assertIn("Hasty", text)

    def test_a_page_of_a_wrong_token(self):
        for game in (detectors.DETECTORS["safra-colourless"].game, GAMES["work stealing"][1]):
            schedule = chipfire.explore(game, "safra-colourless").schedule
            data = self.data(self.page(lambda file, game=game: chipfire.wrong_page("safra-colourless", file, game)))
            own = [index for index, event in enumerate(schedule) if event.kind == "pass_on"]
            self.assertEqual([at for at, step in enumerate(data["beside"]["steps"]) if step.get("isOwn")], own)
            self.assertTrue(own and data["end"]["text"].startswith("The root is closed; "))
            self.assertIn("own", [change[2] for change in data["steps"][own[0]]["changes"]])


if __name__ == "__main__":
    unittest.main()
