"""The model that can be changed: detectors with a condition left out, all schedules, random ones, logs and their judge.

What a wrong detector does was worked out by hand first: the shortest schedule of each stands here with its reason. The
numbers of states come from a search of another kind (second_search.py).
"""
import functools
import os
import random
import subprocess
import sys
import tempfile
import threading
import time
import unittest
from unittest import mock

import chipfire
import second_search
import without
from chipfire.lab import detectors
from chipfire.lab import model
from chipfire.lab import schedules
from chipfire.lab import states
from strategies import drawn
from test_pages import TRIANGLE, random_game

#: Vertex 0 has two edges to the sink.
TWO = chipfire.Setting(chipfire.Graph(2, 1, ((0, 1), (0, 1))), (2, 0))
FOUR = chipfire.Setting(TRIANGLE, (4, 0, 0))

#: By hand, on the triangle with four chips on vertex 0, whose root edge is 4; and what is left then.
#: - Whoever acknowledges at once, or also while at work, does so after the first take, and the root sees it: 3 steps,
#:   and no fewer, since the root closes by a settle, which needs an acknowledgement, which needs a take.
#: - Whoever is passive and forgets its deficit has to be passive: vertex 0 fires twice at once and sends both messages
#:   before it acknowledges. Both are in transit.
#: - A root that reads its first edge is content when vertex 0, which has one chip and cannot fire, has acknowledged.
SEND = [("clear", 0), ("claim", 0), ("put", 0), ("clear", 1), ("claim", 1), ("put", 1)]
BY_HAND = {
    "at-once": ([("take", 4), ("ack", 4), ("settle", 4)], ["vertex 0 can fire"]),
    "without-passive": ([("take", 4), ("ack", 4), ("settle", 4)], ["vertex 0 can fire"]),
    "without-deficit": (
        [("take", 4), ("fire", 0, 2), *SEND, ("ack", 4), ("settle", 4)],
        ["edge 0 has 1 message", "edge 1 has 1 message"],
    ),
    "one-edge": ([("take", 4), ("ack", 4), ("settle", 4)], ["edge 5 has 1 message"]),
}


def events_of(rows):
    return [chipfire.Event(*row) for row in rows]


def slow_game(setting):
    """The game of a setting, for the second search."""
    return second_search.Game(setting.graph.vertices, setting.graph.sink, setting.graph.edges, setting.chips)


def firing_once(core, works=model.Core.works):
    """In place of `works`: a vertex fires once at a time."""
    return [event for event in works(core) if event[0] != "fire" or event[2] == 1]


class Shy(model.Core):
    """A vertex lets go only if it owes something elsewhere."""

    def may_let_go(self, e):
        return self.is_passive(e.head) and not self.deficit(self.outs(e.head)) and self.others_owed(e) > 0


# What students write: each is found, or refused with its reason.


class Timeout(model.Core):
    """Gives up waiting after two ticks, which an attribute counts."""

    tries = 0

    def own_events(self):
        yield "tick", 0, 0

    def tick(self, at):
        self.tries += 1
        return "done"

    def may_let_go(self, e):
        return self.tries > 1 or super().may_let_go(e)


class InAList(model.Core):
    """Lets go once four messages were taken."""

    def __init__(self, *words):
        self.seen = []
        super().__init__(*words)

    def on_take(self, e):
        self.seen.append(e.number)
        super().on_take(e)

    def may_let_go(self, e):
        return len(self.seen) > 3 or super().may_let_go(e)


class InADict(model.Core):
    """Lets go once messages came on three edges."""

    def __init__(self, *words):
        self.seen = {"edges": [set()]}
        super().__init__(*words)

    def on_take(self, e):
        self.seen["edges"][0].add(e.number)
        super().on_take(e)

    def may_let_go(self, e):
        return len(self.seen["edges"][0]) > 2 or super().may_let_go(e)


class OnAVertex(model.Core):
    """A vertex lets go of its second message."""

    def on_take(self, e):
        vertex = self.vertices[e.head]
        vertex.got = getattr(vertex, "got", 0) + 1
        super().on_take(e)

    def may_let_go(self, e):
        return self.vertices[e.head].got > 1 or super().may_let_go(e)


class ByACount(model.Core):
    """The root closes once all messages are taken, without reading who is at work."""

    def is_closed(self):
        return all(len(e.sent) == e.delivered for e in self.edges)


class Polls(model.Core):
    """Never lets go, and polls for ever."""

    def own_events(self):
        yield "poll", 0, 0

    def poll(self, at):
        return "done"

    def may_let_go(self, e):
        return False


class LosesOne(model.Core):
    """Forgets an acknowledgement if it gives two at once, or the one of an edge that had another."""

    def settle(self, at):
        e = self.edge(at)
        more, e.settled = e.acked - e.settled, min(e.acked, 1)
        return f"done {more}"


class InTheClass(model.Core):
    """Keeps a list in the class."""

    seen = []

    def on_take(self, e):
        self.seen.append(e.number)
        super().on_take(e)

    def may_let_go(self, e):
        return len(self.seen) > 3 or super().may_let_go(e)


class CountsInTheClass(model.Core):
    """Counts in the class."""

    taken = 0

    def on_take(self, e):
        type(self).taken += 1
        super().on_take(e)


TAKEN = []


class InAGlobal(model.Core):
    """Keeps a list that is a global."""

    def on_take(self, e):
        TAKEN.append(e.number)
        super().on_take(e)

    def may_let_go(self, e):
        return len(TAKEN) > 3 or super().may_let_go(e)


class Chance(model.Core):
    """Lets go by chance."""

    def may_let_go(self, e):
        return random.random() < 0.5 or super().may_let_go(e)


class Clock(model.Core):
    """Lets go by the clock."""

    def may_let_go(self, e):
        return time.perf_counter_ns() // 100 % 2 == 0 or super().may_let_go(e)


class WithALock(model.Core):
    """Has a lock."""

    def __init__(self, *words):
        super().__init__(*words)
        self.lock = threading.Lock()


class Asked(model.Core):
    """Counts how often it is asked."""

    polls = 0

    def may_ack(self, e):
        self.polls += 1
        return super().may_ack(e)


class AskedAndSaysSo(Asked):
    not_state = ("polls",)


class ChangesTheLimit(model.Core):
    """Changes what a game never changes."""

    def on_take(self, e):
        self.limit -= 1
        super().on_take(e)


class ComesAndGoes(model.Core):
    """Has attributes that come and go, in any order, and a list: all of them follow from how many messages came."""

    def on_take(self, e):
        vertex, name = self.vertices[e.head], f"odd_{e.number}"
        if hasattr(vertex, name):
            delattr(vertex, name)
        else:
            setattr(vertex, name, True)
        vertex.came = sorted([*getattr(vertex, "came", []), e.number])
        super().on_take(e)


class SaysLittle(model.Core):
    """Says that it is closed or nothing, and has an event without a count that changes nothing."""

    def is_closed(self):
        return super().is_closed() or None

    def own_events(self):
        yield "look", 0

    def look(self, at):
        return "done"

    def tells(self, kind, at):
        return ()


class IgnoresTheEnd(model.Core):
    """A root that is fed, and closes whenever it waits for nothing."""

    def is_closed(self):
        return self.deficit(self.edges[self.graph_edges :]) == 0


EARLY = (Timeout, InAList, InADict, OnAVertex, ByACount)
REFUSED = {
    InTheClass: "InTheClass.seen stands in a class, and changed",
    CountsInTheClass: "CountsInTheClass.taken stands in a class, and changed",
    InAGlobal: "InAGlobal does not do the same again: after .* than in the search",
    Chance: "Chance does not do the same again",
    Clock: "Clock does not do the same again",
    WithALock: r"WithALock.lock, of type lock, cannot be compared.*not_state = \('lock',\)",
    ChangesTheLimit: "ChangesTheLimit.limit changed, which a game never changes: keep yours elsewhere",
    Asked: "Asked, after 1 event: it changes polls when it is only asked what may happen",
}


class Explorer(unittest.TestCase):
    def test_the_shortest_schedules_are_those_worked_out_by_hand(self):
        for name, (rows, left) in BY_HAND.items():
            with self.subTest(name):
                found = chipfire.explore(detectors.DETECTORS[name].game, name)
                self.assertEqual((list(found.schedule), list(found.left)), (events_of(rows), left))

    def test_a_token_without_colours(self):
        # By hand: vertex 1 takes a message when the token is past it, fires, and sends back to vertex 0, which takes it
        # before the token comes. So the sum is 0, and vertex 1 has still to send on edge 3.
        found = chipfire.explore(FOUR, "safra-colourless")
        self.assertEqual(found.left, ("edge 3 has 1 chip pending",))
        passed = [event.kind for event in found.schedule].index("pass_on")
        self.assertLess(passed, found.schedule.index(("take", 0, 0)))
        self.assertEqual(found.schedule[-1], ("pass_on", 0, 0))

    def test_nothing_is_wrong_with_the_others(self):
        for name in ("right", "any-order", "safra", "credit"):
            for setting in (TWO, FOUR):
                found = chipfire.explore(setting, name)
                self.assertEqual((found.schedule, found.left, found.stuck), (None, (), None), name)

    def test_the_states_are_as_many_as_a_second_search_finds(self):
        games = [TWO, FOUR, chipfire.Setting(chipfire.path(3), (0, 2, 0, 0)),
                 chipfire.Setting(chipfire.Graph(3, 2, ((0, 1, 2), (1, 0, 1), (1, 2, 1))), (2, 1, 0))]
        for setting in games:
            for name, rule in second_search.RULES.items():
                states, least = second_search.searched(slow_game(setting), rule)
                found = chipfire.explore(setting, name, whole_sends=True)
                with self.subTest(name, setting=setting):
                    if found.schedule is None:
                        self.assertEqual((found.states, None), (states, least))
                    else:
                        sends = sum(event.kind == "put" for event in found.schedule)
                        self.assertEqual(len(found.schedule) - 2 * sends, least)

    def test_the_states_are_those_that_a_third_search_found(self):
        # Somebody else's search on these two games, with firings one at a time, found these numbers.
        found = [chipfire.explore(TWO, name, whole_sends=True).states for name in ("right", "any-order")]
        self.assertEqual(found, [30, 34])
        with mock.patch.object(model.Core, "works", firing_once):
            self.assertEqual(chipfire.explore(FOUR, "any-order", whole_sends=True).states, 1518)
        self.assertEqual(second_search.searched(slow_game(FOUR), second_search.RULES["any-order"], True)[0], 1518)

    def test_single_events_find_the_same(self):
        for name in ("right", "any-order", "at-once", "without-deficit"):
            found = chipfire.explore(TWO, name)
            whole = chipfire.explore(TWO, name, whole_sends=True)
            self.assertEqual((found.left, found.schedule is None), (whole.left, whole.schedule is None))
        self.assertGreater(chipfire.explore(TWO).states, chipfire.explore(TWO, whole_sends=True).states)

    def test_where_nothing_can_happen_and_the_root_is_open(self):
        class Never(model.Core):
            def may_let_go(self, e):
                return False

        found = chipfire.explore(TWO, Never)
        self.assertIsNone(found.schedule)
        self.assertIn(("take", 2, 0), found.stuck)
        self.assertEqual(found.lost, [])

    def test_what_students_write_is_found_by_a_schedule_that_plays(self):
        for detector in EARLY:
            with self.subTest(detector.__name__):
                found = chipfire.explore(FOUR, detector)
                core = schedules.played(FOUR, detector, found.schedule)
                self.assertTrue(schedules.is_early(core))
                self.assertEqual((found.left, found.is_whole), (tuple(core.left()), False))
        # By hand: take, two ticks, acknowledge, settle.
        self.assertEqual([event.kind for event in chipfire.explore(FOUR, Timeout).schedule],
                         ["take", "tick", "tick", "ack", "settle"])

    def test_what_cannot_be_tried_is_refused_with_its_reason(self):
        for detector, reason in REFUSED.items():
            with self.subTest(detector.__name__), self.assertRaisesRegex(ValueError, reason):
                chipfire.explore(TWO, detector)

    def test_what_follows_from_the_state_adds_none(self):
        for detector in (AskedAndSaysSo, ComesAndGoes, SaysLittle):
            found = chipfire.explore(FOUR, detector, whole_sends=True)
            self.assertEqual((found.states, found.schedule, found.lost), (1405, None, None))

    def test_where_the_root_can_never_be_closed(self):
        for setting in (TWO, FOUR, chipfire.Setting(chipfire.path(3), (0, 2, 0, 0))):
            found = chipfire.explore(setting, Shy, whole_sends=True)
            sends = sum(event.kind == "put" for event in found.lost)
            self.assertEqual(len(found.lost) - 2 * sends, second_search.lost(slow_game(setting), second_search.SHY))
        polls = chipfire.explore(TWO, Polls)
        self.assertEqual((polls.schedule, polls.stuck, polls.lost, polls.is_whole), (None, None, [], True))
        self.assertIn("the root can never be closed: after", str(polls))
        loses = chipfire.explore(FOUR, LosesOne)
        self.assertIsNone(loses.schedule)
        self.assertFalse(schedules.played(FOUR, LosesOne, loses.lost).is_closed())
        for seed in range(20):  # (nothing that follows closes it)
            core, draw = schedules.played(FOUR, LosesOne, loses.lost), random.Random(seed)
            for _ in range(150):
                core.step(*draw.choice(core.enabled() or [("take", 0, 0)]))
                self.assertFalse(core.is_closed())

    def test_a_search_that_stops_accuses_nobody(self):
        for detector in ("right", Polls, Shy):
            found = chipfire.explore(FOUR, detector, most=100)
            self.assertEqual((found.states, found.schedule, found.lost, found.is_whole), (100, None, None, False))
            self.assertIn("the others are not tried, nor whether the root can always be closed", str(found))
        self.assertTrue(chipfire.explore(FOUR, most=1405, whole_sends=True).is_whole)
        # (a state that was reached and not gone on from is visited too)
        self.assertEqual(chipfire.explore(FOUR, "at-once", most=12).left, ("vertex 0 can fire",))

    def test_feeds(self):
        fed = chipfire.Setting(TRIANGLE, (0, 0, 0), fed=True)
        for feeds in ((), ((4, 2),), ((4, 2), (5, 1)), ((4, 1), (4, 2))):
            for name in ("right", "any-order"):
                states, early = second_search.searched(slow_game(fed), second_search.RULES[name], feeds=feeds)
                found = chipfire.explore(fed, name, feeds=feeds, whole_sends=True)
                self.assertEqual((found.states, found.schedule, early, found.lost), (states, None, None, None))
            for name in ("at-once", "without-deficit"):
                _, early = second_search.searched(slow_game(fed), second_search.RULES[name], feeds=feeds)
                found = chipfire.explore(fed, name, feeds=feeds, whole_sends=True).schedule
                longer = found and sum(2 * (event.kind == "put") for event in found)
                self.assertEqual(found and len(found) - longer, early)
            found = chipfire.explore(fed, IgnoresTheEnd, feeds=feeds)
            self.assertEqual((found.schedule, found.left), ([], ("the end of feeding is not noted",)))
        found = chipfire.explore(fed, "at-once", feeds=((4, 2),)).schedule
        replies = chipfire.simulate(TRIANGLE, (0, 0, 0), found, fed=True).replies
        self.assertTrue(all(reply.is_done or reply.name in ("Engaged", "NothingOwed") for reply in replies))

    def test_seals(self):
        class NotHalted(model.Core):
            def may_let_go(self, e):
                return super().may_let_go(e) and self.vertices[e.head].halt is None

        class HaltedLetsGo(model.Core):
            def may_let_go(self, e):
                return self.vertices[e.head].halt is not None or super().may_let_go(e)

        self.assertIsNone(chipfire.explore(TWO, HaltedLetsGo).schedule)
        found = chipfire.explore(TWO, HaltedLetsGo, seals=(1,))
        self.assertTrue(schedules.is_early(schedules.played(TWO, HaltedLetsGo, found.schedule)))
        self.assertIn(("seal", 1, 0), found.schedule)
        right, waits = (chipfire.explore(TWO, detector, seals=(0, 1)) for detector in ("right", NotHalted))
        self.assertEqual((right.schedule, right.lost), (None, None))
        self.assertIn("halt", [event.kind for event in waits.stuck])

    def test_what_cannot_be_explored_is_reported(self):
        for options, said in (
            ({"feeds": ((4, 2),)}, "the setting is not fed"), ({"seals": (4,)}, "the edge of a seal is above 3: 4"),
            ({"most": 0}, "most is below 1"),
        ):
            with self.assertRaisesRegex(ValueError, said):
                chipfire.explore(FOUR, **options)
        with self.assertRaisesRegex(ValueError, "edge 1 is none of the root's, which are 4 to 6"):
            chipfire.explore(chipfire.Setting(TRIANGLE, (0, 0, 0), fed=True), feeds=((1, 2),))
        with self.assertRaisesRegex(TypeError, "a game is a chipfire.Setting of graph and chips, or a .*, and no Graph"):
            chipfire.explore(TRIANGLE, (4, 0, 0))
        with self.assertRaisesRegex(ValueError, "no detector 'hasty', but right, at-once"):
            chipfire.explore(FOUR, "hasty")
        for detector in (None, 4, object, schedules.opened(FOUR)):
            with self.assertRaisesRegex(TypeError, "a detector is a name or a class that is made of chipfire.model"):
                chipfire.explore(FOUR, detector)
        with self.assertRaisesRegex(ValueError, r"not_state is a tuple of names: not_state = \('polls',\)"):
            chipfire.explore(FOUR, type("Asked", (Asked,), {"not_state": "polls"}))

    def test_more_firings_at_a_time_than_are_listed(self):
        questions = functools.partial(chipfire.explore, most=8), functools.partial(chipfire.random_schedule, seed=1, most=8)
        for question in questions:
            question(chipfire.Setting(TRIANGLE, (2 * 10**6 + 1, 0, 0)))
            with self.assertRaisesRegex(ValueError, "^vertex 0 may fire any number of times up to 1000001, which"):
                question(chipfire.Setting(TRIANGLE, (2 * 10**6 + 2, 0, 0)))

    def test_numbers_of_a_setting_are_whole(self):
        floats, whole = (chipfire.explore(chipfire.Setting(TRIANGLE, (4, 0, 0), one, one)) for one in (1.0, 1))
        self.assertEqual((floats.states, floats.schedule), (whole.states, None))


class Model(unittest.TestCase):
    @drawn(lambda numbers: numbers, 25)
    def test_what_is_enabled_is_what_would_do_something(self, numbers):
        # Each event that could be named is tried on a copy of the game.
        core = schedules.opened(random_game(numbers, fed=False))
        game = states.States(core)
        for _ in range(60):
            edges, vertices = range(len(core.edges)), range(len(core.vertices))
            names = [(kind, at, 0) for kind in ("take", "ack", "settle", "clear", "claim", "put") for at in edges]
            names += [("halt", at, 0) for at in vertices]
            names += [("fire", at, count) for at in vertices for count in range(1, 40)]
            game.noted()
            wanted = {name for name in names if self.does_something(game, name)}
            events = core.enabled()
            self.assertEqual((set(events), len(events)), (wanted, len(wanted)))
            if not events:
                break
            core.step(*numbers.choice(events))

    @staticmethod
    def does_something(game, event):
        before = game.now
        if game.parts[-1].step(*event).startswith("not-now"):
            return False
        after = game.noted()
        game.load(before)
        return after != before


class RandomSchedules(unittest.TestCase):
    @drawn(lambda numbers: (random_game(numbers, fed=False), numbers.randrange(2**32)), 60)
    def test_they_close_the_root_and_the_program_agrees(self, game):
        setting, seed = game
        events = chipfire.random_schedule(setting, seed)
        core = schedules.opened(setting)
        replies = [core.step(*event) for event in events]
        run = chipfire.simulate(setting.graph, setting.chips, events, limit=setting.limit, ring=setting.ring)
        self.assertEqual([str(reply) for reply in run.replies], replies)
        self.assertTrue(run.root_closed and core.is_closed())
        self.assertEqual(run.report.text().strip(), core.report())

    def test_the_same_seed_draws_the_same(self):
        self.assertEqual(chipfire.random_schedule(FOUR, 5), chipfire.random_schedule(FOUR, 5))
        self.assertNotEqual(chipfire.random_schedule(FOUR, 5), chipfire.random_schedule(FOUR, 6))

    def test_one_that_goes_round_for_ever_is_cut(self):
        class NeverWhite(detectors.Safra):
            def blackens(self, at):
                return True

        events = chipfire.random_schedule(FOUR, 1, NeverWhite, most=300)
        self.assertEqual((len(events), events.ended), (300, False))
        self.assertTrue(chipfire.random_schedule(FOUR, 1).ended)
        found = chipfire.explore(FOUR, NeverWhite)
        self.assertEqual((found.schedule, found.stuck, found.lost), (None, None, []))

    def test_one_that_is_fed_notes_the_end(self):
        setting = chipfire.Setting(TRIANGLE, (4, 0, 0), fed=True)
        events = chipfire.random_schedule(setting, 1)
        self.assertEqual([event.kind for event in events].count("end"), 1)
        self.assertTrue(chipfire.simulate(TRIANGLE, (4, 0, 0), events, fed=True).root_closed)

    def test_a_long_counterexample_becomes_short(self):
        shortest = len(BY_HAND["without-deficit"][0])
        for seed in range(40):
            events = chipfire.random_schedule(FOUR, seed, "without-deficit")
            if schedules.is_early(schedules.played(FOUR, "without-deficit", events)):
                short = chipfire.shrink(FOUR, "without-deficit", events)
                self.assertTrue(schedules.is_early(schedules.played(FOUR, "without-deficit", short)))
                self.assertTrue(shortest <= len(short) <= len(events))
                for at in range(len(short)):
                    fewer = short[:at] + short[at + 1 :]
                    self.assertFalse(schedules.is_early(schedules.played(FOUR, "without-deficit", fewer)))
                break
        else:
            self.fail("no random schedule closed too early")
        with self.assertRaisesRegex(ValueError, "nothing to shrink"):
            chipfire.shrink(FOUR, "right", chipfire.random_schedule(FOUR, 1))


class Judge(unittest.TestCase):
    RIGHT = [("take", 4, 0, "got 0 4"), ("ack", 4, 0, "not-now 15"), ("settle", 4, 0, "done 0")]
    HASTY = [("take", 4, 0, "got 0 4"), ("ack", 4, 0, "done 1"), ("settle", 4, 0, "done 1"), ("root", 0, 0, "closed")]

    @staticmethod
    def logged(detector, seed):
        core = schedules.opened(FOUR, detector)
        return [(*event, core.step(*event)) for event in chipfire.random_schedule(FOUR, seed, detector)]

    def test_a_right_log(self):
        judged = chipfire.judge(FOUR, self.RIGHT)
        self.assertEqual((judged.row, judged.claim, judged.is_true), (None, None, True))
        self.assertEqual(str(judged), "each reply is that of the right detector")
        self.assertTrue(chipfire.judge(FOUR, [*self.RIGHT, ("root", 0, 0, "open")]).is_true)

    def test_the_first_row_that_differs_and_a_claim_that_is_false(self):
        judged = chipfire.judge(FOUR, self.HASTY)
        self.assertEqual((judged.row, judged.told, judged.right, judged.fits), (1, "done 1", "not-now 15", True))
        self.assertEqual((judged.claim, judged.is_true, judged.left), ("closed", False, ("vertex 0 can fire",)))
        said = ("row 1: the log says 'done 1', the right detector 'not-now 15'; the claim in row 3 that the root is "
                "closed is false, since vertex 0 can fire")
        self.assertEqual(str(judged), said)

    def test_each_claim_is_judged_where_it_stands(self):
        judged = chipfire.judge(FOUR, [*self.HASTY, ("fire", 0, 2, "done 2"), ("root", 0, 0, "open")])
        self.assertEqual([(claim.row, claim.said, claim.is_true) for claim in judged.claims],
                         [(3, "closed", False), (5, "open", True)])
        self.assertEqual((judged.claim, judged.is_true, judged.is_missed), ("closed", False, False))
        # (the same claim, once the game is over, is true)
        whole = [*self.logged("right", 3), ("root", 0, 0, "closed")]
        self.assertTrue(chipfire.judge(FOUR, whole).is_true)
        self.assertFalse(chipfire.judge(FOUR, [*whole[:1], whole[-1], *whole[1:]]).is_true)

    def test_a_sound_detector_that_differs_is_not_called_wrong(self):
        for name, own in (("safra", "pass_on"), ("credit", "give_back")):
            log = self.logged(name, 3)
            judged = chipfire.judge(FOUR, [*log, ("root", 0, 0, "closed")], also=(own,))
            self.assertEqual((judged.row, judged.is_true, judged.left), (None, True, ()))
            judged = chipfire.judge(FOUR, [*log, ("root", 0, 0, "open")], also=(own,))
            self.assertTrue(judged.is_missed)
            self.assertIn("the end is missed: nothing is left, and the root is open", str(judged))
            with self.assertRaisesRegex(ValueError, f"there is no event '{own}'"):
                chipfire.judge(FOUR, log)

    def test_messages_that_are_acknowledged_one_by_one(self):
        # By hand: vertex 0 of a path fires twice, one at a time, and edge 0 holds both messages; vertex 1 is the sink,
        # and acknowledges each on its own: the second of the two engaged nobody.
        setting = chipfire.Setting(chipfire.Graph(2, 1, ((0, 1),)), (2, 0))
        send = [("clear", 0, 0, "done {}"), ("claim", 0, 0, "sent {} 1"), ("put", 0, 0, "done 1")]
        log = [("take", 1, 0, "got 0 2")]
        for number in range(2):
            log += [("fire", 0, 1, f"done {number + 1}")]
            log += [(kind, at, count, reply.format(number)) for kind, at, count, reply in send]
        log += [("take", 0, 0, "got 0 1"), ("take", 0, 0, "got 1 1")]
        log += [(kind, edge, 0, "done 1") for edge in (0, 0, 1) for kind in ("ack", "settle")]
        log += [("root", 0, 0, "closed")]
        judged = chipfire.judge(setting, log)
        self.assertEqual((judged.row, judged.fits, judged.is_true), (None, True, True))
        # (a ring that is full is no mistake, and an empty one that is called full is)
        full = [*log[:6], ("clear", 0, 0, "full"), *log[6:]]
        self.assertEqual(str(chipfire.judge(setting, full)), str(judged).replace("row 17", "row 18"))
        judged = chipfire.judge(setting, [*log[:2], ("clear", 0, 0, "full")])
        self.assertEqual((judged.row, judged.fits), (2, False))
        # (vertex 0 waits for two acknowledgements)
        self.assertEqual(chipfire.judge(setting, log[:9] + [("ack", 1, 0, "done 1")]).row, 9)

    def test_a_vertex_stays_engaged_as_long_as_it_owes_on_its_parent_edge(self):
        # By hand: vertex 0 of a path fires twice, and vertex 1 takes both messages on edge 0, which engages it. It may
        # acknowledge one. The other engaged it, and it has two chips: it may fire, and so may not acknowledge that.
        setting = chipfire.Setting(chipfire.Graph(3, 2, ((0, 1), (1, 2))), (2, 0, 0))
        send = [("clear", 0, 0, "done {}"), ("claim", 0, 0, "sent {} 1"), ("put", 0, 0, "done 1")]
        log = [("take", 2, 0, "got 0 2")]
        for number in range(2):
            log += [("fire", 0, 1, f"done {number + 1}")]
            log += [(kind, at, count, reply.format(number)) for kind, at, count, reply in send]
        log += [("take", 0, 0, "got 0 1"), ("take", 0, 0, "got 1 1"), ("ack", 0, 0, "done 1"), ("ack", 0, 0, "done 1")]
        judged = chipfire.judge(setting, log)
        self.assertEqual((judged.row, judged.told, judged.right, judged.fits), (12, "done 1", "not-now 15", True))
        self.assertIsNone(chipfire.judge(setting, log[:-1]).row)
        # (and so vertex 0 waits, and may not acknowledge to the root)
        judged = chipfire.judge(setting, [*log[:-1], ("settle", 0, 0, "done 1"), ("ack", 2, 0, "done 1")])
        self.assertEqual((judged.row, judged.right), (13, "not-now 15"))

    def test_a_log_that_does_not_fit_gets_no_verdict(self):
        judged = chipfire.judge(FOUR, [*self.RIGHT, ("fire", 0, 3, "done 3"), ("root", 0, 0, "closed")])
        self.assertEqual((judged.row, judged.fits, judged.claims, judged.is_true), (3, False, (), None))
        self.assertEqual(str(judged), "the log does not fit the game: row 3 says 'done 3', and the game 'not-now 7'; "
                                      "what follows is not judged")
        judged = chipfire.judge(FOUR, [*self.HASTY, ("take", 0, 0, "got 0 1")])
        self.assertEqual([(claim.row, claim.is_true) for claim in judged.claims], [(3, False)])
        self.assertIs(judged.is_true, False)

    #: Two vertices in a row, of which the second is the sink; the root's edges are 1 and 2.
    ROW = chipfire.Graph(2, 1, ((0, 1),))

    @staticmethod
    def sent(edge, number, chips=1):
        """The rows of a message: the one with this number on an edge."""
        replies = {"clear": f"done {number}", "claim": f"sent {number} {chips}", "put": f"done {chips}"}
        return [(kind, edge, 0, reply) for kind, reply in replies.items()]

    def row_of(self, setting, log):
        """The first row that differs, what the right detector replies there, and whether the log fits the game."""
        judged = chipfire.judge(setting, log)
        return judged.row, judged.right, judged.fits

    def test_what_may_be_less_than_it_could_and_never_more(self):
        # By hand: vertex 0 has three chips, fires each alone and sends all three, which no ring holds. The sink takes
        # them. It may acknowledge two, and the last one too, since it waits for nothing: any number up to three.
        game, log = chipfire.Setting(self.ROW, (3, 0)), [("take", 1, 0, "got 0 3")]
        for number in range(3):
            log += [("fire", 0, 1, f"done {number + 1}"), *self.sent(0, number)]
        log += [("take", 0, 0, f"got {number} 1") for number in range(3)]
        more = len(log)
        for rows, differs in [
            ([("ack", 0, 0, "done 3"), ("settle", 0, 0, "done 3"), ("ack", 1, 0, "done 1")], None),
            ([("ack", 0, 0, "done 4")], (0, "done 3")), ([("ack", 0, 0, "done 0")], (0, "done 3")),
            ([("ack", 0, 0, "done 1 2")], (0, "done 3")), ([("ack", 1, 0, "done 0")], (0, "not-now 15")),
            ([("settle", 0, 0, "done 1")], (0, "done 0")),
            ([("ack", 0, 0, "done 2"), ("settle", 0, 0, "done 3")], (1, "done 2")),
            ([("ack", 0, 0, "done 2"), ("settle", 0, 0, "done 0"), ("settle", 0, 0, "done 2")], None),
            # (as long as one is not seen, vertex 0 waits)
            ([("ack", 0, 0, "done 3"), ("settle", 0, 0, "done 2"), ("ack", 1, 0, "done 1")], (2, "not-now 15")),
            ([("ack", 0, 0, "done 3"), *[("settle", 0, 0, "done 1")] * 3, ("ack", 1, 0, "done 1")], None),
        ]:
            wanted = (None, "", True) if differs is None else (more + differs[0], differs[1], True)
            self.assertEqual(self.row_of(game, [*log, *rows]), wanted, rows)

    def test_a_cell_that_is_said_to_be_full_is_not_seen_empty(self):
        game = chipfire.Setting(self.ROW, (2, 0))
        log = [("take", 1, 0, "got 0 2"), ("fire", 0, 1, "done 1"), *self.sent(0, 0), ("fire", 0, 1, "done 2")]
        clear, claim, _ = self.sent(0, 1)
        self.assertEqual(self.row_of(game, [*log, clear, claim]), (None, "", True))
        self.assertEqual(self.row_of(game, [*log, clear, ("clear", 0, 0, "full"), claim]), (8, "not-now 11", False))

    def test_a_vertex_that_owes_nothing_is_engaged_anew(self):
        # By hand: vertex 1 fires two chips. It gets one from vertex 0, acknowledges it, and owes nothing. One of the
        # root engages it again, and with two chips it may not acknowledge that.
        game = chipfire.Setting(chipfire.Graph(3, 2, ((0, 1), (1, 2, 2))), (1, 1, 0))
        log = [("take", 2, 0, "got 0 1"), ("fire", 0, 1, "done 1"), *self.sent(0, 0), ("take", 0, 0, "got 0 1")]
        log += [("ack", 0, 0, "done 1"), ("take", 3, 0, "got 0 1"), ("ack", 3, 0, "done 1")]
        self.assertEqual(self.row_of(game, log), (8, "not-now 15", True))

    def test_the_end_of_feeding(self):
        # (the first edge of the root is 1; what was acknowledged on edge 0 is not the root's to see)
        game, closed = chipfire.Setting(self.ROW, (0, 0), fed=True), ("root", 0, 0, "closed")
        said = "the end of feeding is not noted"
        for log, left in [([closed], (said,)), ([("settle", 1, 0, "done 0"), closed], (said,)),
                          ([("end", 0, 0, "done 0"), closed], ())]:
            judged = chipfire.judge(game, log)
            self.assertEqual((judged.row, judged.left, judged.is_true), (None, left, not left))
        (clear, *_), (*_, put) = self.sent(1, 0), self.sent(1, 0)
        log = [clear, ("feed", 1, 1, "sent 0 1"), put, ("take", 1, 0, "got 0 1"), ("fire", 0, 1, "done 1")]
        log += [*self.sent(0, 0), ("take", 0, 0, "got 0 1"), ("ack", 0, 0, "done 1")]
        self.assertEqual(self.row_of(game, [*log, ("end", 0, 0, "done 1")]), (len(log), "done 0", True))
        log += [("settle", 0, 0, "done 1"), ("ack", 1, 0, "done 1")]
        for replies in (["done 1"], ["done 0", "done 1"]):
            kinds = zip(("end", "settle"), replies)
            rows = [*log, *((kind, int(kind == "settle"), 0, reply) for kind, reply in kinds), closed]
            self.assertEqual((self.row_of(game, rows), chipfire.judge(game, rows).is_true), ((None, "", True), True))

    def test_counts_are_read_once_nothing_is_left(self):
        # (a detector that acknowledges nothing may read them too; how often a vertex fired is the game's to say)
        game, log = chipfire.Setting(self.ROW, (1, 0)), [("take", 1, 0, "got 0 1"), ("fire", 0, 1, "done 1")]
        log += self.sent(0, 0)
        whole = [*log, ("take", 0, 0, "got 0 1")]
        acks = [(kind, edge, 0, "done 1") for edge in (0, 1) for kind in ("ack", "settle")]
        for rows, reply, differs in [(log, "done 1", "not-now 16"), (whole, "done 1", None),
                                     (whole, "done 2", "not-now 16"), ([*whole, *acks], "done 2", "done 1")]:
            wanted = (None, "", True) if differs is None else (len(rows), differs, True)
            self.assertEqual(self.row_of(game, [*rows, ("read", 0, 0, reply)]), wanted)

    def test_of_several_claims_the_first_false_or_the_last(self):
        whole = self.logged("right", 3)
        opened, closed = ("root", 0, 0, "open"), ("root", 0, 0, "closed")
        for first, last, said in [(opened, closed, ("closed", True, False)), (closed, opened, ("closed", False, True)),
                                  (opened, opened, ("open", True, True)), (closed, closed, ("closed", False, False))]:
            judged = chipfire.judge(FOUR, [first, *whole, last])
            self.assertEqual((judged.claim, judged.is_true, judged.is_missed), said)
            self.assertIn(f"the claim in row {0 if first == closed else len(whole) + 1} that the root", str(judged))

    def test_a_log_from_a_file(self):
        with tempfile.TemporaryDirectory(prefix="chipfire-python-") as folder:
            with open(f"{folder}/log.csv", "w", encoding="utf-8") as file:
                file.write("event,at,count,reply\ntake,4,0,got 0 4\nfire,0,2,done 1\n")
            judged = chipfire.judge(FOUR, f"{folder}/log.csv")
            self.assertEqual((judged.row, judged.told, judged.right), (1, "done 1", "done 2"))
            with open(f"{folder}/log.csv", "w", encoding="utf-8") as file:
                file.write("event,at,count\ntake,4,0\n")
            with self.assertRaisesRegex(ValueError, "does not begin with event,at,count,reply: this is no log"):
                chipfire.judge(FOUR, f"{folder}/log.csv")

    def test_rows_that_are_none(self):
        for row, said in (
            (("root", 0, 0, "done"), "neither closed nor open"), (("Take", 4, 0, "got 0 4"), "'Take': take is near"),
            (("tkae", 4, 0, "got 0 4"), "'tkae': take is near"), (("quux", 0, 0, ""), "this is no log of a detector"),
            (("take", -1, 0, "empty"), "row 1: at is below 0"), (("fire", 0, -1, ""), "row 1: count is below 0"),
            (("take", "x", 0, "empty"), "row 1: at is no whole number: 'x'"),
            (("take", 4, 0), "row 1 has not 4 fields"),
        ):
            with self.assertRaisesRegex(ValueError, said):
                chipfire.judge(FOUR, [self.RIGHT[0], row])


class AtTheShell(unittest.TestCase):
    OWN = "from chipfire.model import Core\nclass Mine(Core):\n    def may_let_go(self, e):\n        return {}\n"

    def asked(self, *words):
        package = os.path.dirname(os.path.dirname(chipfire.__file__))
        environment = {**os.environ, **without.environment(package)}
        ran = subprocess.run([sys.executable, "-m", "chipfire", *words], env=environment, encoding="utf-8",
                             stdout=subprocess.PIPE, stderr=subprocess.PIPE)
        return ran.returncode, ran.stdout + ran.stderr

    def test_the_status_of_explore(self):
        with tempfile.TemporaryDirectory(prefix="chipfire-python-") as folder:
            graph, chips = f"{folder}/graph.json", f"{folder}/chips.csv"
            TWO.graph.write(graph)
            chipfire.write_chips(chips, TWO.graph, TWO.chips)
            for rule, status in (("True", 2), ("False", 3), ("super().may_let_go(e)", 0)):
                with open(f"{folder}/mine.py", "w", encoding="utf-8") as file:
                    file.write(self.OWN.format(rule))
                ended, said = self.asked("explore", f"{folder}/mine.py:Mine", graph, chips)
                self.assertEqual(ended, status, said)
            self.assertIn("the root can always be closed", said)
            self.assertEqual(self.asked("explore", "right", graph, chips, "--most", "5")[0], 4)
            ended, said = self.asked("explore", f"{folder}/mine.py:Yours")
            self.assertEqual((ended, "has no class Yours" in said), (1, True))
        ended, said = self.asked("explore", "at-once")
        self.assertEqual((ended, said.splitlines()[1:]), (2, ["event,at,count", "take,4,0", "ack,4,0", "settle,4,0"]))

    def test_a_file_imports_what_stands_beside_it(self):
        with tempfile.TemporaryDirectory(prefix="chipfire-python-") as folder:
            for name, text in (("given", self.OWN.format("True")), ("own", "from given import Mine\n")):
                with open(f"{folder}/{name}.py", "w", encoding="utf-8") as file:
                    file.write(text)
            ended, said = self.asked("explore", f"{folder}/own.py:Mine")
        self.assertEqual(ended, 2, said)

    def test_an_error_is_no_verdict(self):
        for words, said in ((["explore"], "the following arguments are required: DETECTOR"),
                            (["explore", "right", "--most", "x"], "argument --most: invalid int value: 'x'"),
                            (["judge", "graph.json", "log.csv"], "a game is GRAPH and CHIPS, two files"),
                            (["judge", "a", "b", "c", "--what"], "unrecognized arguments: --what"),
                            (["explode"], "invalid choice: 'explode'")):
            ended, reason = self.asked(*words)
            self.assertEqual((ended, said in reason), (1, True), reason)
        with tempfile.TemporaryDirectory(prefix="chipfire-python-") as folder:
            for text, said in ((self.OWN.format("exit(0)"), "the detector ended the command with exit(0)"),
                               (self.OWN.format("True") + "exit(0)\n", "mine.py: SystemExit: 0"),
                               (self.OWN.format("1 / 0"), "ZeroDivisionError")):
                with open(f"{folder}/mine.py", "w", encoding="utf-8") as file:
                    file.write(text)
                ended, reason = self.asked("explore", f"{folder}/mine.py:Mine")
                self.assertEqual((ended, said in reason), (1, True), reason)

    def test_the_status_of_judge(self):
        with tempfile.TemporaryDirectory(prefix="chipfire-python-") as folder:
            graph, chips = f"{folder}/graph.json", f"{folder}/chips.csv"
            TRIANGLE.write(graph)
            chipfire.write_chips(chips, TRIANGLE, FOUR.chips)
            over = [row for row in Judge.logged("right", 3)]
            for rows, status in ((Judge.HASTY, 2), ([*over, ("root", 0, 0, "closed")], 0),
                                 ([*over, ("root", 0, 0, "open")], 3), ([("fire", 0, 1, "done 1")], 1)):
                with open(f"{folder}/log.csv", "w", encoding="utf-8") as file:
                    file.write("event,at,count,reply\n" + "".join(",".join(map(str, row)) + "\n" for row in rows))
                ended, said = self.asked("judge", graph, chips, f"{folder}/log.csv")
                self.assertEqual(ended, status, said)
            # (of any program: process 0 claims before it is passive, after that, and never)
            for rows, wanted in (("0,over,0\n0,passive,0\n", (2, "over 0 1 early: process 0 is active\nend missed\n")),
                                 ("0,passive,0\n0,over,0\n", (0, "over 0 2 right\nend claimed\n")),
                                 ("0,passive,0\n", (3, "end missed\n")), ("0,stop,0\n", (1, "fault 28 Kind 1"))):
                with open(f"{folder}/log.csv", "w", encoding="utf-8") as file:
                    file.write(f"process,kind,channel\n0,active,0\n{rows}")
                ended, said = self.asked("judge", f"{folder}/log.csv")
                self.assertEqual((ended, said.partition("chipfire: ")[2].strip() or said), wanted)


class ShiViz(unittest.TestCase):
    def test_clocks_are_those_worked_out_by_hand(self):
        # Vertex 0 takes, fires and sends; the sink takes it (it knows 5 events of vertex 0) and acknowledges.
        events = [("take", 4), ("fire", 0, 2), ("clear", 1), ("claim", 1), ("put", 1), ("take", 1), ("ack", 1),
                  ("settle", 1), ("ack", 4), ("take", 1)]
        self.assertEqual(chipfire.shiviz(FOUR, events).splitlines(), [
            '0 {"0":1}', "take 4: got 0 4", '0 {"0":2}', "fire 0: done 2", '0 {"0":3}', "clear 1: done 0",
            '0 {"0":4}', "claim 1: sent 0 2", '0 {"0":5}', "put 1: done 2", '2 {"0":5, "2":1}', "take 1: got 0 2",
            '2 {"0":5, "2":2}', "ack 1: done 1", '0 {"0":6, "2":2}', "settle 1: done 1",
        ])

    def test_a_token_is_refused(self):
        with self.assertRaisesRegex(ValueError, "pass_on is an event of safra: what it carries is not known"):
            chipfire.shiviz(FOUR, chipfire.random_schedule(FOUR, 3, "safra"), "safra")


class Notes(unittest.TestCase):
    def test_a_schedule_without_its_notes(self):
        schedule = chipfire.Schedule().take(4).note("a first look")
        with tempfile.TemporaryDirectory(prefix="chipfire-python-") as folder:
            file = f"{folder}/schedule.csv"
            texts = {True: "event,at,count,note\ntake,4,0,a first look\n", False: "event,at,count\ntake,4,0\n"}
            for notes, said in texts.items():
                chipfire.write_schedule(file, schedule, notes=notes)
                with open(file, encoding="utf-8") as text:
                    self.assertEqual(text.read(), said)
            self.assertTrue(chipfire.simulate(TRIANGLE, (4, 0, 0), file).replies[0].is_done)


if __name__ == "__main__":
    unittest.main()
