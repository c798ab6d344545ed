"""What `explore` says of detectors as students hand them in (students.py), beside a search of this file.

That search goes breadth first over deep copies of games, and shares neither states nor shadows with `explore`. With
CHIPFIRE_SOAK=1 in the environment it goes over all graphs of up to three vertices and four edges, and over 10,000 random
schedules of each right class.
"""
import copy
import dataclasses
import itertools
import os
import re
import subprocess
import sys
import tempfile
import unittest

import chipfire
import students
from chipfire.lab import detectors
from chipfire.lab import explored as found_by
from chipfire.lab import locality
from chipfire.lab import model
from chipfire.lab import schedules
from chipfire.lab import states
from small_graphs import directed_graphs
from students import GAMES, NOT_LOCAL, REFUSED, RIGHT, STUDENTS

SOAK = bool(os.environ.get("CHIPFIRE_SOAK"))
#: How many states of a game the search of this file visits, and how many random schedules are drawn of a right class.
CAP = 200_000 if SOAK else 3_000
SCHEDULES = 10_000 if SOAK else 100
PAIR = GAMES["pair"]
#: What the help says of each status, and the page.
HELP = {
    "0": ("right in this game", "is right in all schedules of this game"),
    "2": ("too early", "closes the root too early"),
    "3": ("can miss the end", "can miss the end"),
    "4": ("too many states", "has more than `--most` states"),
    "5": ("reads other vertices", "reads other vertices"),
}
#: Refused classes of which a whole search shows it, on a small game here.
WHOLE = ("OpensAgain", "WithoutTells", "InItsClass", "BySmallChance", "Lies")
#: What is said of each refused class, and how many events led there; None where that is not worked out by hand.
REFUSALS = {
    "HelperCause": ("HelperCause has its own 'cause', which is the game's.*on_send, on_take, may_let_go", None),
    "NothingLeft": ("NothingLeft has its own 'left', which is the game's", None),
    "LeftEdges": ("LeftEdges has its own 'left', which is the game's", None),
    "KeepsLeft": ("KeepsLeft keeps something as 'has_unput', which is the game's", None),
    "TakesChips": ("it changes chips of vertex 0, which is the game's", 1),
    "TakesMessages": ("it changes delivered of edge [01], which is the game's", None),
    "EndsItself": ("it changes halt of vertex 0, which is the game's", 1),
    "AnswersNotNow": ("take [01] replies 'not-now 5', and in the game 'got 1 1'", None),
    "OpensAgain": ("the root is open again, and it was closed before this event", None),
    "Lies": ("look 0 is one event of Lies in which more than two parts tell and hear something", None),
    "WithoutTells": ("look is an event of WithoutTells, whose `tells` does not say who sends to whom", None),
    "InItsClass": ("InItsClass.seen stands in a class, and changed", None),
    "InADefault": ("InADefault does not do the same again", None),
    "InAGlobal": ("InAGlobal does not do the same again", None),
    "ByChance": ("ByChance does not do the same again: it asks chance", None),
    "BySmallChance": ("BySmallChance does not do the same again: it asks chance", None),
    "ByTheClock": ("ByTheClock does not do the same again", None),
    "WithALock": (r"WithALock.lock, of type lock, cannot be compared.*not_state = \('lock',\)", None),
    "HidesItsState": ("HidesItsState does not do the same again", None),
    # (vertex 0 is asked once it has taken its message)
    "Raises": (r"after 1 event: ZeroDivisionError: division by zero, in may_let_go \(students.py, line \d+\)", 1),
    "RaisesAtFirst": (r"RaisesAtFirst, at the start: TypeError: .*takes 1 positional argument", 0),
    "MisspeltEvent": ("MisspeltEvent, at the start: ValueError: there is an event 'pol', and no method of that name", 0),
}


def form(value):
    """A value as text, the same for equal values; it goes into objects, and dicts keep their order."""
    if isinstance(value, dict):
        return "{" + ",".join(f"{key!r}:{form(its)}" for key, its in value.items()) + "}"
    if isinstance(value, (list, tuple)):
        return "[" + ",".join(map(form, value)) + "]"
    if isinstance(value, (set, frozenset)):
        return "<" + ",".join(sorted(map(form, value))) + ">"
    return form(vars(value)) if hasattr(value, "__dict__") else repr(value)


def form_of_game(core):
    """The state of a game as text, with the attributes of a part by their names."""
    parts = [vars(part) for part in (*core.edges, *core.vertices, core)]
    return form([sorted((name, form(value)) for name, value in held.items()) for held in parts])


class Searched:
    """All states of a game by single events: their number, and the numbers of events of the shortest ways.

    early  to a state in which the root is closed and something is left
    lost   to one from which the root is never closed any more
    """

    def __init__(self, setting, make, cap=CAP):
        cores, self.far, self.after = [schedules.opened(setting, make)], [0], []
        self.places = {form_of_game(cores[0]): 0}
        self.closed, self.early, self.is_whole = [], None, True
        for at, core in enumerate(cores):
            self.closed.append(bool(core.is_closed()))
            if self.closed[at] and core.left():
                self.early, self.is_whole = self.far[at], False
                break
            self.after.append([])
            for event in core.enabled():
                reached = copy.deepcopy(core)
                reached.step(*event)
                place = self.places.setdefault(form_of_game(reached), len(cores))
                if place == len(cores):
                    cores.append(reached)
                    self.far.append(self.far[at] + 1)
                self.after[at].append(place)
            cores[at] = None
            if len(cores) > cap:
                self.is_whole = False
                break
        self.states = len(cores)
        self.lost = self.way_to_lost() if self.is_whole else None

    def way_to_lost(self):
        able, before = set(), {}
        for at, heads in enumerate(self.after):
            for head in heads:
                before.setdefault(head, []).append(at)
        waiting = [at for at, is_closed in enumerate(self.closed) if is_closed]
        while waiting:
            at = waiting.pop()
            if at not in able:
                able.add(at)
                waiting += before.get(at, ())
        return min((self.far[at] for at in range(self.states) if at not in able), default=None)


def small_games():
    """All graphs of up to three vertices and four edges, the last vertex the sink, with two chips on a vertex, or one on
    each."""
    for graph in directed_graphs():
        inner = graph.vertices - 1
        edges = sum(mult for _, _, mult in graph.edges)
        if graph.sink == inner and edges <= 4:
            piles = [tuple(2 * (at == vertex) for at in range(graph.vertices)) for vertex in range(inner)]
            yield from (chipfire.Setting(graph, chips) for chips in [*piles, (1,) * inner + (0,)])


#: What `explore` found, by class and game: several tests ask it of the same.
FOUND = {}


def explored(setting, make):
    """What `explore` finds, or the refusal. The search is made once."""
    key = (make, setting)
    if key not in FOUND:
        try:
            FOUND[key] = chipfire.explore(setting, make, most=max(CAP, 100_000))
        except ValueError as error:
            FOUND[key] = error
    return FOUND[key]


class Verdicts(unittest.TestCase):
    def test_each_class_has_its_verdict(self):
        for make, verdict, game in STUDENTS:
            # (right ones have most states, and are tried on a small game here)
            setting = GAMES[game] if verdict != RIGHT or SOAK else PAIR
            if make is students.LostWakeup and not SOAK:
                continue
            with self.subTest(make.__name__):
                if verdict == REFUSED:
                    continue
                found = explored(setting, make)
                self.assertEqual(getattr(found, "status", found), students.STATUSES[verdict], str(found))
                self.assertEqual(found.shown is None, verdict == RIGHT)

    def test_right_ones_on_the_triangle(self):
        # (that of the model is graded on it in test_grade)
        for make in (students.ParentFirst, students.Token):
            found = explored(GAMES["triangle"], make)
            self.assertEqual((found.status, found.shown, found.is_whole), (0, None, True), str(found))
            self.assertIn("never too early in any schedule of this game", str(found))

    def test_each_refused_class_says_why(self):
        refused = {make.__name__: (make, game) for make, verdict, game in STUDENTS if verdict == REFUSED}
        self.assertEqual({*refused}, {*REFUSALS})
        for name, (make, game) in refused.items():
            said, count = REFUSALS[name]
            setting = PAIR if name in WHOLE else GAMES[game]
            with self.subTest(name), self.assertRaisesRegex(ValueError, said) as caught:
                chipfire.explore(setting, make)
            if count is not None:
                self.assertEqual(len(caught.exception.schedule), count)

    def test_the_search_of_this_file_finds_the_same(self):
        for make, verdict, _ in STUDENTS:
            # (of an object that two parts share, a deep copy of the whole game keeps that)
            if verdict != REFUSED:
                self.compare(PAIR, make)

    def compare(self, setting, make):
        """Compares one game, and says whether it was small enough."""
        searched = Searched(setting, make)
        if searched.early is None and not searched.is_whole:
            return False
        found = explored(setting, make)
        named = f"{make.__name__} {setting}: {found}"
        self.assertIsInstance(found, found_by.Explored, named)
        early = None if found.schedule is None else len(found.schedule)
        self.assertEqual(early, searched.early, named)
        if early is None:
            lost = None if found.lost is None else len(found.lost)
            self.assertEqual((found.states, lost), (searched.states, searched.lost), named)
        return True

    @unittest.skipUnless(SOAK, "CHIPFIRE_SOAK is not set")
    def test_all_small_graphs(self):
        beyond = []
        makes = [it.make for it in STUDENTS if it.verdict != REFUSED]
        makes += [known.make for known in detectors.DETECTORS.values()]
        for setting, make in itertools.product(small_games(), makes):
            if not self.compare(setting, make):
                beyond.append((make.__name__, setting))
        print("beyond the cap:", *beyond, sep="\n")

    def test_no_random_schedule_of_a_right_class_is_early(self):
        for make, verdict, _ in STUDENTS:
            for seed in range(SCHEDULES if verdict == RIGHT else 0):
                events = chipfire.random_schedule(PAIR if seed % 4 else GAMES["triangle"], seed, make)
                core = schedules.played(PAIR if seed % 4 else GAMES["triangle"], make, events)
                self.assertEqual((core.is_closed(), core.left()), (True, []), (make.__name__, seed))


class Endings(unittest.TestCase):
    def test_a_round_goes_on_for_ever(self):
        for make in (students.Polls, students.AlwaysBlack, students.ThreeInARow):
            found = chipfire.explore(PAIR, make)
            self.assertEqual(found.status, 3)
            core = schedules.played(PAIR, make, found.endless[: -found.round])
            before, can = form_of_game(core), {event[0] for event in core.enabled()}
            for event in found.endless[-found.round :]:
                self.assertIn(event, core.enabled())
                can.update(it[0] for it in core.enabled())
                core.step(*event)
                self.assertFalse(core.is_closed())
            self.assertEqual(form_of_game(core), before)
            # (no event that is possible on the way is forgotten)
            self.assertEqual({event.kind for event in found.endless[-found.round :]}, can)

    def test_three_asks_in_a_row_by_hand(self):
        # Vertex 0 has two chips and two edges to the sink: it takes, fires and sends both, the sink takes both and
        # acknowledges, vertex 0 settles both and acknowledges, the root settles: 1 + 1 + 6 + 2 + 2 + 2 + 1 + 1 events.
        # After one ask it is asked again, polled, and asked again.
        found = chipfire.explore(PAIR, students.ThreeInARow)
        self.assertEqual((found.lost, len(found.endless), found.round), (None, 16 + 1 + 3, 3))
        self.assertEqual({event.kind for event in found.endless[-found.round :]}, {"ask", "poll"})
        self.assertIn("only a favourable schedule closes the root", str(found))
        self.assertIn("a round of", str(found))

    def test_a_root_that_is_never_closed_has_a_schedule(self):
        # By hand: take, fire, two sends of three events, two takes; the sink acknowledges the message that did not engage
        # it, and vertex 0 settles that.
        found = chipfire.explore(PAIR, students.NeverLetsGo)
        self.assertEqual((found.lost, found.shown, len(found.shown)), ([], found.stuck, 1 + 1 + 6 + 2 + 1 + 1))
        self.assertIn("the root can never be closed: after", str(found))
        core = schedules.played(PAIR, students.NeverLetsGo, found.shown)
        self.assertEqual((core.enabled(), core.is_closed()), ([], False))

    def test_events_without_end_are_too_many(self):
        class Endless(model.Core):
            def own_events(self):
                return (("tick", at, 0) for at in itertools.count())

            def tick(self, at):
                return "done"

        found = chipfire.explore(PAIR, Endless, most=50)
        self.assertEqual((found.status, found.is_whole), (4, False))
        with self.assertRaisesRegex(model.TooManyEvents, "Endless.own_events lists more than 9 events"):
            schedules.opened(PAIR, Endless).enabled(9)


class Sends(unittest.TestCase):
    def test_whole_sends_are_asked_for_and_reported(self):
        # (a detector that counts at the put is wrong only between a claim and its put)
        early = chipfire.explore(GAMES["triangle"], students.CountsPuts)
        self.assertEqual((early.status, len(early.schedule)), (2, 8))
        whole = chipfire.explore(PAIR, students.CountsPuts, whole_sends=True)
        self.assertEqual((whole.status, whole.whole_sends), (0, True))
        self.assertIn("with each send as one step", str(whole))
        self.assertNotIn("with each send as one step", str(chipfire.explore(PAIR)))


class Knowledge(unittest.TestCase):
    def test_the_judge_of_the_program_says_the_same(self):
        count = 0
        for make, verdict, _ in STUDENTS:
            if verdict not in (RIGHT, NOT_LOCAL):
                continue
            seen = set()
            for seed in range(1000 if SOAK else 4):
                events = chipfire.random_schedule(PAIR if seed % 2 else GAMES["triangle"], seed, make)
                log = chipfire.model_log(PAIR if seed % 2 else GAMES["triangle"], make, events)
                judged = chipfire.judge_log(log)
                self.assertEqual(locality.unknown(log) is None, judged.is_right, (make.__name__, seed, str(judged)))
                seen.add(judged.is_right)
                count += 1
            self.assertEqual(seen == {True}, verdict == RIGHT, make.__name__)
        self.assertGreaterEqual(count, 60)

    def test_a_claim_by_hand(self):
        # Process 1 reports to process 2 that it is passive, and process 0 sent to it and claims.
        sent = [(0, "active", 0), (0, "send", 0), (0, "passive", 0), (1, "receive", 0)]
        reports = [(1, "passive", 0), (1, "tell", 1), (0, "hear", 1)]
        claim = (0, "over", 0)
        self.assertIsNone(locality.unknown([*sent, *reports, claim]))
        self.assertEqual(locality.unknown([*sent, claim]), (1, "took a message of edge 0"))
        self.assertEqual(locality.unknown([*sent, *reports[:2], claim, reports[2]]), (1, "took a message of edge 0"))
        late = [*sent, reports[1], reports[0], reports[2], claim]
        self.assertEqual(locality.unknown(late), (1, "became passive"))
        self.assertIsNone(locality.unknown([*sent, *reports]))

    def test_what_is_said(self):
        found = chipfire.explore(PAIR, students.RootReads)
        self.assertEqual(found.status, 5)
        self.assertRegex(str(found), "^not local: after [0-9]+ events the root is closed, and no message reported that vertex")
        log = chipfire.model_log(PAIR, students.RootReads, found.not_local)
        self.assertIs(chipfire.judge_log(log).is_right, False)


class Kept(unittest.TestCase):
    """What distinguishes a state from another, and what stays the same in it."""

    @dataclasses.dataclass(frozen=True)
    class Share:
        count: int

    def number(self, first, second):
        """The state of a game in which two vertices have these values, by the states of all games that were asked."""
        core = schedules.opened(PAIR)
        core.vertices[0].box, core.vertices[1].box = first, second
        self.states = states.States(core, getattr(self, "states", None))
        return self.states.noted()

    def test_the_order_of_a_dict_counts(self):
        number = self.number({1: 2, 3: 4}, None)
        self.assertEqual(self.number({1: 2, 3: 4}, None), number)
        self.assertNotEqual(self.number({3: 4, 1: 2}, None), number)

    def test_what_is_shared_is_another_state_than_what_is_equal(self):
        shared, value = [1], self.Share(2)
        number = self.number(shared, shared)
        self.assertNotEqual(self.number([1], [1]), number)
        self.assertEqual(self.number([1], [1]), self.number([1], [1]))
        # (equal values cannot be distinguished)
        self.assertEqual(self.number(value, value), self.number(self.Share(2), self.Share(2)))

    def test_what_is_shared_stays_shared(self):
        shared = [1]
        number = self.number(shared, shared)
        *_, first, second, core = self.states.parts
        first.box.append(2)
        self.assertNotEqual(self.states.noted(), number)
        self.states.load(number)
        self.assertEqual((first.box, first.box is second.box, shared), ([1], True, [1, 2]))
        first.box.append(2)
        self.assertEqual(second.box, [1, 2])


class Names(unittest.TestCase):
    def test_hooks_are_methods_of_the_model(self):
        for name in model.HOOKS:
            self.assertTrue(hasattr(model.Core, name), name)

    def test_each_name_of_the_model_is_refused_or_a_hook(self):
        for name in dir(model.Core):
            if name.startswith("__") or name in model.HOOKS:
                continue
            made = type("Mine", (model.Core,), {name: None})
            with self.assertRaisesRegex(found_by.DetectorError, f"Mine has its own '{name}', which is the game's"):
                chipfire.explore(PAIR, made)

    def test_each_count_of_the_game_is_compared(self):
        for where, names in (("edge", ("sent", "put", "delivered", "pending", "clear", "refused", "sealed")),
                             ("vertex", ("chips", "fired", "halt"))):
            for name in names:
                class Writes(model.Core):
                    def on_take(self, e):
                        super().on_take(e)
                        part = e if where == "edge" else self.vertices[e.head]
                        value = getattr(part, name)
                        setattr(part, name, (*value, 1) if name == "sent" else (value or 0) + 1)

                with self.assertRaisesRegex(found_by.DetectorError, f"it changes {name} of {where} [02], which is"):
                    chipfire.explore(PAIR, Writes)


class AtTheShell(unittest.TestCase):
    def asked(self, *words):
        environment = {**os.environ, "PYTHONPATH": os.path.dirname(os.path.dirname(chipfire.__file__))}
        ran = subprocess.run([sys.executable, "-m", "chipfire", "explore", *words], env=environment, encoding="utf-8",
                             stdout=subprocess.PIPE, stderr=subprocess.PIPE)
        return ran.returncode, ran.stdout, ran.stderr

    def test_statuses_and_schedules(self):
        file = os.path.abspath(students.__file__)
        with tempfile.TemporaryDirectory(prefix="chipfire-python-") as folder:
            game = [f"{folder}/graph.json", f"{folder}/chips.csv"]
            PAIR.graph.write(game[0])
            chipfire.write_chips(game[1], PAIR.graph, PAIR.chips)
            for name, status in (("NoDeficit", 2), ("ThreeInARow", 3), ("RootReads", 5), ("Plain", 0)):
                ended, text, _ = self.asked(f"{file}:{name}", *game)
                self.assertEqual((ended, "event,at,count\n" in text), (status, status != 0), text)
            status, text, said = self.asked(f"{file}:TakesChips", *game)
            self.assertEqual((status, text), (1, "event,at,count\ntake,2,0\n"))
            self.assertIn("it changes chips of vertex 0", said)
            self.assertIn("with each send as one step", self.asked(f"{file}:Plain", *game, "--whole-sends")[1])

    def test_the_page_and_the_help_have_the_same_statuses(self):
        root = os.path.dirname(os.path.dirname(os.path.dirname(os.path.abspath(__file__))))
        with open(f"{root}/docs/tasks/explore-your-own.md", encoding="utf-8") as page:
            rows = re.findall(r"^- \*\*([0-9])\*\*: (.*)", page.read(), re.MULTILINE)
        _, text, _ = self.asked("--help")
        shown = " ".join(text.split())
        for number, words in rows:
            if number != "1":  # (an error is 1 of each command)
                self.assertIn(f"{number} {HELP[number][0]}", shown)
                self.assertIn(HELP[number][1], words)
        self.assertEqual({number for number, _ in rows}, {*HELP, "1"})

    def test_a_file_without_a_class(self):
        status, _, said = self.asked("mine.py")
        line = "chipfire: mine.py is a file, and a detector is a class in it: mine.py:CLASS\n"
        self.assertEqual((status, said), (1, line))


if __name__ == "__main__":
    unittest.main()
