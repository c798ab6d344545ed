"""Piles that are kept: against the slow player, by the library and by the program, on threads, in forked children, and
collected by any thread."""
import contextlib
import copy
import gc
import itertools
import os
import pickle
import random
import signal
import subprocess
import sys
import threading
import unittest
import weakref
from unittest import mock

import chipfire
from chipfire.backend import kept, library
from strategies import drawn
from test_counts import slow_report
from test_drops import game_with_drops, rows_of
from test_library import IS_HERE
from test_package import CHIPS_FILE, TRIANGLE, TRIANGLE_FILE
from test_sandpiles import has


def stepped(graph, chips, drops, limit=2**40):
    """The row of each drop that the limit lets end, and the report of all chips until then, by the slow player."""
    start, report, rows = list(chips), slow_report(graph, chips, limit), []
    for vertex, amount in drops if report.closed else ():
        start[vertex] += amount
        after = slow_report(graph, start, limit)
        more = [now - before for now, before in zip(after.fired, report.fired)]
        lost = after.chips[graph.sink] - report.chips[graph.sink] - amount * (vertex == graph.sink)
        report = after
        if not report.closed:
            break
        rows.append((sum(more), sum(map(bool, more)), lost))
    return rows, report


def interrupted_after(call):
    """A call that makes another one, and then is interrupted."""

    def made(*words):
        call(*words)
        raise KeyboardInterrupt

    return made


def dropped(pile, drops):
    """The rows of drops, one call for each."""
    return [tuple(pile.drop(*drop)) for drop in drops]


class Rows(unittest.TestCase):
    def test_the_triangle_by_hand(self):
        for graph, chips in itertools.product((TRIANGLE, TRIANGLE_FILE), ([4, 0, 0], {0: 4}, CHIPS_FILE)):
            with chipfire.Pile(graph, chips) as pile:
                self.assertEqual((pile.chips, pile.fired, pile.is_stopped), ((1, 0, 3), (2, 1, 0), False))
                self.assertEqual(pile.drop(2), (0, 0, 0))
                self.assertEqual(pile.drop(0), chipfire.Drop(size=1, extent=1, lost=1))
                self.assertEqual(rows_of(pile.drops([1], amounts=[2])), [(1, 1, 1)])
                self.assertEqual((pile.chips, pile.fired), ((1, 1, 6), (3, 2, 0)))
                self.assertEqual((pile.configuration, pile.report.total), ({0: 1, 1: 1}, (3, 2, 0)))
                pile.put({1: 1})
                self.assertEqual((pile.chips, pile.fired), ((0, 1, 0), (0, 0, 0)))
        self.assertEqual(chipfire.Pile(TRIANGLE).chips, (0, 0, 0))

    @drawn(game_with_drops, 12)
    def test_rows_are_those_of_the_slow_player(self, game):
        graph, chips, drops = game
        rows, report = stepped(graph, chips, drops)
        at, amounts = zip(*drops)
        with chipfire.Pile(graph, chips) as pile:
            self.assertEqual(dropped(pile, drops), rows)
            self.assertEqual((pile.report, pile.chips, pile.fired), (report, report.chips, report.fired))
            pile.put(chips)
            found = pile.drops(at, amounts=amounts)
            self.assertEqual((rows_of(found), found.report), (rows, report))

    @drawn(game_with_drops, 8)
    def test_a_limit_stops_the_game_or_a_drop(self, game):
        graph, chips, drops = game
        for limit in (0, 2, 12):
            rows, report = stepped(graph, chips, drops, limit)
            for program in (None, chipfire.find_program()):
                with chipfire.Pile(graph, chips, limit, program=program) as pile:
                    self.assertEqual(dropped(pile, drops[: len(rows)]), rows)
                    for vertex, amount in drops[len(rows) : len(rows) + 2]:
                        with self.assertRaisesRegex(chipfire.Fault, "fault 13 "):
                            pile.drop(vertex, amount)
                    self.assertEqual((pile.report, pile.is_stopped), (report, not report.closed))
                    pile.put(chips)
                    if not pile.is_stopped:
                        at, amounts = zip(*drops)
                        found = pile.drops(at, amounts=amounts)
                        self.assertEqual((rows_of(found), found.report), (rows, report))

    def test_what_is_refused_changes_nothing(self):
        pile = chipfire.Pile(TRIANGLE, [4, 0, 0], 9)
        before = pile.report
        for refusal, said, call in [
            (KeyError, "no vertex 7", lambda: pile.drop(7)), (KeyError, "no vertex 7", lambda: pile.drops([0, 7])),
            (ValueError, "below 0", lambda: pile.drop(0, -1)), (TypeError, "whole number", lambda: pile.drop(0, 0.5)),
            (chipfire.Fault, "fault 10 Total", lambda: pile.drop(0, 2**40)),
            (chipfire.Fault, "fault 10 Total", lambda: pile.drops([0, 2], amounts=[1, 2**40])),
            (chipfire.Fault, "fault 10 Total", lambda: pile.put([0, 2**40, 1])),
            (ValueError, "below 0", lambda: pile.put([-1, 0, 0])), (ValueError, "limit is", lambda: pile.put(0, -1)),
            (ValueError, "2 drops, and 1 amount", lambda: pile.drops([0, 1], amounts=[1])),
        ]:
            with self.subTest(said), self.assertRaisesRegex(refusal, said):
                call()
            self.assertEqual(pile.report, before)
        with self.assertRaisesRegex(chipfire.Fault, "fault 8"):
            chipfire.Pile(chipfire.Graph(3, 2, [(0, 1), (1, 0)]))

    def test_a_vertex_and_an_amount_in_any_form(self):
        """A number of NumPy is one; the vertex is named, or the square of one; it may be the sink, and the amount 0."""
        grid, named = chipfire.grid(4, 4), chipfire.Graph(3, 2, TRIANGLE.edges, names=("a", 1, "sink"))
        numbers = [6, 6.0] + [has("numpy") and __import__("numpy").int64(6)] * has("numpy")
        for graph, forms in [(grid, [*numbers[::2], (1, 2)]), (grid, [16]), (grid, [1, True]), (named, ["a"]), (named, [1])]:
            at = graph.number(forms[0])
            for vertex, amount in itertools.product(forms, [*numbers, 0]):
                pile = chipfire.Pile(graph, 1)
                start = [*pile.chips]
                self.assertEqual(dropped(pile, [(vertex, amount)]), stepped(graph, start, [(at, int(amount))])[0])
        pile = chipfire.Pile(named)
        for vertex in (0, 2, "b", chipfire.plain(named, [4, 0, 0]).graph.sink, None, []):
            with self.assertRaises((KeyError, TypeError)):
                pile.drop(vertex)
        self.assertEqual(pile.report, chipfire.Pile(named).report)

    def test_loops(self):
        graph = chipfire.Graph(3, 2, TRIANGLE.edges, loops=[3, 0, 0])
        with chipfire.Pile(graph, [7, 0, 0]) as pile:
            self.assertEqual((pile.chips, pile.drop(0), pile.chips), ((4, 0, 3), (1, 1, 1), (3, 1, 4)))

    def test_a_closed_pile_says_so(self):
        pile = chipfire.Pile(TRIANGLE, 1)
        pile.close()
        pile.close()
        for call in (lambda: pile.drop(0), lambda: pile.chips, lambda: pile.put(0), lambda: pickle.dumps(pile)):
            with self.assertRaisesRegex(ValueError, "the pile is closed"):
                call()
        self.assertIn("closed", repr(pile))

    def test_copies_and_pickles_go_on_alone(self):
        for limit in (None, 3):
            pile = chipfire.Pile(TRIANGLE, [4, 0, 0], limit)
            pile.drop(1)
            for other in (copy.copy(pile), copy.deepcopy(pile), pickle.loads(pickle.dumps(pile))):
                self.assertEqual(other.report, pile.report)
                before = pile.report
                self.assertEqual(other.drop(2, 5), (0, 0, 0))
                self.assertEqual((pile.report, other.chips[2]), (before, before.chips[2] + 5))

    @drawn(game_with_drops, 12)
    def test_drops_of_many_chips_are_played_in_portions(self, game):
        """Also if a limit stops one: then counts from before do not go on in the library."""
        graph, chips, drops = game
        heavy = [(vertex, amount * (1 + 4 * (at % 3))) for at, (vertex, amount) in enumerate(drops)]
        ways = itertools.product((2**40, 0, 2, 12, 40), (0, 2 * graph.vertices, 5 * graph.vertices))
        for limit, light in ways if IS_HERE else [(2**40, 0)]:
            rows, report = stepped(graph, chips, heavy, limit)
            at, amounts = zip(*heavy)
            with mock.patch.multiple(kept, _LIGHT=light, _FEW_CHIPS=1, _FIRST_VISITS=1, _MOST_VISITS=1):
                pile = chipfire.Pile(graph, chips, limit)
                self.assertEqual(dropped(pile, heavy[: len(rows)]), rows)
                for vertex, amount in heavy[len(rows) : len(rows) + 2]:
                    with self.assertRaisesRegex(chipfire.Fault, "fault 13 "):
                        pile.drop(vertex, amount)
                self.assertEqual((pile.report, pile.is_stopped), (report, not report.closed))
                pile.put(chips)
                if not pile.is_stopped:
                    found = pile.drops(at, amounts=amounts)
                    self.assertEqual((rows_of(found), found.report), (rows, report))
                if limit == 2**40:
                    found = chipfire.drops(graph, chips, at, amounts=amounts)
                    self.assertEqual((rows_of(found), found.report), (rows, report))

    @unittest.skipUnless(IS_HERE, "the library is not called")
    def test_a_drop_that_is_interrupted_was_not_made(self):
        def interrupted(pile):
            raise KeyboardInterrupt

        for drop in (lambda pile: pile.drop(66, 5000), lambda pile: pile.drops([3, 66], amounts=[1, 5000])):
            grid = chipfire.grid(12, 12)
            with mock.patch.multiple(kept, _LIGHT=0, _FEW_CHIPS=1, _FIRST_VISITS=1, _MOST_VISITS=1):
                pile, other = chipfire.Pile(grid, 3), chipfire.Pile(grid, 3)
                pile.drop(7, 9), other.drop(7, 9)
                pile._kept.between = interrupted
                with self.assertRaises(KeyboardInterrupt):
                    drop(pile)
                pile._kept.between = kept.nothing
                self.assertEqual(pile.report, other.report)
                drop(pile), drop(other)
                self.assertEqual(pile.report, other.report)
                self.assertEqual(copy.copy(pile).report, other.report)

    @unittest.skipUnless(IS_HERE, "the library is not called")
    def test_a_drop_that_is_interrupted_when_it_is_made_is_taken_back(self):
        """The interrupt comes after the library's call, or while what was made is noted or put in order."""
        grid, limits = chipfire.grid(6, 6), (2**40, 3)
        one, many = (lambda pile: pile.drop(8, 2)), (lambda pile: pile.drops([8, 3, 8], fired=has("numpy")))
        told = mock.PropertyMock(side_effect=KeyboardInterrupt)
        patches = [(one, lambda pile: mock.patch.object(pile._kept, "_call_drop", interrupted_after(pile._kept._call_drop))),
                   (one, lambda _: mock.patch.object(kept.KeptPile, "told", told))]
        places = ["backend.kept.KeptPile.note", "ensembles.pile.Pile._add_all", "ensembles.pile.Drops"]
        places += ["ensembles.drops.firings"] * has("numpy")
        patches += [(many, lambda _, it=it: mock.patch(f"chipfire.{it}", side_effect=KeyboardInterrupt)) for it in places]
        for (drop, patch), limit in itertools.product(patches, limits):
            pile, other = chipfire.Pile(grid, 3, limit), chipfire.Pile(grid, 3, limit)
            pile.drop(7), other.drop(7)
            with patch(pile), self.assertRaises(KeyboardInterrupt):
                drop(pile)
            for it in (pile, copy.copy(pile)):
                self.assertEqual((it.report, it.is_stopped, repr(it)), (other.report, False, repr(other)))
            said = []
            for it in (pile, other):
                with contextlib.suppress(chipfire.Fault):
                    drop(it)
                said.append((it.report, it.is_stopped))
            self.assertEqual(said[0], said[1])

    @unittest.skipUnless(IS_HERE, "the library is not called")
    def test_drops_that_an_interrupt_does_not_end_are_left(self):
        """They go on where nobody sees them, and end soon or late. The pile is as it was before, and drops go on there."""
        self.addCleanup(signal.signal, signal.SIGINT, signal.signal(signal.SIGINT, signal.default_int_handler))
        for ends_soon, has_fired in itertools.product((True, False), (False, True)[: 1 + has("numpy")]):
            grid = chipfire.grid(33, 33)
            pile, other = chipfire.Pile(grid, 3), chipfire.Pile(grid, 3)
            pile.drop(7), other.drop(7)
            is_there, may_end, own = threading.Event(), threading.Event(), weakref.ref(pile._kept)
            before = {*threading.enumerate()}

            def interrupt():
                is_there.wait(60)
                os.kill(os.getpid(), signal.SIGINT)
                ends_soon and may_end.set()

            class Endless:
                def __getattr__(self, name):
                    return getattr(library.loaded(), name)

                def chipfire_pile_measure(self, *words):
                    found = library.loaded().chipfire_pile_measure(*words)
                    is_there.set()
                    may_end.wait(60)
                    return found

            pile._kept._found = Endless()
            sender = threading.Thread(target=interrupt)
            sender.start()
            with self.assertRaises(KeyboardInterrupt):
                pile.drops([8, 544, 3], durations=True, fired=has_fired)
            sender.join()
            self.assertEqual(may_end.is_set(), ends_soon)
            self.assertEqual((pile._kept is own(), own().is_own), (ends_soon, ends_soon))
            if not ends_soon:  # (the next call makes a pile, or the one after it)
                self.assertIsNone(pile._kept)
                with mock.patch.object(kept.KeptPile, "put", side_effect=KeyboardInterrupt):
                    self.assertRaises(KeyboardInterrupt, pile.drop, 8)
                self.assertIsNone(pile._kept)
            self.assertEqual((pile.report, pile.chips), (other.report, other.chips))
            more = [it.drops([8, 9], durations=True) for it in (pile, other)]
            self.assertEqual((rows_of(more[0]), pile.report), (rows_of(more[1]), other.report))
            may_end.set()
            for thread in {*threading.enumerate()} - before:
                thread.join(60)
            gc.collect()
            self.assertEqual((own() is not None, pile.report), (ends_soon, other.report))

    @unittest.skipUnless(IS_HERE, "the library is not called")
    def test_the_limit_counts_what_fired_before_drops_that_are_left(self):
        grid = chipfire.grid(33, 33)

        def left(work, between):
            work()
            raise KeyboardInterrupt

        one, closes = chipfire.Pile(grid, 3), set()
        one.drop(544)
        for limit in range(max(one.fired), 3 * max(one.fired), 5):
            piles = [chipfire.Pile(grid, 3, limit) for _ in range(4)]
            for pile in piles:
                pile.drop(544)
            with mock.patch.object(kept, "apart", left), mock.patch.object(threading, "Event") as event:
                event.return_value.wait.return_value = False
                for pile in piles[1:]:
                    self.assertRaises(KeyboardInterrupt, pile.drops, [544, 3], durations=True)
                    self.assertIsNone(pile._kept)
            piles[2].put(3, limit), piles[3].close()
            self.assertRaisesRegex(ValueError, "closed", piles[3].drop, 3)
            self.assertEqual(piles[2].report, chipfire.Pile(grid, 3, limit).report)
            said = []
            for pile in piles[:2]:
                found = pile.drops([544] * 5, durations=True)
                said.append((rows_of(found), pile.report, pile.is_stopped))
            self.assertEqual(*said)
            closes.add(said[0][2])
        self.assertEqual(closes, {False, True})

    @unittest.skipUnless(IS_HERE, "the library is not called")
    def test_which_drops_a_thread_makes(self):
        """Those of the main thread whose durations are measured, if the graph has many vertices or a drop many chips."""
        for width, amount, wanted in [(33, 1, 1), (6, 1, 0), (6, 10**5, 1)]:
            with chipfire.Pile(chipfire.grid(width, width)) as pile, mock.patch.object(kept, "apart", side_effect=kept.apart) as apart:
                pile.drops([7], amounts=[amount])
                self.assertEqual(apart.call_count, 0)
                pile.drops([7], amounts=[amount], durations=True)
                self.assertEqual(apart.call_count, wanted)
                thread = threading.Thread(target=pile.drops, args=([7],), kwargs={"amounts": [amount], "durations": True})
                thread.start()
                thread.join()
                self.assertEqual((apart.call_count, pile.chips[7] + pile.chips[-1] > 0), (wanted, True))

    @unittest.skipIf(IS_HERE, "the library plays")
    def test_drops_of_the_program_are_taken_back(self):
        """The limit stops a drop, so they are played one by one, and the second play is interrupted, or the report."""
        grid = chipfire.grid(4, 4)
        pile, other = chipfire.Pile(grid, 3, 4), chipfire.Pile(grid, 3, 4)
        for place, fails in [("plain", [chipfire.plain(grid, 0), KeyboardInterrupt]), ("Drops", [KeyboardInterrupt] * 2)]:
            with mock.patch(f"chipfire.ensembles.pile.{place}", side_effect=fails), self.assertRaises(KeyboardInterrupt):
                pile.drops([5, 6, 9], amounts=[1, 9, 9])
            for it in (pile, copy.copy(pile)):
                self.assertEqual((it.report, it.is_stopped, repr(it)), (other.report, False, repr(other)))
        found, wanted = (it.drops([5, 6, 9], amounts=[1, 9, 9]) for it in (pile, other))
        self.assertEqual((rows_of(found), pile.report, pile.is_stopped), (rows_of(wanted), other.report, True))


class Threads(unittest.TestCase):
    def on_threads(self, works):
        threads = [threading.Thread(target=it) for it in works]
        for it in threads:
            it.start()
        for it in threads:
            it.join()

    def test_threads_share_a_pile(self):
        """In whatever order their drops fall, all chips together leave the same and fire as often."""
        graph = chipfire.grid(6, 5)
        pile = chipfire.Pile(graph, 2)
        part = 40 if IS_HERE else 3
        self.on_threads([lambda at=at: [pile.drop(at) for _ in range(part)] for at in range(8)])
        start = [2 + part * (at < 8) for at in range(30)]
        self.assertEqual(pile.report, slow_report(graph, [*start, 0]))

    def test_threads_drop_on_one_graph(self):
        graph = chipfire.grid(6, 5)
        wanted = rows_of(chipfire.drops(graph, 3, range(20)))
        found = []
        self.on_threads([lambda: found.append(rows_of(chipfire.drops(graph, 3, range(20)))) for _ in range(6)])
        self.assertEqual(found, [wanted] * 6)

    @unittest.skipUnless(IS_HERE, "the library is not called")
    def test_any_thread_closes_or_collects(self):
        for end in (chipfire.Pile.close, lambda pile: pile.__dict__.clear()):
            pile = chipfire.Pile(TRIANGLE, 3)
            free = pile._kept.finalizer
            pile.circle = [pile]
            self.assertTrue(free.alive)
            holder = [pile]
            del pile
            self.on_threads([lambda: (end(holder.pop()), gc.collect())])
            self.assertFalse(free.alive)
        piles = [chipfire.Pile(TRIANGLE, 3) for _ in range(50)]
        frees = [pile._kept.finalizer for pile in piles]
        for pile in piles:
            pile.circle = pile
        del pile, piles
        self.on_threads([gc.collect])
        self.assertFalse(any(free.alive for free in frees))


@unittest.skipUnless(IS_HERE, "the library is not called")
class Kept(unittest.TestCase):
    def counted(self, graph, work):
        """How many piles are made meanwhile."""
        with mock.patch.object(kept, "KeptPile", side_effect=kept.KeptPile) as made:
            work(graph)
        return made.call_count

    def test_a_graph_keeps_a_pile_from_call_to_call(self):
        graph = chipfire.grid(5, 5)
        self.assertEqual(self.counted(graph, lambda it: chipfire.drops(it, 3, [0, 1])), 1)
        self.assertEqual(self.counted(graph, lambda it: [chipfire.drops(it, 3, [0, 1]) for _ in range(3)]), 0)
        self.assertEqual(self.counted(pickle.loads(pickle.dumps(graph)), lambda it: chipfire.drops(it, 3, [0])), 1)
        with self.assertRaisesRegex(chipfire.Fault, "fault 10"):
            chipfire.drops(graph, [2**40] * 26, [0])
        with mock.patch.object(kept, "_MOST_BYTES", 100):
            graph = chipfire.grid(5, 5)
            self.assertEqual(self.counted(graph, lambda it: [chipfire.drops(it, 3, [0]) for _ in range(3)]), 3)

    def test_avalanches_are_on_the_pile_of_the_graph(self):
        graph = chipfire.grid(5, 5)
        most = graph.max_stable()
        self.assertEqual(self.counted(graph, lambda it: chipfire.avalanche(it, most, 12)), 1)
        self.assertEqual(self.counted(graph, lambda it: [chipfire.avalanche(it, most, 12) for _ in range(3)]), 0)
        self.assertEqual(self.counted(graph, lambda it: chipfire.drops(it, most, [12])), 0)
        # (one that is not at its end has a pile of its own, and the graph has one at its end)
        first, second = (chipfire.avalanches(graph, most, [12, 3]) for _ in range(2))
        self.assertEqual(self.counted(graph, lambda _: [*zip(first, second)]), 1)
        self.assertEqual(self.counted(graph, lambda it: chipfire.avalanche(it, most, 12)), 0)

    def test_an_avalanche_stays_as_it_was_when_the_pile_has_other_chips(self):
        graph = chipfire.grid(5, 5)
        found = [chipfire.avalanche(graph, chips, 12) for chips in (3, 2, 3)]
        drops = [chipfire.drops(graph, chips, [12]) for chips in (3, 2, 3)]
        for chips, it, dropped in zip((3, 2, 3), found, drops):
            report = slow_report(graph, [chips + (at == 12) for at in range(25)] + [0])
            self.assertEqual((it.configuration, it.size), (report.configuration, sum(report.fired)))
            self.assertEqual(it.fired, {at: count for at, count in enumerate(report.fired) if count})
            self.assertEqual((dropped.report, rows_of(dropped)[0][0]), (report, sum(report.fired)))

    def test_a_drop_makes_no_report_before_it_is_asked_for(self):
        graph = chipfire.grid(5, 5)
        with mock.patch.object(chipfire.ensembles.drops, "Report", side_effect=chipfire.Report) as made:
            found = chipfire.drops(graph, 3, [12])
            self.assertEqual(made.call_count, 0)
            self.assertEqual(pickle.loads(pickle.dumps(found)).report, found.report)
        self.assertIs(found.report, found.report)

    def test_many_calls_on_what_fired_before(self):
        draw, graph = random.Random(5), chipfire.grid(4, 4)
        drops = [(draw.randrange(16), draw.randint(0, 3)) for _ in range(300)]
        rows, report = stepped(graph, [3] * 16 + [0], drops)
        at, amounts = zip(*drops)
        for light in (0, 2 * 17, 2**20):
            with mock.patch.multiple(kept, _LIGHT=light, _FEW_CHIPS=1):
                found = chipfire.drops(graph, 3, at, amounts=amounts)
            self.assertEqual((rows_of(found), found.report), (rows, report))


FORK = """
import ctypes, os, sys, threading, time, chipfire

def threads():
    return len(os.listdir("/proc/self/task"))

def begin_in_c(function):
    thread = ctypes.c_ulong()
    of_c = ctypes.CDLL(None)
    begin, start = of_c.pthread_create, ctypes.cast(getattr(of_c, function), ctypes.c_void_p)
    assert begin(ctypes.byref(thread), None, start, None) == 0

grid = chipfire.grid(5, 5)
pile = chipfire.Pile(grid, 3)
other = chipfire.Pile(grid, 3)
pile.drop(7); other.drop(7)
stop = threading.Event()
if sys.argv[1] == "Python":
    threading.Thread(target=stop.wait, daemon=True).start()
if sys.argv[1] == "C":
    begin_in_c("pause")
    assert (threading.active_count(), threads()) == (1, 2)
if sys.argv[1] == "ended":
    begin_in_c("getpid")
    while threads() > 1:
        time.sleep(0.001)
child = os.fork()
if child == 0:
    has_library = chipfire.find_library() is not None
    same = [pile.report == other.report, pile.drop(12, 9) == other.drop(12, 9), pile.report == other.report]
    same.append(chipfire.drops(grid, 3, [1, 2]).report == chipfire.plain(grid, [3 + (at in (1, 2)) for at in range(25)]))
    is_own = pile._kept is not None and pile._kept.is_own
    del pile
    other.close()
    print(has_library, is_own, all(same), flush=True)
    os._exit(0)
os.waitpid(child, 0)
stop.set()
print(pile.report == other.report, pile.drop(12, 9) == other.drop(12, 9), flush=True)
"""


class Forks(unittest.TestCase):
    def asked(self, word):
        run = [sys.executable, "-c", FORK, word]
        return subprocess.run(run, stdout=subprocess.PIPE, encoding="ascii", check=True, timeout=100).stdout.split()

    def test_a_child_makes_a_pile_of_its_own(self):
        for threads in ("none", "ended"):
            self.assertEqual(self.asked(threads), [str(IS_HERE)] * 2 + ["True"] * 3)

    def test_a_child_of_a_process_with_threads_asks_the_program(self):
        for threads in ("Python", "C"):
            self.assertEqual(self.asked(threads), ["False"] * 2 + ["True"] * 3)

    def test_where_the_system_lists_no_threads_those_of_python_count(self):
        with mock.patch("os.listdir", side_effect=FileNotFoundError):
            self.assertEqual(library._count_threads(), threading.active_count())


if __name__ == "__main__":
    unittest.main()
