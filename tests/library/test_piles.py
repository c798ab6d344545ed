"""Piles that are kept from one call to the next: beside firing one vertex at a time, beside one call for all drops, without
memory, and on threads."""
import ctypes
import itertools
import os
import random
import resource
import threading
import unittest

from library import LARGEST, LIBRARY, WORD, CArray, Graph, avalanches, stabilize_all
from test_games import TRIANGLE, drawn, grid, stepped

GUARD = 0x5A5A5A5A


class Info(ctypes.Structure):
    """What `mallinfo2` says of blocks: how many bytes those have that are taken, those of pages of their own too."""

    _fields_ = [(it, ctypes.c_size_t) for it in "arena ordblks smblks hblks hblkhd usmblks fsmblks uordblks rest keep".split()]


MALLINFO = ctypes.CDLL(None).mallinfo2
MALLINFO.restype = Info
MALLOC = ctypes.CDLL(None).malloc
MALLOC.restype, MALLOC.argtypes = ctypes.c_void_p, [ctypes.c_size_t]


class Struct(ctypes.Structure):
    """What C has of a pile."""

    _fields_ = [("has_pile", WORD), ("pile", ctypes.c_void_p)]


class Pile:
    """A pile of the library: each method returns a status, and what the call has written if that is 0."""

    def __init__(self, graph):
        self.graph, self.struct = graph, Struct()
        self.at = ctypes.addressof(self.struct)

    def new(self, chips, limit=LARGEST):
        return self.new_on(self.graph, chips, limit)

    def new_on(self, graph, chips, limit=LARGEST):
        chips, place = CArray(chips), CArray([7])
        status = LIBRARY.chipfire_pile_new(self.at, *graph.words(), limit, *chips.words(), place.words()[0])
        return status, place.now()[0]

    def put(self, chips, limit=LARGEST):
        chips = CArray(chips)
        return LIBRARY.chipfire_pile_put(self.at, limit, *chips.words())

    def play(self, visits):
        left = CArray([GUARD])
        status = LIBRARY.chipfire_pile_play(self.at, visits, left.words()[0])
        return self.result(status, left.now()[0], GUARD)

    def drop(self, vertex, amount):
        numbers = [CArray([GUARD]) for _ in range(3)]
        status = LIBRARY.chipfire_pile_drop(self.at, vertex, amount, *(it.words()[0] for it in numbers))
        return self.result(status, tuple(it.now()[0] for it in numbers), (GUARD,) * 3)

    def drops(self, drops):
        """Returns the status, the place and all rows, of which those that were not written are guards."""
        columns = [CArray(it) for it in zip(*drops)] if drops else [CArray([]), CArray([])]
        rows, place = [CArray([GUARD] * len(drops)) for _ in range(3)], CArray([7])
        words = [word for it in (*columns, *rows) for word in it.words()]
        status = LIBRARY.chipfire_pile_drops(self.at, *words, place.words()[0])
        return status, place.now()[0], list(zip(*(it.now() for it in rows)))

    def measure(self, drops, timed=False, room=None, loses=0, marks=()):
        """Returns the status, the place, and what is written: all rows, durations, ends, and what fired. There is room for
        `room` vertices; None leaves them out. A drop that loses chips, or fires vertices with such marks, ends the run."""
        columns = [CArray(it) for it in zip(*drops)] if drops else [CArray([]), CArray([])]
        many = [len(drops)] * 3 + [len(drops) * timed, 0 if room is None else len(drops)] + 2 * [room or 0]
        written, place, marks = [CArray([GUARD] * it) for it in many], CArray([7]), CArray(marks)
        drops, others = ([word for it in arrays for word in it.words()] for arrays in (columns, [marks, *written]))
        status = LIBRARY.chipfire_pile_measure(self.at, *drops, loses, *others, place.words()[0])
        rows, others = [it.now() for it in written[:3]], [it.now() for it in written[3:]]
        return status, place.now()[0], list(zip(*rows)), *others

    def draw(self, seed, first, rows, length=None):
        """Returns the status, with random recurrent configurations, and the place."""
        chips, place = CArray([GUARD] * (self.graph.vertices * rows if length is None else length)), CArray([7])
        words = (*chips.words(), place.words()[0])
        status = LIBRARY.chipfire_pile_random_recurrent(self.at, seed, first, rows, *words)
        return *self.result(status, chips.now(), chips.numbers), place.now()[0]

    def size(self):
        return LIBRARY.chipfire_pile_size(self.at)

    def copy(self, function):
        numbers = CArray([GUARD] * self.graph.vertices)
        status = function(self.at, *numbers.words())
        return self.result(status, numbers.now(), numbers.numbers)

    def now(self):
        """Returns chips and counts."""
        return [self.copy(it)[1] for it in (LIBRARY.chipfire_pile_chips, LIBRARY.chipfire_pile_fired)]

    def free(self):
        LIBRARY.chipfire_pile_free(self.at)
        return self.struct.has_pile, self.struct.pile

    def result(self, status, written, before):
        assert status == 0 or written == before, "a fault that has written"
        return (0, written) if status == 0 else (status, None)


def rounds(graph, chips):
    """Fires each legal vertex once, all together, until none is legal: how often."""
    chips, count = list(chips), 0
    degree = [sum(mult for tail, _, mult in graph.edges if tail == v) for v in range(graph.vertices)]
    while legal := {v for v in range(graph.vertices) if v != graph.sink and chips[v] >= degree[v]}:
        for tail, head, mult in graph.edges:
            if tail in legal:
                chips[tail] -= mult
                chips[head] += mult
        count += 1
    return count


def ends_run(lost, fired, loses, marks):
    """Whether a drop that loses so many chips and fires these vertices ends the run, by sets."""
    sets = [{v for v, mark in enumerate(marks) if mark >> bit & 1} & {*fired} for bit in range(5)]
    return bool(loses and lost or sets[0] or sets[1] and sets[2] or sets[3] and sets[4])


class Piles(unittest.TestCase):
    def pile(self, graph):
        pile = Pile(graph)
        self.addCleanup(pile.free)
        return pile

    def expect_drops(self, pile, chips, drops, limit):
        """Checks that a pile that was just begun has the chips, the counts and the avalanches of firing one by one."""
        graph = pile.graph
        self.assertEqual(pile.now(), [chips, [0] * graph.vertices])
        chips, fired, stopped, _ = stepped(graph, chips, limit)
        for vertex, amount in drops:
            before = fired
            if not stopped:
                chips[vertex] += amount
                chips, fired, stopped, lost = stepped(graph, chips, limit, fired)
            many = [now - then for now, then in zip(fired, before)]
            wanted = (13, None) if stopped else (0, (sum(many), sum(map(bool, many)), lost))
            self.assertEqual(pile.drop(vertex, amount), wanted)
            self.assertEqual(pile.now(), [chips, fired])

    def expect_one_call(self, pile, chips, drops, limit):
        """Checks that one call for drops does what firing one by one does, on a pile that was just begun."""
        chips, fired, stopped, _ = stepped(pile.graph, chips, limit)
        rows = []
        for vertex, amount in drops:
            before = fired
            if not stopped:
                chips[vertex] += amount
                chips, fired, stopped, lost = stepped(pile.graph, chips, limit, fired)
            if stopped:
                break
            many = [now - then for now, then in zip(fired, before)]
            rows.append((sum(many), sum(map(bool, many)), lost))
        unwritten = [(GUARD,) * 3] * (len(drops) - len(rows))
        wanted = (13, len(rows), rows + unwritten) if stopped else (0, 0, rows)
        self.assertEqual(pile.drops(drops), wanted)
        self.assertEqual(pile.now(), [chips, fired])

    def expect_measures(self, pile, chips, drops, limit, timed=False, room=None, loses=0, marks=()):
        """Checks that drops on a pile that was just begun are measured as firing one by one, and round by round, does it,
        up to one that ends the run. Returns whether one does, and is not the last drop."""
        graph = pile.graph
        chips, fired, stopped, _ = stepped(graph, chips, limit)
        rows, lengths, ends, where, times, is_over = [], [], [], [], [], False
        for vertex, amount in drops:
            if stopped or is_over or room is not None and room - len(where) < graph.vertices:
                break
            chips[vertex] += amount
            lasts = rounds(graph, chips) if timed else 0
            chips, after, stopped, lost = stepped(graph, chips, limit, fired)
            many, fired = [now - then for now, then in zip(after, fired)], after
            if not stopped:
                rows.append((sum(many), sum(map(bool, many)), lost))
                lengths.append(lasts)
                where += [v for v, count in enumerate(many) if count]
                times += filter(None, many)
                ends.append(len(where))
                is_over = ends_run(lost, [v for v, count in enumerate(many) if count], loses, marks)
        status, place, *found, found_ends, found_where, found_times = pile.measure(drops, timed, room, loses, marks)
        self.assertEqual((status, place), (13 if stopped else 0, len(rows)))
        left = len(drops) - len(rows)
        self.assertEqual(found, [rows + [(GUARD,) * 3] * left, (lengths + [GUARD] * left) * timed])
        if room is None:
            self.assertEqual((found_ends, found_where, found_times), ([], [], []))
        else:
            pairs = [*zip(found_where, found_times)]
            begins = [0, *ends]
            # (in a drop vertices stand in any order)
            pairs = [it for begin, end in zip(begins, ends) for it in sorted(pairs[begin:end])] + pairs[begins[-1]:]
            self.assertEqual(found_ends, ends + [GUARD] * left)
            self.assertEqual(pairs, [*zip(where, times)] + [(GUARD, GUARD)] * (room - len(where)))
        self.assertEqual(pile.now(), [chips, fired])
        return is_over and left > 0

    def expect_portions(self, pile, visits, ends, stopped):
        """Plays a pile that was just begun by `visits` visits a call: counts rise in each until all is as at the end."""
        before = pile.now()
        self.assertEqual(pile.play(0), (0, 1))
        self.assertEqual(pile.now(), before)
        portions = 0
        while True:
            played, now = pile.play(visits), pile.now()
            portions += 1
            self.assertTrue(all(map(int.__le__, before[1], now[1])))
            if played != (0, 1):
                break
            self.assertGreater(sum(now[1]), sum(before[1]))
            before = now
        self.assertEqual(now, ends)
        for _ in range(2):
            self.assertEqual(played, (13, None) if stopped else (0, 0))
            played = pile.play(visits)
        self.assertEqual(pile.now(), ends)
        return portions

    def expect_nothing_new(self, pile, fault, call, *words):
        """Checks that a call has a fault and leaves the pile as it was."""
        before = pile.now()
        found = call(*words)
        self.assertEqual(found[0] if isinstance(found, tuple) else found, fault)
        self.assertEqual(pile.now(), before)


class Small(Piles):
    def test_all_pairs_of_drops_on_the_triangle(self):
        pile = self.pile(TRIANGLE)
        self.assertEqual(pile.new([0, 0, 0]), (0, 0))
        for limit in (0, 1, 3, LARGEST):
            for chips in itertools.product(range(3), range(3), range(2)):
                for drops in itertools.product(itertools.product(range(3), range(3)), repeat=2):
                    self.assertEqual(pile.put(chips, limit), 0)
                    self.expect_drops(pile, list(chips), drops, limit)
                    self.assertEqual(pile.put(chips, limit), 0)
                    self.expect_one_call(pile, list(chips), drops, limit)

    def test_all_measures_of_pairs_of_drops_on_the_triangle(self):
        pile = self.pile(TRIANGLE)
        pile.new([0, 0, 0])
        asked = itertools.cycle([(False, 9), (True, None), (True, 4), (True, 9), (False, 2), (False, None), (True, 5)])
        for limit in (0, 1, 3, LARGEST):
            for chips in itertools.product(range(3), range(3), range(2)):
                for drops in itertools.product(itertools.product(range(3), (0, 1, 2, 5)), repeat=2):
                    self.assertEqual(pile.put(chips, limit), 0)
                    self.expect_measures(pile, list(chips), drops, limit, *next(asked))

    def test_measures_of_drops_on_a_grid_and_on_drawn_graphs(self):
        draw = random.Random(20)
        graphs = [grid(3), *(drawn(draw) for _ in range(60))]
        for graph in graphs:
            pile = self.pile(graph)
            chips = [draw.randrange(4) for _ in range(graph.vertices)]
            drops = [(draw.randrange(graph.vertices), draw.randrange(9)) for _ in range(20)]
            for timed, room in itertools.product((False, True), (None, graph.vertices, 3 * graph.vertices, 1000)):
                for limit in (LARGEST, draw.randrange(20)):
                    self.assertEqual(pile.new(chips, limit), (0, 0))
                    self.expect_measures(pile, chips, drops, limit, timed, room)

    def test_all_ends_of_runs_of_drops_on_the_triangle(self):
        pile = self.pile(TRIANGLE)
        pile.new([0, 0, 0])
        marks = [(), *itertools.product((0, 1, 2, 4, 6, 10, 24, 32), (0, 2, 4, 9, 16), (0, 31))]
        drops = [*itertools.product(itertools.product(range(3), (1, 3)), repeat=3)]
        over = 0
        for chips in ([0, 0, 0], [1, 1, 0], [1, 0, 3]):
            for number, (loses, its) in enumerate(itertools.product((0, 1, 2**64 - 1), marks)):
                room = (None, 9, 4)[number % 3]
                for limit, some in [(LARGEST, drops[number % 7::7]), (3, drops[number % 40::40])]:
                    for three in some:
                        self.assertEqual(pile.put(chips, limit), 0)
                        over += self.expect_measures(pile, list(chips), three, limit, number % 2 == 0, room, loses, its)
        self.assertGreater(over, 5000)

    def test_ends_of_runs_on_a_grid_and_on_drawn_graphs(self):
        draw = random.Random(21)
        over = 0
        for graph in [grid(3), *(drawn(draw) for _ in range(60))]:
            pile = self.pile(graph)
            for _ in range(12):
                chips = [draw.randrange(3) for _ in range(graph.vertices)]
                drops = [(draw.randrange(graph.vertices), draw.randrange(5)) for _ in range(12)]
                marks = [draw.choice((0, 0, 0, 1, 2, 4, 6, 8, 16, 24, 2**63)) for _ in range(graph.vertices)]
                room = draw.choice((None, graph.vertices, 2 * graph.vertices, 1000))
                self.assertEqual(pile.new(chips), (0, 0))
                more = (draw.choice((False, True)), room, draw.choice((0, 0, 1)), draw.choice((marks, [])))
                over += self.expect_measures(pile, chips, drops, LARGEST, *more)
        self.assertGreater(over, 100)

    def test_what_is_no_measure(self):
        pile = self.pile(TRIANGLE)
        pile.new([1, 1, 0])
        drops = [(0, 1), (1, 1)]
        lengths = [2, 2, 2, 2, 2, 2, 2, 9, 9, 3]
        wrong = [{1: 1}, {2: 3}, {3: 1}, {4: 0}, {5: 1}, {5: 3}, {6: 1}, {6: 0}, {6: 0, 7: 0}, {7: 8}, {8: 10}, {9: 2}, {9: 4}]
        for changes in wrong:
            arrays = [CArray(([0, 1], [1, 1])[it] * 2 if it < 2 else [GUARD] * 9) for it in range(10)]
            before = [it.now() for it in arrays]
            place = CArray([7])
            words = [(s.words()[0], changes.get(it, lengths[it])) for it, s in enumerate(arrays)]
            drops, others = ([word for pair in pairs for word in pair] for pairs in (words[:2], [words[9], *words[2:9]]))
            status = LIBRARY.chipfire_pile_measure(pile.at, *drops, 1, *others, place.words()[0])
            self.assertEqual((status, place.now(), [it.now() for it in arrays]), (12, [0], before), changes)
            self.assertEqual(pile.now(), [[1, 1, 0], [0, 0, 0]])
        for drops, fault, place in ([(2, 0), (3, 1)], 26, 1), ([(2, LARGEST - 2), (0, 1)], 10, 1):
            found = pile.measure(drops, True, 9)
            self.assertEqual(found, (fault, place, [(GUARD,) * 3] * 2, [GUARD] * 2, [GUARD] * 2, [GUARD] * 9, [GUARD] * 9))
            self.assertEqual(pile.now(), [[1, 1, 0], [0, 0, 0]])
        self.assertEqual(pile.measure([], True, 9), (0, 0, [], [], [], [GUARD] * 9, [GUARD] * 9))
        pile.free()
        self.assertEqual(pile.measure([(9, 1)], True, 3), (14, 0, [(GUARD,) * 3], [GUARD], [GUARD], [GUARD] * 3, [GUARD] * 3))

    def test_all_plays_on_the_triangle_in_portions(self):
        pile = self.pile(TRIANGLE)
        pile.new([0, 0, 0])
        for limit in (0, 1, 3, LARGEST):
            for chips in itertools.product(range(5), range(5), range(2)):
                ends, fired, stopped, _ = stepped(TRIANGLE, list(chips), limit)
                for visits in (1, 2**64 - 1):
                    self.assertEqual(pile.put(chips, limit), 0)
                    self.expect_portions(pile, visits, [ends, fired], stopped)

    def test_the_sink_alone(self):
        pile = self.pile(Graph(1, 0, []))
        self.assertEqual(pile.new([5], 0), (0, 0))
        self.expect_drops(pile, [5], [(0, 3), (0, 0)], 0)
        self.assertEqual(pile.drop(0, LARGEST - 7), (10, None))
        self.assertEqual(pile.drop(0, LARGEST - 8), (0, (0, 0, 0)))

    def test_every_fault_changes_nothing(self):
        pile = self.pile(TRIANGLE)
        pile.new([4, 0, 0], 2)
        for drops in ([], [(2, 0)], [(2, 0), (0, 1)]):
            self.assertEqual(pile.put([4, 0, 0], 2), 0)
            for drop in drops:
                pile.drop(*drop)
            for chips, limit, fault in [
                ([0, 0], LARGEST + 1, 9), ([0, 0, LARGEST + 1], LARGEST + 1, 10), ([2**64 - 1, 2, 0], 0, 10),
                ([0, 0, 0], LARGEST + 1, 11),
            ]:
                self.expect_nothing_new(pile, fault, pile.put, chips, limit)
                self.expect_nothing_new(pile, fault, pile.new, chips, limit)
            for vertex, amount, fault in [(3, LARGEST, 26), (2**64 - 1, 0, 26), (2, LARGEST - 3, 10), (0, 2**64 - 1, 10)]:
                self.expect_nothing_new(pile, fault, pile.drop, vertex, amount)
                before = pile.now()
                self.assertEqual(pile.drops([(2, 0), (vertex, amount), (4, 0)]), (fault, 1, [(GUARD,) * 3] * 3))
                self.assertEqual(pile.now(), before)
            for wrong, fault in (Graph(3, 2, []), 8), (Graph(3, 3, TRIANGLE.edges), 2), (Graph(3, 2, [(0, 0, 1)]), 6):
                self.expect_nothing_new(pile, fault, pile.new_on, wrong, [4, 0, 0])

    def test_all_drops_are_checked_before_the_limit_stops_one(self):
        """A limit of 0 stops the game, or that of the first drop. One call for all drops of a game reports that first."""
        pile = self.pile(TRIANGLE)
        pile.new([0, 0, 0])
        for chips, (drop, fault) in itertools.product([[4, 0, 0], [1, 1, 0]], [((3, 1), 26), ((2, LARGEST), 10)]):
            drops, unwritten = [(0, 1), drop], [(GUARD,) * 3] * 2
            self.assertEqual(avalanches(TRIANGLE, chips, drops, 0)[:2], (13, 0))
            self.assertEqual(pile.put(chips, 0), 0)
            for _ in range(2):  # (the second time the limit has stopped the pile)
                self.assertEqual(pile.drops(drops), (fault, 1, unwritten))
                self.assertEqual(pile.measure(drops)[:3], (fault, 1, unwritten))
                self.assertEqual(pile.drop(*drop), (fault, None))
                self.assertEqual(pile.drop(0, 1), (13, None))

    def test_no_pile(self):
        pile = self.pile(TRIANGLE)
        for _ in range(2):
            self.assertEqual((pile.put([0, 0, 0]), pile.drop(0, 1)), (14, (14, None)))
            self.assertEqual(pile.play(1), (14, None))
            self.assertEqual((pile.drops([(9, 1)]), pile.size()), ((14, 0, [(GUARD,) * 3]), 0))
            self.assertEqual(pile.now(), [None, None])
            self.assertEqual(pile.free(), (0, None))


class Random(Piles):
    def test_beside_firing_one_by_one(self):
        draw = random.Random("piles: drops")
        for _ in range(300):
            graph = drawn(draw)
            pile = self.pile(graph)
            for number in range(3):
                limit = draw.choice([0, 2, 5, LARGEST, LARGEST])
                chips = [draw.randint(0, 4) for _ in range(graph.vertices)]
                drops = [(draw.randrange(graph.vertices), draw.randint(0, 5)) for _ in range(draw.randint(0, 6))]
                self.assertEqual(pile.put(chips, limit) if number else pile.new(chips, limit), 0 if number else (0, 0))
                self.expect_drops(pile, chips, drops, limit)
                self.assertEqual(pile.put(chips, limit), 0)
                self.expect_one_call(pile, chips, drops, limit)

    def test_in_portions_beside_one_call(self):
        """Games that take long: on a grid, on a path and on a one-way ring, by few visits and by many."""
        ring = Graph(41, 40, [edge for at in range(40) for edge in ((at, (at + 1) % 40, 9), (at, 40, 1))])
        path = Graph(61, 60, [edge for at in range(60) for edge in ((at, at + 1, 1), (at + 1, at, 1)) if edge[0] < 60])
        for graph, heap in (grid(30), 5000), (path, 3000), (ring, 2000):
            chips = [heap] + [1] * (graph.vertices - 1)
            ((ends, fired, _),) = stabilize_all(graph, [chips])[2]
            pile = self.pile(graph)
            pile.new(chips)
            self.expect_portions(pile, 1, [ends, fired], False)
            for visits in (1000, 10**6):
                self.assertEqual(pile.put(chips), 0)
                self.expect_portions(pile, visits, [ends, fired], False)
            limit = max(fired) // 2
            ((ends, fired, _),) = stabilize_all(graph, [chips], limit=limit)[2]
            for visits in (1, 10**6):
                self.assertEqual(pile.put(chips, limit), 0)
                self.expect_portions(pile, visits, [ends, fired], True)

    def test_a_drop_and_other_chips_between_two_portions(self):
        graph = grid(20)
        chips = [6] * graph.vertices
        pile, whole = self.pile(graph), self.pile(graph)
        for it in (pile, whole):
            it.new(chips)
        self.assertEqual(pile.play(1), (0, 1))
        self.assertEqual(pile.drop(7, 9), whole.drop(7, 9))
        self.assertEqual((pile.now(), pile.play(1)), (whole.now(), (0, 0)))
        pile.put(chips)
        self.assertEqual(pile.play(1), (0, 1))
        self.assertEqual((pile.put(chips), pile.now()), (0, [chips, [0] * graph.vertices]))
        whole.put(chips)
        self.assertEqual(pile.drop(7, 9), whole.drop(7, 9))

    def test_beside_one_call_on_a_grid(self):
        draw, graph = random.Random("piles: grid"), grid(20)
        chips = [draw.randint(0, 7) for _ in range(graph.vertices)]
        drops = [(draw.randrange(400), draw.choice([0, 1, 1, 2, 40])) for _ in range(400)]
        pile = self.pile(graph)
        pile.new(chips)
        rows = [pile.drop(*it) for it in drops]
        status, place, (ends, wanted) = avalanches(graph, chips, drops)
        self.assertEqual((status, place, rows), (0, 0, [(0, row) for row in wanted]))
        many = self.pile(graph)
        many.new(chips)
        self.assertEqual(many.drops(drops[:150]), (0, 0, wanted[:150]))
        self.assertEqual(many.drop(*drops[150]), (0, wanted[150]))
        self.assertEqual(many.drops(drops[151:]), (0, 0, wanted[151:]))
        self.assertEqual(many.now(), pile.now())
        started = list(chips)
        for vertex, amount in drops:
            started[vertex] += amount
        ((at_once, fired, _),) = stabilize_all(graph, [started])[2]
        self.assertEqual((ends, pile.now()), (at_once, [at_once, fired]))


class Memory(Piles):
    def within(self, room, call, look):
        """Returns what `look` makes of the status of a call for which the process may take `room` bytes more."""
        child = os.fork()
        if child == 0:
            try:
                with open("/proc/self/statm", encoding="ascii") as file:
                    taken = int(file.read().split()[0]) * resource.getpagesize()
                unlimited = resource.getrlimit(resource.RLIMIT_AS)
                resource.setrlimit(resource.RLIMIT_AS, (taken, unlimited[1]))
                # (what was freed before, in pieces that would do for the call)
                while MALLOC(100_000):
                    pass
                resource.setrlimit(resource.RLIMIT_AS, (taken + room, unlimited[1]))
                status = call()
                resource.setrlimit(resource.RLIMIT_AS, unlimited)
                os._exit(look(status))
            finally:
                os._exit(254)
        return os.waitstatus_to_exitcode(os.waitpid(child, 0)[1])

    def test_refused(self):
        """A call returns 90 and changes nothing, and with enough memory it does not. A drop takes none."""
        graph = grid(120)
        chips, pile = [2] * graph.vertices, self.pile(graph)
        numbers, place, outcome = CArray(chips), CArray([7]), [CArray([7]) for _ in range(3)]
        self.assertEqual(pile.new([1] * graph.vertices, 9), (0, 0))
        new = (pile.at, *graph.words(), LARGEST, *numbers.words(), place.words()[0])
        before = pile.now()

        def look(status):
            return status if (pile.now() == before) == (status != 0) else 255
        for call in (lambda: LIBRARY.chipfire_pile_new(*new), lambda: LIBRARY.chipfire_pile_put(pile.at, 9, *numbers.words())):
            found = [self.within(size << 18, call, look) for size in range(20)]
            enough = found.index(0)
            self.assertGreater(enough, 0)
            self.assertEqual(found, [90] * enough + [0] * (len(found) - enough))
        drop = (pile.at, 0, 5, *(it.words()[0] for it in outcome))
        self.assertEqual(self.within(0, lambda: LIBRARY.chipfire_pile_drop(*drop), lambda status: status), 0)
        columns = [CArray([0, 7, 9]), *(CArray([it] * 3) for it in (5, GUARD, GUARD, GUARD))]
        drops = (pile.at, *(word for it in columns for word in it.words()), place.words()[0])
        self.assertEqual(self.within(0, lambda: LIBRARY.chipfire_pile_drops(*drops), lambda status: status), 0)

    def test_a_play_without_memory(self):
        """A play that gets no memory for a work list or a search makes rounds, and ends as one that gets it."""
        graph = grid(60)
        chips, pile, whole = [7] * graph.vertices, self.pile(graph), self.pile(graph)
        for it in (pile, whole):
            self.assertEqual(it.new(chips), (0, 0))
        self.assertEqual(whole.play(2**64 - 1), (0, 0))
        ends, left = whole.now(), CArray([GUARD])
        play = (pile.at, 2**64 - 1, left.words()[0])

        def look(status):
            return status if (pile.now(), left.now()) == (ends, [0]) else 255
        found = [self.within(size << 15, lambda: LIBRARY.chipfire_pile_play(*play), look) for size in range(30)]
        self.assertEqual(found, [0] * 30)

    def test_refused_draws(self):
        """A call returns 90 and writes nothing, and with enough memory it draws. The pile is as it was."""
        graph = grid(120)
        pile = self.pile(graph)
        self.assertEqual(pile.new([5] * graph.vertices), (0, 0))
        self.assertEqual(pile.play(1000)[0], 0)
        before, (_, drawn, _) = pile.now(), pile.draw(1, 0, 1)
        chips, place = CArray([GUARD] * graph.vertices), CArray([7])
        words = (pile.at, 1, 0, 1, *chips.words(), place.words()[0])

        def look(status):
            written = chips.numbers if status else drawn
            is_right = (pile.now(), chips.now(), place.now()) == (before, written, [0])
            return status if is_right else 255
        found = [self.within(size << 18, lambda: LIBRARY.chipfire_pile_random_recurrent(*words), look) for size in range(20)]
        enough = found.index(0)
        self.assertGreater(enough, 0)
        self.assertEqual(found, [90] * enough + [0] * (len(found) - enough))

    def test_size(self):
        """The size is what the C library has taken for the arrays of a pile, but for the ends of their pages."""
        line = [(at, at + 1, 1) for at in range(20_000)]
        for graph in grid(120), Graph(20_001, 20_000, line), Graph(20_001, 20_000, 5 * line):
            pile = self.pile(graph)
            before = MALLINFO()
            self.assertEqual(pile.new([1] * graph.vertices), (0, 0))
            after = MALLINFO()
            taken = after.uordblks + after.hblkhd - before.uordblks - before.hblkhd
            self.assertIn(taken - pile.size(), range(15 * 4200))

    def test_given_back(self):
        """A thousand piles of more than a megabyte, freed or made in the place of one another, take few megabytes."""
        graph = grid(120)
        chips, pile = [2] * graph.vertices, self.pile(graph)

        def work():
            before = resource.getrusage(resource.RUSAGE_SELF).ru_maxrss
            for number in range(1000):
                pile.new(chips)
                if number % 2:
                    pile.free()
            return int(resource.getrusage(resource.RUSAGE_SELF).ru_maxrss - before > 100_000)
        self.assertEqual(self.within(2**40, work, lambda status: status), 0)


class Threads(Piles):
    def on_threads(self, works):
        threads = [threading.Thread(target=it) for it in works]
        for it in threads:
            it.start()
        for it in threads:
            it.join()

    def test_four_piles_at_once_and_one_from_thread_to_thread(self):
        draw, graph = random.Random("piles: threads"), grid(12)
        chips = [draw.randint(0, 7) for _ in range(graph.vertices)]
        drops = [(draw.randrange(144), 1) for _ in range(500)]
        wanted = [(0, row) for row in avalanches(graph, chips, drops)[2][1]]
        piles = [self.pile(graph) for _ in range(4)]
        found = [[] for _ in piles]
        for pile in piles:
            pile.new(chips)
        for part in range(0, len(drops), 50):
            def work(number, part=part):
                found[number] += [piles[number].drop(*it) for it in drops[part:part + 50]]
            self.on_threads([lambda number=number: work(number) for number in range(4)])
        self.assertEqual(found, [wanted] * 4)
