"""Plays and drops by the library: beside firing one vertex at a time, beside the program, at the limits, without memory,
and on four threads at once."""
import ctypes
import itertools
import json
import os
import random
import re
import resource
import threading
import unittest

from library import HEADER, LARGEST, LIBRARY, PROGRAM, WORD, CArray, Graph, Room
from library import avalanches, called, run, stabilize_all, verify

TRIANGLE = Graph(3, 2, [(0, 1, 1), (0, 2, 1), (1, 0, 1), (1, 2, 1)])


def grid(side):
    """Returns the grid with the sink outside."""
    edges = []
    for square in range(side * side):
        line, column = divmod(square, side)
        for y, x in ((line - 1, column), (line + 1, column), (line, column - 1), (line, column + 1)):
            is_inside = 0 <= y < side and 0 <= x < side
            edges.append((square, side * y + x if is_inside else side * side, 1))
    return Graph(side * side + 1, side * side, edges)


def stepped(graph, chips, limit, fired=None):
    """Fires one vertex after another, the last that may fire first. Returns chips, counts, the number of stopped vertices,
    and the number of chips that the sink got."""
    chips, fired = list(chips), list(fired or [0] * graph.vertices)
    degree, before = [0] * graph.vertices, chips[graph.sink]
    for tail, _, mult in graph.edges:
        degree[tail] += mult

    def can(v):
        return v != graph.sink and chips[v] >= degree[v]
    while ready := [v for v in range(graph.vertices) if can(v) and fired[v] < limit]:
        fired[ready[-1]] += 1
        chips[ready[-1]] -= degree[ready[-1]]
        for tail, head, mult in graph.edges:
            chips[head] += mult * (tail == ready[-1])
    return chips, fired, sum(map(can, range(graph.vertices))), chips[graph.sink] - before


def dropped(graph, chips, drops, limit):
    """The same for drops: the chips at the end and the columns of each; or None if the limit stops a play."""
    chips, fired, stopped, _ = stepped(graph, chips, limit)
    rows = []
    for at, many in drops:
        chips[at] += many
        chips, after, more, lost = stepped(graph, chips, limit, fired)
        stopped += more
        rows.append((sum(after) - sum(fired), sum(map(int.__ne__, after, fired)), lost))
        fired = after
    return None if stopped else (chips, rows)


def drawn(draw):
    """Returns a small graph in which each vertex reaches the sink."""
    vertices = draw.randint(1, 6)
    sink, edges = draw.randrange(vertices), []
    others = [v for v in range(vertices) if v != sink]
    draw.shuffle(others)
    for place, v in enumerate(others):
        edges.append((v, draw.choice([sink, *others[:place]]), draw.randint(1, 3)))
        heads = [u for u in range(vertices) if u != v]
        edges += [(v, draw.choice(heads), draw.randint(1, 3)) for _ in range(draw.randint(0, 2))]
    draw.shuffle(edges)
    return Graph(vertices, sink, edges)


def spoilt(draw, graph):
    """Returns a graph with something that may be wrong."""
    numbers = [0, 1, graph.vertices - 1, graph.vertices, 2**20, 2**20 + 1, 2**63, 2**64 - 1]
    vertices, sink, edges = graph.vertices, graph.sink, [list(it) for it in graph.edges]
    what = draw.randrange(4)
    if what == 0 or not edges:
        sink = draw.choice(numbers)
    elif what == 1:
        edges.pop(draw.randrange(len(edges)))
    else:
        draw.choice(edges)[draw.randrange(3)] = draw.choice(numbers)
    return Graph(vertices, sink, edges)


class Small(unittest.TestCase):
    def test_all_games_on_the_triangle(self):
        for limit in (0, 1, 2, LARGEST):
            games = [list(it) for it in itertools.product(range(5), range(5), range(2))]
            wanted = [stepped(TRIANGLE, chips, limit)[:3] for chips in games]
            self.assertEqual(stabilize_all(TRIANGLE, games, limit), (0, 0, wanted))
            for guess in ([0, 0, 0], [2, 1, 0], [9, 0, 2**64 - 1]):
                self.assertEqual(stabilize_all(TRIANGLE, games, limit, [guess] * len(games)), (0, 0, wanted))

    def test_all_pairs_of_drops_on_the_triangle(self):
        for limit in (0, 1, 3, LARGEST):
            for chips in itertools.product(range(3), range(3), range(2)):
                for drops in itertools.product(itertools.product(range(3), range(3)), repeat=2):
                    status, place, found = avalanches(TRIANGLE, list(chips), drops, limit)
                    wanted = dropped(TRIANGLE, chips, drops, limit)
                    self.assertEqual(found, wanted)
                    if wanted is None:
                        first = next(i for i in range(3) if dropped(TRIANGLE, chips, drops[:i], limit) is None)
                        self.assertEqual((status, place), (13, max(0, first - 1)))

    def test_all_claims_about_a_game_on_the_triangle(self):
        for limit in (1, LARGEST):
            ends, fired, *_ = stepped(TRIANGLE, [4, 0, 0], limit)
            for claim in itertools.product(range(4), repeat=6):
                differ = [v for v in range(3) if (claim[v], claim[v + 3]) != (fired[v], ends[v])]
                wanted = (53, differ[0]) if differ else (0, 0)
                self.assertEqual(verify(TRIANGLE, [4, 0, 0], claim[:3], claim[3:], limit), wanted)
        self.assertEqual(verify(TRIANGLE, [4, 0, 0], [2, 1, 0], [1, 0]), (12, 0))
        self.assertEqual(verify(TRIANGLE, [4, 0], [2, 1], [1, 0]), (9, 0))

    def test_nothing(self):
        alone = Graph(1, 0, [])
        self.assertEqual(stabilize_all(alone, []), (0, 0, []))
        self.assertEqual(stabilize_all(alone, [[5], [LARGEST]]), (0, 0, [([5], [0], 0), ([LARGEST], [0], 0)]))
        self.assertEqual(avalanches(alone, [5], []), (0, 0, ([5], [])))
        self.assertEqual(avalanches(alone, [5], [(0, 3)]), (0, 0, ([8], [(0, 0, 0)])))


class First(unittest.TestCase):
    """Which of two faults is reported, as the header says."""

    def test_in_the_order_of_the_header(self):
        """A call has all faults but 3, which Memory has. They are mended in turn; each call reports the next one of the
        header's list."""
        call = {"vertices": 0, "sink": 5, "edges": [(2, 7, 0), (1, 2, 0)], "chips": [LARGEST, 1], "limit": LARGEST + 1,
                "at": [9], "amounts": []}
        found = []
        for mend in (
            {"amounts": [LARGEST + 1]}, {"vertices": 3}, {"sink": 2}, {"edges": [(2, 2, 0), (1, 2, 0)]},
            {"edges": [(2, 2, 1), (1, 2, 0)]}, {"edges": [(2, 0, 1), (1, 2, 0)]}, {"edges": [(0, 1, 1)]},
            {"edges": [(0, 1, 1), (1, 2, 1)]}, {"chips": [LARGEST, 1, 0]}, {"chips": [1, 0, 0]}, {"limit": 0},
            {"chips": [0, 0, 0]}, {"at": [0]}, {"amounts": [1]}, {"limit": 1},
        ):
            found.append(self.status_of(call))
            call.update(mend)
        self.assertEqual(self.status_of(call), 0)
        graph = Graph(3, 2, call["edges"])
        found += [verify(graph, [1, 0, 0], [0, 0, 0], [0, 0, 0], limit)[0] for limit in (LARGEST + 1, LARGEST)]
        with open(HEADER, encoding="ascii") as file:
            listed = file.read().partition("The first fault is the first of these:")[2].partition("Fault 90")[0]
        wanted = [int(it) for it in re.findall(r"\d+", listed)]
        self.assertEqual(found, [it for it in wanted[:-1] if it != 3] + [11, 53])
        self.assertEqual((wanted[:4], wanted[-1]), ([12, 1, 2, 3], 53))

    def status_of(self, call):
        """Returns the status of a call for drops that writes nothing if it is refused."""
        graph, columns = Graph(call["vertices"], call["sink"], call["edges"]), [[7] * len(call["at"]) for _ in range(3)]
        return called(LIBRARY.chipfire_avalanches, graph, call["limit"], [call["at"], call["amounts"]],
                      [call["chips"], *columns])[0]

    def test_of_games(self):
        few, many = [4, 0, 0], [4, 0, LARGEST]
        for games, limit, wanted in [
            ([few, many, many], LARGEST, (10, 1)), ([few, many], LARGEST + 1, (11, 0)), ([many, few], LARGEST + 1, (10, 0)),
            ([few[:2], many], LARGEST, (12, 0)), ([], LARGEST + 1, (0, 0)),
        ]:
            self.assertEqual(stabilize_all(TRIANGLE, games, limit)[:2], wanted)

    def test_of_drops(self):
        nowhere, too_many, stopped, made = (3, LARGEST), (1, LARGEST), (0, 2), (2, 1)
        faults = {nowhere: 26, too_many: 10, stopped: 13}
        for first, second in itertools.product(faults, faults):
            for before in range(3):
                found = avalanches(TRIANGLE, [1, 1, 0], [*[made] * before, first, second], 0)
                self.assertEqual(found[:2], (faults[first], before))
        for chips, limit, wanted in [
            ([0, 0, LARGEST + 1], LARGEST, (10, 0)), ([0, 0, LARGEST + 1], LARGEST + 1, (10, 0)),
            ([4, 0, 0], LARGEST + 1, (11, 0)), ([4, 0, 0], 1, (13, 0)), ([4, 0], 1, (9, 0)),
        ]:
            for drops in ([], [nowhere], [too_many]):
                self.assertEqual(avalanches(TRIANGLE, chips, drops, limit)[:2], wanted)


class Random(Room):
    def program_result(self, graph, chips, limit):
        """Returns the program's result of a game: (0, 0, [(chips, fired, stopped)]), or number and place of a fault."""
        paths = f"{self.room}/graph.json", f"{self.room}/chips.csv"
        with open(paths[0], "w", encoding="ascii") as file:
            json.dump({"version": 1, "vertices": graph.vertices, "sink": graph.sink, "edges": graph.edges}, file)
        with open(paths[1], "w", encoding="ascii") as file:
            file.write("vertex,chips\n" + "".join(f"{v},{many}\n" for v, many in enumerate(chips)))
        ran = run(PROGRAM, "plain", *paths, "--large", "--limit", str(limit))
        fault = re.fullmatch(r"chipfire: fault (\d+) \w+(?: (\d+))?\n", ran.stderr)
        if fault:
            return int(fault[1]), int(fault[2] or 0), None
        report = json.loads(ran.stdout)
        return 0, 0, [(report["chips"], report["fired"], len(report["over"]))]

    def test_games_beside_firing_one_by_one(self):
        draw = random.Random("library: games")
        for _ in range(400):
            graph, limit = drawn(draw), draw.choice([0, 1, 2, 5, LARGEST])
            games = [[draw.randint(0, 9) for _ in range(graph.vertices)] for _ in range(draw.randint(1, 4))]
            wanted = [stepped(graph, chips, limit)[:3] for chips in games]
            guesses = draw.choice([[], [[draw.randint(0, 9) for _ in chips] for chips in games], [it[1] for it in wanted]])
            self.assertEqual(stabilize_all(graph, games, limit, guesses), (0, 0, wanted))

    def test_drops_beside_firing_one_by_one(self):
        draw = random.Random("library: drops")
        for _ in range(400):
            graph, limit = drawn(draw), draw.choice([0, 2, 5, LARGEST, LARGEST])
            chips = [draw.randint(0, 4) for _ in range(graph.vertices)]
            drops = [(draw.randrange(graph.vertices), draw.randint(0, 5)) for _ in range(draw.randint(0, 6))]
            self.assertEqual(avalanches(graph, chips, drops, limit)[2], dropped(graph, chips, drops, limit))

    def test_games_and_faults_beside_the_program(self):
        draw, faults = random.Random("library: program"), set()
        for number in range(150):
            graph = drawn(draw) if number % 2 else spoilt(draw, drawn(draw))
            limit, most = draw.choice([0, 1, 7, LARGEST]), draw.choice([9, 1000, LARGEST // 2])
            chips = [draw.randint(0, most) for _ in range(graph.vertices)]
            found = stabilize_all(graph, [chips], limit)
            self.assertEqual(found, self.program_result(graph, chips, limit), (graph.edges, chips, limit))
            faults.add(found[0])
        self.assertLessEqual({0, 2, 4, 5, 6, 7, 8, 10}, faults)

    def test_large_grids_beside_the_program(self):
        draw, graph = random.Random("library: grids"), grid(20)
        games = [[draw.randint(0, 7) for _ in range(graph.vertices)] for _ in range(5)]
        found = stabilize_all(graph, games)[2]
        for chips, result in zip(games, found):
            self.assertEqual((0, 0, [result]), self.program_result(graph, chips, LARGEST))


class Limits(unittest.TestCase):
    def path(self, vertices):
        """Returns one-way edges along all vertices to the sink, the last."""
        return Graph(vertices, vertices - 1, [(v, v + 1, 1) for v in range(vertices - 1)])

    def test_vertices(self):
        most = 2**21
        graph = self.path(most)
        chips = [1] + [0] * (most - 1)
        self.assertEqual(stabilize_all(graph, [chips]), (0, 0, [([0] * (most - 1) + [1], [1] * (most - 1) + [0], 0)]))
        self.assertEqual(stabilize_all(Graph(most + 1, 0, []), [[0] * (most + 1)])[:2], (1, 0))
        self.assertEqual(stabilize_all(Graph(0, 0, []), [])[:2], (1, 0))

    def test_edges(self):
        most = 2**23
        graph = Graph(2, 1, [(0, 1, 1)] * most)
        self.assertEqual(stabilize_all(graph, [[most, 0]]), (0, 0, [([0, most], [1, 0], 0)]))
        self.assertEqual(stabilize_all(Graph(2, 1, [(0, 1, 1)] * (most + 1)), [[0, 0]])[:2], (3, 0))

    def test_chips_and_mults(self):
        graph = Graph(2, 1, [(0, 1, 2**20)])
        self.assertEqual(stabilize_all(graph, [[LARGEST, 0]]), (0, 0, [([0, LARGEST], [2**20, 0], 0)]))
        self.assertEqual(stabilize_all(graph, [[0, 0], [LARGEST, 1]])[:2], (10, 1))
        self.assertEqual(stabilize_all(graph, [[2**64 - 1, 2**64 - 1]])[:2], (10, 0))
        self.assertEqual(stabilize_all(graph, [[0, 0]], LARGEST + 1)[:2], (11, 0))
        self.assertEqual(avalanches(graph, [0, 0], [(0, LARGEST)]), (0, 0, ([0, LARGEST], [(2**20, 1, LARGEST)])))
        self.assertEqual(avalanches(graph, [0, 0], [(0, LARGEST), (1, 1)])[:2], (10, 1))


class Memory(unittest.TestCase):
    def test_with_ever_more(self):
        """A call returns 90 and writes nothing; from some size on it writes the outcome."""
        graph = grid(120)
        chips, at = [2] * graph.vertices, [1] * 1000
        games, drops = ([[]], [chips, chips, [5]]), ([at, at], [chips, at, at, at])
        for function, (inputs, outputs) in ((LIBRARY.chipfire_stabilize_all, games), (LIBRARY.chipfire_avalanches, drops)):
            found = [self.child(function, graph, inputs, outputs, size << 19) for size in range(40)]
            enough = found.index(0)
            self.assertGreater(enough, 0)
            self.assertEqual(found, [90] * enough + [0] * (len(found) - enough))

    def test_sizes_are_read_before_memory_is_taken(self):
        """With one edge too many, where no edge can be copied."""
        edges, place, empty = (WORD * (2**23 + 1))(), CArray([7]), CArray([])
        column = ctypes.addressof(edges), len(edges)
        functions = (LIBRARY.chipfire_stabilize_all, 4), (LIBRARY.chipfire_avalanches, 6), (LIBRARY.chipfire_verify, 3)
        for vertices, sink, fault in (0, 3, 1), (2**21 + 1, 0, 1), (3, 3, 2), (3, 2, 3):
            for function, arrays in functions:
                words = [vertices, sink, *column * 3, LARGEST, *empty.words() * arrays, place.words()[0]]
                self.assertEqual(self.status(function, words, [], 0), fault)

    def child(self, function, graph, inputs, outputs, room):
        """Returns the status of a call in a process that may take `room` bytes more; 255 if other arrays were written."""
        inputs, outputs, place = [CArray(it) for it in inputs], [CArray(it) for it in outputs], CArray([7])
        words = [*graph.words(), LARGEST, *(word for it in (*inputs, *outputs) for word in it.words()), place.words()[0]]
        return self.status(function, words, outputs, room)

    def status(self, function, words, outputs, room):
        """Returns the same of a call with these words, which may write these arrays."""
        child = os.fork()
        if child == 0:
            # (what other tests gave back may lie free in this process, and would be room too)
            ctypes.CDLL(None).malloc_trim(0)
            with open("/proc/self/statm", encoding="ascii") as file:
                taken = int(file.read().split()[0]) * resource.getpagesize()
            unlimited = resource.getrlimit(resource.RLIMIT_AS)
            resource.setrlimit(resource.RLIMIT_AS, (taken + room, unlimited[1]))
            status = function(*words)
            resource.setrlimit(resource.RLIMIT_AS, unlimited)
            is_kept = [it.now() for it in outputs] == [it.numbers for it in outputs]
            os._exit(status if is_kept == (status != 0) else 255)
        return os.waitstatus_to_exitcode(os.waitpid(child, 0)[1])


class Threads(unittest.TestCase):
    def test_four_at_once(self):
        graph, draw = grid(12), random.Random("library: threads")
        games = [[draw.randint(0, 7) for _ in range(graph.vertices)] for _ in range(30)]
        drops = [(draw.randrange(144), 1) for _ in range(500)]
        wanted = stabilize_all(graph, games), avalanches(graph, games[0], drops)
        found = {}

        def work(number):
            found[number] = [(stabilize_all(graph, games), avalanches(graph, games[0], drops)) for _ in range(10)]
        threads = [threading.Thread(target=work, args=(number,)) for number in range(4)]
        for it in threads:
            it.start()
        for it in threads:
            it.join()
        self.assertEqual(found, {number: [wanted] * 10 for number in range(4)})
