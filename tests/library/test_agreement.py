"""One result by every road: all small games, by the library and by the program, beside all orders in which they can be
played.

The games are those on graphs of two vertices, of three, with each edge as often as `MULTS` says, and up to three chips on
a vertex. The definition itself is tried: from each position every legal vertex is fired that the limit still allows,
and all ways end with the same chips and counts."""
import itertools
import json
import unittest

from library import LARGEST, PROGRAM, Graph, Room, avalanches, run, stabilize_all, verify
from test_piles import Pile

LIMITS = (1, 2, LARGEST)
PAIRS, TRIPLES = (1, 2, 3), (0, 1, 2)
STOPPED, DIFFERS = 13, 53


def reaches(graph):
    """Whether each vertex reaches the sink."""
    there = {graph.sink}
    for _ in range(graph.vertices):
        there |= {tail for tail, head, _ in graph.edges if head in there}
    return len(there) == graph.vertices


def graphs(mults=TRIPLES):
    """Returns all graphs of two and of three vertices, whose sink is the last."""
    found = [Graph(2, 1, [(0, 1, mult)]) for mult in PAIRS]
    places = [(tail, head) for tail in (0, 1) for head in (0, 1, 2) if tail != head]
    for some in itertools.product(mults, repeat=len(places)):
        graph = Graph(3, 2, [(*place, mult) for place, mult in zip(places, some) if mult])
        if reaches(graph):
            found.append(graph)
    return found


def games(graph):
    """Returns all games on it, with up to three chips on each vertex but the sink, and there none."""
    return [[*some, 0] for some in itertools.product(range(4), repeat=graph.vertices - 1)]


class Rules:
    """The rules of the game on a graph."""

    def __init__(self, graph):
        self.graph, self.degree = graph, [0] * graph.vertices
        for tail, _, mult in graph.edges:
            self.degree[tail] += mult

    def legal(self, chips):
        return [v for v in range(self.graph.vertices) if v != self.graph.sink and chips[v] >= self.degree[v]]

    def fire(self, chips, vertex):
        chips = list(chips)
        chips[vertex] -= self.degree[vertex]
        for tail, head, mult in self.graph.edges:
            chips[head] += mult * (tail == vertex)
        return tuple(chips)

    def ends(self, chips, fired, limit):
        """Returns the chips and counts at the ends of all plays that go on from there within the limit."""
        seen, left, found = set(), [(tuple(chips), tuple(fired))], set()
        while left:
            now = left.pop()
            if now in seen:
                continue
            seen.add(now)
            may = [v for v in self.legal(now[0]) if now[1][v] < limit]
            left += [(self.fire(now[0], v), tuple(it + (u == v) for u, it in enumerate(now[1]))) for v in may]
            if not may:
                found.add(now)
        return found

    def end(self, chips, fired, limit):
        """Returns the one end that all plays have: its chips and its counts, and how many vertices are still legal."""
        (now,) = self.ends(chips, fired, limit)
        return list(now[0]), list(now[1]), len(self.legal(now[0]))


class Agreement(Room):
    def write(self, name, text):
        with open(f"{self.room}/{name}", "w", encoding="ascii") as file:
            file.write(text)
        return f"{self.room}/{name}"

    def graph_file(self, graph):
        shape = {"vertices": graph.vertices, "sink": graph.sink, "edges": graph.edges, "version": 1}
        return self.write("graph.json", json.dumps(shape))

    def rows_file(self, name, rows):
        return self.write(name, "".join(f"{at},{many}\n" for at, many in [("vertex", "chips"), *rows]))

    def reported(self, graph_file, chips, limit):
        """Returns the report of `plain`, and its status."""
        chips_file = self.rows_file("chips.csv", [it for it in enumerate(chips) if it[1]])
        ran = run(PROGRAM, "plain", graph_file, chips_file, "--limit", str(limit))
        return json.loads(ran.stdout), ran.returncode

    def test_each_row_and_each_kept_pile_is_the_report(self):
        for graph, limit in itertools.product(graphs(), LIMITS):
            rules, file, all_games = Rules(graph), self.graph_file(graph), games(graph)
            status, _, rows = stabilize_all(graph, all_games, limit)
            self.assertEqual(status, 0)
            pile = Pile(graph)
            self.assertEqual(pile.new(all_games[0], limit)[0], 0)
            for chips, (ends, fired, stopped) in zip(all_games, rows):
                wanted = rules.end(chips, [0] * graph.vertices, limit)
                self.assertEqual((ends, fired, stopped), wanted)
                report, status = self.reported(file, chips, limit)
                self.assertEqual((report["chips"], report["fired"], len(report["over"])), wanted)
                self.assertEqual((status, report["sealed"]), (2 if stopped else 0, []))
                self.assertEqual(pile.put(chips, limit), 0)
                self.assertEqual(pile.drop(0, 0)[0], STOPPED if stopped else 0)
                self.assertEqual(pile.now(), [ends, fired])
            pile.free()

    def test_each_claim_is_judged_by_the_report(self):
        for graph, limit in itertools.product(graphs((0, 1)), LIMITS):
            file = self.graph_file(graph)
            for chips in games(graph):
                report, _ = self.reported(file, chips, limit)
                fired, ends = report["fired"], report["chips"]
                self.assertEqual(verify(graph, chips, fired, ends, limit), (0, 0))
                for v, more in itertools.product(range(graph.vertices), ((1, 0), (0, 1))):
                    others = [it + more[0] * (u >= v) for u, it in enumerate(fired)]
                    rest = [it + more[1] * (u >= v) for u, it in enumerate(ends)]
                    self.assertEqual(verify(graph, chips, others, rest, limit), (DIFFERS, v))

    def dropped(self, rules, drops):
        """Returns the rows of the drops, and the chips and counts that they leave."""
        n = rules.graph.vertices
        chips, fired, rows = [0] * n, [0] * n, []
        for at, many in drops:
            fallen = [it + many * (v == at) for v, it in enumerate(chips)]
            chips, after, _ = rules.end(fallen, fired, LARGEST)
            firings = [new - old for new, old in zip(after, fired)]
            lost = chips[rules.graph.sink] - fallen[rules.graph.sink]
            rows.append((at, many, sum(firings), sum(map(bool, firings)), lost))
            fired = after
        return rows, chips, fired

    def assert_rows(self, graph, drops, rows, chips, fired):
        """The program, one call, and a kept pile return the rows, and leave chips and counts; the limit stops the play of a
        drop that has no row."""
        is_stopped = len(rows) < len(drops)
        files = [self.graph_file(graph), self.rows_file("none.csv", []), self.rows_file("drops.csv", drops)]
        ran = run(PROGRAM, "avalanches", *files, "--report", f"{self.room}/report.json")
        lines = "".join(",".join(map(str, row)) + "\n" for row in rows)
        self.assertEqual((ran.stdout, ran.returncode), (f"vertex,chips,size,extent,lost\n{lines}", 2 * is_stopped))
        with open(f"{self.room}/report.json", encoding="ascii") as file:
            report = json.load(file)
        self.assertEqual((report["chips"], report["fired"]), (chips, fired))
        columns = [row[2:] for row in rows]
        status, place, written = avalanches(graph, [0] * graph.vertices, drops)
        if is_stopped:
            self.assertEqual((status, place), (STOPPED, len(rows)))
        else:
            self.assertEqual((status, written), (0, (chips, columns)))
        pile = Pile(graph)
        self.assertEqual(pile.new([0] * graph.vertices)[0], 0)
        status, place, written = pile.drops(drops)
        self.assertEqual((status, written[: len(rows)]), (STOPPED * is_stopped, columns))
        self.assertEqual(pile.now(), [chips, fired])
        if is_stopped:
            self.assertEqual(place, len(rows))
        pile.free()

    def test_each_avalanche_is_a_row(self):
        for graph in graphs((0, 1)):
            rules = Rules(graph)
            for drops in itertools.product(itertools.product(range(graph.vertices), (1, 3)), repeat=2):
                self.assert_rows(graph, drops, *self.dropped(rules, drops))

    def test_a_drop_that_the_limit_stops(self):
        """Vertex 0 has one edge, to 1, which has one back and one to the sink. N chips on 0 set off 2N - 1 firings there
        and N - 1 at 1, where one chip stays: so no vertex fires more often than 2N - 1 times. One chip more sets off two
        firings of 0 and one of 1, of which the limit allows one and one."""
        graph, many = Graph(3, 2, [(0, 1, 1), (1, 0, 1), (1, 2, 1)]), 2**39
        row = (0, many, 3 * many - 2, 2, many - 1)
        fired = [2 * many - 1, many - 1, 0]
        self.assert_rows(graph, [(0, many)], [row], [0, 1, many - 1], fired)
        self.assert_rows(graph, [(0, many), (0, 1), (1, 1)], [row], [1, 0, many], [2 * many, many, 0])


if __name__ == "__main__":
    unittest.main()
