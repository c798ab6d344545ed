"""Loops as SageMath has them, left out and refused: all small graphs against brute force. And rational weights."""
import collections
import decimal
import fractions
import functools
import itertools
import types
import unittest

import chipfire
import model
from small_graphs import directed_graphs
from test_polynomials import levels, odometers
from test_sandpiles import has

#: Two edges to the sink, and one loop.
ONE = {"source": "aa", "target": ["a", "out"], "weight": [1, 2]}


def table(edges):
    """A table of edges."""
    return dict(zip(("source", "target", "weight"), zip(*edges)))


def loop_free():
    """All directed multigraphs of up to 3 vertices, up to numbers: the sink is in the middle."""
    return [graph for graph in directed_graphs() if graph.sink == graph.vertices // 2]


def looped():
    """The same with one loop or two, up to exchanging vertices 0 and 2: their rows, and the graph of the package."""
    for graph in loop_free():
        for loops in itertools.product(range(3), repeat=graph.vertices):
            edges = [*graph.edges, *((at, at, count) for at, count in enumerate(loops) if count)]
            # (it begins with the number 0, so that it is the lesser one if there is no vertex 2)
            turned = [(2 * graph.sink - tail, 2 * graph.sink - head, count) for tail, head, count in edges]
            if sum(loops) in (1, 2) and sorted(edges) <= sorted(turned):
                plain = types.SimpleNamespace(vertices=graph.vertices, sink=graph.sink, edges=edges, loops=loops)
                yield plain, chipfire.from_edges(table(edges), graph.sink, directed=True, loops="sage")


def played():
    """All of them; those of up to 2 vertices if each play starts a program, which takes long."""
    return [it for it in looped() if it[0].vertices < 3 or chipfire.find_library()]


def around(plain, below, above):
    """All chips from `below` below 0 to `above` above what each vertex needs to fire; none on the sink."""
    return itertools.product(*(
        (0,) if vertex == plain.sink else range(-below, least + above)
        for vertex, least in enumerate(model.needs(plain))
    ))


def twice(plain):
    """All chips up to the sum with which each vertex can fire twice: its loops, and twice what it sends. None lies on the
    sink."""
    rows = model.laplacian(plain)
    most = sum(2 * rows[at][at] + count for at, count in enumerate(plain.loops) if at != plain.sink)
    places = [(0,) if at == plain.sink else range(most + 1) for at in range(plain.vertices)]
    return [chips for chips in itertools.product(*places) if sum(chips) <= most]


def player(plain):
    """A function that plays chips to the end, each once: what is left, and how often each vertex fired."""
    return functools.lru_cache(maxsize=None)(lambda chips: tuple(map(tuple, model.stabilized(plain, chips))))


def summed(plain, play, first, second):
    """The stable sum."""
    left, _ = play(tuple(map(int.__add__, first, second)))
    return (*left[: plain.sink], 0, *left[plain.sink + 1 :])


def poor(plain, chips):
    """The first vertex that has fewer chips than loops, if there is one."""
    return next((at for at in range(plain.vertices) if at != plain.sink and chips[at] < plain.loops[at]), None)


class Words(unittest.TestCase):
    def test_there_are_all_graphs(self):
        # (one or two edges between two vertices have 5 choices of loops each; 0 to 2 edges on the 4 ways between three
        # are 81 choices, less 21 by which a vertex does not reach the sink, with 9 of loops: 540, of which 18 are the
        # same the other way round, and the others are twice 261)
        self.assertEqual(collections.Counter(plain.vertices for plain, _ in looped()), {1: 2, 2: 10, 3: 279})

    def test_stable_recurrent_and_superstable(self):
        for plain, graph in played():
            found, least = model.recurrents(plain), model.needs(plain)
            self.assertEqual({chips.numbers for chips in chipfire.recurrents(graph)}, found, plain)
            superstables = model.superstables(plain)
            self.assertEqual({tuple(it.values()) for it in chipfire.superstables(graph)}, superstables, plain)
            every = [*around(plain, 1, 2)]
            for chips, is_it in zip(every, chipfire.are_recurrent(graph, every)):
                self.assertEqual(is_it, chips in found, (plain, chips))
                is_stable = all(count < least[at] for at, count in enumerate(chips) if at != plain.sink)
                self.assertEqual(chipfire.is_stable(graph, chips), is_stable, (plain, chips))
            for chips in every:
                of_inner = tuple(count for at, count in enumerate(chips) if at != plain.sink)
                self.assertEqual(chipfire.is_superstable(graph, chips), of_inner in superstables, (plain, chips))

    def test_the_identity_and_orders(self):
        for plain, graph in played():
            found, play, of = model.recurrents(plain), player(plain), model.classes(plain)
            zero, = (chips for chips in found if summed(plain, play, chips, chips) == chips)
            self.assertEqual(chipfire.identity(graph).numbers, zero, plain)
            self.assertEqual(chipfire.order(graph), len(found), plain)
            for chips in found:
                times, all_in_all = 1, chips
                while all_in_all != zero:
                    times, all_in_all = times + 1, summed(plain, play, all_in_all, chips)
                self.assertEqual(chipfire.Configuration(graph, chips).order(), times, (plain, chips))
            group = chipfire.Group(graph)
            for chips in around(plain, 2, 1):
                found = chipfire.Configuration(graph, chips).order(), group.order(chips)
                self.assertEqual(found, (model.order_of(of(chips)),) * 2, (plain, chips))

    def test_sums_of_all_stable_chips(self):
        for plain, graph in played():
            play = player(plain)
            for first, second in itertools.product(around(plain, 0, 0), repeat=2):
                if (at := poor(plain, [*map(int.__add__, first, second)])) is None:
                    both = chipfire.add(graph, first, second).numbers
                    self.assertEqual(both, summed(plain, play, first, second), (plain, first, second))
                else:
                    with self.assertRaisesRegex(ValueError, f"^vertex {at} has .*: nothing is played on fewer chips"):
                        chipfire.add(graph, first, second)

    def test_two_edges_and_a_loop_by_hand(self):
        graph = chipfire.from_edges(ONE, "out", directed=True, loops="sage")
        # (it fires with three chips; 1 and 2 are stable and recurrent; 1 + 1 is 2, 1 + 2 becomes 1, 2 + 2 becomes 2)
        self.assertEqual((graph.max_stable(), chipfire.identity(graph)), ({"a": 2}, {"a": 2}))
        self.assertEqual(chipfire.add(graph, {"a": 1}, {"a": 2}), {"a": 1})
        self.assertEqual(chipfire.recurrent_representative(graph, {"a": 0}), {"a": 2})
        self.assertEqual(chipfire.superstable_representative(graph, {"a": 2}), {"a": 0})
        self.assertEqual([chipfire.Configuration(graph, {"a": count}).order() for count in (1, 2)], [2, 1])
        self.assertEqual(chipfire.laplacian(graph), [[2, -2], [0, 0]])

    def test_representatives(self):
        for plain, graph in played():
            found, of = model.recurrents(plain), model.classes(plain)
            superstables = model.superstables(plain)
            for chips in around(plain, 2, 1):
                its = chipfire.recurrent_representative(graph, chips)
                self.assertEqual((its.numbers in found, of(its.numbers)), (True, of(chips)), (plain, chips))
                its = chipfire.superstable_representative(graph, chips)
                self.assertIn(tuple(its.values()), superstables, (plain, chips))
                self.assertEqual(of(its.numbers), of(chips), (plain, chips))

    def test_the_group_and_polynomials(self):
        for plain, graph in played():
            found, group = model.recurrents(plain), chipfire.Group(graph)
            self.assertEqual(len({group.coordinates(chips) for chips in found}), len(found))
            for chips in found:
                self.assertEqual(group.element(group.coordinates(chips)).numbers, chips, plain)
            self.assertEqual(chipfire.avalanche_polynomial(graph, multivariable=True), odometers(plain), plain)
            self.assertEqual(chipfire.level_polynomial(graph), levels(plain), plain)
            self.assertEqual(chipfire.burning_script(graph), chipfire.burning_script(graph.loop_free))


class Plays(unittest.TestCase):
    def test_plays(self):
        for plain, graph in played():
            play, starts = player(plain), [chips for chips in twice(plain) if poor(plain, chips) is None]
            wanted = [play(chips) for chips in starts]
            often = max(min(fired[: plain.sink] + fired[plain.sink + 1 :], default=2) for _, fired in wanted)
            self.assertGreaterEqual(often, 2, plain)
            together = chipfire.stabilize_many(graph, starts)
            self.assertEqual([*map(tuple, together)], [left for left, _ in wanted], plain)
            for chips, (left, fired) in zip(starts, wanted):
                report = chipfire.plain(graph, chips)
                self.assertEqual((report.chips, report.fired, report.graph), (left, fired, graph), (plain, chips))
                self.assertTrue(chipfire.verify(graph, chips, report) and chipfire.verify(graph, chips, fired))
                once_more = [count + (at != plain.sink) for at, count in enumerate(fired)]
                self.assertEqual(chipfire.verify(graph, chips, once_more), plain.vertices == 1, (plain, chips))

    def test_fewer_chips_than_loops(self):
        questions = chipfire.plain, chipfire.stabilize, functools.partial(chipfire.drops, vertices=[])
        for plain, graph in played():
            for chips in twice(plain):
                if (at := poor(plain, chips)) is not None:
                    says = f"^vertex {at} has {chips[at]} chips? and {plain.loops[at]} loops?: nothing is played"
                    for question in questions:
                        with self.assertRaisesRegex(ValueError, says):
                            question(graph, chips)

    def test_drops_and_avalanches(self):
        for plain, graph in played():
            play, inner = player(plain), [vertex for vertex in range(plain.vertices) if vertex != plain.sink]
            for chips in twice(plain):
                if poor(plain, chips) is not None:
                    continue
                found_rows, (left, fired), wanted = chipfire.drops(graph, chips, inner), play(chips), []
                for vertex in inner:
                    before = left[plain.sink]
                    left, fired = play((*left[:vertex], left[vertex] + 1, *left[vertex + 1 :]))
                    wanted.append((sum(fired), sum(map(bool, fired)), left[plain.sink] - before))
                self.assertEqual([*zip(found_rows.size, found_rows.extent, found_rows.lost)], wanted, (plain, chips))
                self.assertEqual((found_rows.report.chips, found_rows.report.graph), (left, graph), (plain, chips))
                if chipfire.is_stable(graph, chips):
                    found = chipfire.avalanches(graph, chips, inner)
                    self.assertEqual([(it.size, it.extent, it.lost) for it in found], wanted, (plain, chips))

    def test_limits_avalanches_and_what_is_far_from_the_loops(self):
        graph = chipfire.from_edges(ONE, "out", directed=True, loops="sage")
        # (nine chips fire four times, and once or twice if limits say so)
        self.assertEqual([chipfire.plain(graph, 9, limit=it).chips for it in (1, 2)], [(7, 2), (5, 4)])
        self.assertEqual(chipfire.plain(graph, 9).chips, (1, 8))
        result = chipfire.avalanche(graph, 2, "a")
        self.assertEqual((result.size, result.lost, result.configuration), (1, 2, {"a": 1}))
        for question in (chipfire.stabilize, chipfire.plain):
            with self.assertRaisesRegex(ValueError, "vertex 'a' has 0 chips and 1 loop"):
                question(graph, 0)
        self.assertEqual((chipfire.is_stable(graph, 0), chipfire.is_recurrent(graph, 0)), (True, False))

    @unittest.skipUnless(chipfire.find_library(), "there is no library")
    def test_chains_and_random_ones(self):
        sides = [(0, 1), (1, 2), (0, 2)]
        graph = chipfire.from_edges(table([(*it, 1) for it in sides] + [(1, 1, 1), (2, 2, 3)]), 0, loops="sage")
        free = chipfire.Graph.undirected(sides, 0)
        self.assertEqual(graph.loops, [0, 2, 6])
        drawn, played_on = chipfire.random_recurrent(graph, 1, 200), chipfire.chains(graph, 4, 30, "seed")
        self.assertEqual({chips.numbers for chips in drawn}, {(0, 3, 7), (0, 2, 7), (0, 3, 6)})
        wanted = chipfire.chains(free, 4, 30, "seed")
        for name in ("size", "extent", "lost"):
            self.assertEqual([*map(list, getattr(played_on, name))], [*map(list, getattr(wanted, name))])
        after = [[count + more for count, more in zip(row, (0, 2, 6))] for row in wanted.chips]
        self.assertEqual([*map(list, played_on.chips)], after)

    def test_what_takes_no_loops(self):
        graph = chipfire.from_edges(ONE, "out", loops="sage")
        for question in (
            graph.text, *(functools.partial(it, graph) for it in (
                chipfire.check, chipfire.genus, chipfire.canonical_divisor, chipfire.tutte_polynomial,
                chipfire.plain(graph, 5).fits,
            )),
            *(functools.partial(it, graph, 5) for it in (
                chipfire.Divisor, chipfire.machine.Setting, chipfire.run,
            )),
        ):
            with self.assertRaisesRegex(ValueError, "^vertex 'a' has 2 loops: this takes a graph without loops"):
                question()


class FromOtherTools(unittest.TestCase):
    def test_loops_are_left_out_or_refused(self):
        for plain, graph in looped():
            edges = table(plain.edges)
            kept = [edge for edge in plain.edges if edge[0] != edge[1]]
            found = chipfire.from_edges(edges, plain.sink, directed=True, loops="drop")
            self.assertTrue(found.is_like(chipfire.Graph(plain.vertices, plain.sink, kept)))
            self.assertEqual(found, graph.loop_free)
            is_refused = any(count for vertex, count in enumerate(plain.loops) if vertex != plain.sink)
            refusal = chipfire.from_edges(edges, plain.sink, directed=True).wrong
            self.assertEqual(refusal.endswith("is a loop"), is_refused, plain)
            self.assertEqual((graph == found, graph.is_like(found)), (not is_refused, not is_refused))

    def test_undirected_loops_are_two_as_in_sage(self):
        # (SageMath 9.5 makes {0: {1: 1}, 1: {0: 1, 1: 2, 2: 1}, 2: {1: 1}} of these edges, and each of 3 and 2 below)
        edges = table([(0, 1, 1), (1, 1, 1), (1, 2, 1)])
        graph = chipfire.from_edges(edges, 0, loops="sage")
        self.assertEqual((graph.max_stable(), chipfire.identity(graph)), ({1: 3, 2: 0}, {1: 3, 2: 0}))
        with self.assertRaisesRegex(ValueError, "'drop'.* or .*'sage'.*, and not 'keep'"):
            chipfire.from_edges(edges, 0, loops="keep")
        with self.assertRaisesRegex(ValueError, "there are loops of 2 vertices, and the graph has 3"):
            chipfire.Graph(3, 0, [(1, 0), (2, 0)], loops=[0, 1])

    @unittest.skipUnless(has("networkx"), "NetworkX is not here")
    def test_networkx(self):
        import networkx

        for kind, count in [(networkx.DiGraph, 3), (networkx.MultiDiGraph, 4), (networkx.Graph, 6)]:
            found = kind()
            found.add_nodes_from("sab")
            found.add_weighted_edges_from([("s", "s", 2), ("a", "s", 1), ("b", "a", 1), ("b", "b", 3)])
            if found.is_multigraph():
                found.add_edge("b", "b")
            graph = chipfire.from_networkx(found, "s", loops="sage")
            self.assertEqual((graph.loops, graph.names), ([0, 0, count], ("s", "a", "b")))
            with self.assertRaisesRegex(ValueError, "vertex 'b' has . loops: this takes a graph without loops"):
                chipfire.to_networkx(graph)
            self.assertFalse(chipfire.from_networkx(found, "s", loops="drop").loops)

    def test_rational_weights(self):
        ends = {"source": "bba", "target": "aoo"}
        for scale, weights, wanted in [
            (4, [0.25, 0.5, 1], (1, 2, 4)), (100, [0.29, 0.57, 1.15], (29, 57, 115)),
            (3, [1 / 3, 2 / 3, 5 / 3], (1, 2, 5)),
            (6, [fractions.Fraction(1, 2), fractions.Fraction(1, 3), 2], (3, 2, 12)),
            (20, [decimal.Decimal("0.15"), decimal.Decimal("2"), decimal.Decimal("1e-1") / 2], (3, 40, 1)),
        ]:
            found = chipfire.from_edges({**ends, "weight": weights}, "o", directed=True, weight_scale=scale)
            self.assertEqual({edge[:2]: edge[2] for edge in found.edges}, dict(zip([(1, 0), (1, 2), (0, 2)], wanted)))
        half = fractions.Fraction(1, 2)
        for scale, weight, refusal, says in [
            (1, 0.5, TypeError, "the multiplicity of the edge from 'b' to 'a' is no whole number: 0.5"),
            (3, 0.5, TypeError, "3 times the weight of the edge from 'b' to 'a' is no whole number: 1.5"),
            (3, half, TypeError, "3 times the weight of the edge from 'b' to 'a' is no whole number: Frac"),
            (10, 0.1 + 0.2, TypeError, "10 times the weight of the edge from 'b' to 'a' is no whole number: 3.0000"),
            (2, -half, ValueError, "2 times the weight of the edge from 'b' to 'a' is below 1: -1"),
            (2, 0.0, ValueError, "is below 1: 0"), (2, float("nan"), TypeError, "is no whole number: nan"),
            (0, half, ValueError, "the scale of weights is below 1: 0"), (2.5, 2, TypeError, "the scale of weights"),
        ]:
            with self.assertRaisesRegex(refusal, says):
                chipfire.from_edges({**ends, "weight": [weight, 1, 1]}, "o", weight_scale=scale)
        loop = chipfire.from_edges({**ONE, "weight": [0.5, 1]}, "out", directed=True, loops="sage", weight_scale=2)
        self.assertEqual(loop, chipfire.from_edges(ONE, "out", directed=True, loops="sage"))


if __name__ == "__main__":
    unittest.main()
