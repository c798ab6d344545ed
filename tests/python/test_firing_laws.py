"""The bound on firings by the distance, on all graphs of up to four vertices with edges of one chip, by definitions alone.

If no in-degree but the sink's is above the degree, no vertex fires more often than there are chips, times its distance
from the sink (FewFirings of crates/chip_sequence). Nothing of the package is used here.
"""
import itertools
import unittest

from test_group_laws import GRAPHS

#: All configurations with at most this number of chips on each vertex are tried.
MOST_CHIPS = 3


def distances(graph):
    """Returns how far each vertex but the sink, which is the last one, is from the sink."""
    sink, found = len(graph.into), {}
    near = {sink}
    for distance in itertools.count(1):
        near |= {v for v in graph.inner if any(graph.into[v][u] for u in near)}
        found |= {v: distance for v in near if v != sink and v not in found}
        if len(found) == len(graph.into):
            return found


def has_few_in(graph):
    """Returns whether no in-degree is above the degree."""
    return all(sum(graph.into[u][v] for u in graph.inner) <= graph.degrees[v] for v in graph.inner)


def all_counts(graph, chips):
    """Returns the counts of all firing sequences: how often each vertex fired."""
    found, waiting = set(), [(0,) * len(chips)]
    while waiting:
        fired = waiting.pop()
        if fired not in found:
            found.add(fired)
            left = map(int.__sub__, chips, graph.balance(fired))
            legal = [v for v, here in enumerate(left) if here >= graph.degrees[v]]
            waiting += [tuple(count + (u == v) for u, count in enumerate(fired)) for v in legal]
    return found


def excess(graph):
    """Returns by how much a vertex fires at most more often than all chips, times its distance."""
    far = distances(graph)
    return max(
        fired[v] - sum(chips) * far[v]
        for chips in graph.below([MOST_CHIPS + 1] * len(graph.into))
        for fired in all_counts(graph, chips)
        for v in graph.inner
    )


class Firings(unittest.TestCase):
    def test_no_vertex_fires_more_often_than_chips_times_distance(self):
        for graph in GRAPHS:
            if has_few_in(graph):
                self.assertLessEqual(excess(graph), 0, graph.into)

    def test_how_near_the_bound_is(self):
        # (beside the sink it is attained. On a path of three with an edge back, all chips on the far end go to and fro
        # until one is left in the middle: each other one went to the sink, and the end sent all of them and all that
        # came back)
        one_way, both_ways = [[0, 1, 0], [0, 0, 1]], [[0, 1, 0], [1, 0, 1]]
        for chips in range(1, 6):
            for into, vertex, most in ((one_way, 1, chips), (both_ways, 0, 2 * chips - 1)):
                (graph,) = (it for it in GRAPHS if it.into == into)
                self.assertEqual(
                    max(fired[vertex] for fired in all_counts(graph, (chips, 0))), most
                )

    def test_with_more_in_than_out_it_may(self):
        self.assertTrue(any(excess(graph) > 0 for graph in GRAPHS if not has_few_in(graph)))


if __name__ == "__main__":
    unittest.main()
