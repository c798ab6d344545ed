"""All small graphs: the connected simple ones up to isomorphism, and the directed multigraphs that reach the sink."""
import functools
import itertools

import chipfire
from test_sandpiles import STORED, name_of


def is_connected(vertices, edges):
    """Whether walks lead from vertex 0 to each other one."""
    reached = {0}
    for _ in range(vertices):
        reached |= {v for edge in edges for v in edge if reached & {*edge}}
    return len(reached) == vertices


def renamed(vertices, edges):
    """The edges under each numbering of the vertices."""
    for order in itertools.permutations(range(vertices)):
        yield tuple(sorted(tuple(sorted((order[u], order[v]))) for u, v in edges))


@functools.lru_cache(maxsize=None)
def simple_graphs(most=5):
    """The edges (lower, higher) of each connected simple graph of at most `most` vertices, up to isomorphism."""
    found = []
    for vertices in range(1, most + 1):
        pairs = list(itertools.combinations(range(vertices), 2))
        drawn = itertools.chain.from_iterable(itertools.combinations(pairs, size) for size in range(len(pairs) + 1))
        found += [(vertices, it) for it in sorted({
            min(renamed(vertices, edges)) for edges in drawn if is_connected(vertices, edges)
        })]
    return found


def undirected(vertices, edges, sink=0):
    """The graph with an edge each way for each pair."""
    rows = [row for u, v in edges for row in ((u, v), (v, u)) if row[0] != sink]
    return chipfire.Graph(vertices, sink, rows, from_sink=None)


def graphs_of_sage():
    """The undirected graphs of which sage_cases.json has divisors: what Sage says, and the graph."""
    for stored in STORED["divisors"]:
        numbers = {name_of(name): vertex for vertex, name in enumerate(stored["names"])}
        at = numbers[name_of(stored["sink"])]
        rows = [(numbers[name_of(tail)], numbers[name_of(head)], mult) for tail, head, mult in stored["edges"]]
        yield stored, chipfire.Graph(len(numbers), at, [row for row in rows if row[0] != at], from_sink=None)


def directed_graphs(most=3, mult=2):
    """Each directed multigraph of at most `most` vertices without loops, each vertex of which reaches the sink."""
    for vertices in range(1, most + 1):
        for sink in range(vertices):
            pairs = [it for it in itertools.permutations(range(vertices), 2) if it[0] != sink]
            for mults in itertools.product(range(mult + 1), repeat=len(pairs)):
                rows = [(*pair, many) for pair, many in zip(pairs, mults) if many]
                graph = chipfire.Graph(vertices, sink, rows)
                if not graph.wrong:
                    yield graph
