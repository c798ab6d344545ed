"""Small games that bench/library/plays draws: of each family of graphs with each load of chips in turn.

A game is made of its seed alone. A graph is vertices, sink and rows (tail, head, mult); each vertex reaches the sink.
"""
import itertools
import random

import inputs


def both_ways(pairs):
    """The edges of pairs of vertices, each of which leads both ways."""
    return [edge for u, v in pairs for edge in ((u, v, 1), (v, u, 1))]


def with_sink(vertices, pairs, to_sink):
    """The graph of pairs, with a chip to the sink, which comes last, from each of some vertices."""
    return vertices + 1, vertices, both_ways(pairs) + [(v, vertices, 1) for v in to_sink]


def path(draw):
    length = draw.randint(20, 1200)
    ends = [0, length - 1] if draw.random() < 0.5 else [0]
    return with_sink(length, zip(range(length - 1), range(1, length)), ends)


def tree(draw):
    """A tree by uniform parents, or a binary one, whose root dissipates chips."""
    size = draw.randint(50, 4000)
    is_binary = draw.random() < 0.5
    pairs = [((v - 1) // 2 if is_binary else draw.randrange(v), v) for v in range(1, size)]
    return with_sink(size, pairs, [0])


def ring(draw):
    length = draw.randint(20, 1200)
    return with_sink(length, ((v, (v + 1) % length) for v in range(length)), [0])


def ladder(draw):
    length = draw.randint(10, 600)
    rails = ((2 * v + side, 2 * v + 2 + side) for v in range(length - 1) for side in (0, 1))
    rungs = ((2 * v, 2 * v + 1) for v in range(length))
    return with_sink(2 * length, [*rails, *rungs], [0, 1])


def torus(draw):
    width, height = draw.randint(4, 90), draw.randint(4, 90)
    pairs = [(v, v - v % width + (v + 1) % width) for v in range(width * height)]
    pairs += [(v, (v + width) % (width * height)) for v in range(width * height)]
    return with_sink(width * height, pairs, [draw.randrange(width * height)])


def clique_with_tail(draw):
    size, length = draw.randint(10, 90), draw.randint(10, 200)
    tail = range(size - 1, size - 1 + length)
    pairs = [*itertools.combinations(range(size), 2), *zip(tail, tail[1:])]
    return with_sink(size - 1 + length, pairs, [size - 2 + length])


def barbell(draw):
    """Two cliques at the ends of a path, one vertex of which dissipates chips."""
    size, length = draw.randint(8, 60), draw.randint(1, 120)
    first, second = range(size), range(size + length, 2 * size + length)
    bar = range(size - 1, size + length + 1)
    pairs = [
        *itertools.combinations(first, 2),
        *itertools.combinations(second, 2),
        *zip(bar, bar[1:]),
    ]
    return with_sink(2 * size + length, pairs, [0 if draw.random() < 0.5 else size + length // 2])


def expander(draw):
    """The union of some cycles through all vertices at random, of which one vertex or some dissipate chips."""
    size = draw.randint(50, 4000)
    pairs = []
    for _ in range(draw.randint(2, 4)):
        order = draw.sample(range(size), size)
        pairs += [(u, v) for u, v in zip(order, order[1:] + order[:1]) if u != v]
    return with_sink(size, pairs, draw.sample(range(size), draw.choice([1, 1 + size // 50])))


def directed(draw):
    """Edges of up to four chips from each vertex: one to a vertex before it, and others anywhere."""
    size = draw.randint(20, 3000)
    edges = [
        (v, draw.randrange(max(v - 40, 0), v) if v else size, draw.randint(1, 4))
        for v in range(size)
    ]
    for _ in range(draw.randint(1, 3) * size):
        tail, head = draw.sample(range(size), 2)
        edges.append((tail, head, draw.randint(1, 4)))
    edges += [(v, size, 1) for v in draw.sample(range(size), 1 + size // 20)]
    return size + 1, size, edges


def ring_one_way(draw):
    length, share = draw.randint(20, 1500), draw.choice([3, 30, 300])
    edges = [
        (0, 1, share - 1),
        (0, length, 1),
        *((v, (v + 1) % length, 1) for v in range(1, length)),
    ]
    return length + 1, length, edges


def grid(draw):
    return inputs.grid(draw.randint(5, 90), {})[:3]


FAMILIES = [
    path,
    tree,
    ring,
    ladder,
    torus,
    clique_with_tail,
    barbell,
    expander,
    directed,
    ring_one_way,
    grid,
]


def degrees_of(vertices, edges):
    degrees = [0] * vertices
    for tail, _, mult in edges:
        degrees[tail] += mult
    return degrees


def heap(draw, degrees, inner):
    """All chips on one vertex."""
    chips = [0] * len(degrees)
    chips[draw.choice(inner)] = draw.randint(len(inner) // 2 + 1, 3 * len(inner) + 1)
    return chips


def few(draw, degrees, inner):
    """Less than a chip on four vertices, and two vertices that can fire."""
    chips = [0] * len(degrees)
    for v in draw.choices(inner, k=len(inner) // 4):
        chips[v] += 1
    for v in draw.choices(inner, k=2):
        chips[v] += degrees[v]
    return chips


def full(draw, degrees, inner):
    """From none to a third more than its degree on each vertex."""
    chips = [0] * len(degrees)
    for v in inner:
        chips[v] = draw.randint(0, degrees[v] + degrees[v] // 3 + 1)
    return chips


def critical(draw, degrees, inner):
    """The maximal stable configuration, less a chip here and there, and a chip more on one vertex."""
    chips = [max(degree - 1, 0) for degree in degrees]
    for v in draw.choices(inner, k=len(inner) // 20):
        chips[v] = max(chips[v] - 1, 0)
    chips[draw.choice(inner)] += 1
    return chips


LOADS = [heap, few, full, critical]


def games(count):
    """Yields `count` games, each with its name: vertices, sink, edges and chips."""
    pairs = itertools.cycle(itertools.product(FAMILIES, LOADS))
    for number, (family, load) in zip(range(count), pairs):
        draw = random.Random(f"{family.__name__} {load.__name__} {number}")
        vertices, sink, edges = family(draw)
        assert inputs.reaches_the_sink(vertices, sink, edges)
        inner = [v for v in range(vertices) if v != sink]
        chips = load(draw, degrees_of(vertices, edges), inner)
        name = f"{number}: {family.__name__.replace('_', ' ')} of {vertices:,}, {load.__name__}"
        yield name, (vertices, sink, edges, chips)
