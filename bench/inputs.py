#!/usr/bin/env python3
"""Writes the games that bench/run plays: NAME.json and NAME.csv for each.

    bench/inputs.py FOLDER [SEED]

What is random comes from the seed alone, so two runs write the same files. Every graph is right: each vertex reaches
the sink, and no limit is passed.
"""
import json
import os
import random
import sys

VERTICES = 4096
EDGES = 65536
MULT = 2**20


def grid(side, chips):
    """A square grid; a vertex on the border sends a chip to the sink on each side where it has no neighbour."""
    sink, edges = side * side, []
    for line in range(side):
        for column in range(side):
            beside = [
                (line - 1, column),
                (line, column - 1),
                (line, column + 1),
                (line + 1, column),
            ]
            inside = [a * side + b for a, b in beside if 0 <= a < side and 0 <= b < side]
            edges += [(line * side + column, head, 1) for head in inside]
            if len(inside) < 4:
                edges.append((line * side + column, sink, 4 - len(inside)))
    return sink + 1, sink, edges, chips


SIDE = 63


def grid_peak(_):
    return grid(SIDE, {SIDE * SIDE // 2: 2**20})


def grid_great(_):
    return grid(SIDE, {SIDE * SIDE // 2: 2**40})


def grid_six(_):
    return grid(SIDE, {v: 6 for v in range(SIDE * SIDE)})


def grid_critical(_):
    """One chip too many in the middle of a grid that is full: it goes over every vertex, and all is over soon."""
    return grid(SIDE, {v: 4 if v == SIDE * SIDE // 2 else 3 for v in range(SIDE * SIDE)})


def torus(_):
    """A grid whose borders are joined, with chips far from the one vertex that is the sink."""
    side = 64
    edges = []
    for v in range(1, side * side):
        line, column = divmod(v, side)
        beside = [(line - 1, column), (line, column - 1), (line, column + 1), (line + 1, column)]
        edges += [(v, a % side * side + b % side, 1) for a, b in beside]
    return side * side, 0, edges, {side * side // 2 + side // 2: 2**20}


def grid_corner(_):
    """A square grid that dissipates chips at one corner alone, which is the sink."""
    side = 64
    _, outside, edges, chips = grid(side, {side * side // 2 + side // 2: 2**14})
    return side * side, 0, [it for it in edges if it[0] != 0 and it[1] != outside], chips


def path_of(length, chips):
    """A path whose edges go both ways, and whose ends send chips to the sink."""
    sink = length
    edges = [(v, u, 1) for v in range(length) for u in (v - 1, v + 1) if 0 <= u < length]
    edges += [(0, sink, 1), (length - 1, sink, 1)]
    return length + 1, sink, edges, {length // 2: chips}


def path(_):
    return path_of(255, 2**16)


def path_511(_):
    return path_of(511, 2**18)


def path_4095(_):
    """Too long to be played by firing alone: that would take minutes."""
    return path_of(4095, 2**20)


STRIP = 1000


def strip(_):
    """A grid of three rows that dissipates chips at its ends: far too long for the height at which a square grid
    ends."""
    sink = 3 * STRIP
    edges = [(v, v + step, 1) for v in range(sink) for step in (-3, 3) if 0 <= v + step < sink]
    edges += [(v, v + step, 1) for v in range(sink) for step in (-1, 1) if 0 <= v % 3 + step < 3]
    edges += [(v, sink, 1) for v in range(sink) if v < 3 or v >= sink - 3]
    return sink + 1, sink, edges, {sink // 2: 2 * sink}


def caterpillar(_):
    """A path of which each vertex has a leaf, and whose ends send chips to the sink."""
    sink = 2 * STRIP
    _, end, path, chips = path_of(STRIP, sink)
    leaves = [(v, STRIP + v, 1) for v in range(STRIP)] + [(STRIP + v, v, 1) for v in range(STRIP)]
    return (
        sink + 1,
        sink,
        [(v, sink if head == end else head, 1) for v, head, _ in path] + leaves,
        chips,
    )


def star(_):
    """A middle that sends a chip to each of 4,094 leaves, which send it back, and one to the sink."""
    leaves, sink = range(1, VERTICES - 1), VERTICES - 1
    edges = [(0, leaf, 1) for leaf in leaves] + [(leaf, 0, 1) for leaf in leaves] + [(0, sink, 1)]
    return VERTICES, sink, edges, {0: 2**24}


def uphill(_):
    """A chain on which each vertex but the last sends two chips back for one that it sends on."""
    length = sink = 20
    edges = [(v, v + 1, 1) for v in range(length)] + [(v, v - 1, 2) for v in range(1, length)]
    return length + 1, sink, edges, {0: 64}


def random_graph(draw, vertices=VERTICES):
    """Three or four edges from each vertex but the sink; one of 192 goes to the sink, the others anywhere."""
    sink, count = vertices - 1, 3 * vertices
    while True:
        tails = [v for v in range(sink) for _ in range(3)]
        tails += draw.sample(range(sink), count - len(tails))
        to_sink = set(draw.sample(range(count), count // 192))
        edges = []
        for i, tail in enumerate(tails):
            head = sink if i in to_sink else draw.randrange(sink - 1)
            edges.append((tail, head + (head >= tail and head != sink), 1))
        draw.shuffle(edges)
        if reaches_the_sink(vertices, sink, edges):
            break
    chips = [0] * vertices
    for _ in range(vertices * vertices):
        chips[int(draw.random() * sink)] += 1
    return vertices, sink, edges, {v: chips[v] for v in range(sink)}


def refused_guess(_):
    """Two vertices that pass 2^20 chips to each other and dissipate one of them each time: no test of a guess is
    passed, since one vertex gets more than it sends by an edge from a third one, which never fires.
    """
    edges = [(0, 1, MULT), (1, 0, MULT - 1), (1, 3, 1), (2, 0, 2), (2, 3, 1)]
    return 4, 3, edges, {0: 2 * MULT - 2}


def grid_four(_):
    """The same grid, 4 chips everywhere: the density jumps in its middle, so the initial guess is too high."""
    return grid(SIDE, {v: 4 for v in range(SIDE * SIDE)})


def chain(_):
    """A chain of one-way edges, numbered from the sink, with all chips at its head."""
    return VERTICES, 0, [(v, v - 1, 1) for v in range(1, VERTICES)], {VERTICES - 1: 2**40}


def largest(draw):
    """As many edges as there may be, with too few chips for much to fire: what counts is the reading."""
    edges = [(v, draw.randrange(v), draw.randint(1, MULT)) for v in range(1, VERTICES)]
    while len(edges) < EDGES:
        tail, head = draw.randrange(1, VERTICES), draw.randrange(VERTICES)
        if tail != head:
            edges.append((tail, head, draw.randint(1, MULT)))
    draw.shuffle(edges)
    return VERTICES, 0, edges, {v: 1 for v in range(VERTICES)}


# Each name has a hyphen for each underscore of its function.
GAMES = [
    grid_peak,
    grid_great,
    grid_six,
    grid_four,
    grid_critical,
    grid_corner,
    torus,
    path,
    path_511,
    path_4095,
    strip,
    caterpillar,
    star,
    random_graph,
    chain,
    uphill,
    refused_guess,
    largest,
]


def reaches_the_sink(vertices, sink, edges):
    into = [[] for _ in range(vertices)]
    for tail, head, _ in edges:
        into[head].append(tail)
    reached, waiting = {sink}, [sink]
    while waiting:
        for tail in into[waiting.pop()]:
            if tail not in reached:
                reached.add(tail)
                waiting.append(tail)
    return len(reached) == vertices


def write_graph(path, vertices, sink, edges):
    graph = {"edges": edges, "sink": sink, "version": 1, "vertices": vertices}
    with open(path, "w", encoding="ascii") as file:
        json.dump(graph, file, separators=(",", ":"))
        file.write("\n")


def write_rows(path, head, rows):
    with open(path, "w", encoding="ascii") as file:
        file.write(f"{head}\n" + "".join(",".join(map(str, row)) + "\n" for row in rows))


def write(folder, name, vertices, sink, edges, chips):
    assert vertices <= 2**21 and len(edges) <= 2**23 and sum(chips.values()) <= 2**40, name
    assert all(tail not in (head, sink) and 1 <= mult <= MULT for tail, head, mult in edges), name
    assert reaches_the_sink(vertices, sink, edges), name
    write_graph(f"{folder}/{name}.json", vertices, sink, edges)
    write_rows(f"{folder}/{name}.csv", "vertex,chips", chips.items())


def main(folder, seed="1"):
    os.makedirs(folder, exist_ok=True)
    for game in GAMES:
        name = game.__name__.replace("_", "-")
        write(folder, name, *game(random.Random(f"{name} {seed}")))
        print(name)


if __name__ == "__main__":
    main(*sys.argv[1:])
