#!/usr/bin/env python3
"""Writes the recorded runs that bench/replay plays back: NAME.json, NAME.csv and NAME.trace.csv for each.

    bench/traces.py FOLDER [SEED]

Each is a true run of at most `ROWS` rows: vertices take messages and fire one at a time in an order that comes from
the seed, and each writes down what it took and fired. The rows of a file stand by ascending vertices, as chipfire
writes them.
"""
import os
import random
import sys
from collections import deque

from inputs import write_graph, write_rows

ROWS = 1_000_000
BYTES = 2**24


def random_graph(draw):
    """100 vertices, each with four edges to any others, a few of them to the sink: all wait for each other."""
    sink, edges = 99, []
    for tail in range(sink):
        for _ in range(4):
            head = draw.randrange(sink)
            edges.append((tail, sink if head == tail or draw.random() < 0.01 else head, 1))
    return sink + 1, sink, edges, {v: 200 for v in range(sink)}


def ping_pong(_):
    """Two vertices that send chips to each other, eight of nine: each waits for the other all the time."""
    return 3, 2, [(0, 1, 8), (0, 2, 1), (1, 0, 8), (1, 2, 1)], {0: 1_500_000}


def chain(_):
    """A chain numbered from the sink, so that no vertex can begin before the one after it in the file."""
    length = 900
    return length, 0, [(v, v - 1, 1) for v in range(1, length)], {length - 1: 560}


RUNS = [random_graph, ping_pong, chain]


def play(draw, vertices, sink, edges, chips):
    """The rows of each vertex in a run that ends with no vertex legal, or after `ROWS` rows."""
    outs = [[] for _ in range(vertices)]
    degree = [0] * vertices
    for number, (tail, _, mult) in enumerate(edges):
        outs[tail].append(number)
        degree[tail] += mult
    held = [0] * vertices
    inbox = [deque() for _ in range(vertices)]
    rows = [[] for _ in range(vertices)]
    busy, is_busy = [], [False] * vertices

    def wake(vertex):
        if not is_busy[vertex]:
            is_busy[vertex] = True
            busy.append(vertex)

    for vertex, count in chips.items():
        inbox[vertex].append((len(edges) + vertex, count))
        wake(vertex)
    written = 0
    while busy and written < ROWS:
        place = draw.randrange(len(busy))
        busy[place], busy[-1] = busy[-1], busy[place]
        vertex = busy[-1]
        if inbox[vertex]:
            edge, count = inbox[vertex].popleft()
            held[vertex] += count
            rows[vertex].append(f"{vertex},take,{edge},{count}\n")
            written += 1
        if vertex != sink and held[vertex] >= degree[vertex] and written < ROWS:
            held[vertex] -= degree[vertex]
            rows[vertex].append(f"{vertex},fire,0,1\n")
            written += 1
            for edge in outs[vertex]:
                inbox[edges[edge][1]].append((edge, edges[edge][2]))
                wake(edges[edge][1])
        if not inbox[vertex] and (vertex == sink or held[vertex] < degree[vertex]):
            is_busy[vertex] = False
            busy.remove(vertex)
    return rows


def write(folder, name, draw, vertices, sink, edges, chips):
    write_graph(f"{folder}/{name}.json", vertices, sink, edges)
    write_rows(f"{folder}/{name}.csv", "vertex,chips", chips.items())
    rows = play(draw, vertices, sink, edges, chips)
    text = "vertex,kind,edge,count\n" + "".join(row for of_one in rows for row in of_one)
    assert len(text) <= BYTES and max(map(len, rows)) <= 2**20, name
    with open(f"{folder}/{name}.trace.csv", "w", encoding="ascii") as file:
        file.write(text)
    return sum(map(len, rows))


def main(folder, seed="1"):
    os.makedirs(folder, exist_ok=True)
    for run in RUNS:
        name = run.__name__.replace("_", "-")
        draw = random.Random(f"{name} {seed}")
        print(name, write(folder, name, draw, *run(draw)))


if __name__ == "__main__":
    main(*sys.argv[1:])
