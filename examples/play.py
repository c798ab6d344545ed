#!/usr/bin/env python3
"""Plays a chip-firing game the slow and plain way, to say what chipfire must report.

    examples/play.py GRAPH CHIPS [--limit F] [--seed N]             the report of `chipfire plain`
    examples/play.py GRAPH --resume REPORT [--limit F] [--seed N]   the report of `chipfire resume`
    examples/play.py GRAPH                                          the lines of `chipfire check`

It shares nothing with chipfire: it fires one vertex at a time, each time one drawn at random from those that may fire,
until there is none. Whatever the seed, the report is the same. It expects files that are right, and checks nothing.
"""
import argparse
import csv
import json
import random


def read_game(graph_file, chips_file):
    with open(graph_file, encoding="utf-8") as file:
        graph = json.load(file)
    chips = [0] * graph["vertices"]
    if chips_file:
        with open(chips_file, encoding="utf-8", newline="") as file:
            for row in csv.DictReader(file):
                chips[int(row["vertex"])] = int(row["chips"])
    return graph, chips


def degrees(graph):
    found = [0] * graph["vertices"]
    for tail, _, mult in graph["edges"]:
        found[tail] += mult
    return found


def distances(graph):
    """The least number of edges from each vertex to the sink: the loop visits each edge until none shortens a way."""
    found = {graph["sink"]: 0}
    changed = True
    while changed:
        changed = False
        for tail, head, _ in graph["edges"]:
            if head in found and found.get(tail, graph["vertices"]) > found[head] + 1:
                found[tail] = found[head] + 1
                changed = True
    return found


def play(graph, chips, limit, draw):
    """Fires vertices in random order until none may fire. Returns the firing counts, and leaves the chips in `chips`."""
    degree = degrees(graph)
    out = [[] for _ in chips]
    for tail, head, mult in graph["edges"]:
        out[tail].append((head, mult))
    fired = [0] * len(chips)

    def may_fire(v):
        return v != graph["sink"] and chips[v] >= degree[v] and fired[v] < limit

    # A vertex that may fire still may after any other fired, since it only gains chips by that.
    ready = [v for v in range(len(chips)) if may_fire(v)]
    while ready:
        at = draw.randrange(len(ready))
        ready[at], ready[-1] = ready[-1], ready[at]
        v = ready.pop()
        chips[v] -= degree[v]
        fired[v] += 1
        for head, mult in out[v]:
            chips[head] += mult
        for u in {v, *(head for head, _ in out[v])}:
            if may_fire(u) and u not in ready:
                ready.append(u)
    return fired


def report(graph, chips, fired):
    degree = degrees(graph)
    over = [v for v in range(len(chips)) if v != graph["sink"] and chips[v] >= degree[v]]
    said = {"chips": chips, "closed": not over, "fired": fired, "over": over, "sealed": [], "version": 1}
    return json.dumps(said, separators=(",", ":"))


def go_on(graph, earlier, limit, draw):
    """The report of a stage that begins where an earlier one ended, as its report says."""
    before = earlier.get("prior", [0] * len(earlier["fired"]))
    chips = earlier["chips"]
    fired = play(graph, chips, limit, draw)
    prior = [a + b for a, b in zip(before, earlier["fired"])]
    said = {**json.loads(report(graph, chips, fired)), "prior": prior, "version": 2}
    return json.dumps(said, separators=(",", ":"), sort_keys=True)


def check(graph):
    degree, distance = degrees(graph), distances(graph)
    lines = [f"vertices {graph['vertices']}", f"edges {len(graph['edges'])}", f"sink {graph['sink']}"]
    lines += [f"vertex {v} degree {degree[v]} distance {distance[v]}" for v in range(graph["vertices"])]
    return "\n".join(lines)


def main():
    words = argparse.ArgumentParser(description="What chipfire must report, found by playing one firing at a time.")
    words.add_argument("graph")
    words.add_argument("chips", nargs="?")
    words.add_argument("--resume", metavar="REPORT", help="go on from where this report says that a play stopped")
    words.add_argument("--limit", type=int, default=2**40, help="how often a vertex may fire")
    words.add_argument("--seed", type=int, default=0, help="picks another random order")
    words = words.parse_args()
    graph, chips = read_game(words.graph, words.chips)
    draw = random.Random(words.seed)
    if words.resume:
        with open(words.resume, encoding="utf-8") as file:
            print(go_on(graph, json.load(file), words.limit, draw))
    elif words.chips:
        print(report(graph, chips, play(graph, chips, words.limit, draw)))
    else:
        print(check(graph))


if __name__ == "__main__":
    main()
