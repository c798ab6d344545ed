#!/usr/bin/env python3
"""Plays random games with chipfire and by the even and odd rounds of plain.cpp, and compares the reports to the byte.

    bench/compare.py [--games N] [--seed S] [--program FILE]

The games are grids, paths, trees, unions of cycles, random graphs and weighted ones, each with one of the limits 0, 1,
7, 100, 10,000 and none. Most are over before a search of counts would begin. To have it begin at once, build a copy in
which FIRST_VISITS and FEW_VISITS of crates/chip_fire/src/tuning.rt are 0 and AHEAD of crates/chip_guess is 1 << 20, and
name its program. The status is 1 at the first report that differs, whose files stay in target/bench/compare.
"""
import collections
import os
import random
import subprocess

import frame
from inputs import write

ROOM = f"{frame.ROOM}/compare"
LIMITS = [0, 1, 7, 100, 10_000, None]


def both_ways(pairs, draw_mult):
    mults = [(a, b, draw_mult()) for a, b in pairs]
    return [edge for a, b, mult in mults for edge in ((a, b, mult), (b, a, mult))]


def grid(draw, mult):
    width, height = draw.randint(2, 14), draw.randint(2, 14)
    right = [(v, v + 1) for v in range(width * height) if (v + 1) % width]
    down = [(v, v + width) for v in range(width * (height - 1))]
    return width * height, both_ways(right + down, mult)


def path(draw, mult):
    length = draw.randint(2, 120)
    return length, both_ways([(v, v + 1) for v in range(length - 1)], mult)


def tree(draw, mult):
    vertices = draw.randint(2, 120)
    return vertices, both_ways([(v, draw.randrange(v)) for v in range(1, vertices)], mult)


def cycles(draw, mult):
    """Cycles over some of the vertices, each after a first one over all: as much comes in as goes out."""
    vertices, edges = draw.randint(2, 80), []
    for turn in range(draw.randint(1, 4)):
        order = draw.sample(range(vertices), vertices if turn == 0 else draw.randint(2, vertices))
        weight = mult()
        edges += [(v, u, weight) for v, u in zip(order, order[1:] + order[:1])]
    return vertices, edges


def anywhere(draw, mult):
    vertices = draw.randint(2, 80)
    edges = [(v, draw.randrange(v), mult()) for v in range(1, vertices)]
    pairs = [draw.sample(range(vertices), 2) for _ in range(draw.randint(0, 4 * vertices))]
    return vertices, edges + [(v, u, mult()) for v, u in pairs]


KINDS = [grid, path, tree, cycles, anywhere]


def game(draw):
    """A graph whose sink is some vertex, or vertex 0 where not all vertices would reach another one; and chips."""
    kind = draw.choice(KINDS)
    weighted = draw.random() < 0.3
    vertices, edges = kind(draw, lambda: draw.randint(1, 50) if weighted else 1)
    sink = 0 if kind is anywhere else draw.randrange(vertices)
    edges = [it for it in edges if it[0] != sink]
    greatest = 2 ** draw.randint(1, 14) * (8 if weighted else 1)
    few = draw.sample(range(vertices), draw.randint(1, min(3, vertices)))
    holders = range(vertices) if draw.random() < 0.5 else few
    chips = {
        v: draw.randint(0, greatest // (len(holders) if draw.random() < 0.5 else 1))
        for v in holders
    }
    return kind.__name__ + (" with weights" if weighted else ""), (vertices, sink, edges, chips)


def report(words):
    ran = subprocess.run(words, stdout=subprocess.PIPE, check=False)
    return ran.returncode, ran.stdout


def main():
    words = frame.parser(__doc__)
    words.add_argument("--games", type=int, default=2500)
    words.add_argument("--seed", default="1")
    words = frame.read_words(words)
    os.makedirs(ROOM, exist_ok=True)
    player = frame.compiled(["g++", "-O2", "-std=c++17"], "plain.cpp", "compare/plain")
    played = collections.Counter()
    for number in range(words.games):
        draw = random.Random(f"{words.seed} {number}")
        kind, made = game(draw)
        write(ROOM, "game", *made)
        limit = LIMITS[number % len(LIMITS)]
        files = [f"{ROOM}/game.json", f"{ROOM}/game.csv"]
        ours = report(
            [words.program, "plain", *([] if limit is None else ["--limit", str(limit)]), *files]
        )
        if ours != report([player, "rounds", *files, *([] if limit is None else [str(limit)])]):
            frame.stop(
                f"game {number} of seed {words.seed} ({kind}, limit {limit}) is played differently"
            )
        played[kind] += 1
    print(
        f"{words.games} games alike:",
        ", ".join(f"{count} {kind}" for kind, count in sorted(played.items())),
    )


if __name__ == "__main__":
    main()
