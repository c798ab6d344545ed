#!/usr/bin/env python3
"""Times `chipfire simulate`: a long schedule on a large graph, and rounds of turns on two grids until the root closes.

    bench/simulate [--turns N] [--program FILE] [--seed S]

What counts is the least time of a whole process, less that of the same command without events or rounds. What is
printed is Markdown, for docs/BENCHMARKS.md; the files are made anew in target/bench. By default FILE is the program
that ./chipfire built. The status is 1 where the program failed, or a driven grid has another report than `chipfire
plain` writes for it.
"""
import random
import subprocess
import time

import frame
from frame import ROOM
from inputs import grid, write_graph, write_rows

VERTICES, EDGES, EVENTS = 1_000, 4_000, 500_000
SIDE, CHIPS = 63, 2**14
DRIVEN, ALL_ROUNDS = 900, 2**40


def write(name, vertices, sink, edges, chips, events):
    write_graph(f"{ROOM}/{name}.json", vertices, sink, edges)
    write_rows(f"{ROOM}/{name}.csv", "vertex,chips", chips.items())
    write_rows(f"{ROOM}/{name}.schedule.csv", "event,at,count", events)


def schedule(draw):
    """Vertices drawn at random do all that they can do, one after another, until there are `EVENTS` events."""
    sink, edges = VERTICES - 1, []
    while len(edges) < EDGES:
        tail = len(edges) % sink
        head = draw.randrange(VERTICES) if len(edges) % 40 else sink
        if head != tail:
            edges.append((tail, head, draw.randint(1, 3)))
    outs = [[e for e, (tail, _, _) in enumerate(edges) if tail == v] for v in range(VERTICES)]
    ins = [
        [e for e, (_, head, _) in enumerate(edges) if head == v] + [EDGES + v]
        for v in range(VERTICES)
    ]
    events = []
    while len(events) < EVENTS:
        v = draw.randrange(VERTICES)
        events += [("take", e, 0) for e in ins[v]]
        events += [("settle", e, 0) for e in outs[v]]
        events.append(("fire", v, 1))
        events += [(kind, e, 0) for e in outs[v] for kind in ("clear", "claim", "put")]
        events += [("ack", e, 0) for e in ins[v]]
    return VERTICES, sink, edges, {v: 100 for v in range(sink)}, events[:EVENTS]


def run(program, words):
    begun = time.perf_counter()
    ran = subprocess.run([program, *words], stdout=subprocess.PIPE, check=False)
    if ran.returncode not in (0, 2, 3):
        frame.stop(f"{' '.join(words)} ended with status {ran.returncode}")
    return time.perf_counter() - begun, ran.stdout.splitlines()


def least(program, words, turns):
    return min(run(program, words)[0] for _ in range(turns))


def drive(program, name, what, turns):
    """Rounds of the grid that is called so, and then all of them until the root closes."""
    files = [f"{ROOM}/{name}.{end}" for end in ("json", "csv", "schedule.csv")]
    made = DRIVEN * (SIDE * SIDE + 1)
    idle = least(program, ["simulate", *files, "--rounds", "0"], turns)
    open_run = least(program, ["simulate", *files, "--rounds", str(DRIVEN)], turns) - idle
    print(
        f"\nThe grid of {SIDE} by {SIDE} with {what}: {DRIVEN:,} rounds are {made:,} turns and take",
        end=" ",
    )
    print(f"{open_run:.2f} s, {open_run / made * 1e9:.0f} ns a turn.", end=" ", flush=True)
    whole, lines = run(program, ["simulate", *files, "--rounds", str(ALL_ROUNDS)])
    if lines[-1:] != run(program, ["plain", *files[:2]])[1]:
        frame.stop("the driven grid and the plain player differ")
    print(f"It closes after {whole:.1f} s.")


def main():
    words = frame.parser(__doc__, turns=3, program=frame.STARTER)
    words.add_argument("--seed", default="1")
    words = frame.read_words(words)
    program = words.program
    write("schedule", *schedule(random.Random(words.seed)))
    write("drive", *grid(SIDE, {SIDE * SIDE // 2: CHIPS}), [])
    write("six", *grid(SIDE, {v: 6 for v in range(SIDE * SIDE)}), [])

    files = [f"{ROOM}/schedule.{end}" for end in ("json", "csv", "schedule.csv")]
    empty = [*files[:2], f"{ROOM}/drive.schedule.csv"]
    _, lines = run(program, ["simulate", *files])
    done = sum(not line.startswith((b"not-now", b"empty", b"full")) for line in lines[:EVENTS])
    print(
        f"A schedule of {EVENTS:,} events on {VERTICES:,} vertices and {EDGES:,} edges, {done:,} of them done.\n"
    )
    print("| Ring | Time | Without events | For each event |\n| ---: | ---: | ---: | ---: |")
    for ring in ("1", "64"):
        whole = least(program, ["simulate", *files, "--ring", ring], words.turns)
        idle = least(program, ["simulate", *empty, "--ring", ring], words.turns)
        each = (whole - idle) / EVENTS
        print(
            f"| {ring} | {whole * 1e3:.0f} ms | {idle * 1e3:.0f} ms | {each * 1e9:.0f} ns |",
            flush=True,
        )

    for name, what in (("drive", f"{CHIPS:,} chips in the middle"), ("six", "6 chips everywhere")):
        drive(program, name, what, words.turns)


if __name__ == "__main__":
    main()
