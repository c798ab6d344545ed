"""Every log of the detector is judged right.

The root sends to A, and A and B to each other. All legal logs up to a length whose root is closed (diffusing.py) are
written as rows: what is sent and got, a tell for each message that an event acknowledges, a hear for
each that it settles, and a passive. First the root begins active, and last it claims. The program judges them right, in
the order of the log and with the rows of the processes mixed by a seed. Logs whose processes have the same rows are
judged once: mixing the one gives the other.

Where the detector has one rule changed, the events that lead it to claim too early are judged early.
"""
import functools
import random
import tempfile

import diffusing
import logs

NUMBERS = {"root": 0, "A": 1, "B": 2}
CHANNELS = {"r": 0, "a": 1, "b": 2}
#: The networks, and the most events of a log. Eleven are enough for a message that follows another one.
NETWORKS = [("both ways", diffusing.BOTH_WAYS, 11), ("a loop", diffusing.LOOP, 11)]
MIXED = 3
#: The rows of the root and of A in each log of up to six events: no message, or one. The root rests before it hears of
#: the acknowledgement, or after that.
SHORTEST = [
    ("active passive over", ""),
    ("active send passive hear over", "receive passive tell"),
    ("active send hear passive over", "receive passive tell"),
]
EARLY = {
    "acknowledges while active": "process 1 is active",
    "acknowledges with a deficit": "message 0 of channel 1 is on its way",
    "acknowledges the engaging message at once": "process 1 is active",
    "closed without the end": "process 0 is active",
}


def rows_of(computation, event, old, new):
    """Returns the rows of an event between two worlds."""
    kind, at = event.split()
    if kind == "rest":
        return [(NUMBERS[at], "passive", 0)]
    tail, head = (NUMBERS[it] for it in computation.edges[at])
    before, after, channel = old.edges[at], new.edges[at], CHANNELS[at]
    return {
        "send": [(tail, "send", channel)],
        "get": [(head, "receive", channel)],
        "ack": [(head, "tell", channel)] * (after.acked - before.acked),
        "settle": [(tail, "hear", channel)] * (after.settled - before.settled),
    }[kind]


def each_of(rows):
    """Returns the rows of each process: what distinguishes logs, but for how their rows are mixed."""
    return tuple(tuple(row for row in rows if row[0] == process) for process in NUMBERS.values())


def closed_logs(edges, most):
    """Returns the rows of each legal log with a closed root, of up to `most` events."""
    computation, found = diffusing.Computation(edges), {}
    begin = computation.start()
    left, met = [(0, [(0, "active", 0)], begin)], set()
    while left:
        events, rows, world = left.pop()
        if world.passive["root"] and computation.deficit(world, "root") == 0:
            found.setdefault(each_of(rows), [*rows, (0, "over", 0)])
        for event, new in computation.events(world) if events < most else ():
            longer = [*rows, *rows_of(computation, event, world, new)]
            key = (events + 1, each_of(longer), diffusing.key_of(new))
            if key not in met:
                met.add(key)
                left.append((events + 1, longer, new))
    return [found[it] for it in sorted(found, key=repr)]


def story_rows(changed, story):
    """Returns the rows of these events of a detector with one rule changed, and a claim after them."""
    computation = diffusing.Computation(diffusing.BOTH_WAYS, changed)
    rows, world = [(0, "active", 0)], computation.start()
    for event in story.split(", ") if story else []:
        new = next(new for it, new in computation.events(world) if it == event)
        rows += rows_of(computation, event, world, new)
        world = new
    return [*rows, (0, "over", 0)]


def claim_of(rows):
    """Returns the place of the root's claim among its rows."""
    return sum(process == 0 for process, _, _ in rows) - 1


def wrong_shortest():
    """What is wrong with the rows of the shortest logs."""
    found = [
        tuple(" ".join(kind for it, kind, _ in rows if it == process) for process in (0, 1))
        for rows in closed_logs(diffusing.BOTH_WAYS, 6)
    ]
    return [] if sorted(found) == sorted(SHORTEST) else [f"{found}"]


def wrong_logs(program, edges, most):
    """What is wrong with the verdicts on all logs of a network."""
    found, faults = closed_logs(edges, most), []
    draw = random.Random(f"judged {most}")
    with tempfile.TemporaryDirectory(prefix="chipfire-judged-") as room:
        for rows in found:
            must = [f"over 0 {claim_of(rows)} right", "end claimed"], 0, ""
            for them in (rows, *(logs.mixed(draw, rows) for _ in range(MIXED))):
                if (came := logs.verdict(program, room, them, False)) != must:
                    faults.append(f"{them}: {came}")
    return faults


def wrong_early(program, changed, left):
    """What is wrong with the verdict on a detector with one rule changed."""
    rows = story_rows(changed, diffusing.CHANGES[changed])
    with tempfile.TemporaryDirectory(prefix="chipfire-judged-") as room:
        lines, status, fault = logs.verdict(program, room, rows, False)
    must = f"over 0 {claim_of(rows)} early: {left}"
    return (
        []
        if (lines[:1], status, fault) == ([must], 2, "")
        else [f"{lines} {status} {fault}, not {must}"]
    )


def tests(program):
    yield "the shortest logs", wrong_shortest
    for name, edges, most in NETWORKS:
        yield name, functools.partial(wrong_logs, program, edges, most)
    for changed, left in EARLY.items():
        yield changed, functools.partial(wrong_early, program, changed, left)
