"""The rows of a log's processes in every order: the program writes the same of each.

The logs are those of missing_rows.py in which process 0 has up to two rows after its first, and process 1 up to two.
Each is judged in every order that keeps the rows of each process in theirs. What must come is known from all cuts
(logs.py): the verdicts, or where the log is stuck. Rows with a fault of their own are left out, since another one may
come first in another order.
"""
import functools
import itertools
import tempfile

import logs
from missing_rows import all_logs

OWN, OTHER = 3, 2


def orders(own, other):
    """Yields the rows of both processes in every order that keeps those of each process in theirs."""
    size = len(own) + len(other)
    for places in itertools.combinations(range(size), len(own)):
        left = iter(own), iter(other)
        rows = [(process, *next(left[process])) for process in (int(it not in places) for it in range(size))]
        yield [(process, kind, channel or 0) for process, kind, channel in rows]


def small_logs():
    """Returns the rows of process 1 in all logs, by those of process 0."""
    found = {}
    for own, other in all_logs():
        if len(own) <= OWN and len(other) <= OTHER:
            found.setdefault(tuple(own), []).append(other)
    return found


def wrong_orders(program, own, others):
    """What is wrong with what the program writes of the logs in which process 0 has these rows."""
    judged, found = 0, []
    with tempfile.TemporaryDirectory(prefix="chipfire-mixed-") as room:
        for other in others:
            each = list(orders(own, other))
            must = logs.expected(each[0], True)
            if must[2] and " 70 " not in must[2]:
                continue
            judged += 1
            came = [(rows, logs.verdict(program, room, rows, True)) for rows in each]
            found += [f"{rows}: {it}, not {must}" for rows, it in came if it != must]
    return found or ([] if judged else ["no log was judged"])


def tests(program):
    for own, others in small_logs().items():
        yield " ".join(kind for kind, _ in own), functools.partial(wrong_orders, program, own, others)
