"""Rows that are missing in a log: no claim is right without them and early with them.

All logs are tried in which process 0 begins active and has up to three rows more, one of them a claim, and process 1
up to three. A row may be missing if it is a receive, a hear or a passive, or a tell whose hear is missing too. Of each
log each set of such rows is taken out, and both logs are judged by all cuts that can be reached (logs.py). If a send,
an active, or a tell whose hear is there is taken out, some early claim is right: so these have to be there.
"""
import functools
import itertools

import logs

OWN = [("send", 0), ("receive", 1), ("tell", 0), ("hear", 1), ("passive", None), ("over", None)]
OTHER = [("send", 1), ("receive", 0), ("tell", 1), ("hear", 0), ("passive", None)]
CLAIM = ("over", None)
#: A kind of rows that has to be there, and a log in which one is taken out.
NEEDED = {
    "send": ([("active", None), ("send", 0), ("passive", None), CLAIM], [], (0, 1)),
    "active": ([("active", None), CLAIM], [], (0, 0)),
    "tell": (
        [("active", None), ("send", 0), ("passive", None), ("hear", 1), CLAIM],
        [("tell", 1), ("receive", 0), ("passive", None), ("tell", 1)],
        (1, 0),
    ),
}


def all_logs():
    """Yields the rows of both processes."""
    for own in itertools.chain.from_iterable(
        itertools.product(OWN, repeat=size) for size in range(1, 4)
    ):
        if own.count(CLAIM) == 1:
            for other in itertools.chain.from_iterable(
                itertools.product(OTHER, repeat=size) for size in range(4)
            ):
                yield [("active", None), *own], [*other]


def log_of(own, other):
    """Returns the log of these rows, or nothing if a row has a fault or there is no interleaving."""
    rows = [(0, *row) for row in own] + [(1, *row) for row in other]
    try:
        logs.row_faults(rows)
    except logs.Fault:
        return None
    log = logs.Log(rows)
    return log if log.whole in log.cuts(log.empty) else None


def is_right(log, row):
    """Returns whether the claim that is this row of process 0 is right: each cut from it on is quiescent."""
    return all(log.left(cut) is None for cut in log.cuts(log.empty) if cut[0] >= row)


def number_of(rows, at):
    """Returns how many rows like this one stand before it."""
    return rows[:at].count(rows[at])


def may_miss(both, missing):
    """Returns whether rows may be missing, each a process and a place: a tell only with its hear."""
    hears = {
        (both[p][at][1], number_of(both[p], at)) for p, at in missing if both[p][at][0] == "hear"
    }
    all_hears = {
        (row[1], number_of(rows, at))
        for rows in both
        for at, row in enumerate(rows)
        if row[0] == "hear"
    }
    tells = {
        (both[p][at][1], number_of(both[p], at)) for p, at in missing if both[p][at][0] == "tell"
    }
    return not tells & (all_hears - hears)


def subsets(both):
    """Yields each set of rows that may be missing."""
    kinds = ("receive", "hear", "passive", "tell")
    places = [
        (p, at) for p, rows in enumerate(both) for at, row in enumerate(rows) if row[0] in kinds
    ]
    for size in range(1, len(places) + 1):
        yield from (it for it in itertools.combinations(places, size) if may_miss(both, it))


def without(both, missing):
    """Returns the rows of both processes but these."""
    return [
        [row for at, row in enumerate(rows) if (p, at) not in missing]
        for p, rows in enumerate(both)
    ]


def acquitted(both):
    """Yields the sets of missing rows without which an early claim is right."""
    for missing in subsets(both):
        left = without(both, missing)
        log = log_of(*left)
        if log and is_right(log, left[0].index(CLAIM)):
            yield missing


def wrong_logs():
    """What is wrong with all logs."""
    early, found = 0, []
    for both in all_logs():
        log = log_of(*both)
        if log and not is_right(log, both[0].index(CLAIM)):
            early += 1
            found += [f"{both} without {missing}" for missing in acquitted(both)]
    return found or ([] if early > 100 else [f"{early} logs with an early claim"])


def wrong_need(own, other, missing):
    """What is wrong with a log in which an early claim is right once a row is taken out."""
    whole, left = log_of(own, other), without((own, other), {missing})
    early, right = is_right(whole, own.index(CLAIM)), is_right(log_of(*left), left[0].index(CLAIM))
    return (
        []
        if (early, right) == (False, True)
        else [f"early: {not early}, right without the row: {right}"]
    )


def tests(_program):
    yield "none makes an early claim right", wrong_logs
    for kind, (own, other, missing) in NEEDED.items():
        yield f"a missing {kind} does", functools.partial(wrong_need, own, other, missing)
