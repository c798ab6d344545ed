"""Logs that are cut off: the verdicts stay.

All logs of missing_rows.py that have an interleaving are cut after each row of each process, but in front of the first
row of process 0, which begins active. The rows of the maximal progress are judged by all cuts that can be reached
(logs.py), and so is the whole log: a claim has the same verdict in both, and an early one the same causal past.
Where process 1 begins active and has lost all its rows, an early claim is right: so its first row has to be there.
"""
import itertools

import logs
from missing_rows import CLAIM, all_logs, is_right, log_of


def rows_of(own, other):
    """Returns the rows of both processes in one list."""
    return [(0, *row) for row in own] + [(1, *row) for row in other]


def furthest(log):
    """Returns the maximal progress: the cut that has no fewer rows of a process than any other."""
    return tuple(map(max, zip(*log.cuts(log.empty))))


def judgement(log, row):
    """Returns what is left when the claim that is this row of process 0 is made, and its causal past: nothing if it is
    right."""
    if is_right(log, row):
        return None
    least = tuple(map(min, zip(*(cut for cut in log.cuts(log.empty) if cut[0] == row))))
    return log.left(least), (*least, 0)[:2]


def cuts_of(own, other):
    """Yields the rows of both processes up to the maximal progress, of each cut of a log."""
    for first, second in itertools.product(range(1, len(own) + 1), range(len(other) + 1)):
        most = furthest(logs.Log(rows_of(own[:first], other[:second])))
        yield own[: most[0]], other[: (*most, 0)[1]]


def wrong_cuts():
    """What is wrong with all logs."""
    judged, found = 0, []
    for own, other in all_logs():
        whole = log_of(own, other)
        if whole is None:
            continue
        row = own.index(CLAIM)
        wanted = judgement(whole, row)
        for first, second in cuts_of(own, other):
            if CLAIM in first:
                judged += 1
                found_here = judgement(logs.Log(rows_of(first, second)), row)
                if found_here != wanted:
                    found.append(f"{own} and {other}: {wanted}, and by {first} and {second}: {found_here}")
    return found or ([] if judged > 1000 else [f"{judged} claims were judged"])


def wrong_beginning():
    """What is wrong with a log of which the first row of a process that begins active is cut off."""
    whole, cut = logs.Log([(0, *CLAIM), (1, "active", None)]), logs.Log([(0, *CLAIM)])
    early, right = is_right(whole, 0), is_right(cut, 0)
    return [] if (early, right) == (False, True) else [f"early: {not early}, right without the row: {right}"]


def tests(_program):
    yield "the verdicts stay", wrong_cuts
    yield "a process that has lost its first row", wrong_beginning
