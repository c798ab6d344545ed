"""Reports of random games, true ones and others, and what `verify` says of them.

The games are small and drawn at random, with a limit or without. What must come is known from examples/play.py: its
report is verified, also where some of its firings stand as those of earlier stages. Of any other report `verify` names
the least vertex that has another count, other chips, or another place in a list of halted vertices.
"""
import json
import subprocess
import tempfile

import chains
import listed
import play

GAMES = 300
NO_LIMIT = 2**40
SECONDS = 60


def report_of(report):
    """A report as a text, of version 2 where it has firings of earlier stages."""
    said = {**report, "closed": not report["over"] + report["sealed"], "version": 2 if "prior" in report else 1}
    return json.dumps(said, separators=(",", ":"), sort_keys=True) + "\n"


def values_at(report, v):
    """What a report says of a vertex."""
    fired = report["fired"][v] + report.get("prior", [0] * len(report["fired"]))[v]
    return fired, report["chips"][v], v in report["over"], v in report["sealed"]


def others(draw, truth, another):
    """Reports that are like a true one, and the report of another play."""
    size = len(truth["fired"])
    v, u = draw.randrange(size), draw.randrange(size)
    less, more, moved, over, sealed = ({name: list(them) for name, them in truth.items()} for _ in range(5))
    less["fired"][v] -= min(1, less["fired"][v])
    more["fired"][v] += 1
    moved["chips"][v] += 1
    moved["chips"][u] -= min(1, moved["chips"][u])
    over["over"] = sorted({*over["over"]} ^ {v})
    sealed["sealed"] = [v]
    sealed["over"] = [it for it in sealed["over"] if it != v]
    all_more = {**truth, "fired": [it + 1 for it in truth["fired"]]}
    drawn = {**truth, "fired": [draw.randint(0, 9) for _ in range(size)]}
    greatest = {**truth, "fired": [NO_LIMIT] * size}
    before = [draw.randint(0, it) for it in truth["fired"]]
    split = {**truth, "prior": before, "fired": [a - b for a, b in zip(truth["fired"], before)]}
    return [truth, split, less, more, moved, over, sealed, all_more, drawn, greatest, another]


def wrong_verdicts(program, room, draw):
    """What is wrong with the verdicts on the reports of one game."""
    graph, chips = chains.random_game(draw)
    limit = draw.choice([NO_LIMIT, draw.randint(0, 6)])
    another_limit = draw.choice([NO_LIMIT, draw.randint(0, 6)])

    def played(start, most):
        left = list(start)
        fired = play.play(graph, left, most, draw)
        return {key: it for key, it in json.loads(play.report(graph, left, fired)).items() if key not in ("closed", "version")}

    with open(f"{room}/graph.json", "w", encoding="utf-8") as file:
        json.dump(graph, file)
    with open(f"{room}/chips.csv", "w", encoding="utf-8") as file:
        file.write("vertex,chips\n" + "".join(f"{v},{count}\n" for v, count in enumerate(chips)))
    truth = played(chips, limit)
    another = draw.choice([played(chips, another_limit), played([it + 1 for it in chips], limit)])
    found = []
    for report in others(draw, truth, another):
        with open(f"{room}/report.json", "w", encoding="utf-8") as file:
            file.write(report_of(report))
        differs = next((v for v in range(len(chips)) if values_at(report, v) != values_at(truth, v)), None)
        words = [program, "verify", "graph.json", "chips.csv", "report.json"]
        words += [] if limit == NO_LIMIT else ["--limit", str(limit)]
        ran = subprocess.run(words, stdout=subprocess.PIPE, stderr=subprocess.PIPE, cwd=room, timeout=SECONDS)
        wanted = (0, b"verified\n", b"") if differs is None else (1, b"", b"chipfire: fault 53 Differs %d\n" % differs)
        came = ran.returncode, ran.stdout, ran.stderr
        if came != wanted:
            found.append(f"{graph} with {chips}, limit {limit}: of {report} expected {wanted}, got {came}")
    return found


def faults_of(draw, program):
    """What is wrong with the verdicts on the reports of a random game."""
    with tempfile.TemporaryDirectory(prefix="chipfire-verdicts-") as room:
        return wrong_verdicts(program, room, draw)


def tests(program):
    return listed.drawn(GAMES, "verdicts", faults_of, program)
