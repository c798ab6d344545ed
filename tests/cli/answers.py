"""The results that lie beside the games of examples/: they are those that examples/play.py and chipfire.model find."""

import functools
import os
import subprocess
import sys

from command_lines import shown
from paths import EXAMPLES

SECONDS = 60
SCHEDULES = {
    "engaging-message-last": ("detector/two-edges.json", "detector/two-chips.csv"),
    "deficit": ("triangle/graph.json", "triangle/chips.csv"),
    "sealed-half-way": ("triangle/graph.json", "triangle/chips.csv", "--rounds", "10"),
    "left-open": ("triangle/graph.json", "triangle/chips.csv"),
    "small-run": ("detector/small-run.json", "detector/two-chips.csv", "--books"),
    "fed-twice": ("triangle/graph.json", "triangle/no-chips.csv", "--fed", "--rounds", "10"),
    "engaged-twice": ("detector/engaged-twice.json", "detector/two-chips.csv"),
}
STAGES = {
    "first": ("stages/chips.csv", "--limit", "1"),
    "second": ("--resume", "stages/first.json", "--limit", "1"),
    "third": ("--resume", "stages/second.json"),
}


def games():
    """The names of the folders of examples/ that have a game."""
    return sorted(
        it for it in os.listdir(EXAMPLES) if os.path.isfile(f"{EXAMPLES}/{it}/graph.json")
    )


def results():
    """The files of results, each with the arguments of the script that finds it."""
    for game in games():
        graph, chips = f"{game}/graph.json", f"{game}/chips.csv"
        yield f"{game}/report.json", ["play.py", graph, chips, "--seed", "1"]
        yield f"{game}/check.txt", ["play.py", graph]
    for name, (graph, chips, *options) in SCHEDULES.items():
        model = ["../python/chipfire/lab/model.py", graph, chips]
        yield f"detector/{name}.txt", [*model, f"detector/{name}.csv", *options]
    for name, options in STAGES.items():
        yield f"stages/{name}.json", ["play.py", "triangle/graph.json", *options]


def faults_of(result, words):
    """What is wrong with a result, by what a script finds."""
    with open(f"{EXAMPLES}/{result}", "rb") as file:
        wanted = file.read()
    how = {"stdout": subprocess.PIPE, "timeout": SECONDS, "cwd": EXAMPLES}
    ran = subprocess.run([sys.executable, *words], **how)
    if ran.returncode == 0 and ran.stdout == wanted:
        return []
    return [f"it has {shown(wanted)}, and {' '.join(words)} says {shown(ran.stdout)}"]


def tests():
    for result, words in results():
        yield result, functools.partial(faults_of, result, words)
