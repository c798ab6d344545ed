"""A seal at each moment of one whole run: the root closes, and played on the game ends.

The run is of the triangle with four chips on vertex 0, event for event. Each edge of the graph is sealed at each of its
places, ten rounds of turns follow, and `resume` goes on from the report. The end is known from playing the game
by hand: vertex 0 fires twice and vertex 1 once, which leaves one chip on vertex 0 and three on the sink.
"""
import functools
import json
import subprocess
import tempfile

from paths import EXAMPLES

EVENTS = """take,4 fire,0,2 clear,0 claim,0 put,0 clear,1 claim,1 put,1 take,0 fire,1,1 clear,2 claim,2 put,2 clear,3 claim,3
put,3 take,1 take,3 ack,3 ack,1 take,2 settle,1 ack,2 settle,2 settle,3 ack,0 settle,0 ack,4 settle,4""".split()
FIRED, CHIPS = [2, 1, 0], [1, 0, 3]
SECONDS = 60


def row(event):
    """An event as a row of a schedule; a count that is not named is 0."""
    return ",".join((event.split(",") + ["0"])[:3])


def faults_of(program, edge, place):
    """What is not as it must be where this edge is sealed before the event at this place."""
    game = [f"{EXAMPLES}/triangle/graph.json", f"{EXAMPLES}/triangle/chips.csv"]
    with tempfile.TemporaryDirectory(prefix="chipfire-seal-") as room:
        events = EVENTS[:place] + [f"seal,{edge}"] + EVENTS[place:]
        with open(f"{room}/schedule.csv", "w", encoding="utf-8") as file:
            file.write("\n".join(["event,at,count", *map(row, events), ""]))
        asked = [program, "simulate", *game, f"{room}/schedule.csv", "--rounds", "10"]
        ran = subprocess.run(asked, stdout=subprocess.PIPE, timeout=SECONDS)
        lines = ran.stdout.decode().splitlines()
        if ran.returncode not in (0, 2) or lines[-2] != "root closed":
            return [f"status {ran.returncode}, {lines[-2:]}"]
        with open(f"{room}/report.json", "w", encoding="utf-8") as file:
            file.write(lines[-1] + "\n")
        asked = [program, "resume", game[0], f"{room}/report.json"]
        ran = subprocess.run(asked, stdout=subprocess.PIPE, timeout=SECONDS)
    if ran.returncode != 0:
        return [f"played on: status {ran.returncode}"]
    end = json.loads(ran.stdout)
    fired = [before + now for before, now in zip(end["prior"], end["fired"])]
    return [] if (fired, end["chips"]) == (FIRED, CHIPS) else [f"{lines[-1]} is played on to {end}"]


def tests(program):
    for edge in range(4):
        for place in range(len(EVENTS) + 1):
            yield f"edge {edge} sealed before event {place}", functools.partial(faults_of, program, edge, place)
