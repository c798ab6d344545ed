"""Random plays in several stages: what `plain` or `simulate` writes, and then `resume`, and what all of them result in.

The games are small and drawn at random. The first stage ends by a random limit, or by a random edge that is sealed;
each further one goes on from the report that the program wrote, with a random limit, and the last one without a limit.
What must come is known from examples/play.py and chipfire.model, which share nothing with the program: the report
of each stage, and that all stages together are a play that is never stopped.
"""
import json
import subprocess
import tempfile

import listed
import play
from paths import model

GAMES = 300
NO_LIMIT = 2**40
ROUNDS = 100_000
SECONDS = 60


def random_game(draw):
    """A graph on which every vertex reaches the sink, and its chips."""
    order = list(range(draw.randint(2, 8)))
    draw.shuffle(order)
    edges = [[tail, draw.choice(order[:at]), draw.randint(1, 3)] for at, tail in enumerate(order) if at]
    for _ in range(draw.randint(0, 12)):
        tail, head = draw.choice(order[1:]), draw.choice(order)
        if tail != head:
            edges.append([tail, head, draw.randint(1, 4)])
    draw.shuffle(edges)
    graph = {"edges": edges, "sink": order[0], "version": 1, "vertices": len(order)}
    return graph, [draw.randint(0, draw.choice([2, 10, 60])) for _ in order]


def status_of(report):
    """The exit status that goes with a report."""
    return 0 if json.loads(report)["closed"] else 2


class Chain:
    """One play in several stages, with the files of each in a folder."""

    def __init__(self, program, room, draw):
        self.program, self.room, self.draw = program, room, draw
        self.graph, self.chips = random_game(draw)
        self.write("graph.json", json.dumps(self.graph))
        rows = "".join(f"{vertex},{count}\n" for vertex, count in enumerate(self.chips))
        self.write("chips.csv", f"vertex,chips\n{rows}")

    def write(self, name, text):
        with open(f"{self.room}/{name}", "w", encoding="utf-8", newline="") as file:
            file.write(text)

    def differences(self, arguments, wanted, status):
        """Runs the program, and returns what it wrote and what of it is not as it must be."""
        how = {"stdin": subprocess.DEVNULL, "stdout": subprocess.PIPE, "stderr": subprocess.PIPE, "timeout": SECONDS}
        ran = subprocess.run([self.program, *arguments], cwd=self.room, **how)
        written, errors = (text.decode(errors="backslashreplace") for text in (ran.stdout, ran.stderr))
        expected, got = (wanted, "", status), (written, errors, ran.returncode)
        return written, [] if got == expected else [f"{arguments}: expected {expected}, got {got}"]

    def first(self):
        """The first stage: the report that was written, and what is wrong with it."""
        if self.draw.random() < 0.25:
            return self.sealed()
        limit, chips = self.draw.randint(0, 6), list(self.chips)
        fired = play.play(self.graph, chips, limit, self.draw)
        wanted = play.report(self.graph, chips, fired)
        words = ["plain", "graph.json", "chips.csv", "--limit", str(limit)]
        return self.differences(words, f"{wanted}\n", status_of(wanted))

    def sealed(self):
        """A first stage with an edge that is sealed before anything is sent on it."""
        edge = self.draw.randrange(len(self.graph["edges"]))
        self.write("schedule.csv", f"event,at,count\nseal,{edge},0\n")
        core = model().Core(self.graph, self.chips, NO_LIMIT, 1)
        lines = [core.step("seal", edge)]
        core.drive(ROUNDS)
        report = core.report()
        wanted = "".join(f"{line}\n" for line in [*lines, "root closed", report])
        words = ["simulate", "graph.json", "chips.csv", "schedule.csv", "--rounds", str(ROUNDS)]
        written, faults = self.differences(words, wanted, status_of(report))
        return written[written.rfind("{") :], faults

    def stages(self):
        """All stages one after another; what is wrong with any of them, and with their sum."""
        report, faults = self.first()
        limits = [self.draw.randint(0, 8) for _ in range(self.draw.randint(1, 5))]
        for limit in [*limits, NO_LIMIT]:
            if faults:
                return faults
            self.write("report.json", report)
            wanted = play.go_on(self.graph, json.loads(report), limit, self.draw)
            option = [] if limit == NO_LIMIT else ["--limit", str(limit)]
            words = ["resume", "graph.json", "report.json", *option]
            report, faults = self.differences(words, f"{wanted}\n", status_of(wanted))
        return faults or self.sum_of(json.loads(report))

    def sum_of(self, last):
        """What is wrong with the sum of all stages, of which this is the last one's report."""
        chips = list(self.chips)
        fired = play.play(self.graph, chips, NO_LIMIT, self.draw)
        in_all = [a + b for a, b in zip(last["prior"], last["fired"])]
        is_well = (in_all, last["chips"]) == (fired, chips)
        shown = f"all stages give {in_all} and {last['chips']}, one play gives {fired} and {chips}"
        return [] if is_well else [shown]


def faults_of(draw, program, kind, asked):
    """What is wrong with a random game: a method of a kind of `Chain` is asked for it."""
    with tempfile.TemporaryDirectory(prefix="chipfire-game-") as room:
        game = kind(program, room, draw)
        faults = asked(game)
    return [f"{json.dumps(game.graph)} with {game.chips}", *faults] if faults else []


def tests(program):
    return listed.drawn(GAMES, "chain", faults_of, program, Chain, Chain.stages)
