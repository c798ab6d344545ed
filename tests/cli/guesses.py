"""Guesses of all kinds, which change no result of `plain`.

The games are small and drawn at random, as they are or with each edge both ways, and with a limit or without. What must
come is known from examples/play.py, whatever the guess: true counts, others, and the reports of verdicts.py. True
counts must be certified if no vertex but the sink has a greater in-degree than out-degree, as on every undirected graph.
"""
import json
import tempfile

import chains
import listed
import play
import verdicts
from largest import Room, rows_of

GAMES = 300
NO_LIMIT = 2**40
COUNTS = ("vertex", "fired")
# On one game in how many texts that are no guess are tried, too.
REFUSED = 15


class Game:
    """A random game with a limit, and its report by the slow player."""

    def __init__(self, draw):
        self.of_file, self.chips = chains.random_game(draw)
        self.vertices, sink = self.of_file["vertices"], self.of_file["sink"]
        if draw.random() < 0.5:
            self.of_file["edges"] += [[head, tail, mult] for tail, head, mult in self.of_file["edges"] if head != sink]
        self.limit = draw.choice([NO_LIMIT, NO_LIMIT, draw.randint(0, 6)])
        self.draw = draw
        self.truth = self.played(self.chips)

    def graph(self):
        return json.dumps(self.of_file)

    def played(self, chips):
        left = list(chips)
        fired = play.play(self.of_file, left, self.limit, self.draw)
        return json.loads(play.report(self.of_file, left, fired))


def counts_near(draw, fired):
    """Counts of firings, true ones and others."""
    v = draw.randrange(len(fired))
    yield fired
    for by in (-1, 1, -2, 7):
        yield [max(count + by * (at == v), 0) for at, count in enumerate(fired)]
        yield [max(count + by, 0) for count in fired]
    yield [draw.randint(0, 9) for _ in fired]
    yield [draw.randint(0, 2 * count) for count in fired]
    yield [NO_LIMIT] * len(fired)
    yield [2**63] * len(fired)
    yield [(2**64 - 1) * (at == v) for at, _ in enumerate(fired)]


def guesses_of(game):
    """Texts of guesses: rows, and reports."""
    draw, fired = game.draw, game.truth["fired"]
    for counts in counts_near(draw, fired):
        rows = list(enumerate(counts))
        yield rows_of(COUNTS, draw.sample(rows, draw.randint(0, len(rows))) if draw.random() < 0.2 else rows)
    known = {key: them for key, them in game.truth.items() if key not in ("closed", "version")}
    another = game.played([count + 1 for count in game.chips])
    for other in verdicts.others(draw, known, {key: another[key] for key in known}):
        yield verdicts.report_of(other)


def refusals(game):
    """Texts that are no guess of the game, each with the fault that it has."""
    size, rows = game.vertices, list(enumerate(game.truth["fired"]))
    lists = {"chips": [1] * (size + 1), "fired": [0] * (size + 1), "over": [], "sealed": []}
    yield rows_of(COUNTS, [*rows, (0, 1)]), f"27 Repeated {size}"
    yield rows_of(COUNTS, [*rows, (size, 1)]), f"26 Vertex {size}"
    yield rows_of(COUNTS, [*rows, (0, 2**64)]), f"25 Number {size}"
    yield rows_of(COUNTS, [*rows, (0,)]), f"24 Row {size}"
    yield rows_of(("vertex", "chips"), rows), "23 Header"
    yield "", "23 Header"
    yield verdicts.report_of(lists), "52 Mismatch"
    yield verdicts.report_of(lists)[:-1], "50 NotReport"
    yield "{", "50 NotReport"


def is_certain(graph):
    """Whether no vertex but the sink has a greater in-degree than out-degree."""
    more = [0] * graph["vertices"]
    for tail, head, mult in graph["edges"]:
        more[tail] += mult
        more[head] -= mult
    return all(it >= 0 for v, it in enumerate(more) if v != graph["sink"])


def wrong_results(program, game, is_refused):
    """What is wrong with the results by the guesses of one game, and by what is none."""
    wanted = json.dumps(game.truth, separators=(",", ":")) + "\n"
    status, limit = 0 if game.truth["closed"] else 2, [] if game.limit == NO_LIMIT else ["--limit", str(game.limit)]
    arguments = " ".join(["plain", "graph.json", "chips.csv", "--guess", "guess", *limit])
    with tempfile.TemporaryDirectory(prefix="chipfire-guesses-") as folder:
        room = Room(program, folder, game)
        for guess in guesses_of(game):
            room.write("guess", guess)
            for fault in room.faults_of(arguments, wanted, status):
                yield f"{game.graph()} with {game.chips}, guess {guess!r}: {fault}"
        if game.truth["closed"] and is_certain(game.of_file):
            room.write("guess", rows_of(COUNTS, enumerate(game.truth["fired"])))
            came, expected = room.ran(f"{arguments} --progress"), (wanted, "chipfire: progress: guess certified\n", 0)
            if came != expected:
                yield f"{game.graph()} with {game.chips}, its true counts: expected {expected}, got {came}"
        for guess, fault in refusals(game) if is_refused else []:
            room.write("guess", guess)
            came, expected = room.ran(arguments), ("", f"chipfire: fault {fault}\n", 1)
            if came != expected:
                yield f"{game.graph()}, guess {guess!r}: expected {expected}, got {came}"


def faults_of(draw, program):
    """What is wrong with the results by the guesses of a random game."""
    game = Game(draw)
    return list(wrong_results(program, game, draw.randrange(REFUSED) == 0))


def tests(program):
    return listed.drawn(GAMES, "guesses", faults_of, program)
