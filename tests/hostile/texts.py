"""Random games with mutated files: the result, or the first fault, must be the model's."""
import contextlib
import functools
import random
import tempfile

import expected
import launch
import mutate

NAMES = {
    "check": ["graph.json"],
    "plain": ["graph.json", "chips.csv", "guess.csv"],
    "avalanches": ["graph.json", "chips.csv", "drops.csv"],
    "recurrent": ["graph.json", "chips.csv"],
    "identity": ["graph.json"],
    "simulate": ["graph.json", "chips.csv", "schedule.csv"],
    "run": ["graph.json", "chips.csv", "feed.csv"],
    "replay": ["graph.json", "chips.csv", "trace.csv"],
    "resume": ["graph.json", "report.json"],
    "verify": ["graph.json", "chips.csv", "report.json"],
}


def options_of(command, draw):
    """Options of a command at random, by their names."""
    options = {}
    group = ("recurrent", "identity")
    if command not in ("check", "avalanches", *group) and draw.random() < 0.5:
        options["limit"] = draw.choice([0, 1, 2, 5, 1 << 40])
    if command in ("check", "plain", "avalanches", *group, "resume", "verify"):
        options.update(large=draw.random() < 0.5)
    if command == "simulate":
        options.update(ring=draw.choice([1, 1, 2, 3, 64]), rounds=draw.choice([0, 1, 3, 50]))
        options.update(fed=draw.random() < 0.5)
    if command == "replay":
        options.update(complete=draw.random() < 0.5)
    if command == "run":
        options.update(ring=draw.choice([1, 1, 2, 3, 64]), workers=draw.choice([1, 2, 3, 8]))
        options.update(dealt=draw.random() < 0.5)
    return options


def words_of(name, value):
    """An option as words; one that is true or false has no value."""
    if isinstance(value, bool):
        return [f"--{name}"] if value else []
    return [f"--{name}", str(value)]


def placed(command, paths, draw):
    """The files of a command as words; feeds and a guess belong to an option, which may stand anywhere among them."""
    option = {"run": "--feed", "plain": "--guess"}.get(command)
    if option is None or len(paths) < 3:
        return paths
    at = draw.randrange(3)
    return [*paths[:at], option, paths[2], *paths[at:2]]


def played(graph, chips):
    """The report of a game, as a text, played to its end by the expected."""
    return expected.report_outcome(graph, list(chips), expected.MAX_CHIPS).out.decode()


def judged(draw):
    """A command at random, its files, mutated, its options, and the outcome that must come.

    A third file of `run` is the one of its feeds, and one of `plain` a guess.
    """
    while True:
        command = draw.choice(mutate.COMMANDS)
        files = mutate.mutated(mutate.random_files(command, draw, expected.Replay, played), draw)
        options = options_of(command, draw)
        with contextlib.suppress(expected.Unjudged):
            return command, files, options, expected.reference().outcome(command, files, **options)


def run_of(program, seed):
    """What is wrong with the outcome of the files of this seed."""
    draw = random.Random(seed)
    command, files, options, wanted = judged(draw)
    with tempfile.TemporaryDirectory(prefix="chipfire-hostile-") as room:
        paths = [f"{room}/{name}" for name in NAMES[command]]
        for path, text in zip(paths, files):
            with open(path, "wb") as file:
                file.write(text)
        words = placed(command, paths[: len(files)], draw)
        words += [word for name, value in options.items() for word in words_of(name, value)]
        ran = launch.start([program, command, *words]).end()
    found = wanted.differences(ran.out, ran.err, ran.status)
    return [f"chipfire {command} {words} on {files}", *found] if found else []


def facts(program, numbers):
    """Yields the runs with these numbers, each a name and what finds its faults."""
    for number in numbers:
        seed = f"mutated files {number}"
        yield seed, functools.partial(run_of, program, seed)
