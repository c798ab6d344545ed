"""Random logs of distributed programs, spoilt by their rows, fields and bytes: the verdicts, or the first fault, must
be the model's."""
import functools
import os
import random

import expected
import launch
import logs
import mutate

HEADER = "process,kind,channel\n"
KINDS = [it.decode() for it in sorted(expected.KINDS_OF_MESSAGES | expected.KINDS_ALONE)]
FIELDS = [*KINDS, "fire", "Send", " send", '"send"', "sen\0d", "", *(it.decode() for it in mutate.NUMBERS)]
# How many turns the longest log has.
LONG = 60


def spoil_rows(rows, draw):
    """Changes rows once: one is lost, doubled, exchanged, or longer, a field is another, or the end is cut off."""
    how, at = draw.randrange(7), draw.randrange(len(rows))
    if how == 0:
        del rows[at]
    elif how == 1:
        rows.insert(draw.randint(0, len(rows)), list(rows[at]))
    elif how == 2:
        other = draw.randrange(len(rows))
        rows[at], rows[other] = rows[other], rows[at]
    elif how == 3:
        del rows[at:]
    elif how == 4:
        rows[at].append(draw.choice(FIELDS))
    elif how == 5:
        place = draw.randrange(3)
        rows[at][place % len(rows[at])] = draw.choice(KINDS if place == 1 else "01234")
    else:
        rows[at][draw.randrange(len(rows[at]))] = draw.choice(FIELDS)


def spoilt(log, draw):
    """The text of a log, with changes at random."""
    rows = [[str(field) for field in row] for row in log]
    for _ in range(draw.choice([0, 1, 1, 2, 3])):
        if rows:
            spoil_rows(rows, draw)
    text = "".join(f"{','.join(row)}\n" for row in rows)
    # (a header that is none hides what is done to the rows)
    header, text = ("", HEADER + text) if draw.random() < 0.2 else (HEADER, text)
    text = text.encode()
    for _ in range(draw.choice([0, 0, 1, 2])):
        text = mutate.changed(text, draw)
    return header.encode() + text


def judged(program, text, options):
    """The run of a program that judges a text from standard input."""
    file = os.memfd_create("log")
    with os.fdopen(file, "wb") as opened:
        opened.write(text)
        opened.seek(0)
        return launch.start([program, "judge", "-", *options], actions=[(os.POSIX_SPAWN_DUP2, file, 0)]).end()


def run_of(program, seed):
    """What is wrong with the verdicts on the log of this seed."""
    draw = random.Random(seed)
    text = spoilt(logs.random_log(draw, *draw.choice([(), (LONG, 0)])), draw)
    options = {"past": draw.random() < 0.5, "large": draw.random() < 0.05, "first": draw.random() < 0.3}
    words = [f"--{name}" for name, value in options.items() if value]
    if draw.random() < 0.3:
        options["processes"] = draw.randint(1, 5)
        words.append(f"--processes={options['processes']}")
    ran = judged(program, text, words)
    found = expected.reference().outcome("judge", [text], **options).differences(ran.out, ran.err, ran.status)
    return [f"chipfire judge - {options} on {text}", *found] if found else []


def facts(program, numbers):
    """Yields the logs with these numbers, each a name and what finds its faults."""
    for number in numbers:
        seed = f"spoilt logs {number}"
        yield seed, functools.partial(run_of, program, seed)
