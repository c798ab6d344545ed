"""Each mutant fits the code: what it replaces stands once in its file, after its earlier replacements."""

import functools
import os
import re

from links import files, text_of


def mutants(crate):
    """Yields the name and the text of each mutant of a crate: those of must-fail/, and those of wrong-bodies.txt."""
    for path in files():
        if path.startswith(f"{crate}/must-fail/"):
            yield os.path.basename(path), text_of(path)
        elif path == f"{crate}/wrong-bodies.txt":
            _, *parts = re.split(r"^name: (.*)\n", text_of(path), flags=re.MULTILINE)
            yield from zip(parts[::2], parts[1::2])


def misplaced(crate):
    """Returns which mutants of a crate replace what stands not once in its file."""
    wrong = []
    for name, text in mutants(crate):
        texts = {}
        for line in text.splitlines():
            word, _, value = line.partition(": ")
            if word == "file":
                path = f"{crate}/{value}"
                texts.setdefault(path, text_of(path))
            elif word == "old":
                old = value
                wrong += [f"{name}: {old}"] if texts[path].count(old) != 1 else []
            elif word in ("new", "new:"):
                texts[path] = texts[path].replace(old, value)
    return wrong


def tests():
    """Yields each crate with mutants, and what finds its faults."""
    for crate in sorted({"/".join(it.split("/")[:2]) for it in files() if it.endswith((".edit", "/wrong-bodies.txt"))}):
        yield crate, functools.partial(misplaced, crate)
