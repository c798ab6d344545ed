"""How many tests each group has at least, by tests/counts.txt: those that ran or were skipped by name."""

import paths

FILE = f"{paths.HERE}/counts.txt"


def least():
    """Returns the least numbers of tests by group and way."""
    with open(FILE, encoding="ascii") as file:
        rows = [line.split() for line in file if line.strip() and not line.startswith("#")]
    return {(group, " ".join(way)): int(count) for group, *way, count in rows}


def wrong(group, way, count):
    """Returns what is wrong with this number of tests of a group that went a way, as sentences."""
    wanted = least().get((group, way))
    if wanted is None:
        return [f"tests/counts.txt has no row for {group} {way}".rstrip()]
    if count >= wanted:
        return []
    named = f"{group} by the {way}" if way else group
    return [
        f"{named}: {count} tests ran or were skipped by name, and there were {wanted}. Where some were taken away on "
        "purpose, tests/counts.txt gets the new number."
    ]
