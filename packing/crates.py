"""Which crates there are, and on which others each of them depends: crates.txt."""
from packing.repository import ROOT


def rows(path):
    """Returns the lines of a file without comments and empty lines."""
    with open(path, encoding="utf-8") as lines:
        return [it for it in (line.partition("#")[0].strip() for line in lines) if it]


def name_in(row):
    """Returns the name of the crate that a row of crates.txt is about."""
    return row.partition(":")[0].split()[0]


def libraries():
    """Returns the names of the repository's crates, each with those of the crates that it depends on."""
    named = {name_in(row): row.partition(":")[2].split() for row in rows(f"{ROOT}/crates.txt")}
    return {name: [it for it in others if it in named] for name, others in named.items()}


def below(name, direct):
    """Returns all that a crate depends on, each after what it depends on itself."""
    found = []
    for it in direct[name]:
        found += [low for low in [*below(it, direct), it] if low not in found]
    return found
