#!/usr/bin/env python3
"""How many lines of definitions a statement rests on.

    tools/definitions.py FILE NAME ..     of the definitions NAME in FILE, such as crates/chip_core/specs/Headline.antt

It follows each name that a definition uses: in its own file, by a `use` to a file of another crate, or to a type of the
code. It counts the lines of all that it reaches, each once, without comments and empty lines. What the kit defines is
left out, and so are the types of the fields of a type of the code. A variable that is named like a definition counts as
that definition.
"""
import functools
import os
import re
import sys

ROOT = os.path.dirname(os.path.dirname(os.path.realpath(__file__)))
COMMENT = re.compile(r"(?:^|\s)--.*$")
HEAD = re.compile(r"\s*(?:abbrev pub|abbrev|pub record|pub data) ([A-Za-z]\w*)")
USE = re.compile(r"(?:pub )?use Rattle\.(chip_\w+)\.specs\.([\w.]+?)(?:\.\{([^}]*)\}| as (\w+))$")
#: A name, and the one after its point. What stands after a further point is a field.
WORD = re.compile(r"(?<![\w.])([A-Za-z]\w*)(?:\.(\w+))?")
TYPE = r"^(?:pub(?:\(crate\))? )?(?:struct|enum) {}\b(?:[^;{{}}]*;|.*?^}})"


class File:
    """The definitions of a file, each with its lines, and where the names come from that it uses."""

    def __init__(self, path):
        self.definitions, self.used, self.aliases = {}, {}, {}
        with open(path, encoding="utf-8") as file:
            lines = [COMMENT.sub("", it).rstrip() for it in file]
        name = None
        for line in filter(None, lines):
            if found := HEAD.match(line):
                name = found[1]
                self.definitions[name] = []
            if line.startswith(("use ", "pub use ", "pub mod ", "module ")):
                name = None
                self.note_use(line)
            elif name:
                self.definitions[name].append(line)

    def note_use(self, line):
        """Notes what a line brings from another crate."""
        if found := USE.match(line):
            crate, module, names, alias = found.groups()
            if alias:
                self.aliases[alias] = (crate, module)
            for whole, _, other in (it.partition(" as ") for it in (names or "").split(", ")):
                self.used[other or whole] = (crate, module, whole)


@functools.cache
def file_of(crate, module):
    """Returns the file of a module of definitions."""
    return File(f"{ROOT}/crates/{crate}/specs/{module.replace('.', '/')}.antt")


@functools.cache
def type_of(crate, name):
    """Returns the lines of a type of the code."""
    for folder, _, names in os.walk(f"{ROOT}/crates/{crate}/src"):
        for it in names:
            with open(f"{folder}/{it}", encoding="utf-8") as file:
                found = re.search(TYPE.format(name), file.read(), re.MULTILINE | re.DOTALL)
            if found:
                return [
                    line for line in found[0].splitlines() if not re.match(r"\s*(?://|#|$)", line)
                ]
    raise LookupError(f"no type {name} in {crate}")


def place_of(crate, module, name):
    """Returns where a name is defined: the crate, the module and the name. A variant is defined by its type."""
    if module.startswith("declared."):
        return crate, "declared", module.removesuffix(".TheVariants").split(".")[-1]
    its = file_of(crate, module)
    if name in its.definitions:
        return crate, module, name
    if name in its.used:
        return place_of(*its.used[name])
    for data, lines in its.definitions.items():
        if any(re.match(rf"\s+(?:pub )?{name} : ", it) for it in lines):
            return crate, module, data
    raise LookupError(f"no {name} in {crate}/specs/{module}.antt")


def lines_of(crate, module, name):
    """Returns the lines of a definition."""
    return (
        type_of(crate, name) if module == "declared" else file_of(crate, module).definitions[name]
    )


def uses(crate, module, name):
    """Returns the places of the definitions that a definition uses itself."""
    if module == "declared":
        return
    its = file_of(crate, module)
    for word, after in WORD.findall("\n".join(its.definitions[name])):
        if word in its.aliases:
            yield place_of(*its.aliases[word], after)
        elif word in its.definitions:
            yield crate, module, word
        elif word in its.used:
            yield place_of(*its.used[word])


def reached(path, names):
    """Returns the places of all definitions on which those with these names in a file rest, themselves among them."""
    known = re.fullmatch(r"crates/(\w+)/specs/(\w+)\.antt", path)
    if known is None:
        raise LookupError(f"{path} is not crates/CRATE/specs/MODULE.antt")
    left, found = [place_of(*known.groups(), it) for it in names], set()
    while left:
        place = left.pop()
        if place not in found:
            found.add(place)
            left += uses(*place)
    return found


def count(path, names):
    """Returns how many lines of definitions they rest on."""
    return sum(len(lines_of(*it)) for it in reached(path, names))


def main(path, *names):
    for it in sorted(reached(path, names)):
        print(f"{len(lines_of(*it)):5}  {'.'.join(it)}")
    print(f"{count(path, names):5}  in all")


if __name__ == "__main__":
    if len(sys.argv) < 3:
        sys.exit("usage: tools/definitions.py FILE NAME ..")
    try:
        main(*sys.argv[1:])
    except (LookupError, OSError) as error:
        sys.exit(f"tools/definitions.py: {error}")
