"""PROVED: which sources program and libraries were proved and built from, by which kit, and which they are; and the same of
what was made beside them: that for aarch64, and the package for browsers and Node."""
from __future__ import annotations

import re
from dataclasses import dataclass, field

from contents import AARCH64, WEB, WEB_BUILT, X86_64
from packing import crates
from packing.repository import Refused, below, content, git, sha256

#: The crates that program and libraries are built of.
CRATES = ("chipfire", "chip_exports")
#: What may be made beside program and libraries, by its words in PROVED; each is a part, with a name.
PARTS = {AARCH64.name: AARCH64.built, "web": WEB_BUILT}
#: What each part is made of, beside the same crates and for browsers and Node the folder `WEB`.
PART_SOURCES = {
    AARCH64.name: (
        "tools/aarch64.py",
        "tools/library.py",
        "tools/making.py",
        "tools/malloc.c",
        "tools/os.c",
    ),
    "web": (
        "include/chipfire.h",
        "packing/faults.py",
        "tools/board.py",
        "tools/heap.c",
        "tools/making.py",
        "tools/webassembly.py",
    ),
}
FORM = "chipfire {}\nkit {}\ncommit {}\nsources sha256:{}\n"
PART_FORM = "{0}-sources sha256:{{}}\n{0}-tools {{}}\n{0}-made {{}}\n"


def sum_lines(words):
    """Returns the form of the lines that have the checksums of things that are built."""
    return "".join(f"{it} sha256:{{}}\n" for it in words)


def pattern(form):
    """Returns the regular expression of what has a form."""
    return form.replace(".", r"\.").replace("{}", "(.+)")


@dataclass(frozen=True)
class Part:
    """What is stated of a part: the checksum of what it is made of beside the crates, the tools that made it beside the kit,
    and how."""

    sources: str
    tools: str
    made: str


@dataclass(frozen=True)
class Proved:
    """What is stated of what was built. The commit has `, changed` after it where its sources were others."""

    version: str
    kit: str
    commit: str
    sources: str
    #: The checksum of each thing that is built, by its word.
    sums: dict[str, str]
    #: What is stated of each part that was made, by its name.
    parts: dict[str, Part] = field(default_factory=dict)

    def text(self):
        """Returns the file PROVED."""
        text = FORM.format(self.version, self.kit, self.commit, self.sources)
        text += self.text_of(X86_64.built)
        for name, words in PARTS.items():
            if name in self.parts:
                its = self.parts[name]
                text += PART_FORM.format(name).format(its.sources, its.tools, its.made)
                text += self.text_of(words)
        return text

    def text_of(self, words):
        """Returns the lines with the checksums of these words."""
        return sum_lines(words).format(*(self.sums[it] for it in words))


def read(data):
    """Returns what the bytes of a file PROVED state."""
    text = data.decode(errors="replace")
    first = re.match(pattern(FORM + sum_lines(X86_64.built)), text)
    if first is None:
        raise Refused("its PROVED has not the lines that it should have")
    version, kit, commit_of, sources_of, *sums_of_it = first.groups()
    sums, parts, end = dict(zip(X86_64.built, sums_of_it)), {}, first.end()
    for name, words in PARTS.items():
        found = re.compile(pattern(PART_FORM.format(name) + sum_lines(words))).match(text, end)
        if found is not None:
            parts[name] = Part(*found.groups()[:3])
            sums.update(zip(words, found.groups()[3:]))
            end = found.end()
    if end != len(text):
        raise Refused("its PROVED has not the lines that it should have")
    return Proved(version, kit, commit_of, sources_of, sums, parts)


def sums_of(built):
    """Returns the checksum of each thing that is built, bytes by their words."""
    return {word: sha256(data) for word, data in built.items()}


def source_folders():
    """Returns the folders that all is proved and built from: those of its crates, and of all that these depend on."""
    direct = crates.libraries()
    names = {name for crate in CRATES for name in (*crates.below(crate, direct), crate)}
    return [
        f"crates/{name}/{part}" for name in sorted(names) for part in ("src", "specs", "proofs")
    ]


def sum_of_files(names):
    """Returns the checksum of files: that of the lines of `sha256sum` over them, in the order of their names."""
    lines = (f"{sha256(content(it))}  {it}\n" for it in sorted(names))
    return sha256("".join(lines).encode())


def sources():
    """Returns the checksum of the sources."""
    return sum_of_files(["crates.txt", *(file for it in source_folders() for file in below(it))])


def part_files(name):
    """Returns the names of the files that a part is made of beside the crates."""
    return [*PART_SOURCES[name], *(below(WEB) if name == "web" else ())]


def part_sources(name):
    """Returns the checksum of what a part is made of beside the crates."""
    return sum_of_files(part_files(name))


def has(stated, name):
    """Returns whether a part was made, and of what is here beside the crates."""
    return name in stated.parts and stated.parts[name].sources == part_sources(name)


def commit(*more):
    """Returns the commit that is checked out, and whether the sources, or `more` of them, differ from it."""
    head = git("rev-parse", "HEAD")
    if head is None:
        return "unknown"
    changed = git("status", "--porcelain", "--", "crates.txt", *source_folders(), *more)
    return f"{head}, changed" if changed else head


def is_committed():
    """Returns whether all sources, those of the parts too, are those of the commit that is checked out."""
    files = [file for name in PARTS for file in PART_SOURCES[name]]
    return commit(*files, WEB) == git("rev-parse", "HEAD")


def has_other_sources(name):
    """Returns whether the repository has this commit, and other sources in it than those that are checked out."""
    is_known = (
        re.fullmatch("[0-9a-f]{40,64}", name)
        and git("cat-file", "-e", f"{name}^{{commit}}") is not None
    )
    return (
        bool(is_known)
        and git("diff", "--quiet", name, "--", "crates.txt", *source_folders()) is None
    )
