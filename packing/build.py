"""What was built, and its files in packages: those that the archive and the Debian package both have."""
from __future__ import annotations

import os
from dataclasses import dataclass

import contents
from contents import COMMANDS, FILES, HEADERS, PAGES, PROGRAM, SHARED, SONAME, X86_64, version
from packing import changes, completions, linking, manual, usage
from packing.proved import Proved
from packing.repository import ROOT, Refused, below, content

#: Who makes the completions, by their places.
COMPLETIONS = {
    contents.BASH: completions.bash,
    contents.ZSH: completions.zsh,
    contents.FISH: completions.fish,
}
#: The mode of a link, whose bytes are what it names.
LINK = 0o120777


@dataclass(frozen=True)
class File:
    """A file with its mode."""

    data: bytes
    mode: int = 0o644


@dataclass(frozen=True)
class Build:
    """What was built, bytes by the words of PROVED, what is stated of it, the program's documents by their places, and the
    machine that is packed for."""

    built: dict[str, bytes]
    stated: Proved
    documents: dict[str, bytes]
    machine: contents.Machine = X86_64

    def program(self):
        """Returns the bytes of the program."""
        return self.built[self.machine.built[0]]


def built_in(folder, machine=X86_64):
    """Returns what was built for a machine into a folder, bytes by the words of PROVED."""
    return {word: content(f"{folder}/{name}") for word, name in zip(machine.built, FILES)}


def machines(built):
    """Returns the machines that something was built for."""
    return [it for it in contents.MACHINES if built.keys() >= {*it.built}]


def link_soname(folder):
    """Gives the library in a folder the second name by which programs find it that were linked with it. (It is no
    symbolic link, since the kit's gate takes none.)"""
    if os.path.lexists(f"{folder}/{SONAME}"):
        os.remove(f"{folder}/{SONAME}")
    os.link(f"{folder}/{SHARED}", f"{folder}/{SONAME}")


def lay_out(folder, built, machine):
    """Writes what was built for a machine into a folder."""
    for word, name in zip(machine.built, FILES):
        with open(f"{folder}/{name}", "wb") as file:
            file.write(built[word])
    os.chmod(f"{folder}/{PROGRAM}", 0o755)
    link_soname(folder)


def documents(program):
    """Returns the manual pages and the completions of the program with this path, by their places."""
    stated = usage.version_of(program)
    if stated != version():
        raise Refused(
            f"the program says that it has version {stated}, and its sources say {version()}"
        )
    whole, commands = usage.read_program(program)
    made = {place: make(whole, commands).encode() for place, make in COMPLETIONS.items()}
    if tuple(it.name for it in commands) != COMMANDS:
        raise Refused("the program has other commands than python/contents.py says")
    pages = manual.pages(whole, commands, version(), changes.entry()[0])
    return {**{place: text.encode() for place, text in pages.items()}, **made}


def files(build, libraries, prefix=None):
    """Returns the files of a build, by their places below a folder such as /usr, with the libraries in a folder of it. If
    all lies in one folder for good, that is the prefix."""
    found = {place: File(data) for place, data in build.documents.items()}
    for word, place in contents.places(libraries, build.machine).items():
        data = build.stated.text().encode() if word == "PROVED" else build.built[word]
        found[place] = File(data, 0o755 if word == build.machine.built[0] else 0o644)
    found[f"{libraries}/{SHARED}"] = File(SONAME.encode(), LINK)
    for place, text in linking.files(libraries, prefix).items():
        found[f"{libraries}/{place}"] = File(text.encode())
    for header in HEADERS:
        found[header] = File(content(header))
    for name in below("examples"):
        mode = 0o755 if os.access(f"{ROOT}/{name}", os.X_OK) else 0o644
        found[f"{PAGES}/{name}"] = File(content(name), mode)
    return found
