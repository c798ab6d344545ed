#!/usr/bin/env python3
"""The program and the libraries in release/: for each machine an archive of ./package, and the PROVED that stands in it too;
and the package for browsers and Node beside them.

    tools/release.py --take FOLDER KIT      lays out those for this machine in FOLDER, if they were built from the sources that
                                            are here and the program starts here; KIT is the version of the one on the PATH,
                                            or empty
    tools/release.py --compare FOLDER KIT   compares them with those in FOLDER, which KIT built here from these sources

What is for aarch64, and the package for browsers and Node, are made of more sources, and by tools beside the kit: they are
taken, and compared, if these are those that PROVED states too. Standard error says in one line where the program comes from,
or why it is not taken. Of a comparison, standard output says how it ends. The status is 1 if the program is not taken; if
release/ is damaged; if the same kit and tool built others from the same sources; and if an earlier release of others has the
version.
"""
import os
import subprocess
import sys

import paths  # noqa: F401  (it has Python find the others)
import contents
from packing import (
    archive,
    build,
    elsewhere,
    judge,
    library_wheel,
    parts,
    proved,
    scripts,
    web,
    wheel,
)
from packing.repository import ROOT, Refused, content, git

#: What stands in target/chipfire.stamp if ./chipfire took the program from release/.
STAMP = "release"


def unpacked(machine, version, data):
    """Returns what was built for a machine, bytes by the words of PROVED, of the archive whose PROVED is this."""
    path = f"{ROOT}/release/{contents.archive_name(version, machine)}"
    places = contents.archive_places(machine, version)
    _, built = judge.unpacked(
        archive, path, lambda found: {word: found[it].data for word, it in places.items()}
    )
    if built.pop("PROVED") != data:
        raise Refused("it is not the one that PROVED states")
    return built


def released():
    """Returns what is stated of the build in release/, and what was built, bytes by the words of PROVED."""
    data = content("release/PROVED")
    stated = proved.read(data)
    built = unpacked(contents.X86_64, stated.version, data)
    if contents.AARCH64.name in stated.parts:
        built.update(unpacked(contents.AARCH64, stated.version, data))
    if web.NAME in stated.parts:
        names = contents.web_places(stated.version)
        built.update((word, content(f"release/{name}")) for word, name in names.items())
    if proved.sums_of(built) != stated.sums:
        raise Refused("it is not the one that PROVED states")
    return stated, built


def of_these(stated, built):
    """Returns what was built of the sources that are here: the parts have more of them."""
    others = {
        word
        for name, words in proved.PARTS.items()
        if not proved.has(stated, name)
        for word in words
    }
    return {word: data for word, data in built.items() if word not in others}


def starts(path, version):
    """Returns whether a program starts here, and reports this version."""
    try:
        words, wanted = [path, "--version"], f"chipfire {version}\n"
        return scripts.prints(words, wanted, stderr=subprocess.DEVNULL)
    except OSError:
        return False


def loads(path, version):
    """Returns whether a library is loaded here, by a process of its own, and reports this version."""
    prints = "import ctypes, sys; print(ctypes.CDLL(sys.argv[1]).chipfire_version())"
    first, second, third = map(int, version.split("."))
    number = first * 10**6 + second * 1000 + third
    words = [sys.executable, "-c", prints, path]
    return scripts.prints(words, f"{number}\n", stderr=subprocess.DEVNULL)


def laid_out(folder):
    """Lays out the build in a folder, if it fits sources and machine, and returns it. It may not start here."""
    machine = contents.own()
    if machine is None:
        raise Refused(elsewhere.said())
    stated, built = released()
    if stated.sources != proved.sources():
        raise Refused("it was built from other sources than these")
    built = of_these(stated, built)
    if machine not in build.machines(built):
        raise Refused(f"it has nothing for {machine.name} that was made of these sources")
    build.lay_out(folder, built, machine)
    web.lay_out(folder, built)
    return build.Build(built, stated, {}, machine)


def wheel_of(folder):
    """Lays out the build in a folder, if it fits, and returns it, and the form of the wheel that is for this machine: that
    with the library alone where the C library is too old for the program."""
    fits = laid_out(folder)
    if starts(f"{folder}/{contents.PROGRAM}", fits.stated.version):
        return fits, wheel
    if loads(f"{folder}/{contents.SHARED}", fits.stated.version):
        return fits, library_wheel
    raise Refused("it does not start here")


def take(folder, kit):
    """Lays out the build in a folder, and returns what to say of it."""
    # (pip runs the rest of this file on systems that have no locks for files)
    import prove

    stated = laid_out(folder).stated
    if not starts(f"{folder}/{contents.PROGRAM}", stated.version):
        raise Refused("it does not start here")
    other = f"; the kit on the PATH is another, {kit}" if kit not in ("", stated.kit) else ""
    minutes = round(prove.minutes("chipfire"))
    return (
        f"the program comes from release/: {stated.kit} proved and built it from these very sources, of commit "
        f"{stated.commit[:12]}; ./chipfire --prove does it here, in some {minutes} min{other}"
    )


def check_version(stated):
    """Refuses the version that is stated of a build if a release before this commit has it, and another build."""
    built = stated.text().splitlines()[4:]
    for commit in (git("log", "--format=%H", "--", "release/PROVED") or "").split():
        lines = (git("show", f"{commit}:release/PROVED") or "").splitlines()
        if lines[:1] == [f"chipfire {stated.version}"] and lines[4:] != built:
            raise Refused(
                f"the release of commit {commit[:12]} has version {stated.version}, and another program or "
                "library, or is another for browsers: the new one needs a version of its own"
            )


def compare(folder, kit):
    """Returns how the build in release/ compares with that in a folder of the repository."""
    if not os.path.isdir(f"{ROOT}/release"):
        return "There is no release/ to compare with."
    stated, built = released()
    if stated.sources != proved.sources():
        return f"release/ was built from other sources than these, at commit {stated.commit[:12]}."
    check_version(stated)
    of_program = compare_program(stated, built, folder, kit)
    of_parts = (parts.compared(it, stated, built, folder, kit) for it in parts.MODULES)
    return "\n".join([of_program, *of_parts])


def compare_program(stated, built, folder, kit):
    """Returns how program and libraries in release/ compare with those in a folder of the repository."""
    here = build.built_in(folder)
    others = " and ".join(word for word in here if built[word] != here[word])
    if stated.kit != kit:
        result = f"another {others}" if others else "the same"
        return f"{stated.kit} built what is in release/, and {kit} built {result} here."
    if others:
        raise Refused(f"the same kit built another {others} here from the same sources")
    return "Program and libraries in release/ are those that were built here, byte for byte."


def main(word, folder, kit):
    try:
        if word == "--take":
            print(f"chipfire: {take(folder, kit)}", file=sys.stderr)
        else:
            print(compare(folder, kit))
    except (Refused, OSError) as why:
        said = "is not taken" if word == "--take" else "is refused"
        print(f"chipfire: the program in release/ {said}: {why}", file=sys.stderr)
        return 1
    return 0


if __name__ == "__main__":
    sys.exit(main(*sys.argv[1:]))
