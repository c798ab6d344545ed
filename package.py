#!/usr/bin/env python3
"""Makes of the proved program and the libraries what others install, or says whether a file is that.

    ./package                makes dist/ anew of the program that ./chipfire starts, which may come from release/, and of
                             the libraries beside it: an archive, a Debian package, two wheels for Python, and PROVED, which
                             stands in each of them; from release/ for each machine that it has
    ./package --prove        does so with what is proved and built here, for this machine alone
    ./package --release      makes release/ anew of that, which is to be committed: an archive for each machine, PROVED, and
                             what is made here for browsers and Node: the module chipfire.wasm, the package for npm, the page
    ./package --check FILE   says whether a program, a library, an archive, a Debian package or a wheel is the one of these
                             sources, and what is stated of it; where it is not, a line says why and the status is 1

docs/PACKAGES.md says what is in each, what it needs, and what a check compares.
"""
import argparse
import dataclasses
import itertools
import os
import runpy
import shutil
import subprocess
import sys
import tempfile

runpy.run_path(f"{os.path.dirname(os.path.realpath(__file__))}/tools/paths.py")
import contents  # noqa: E402
from packing import archive, build, debian, judge, library_wheel, parts, proved, wheel  # noqa: E402
from packing.repository import ROOT, Refused, content  # noqa: E402

import release  # noqa: E402


def built_here(kit, is_release):
    """Returns what this kit built here, and what is stated of it; for a release all parts, too."""
    built, of_parts = build.built_in("target"), {}
    if is_release:
        of_parts = parts.stated()
        built.update(parts.make())
    sums = proved.sums_of(built)
    stated = proved.Proved(
        contents.version(), kit, proved.commit(), proved.sources(), sums, of_parts
    )
    if not all(proved.has(stated, name) for name in of_parts):
        raise Refused("the sources changed meanwhile: start ./package again")
    return stated, built


def built_one(must_prove, is_release):
    """Returns the program that ./chipfire starts, with all that goes with it; or only one that was proved here."""
    before = proved.sources()
    words = ["--prove", "--version"] if must_prove else ["--version"]
    if subprocess.run([f"{ROOT}/chipfire", *words], stdout=subprocess.DEVNULL).returncode != 0:
        raise Refused("the program could not be proved and built")
    kit = content("target/chipfire.stamp").decode().strip()
    if kit == release.STAMP:
        stated, built = release.released()
        built = release.of_these(stated, built)
    else:
        stated, built = built_here(kit, is_release)
    if not stated.sources == before == proved.sources():
        raise Refused("the sources changed meanwhile: start ./package again")
    program = built[(contents.own() or contents.X86_64).built[0]]
    return build.Build(built, stated, judge.documents_of(program))


def files_beside(packed, is_release):
    """Returns the files that stand beside the packages of a build, bytes by names."""
    found = {"PROVED": packed.stated.text().encode()}
    if is_release:
        names = contents.web_places(packed.stated.version)
        found.update((name, packed.built[word]) for word, name in names.items())
    return found


def make(folder, forms, packed, files):
    """Makes a folder anew, with packages of these forms of a build, for each machine, and files, bytes by names, and returns
    the names of what is in it."""
    with tempfile.TemporaryDirectory(prefix="made-", dir=f"{ROOT}/target") as room:
        for machine, form in itertools.product(build.machines(packed.built), forms):
            its = dataclasses.replace(packed, machine=machine)
            form.write(f"{room}/{form.name(its)}", its)
        for name, data in files.items():
            with open(f"{room}/{name}", "wb") as file:
                file.write(data)
        shutil.rmtree(f"{ROOT}/{folder}", ignore_errors=True)
        os.mkdir(f"{ROOT}/{folder}")
        for name in os.listdir(room):
            shutil.copy(f"{room}/{name}", f"{ROOT}/{folder}")
    return [f"{folder}/{name}" for name in sorted(os.listdir(f"{ROOT}/{folder}"))]


def prepare_release():
    """Refuses what would make no release, before anything is proved."""
    parts.need_tools()
    if not proved.is_committed():
        raise Refused(
            "the sources are not those of a commit, which it would name: commit them first"
        )


def main():
    form = argparse.RawDescriptionHelpFormatter
    parser = argparse.ArgumentParser(prog="package", description=__doc__, formatter_class=form)
    parser.add_argument("--check", metavar="FILE", help=argparse.SUPPRESS)
    parser.add_argument("--prove", action="store_true", help=argparse.SUPPRESS)
    parser.add_argument("--release", action="store_true", help=argparse.SUPPRESS)
    asked = parser.parse_args()
    subject = asked.check or ("release" if asked.release else "dist")
    try:
        if asked.check is not None:
            stated, compared = judge.judge(asked.check)
            print(f"{subject} is of these sources. PROVED states:\n{stated.text()}{compared}")
            return 0
        if asked.release:
            prepare_release()
        packed = built_one(asked.prove or asked.release, asked.release)
        if asked.release:
            release.check_version(packed.stated)
        forms = [archive] if asked.release else [archive, debian, wheel, library_wheel]
        print(*make(subject, forms, packed, files_beside(packed, asked.release)), sep="\n")
    except (Refused, subprocess.CalledProcessError) as refused:
        print(f"package: {subject}: {refused}", file=sys.stderr)
        return 1
    except OSError as error:
        print(f"package: {error.filename or subject}: {error.strerror}", file=sys.stderr)
        return 1
    return 0


if __name__ == "__main__":
    sys.exit(main())
