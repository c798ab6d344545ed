"""The Debian package, which Debian's dpkg-deb builds and unpacks."""
import email.utils
import gzip
import hashlib
import os
import subprocess
import tempfile
import textwrap

import contents
from contents import debian_places as places
from contents import version
from packing import archive, build, changes, needs
from packing.build import LINK, File
from wheels import gzipped

MAINTAINER = "The authors of chipfire <authors@chipfire.invalid>"
COPYRIGHT = """\
Format: https://www.debian.org/doc/packaging-manuals/copyright-format/1.0/
Upstream-Name: chipfire

Files: *
Copyright: 2026 the authors of chipfire
License: none-stated
 The authors have stated no licence. All rights are theirs.
"""
OVERRIDES = """\
# The program is the one that was proved and built, byte for byte: it keeps its symbols.
chipfire: unstripped-binary-or-object [usr/bin/chipfire]
# One package has the program, the library, and what is linked with it: none is there without the others.
chipfire: package-name-doesnt-match-sonames {name}{number}
chipfire: link-to-shared-library-in-wrong-package usr/{libraries}/{name}.so.{number} *
"""
CONTROL = """\
Package: chipfire
Version: {version}
Architecture: {architecture}
Maintainer: {maintainer}
Installed-Size: {size}
Depends: libc6 (>= {libc})
Section: math
Priority: optional
Description: distributed chip-firing machine that is proved right
 It plays a chip-firing game on a directed multigraph with a sink, on any
 number of threads, and writes how often each vertex fired and the chips
 at the end. The counts are the same for every schedule, by proof.
 Programs in C and C++ play such games by its library.
"""


def name(packed):
    """Returns the package's file name."""
    return contents.debian_name(packed.machine)


def changelog():
    """Returns the list of changes as Debian writes it."""
    points = "\n".join(
        textwrap.fill(it, 76, initial_indent="  * ", subsequent_indent="    ")
        for it in changes.entry()[1]
    )
    day = email.utils.formatdate(changes.seconds())
    return (
        f"chipfire ({version()}) unstable; urgency=medium\n\n{points}\n\n -- {MAINTAINER}  {day}\n"
    )


def control(packed, size):
    """Returns what dpkg reads of a build whose files have `size` bytes."""
    return CONTROL.format(
        version=version(),
        architecture=packed.machine.debian,
        maintainer=MAINTAINER,
        size=(size + 1023) // 1024,
        libc="{}.{}".format(*needs.c_library(packed.program())),
    )


def files(packed):
    """Returns the package's files by their names in the root, with those that dpkg reads below DEBIAN."""
    libraries = contents.debian_libraries(packed.machine)
    inside = build.files(packed, libraries, prefix="/usr")
    found = {f"usr/{place}": file for place, file in inside.items()}
    for place in contents.manuals():
        found[f"usr/{place}.gz"] = File(gzipped(found.pop(f"usr/{place}").data))
    found[contents.DEBIAN_CHANGES] = File(gzipped(changelog().encode()))
    found[contents.DEBIAN_COPYRIGHT] = File(COPYRIGHT.encode())
    name, number = contents.SONAME.split(".so.")
    overrides = OVERRIDES.format(libraries=libraries, name=name, number=number)
    found[contents.DEBIAN_OVERRIDES] = File(overrides.encode())
    sums = [
        f"{hashlib.md5(file.data).hexdigest()}  {place}\n"
        for place, file in sorted(found.items())
        if file.mode != LINK
    ]
    size = sum(len(file.data) for file in found.values())
    found["DEBIAN/md5sums"] = File("".join(sums).encode())
    found["DEBIAN/shlibs"] = File(f"{name} {number} chipfire (>= {version()})\n".encode())
    found["DEBIAN/triggers"] = File(b"activate-noawait ldconfig\n")
    found["DEBIAN/control"] = File(control(packed, size).encode())
    return found


def documents(found):
    """Returns the documents among the files of a package, by their places."""
    manuals = {it: gzip.decompress(found[f"usr/{it}.gz"].data) for it in contents.manuals()}
    return {**manuals, **{place: found[f"usr/{place}"].data for place in contents.COMPLETIONS}}


def lay_out(room, inside, seconds):
    """Writes files by their names below a folder, with their modes, and all of one date."""
    for name, file in inside.items():
        os.makedirs(os.path.dirname(f"{room}/{name}"), exist_ok=True)
        if file.mode == LINK:
            os.symlink(file.data, f"{room}/{name}".encode())
            continue
        with open(f"{room}/{name}", "wb") as opened:
            opened.write(file.data)
        os.chmod(f"{room}/{name}", file.mode)
    for folder, _, names in os.walk(room):
        os.chmod(folder, 0o755)
        for name in (".", *names):
            os.utime(f"{folder}/{name}", (seconds, seconds), follow_symlinks=False)


def write(path, packed):
    """Writes the package of a build. All its files are root's, and of the version's day."""
    with tempfile.TemporaryDirectory(prefix="chipfire-deb-") as room:
        lay_out(room, files(packed), changes.seconds())
        words = ["dpkg-deb", "--root-owner-group", "-Zxz", "-z6", "--build", room, path]
        day = {"SOURCE_DATE_EPOCH": str(changes.seconds())}
        subprocess.run(words, check=True, stdout=subprocess.DEVNULL, env={**os.environ, **day})


def read(path):
    """Returns the files of a package by their names in the root, with those that dpkg reads below DEBIAN."""
    found = {}
    for part, folder in (("--fsys-tarfile", ""), ("--ctrl-tarfile", "DEBIAN/")):
        asked = subprocess.run(["dpkg-deb", part, path], check=True, capture_output=True)
        found |= {f"{folder}{name}": file for name, file in archive.members(asked.stdout).items()}
    return found
