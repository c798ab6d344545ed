#!/usr/bin/env python3
"""Links the libraries of C of what is proved: libchipfire.so and libchipfire.a.

    tools/library.py PROVED FOLDER   links them of PROVED, the archive that `rt lib` made of chip_exports, into FOLDER

The kit on the PATH has all that it takes: the linker, the archiver, and the heap, which calls the C library's. The same
archive and kit make the same bytes wherever they lie. tools/aarch64.py links those for aarch64 in the same way.
"""
import os
import struct
import sys
import tempfile

import paths  # noqa: F401  (it has Python find the others)
from contents import SHARED, SONAME, STATIC
from making import kit, run
from packing.build import link_soname

#: What others may call. Their memory is protected once the library is loaded, and it asks for no name that is not there.
EXPORTS = "{ global: chipfire_*; local: *; };\n"
WORDS = [
    "-shared",
    "-soname",
    SONAME,
    "--strip-all",
    "--build-id=none",
    "--no-undefined",
    *(word for kind in ("now", "relro", "noexecstack") for word in ("-z", kind)),
]
#: What says to a loader that the code is for processors of the level x86-64-v2, so that it refuses others by a
#: sentence: a note of GNU, whose kind 5 has properties, of which 0xC0008002 is the level that is needed.
LEVEL = struct.pack("<3I4s4I", 4, 16, 5, b"GNU", 0xC0008002, 4, 1 << 1, 0)
#: The sections of that note: the one that other linkers put into a program, and one that the kit's own does not leave out.
FOR_LINKERS, FOR_LOADERS = ".note.gnu.property", ".note.level"


def tool(name, *words):
    """Calls a tool of the kit."""
    run(f"{kit()}/toolchain/bin/{name}", *words)


def objcopy(*words):
    """Calls the kit's llvm-objcopy, which is its compiler under that name."""
    run("llvm-objcopy", *words, executable=f"{kit()}/toolchain/bin/clang")


def noted(archive, section, room):
    """Returns the path of an archive whose members have the note in a section of this name."""
    note, name = f"{room}/note", os.path.basename(archive)
    added, to = f"{room}/added", f"{room}/{section}/{name}"
    os.mkdir(os.path.dirname(to))
    with open(note, "wb") as file:
        file.write(LEVEL)
    flags = f"--set-section-flags={section}=alloc,readonly"
    objcopy(f"--add-section={section}={note}", flags, archive, added)
    # (a section has to be there before its alignment is set)
    objcopy(f"--set-section-alignment={section}=8", added, to)
    return to


def link_shared(proved, heap, c_library, room, to):
    """Links the shared library of archives of what is proved and of the heap, for a C library."""
    exports = f"{room}/exports"
    with open(exports, "w", encoding="ascii") as file:
        file.write(EXPORTS)
    inputs = ["--whole-archive", proved, "--no-whole-archive", heap, c_library]
    linked = [*WORDS, "--version-script", exports, "-o", f"{room}/{SHARED}", *inputs]
    tool("ld.lld", *linked)
    strip_names(f"{room}/{SHARED}", to)


def link_static(proved, heap, room, to):
    """Makes the library that programs are linked with."""
    # (q adds the members of both, s the list of names, and D leaves out dates and owners)
    tool("llvm-ar", "qcsDL", f"{room}/{STATIC}", proved, heap)
    strip_names(f"{room}/{STATIC}", to)


def strip_names(file, to):
    """Leaves out the names of compilers."""
    objcopy("--remove-section=.comment", file, to)


def main(proved, folder):
    heap, c_library = f"{kit()}/c/liblibc_c.a", f"{kit()}/toolchain/lib/libc.so.6"
    with tempfile.TemporaryDirectory(prefix="chipfire-link-") as room:
        for_loaders = noted(proved, FOR_LOADERS, room)
        link_shared(for_loaders, heap, c_library, room, f"{folder}/{SHARED}")
        link_static(noted(proved, FOR_LINKERS, room), heap, room, f"{folder}/{STATIC}")
    link_soname(folder)


if __name__ == "__main__":
    main(*sys.argv[1:])
