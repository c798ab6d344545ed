#!/usr/bin/env python3
"""Makes program and libraries for aarch64 Linux of what is proved.

    tools/aarch64.py FOLDER     makes FOLDER anew; it is quick once crates/chipfire and crates/chip_exports are proved

The kit lowers and compiles for aarch64 what is proved, for the processor `generic`, which each of these machines has. It
has neither C library nor C code for that machine: a cross compiler has the one, `malloc.c` and `os.c` are the other. The
same sources, kit and compiler make the same bytes.
"""
import os
import shutil
import sys
import tempfile
from concurrent.futures import ThreadPoolExecutor

import paths
from contents import PROGRAM, SHARED, STATIC
from library import link_shared, link_static, tool
from making import compile_crate, kit, need, run
from packing.aarch64 import C_LIBRARY, TOOL, found, missing
from packing.build import link_soname

TARGET = "aarch64-unknown-linux-gnu"
PROCESSOR = ("--cpu", "generic")
#: What the kit's linker looks for beside the kit's own tools.
OF_C = (C_LIBRARY, "libm.so.6", "libc_nonshared.a", "ld-linux-aarch64.so.1", "libgcc_s.so.1")
OF_COMPILER = ("Scrt1.o", "crti.o", "crtn.o", "crtbeginS.o", "crtendS.o", "libgcc.a")
#: How the C code is compiled: position-independent, and alike wherever it lies.
FLAGS = ("-std=c11", "-O2", "-fPIC", "-Wall", "-Wextra", "-Werror", "-c")
#: What the program asks of the system, and what both ask for memory.
SYSTEM, HEAP = "os", "malloc"


def file_of(name):
    """Returns where a file of the machine's is."""
    path = found(name)
    need(path, f"{TOOL} finds no {name}")
    return path


def compiled(name, room):
    """Returns the object file of C code in this folder."""
    to = f"{room}/{name}.o"
    run(TOOL, *FLAGS, f"{paths.ROOT}/tools/{name}.c", "-o", to)
    return to


def link_libraries(room, folder):
    """Links the libraries, as those for x86-64 are."""
    proved, heap = f"{room}/proved.a", f"{room}/heap.a"
    compile_crate("chip_exports", TARGET, f"{kit()}/toolchain", proved, *PROCESSOR)
    tool("llvm-ar", "qcsD", heap, compiled(HEAP, room))
    link_shared(proved, heap, file_of(C_LIBRARY), room, f"{folder}/{SHARED}")
    link_static(proved, heap, room, f"{folder}/{STATIC}")
    link_soname(folder)


def lay_out_toolchain(room):
    """Returns a folder with the kit's tools, and the machine's libraries beside them."""
    os.makedirs(f"{room}/tools/lib")
    os.symlink(f"{kit()}/toolchain/bin", f"{room}/tools/bin")
    for name in (*OF_C, *OF_COMPILER):
        os.symlink(file_of(name), f"{room}/tools/lib/{name}")
    return f"{room}/tools"


def link_program(room, folder):
    """Links the program."""
    object_file, code = f"{room}/chipfire.o", [compiled(it, room) for it in (SYSTEM, HEAP)]
    compile_crate("chipfire", TARGET, f"{kit()}/toolchain", object_file, *PROCESSOR)
    linked = ["--target", TARGET, "--toolchain", lay_out_toolchain(room)]
    linked += ["-o", f"{folder}/{PROGRAM}", object_file, *code]
    run(f"{kit()}/bin/rattle-link", *linked)


def main(folder):
    lacks = missing()
    need(not lacks, lacks)
    shutil.rmtree(folder, ignore_errors=True)
    os.makedirs(folder)
    with tempfile.TemporaryDirectory(prefix="chipfire-aarch64-") as room:
        with ThreadPoolExecutor() as pool:
            links = [
                pool.submit(link, tempfile.mkdtemp(dir=room), folder)
                for link in (link_libraries, link_program)
            ]
        for linked in links:
            linked.result()


if __name__ == "__main__":
    need(len(sys.argv) == 2, "it takes one word, the folder")
    main(sys.argv[1])
