#!/usr/bin/env python3
"""How the kit compiles a crate that is proved, for this machine or for another target, over the proofs that are kept.

    tools/making.py CRATE FILE      compiles a static library for x86-64 into a file, over the crates below as they were built:
                                    `rt lib` makes the same of crates that it has proved itself
"""
import os
import shutil
import subprocess
import sys

import paths
from packing.crates import below, libraries

#: The target of the machine that the kit runs on.
X86_64 = "x86_64-unknown-linux-gnu"


def need(ok, why):
    """Ends the script where something is not so."""
    if not ok:
        sys.exit(f"{os.path.relpath(sys.argv[0], paths.ROOT)}: {why}")


def kit():
    """Returns the folder of the kit on the PATH."""
    found = shutil.which("rt")
    need(found, "rt is not on the PATH")
    return os.path.dirname(os.path.dirname(os.path.realpath(found)))


def run(*words, **how):
    """Runs a command, which may be a tool of the kit's one program under its own name."""
    ran = subprocess.run(words, stdout=subprocess.PIPE, stderr=subprocess.STDOUT, **how)
    need(ran.returncode == 0, f"{words[0]} failed:\n{ran.stdout.decode(errors='replace')}")


def crate_folder(name):
    """Returns the folder of a crate."""
    return f"{paths.ROOT}/crates/{name}"


def built_below(crate):
    """Returns the folders of the libraries below a crate, by their names. What is not there `rt lib` proves and builds."""
    folders = {it: f"{crate_folder(it)}/out/rlib" for it in below(crate, libraries())}
    for name, folder in folders.items():
        if not os.path.exists(f"{folder}/{name}.rlib"):
            run("rt", "lib", "--jobs", "1", cwd=crate_folder(name))
    return folders


def words_for(crate, target):
    """Returns the words by which the kit reads a crate for a target: a program if it has `main`, else a static library."""
    home, folders = kit(), built_below(crate)
    is_program = os.path.exists(f"{crate_folder(crate)}/src/main.rt")
    root = "src/main.rt" if is_program else "src/lib.rt"
    words = ["--crate-name", crate, root]
    words += ["--extern", f"std={home}/rlibs/std.rlib", "-L", f"dependency={home}/rlibs"]
    for name, folder in folders.items():
        if name in libraries()[crate]:
            words += ["--extern", f"{name}={folder}/{name}.rlib"]
        words += ["-L", f"dependency={folder}"]
    words += ["--antt-project", f"{home}/rattle/logic/antt-project.json"]
    words += ["--logic-built", f"{home}/logic_built", "--links", f"{crate}="]
    words += [] if is_program else ["--crate-type", "staticlib"]
    return [*words, "--target", target, "--jobs", "1", "--incremental", "out/incremental"]


def compile_crate(crate, target, toolchain, to, *more):
    """Has the kit compile a crate for a target by a toolchain: a program to an object file, else a static library."""
    words = [*words_for(crate, target), *more, "--toolchain", toolchain, "-o", to]
    run(f"{kit()}/bin/rattle", "build", *words, cwd=crate_folder(crate))


if __name__ == "__main__":
    need(len(sys.argv) == 3, "it takes two words, a crate and a file")
    compile_crate(sys.argv[1], X86_64, f"{kit()}/toolchain", os.path.abspath(sys.argv[2]))
