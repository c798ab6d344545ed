#!/usr/bin/env python3
"""Makes the package for browsers and Node: what is proved as chipfire.wasm, the files of js/, the texts of the faults.

    tools/webassembly.py FOLDER     makes FOLDER anew; it is quick once `rt lib` in crates/chip_exports has proved all

The same sources and tools make the same bytes. It takes the kit on the PATH, and `wasm-opt` of binaryen.

The kit builds nothing for WebAssembly that allocates, since its heap calls C's. So what it lowers the proved functions
to for x86-64, a module of LLVM, is taken before it reaches the kit's clang. Pointers are as wide in WebAssembly with
64-bit addresses, and so clang compiles it for that, and the kit's linker links it with heap.c. `wasm-opt` then lowers
the addresses to 32 bits, since not every engine has longer ones; calls keep 64 bits for each pointer and length. Once
the kit has a heap there, `rt lib` links this module of a row of crates.txt: then heap.c, `lowered` and `linked` go.
"""
import json
import os
import re
import shlex
import shutil
import sys
import tempfile

import paths
from contents import MODULE, version
from making import X86_64, compile_crate, kit, need, run
from packing import faults
from packing.repository import content

SCRIPTS = ("chipfire.js", "chipfire.d.ts", "graph.js", "README.md")
#: The faults of the library's calls that no call of the package has.
OTHERS = (47,)
TARGET = "wasm64-unknown-unknown"
#: The processor and the flags by which the kit compiles for WebAssembly.
PROCESSOR = "lime1"
FLAGS = ["-O3", "-Werror", "-c", "-mcpu=lime1", "-mllvm", "-expand-div-rem-bits=64"]
FLAGS += ["-ffunction-sections", "-fdata-sections"]
#: The stack lies lowest, so that one that is too small is a trap. 64 KiB would do.
STACK = 1 << 20
#: The most memory that 32-bit addresses reach, less a page.
MEMORY = (1 << 32) - (1 << 16)
LINKED = ["-mwasm64", "--no-entry", "--stack-first", "-z", f"stack-size={STACK}"]
LINKED += [f"--max-memory={MEMORY}", "--gc-sections", "--strip-all", "--fatal-warnings"]
#: What chipfire.wasm exports beside the functions of the library: memory for the arrays of a caller.
ROOMS = ("chipfire_room", "chipfire_free")
#: What lowering leaves in the module, which all engines have.
FEATURES = ("memory64", "bulk-memory", "sign-ext", "nontrapping-float-to-int", "mutable-globals")
#: What stands in for the kit's clang: it keeps the module that it should compile. (rattle gives it no environment.)
KEEPING = """#!/bin/sh
cp -- module.bc {room} && exec {clang} "$@"
"""


def lowered(room, clang):
    """Returns the module of LLVM that the kit lowers the proved functions to for x86-64, as text."""
    tools = f"{room}/tools"
    os.makedirs(f"{tools}/bin")
    os.symlink(f"{kit()}/toolchain/lib", f"{tools}/lib")
    for name in ("ld.lld", "llvm-ar"):
        os.symlink(clang, f"{tools}/bin/{name}")
    with open(f"{tools}/bin/clang", "w", encoding="utf-8") as file:
        file.write(KEEPING.format(room=shlex.quote(room), clang=shlex.quote(clang)))
    os.chmod(f"{tools}/bin/clang", 0o755)
    compile_crate("chip_exports", X86_64, tools, f"{room}/native.a")
    as_text = ["-S", "-emit-llvm", "-Xclang", "-disable-llvm-passes", "-O3"]
    run(clang, "-x", "ir", f"{room}/module.bc", *as_text, "-o", f"{room}/native.ll")
    return content(f"{room}/native.ll").decode()


def for_web(text):
    """Returns a module of LLVM for x86-64 as one for WebAssembly."""
    own = re.findall(r"@llvm\.x86\.\S+|\basm ", text)
    need(not own, f"the module is for x86-64 alone: {own[:1]}")
    text = re.sub(r"(?m)^(source_filename|target (datalayout|triple)) = .*\n", "", text)
    text = re.sub(r'"(probe-stack|stack-probe-size)"="[^"]*" ?', "", text)
    text = re.sub(r'"target-cpu"="[^"]*"', f'"target-cpu"="{PROCESSOR}"', text)
    return f'target triple = "{TARGET}"\n{text}'


def linked(room, clang):
    """Links the module with 64-bit addresses, and returns its path."""
    to_web = [f"--target={TARGET}", *FLAGS]
    with open(f"{room}/web.ll", "w", encoding="utf-8") as file:
        file.write(for_web(lowered(room, clang)))
    run(clang, *to_web, "-x", "ir", f"{room}/web.ll", "-o", f"{room}/web.o")
    heap = f"{paths.ROOT}/tools/heap.c"
    run(clang, *to_web, "-ffreestanding", "-nostdinc", heap, "-o", f"{room}/heap.o")
    declared = re.findall(r"^\w+ (chipfire_\w+)\(", content("include/chipfire.h").decode(), re.M)
    exports = [f"--export={it}" for it in (*declared, *ROOMS)]
    words = [*LINKED, *exports, "-o", f"{room}/long.wasm", f"{room}/web.o", f"{room}/heap.o"]
    run("wasm-ld", *words, executable=clang)
    return f"{room}/long.wasm"


def module():
    """Returns the bytes of the module with 32-bit addresses."""
    need(shutil.which("wasm-opt"), "wasm-opt is not on the PATH: Debian's package binaryen has it")
    with tempfile.TemporaryDirectory(prefix="chipfire-web-") as room:
        long = linked(room, f"{kit()}/toolchain/bin/clang")
        features = [f"--enable-{it}" for it in FEATURES]
        run("wasm-opt", *features, "--memory64-lowering", "-O3", long, "-o", f"{room}/{MODULE}")
        return content(f"{room}/{MODULE}")


def faults_for_js():
    """Returns the faults of the package's calls by their numbers: the name of each, and what is wrong, with {} for a place."""
    found = {}
    rows = {number: row for number, row in faults.rows().items() if number not in OTHERS}
    for number, (name, letters, _, meaning, advice) in rows.items():
        # (a call takes as many as a command with --large)
        most = re.search(r"With\s+`--large`\s+each\s+command\s+takes\s+up\s+to\s+(\d+)", advice)
        wrong = re.sub(r"more than \d+", f"more than {most[1]}", meaning) if most else meaning
        letter = letters.strip()
        found[number] = [name, re.sub(rf"\b{letter}\b", "{}", wrong) if letter else wrong]
    return found


def scripts():
    """Returns the other files of the package, by their names."""
    stated = {**json.loads(content("js/package.json")), "version": version()}
    rows = "".join(f"  {number}: {json.dumps(it)},\n" for number, it in faults_for_js().items())
    head = "/* Of each fault its name, and what is wrong, with {} for its place. Made by tools/webassembly.py. */\n"
    return {
        **{name: content(f"js/{name}") for name in SCRIPTS},
        "faults.js": f"{head}export const faults = {{\n{rows}}};\n".encode(),
        "package.json": f"{json.dumps(stated, indent=2)}\n".encode(),
    }


def main(folder):
    files = {MODULE: module(), **scripts()}
    shutil.rmtree(folder, ignore_errors=True)
    os.makedirs(folder)
    for name, data in files.items():
        with open(f"{folder}/{name}", "wb") as file:
            file.write(data)


if __name__ == "__main__":
    need(len(sys.argv) == 2, "it takes one word, the folder")
    main(sys.argv[1])
