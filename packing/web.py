"""The package for browsers and Node, and its page: how they are made, and how they lie in one folder."""
import os

from contents import BOARD, MODULE, NPM, WEB, version
from packing import npm, scripts
from packing.repository import Refused, content

NAME = "web"
TITLE = "The package for browsers and Node"
#: How the module is made: PROVED says so.
MADE = (
    "the proved functions of chip_exports, lowered by the kit for x86-64, compiled by its LLVM for WebAssembly over "
    "tools/heap.c, and lowered by wasm-opt to 32-bit addresses; no proof covers what follows the first lowering"
)
#: The tool that makes the module.
TOOL = "wasm-opt"
SCRIPTS = ("webassembly.py", "board.py")
FOLDER = WEB
#: The script by which Node prints a package's version; the package's address follows it.
PRINTS = "const { load } = await import(process.argv[1]); console.log((await load()).version);"


def missing(is_tried=False):
    """Returns what it lacks here to be made, or to be tried too, as a sentence, or nothing."""
    return scripts.lacking({TOOL: "binaryen", **({"node": "nodejs"} if is_tried else {})})


def tools():
    """Returns the version of the tool on the PATH that makes the module beside the kit, or None."""
    return scripts.first_line(TOOL, "--version")


def try_in(folder):
    """Refuses the package in a folder of another, if it does not start in Node, or reports another version."""
    words = ["node", "--input-type=module", "--eval", PRINTS, f"file://{folder}/{WEB}/chipfire.js"]
    if not scripts.prints(words, f"{version()}\n"):
        raise Refused("the package for browsers and Node does not start in Node")


def made_in(folder):
    """Returns the files that were made in the folder `WEB` of another, bytes by names."""
    return {name: content(f"{folder}/{WEB}/{name}") for name in os.listdir(f"{folder}/{WEB}")}


def built_in(folder):
    """Returns what was made in the folder `WEB` of another, bytes by the words of PROVED."""
    made = made_in(folder)
    return {MODULE: made[MODULE], NPM: npm.packed(made), BOARD: made[BOARD]}


def files(built):
    """Returns the files of the folder of what was made, bytes by names."""
    found = npm.unpacked(built[NPM])
    if found.get(MODULE) != built[MODULE]:
        raise Refused(f"{MODULE} in the package for npm is another than that beside it")
    return {**found, BOARD: built[BOARD]}


def lay_out(folder, built):
    """Writes what was made, if it was, into the folder `WEB` of another."""
    if NPM not in built:
        return
    os.makedirs(f"{folder}/{WEB}")
    for name, data in files(built).items():
        with open(f"{folder}/{WEB}/{name}", "wb") as file:
            file.write(data)


def differing(built, folder):
    """Returns the names of the files that are others in what was made, or in the folder `WEB` of another."""
    ours, here = files(built), made_in(folder)
    return sorted(name for name in {*ours, *here} if ours.get(name) != here.get(name))
