"""What is made beside program and libraries, by tools beside the kit: that for aarch64, and the package for browsers and
Node. A part is a module with its NAME in PROVED, its TITLE in sentences, how it is MADE, the FOLDER that its SCRIPTS make,
the TOOL that they take, and these functions:

    missing(is_tried)          what it lacks here to be made, or to be tried too, as a sentence, or nothing
    tools()                    the versions of the tools on the PATH that make it beside the kit, or None
    try_in(folder)             refuses what was made in a folder, if it does not start
    built_in(folder)           what was made in a folder, bytes by the words of PROVED
    differing(built, folder)   the names of the files that are others in what was made, or in a folder
"""
import concurrent.futures
import os
import shutil
import tempfile

from packing import aarch64, proved, scripts, web
from packing.repository import Refused

MODULES = (aarch64, web)


def need_tools():
    """Refuses to go on where a tool is missing."""
    for part in MODULES:
        if lacks := part.missing(is_tried=True):
            raise Refused(lacks)


def stated():
    """Returns what is stated of the parts that are made here now, by their names."""
    return {
        it.NAME: proved.Part(proved.part_sources(it.NAME), it.tools(), it.MADE) for it in MODULES
    }


def make_in(part, folder):
    """Makes a part in its folder of another."""
    scripts.run(part.SCRIPTS, f"{folder}/{part.FOLDER}", part.TITLE)


def make():
    """Makes all parts, tries them, and returns their bytes by the words of PROVED."""
    built = {}
    with tempfile.TemporaryDirectory(prefix="chipfire-parts-") as made:
        room = os.path.realpath(made)
        for part in MODULES:
            make_in(part, room)
            part.try_in(room)
            built.update(part.built_in(room))
    return built


def made_beside(part, folder):
    """Makes a part whose tools are here in a folder, and returns a line that says why not, or nothing."""
    shutil.rmtree(f"{folder}/{part.FOLDER}", ignore_errors=True)
    if lacks := part.missing():
        return f"SKIPPED {part.TITLE}: {lacks}"
    try:
        make_in(part, folder)
    except Refused as why:
        return f"FAILED {why}"
    return ""


def make_beside(folder):
    """Makes the parts side by side in a folder, says which are not made, and returns whether none has failed."""
    with concurrent.futures.ThreadPoolExecutor() as pool:
        lines = [*pool.map(lambda part: made_beside(part, folder), MODULES)]
    print(*filter(None, lines), sep="\n", end="\n" if any(lines) else "")
    return not any(it.startswith("FAILED") for it in lines)


def compared(part, stated_of_all, built, folder, kit):
    """Returns how a part in release/ compares with that in a folder of the repository."""
    its = f"{part.TITLE} in release/"
    if not proved.has(stated_of_all, part.NAME):
        return f"{its} was made of other sources than these, or is not there."
    stated_of_it, tools = stated_of_all.parts[part.NAME], part.tools()
    if (stated_of_all.kit, stated_of_it.tools) != (kit, tools):
        made = f"{stated_of_all.kit} and {stated_of_it.tools}"
        here = f"{kit} and {tools or f'no {part.TOOL}'}"
        return f"{its} was made by {made}, and is not compared: here are {here}."
    if others := " and ".join(part.differing(built, folder)):
        raise Refused(f"the same kit and {tools} made another {others} here from the same sources")
    return f"{its} is the one that was made here, byte for byte."
