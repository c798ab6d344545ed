"""The Python wheel that carries the program and the library, and installs the program as the command chipfire."""
import zipfile

import contents
import wheels
from contents import wheel_places as places
from packing import needs
from packing.build import File
from packing.repository import Refused


def tag_for(asking, machine):
    """Returns which machines a wheel is for, of which these bytes ask for the newest C library."""
    return "py3-none-manylinux_{}_{}_{}".format(*needs.c_library(asking), machine.name)


def tag(packed):
    """Returns which machines the wheel is for."""
    return tag_for(packed.program(), packed.machine)


def name(packed):
    """Returns the wheel's name."""
    return contents.wheel_name(tag(packed))


def carried(packed, its_places):
    """Returns what a wheel with these places carries beside the package, bytes by names."""
    its = {**packed.built, "PROVED": packed.stated.text().encode()}
    return {place: its[word] for word, place in its_places.items() if word in its}


def bytes_of(packed):
    """Returns the wheel's files, bytes by names."""
    return wheels.with_package(tag(packed), carried(packed, places(packed.machine)), wheels.COMMAND)


def files(packed):
    """Returns the wheel's files by their names."""
    program = f"{contents.CARRIED}/{contents.PROGRAM}"
    return {
        name: File(data, 0o755 if name == program else 0o644)
        for name, data in bytes_of(packed).items()
    }


def documents(found):
    """Returns the documents among the files of a wheel: it has none."""
    return {}


def write(path, packed):
    """Writes the wheel of a build."""
    wheels.write(path, bytes_of(packed), programs=[f"{contents.CARRIED}/{contents.PROGRAM}"])


def read(path):
    """Returns the files of a wheel by their names."""
    with zipfile.ZipFile(path) as archive:
        entries = archive.infolist()
        if len({it.filename for it in entries}) < len(entries):
            raise Refused("a file is there twice in it")
        return {
            it.filename: File(archive.read(it), it.external_attr >> 16 & 0o7777) for it in entries
        }
