"""The Python wheel for a C library that is too old for the program: it carries libchipfire, and no program and no command.

One tag cannot say both, so pip takes this one where the tag of the other wheel is refused."""
import contents
import wheels
from contents import library_places as places
from packing import faults, wheel
from packing.build import File
from packing.wheel import documents, read  # noqa: F401  (every form has these)

#: Why the wheel has no program: a package that was installed of it says so.
WITHOUT = b"this is the package for a C library that is too old for the program"


def tag(packed):
    """Returns which machines the wheel is for."""
    return wheel.tag_for(packed.built[packed.machine.built[1]], packed.machine)


def name(packed):
    """Returns the wheel's name."""
    return contents.wheel_name(tag(packed))


def bytes_of(packed):
    """Returns the wheel's files, bytes by names."""
    inside = wheel.carried(packed, places(packed.machine))
    more = {contents.FAULTS: faults.texts(), contents.NOTED_REASON: WITHOUT}
    return wheels.with_package(tag(packed), {**inside, **more})


def files(packed):
    """Returns the wheel's files by their names."""
    return {name: File(data) for name, data in bytes_of(packed).items()}


def write(path, packed):
    """Writes the wheel of a build."""
    wheels.write(path, bytes_of(packed))
