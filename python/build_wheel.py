"""What pip asks to install the package: a wheel with the folder chipfire, made by the standard library alone.

So `pip install ./python` needs no network and no other package. The functions are those of Python's PEP 517 and,
for `pip install -e`, 660. The wheel carries the program in release/ of the repository if `./chipfire` takes it there, and
the library alone where the C library is too old for the program.
"""
import io
import os
import runpy
import sys
import tarfile
import tempfile

import contents
import wheels
from contents import version


def _carry_release(folder):
    """Writes the wheel with the program in release/ of the repository, and returns its name; or None, and why not."""
    if contents.is_old():
        return (
            None,
            "this Python is too old",
        )  # (pip refuses the wheel, by what its metadata require)
    runpy.run_path(f"{contents.REPOSITORY}/tools/paths.py")
    import release

    try:
        with tempfile.TemporaryDirectory(prefix="chipfire-wheel-") as room:
            packed, form = release.wheel_of(room)
    except (release.Refused, OSError) as error:
        print(
            f"chipfire: the package has no program, since the one in release/ is not taken: {error}",
            file=sys.stderr,
        )
        # (what an OSError says else names the folder that this runs in)
        return (
            None,
            f"the one in release/ was not taken: {getattr(error, 'strerror', None) or error}",
        )
    form.write(os.path.join(folder, form.name(packed)), packed)
    return form.name(packed), ""


def build_wheel(wheel_directory, config_settings=None, metadata_directory=None):
    """Writes the wheel and returns its name: with the program in release/ if that fits, and else without a program."""
    name, why_not = None, "it was made of an archive without a release"
    if os.path.isfile(contents.SOURCE):
        name, why_not = _carry_release(wheel_directory)
    if name is None:
        name = contents.wheel_name(wheels.PURE)
        files = wheels.with_package(wheels.PURE, {contents.NOTED_REASON: why_not.encode()})
        wheels.write(os.path.join(wheel_directory, name), files)
    return name


def build_editable(wheel_directory, config_settings=None, metadata_directory=None):
    """Writes the wheel that has Python find the package where it lies here, and returns its name. It has no command:
    ./chipfire of the repository is that."""
    name = contents.wheel_name(wheels.PURE)
    place = {"chipfire.pth": os.fsencode(contents.HERE) + b"\n"}
    wheels.write(os.path.join(wheel_directory, name), wheels.with_information(wheels.PURE, place))
    return name


def build_sdist(sdist_directory, config_settings=None):
    """Writes the archive of these files and returns its name."""
    top = f"chipfire-{version()}"
    files = {name: contents.read(name) for name in contents.sources()}
    packed = io.BytesIO()
    with tarfile.open(fileobj=packed, mode="w", format=tarfile.PAX_FORMAT) as archive:
        for name, data in {"PKG-INFO": wheels.metadata(), **files}.items():
            entry = tarfile.TarInfo(f"{top}/{name}")
            entry.size = len(data)
            archive.addfile(entry, io.BytesIO(data))
    with open(os.path.join(sdist_directory, f"{top}.tar.gz"), "wb") as file:
        file.write(wheels.gzipped(packed.getvalue()))
    return f"{top}.tar.gz"
