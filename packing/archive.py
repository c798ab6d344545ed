"""The archive that any Linux unpacks: one folder with all files of a release."""
import io
import lzma
import tarfile

import contents
from contents import archive_places as places
from contents import archive_top as top
from packing import build, changes
from packing.build import LINK, File
from packing.repository import Refused


def name(packed):
    """Returns the archive's name."""
    return contents.archive_name(packed.stated.version, packed.machine)


def files(packed):
    """Returns the archive's files by their names."""
    inside = build.files(packed, contents.ARCHIVE_LIBRARIES)
    return {f"{top()}/{place}": file for place, file in inside.items()}


def documents(found):
    """Returns the documents among the files of an archive, by their places."""
    return {
        place: found[f"{top()}/{place}"].data
        for place in (*contents.manuals(), *contents.COMPLETIONS)
    }


def write(path, packed):
    """Writes the archive of a build. All its files are root's, and of the version's day."""
    with tarfile.open(path, "w:xz", format=tarfile.GNU_FORMAT) as archive:
        for name, file in sorted(files(packed).items()):
            entry = tarfile.TarInfo(name)
            entry.size, entry.mode, entry.mtime = (
                len(file.data),
                file.mode & 0o7777,
                changes.seconds(),
            )
            entry.uname = entry.gname = "root"
            if file.mode == LINK:
                entry.type, entry.linkname, entry.size = tarfile.SYMTYPE, file.data.decode(), 0
            archive.addfile(entry, io.BytesIO(file.data))


def members(data):
    """Returns the files of the bytes of a tar archive, by their names; there is nothing else in it but folders."""
    found = {}
    with tarfile.open(fileobj=io.BytesIO(data), mode="r:") as archive:
        for entry in archive:
            name = entry.name.removeprefix("./")
            if entry.isdir():
                continue
            if not (entry.isreg() or entry.issym()) or name in found:
                raise Refused(f"{name} in it is no file, or is there twice")
            if entry.issym():
                found[name] = File(entry.linkname.encode(), LINK)
            else:
                found[name] = File(archive.extractfile(entry).read(), entry.mode)
    return found


def read(path):
    """Returns the files of an archive by their names."""
    with open(path, "rb") as file:
        return members(lzma.decompress(file.read(), lzma.FORMAT_XZ))
