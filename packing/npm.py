"""The package that npm installs, of the folder of the package for browsers and Node: what `npm pack` would make there."""
import gzip
import io
import json
import tarfile

from packing import archive
from packing.build import LINK
from packing.repository import Refused
from wheels import gzipped

#: The folder that all lies in.
TOP = "package"
#: The date that npm gives to each file, in seconds since 1970.
DATE = 499162500
#: What npm packs beside the files that package.json lists.
ALWAYS = ("README.md", "package.json")


def packed(files):
    """Returns the package of the files of a folder, bytes by names. All its files are of one date, and nobody's."""
    stated = json.loads(files["package.json"])
    stream = io.BytesIO()
    with tarfile.open(fileobj=stream, mode="w", format=tarfile.USTAR_FORMAT) as tar:
        for name in sorted([*stated["files"], *ALWAYS]):
            entry = tarfile.TarInfo(f"{TOP}/{name}")
            entry.size, entry.mtime = len(files[name]), DATE
            tar.addfile(entry, io.BytesIO(files[name]))
    return gzipped(stream.getvalue())


def unpacked(data):
    """Returns the files of a package, bytes by names."""
    found = {}
    for path, file in archive.members(gzip.decompress(data)).items():
        top, _, name = path.partition("/")
        if top != TOP or "/" in name or file.mode == LINK:
            raise Refused(f"{path} in the package for npm is no file of its folder")
        found[name] = file.data
    return found
