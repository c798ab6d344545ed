"""The files of a wheel, and how it is written, by the standard library alone: the same bytes under every Python."""
import base64
import gzip
import hashlib
import zipfile

from contents import NOTED_VERSION, package, read, stated, version

#: The wheel without the program is for every machine.
PURE = "py3-none-any"
#: The command that pip installs, if the package carries the program.
COMMAND = b"[console_scripts]\nchipfire = chipfire:start_program\n"


def metadata():
    """Returns what pip reads of the package."""
    lines = [
        "Metadata-Version: 2.1",
        "Name: chipfire",
        f"Version: {version()}",
        f"Summary: {stated('description')}",
        f"Requires-Python: {stated('requires-python')}",
    ]
    return "".join(f"{line}\n" for line in lines).encode()


def record_line(name, data):
    """Returns the line about a file in the list of a wheel's files."""
    digest = base64.urlsafe_b64encode(hashlib.sha256(data).digest()).rstrip(b"=").decode()
    return f"{name},sha256={digest},{len(data)}\n"


def with_package(tag, carried, command=b""):
    """Returns the files of the wheel for the machines of a tag, bytes by names, with what it carries beside the package."""
    inside = {name: read(name) for name in package()}
    return with_information(tag, {**inside, NOTED_VERSION: version().encode(), **carried}, command)


def with_information(tag, inside, command=b""):
    """Returns the files of a wheel that installs these, bytes by names, and perhaps a command."""
    folder = f"chipfire-{version()}.dist-info"
    is_pure = str(tag == PURE).lower()
    form = f"Wheel-Version: 1.0\nGenerator: chipfire\nRoot-Is-Purelib: {is_pure}\nTag: {tag}\n"
    files = {**inside, f"{folder}/METADATA": metadata(), f"{folder}/WHEEL": form.encode()}
    if command:
        files[f"{folder}/entry_points.txt"] = command
    record = (
        "".join(record_line(name, data) for name, data in files.items()) + f"{folder}/RECORD,,\n"
    )
    return {**files, f"{folder}/RECORD": record.encode()}


def write(path, files, programs=()):
    """Writes a wheel of these files, bytes by names; `programs` names those that can be started. All have one date."""
    with zipfile.ZipFile(path, "w") as archive:
        for name, data in files.items():
            entry = zipfile.ZipInfo(name)
            entry.create_system = 3  # (that of Unix, whose modes follow)
            entry.external_attr = (0o100755 if name in programs else 0o100644) << 16
            entry.compress_type = zipfile.ZIP_DEFLATED
            archive.writestr(entry, data)


def gzipped(data):
    """Returns bytes as gzip packs them, with no date, and none of the systems that Pythons write in different ways."""
    packed = gzip.compress(data, 9, mtime=0)
    return packed[:9] + b"\xff" + packed[10:]
