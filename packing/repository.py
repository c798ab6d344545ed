"""The repository that is packed."""
import hashlib
import os
import subprocess

from contents import REPOSITORY as ROOT


class Refused(Exception):
    """Why something is not packed, or not taken for what it should be."""


def content(name):
    """Returns the bytes of a file of the repository, or of one with a whole path."""
    with open(os.path.join(ROOT, name), "rb") as file:
        return file.read()


def below(folder):
    """Returns the names of all files below a folder of the repository, ascending."""
    found = []
    for place, inner, files in os.walk(f"{ROOT}/{folder}"):
        inner[:] = [it for it in inner if it != "__pycache__"]
        found += [os.path.relpath(f"{place}/{file}", ROOT) for file in files]
    return sorted(found)


def sha256(data):
    """Returns the checksum of bytes."""
    return hashlib.sha256(data).hexdigest()


def git(*words):
    """Returns what git reports of the repository, or None where it fails or there is none."""
    try:
        asked = subprocess.run(["git", "-C", ROOT, *words], capture_output=True, encoding="utf-8")
    except FileNotFoundError:
        return None
    return asked.stdout.strip() if asked.returncode == 0 else None
