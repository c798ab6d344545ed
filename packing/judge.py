"""Whether what was built, or an archive, a Debian package or a wheel of it, is the one of the sources checked out."""
import lzma
import os
import subprocess
import tarfile
import tempfile
import zipfile
import zlib

import contents
from contents import BOARD, CARRIED, PROGRAM, version
from packing import archive, build, debian, library_wheel, proved, web, wheel
from packing.build import Build
from packing.repository import ROOT, Refused, content, sha256

#: How the files of each form begin.
FORMS = {b"\xfd7zXZ\0": archive, b"!<arch>\ndebian-binary": debian, b"PK\3\4": wheel}
#: How a program or a library begins, and one that programs are linked with.
BUILT = (b"\x7fELF", b"!<arch>\n")
#: What ./package made last, of these sources or of others.
RECORD = f"{ROOT}/dist/PROVED"
#: What comes of a file that was cut off or changed.
BROKEN = (
    OSError,
    tarfile.TarError,
    zipfile.BadZipFile,
    lzma.LZMAError,
    zlib.error,
    subprocess.CalledProcessError,
    EOFError,
    NotImplementedError,
    RuntimeError,
    ValueError,
    LookupError,
)


def packed_here():
    """Returns what is stated of the program that ./package packed here of these sources, or None."""
    try:
        with open(RECORD, "rb") as file:
            stated = proved.read(file.read())
    except (FileNotFoundError, Refused):
        return None
    return stated if stated.sources == proved.sources() else None


def refuse_built(here):
    """Says why a program or a library is refused."""
    if here is None:
        raise Refused(
            "no program was packed of these sources here, and a program alone does not state its own: "
            "./package makes one to compare with"
        )
    raise Refused(
        "it is not the program that ./package packed of these sources here, nor a library"
    )


def judge_stated(stated, built, here):
    """Refuses what is stated of what was built, bytes by the words of PROVED, where it is not so."""
    if stated.version != version():
        raise Refused(
            f"its PROVED states version {stated.version}, and these sources have {version()}"
        )
    if stated.sources != proved.sources():
        raise Refused("its PROVED states other sources than these")
    for word, found in proved.sums_of(built).items():
        if stated.sums[word] != found:
            raise Refused(f"its {word} is not the one that its PROVED states")
    if proved.has_other_sources(stated.commit):
        raise Refused("its PROVED states a commit that has other sources than these")
    for word in stated.sums if here is not None else ():
        if stated.sums[word] != here.sums.get(word, stated.sums[word]):
            raise Refused(f"its {word} is not the one that ./package packed of these sources here")
    if here is not None and stated.kit != here.kit:
        raise Refused(
            f"its PROVED states another kit than that of the program packed here: {stated.kit}"
        )


def documents_of(program):
    """Returns the documents of the bytes of a program, which is started for them."""
    with tempfile.TemporaryDirectory(prefix="chipfire-check-") as room:
        path = f"{room}/chipfire"
        with open(path, "wb") as file:
            file.write(program)
        os.chmod(path, 0o755)
        return build.documents(path)


def unpacked(form, path, part):
    """Returns the files of a package of this form, and what `part` returns for them."""
    try:
        found = form.read(path)
        return found, part(found)
    except KeyError as missing:
        raise Refused(f"there is no {missing.args[0]} in it") from None
    except BROKEN as error:
        raise Refused(f"it cannot be unpacked: {error}") from None


def part_of(found, name):
    """Returns the bytes of a file of a package, which has to be there."""
    if name not in found:
        raise Refused(f"there is no {name} in it")
    return found[name].data


def machine_of(form, found, stated):
    """Returns the machine that a package is for: the one of whose files most are in it as PROVED states them."""

    def fitting(machine):
        places = form.places(machine).items()
        return sum(
            it in found and sha256(found[it].data) == stated.sums.get(word) for word, it in places
        )

    return max(contents.MACHINES, key=fitting)


def documents_here(built, here):
    """Returns the documents of the program for this machine that was packed here."""
    word = (contents.own() or contents.X86_64).built[0]
    program = built[word] if word in built else content(f"target/{PROGRAM}")
    if sha256(program) != here.sums.get(word):
        raise Refused(
            "target/ has another program than the one that was packed here: ./package packs it"
        )
    return documents_of(program)


def judge_package(form, path, here):
    """Returns what is stated in a package of this form, where all its files are those of these sources, and what was packed
    here for its machine. The program that was packed here is started for its documents, if one was.
    """
    found, documents = unpacked(form, path, form.documents)
    if form is wheel and f"{CARRIED}/{PROGRAM}" not in found:
        form = library_wheel
    stated = proved.read(part_of(found, form.places(contents.X86_64)["PROVED"]))
    machine = machine_of(form, found, stated)
    places = form.places(machine)
    places.pop("PROVED")
    if not proved.has(stated, web.NAME):
        places.pop(BOARD, None)
    built = {word: part_of(found, name) for word, name in places.items()}
    judge_stated(stated, built, here)
    if here is not None and not here.sums.keys() >= {*machine.built}:
        here = None
    if here is not None and documents:
        documents = documents_here(built, here)
    wanted = form.files(Build(built, stated, documents, machine))
    differ = sorted(name for name in {*found, *wanted} if found.get(name) != wanted.get(name))
    if differ:
        raise Refused(f"these files in it are not those of these sources: {' '.join(differ)}")
    return stated, here


def ground(here):
    """Returns what a judgement depends on."""
    if here is None:
        return (
            "Nothing was packed here to compare with: that program and library are what the kit made of these "
            "sources, and what manual page and completions say, is taken from the file."
        )
    if (
        os.path.isfile(f"{ROOT}/release/PROVED")
        and content("release/PROVED") == here.text().encode()
    ):
        return (
            "It is the build in release/, which was not proved here: ./package --prove does that."
        )
    return "It is the build that was proved here."


def judge(path):
    """Returns what is stated of a file, where it is of these sources, and what that depends on."""
    with open(path, "rb") as file:
        data = file.read()
    here = packed_here()
    if here is not None and sha256(data) in here.sums.values():
        return here, ground(here)
    form = next((form for begin, form in FORMS.items() if data.startswith(begin)), None)
    if form is None and data.startswith(BUILT):
        refuse_built(here)
    if form is None:
        raise Refused("it is neither a program nor an archive, a Debian package or a wheel")
    stated, here = judge_package(form, path, here)
    return stated, ground(here)
