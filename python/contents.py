"""The version of chipfire, and what lies where in its parts: in the archive, the Debian package and the wheel.

All that packs or checks takes both from here. The archive of the package's sources for pip has this file too, so it
imports nothing else of the repository; and a Python that is too old for the others understands it.
"""
import os
import platform
import re
import sys
import typing

HERE = os.path.dirname(os.path.realpath(__file__))
REPOSITORY = os.path.dirname(HERE)
SOURCE = f"{REPOSITORY}/crates/chip_arguments/src/help_texts.rt"
#: What has the version: the program's source, and in an archive of these files alone its PKG-INFO.
VERSIONS = {
    SOURCE: r'VERSION: &str = "(.*)"',
    f"{HERE}/PKG-INFO": r"(?m)^Version: (.*)$",
}

#: What is built, as files in one folder.
PROGRAM, SHARED, STATIC = FILES = ("chipfire", "libchipfire.so", "libchipfire.a")


class Machine(typing.NamedTuple):
    """A machine with Linux that all is built for: its name for the system, and for Debian, and the words of PROVED for the
    files."""

    name: str
    debian: str
    built: typing.Tuple[str, ...]


X86_64 = Machine("x86_64", "amd64", ("program", SHARED, STATIC))
AARCH64 = Machine("aarch64", "arm64", ("aarch64-program", f"aarch64-{SHARED}", f"aarch64-{STATIC}"))
MACHINES = (X86_64, AARCH64)
#: The name under which what was linked with the library asks for it.
SONAME = "libchipfire.so.1"
#: The package for browsers and Node, a folder beside them.
WEB = "js"
#: The module in it, what npm installs of it, and the page that lies there too, by their words in PROVED.
MODULE, NPM, BOARD = WEB_BUILT = ("chipfire.wasm", "npm", "chipfire.html")

#: The commands of the program, each of which has a manual page.
COMMANDS = tuple(
    "check plain avalanches recurrent identity run simulate replay resume verify judge explain".split()
)

#: Places in the folder of the archive, and in the folder usr of the Debian package.
MANUAL = "share/man/man1/chipfire.1"
LIBRARY_MANUAL = "share/man/man3/chipfire.3"
FORMATS_MANUAL = "share/man/man5/chipfire.5"
BASH = "share/bash-completion/completions/chipfire"
ZSH = "share/zsh/vendor-completions/_chipfire"
FISH = "share/fish/vendor_completions.d/chipfire.fish"
COMPLETIONS = (BASH, ZSH, FISH)
HEADERS = ("include/chipfire.h", "include/chipfire.hpp")
PAGES = "share/doc/chipfire"
PROVED = f"{PAGES}/PROVED"
#: The folder of the libraries in the archive. Debian has one for each machine.
ARCHIVE_LIBRARIES = "lib"
#: What other tools read there of the library.
PKG_CONFIG = "pkgconfig/chipfire.pc"
CMAKE = "cmake/chipfire/chipfire-config.cmake"
CMAKE_VERSION = "cmake/chipfire/chipfire-config-version.cmake"
#: What Debian has besides.
DEBIAN_CHANGES = f"usr/{PAGES}/changelog.gz"
DEBIAN_COPYRIGHT = f"usr/{PAGES}/copyright"
DEBIAN_OVERRIDES = "usr/share/lintian/overrides/chipfire"

#: Places in the wheel: the version, why it has no program, and the folder of what it carries.
NOTED_VERSION = "chipfire/version"
NOTED_REASON = "chipfire/without"
CARRIED = "chipfire/program"
#: What the faults of the library mean, for a package that has no program to ask.
FAULTS = f"{CARRIED}/faults.json"
#: What the archive of sources for pip has beside the package and PKG-INFO.
BACKEND = ("build_wheel.py", "contents.py", "wheels.py", "pyproject.toml")


def read(name):
    """Returns the bytes of a file of this folder, or of one with a whole path."""
    with open(os.path.join(HERE, name), "rb") as file:
        return file.read()


def stated(name):
    """Returns what pyproject.toml states of the package."""
    return re.search(f'^{name} = "(.*)"$', read("pyproject.toml").decode(), re.MULTILINE)[1]


def is_old():
    """Returns whether this Python is older than the package takes."""
    return sys.version_info < tuple(map(int, stated("requires-python").lstrip(">=").split(".")))


def version():
    """Returns the version of the program and of the package."""
    for place, pattern in VERSIONS.items():
        if os.path.isfile(place):
            return re.search(pattern, read(place).decode())[1]
    raise SystemExit(
        f"chipfire is installed from a checkout of its repository: {SOURCE}, with its version, is missing"
    )


def package():
    """Returns the names of the files of the Python package, ascending."""
    folders = os.walk(os.path.join(HERE, "chipfire"))
    files = [
        os.path.join(folder, name)
        for folder, _, names in folders
        for name in names
        if not name.endswith(".pyc")
    ]
    return sorted(os.path.relpath(file, HERE).replace(os.sep, "/") for file in files)


def sources():
    """Returns the names of the files in the archive of sources for pip, but for its PKG-INFO."""
    return (*BACKEND, *package())


def system():
    """Returns what this machine is, as `uname -sm` reports it."""
    return f"{platform.system()} {platform.machine()}"


def own():
    """Returns the machine that this is, or None if nothing is built for it."""
    return next((it for it in MACHINES if system() == f"Linux {it.name}"), None)


def places(libraries, machine):
    """Returns where what was built for a machine lies, with the libraries in this folder, by the words of PROVED, and where
    PROVED does."""
    found = f"bin/{PROGRAM}", f"{libraries}/{SONAME}", f"{libraries}/{STATIC}"
    return {**dict(zip(machine.built, found)), "PROVED": PROVED}


def command_manual(command):
    """Returns the place of the manual page of a command."""
    return f"share/man/man1/chipfire-{command}.1"


def manuals():
    """Returns the places of all manual pages."""
    its = tuple(command_manual(it) for it in COMMANDS)
    return (MANUAL, *its, LIBRARY_MANUAL, FORMATS_MANUAL)


def archive_top(of=None):
    """Returns the name of the one folder in the archive of a version: of this one by default."""
    return f"chipfire-{of or version()}"


def archive_name(of, machine):
    """Returns the name of the archive of a version for a machine."""
    return f"{archive_top(of)}-{machine.name}-linux.tar.xz"


def archive_places(machine, of=None):
    """Returns where all is that PROVED is about, and PROVED, in the archive of a version: of this one by default."""
    found = places(ARCHIVE_LIBRARIES, machine)
    return {word: f"{archive_top(of)}/{place}" for word, place in found.items()}


def npm_name(of=None):
    """Returns the name of the package for npm of a version: of this one by default."""
    return f"chipfire-{of or version()}.tgz"


def web_places(of):
    """Returns the names of the files that a release of a version has beside the archives, by the words of PROVED."""
    return {MODULE: MODULE, NPM: npm_name(of), BOARD: BOARD}


def debian_name(machine):
    """Returns the name of the Debian package for a machine."""
    return f"chipfire_{version()}_{machine.debian}.deb"


def debian_libraries(machine):
    """Returns the folder where Debian has the libraries for a machine."""
    return f"lib/{machine.name}-linux-gnu"


def debian_places(machine):
    """Returns where all is that PROVED is about, and PROVED, in the Debian package."""
    found = places(debian_libraries(machine), machine)
    return {word: f"usr/{place}" for word, place in found.items()}


def wheel_name(tag):
    """Returns the name of the wheel for the machines of a tag."""
    return f"chipfire-{version()}-{tag}.whl"


def library_places(machine):
    """Returns where all is that PROVED is about, and PROVED, in the wheel that has the library and no program."""
    return {machine.built[1]: f"{CARRIED}/{SHARED}", "PROVED": f"{CARRIED}/PROVED"}


def wheel_places(machine):
    """Returns where all is that PROVED is about, and PROVED, in the wheel: it has no library to link with, and of the package
    for browsers and Node it has the page, if that was made."""
    program = {machine.built[0]: f"{CARRIED}/{PROGRAM}"}
    return {**program, **library_places(machine), BOARD: f"{CARRIED}/{WEB}/{BOARD}"}
