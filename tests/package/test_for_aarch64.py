"""The packages for aarch64 of what was built for it: each is unpacked where there is nothing else, and runs by an
emulator. (What release and packages do with it is tried by what stands for it: test_released.py.)"""
import hashlib
import os

import emulator
import made
from packing import aarch64
from test_installed import Linked

MACHINE, DEBIAN = "aarch64", "arm64"
#: Which C library the wheel with the program asks for, and the one with the library alone.
WITH_PROGRAM, WITHOUT = "2_34", "2_17"


@made.kept
def home():
    """Returns a checkout with a release of what was built, and its packages; no test changes it."""
    made.need("dpkg-deb", aarch64.TOOL, aarch64.STARTS)
    top = made.checkout()
    made.release(top, made.made_up_tools(compiler=None), built())
    made.package(top, check=True)
    return top


def built():
    """Returns the folder with what was built for it."""
    return emulator.built_for_aarch64(os.path.dirname(made.PROGRAM))


def path_of(end):
    return made.path_of(end, home())


class Packed(Linked):
    COMPILER = aarch64.TOOL
    starting = staticmethod(aarch64.starting)

    def program_runs(self, program):
        """Tries a program as it was unpacked."""
        self.assertTrue(os.access(program, os.X_OK))
        self.assertTrue(made.read(program) == made.read(f"{built()}/chipfire"))
        self.tries(emulator.command(program))

    def test_what_is_stated(self):
        stated = made.read(f"{home()}/release/PROVED").decode()
        for name, word in (("chipfire", "program"), *((it, it) for it in made.LIBRARIES)):
            summed = hashlib.sha256(made.read(f"{built()}/{name}")).hexdigest()
            self.assertIn(f"\naarch64-{word} sha256:{summed}\n", stated)
        self.assertIn(f"\naarch64-tools {aarch64.tools()}\n", stated)

    def test_each_is_of_these_sources(self):
        wheels = (f"{it}_{MACHINE}.whl" for it in (WITH_PROGRAM, WITHOUT))
        for end in (f"-{MACHINE}-linux.tar.xz", f"_{DEBIAN}.deb", *wheels):
            self.assertEqual(made.package(home(), "--check", path_of(end)).stderr, "", end)

    def test_the_archive(self):
        top = made.unpack(path_of(f"-{MACHINE}-linux.tar.xz"))
        self.program_runs(f"{top}/bin/chipfire")
        self.is_linked(f"{top}/lib", made.version(), f"{top}/include")

    def test_the_debian_package(self):
        path, root = path_of(f"_{DEBIAN}.deb"), made.room()
        made.run("dpkg-deb", "-x", path, root, check=True)
        self.program_runs(f"{root}/usr/bin/chipfire")
        libraries = f"{root}/usr/lib/{MACHINE}-linux-gnu"
        self.is_linked(libraries, made.version(), f"{root}/usr/include", PKG_CONFIG_SYSROOT_DIR=root)
        shown = made.run("dpkg-deb", "-f", path, "Architecture", "Depends", check=True).stdout
        oldest = WITH_PROGRAM.replace("_", ".")
        self.assertEqual(shown, f"Architecture: {DEBIAN}\nDepends: libc6 (>= {oldest})\n")

    def test_lintian_says_nothing_unexplained(self):
        self.is_explained(path_of(f"_{DEBIAN}.deb"))

    def test_pip_takes_the_wheel_that_fits(self):
        """It has the program if the C library is new enough for it, and else the library alone."""
        python = made.virtual_environment()
        for version, has_program in ((WITH_PROGRAM, True), (WITHOUT, False)):
            room = made.room()
            where = ["--target", room, "--platform", f"manylinux_{version}_{MACHINE}", "--only-binary", ":all:"]
            made.pip(python, "install", "--no-index", "--find-links", f"{home()}/dist", *where, "chipfire", check=True)
            carried = f"{room}/chipfire/program"
            self.assertTrue(made.read(f"{carried}/{made.SHARED}") == made.read(f"{built()}/{made.SHARED}"))
            self.assertEqual(os.path.exists(f"{carried}/chipfire"), has_program)
            if has_program:
                self.program_runs(f"{carried}/chipfire")
