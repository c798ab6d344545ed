"""release/, which ./package --release makes: a clone plays by the program in it at once, and the gate compares it."""
import os
import resource
import shutil
import sys
import zipfile

import made

#: What is made beside program and libraries, as it is called.
PARTS = ("What is for aarch64", "The package for browsers and Node")
#: What is asked of the Python package.
ASK = "import chipfire; print(chipfire.find_program(), chipfire.plain(chipfire.path(1), [3]).fired)"


@made.kept
def released():
    """Returns a checkout that carries a release of its sources, and has nothing built; no test changes it."""
    top = made.checkout()
    made.release(top)
    made.commit(top)
    return top


@made.kept
def built():
    """Returns a folder with what is in it, as the gate builds that."""
    top = made.room()
    made.build(top)
    made.make_parts(released(), f"{top}/target")
    return f"{top}/target"


def clone():
    """Returns a clone of it, which a test may change."""
    return made.clone_of(released())


def archive_of(top, machine="x86_64"):
    return f"{top}/release/chipfire-{made.version()}-{machine}-linux.tar.xz"


def seconds():
    """Returns how many seconds of processors the commands took so far."""
    used = resource.getrusage(resource.RUSAGE_CHILDREN)
    return used.ru_utime + used.ru_stime


def change(path):
    """Changes the byte in the middle of a file."""
    data = made.read(path)
    half = len(data) // 2
    made.write(path, data[:half] + bytes([data[half] ^ 1]) + data[half + 1:])


def change_sources(top):
    """Adds a line to a source of a checkout."""
    with open(f"{top}/crates/chip_graph/src/lib.rt", "a", encoding="utf-8") as file:
        file.write("// one line more\n")


class Carried(made.Test):
    def test_it_is_an_archive_for_each_machine_and_PROVED_and_what_is_for_browsers(self):
        top = released()
        archives = [archive_of(top, it) for it in ("x86_64", "aarch64")]
        names = {"PROVED", *map(os.path.basename, archives), "chipfire.html", "chipfire.wasm"}
        self.assertEqual({*os.listdir(f"{top}/release")}, {*names, f"chipfire-{made.version()}.tgz"})
        for archive in archives:
            checked = made.package(top, "--check", archive)
            self.assertIn(made.read(f"{top}/release/PROVED").decode(), checked.stdout)

    def test_it_names_the_commit_before_it(self):
        before = made.run("git", "rev-parse", "HEAD~1", cwd=released(), check=True).stdout
        self.assertIn(f"\ncommit {before}", made.read(f"{released()}/release/PROVED").decode())

    def test_a_clone_runs_within_a_second_and_keeps_the_program(self):
        top = clone()
        triangle, begun = f"{top}/examples/triangle", seconds()
        asked = made.run(f"{top}/chipfire", "check", f"{triangle}/graph.json")
        self.assertLess(seconds() - begun, 1)
        self.assertEqual((asked.returncode, asked.stdout.splitlines()[0]), (0, "vertices 3"))
        self.assertRegex(asked.stderr, r"\Achipfire: the program comes from release/: .*\n\Z")
        self.assertTrue(made.read(f"{top}/target/chipfire") == made.read(made.PROGRAM))
        for name in made.LIBRARIES:
            self.assertTrue(made.read(f"{top}/target/{name}") == made.read(made.library(name)))
        self.assertFalse(os.path.islink(f"{top}/target/libchipfire.so.1"))
        self.assertTrue(made.read(f"{top}/target/libchipfire.so.1") == made.read(made.library(made.SHARED)))
        self.assertEqual(made.run(f"{top}/chipfire", "check", f"{triangle}/graph.json").stderr, "")

    def test_it_is_not_made_of_sources_that_are_not_committed(self):
        top = clone()
        change_sources(top)
        made.build(top)
        ran = made.package(top, "--release", PATH=made.made_up_tools())
        self.assertEqual((ran.returncode, ran.stdout), (1, ""))
        self.assertIn("package: release: the sources are not those of a commit", ran.stderr)


#: What a Python begins with that takes its system for another.
SYSTEM = "import platform\nplatform.system, platform.machine = (lambda: {!r}), (lambda: {!r})\n"


class Elsewhere(made.Test):
    """On other systems the starter, pip and the first import say the same, in one sentence."""

    SYSTEMS = (("Darwin", "arm64"), ("Windows", "AMD64"), ("Linux", "riscv64"))
    #: What those systems lack that this one has.
    LACKING = "import sys\nfor name in ('fcntl', 'grp', 'pwd', 'resource', 'termios'):\n    sys.modules[name] = None\n"

    def said(self, *system):
        return (
            f"it is for Linux on x86_64 or aarch64, and this is {' '.join(system)}: here work the page release/chipfire.html "
            "in a browser, the package release/chipfire-*.tgz in Node (js/README.md), and in Python what needs no program"
        )

    def python(self, *system):
        """Returns where Python finds what has it take its system for another."""
        place = made.room()
        made.write(f"{place}/sitecustomize.py", (SYSTEM.format(*system) + self.LACKING).encode())
        return place

    def test_the_starter(self):
        for system in self.SYSTEMS:
            tools = made.room()
            made.write(f"{tools}/uname", f"#!/bin/sh\necho {' '.join(system)}\n".encode())
            os.chmod(f"{tools}/uname", 0o755)
            ran = made.run(f"{made.ROOT}/chipfire", "--take", PATH=f"{tools}:{made.PATH}")
            self.assertEqual((ran.returncode, ran.stdout), (1, ""))
            self.assertEqual(ran.stderr, f"chipfire: {self.said(*system)}\n")

    def test_pip(self):
        """It asks build_wheel.py, as is done here: the wheel has no program, and says why."""
        for system in self.SYSTEMS:
            room = made.room()
            build = f"import build_wheel; print(build_wheel.build_wheel({room!r}))"
            where = f"{self.python(*system)}:{made.ROOT}/python"
            ran = made.run(sys.executable, "-c", build, PYTHONPATH=where, check=True)
            self.assertEqual(ran.stdout, f"chipfire-{made.version()}-py3-none-any.whl\n")
            because = "chipfire: the package has no program, since the one in release/ is not taken: "
            self.assertEqual(ran.stderr, f"{because}{self.said(*system)}\n")

    def test_the_first_import(self):
        """What needs no program works, and what needs one says the same; a clone is not searched."""
        ask = "import chipfire; print(chipfire.order(chipfire.grid(2, 2))); chipfire.check(chipfire.grid(2, 2))"
        for system in self.SYSTEMS:
            where = f"{self.python(*system)}:{made.ROOT}/python"
            ran = made.run(sys.executable, "-c", ask, PYTHONPATH=where)
            self.assertEqual(ran.stdout, "192\n", ran.stderr)
            first, *_, last = ran.stderr.splitlines()
            self.assertIn(f"RuntimeWarning: chipfire has no program: {self.said(*system)}, which is graphs, ", first)
            self.assertTrue(last.endswith(f"ProgramNotFound: [Errno 2] the program is not found: {self.said(*system)}: 'chipfire'"))


class OnAarch64(made.Test):
    """On that machine a clone has its own program and library. (Here they are those of this one, and a byte more.)"""

    def takes(self, top):
        """Takes the program of a clone into a folder there, as ./chipfire does."""
        place, room = made.room(), made.room()
        made.write(f"{place}/sitecustomize.py", SYSTEM.format("Linux", "aarch64").encode())
        return made.run(sys.executable, f"{top}/tools/release.py", "--take", room, "", PYTHONPATH=place), room

    def test_the_starter_takes_them(self):
        ran, room = self.takes(clone())
        self.assertEqual((ran.returncode, ran.stdout), (0, ""), ran.stderr)
        self.assertTrue(made.read(f"{room}/chipfire") == made.read(made.PROGRAM) + bytes(1))
        for name in made.LIBRARIES:
            self.assertTrue(made.read(f"{room}/{name}") == made.read(made.library(name)) + bytes(1))
        self.assertTrue(os.path.isdir(f"{room}/js"))

    def test_not_if_they_were_made_of_other_sources(self):
        top = clone()
        with open(f"{top}/tools/malloc.c", "a", encoding="utf-8") as file:
            file.write("/* one line more */\n")
        ran, _ = self.takes(top)
        self.assertEqual(ran.returncode, 1)
        self.assertIn("is not taken: it has nothing for aarch64 that was made of these sources", ran.stderr)

    def test_pip_takes_them(self):
        top, place, room = clone(), made.room(), made.room()
        made.write(f"{place}/sitecustomize.py", SYSTEM.format("Linux", "aarch64").encode())
        build = f"import build_wheel; print(build_wheel.build_wheel({room!r}))"
        name = made.run(sys.executable, "-c", build, PYTHONPATH=f"{place}:{top}/python", check=True).stdout.strip()
        self.assertEqual(name, f"chipfire-{made.version()}-py3-none-manylinux_2_34_aarch64.whl")
        with zipfile.ZipFile(f"{room}/{name}") as wheel:
            self.assertTrue(wheel.read("chipfire/program/chipfire") == made.read(made.PROGRAM) + bytes(1))


class Python(made.Test):
    def asks(self, top, *python):
        """Asks the package that lies in a checkout, by a command that is Python."""
        return made.run(*python, "-c", ASK, PYTHONPATH=f"{top}/python", TMPDIR="/tmp")

    def test_it_finds_the_program_in_a_clone(self):
        top = clone()
        asked = self.asks(top, sys.executable)
        self.assertEqual(asked.stdout, f"{top}/target/chipfire (1, 0)\n")
        self.assertEqual(asked.stderr.count("the program comes from release/"), 1)
        self.assertEqual(self.asks(top, sys.executable).stderr, "")

    def test_it_finds_it_in_a_clone_that_cannot_be_written(self):
        made.need("python3", "setpriv")
        top = clone()
        made.run("chmod", "-R", "a-w", top, check=True)
        # (root could write it all the same)
        guest = ["setpriv", "--reuid=65534", "--regid=65534", "--clear-groups"] if os.geteuid() == 0 else []
        for folder in (made.rooms(), top):
            os.chmod(folder, 0o755)
        asked = self.asks(top, *guest, "python3")
        made.run("chmod", "-R", "u+w", top, check=True)
        self.assertEqual(asked.stdout, f"{top}/chipfire (1, 0)\n")
        self.assertFalse(os.path.exists(f"{top}/target"))

    def test_it_finds_none_where_the_sources_are_others(self):
        top = clone()
        os.remove(f"{top}/crates/chip_graph/src/lib.rt")
        asked = self.asks(top, sys.executable)
        self.assertIn("the program in release/ is not taken: it was built from other sources than these", asked.stderr)
        self.assertIn("ProgramNotFound", asked.stderr)


class Packed(made.Test):
    def test_package_takes_it_and_proves_nothing(self):
        top = clone()
        made_of_it = made.package(top)
        self.assertEqual(made_of_it.returncode, 0, made_of_it.stderr)
        self.assertRegex(made_of_it.stderr, r"\Achipfire: the program comes from release/: .*\n\Z")
        self.assertEqual(made.read(f"{top}/dist/PROVED"), made.read(f"{top}/release/PROVED"))
        for machine in ("x86_64", "aarch64"):
            path = made.path_of(f"-{machine}-linux.tar.xz", top)
            self.assertEqual(made.read(path), made.read(archive_of(top, machine)))
        with zipfile.ZipFile(made.path_of(".whl", top)) as wheel:
            self.assertTrue(wheel.read("chipfire/program/chipfire") == made.read(made.PROGRAM))
        self.assertIn("the build in release/, which was not proved here", made.package(top, "--check", archive_of(top)).stdout)

    def test_there_are_packages_for_each_machine(self):
        top, version = clone(), made.version()
        self.assertEqual(made.package(top).returncode, 0)
        wheels = [f"chipfire-{version}-py3-none-manylinux_2_{it}" for it in (34, 14)]
        names = {"PROVED"}
        for machine, debian in (("x86_64", "amd64"), ("aarch64", "arm64")):
            names |= {f"chipfire-{version}-{machine}-linux.tar.xz", f"chipfire_{version}_{debian}.deb"}
            names |= {f"{it}_{machine}.whl" for it in wheels}
        self.assertEqual({*os.listdir(f"{top}/dist")}, names)
        for name in names - {"PROVED"}:
            checked = made.package(top, "--check", f"{top}/dist/{name}")
            self.assertEqual(checked.stderr, "", name)
        shown = made.run("dpkg-deb", "-f", f"{top}/dist/chipfire_{version}_arm64.deb", "Architecture").stdout
        self.assertEqual(shown, "arm64\n")
        listed = made.run("dpkg-deb", "-c", f"{top}/dist/chipfire_{version}_arm64.deb").stdout
        self.assertIn("./usr/lib/aarch64-linux-gnu/libchipfire.so.1\n", listed)

    def test_one_for_aarch64_is_refused_if_a_byte_is_another(self):
        top = clone()
        self.assertEqual(made.package(top).returncode, 0)
        for end in ("-aarch64-linux.tar.xz", "_arm64.deb", "_34_aarch64.whl", "_14_aarch64.whl"):
            path = made.path_of(end, top)
            change(path)
            self.assertEqual(made.package(top, "--check", path).returncode, 1, path)

    def test_package_proves_if_that_is_asked_or_the_sources_are_others(self):
        for words in (["--prove"], ["--release"], []):
            top = clone()
            if not words:
                change_sources(top)
            ran = made.package(top, *words, PATH=made.made_up_tools())
            self.assertEqual((ran.returncode, ran.stdout), (1, ""), words)
            self.assertIn("chipfire: the program has to be proved and built first", ran.stderr)

    def test_a_release_of_another_program_needs_another_version(self):
        top = clone()
        change_sources(top)
        made.commit(top)
        program = f"{made.room()}/chipfire"
        made.write(program, made.read(made.PROGRAM) + b"\0")
        os.chmod(program, 0o755)
        made.build(top, program)
        ran = made.package(top, "--release", PATH=made.made_up_tools())
        self.assertEqual((ran.returncode, ran.stdout), (1, ""))
        self.assertRegex(ran.stderr, f"release: the release of commit [0-9a-f]{{12}} has version {made.version()}, and another")
        self.assertEqual(made.read(f"{top}/release/PROVED"), made.read(f"{released()}/release/PROVED"))


class Installed(made.Test):
    """What pip installs of a clone alone."""

    def installs(self, what):
        """Installs by pip without network, and returns what it says, and what the package prints in another folder."""
        room = made.virtual_environment()
        said = made.pip(room, "install", "-v", "--no-index", what, check=True)
        return said.stdout + said.stderr, made.run(f"{room}/bin/python", "-c", ASK, cwd=made.rooms()), room

    def test_the_address_of_a_clone_or_its_folder_gives_the_package_with_its_program(self):
        for form in ("git+file://{}#subdirectory=python", "{}/python"):
            top = clone()
            _, asked, room = self.installs(form.format(top))
            shutil.rmtree(top)
            self.assertTrue(asked.stdout.startswith(os.path.realpath(room)), asked.stdout + asked.stderr)
            self.assertTrue(asked.stdout.endswith("/chipfire/program/chipfire (1, 0)\n"), asked.stdout)
            self.assertEqual(made.run(f"{room}/bin/chipfire", "--version").stdout, f"chipfire {made.version()}\n")

    def test_the_wheel_is_that_of_package(self):
        top, room = clone(), made.room()
        self.assertEqual(made.package(top).returncode, 0)
        build = f"import build_wheel; print(build_wheel.build_wheel({room!r}))"
        name = made.run(sys.executable, "-c", build, PYTHONPATH=f"{top}/python", check=True).stdout.strip()
        self.assertEqual(os.listdir(room), [name])
        self.assertTrue(made.read(f"{room}/{name}") == made.read(made.path_of(name, top)))

    def test_a_wheel_without_the_program_says_why_and_not_where_it_was_made(self):
        for spoil, why in ((change_sources, "it was built from other sources than these"),
                           (lambda top: os.remove(f"{top}/release/PROVED"), "No such file or directory")):
            top, room = clone(), made.room()
            spoil(top)
            build = f"import build_wheel; build_wheel.build_wheel({room!r})"
            made.run(sys.executable, "-c", build, PYTHONPATH=f"{top}/python", check=True)
            self.assertEqual(os.listdir(room), [f"chipfire-{made.version()}-py3-none-any.whl"])
            with zipfile.ZipFile(f"{room}/{os.listdir(room)[0]}") as wheel:
                having = [it for it in wheel.namelist() if os.path.basename(top).encode() in wheel.read(it)]
                noted = wheel.read("chipfire/without").decode()
            self.assertEqual((noted, having), (f"the one in release/ was not taken: {why}", []))

    def test_where_the_sources_are_others_it_is_installed_without_and_says_so(self):
        top = clone()
        change_sources(top)
        said, asked, _ = self.installs(f"{top}/python")
        self.assertIn("chipfire: the package has no program, since the one in release/ is not taken: it was built from", said)
        self.assertIn("RuntimeWarning: chipfire has no program: the package carries none, since the one in", asked.stderr)
        self.assertIn("ProgramNotFound", asked.stderr)


class OldCLibrary(made.Test):
    """Where the program does not start, since the C library is too old for it, pip installs the library alone."""

    PLAY = "import chipfire; print(chipfire.plain(chipfire.path(1), [3]).fired, chipfire.find_library() is not None)"
    REFUSED = """
import array, chipfire
chips, fired, stopped = (array.array("Q", it) for it in ([2**40, 5], [0, 0], [0]))
try:
    chipfire.library.stabilize_all(chipfire.path(1), chips, fired, stopped)
except chipfire.Fault as fault:
    print(fault)
"""
    NEEDS = "import chipfire; chipfire.run(chipfire.path(1), [3])"

    @staticmethod
    @made.kept
    def installed():
        """Returns an environment with what pip installs of a clone whose program does not start."""
        top = made.checkout()
        made.release(top)
        script, text = f"{top}/tools/release.py", made.read(f"{top}/tools/release.py").decode()
        made.write(script, text.replace("def starts(path, version):", "def starts(path, version):\n    return False").encode())
        room = made.virtual_environment()
        made.pip(room, "install", "-v", "--no-index", f"{top}/python", check=True)
        return room

    def asks(self, words):
        return made.run(f"{self.installed()}/bin/python", "-c", words, cwd=made.rooms())

    def test_it_plays_by_the_library(self):
        asked = self.asks(self.PLAY)
        self.assertEqual((asked.stdout, asked.stderr), ("(1, 0) True\n", ""))
        self.assertFalse(os.path.exists(f"{self.installed()}/bin/chipfire"))

    def test_faults_are_explained_as_the_program_does(self):
        asked = self.asks(self.REFUSED)
        explained = made.run(made.PROGRAM, "explain", "10").stdout
        self.assertTrue(asked.stdout.startswith("fault 10 Total"), asked.stdout + asked.stderr)
        self.assertIn(explained.splitlines()[0], asked.stdout)

    def test_what_needs_the_program_says_why_there_is_none(self):
        why = "the package carries none, since this is the package for a C library that is too old for the program"
        self.assertIn(f"ProgramNotFound: [Errno 2] the program is not found: {why}", self.asks(self.NEEDS).stderr)


class Comparing(made.Test):
    def compare(self, top, folder=None, kit=made.KIT, **more):
        """Compares what a kit built in a folder with what a checkout carries, as the gate does."""
        surrounded = {"PATH": made.made_up_tools(), **more}
        return made.run(f"{top}/tools/release.py", "--compare", folder or built(), kit, **surrounded)

    def goes_on(self, ran, *lines):
        self.assertEqual((ran.returncode, ran.stderr), (0, ""))
        self.assertRegex(ran.stdout, "".join([r"\A", *(rf"{line}\n" for line in lines), r"\Z"]))

    def fails(self, ran, line):
        self.assertEqual((ran.returncode, ran.stdout), (1, ""))
        self.assertRegex(ran.stderr, rf"\Achipfire: the program in release/ is refused: {line}\n\Z")

    def another(self, name):
        """Returns a folder with what was built, in which one file is another."""
        room = f"{made.room()}/target"
        shutil.copytree(built(), room)
        with open(f"{room}/{name}", "ab") as file:
            file.write(b"\0")
        return room


class Compared(Comparing):
    def test_the_same(self):
        of_program = "Program and libraries in release/ are those that were built here, .*"
        of_parts = (f"{it} in release/ is the one that was made here, byte for byte." for it in PARTS)
        self.goes_on(self.compare(released()), of_program, *of_parts)

    def test_another_program_or_library_for_aarch64(self):
        for name, word in (("chipfire", "program"), *((it, it) for it in made.LIBRARIES)):
            ran = self.compare(released(), self.another(f"aarch64/{name}"))
            self.fails(ran, f"the same kit and gcc 1 .made up., made up made another aarch64-{word} here from the same sources")

    def test_another_compiler_for_aarch64(self):
        path = made.made_up_tools(compiler="gcc 2")
        ran = self.compare(released(), self.another("aarch64/chipfire"), PATH=path)
        of_it = f"{PARTS[0]} in release/ was made by .*, and is not compared: here are {made.KIT} and gcc 2, made up."
        self.goes_on(ran, ".*", of_it, ".*")

    def test_another_program_or_library_of_the_same_kit(self):
        for name, word in (("chipfire", "program"), *((it, it) for it in made.LIBRARIES)):
            self.fails(self.compare(released(), self.another(name)), f"the same kit built another {word} here .*")

    def test_another_kit(self):
        for folder, made_here in ((None, "the same"), (self.another("chipfire"), "another program")):
            ran = self.compare(released(), folder, "another kit")
            of_program = f"{made.KIT} built what is in release/, and another kit built {made_here} here."
            of_parts = (f"{it} in release/ was made by .*, and is not compared: .*" for it in PARTS)
            self.goes_on(ran, of_program, *of_parts)

    def test_a_library_is_missing(self):
        for name in made.LIBRARIES:
            folder = self.another("chipfire")
            os.remove(f"{folder}/{name}")
            self.fails(self.compare(released(), folder), ".*No such file or directory.*")

    def test_other_sources(self):
        top = clone()
        change_sources(top)
        ran = self.compare(top, self.another("chipfire"))
        self.goes_on(ran, "release/ was built from other sources than these, at commit [0-9a-f]{12}.")

    def test_a_byte_changed(self):
        for sources, machine in (("the same", "x86_64"), ("others", "x86_64"), ("others", "aarch64")):
            top = clone()
            if sources == "others":
                os.remove(f"{top}/crates/chip_graph/src/lib.rt")
            change(archive_of(top, machine))
            self.fails(self.compare(top), "it cannot be unpacked: .*")

    def test_another_statement(self):
        top = clone()
        text = made.read(f"{top}/release/PROVED").decode()
        made.write(f"{top}/release/PROVED", text.replace("commit ", "commit 0", 1).encode())
        self.fails(self.compare(top), "it is not the one that PROVED states")

    def test_a_part_is_missing(self):
        for name in os.listdir(f"{released()}/release"):
            top = clone()
            os.remove(f"{top}/release/{name}")
            self.fails(self.compare(top), ".*No such file or directory.*")

    def test_a_version_that_another_program_had(self):
        top = clone()
        now = {name: made.read(f"{top}/release/{name}") for name in os.listdir(f"{top}/release")}
        made.write(f"{top}/release/PROVED", now["PROVED"].replace(b"libchipfire.so sha256:", b"libchipfire.so sha256:0"))
        made.commit(top)
        made.write(f"{top}/release/PROVED", now["PROVED"])
        made.commit(top)
        self.fails(self.compare(top), f"the release of commit [0-9a-f]{{12}} has version {made.version()}, and another .*")

    def test_none(self):
        top = clone()
        shutil.rmtree(f"{top}/release")
        self.goes_on(self.compare(top), "There is no release/ to compare with.")
