"""Each package is installed where there is nothing else, and plays."""
import ast
import glob
import json
import os
import re
import shutil
import sys
import unittest
import zipfile

import made

#: The report of the game that is built in; docs/GAME.md plays it by hand.
BUILT_IN = '{"chips":[1,0,3],"closed":true,"fired":[2,1,0],"over":[],"sealed":[],"version":1}\n'
SIDE = 64
#: What is asked of the Python package.
PLAY = """
import json, os, sys, chipfire
graph, chips = sys.argv[1:]
print(chipfire.plain(chipfire.Graph(3, 2, [(0, 1), (0, 2), (1, 0), (1, 2)]), [4, 0, 0]).text(), end="")
print(chipfire.plain(graph, chips).text(), end="")
try:
    chipfire.check(chips)
except chipfire.Fault as fault:
    print(fault.number, fault.name, fault.explanation != "")
print(chipfire.__version__)
print(chipfire.find_program())
"""
#: What the Debian package overrides of what lintian says of it; the package's file of overrides gives the reasons.
OVERRIDDEN = {
    "unstripped-binary-or-object",
    "package-name-doesnt-match-sonames",
    "link-to-shared-library-in-wrong-package",
}
#: What else lintian may say, neither errors nor warnings, and why it stays.
NOTED = {
    "no-symbols-control-file",  # the file `shlibs` states the version
    "hardening-no-fortify-functions",  # the program is not compiled from C
    "spelling-error-in-binary",  # two bytes of code look like a word
}


def grid():
    """Returns a 64 by 64 grid: one corner is the sink, and takes what falls off the border."""
    sink, edges = SIDE * SIDE - 1, {}
    for vertex in range(sink):
        row, column = divmod(vertex, SIDE)
        for y, x in ((row - 1, column), (row + 1, column), (row, column - 1), (row, column + 1)):
            head = SIDE * y + x if 0 <= y < SIDE and 0 <= x < SIDE else sink
            edges[vertex, head] = edges.get((vertex, head), 0) + 1
    return {"version": 1, "vertices": sink + 1, "sink": sink, "edges": [[*ends, mult] for ends, mult in edges.items()]}


@made.kept
def game():
    """Returns the files of the grid and of 4,000 chips in its middle, and what examples/play.py prints of them."""
    folder = made.room()
    graph, chips = f"{folder}/graph.json", f"{folder}/chips.csv"
    made.write(graph, json.dumps(grid()).encode())
    made.write(chips, f"vertex,chips\n{SIDE * SIDE // 2 + SIDE // 2},4000\n".encode())
    played = made.run(sys.executable, f"{made.ROOT}/examples/play.py", graph, chips, check=True)
    return graph, chips, played.stdout


class Tried(made.Test):
    def tries(self, program):
        """Tries the game that is built in, the grid, and a fault."""
        graph, chips, report = game()
        self.assertEqual(made.run(program).stdout, BUILT_IN)
        for words in (["plain", graph, chips], ["run", graph, chips, "--workers", "2"]):
            played = made.run(program, *words)
            self.assertEqual((played.returncode, played.stdout, played.stderr), (0, report, ""))
        refused = made.run(program, "check", chips)
        self.assertEqual((refused.returncode, refused.stdout, refused.stderr), (1, "", "chipfire: fault 20 NotJson\n"))

    def is_explained(self, package):
        """Tries that lintian finds no error and no warning in a Debian package, and nothing that is not explained."""
        made.need("lintian")
        said = made.run("lintian", "--display-info", "--show-overrides", "--allow-root", package)
        lines = [line.split(": ", 2) for line in said.stdout.splitlines() if line[:2] in ("E:", "W:", "I:", "O:")]
        found = {(kind, rest.split()[0]) for kind, _, rest in lines}
        self.assertEqual(said.stderr, "")
        self.assertFalse([tag for kind, tag in found if kind in "EW"])
        self.assertLessEqual({tag for kind, tag in found if kind == "I"}, NOTED)
        self.assertEqual({tag for kind, tag in found if kind == "O"}, OVERRIDDEN)


class Linked(Tried):
    """What programs in C and C++ find by pkg-config, and by CMake."""

    #: The compiler of C.
    COMPILER = "gcc"

    CMAKE = """
cmake_minimum_required(VERSION 3.16)
project(examples C CXX)
set(CMAKE_C_STANDARD 11)
set(CMAKE_CXX_STANDARD 17)
find_package(chipfire {version} EXACT REQUIRED)
add_executable(grid {examples}/grid.c)
target_link_libraries(grid chipfire::chipfire)
add_executable(pool {examples}/pool.cpp)
target_link_libraries(pool chipfire::chipfire pthread)
add_executable(static-grid {examples}/grid.c)
target_link_libraries(static-grid chipfire::static)
"""

    @staticmethod
    def starting(program):
        """Returns the words that start what was compiled."""
        return [program]

    def is_linked(self, libraries, version, include, **where):
        """Builds the example with a library that is shared and with one that is not, and starts both."""
        made.need(self.COMPILER, "pkg-config", "readelf")
        example, room = f"{made.ROOT}/examples/c/grid.c", made.room()
        where |= {"PKG_CONFIG_LIBDIR": f"{libraries}/pkgconfig", "LD_LIBRARY_PATH": libraries}
        self.assertEqual(made.run("pkg-config", "--modversion", "chipfire", **where).stdout, f"{version}\n")
        flags, words = (made.run("pkg-config", it, "chipfire", check=True, **where).stdout.split() for it in ("--cflags", "--libs"))
        self.assertEqual([os.path.realpath(it.removeprefix("-I")) for it in flags], [os.path.realpath(include)])
        made.run(self.COMPILER, *flags, example, *words, "-o", f"{room}/shared", check=True)
        made.run(self.COMPILER, *flags, example, f"{libraries}/libchipfire.a", "-o", f"{room}/static", check=True)
        shown, other = (made.run(*self.starting(f"{room}/{it}"), check=True, **where).stdout for it in ("shared", "static"))
        self.assertTrue(shown.startswith("0320230\n"), shown)
        self.assertEqual(shown, other)
        for name, is_asked in (("shared", True), ("static", False)):
            asked = made.run("readelf", "--dynamic", f"{room}/{name}", check=True).stdout
            self.assertEqual("[libchipfire.so.1]" in asked, is_asked, name)

    def is_found(self, prefix, version):
        """Builds examples in C and C++ by CMake, and starts them."""
        made.need("cmake", "make", "gcc", "g++")
        room = made.room()
        project = self.CMAKE.format(version=version, examples=f"{made.ROOT}/examples/c")
        made.write(f"{room}/CMakeLists.txt", project.encode())
        made.run("cmake", "-S", room, "-B", f"{room}/built", f"-DCMAKE_PREFIX_PATH={prefix}", check=True)
        made.run("cmake", "--build", f"{room}/built", check=True)
        for name in ("grid", "static-grid"):
            self.assertTrue(made.run(f"{room}/built/{name}", check=True).stdout.startswith("0320230\n"))
        self.assertEqual(made.run(f"{room}/built/pool", check=True).stdout, "92 ways\n")
        made.write(f"{room}/CMakeLists.txt", project.replace(f"{version} EXACT", "99.0").encode())
        refused = made.run("cmake", "-S", room, "-B", f"{room}/other", f"-DCMAKE_PREFIX_PATH={prefix}")
        self.assertNotEqual(refused.returncode, 0)
        self.assertIn(f"version: {version}", refused.stderr)


class Archive(Linked):
    def test_a_program_in_c_is_linked_with_it(self):
        self.is_linked(f"{made.unpacked()}/lib", made.version(), f"{made.unpacked()}/include")

    def test_cmake_finds_it(self):
        self.is_found(made.unpacked(), made.version())

    def test_a_program_in_c_is_linked_with_it_as_the_page_says(self):
        made.need("gcc", "pkg-config")
        page, room = made.read(f"{made.ROOT}/docs/tasks/from-c.md").decode(), made.room()
        shutil.copy(f"{made.ROOT}/examples/c/grid.c", room)
        linked, where = (re.search(f"^    {it} .*$", page, re.MULTILINE)[0] for it in ("gcc grid.c", "export"))
        shown = made.run("bash", "-c", f"{where}\n{linked} && ./grid", cwd=room, check=True, here=made.unpacked()).stdout
        self.assertTrue(shown.startswith("0320230\n"), shown)

    def test_it_is_one_folder_and_runs(self):
        self.assertEqual(os.path.basename(made.unpacked()), f"chipfire-{made.version()}")
        self.tries(f"{made.unpacked()}/bin/chipfire")

    def test_it_has_the_examples(self):
        triangle = f"{made.unpacked()}/share/doc/chipfire/examples/triangle"
        played = made.run(f"{made.unpacked()}/bin/chipfire", "plain", f"{triangle}/graph.json", f"{triangle}/chips.csv")
        self.assertEqual(played.stdout, BUILT_IN)


class DebianPackage(Linked):
    @staticmethod
    @made.kept
    def root():
        """Returns a root with nothing but the package, as dpkg installs it."""
        made.need("dpkg")
        if os.geteuid() != 0:
            raise unittest.SkipTest("dpkg installs for root alone")
        root = made.room()
        for name in ("info", "updates", "triggers"):
            os.makedirs(f"{root}/var/lib/dpkg/{name}")
        made.write(f"{root}/var/lib/dpkg/status", b"")
        # (there is no C library in this root)
        words = [f"--root={root}", "--force-depends", "--force-script-chrootless", "-i"]
        made.run("dpkg", *words, made.path_of(".deb"), check=True)
        return root

    def test_dpkg_installs_it_and_it_runs(self):
        ran = made.run("dpkg-query", f"--admindir={self.root()}/var/lib/dpkg", "-W", "-f", "${Status} ${Version}", "chipfire")
        self.assertEqual(ran.stdout, f"install ok installed {made.version()}")
        self.tries(f"{self.root()}/usr/bin/chipfire")

    def test_it_unpacks_and_runs(self):
        root = made.room()
        made.run("dpkg-deb", "-x", made.path_of(".deb"), root, check=True)
        self.tries(f"{root}/usr/bin/chipfire")

    def test_a_program_in_c_is_linked_with_it(self):
        root = self.root()
        where = {"PKG_CONFIG_SYSROOT_DIR": root}
        self.is_linked(f"{root}/usr/lib/x86_64-linux-gnu", made.version(), f"{root}/usr/include", **where)

    def test_where_it_is_installed_pkg_config_has_no_words_for_folders(self):
        """Compilers search there by themselves."""
        made.need("pkg-config")
        where = {"PKG_CONFIG_LIBDIR": f"{self.root()}/usr/lib/x86_64-linux-gnu/pkgconfig"}
        shown = made.run("pkg-config", "--cflags", "--libs", "chipfire", check=True, **where).stdout
        self.assertEqual(shown.split(), ["-lchipfire"])

    def test_cmake_finds_it(self):
        self.is_found(f"{self.root()}/usr", made.version())

    def test_dpkg_finds_each_file_as_it_was(self):
        ran = made.run("dpkg", f"--root={self.root()}", "--verify", "chipfire")
        self.assertEqual((ran.returncode, ran.stdout), (0, ""))

    def test_man_finds_its_page(self):
        made.need("man")
        shown = made.run("man", "-M", f"{self.root()}/usr/share/man", "chipfire", MANWIDTH="100")
        self.assertIn("chipfire - a chip-firing machine that is proved right", shown.stdout)

    def test_lintian_says_nothing_unexplained(self):
        self.is_explained(made.path_of(".deb"))


class Wheel(Tried):
    @staticmethod
    @made.kept
    def room():
        """Returns an environment of Python with nothing but the wheel in it, which was installed without network."""
        room = made.virtual_environment()
        made.pip(room, "install", "--no-index", made.path_of(".whl"), check=True)
        return room

    def test_its_command_runs(self):
        self.tries(f"{self.room()}/bin/chipfire")

    def test_the_package_runs_the_program_in_it(self):
        graph, chips, report = game()
        asked = made.run(f"{self.room()}/bin/python", "-c", PLAY, graph, chips, cwd=made.room())
        self.assertEqual(asked.stderr, "")
        *lines, program = asked.stdout.splitlines(keepends=True)
        self.assertEqual(lines, [BUILT_IN, report, "20 NotJson True\n", f"{made.version()}\n"])
        self.assertTrue(program.startswith(os.path.realpath(self.room())), program)
        self.assertEqual(made.read(program.strip()), made.read(made.PROGRAM))

    def test_pip_finds_nothing_wrong(self):
        self.assertEqual(made.pip(self.room(), "check").returncode, 0)
        shown = made.pip(self.room(), "show", "--files", "chipfire").stdout
        self.assertIn(f"Version: {made.version()}\n", shown)
        for name in ("PROVED", made.SHARED):
            self.assertIn(f"chipfire/program/{name}\n", shown)

    def test_without_a_program_inside_it_calls_the_library_that_is_installed(self):
        room, root = made.room(), made.room()
        shutil.copytree(f"{made.home()}/python/chipfire", f"{room}/chipfire")
        made.write(f"{room}/chipfire/version", made.version().encode())
        made.run("dpkg-deb", "-x", made.path_of(".deb"), root, check=True)
        ask = ["-c", "import chipfire; print(chipfire.find_library(), chipfire.plain(chipfire.path(1), [3]).fired)"]
        for top, libraries in ((made.unpacked(), "lib"), (f"{root}/usr", "lib/x86_64-linux-gnu")):
            asked = made.run(sys.executable, *ask, PYTHONPATH=room, PATH=f"{top}/bin")
            self.assertEqual((asked.stdout, asked.stderr), (f"{top}/{libraries}/libchipfire.so (1, 0)\n", ""))
            shutil.copytree(top, f"{room}/copy-{len(libraries)}", symlinks=True)
            with open(f"{room}/copy-{len(libraries)}/{libraries}/libchipfire.so.1", "ab") as file:
                file.write(b"\0")
            asked = made.run(sys.executable, *ask, PYTHONPATH=room, PATH=f"{room}/copy-{len(libraries)}/bin")
            self.assertEqual(asked.stdout, "None (1, 0)\n")
            self.assertIn("libchipfire.so is not loaded, since neither PROVED nor", asked.stderr)

    def test_without_a_program_inside_it_finds_one_on_the_path(self):
        room, path = made.room(), made.room()
        sources = f"{made.room()}/python"
        shutil.copytree(f"{made.home()}/python", sources)
        made.write(f"{sources}/PKG-INFO", f"Version: {made.version()}\n".encode())
        made.pip(self.room(), "install", "--no-index", "--target", room, sources, check=True)
        os.symlink(made.PROGRAM, f"{path}/chipfire")
        ask = ["-c", "import chipfire; print(chipfire.find_program(), chipfire.__version__)"]
        asked = made.run(sys.executable, *ask, PYTHONPATH=room, PATH=path)
        self.assertEqual(asked.stdout, f"{path}/chipfire {made.version()}\n")
        self.assertIn("ProgramNotFound", made.run(sys.executable, *ask, PYTHONPATH=room, PATH=room).stderr)


class TwoWheels(made.Test):
    """Of the two wheels pip takes the one that the system's C library is new enough for."""

    #: What has pip take the C library for an older one than the program's (PEP 600).
    OLD = b"def manylinux_compatible(major, minor, machine):\n    return (major, minor) < (2, 34)\n"
    ASK = "import chipfire; print(chipfire.__version__, chipfire.find_library(), chipfire.plain(chipfire.path(1), [3]).fired)"

    def installed(self, is_old):
        """Returns an environment in which pip installed what it chose."""
        room = made.virtual_environment()
        if is_old:
            (packages,) = glob.glob(f"{glob.escape(room)}/lib/python3*/site-packages")
            made.write(f"{packages}/_manylinux.py", self.OLD)
        made.pip(room, "install", "--no-index", "--find-links", f"{made.home()}/dist", "chipfire", check=True)
        return room

    def test_with_a_new_one_there_is_the_program(self):
        room = self.installed(is_old=False)
        self.assertEqual(made.run(f"{room}/bin/chipfire", "--version").stdout, f"chipfire {made.version()}\n")

    def test_with_an_old_one_there_is_the_library_alone(self):
        room = self.installed(is_old=True)
        self.assertFalse(os.path.exists(f"{room}/bin/chipfire"))
        asked = made.run(f"{room}/bin/python", "-c", self.ASK, cwd=made.room())
        place = os.path.realpath(room)
        self.assertRegex(asked.stdout, rf"\A{made.version()} {place}/.*/chipfire/program/libchipfire.so \(1, 0\)\n\Z")
        self.assertEqual(asked.stderr, "")


class Editable(made.Test):
    """What `pip install -e` installs: the package as it lies in a clone, where it can be edited."""

    ASK = """
import importlib.metadata, chipfire
print(importlib.metadata.version("chipfire"), chipfire.__file__, chipfire.find_program())
print(chipfire.plain(chipfire.path(1), [3]).fired)
"""

    def python(self):
        """Returns the Python of the system if it makes environments, and else this one."""
        system = shutil.which("python3", path=made.PATH) or sys.executable
        return system if made.run(system, "-c", "import ensurepip").returncode == 0 else sys.executable

    def test_it_is_the_package_of_the_clone(self):
        """It is installed without network and without setuptools, edited, and taken away again."""
        top, room = made.checkout(), made.virtual_environment(self.python())
        made.build(top)
        made.pip(room, "uninstall", "-q", "-y", "setuptools", check=True)
        made.pip(room, "install", "--no-index", "-e", f"{top}/python", check=True)
        asked = made.run(f"{room}/bin/python", "-c", self.ASK, cwd=made.rooms())
        found = f"{made.version()} {top}/python/chipfire/__init__.py {top}/target/chipfire\n(1, 0)\n"
        self.assertEqual(asked.stdout, found, asked.stderr)
        made.write(f"{top}/python/chipfire/more.py", b"print('edited')\n")
        self.assertEqual(made.run(f"{room}/bin/python", "-c", "import chipfire.more", cwd=made.rooms()).stdout, "edited\n")
        self.assertFalse(os.path.exists(f"{room}/bin/chipfire"))
        made.pip(room, "uninstall", "-y", "chipfire", check=True)
        gone = made.run(f"{room}/bin/python", "-c", "import chipfire", cwd=made.rooms())
        self.assertIn("ModuleNotFoundError", gone.stderr)
        there = ["build_wheel.py", "chipfire", "contents.py", "pyproject.toml", "wheels.py"]
        self.assertEqual(sorted(os.listdir(f"{top}/python")), there)


class OldPython(made.Test):
    """The package refuses a Python that is too old for it, and says so."""

    #: A Python that takes itself for an older one begins with this.
    OLD = b"import sys\nsys.version_info = 3, 8, 18, 'final', 0\n"
    STARTED = (
        "package.py", "tools/paths.py", "tools/release.py", "python/build_wheel.py", "python/contents.py",
        "python/wheels.py", "python/chipfire/__init__.py",
    )

    def runs(self, *words):
        """What becomes of words for Python where Python takes itself for an older one."""
        older = made.room()
        made.write(f"{older}/sitecustomize.py", self.OLD)
        return made.run(sys.executable, *words, PYTHONPATH=f"{older}:{made.ROOT}/python")

    def required(self):
        page = made.read(f"{made.ROOT}/python/pyproject.toml").decode()
        return re.search(r'^requires-python = "(.*)"$', page, re.MULTILINE)[1]

    def test_what_is_started_says_which_it_takes(self):
        taken = (f"{made.ROOT}/tools/release.py", "--take", made.room(), "")
        for words in ((f"{made.ROOT}/package.py",), taken, ("-c", "import chipfire")):
            ran = self.runs(*words)
            self.assertEqual((ran.returncode, ran.stdout), (1, ""), words)
            said = f"requires Python {self.required()}, and {sys.executable} is Python 3.8.18"
            self.assertTrue(ran.stderr.splitlines()[-1].endswith(said), ran.stderr)

    def test_a_wheel_is_made_that_pip_can_refuse(self):
        room = made.room()
        make = f"import build_wheel; print(build_wheel.build_wheel({room!r}))"
        ran = self.runs("-c", make)
        self.assertEqual(ran.stdout, f"chipfire-{made.version()}-py3-none-any.whl\n", ran.stderr)
        with zipfile.ZipFile(f"{room}/{ran.stdout.strip()}") as wheel:
            metadata = wheel.read(f"chipfire-{made.version()}.dist-info/METADATA").decode()
        self.assertIn(f"\nRequires-Python: {self.required()}\n", metadata)

    def test_pip_refuses_it(self):
        """By its own words, if it is new enough to read pyproject.toml."""
        old = [path for version, path in made.pythons().items() if (3, 7) <= version < (3, 9)]
        if not old:
            self.skipTest("there is no Python of version 3.7 or 3.8")
        room = made.virtual_environment(old[0])
        ran = made.pip(room, "install", "--no-index", f"{made.home()}/python")
        self.assertIn("Package 'chipfire' requires a different Python: ", ran.stderr)
        self.assertNotIn("Traceback", ran.stdout + ran.stderr)

    def test_it_understands_what_says_so(self):
        for name in self.STARTED:
            tree = ast.parse(made.read(f"{made.ROOT}/{name}"), feature_version=(3, 7))
            self.assertFalse([it for it in ast.walk(tree) if isinstance(it, ast.ImportFrom) and it.module == "__future__"])
