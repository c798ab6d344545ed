"""What ./package makes: the same each time, of one version, with what docs/PACKAGES.md says that it needs."""
import calendar
import gzip
import hashlib
import os
import re
import shutil
import sys
import tarfile
import time
import zipfile

import made
import test_documents

#: What wheels.py packs where Python's own gzip writes another system.
PACKED = """
import gzip, sys
own = gzip.compress
def compress(*words, **options):
    packed = own(*words, **options)
    return packed[:9] + bytes([int(sys.argv[1])]) + packed[10:]
gzip.compress = compress
sys.path.insert(0, ".")
import wheels
print(wheels.gzipped(b"text").hex())
"""
#: The C library of Debian 12, the oldest release that Debian supports.
OLDEST = (2, 36)


def page():
    return made.read(f"{made.ROOT}/docs/PACKAGES.md").decode()


def readelf(word, path=made.PROGRAM):
    """Returns what readelf shows of the program, or of another file."""
    made.need("readelf")
    return made.run("readelf", "-W", word, path, check=True).stdout


def current_pythons():
    """Returns the oldest and the newest Python of this machine that ./package takes."""
    found = [path for version, path in made.pythons().items() if version >= (3, 9)]
    return found[0], found[-1]


def proved_crates():
    """Returns the crates that program and libraries depend on, and their own, by the lines of crates.txt."""
    lines = made.read(f"{made.ROOT}/crates.txt").decode().splitlines()
    direct = {line.partition(":")[0].split()[0]: line.partition(":")[2].split() for line in lines if line[:1] not in ("", "#")}
    found, open_ones = set(), ["chipfire", "chip_exports"]
    while open_ones:
        name = open_ones.pop()
        if name in direct and name not in found:
            found.add(name)
            open_ones += direct[name]
    return found


class Made(made.Test):
    def test_names(self):
        version = made.version()
        wheels = {f"chipfire-{version}-py3-none-manylinux_2_{it}_x86_64.whl" for it in (34, 14)}
        names = {f"chipfire-{version}-x86_64-linux.tar.xz", f"chipfire_{version}_amd64.deb", *wheels, "PROVED"}
        self.assertEqual(set(os.listdir(f"{made.home()}/dist")), names)

    def test_the_same_bytes_each_time(self):
        """By this Python, the oldest and the newest, and whatever the environment says to dpkg-deb."""
        top = made.checkout()
        made.build(top)
        found = []
        for python in (sys.executable, *current_pythons()):
            surrounded = {"TZ": "Asia/Tokyo", "DPKG_DEB_COMPRESSOR_LEVEL": "1"} if found else {}
            ran = made.package(top, python=python, **surrounded)
            self.assertEqual(ran.returncode, 0, ran.stderr)
            found.append({name: made.read(f"{top}/dist/{name}") for name in os.listdir(f"{top}/dist")})
            made.write(f"{top}/dist/left over", b"")
            self.assertTrue(found[0] == found[-1], python)

    def test_all_is_of_the_day_of_the_version_if_the_clock_is_before_it_too(self):
        top = made.checkout()
        text = made.read(f"{top}/CHANGELOG.md").decode()
        head = re.compile(rf"^# chipfire {re.escape(made.version())}, .*$", re.MULTILINE)
        made.write(f"{top}/CHANGELOG.md", head.sub(f"# chipfire {made.version()}, 2099-01-01", text).encode())
        made.build(top)
        self.assertEqual(made.package(top).returncode, 0)
        with tarfile.open(made.path_of(".tar.xz", top)) as archive:
            self.assertEqual({it.mtime for it in archive}, {calendar.timegm((2099, 1, 1, 0, 0, 0))})
        listed = made.run("dpkg-deb", "-c", made.path_of(".deb", top), check=True, TZ="UTC").stdout.splitlines()
        self.assertEqual({tuple(line.split()[3:5]) for line in listed}, {("2099-01-01", "00:00")})

    def test_program_and_libraries_are_those_that_were_built(self):
        built = {made.PROGRAM: "bin/chipfire", **{made.library(it): f"lib/{it}" for it in made.LIBRARIES}}
        for path, place in built.items():
            self.assertTrue(made.read(f"{made.unpacked()}/{place}") == made.read(path))
        with zipfile.ZipFile(made.path_of(".whl")) as wheel:
            for path in (made.PROGRAM, made.library(made.SHARED)):
                self.assertTrue(wheel.read(f"chipfire/program/{os.path.basename(path)}") == made.read(path))

    def test_all_is_of_root(self):
        with tarfile.open(made.path_of(".tar.xz")) as archive:
            self.assertEqual({(it.uid, it.gid, it.uname, it.gname) for it in archive}, {(0, 0, "root", "root")})
        listed = made.run("dpkg-deb", "-c", made.path_of(".deb"), check=True).stdout.splitlines()
        self.assertEqual({line.split()[1] for line in listed}, {"root/root"})

    def test_proved(self):
        top, text = made.home(), made.read(f"{made.home()}/dist/PROVED").decode()
        head = made.run("git", "rev-parse", "HEAD", cwd=top).stdout.strip()
        built = {"program": made.PROGRAM, **{it: made.library(it) for it in made.LIBRARIES}}
        sums = [f"{word} sha256:{hashlib.sha256(made.read(path)).hexdigest()}" for word, path in built.items()]
        self.assertEqual(text.splitlines()[:3], [f"chipfire {made.version()}", f"kit {made.KIT}", f"commit {head}"])
        self.assertEqual(text.splitlines()[4:], sums)

    def test_the_checksum_of_the_sources_is_that_of_sha256sum(self):
        folders = [f"crates/{crate}/{part}" for crate in proved_crates() for part in ("src", "specs", "proofs")]
        summed = "find crates.txt \"$@\" -type f 2>/dev/null | LC_ALL=C sort | xargs -d '\\n' sha256sum | sha256sum"
        shown = made.run("bash", "-c", summed, "bash", *folders, cwd=made.home(), check=True).stdout.split()[0]
        self.assertIn(f"\nsources sha256:{shown}\n", made.read(f"{made.home()}/dist/PROVED").decode())

    def test_the_lines_of_the_page_print_the_checksums(self):
        made.need("tar", "xz")
        stated = made.read(f"{made.home()}/dist/PROVED").decode()
        for word, begin in (("sources", "find crates.txt "), ("program", "tar -xOf release/")):
            line = re.search(rf"^    ({re.escape(begin)}.*)$", page(), re.MULTILINE)[1].replace("release/", "dist/")
            for shell in ("sh", "bash"):
                shown = made.run(shell, "-c", line, cwd=made.home(), LC_ALL="en_US.UTF-8", check=True).stdout.split()[0]
                self.assertIn(f"\n{word} sha256:{shown}\n", stated, line)

    def test_sources_that_are_not_committed_are_reported(self):
        top = made.checkout()
        with open(f"{top}/crates/chip_graph/src/lib.rt", "a", encoding="utf-8") as file:
            file.write("// one line more\n")
        made.build(top)
        self.assertEqual(made.package(top).returncode, 0)
        self.assertRegex(made.read(f"{top}/dist/PROVED").decode(), "\ncommit [0-9a-f]{40}, changed\n")


class Compressed(made.Test):
    """What gzip packs begins alike, whatever Python writes there: no flags, no date, best compression, unknown system."""

    HEAD = b"\x1f\x8b\x08\0" + bytes(4) + b"\x02\xff"

    def test_what_debian_wants_packed(self):
        room = made.room()
        made.run("dpkg-deb", "-x", made.path_of(".deb"), room, check=True)
        packed = [f"{folder}/{name}" for folder, _, names in os.walk(room) for name in names if name.endswith(".gz")]
        pages = ["chipfire.1", *(f"chipfire-{it}.1" for it in test_documents.commands()), "chipfire.3", "chipfire.5"]
        self.assertEqual(sorted(map(os.path.basename, packed)), sorted(f"{it}.gz" for it in ["changelog", *pages]))
        for path in packed:
            self.assertEqual(made.read(path)[:10], self.HEAD, path)

    def test_under_a_python_that_writes_any_system(self):
        """The system is the byte at place 9."""
        for system in (0, 3, 255):
            text = made.run(sys.executable, "-c", PACKED, str(system), cwd=f"{made.ROOT}/python", check=True).stdout
            packed = bytes.fromhex(text)
            self.assertEqual((packed[:10], gzip.decompress(packed)), (self.HEAD, b"text"))

    def test_an_archive_of_the_sources_of_the_package(self):
        make = "import build_wheel, sys; print(build_wheel.build_sdist(sys.argv[1]))"
        found = set()
        for python in current_pythons():
            room = made.room()
            name = made.run(python, "-c", make, room, PYTHONPATH=f"{made.home()}/python", check=True).stdout.strip()
            found.add(made.read(f"{room}/{name}"))
        self.assertEqual({it[:10] for it in found}, {self.HEAD})
        self.assertEqual(len(found), 1)

    def test_a_wheel_of_that_archive_has_the_version(self):
        make = "import sys, build_wheel; print(build_wheel.{}(sys.argv[1]))"
        room, python = made.room(), [sys.executable, "-c"]
        name = made.run(*python, make.format("build_sdist"), room, cwd=f"{made.ROOT}/python", check=True).stdout.strip()
        shutil.unpack_archive(f"{room}/{name}", room)
        top = f"{room}/chipfire-{made.version()}"
        wheel = made.run(*python, make.format("build_wheel"), room, cwd=top, check=True).stdout.strip()
        self.assertEqual(wheel, f"chipfire-{made.version()}-py3-none-any.whl")
        with zipfile.ZipFile(f"{room}/{wheel}") as inside:
            self.assertEqual(inside.read("chipfire/version").decode(), made.version())


class NotMade(made.Test):
    def refuses(self, top, why):
        ran = made.package(top)
        self.assertEqual((ran.returncode, ran.stdout), (1, ""))
        self.assertIn(why, ran.stderr)
        self.assertFalse(os.path.exists(f"{top}/dist"))

    def test_where_nothing_is_proved_and_no_kit_is_there(self):
        self.refuses(made.checkout(), "the program could not be proved and built")

    def test_where_a_source_is_newer_than_the_program(self):
        top = made.checkout()
        made.build(top)
        path, later = f"{top}/crates/chip_graph/src/lib.rt", time.time() + 9
        # (what is put back keeps its time if it has the same bytes)
        self.addCleanup(os.utime, path)
        os.utime(path, (later, later))
        self.refuses(top, "the program could not be proved and built")

    def test_where_the_program_has_another_version(self):
        top = made.checkout()
        for name in ("crates/chip_arguments/src/help_texts.rt", "CHANGELOG.md"):
            text = made.read(f"{top}/{name}").decode()
            made.write(f"{top}/{name}", text.replace(made.version(), "77.0").encode())
        made.build(top)
        self.refuses(top, f"the program says that it has version {made.version()}, and its sources say 77.0")

    def test_where_the_changelog_begins_with_another_version(self):
        top = made.checkout()
        text = made.read(f"{top}/CHANGELOG.md").decode()
        made.write(f"{top}/CHANGELOG.md", f"# chipfire 77.0, 2026-01-01\n\n- More.\n\n{text}".encode())
        made.build(top)
        self.refuses(top, "CHANGELOG.md does not begin with version")


class OneVersion(made.Test):
    def test_it_is_that_of_each_package(self):
        version = made.version()
        with zipfile.ZipFile(made.path_of(".whl")) as wheel:
            self.assertIn(f"\nVersion: {version}\n", wheel.read(f"chipfire-{version}.dist-info/METADATA").decode())
        shown = made.run("dpkg-deb", "-f", made.path_of(".deb"), "Version")
        self.assertEqual(shown.stdout, f"{version}\n")
        name = re.escape(version)
        changes = made.read(f"{made.ROOT}/CHANGELOG.md").decode()
        self.assertRegex(changes, rf"(?s)\A(# chipfire [\d.]+ \(not yet released\)\n.*?\n)?# chipfire {name}, ")

    def test_it_stands_in_one_place(self):
        """Only the source of the program, the changes, the citation, the tests of what it prints and a release have it."""
        version = re.compile(rb"(?<![\w.])%b(?![\w.])" % re.escape(made.version().encode()))
        files = [it for it in made.repository_files() if not it.startswith("release/")]
        having = {name for name in files if version.search(made.read(f"{made.ROOT}/{name}"))}
        places = {"crates/chip_arguments/src/help_texts.rt", "CHANGELOG.md", "CITATION.cff", "tests/cli/cases/explain.cases"}
        self.assertEqual(having, places)


class Needs(made.Test):
    def test_libraries(self):
        for path in (made.PROGRAM, made.library(made.SHARED)):
            needed = re.findall(r"\(NEEDED\).*\[(.*)\]", readelf("--dynamic", path))
            self.assertEqual(needed, ["libc.so.6"])
        self.assertIn("one shared library, `libc.so.6`", page())

    def test_c_library(self):
        asked = {path: re.findall(r"GLIBC_(\d+)\.(\d+)", readelf("--version-info", path))
                 for path in (made.PROGRAM, made.library(made.SHARED))}
        newest, of_library = (max((int(major), int(minor)) for major, minor in its) for its in asked.values())
        self.assertLessEqual(of_library, newest)
        self.assertLessEqual(newest, OLDEST)
        text = "{}.{}".format(*newest)
        depends = made.run("dpkg-deb", "-f", made.path_of(".deb"), "Depends").stdout
        self.assertEqual(depends, f"libc6 (>= {text})\n")
        self.assertIn("manylinux_{}_{}_x86_64".format(*newest), made.path_of(".whl"))
        self.assertIn("manylinux_{}_{}_x86_64".format(*of_library), made.path_of("_2_14_x86_64.whl"))
        for its, word in ((newest, "program"), (of_library, "library")):
            self.assertIn("| {} for x86-64 | {}.{} |".format(word, *its), page())

    def test_debian_finds_the_same_dependency(self):
        made.need("dpkg-shlibdeps")
        room = made.room()
        os.mkdir(f"{room}/debian")
        made.write(f"{room}/debian/control", b"Source: chipfire\n\nPackage: chipfire\nArchitecture: amd64\n")
        files = [f"{made.unpacked()}/{it}" for it in ("bin/chipfire", f"lib/{made.SHARED}")]
        found = made.run("dpkg-shlibdeps", "-O", *files, cwd=room, check=True).stdout
        self.assertEqual(found.strip().removeprefix("shlibs:Depends="),
                         made.run("dpkg-deb", "-f", made.path_of(".deb"), "Depends").stdout.strip())

    def test_kernel(self):
        oldest = re.search(r"OS: Linux, ABI: (\d+\.\d+)", readelf("--notes"))[1]
        self.assertIn(f"Linux {oldest} or newer", page())

    def test_processor(self):
        """No instruction is one that came after the level x86-64-v2: those begin with v, or are in this list."""
        made.need("objdump")
        files = [made.PROGRAM, made.library(made.SHARED)]
        shown = made.run("objdump", "-d", "--no-show-raw-insn", "-w", *files, check=True).stdout
        used = set(re.findall(r"^ +[0-9a-f]+:\t(?:(?:lock|rep|repz|repnz|data16|cs|notrack|bnd) )*(\w+)", shown, re.MULTILINE))
        self.assertIn("mov", used)
        later = {"andn", "bextr", "blsi", "blsmsk", "blsr", "bzhi", "mulx", "pdep", "pext", "rorx", "sarx", "shlx", "shrx",
                 "lzcnt", "movbe", "adcx", "adox", "rdrand", "rdseed", "xbegin", "xend", "sha256rnds2", "aesenc", "pclmulqdq"}
        self.assertEqual({it for it in used if it in later or it.startswith("v") and it not in ("verr", "verw")}, set())
        self.assertIn("the level `x86-64-v2`", page())
