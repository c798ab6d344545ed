"""What release/ has for browsers and Node: the module, the package for npm and the page. It is taken and compared if all
that it is made of is as it was. (The module is made up, since the real one takes the kit: test_web.py tries that.)"""
import gzip
import hashlib
import io
import json
import os
import shutil
import sys
import tarfile
import zipfile

import made
from test_released import Comparing, archive_of, built, change, clone, released

#: The most that release/ may take.
MOST = 3_000_000
TITLE = "The package for browsers and Node in release/ "


def tgz_of(top):
    return f"{top}/release/chipfire-{made.version()}.tgz"


def files_of(top):
    """Returns the paths of the three files in release/ by their words in PROVED."""
    single = {name: f"{top}/release/{name}" for name in ("chipfire.wasm", "chipfire.html")}
    return {**single, "npm": tgz_of(top)}


def lines_of(top):
    """Returns the lines of PROVED as words and what is stated."""
    return dict(line.split(" ", 1) for line in made.read(f"{top}/release/PROVED").decode().splitlines())


def forget(top):
    """Makes the first commit of what is in a clone, so that there is no release before."""
    made.run("git", "checkout", "-q", "--detach", cwd=top, check=True)
    made.run("git", "branch", "-q", "-D", "alone", cwd=top)
    made.run("git", "checkout", "-q", "--orphan", "alone", cwd=top, check=True)
    made.commit(top)


def change_page(top):
    """Adds a line to what the page is made of."""
    with open(f"{top}/js/board/board.css", "a", encoding="utf-8") as file:
        file.write("/* one line more */\n")


def releases(top, **more):
    return made.package(top, "--release", **{"PATH": made.made_up_tools(), **more})


class Made(made.Test):
    def test_what_is_stated(self):
        top, stated = released(), lines_of(released())
        for word, path in files_of(top).items():
            self.assertEqual(stated[word], f"sha256:{hashlib.sha256(made.read(path)).hexdigest()}")
        made_of = "include/chipfire.h packing/faults.py tools/board.py tools/heap.c tools/making.py tools/webassembly.py js"
        summed = f"find {made_of} -type f"
        words = f"{summed} | LC_ALL=C sort | xargs -d '\\n' sha256sum | sha256sum"
        shown = made.run("bash", "-c", words, cwd=top, check=True).stdout.split()[0]
        self.assertEqual(stated["web-sources"], f"sha256:{shown}")
        self.assertEqual(stated["web-tools"], "wasm-opt version 1 (made up)")
        self.assertIn("lowered by the kit for x86-64, compiled by its LLVM for WebAssembly", stated["web-made"])

    def test_it_is_small(self):
        for release in (f"{released()}/release", f"{made.ROOT}/release"):
            self.assertLess(sum(os.path.getsize(f"{release}/{it}") for it in os.listdir(release)), MOST)

    def test_the_package_for_npm_has_the_files_that_npm_packs(self):
        made.need("npm")
        words = ["npm", "pack", "--dry-run", "--json", "--offline", "--no-update-notifier", "--logs-max=0"]
        shown = made.run(*words, cwd=f"{built()}/js", check=True, npm_config_cache=made.room()).stdout
        wanted = {f"package/{it['path']}": it["size"] for it in json.loads(shown)[0]["files"]}
        with tarfile.open(tgz_of(released()), "r:gz") as tar:
            self.assertEqual({it.name: it.size for it in tar}, wanted)
            self.assertEqual({(it.mtime, it.mode, it.uid, it.gid, it.uname) for it in tar}, {(499162500, 0o644, 0, 0, "")})

    def test_the_same_bytes_each_time(self):
        top = clone()
        before = {word: made.read(path) for word, path in files_of(top).items()}
        made.build(top)
        self.assertEqual(releases(top, TZ="Asia/Tokyo").returncode, 0)
        self.assertEqual({word: made.read(path) for word, path in files_of(top).items()}, before)

    def test_an_installed_package_has_the_version(self):
        with tarfile.open(tgz_of(released()), "r:gz") as tar:
            stated = json.load(tar.extractfile("package/package.json"))
        self.assertEqual((stated["name"], stated["version"]), ("chipfire", made.version()))


class NotMade(made.Test):
    """Without all tools, of other sources or what does not start there is no release."""

    def refuses(self, top, why, **more):
        made.build(top)
        before = {name: made.read(f"{top}/release/{name}") for name in os.listdir(f"{top}/release")}
        ran = releases(top, **more)
        self.assertEqual((ran.returncode, ran.stdout), (1, ""))
        self.assertEqual(ran.stderr.splitlines()[-1], f"package: release: {why}")
        self.assertEqual({name: made.read(f"{top}/release/{name}") for name in os.listdir(f"{top}/release")}, before)

    def test_without_a_tool(self):
        """Of aarch64 too; its C library is a tool."""
        made_up, tools = made.made_up_tools().partition(":")[0], made.room()
        lacking = {
            "aarch64-linux-gnu-gcc": "gcc-aarch64-linux-gnu",
            "qemu-aarch64": "qemu-user",
            "wasm-opt": "binaryen",
            "node": "nodejs",
        }
        for tool, package in lacking.items():
            self.refuses(clone(), f"{tool} is not on the PATH: Debian's package {package} has it", PATH=tools)
            if tool == "wasm-opt":
                os.rename(f"{tools}/lib", f"{tools}/other")
                why = "aarch64-linux-gnu-gcc has no C library: Debian's package libc6-dev-arm64-cross has it"
                self.refuses(clone(), why, PATH=tools)
                os.rename(f"{tools}/other", f"{tools}/lib")
            shutil.copy(f"{made_up}/{tool}", tools)
            shutil.copytree(f"{made_up}/lib", f"{tools}/lib", dirs_exist_ok=True)

    def test_where_it_does_not_start_in_Node(self):
        path = made.made_up_tools(prints="another version")
        self.refuses(clone(), "the package for browsers and Node does not start in Node", PATH=path)

    def test_where_the_script_fails(self):
        for script, its in (("webassembly", "the package for browsers and Node"), ("aarch64", "what is for aarch64")):
            top = clone()
            made.write(f"{top}/tools/{script}.py", b"raise SystemExit('there is no kit')\n")
            made.commit(top)
            self.refuses(top, f"{its} could not be made")

    def test_where_the_program_for_aarch64_does_not_start(self):
        top = clone()
        script = made.read(f"{top}/tools/aarch64.py").decode()
        self.assertEqual(script.count("file.write("), 1)
        made.write(f"{top}/tools/aarch64.py", script.replace("file.write(", "file.truncate(99) and file.write(").encode())
        made.commit(top)
        self.refuses(top, "the program for aarch64 does not start by qemu-aarch64")

    def test_of_a_page_that_is_not_committed(self):
        top = clone()
        change_page(top)
        self.refuses(top, "the sources are not those of a commit, which it would name: commit them first")

    def test_of_another_page_with_the_same_version(self):
        top = clone()
        change_page(top)
        made.commit(top)
        made.build(top)
        why = f"release: the release of commit [0-9a-f]{{12}} has version {made.version()}, and another "
        self.assertRegex(releases(top).stderr, why)


class Taken(made.Test):
    def names(self, top):
        """Starts a clone, and returns what it then has for browsers."""
        started = made.run(f"{top}/chipfire", "--version", check=True)
        self.assertRegex(started.stderr, r"\Achipfire: the program comes from release/: .*\n\Z")
        return sorted(os.listdir(f"{top}/target/js")) if os.path.isdir(f"{top}/target/js") else None

    def test_a_clone_has_the_package_and_opens_the_page(self):
        top = clone()
        self.assertEqual(self.names(top), sorted(os.listdir(f"{built()}/js")))
        for name in os.listdir(f"{built()}/js"):
            self.assertTrue(made.read(f"{top}/target/js/{name}") == made.read(f"{built()}/js/{name}"), name)
        opened = made.run(sys.executable, "-m", "chipfire", "board", "--no-browser", PYTHONPATH=f"{top}/python", TMPDIR="/tmp")
        self.assertEqual((opened.stdout, opened.stderr), (f"{os.path.realpath(top)}/target/js/chipfire.html\n", ""))

    def test_not_if_it_was_made_of_other_sources(self):
        """Then an earlier one goes, too."""
        top = clone()
        self.assertIsNotNone(self.names(top))
        change_page(top)
        os.remove(f"{top}/target/chipfire.stamp")
        os.remove(f"{top}/target/chipfire")
        self.assertIsNone(self.names(top))

    def test_the_wheel_has_the_page(self):
        top = clone()
        self.assertEqual(made.package(top).returncode, 0)
        page = "chipfire/program/js/chipfire.html"
        with zipfile.ZipFile(made.path_of(".whl", top)) as wheel:
            self.assertTrue(wheel.read(page) == made.read(f"{top}/release/chipfire.html"))
        self.assertEqual(self.checked(top), "")
        change_page(top)
        self.assertRegex(self.checked(top), f"these files in it are not those of these sources: .*{page}")
        self.assertEqual(made.package(top).returncode, 0)
        with zipfile.ZipFile(made.path_of(".whl", top)) as wheel:
            self.assertNotIn(page, wheel.namelist())
        self.assertEqual(self.checked(top), "")

    def checked(self, top):
        """Returns why the wheel of a clone is refused, or nothing."""
        return made.package(top, "--check", made.path_of(".whl", top)).stderr

    def test_what_pip_installs_opens_the_page(self):
        top, room = clone(), made.virtual_environment()
        made.pip(room, "install", "-v", "--no-index", f"{top}/python", check=True)
        opened = made.run(f"{room}/bin/python", "-m", "chipfire", "board", "--no-browser", cwd=made.rooms())
        self.assertTrue(opened.stdout.endswith("/chipfire/program/js/chipfire.html\n"), opened.stdout + opened.stderr)
        self.assertTrue(made.read(opened.stdout.strip()) == made.read(f"{top}/release/chipfire.html"))

    def test_a_check_knows_each_file(self):
        top = clone()
        self.assertEqual(made.package(top).returncode, 0)
        for path in files_of(top).values():
            self.assertIn(" is of these sources. PROVED states:", made.package(top, "--check", path).stdout)
            change(path)
            self.assertIn("it is neither a program nor", made.package(top, "--check", path).stderr)


class Compared(Comparing):
    #: What is said of program and libraries, and of what is for aarch64.
    ANY = (".*", ".*")

    def test_a_byte_changed(self):
        """That fails always: whatever kit and sources are here."""
        spoils = (lambda top: None, change_page, lambda top: os.remove(f"{top}/crates/chip_graph/src/lib.rt"))
        for spoil, word in zip(spoils, files_of(released())):
            top = clone()
            spoil(top)
            change(files_of(top)[word])
            self.fails(self.compare(top, kit="another kit"), "it is not the one that PROVED states")

    def test_a_sum_changed(self):
        for word in files_of(released()):
            top = clone()
            text = made.read(f"{top}/release/PROVED")
            made.write(f"{top}/release/PROVED", text.replace(f"\n{word} sha256:".encode(), f"\n{word} sha256:0".encode()))
            self.fails(self.compare(top), "it is not the one that PROVED states")

    def test_another_file_of_the_same_tools(self):
        for name in os.listdir(f"{built()}/js"):
            ran = self.compare(released(), self.another(f"js/{name}"))
            self.fails(ran, f"the same kit and wasm-opt version 1 .made up. made another {name} here from the same sources")

    def test_other_tools(self):
        """Then bytes are not compared."""
        folder = self.another("js/chipfire.wasm")
        for path, here in ((made.made_up_tools("wasm-opt version 2"), "wasm-opt version 2"), (without_tools(), "no wasm-opt")):
            ran = self.compare(released(), folder, PATH=path)
            self.goes_on(ran, *self.ANY, rf"{TITLE}was made by .*, and is not compared: here are {made.KIT} and {here}\.")

    def test_other_sources(self):
        top = clone()
        change_page(top)
        ran = self.compare(top, self.another("js/chipfire.wasm"))
        self.goes_on(ran, *self.ANY, f"{TITLE}was made of other sources than these, or is not there.")

    def test_what_is_missing(self):
        folder = f"{made.room()}/target"
        shutil.copytree(built(), folder, ignore=shutil.ignore_patterns("js"))
        self.fails(self.compare(released(), folder), ".*No such file or directory.*")

    def test_a_release_without_it(self):
        """As those before it."""
        top = clone()
        made.build(top)
        self.assertEqual(made.package(top).returncode, 0)
        shutil.rmtree(f"{top}/release")
        os.mkdir(f"{top}/release")
        for path in (made.path_of(".tar.xz", top), f"{top}/dist/PROVED"):
            shutil.copy(path, f"{top}/release")
        self.assertNotIn("web-sources", lines_of(top))
        forget(top)
        self.goes_on(self.compare(top), *self.ANY, f"{TITLE}was made of other sources than these, or is not there.")

    def test_another_module_in_the_package_for_npm(self):
        """All sums are as stated, and yet there are two modules."""
        top = clone()
        data = gzip.decompress(made.read(tgz_of(top)))
        self.assertEqual(data.count(b"\0asm made up"), 1)
        spoilt = gzip.compress(data.replace(b"\0asm made up", b"\0asm made UP"))
        self.restate(top, spoilt)
        self.fails(self.compare(top), "chipfire.wasm in the package for npm is another than that beside it")
        started = made.run(f"{top}/chipfire", "--take")
        self.assertIn("is not taken: chipfire.wasm in the package for npm is another", started.stderr)

    def restate(self, top, data):
        """Puts another package for npm into a release, and its sum into each PROVED."""
        old, new = (hashlib.sha256(it).hexdigest().encode() for it in (made.read(tgz_of(top)), data))
        made.write(tgz_of(top), data)
        proved = made.read(f"{top}/release/PROVED").replace(old, new)
        made.write(f"{top}/release/PROVED", proved)
        for machine in ("x86_64", "aarch64"):
            put_proved(archive_of(top, machine), proved)
        forget(top)


def put_proved(archive, proved):
    """Puts another PROVED into an archive."""
    with tarfile.open(archive) as tar:
        inside = [(it, tar.extractfile(it).read() if it.isreg() else None) for it in tar]
    with tarfile.open(archive, "w:xz", preset=0) as tar:
        for entry, its in inside:
            its = proved if entry.name.endswith("/PROVED") else its
            entry.size = len(its or b"")
            tar.addfile(entry, io.BytesIO(its or b""))


def without_tools():
    """Returns a PATH with what the comparison takes but wasm-opt."""
    folder = made.room()
    for name in ("python3", "git", "env"):
        os.symlink(shutil.which(name, path=made.PATH), f"{folder}/{name}")
    return folder
