"""Where the package finds program and library, and that it starts and loads nothing that somebody else can change.

The folders of somebody else are his by their owner if root runs the tests, and else by modes that let others write. A
program and a library leave a file if they are started or loaded.
"""
import functools
import json
import os
import shutil
import subprocess
import sys
import tempfile
import unittest
from types import SimpleNamespace
from unittest import mock

import chipfire
import without
from chipfire.backend import finding
from chipfire.backend import trust
from test_package import ROOT, WithFolder

PROGRAM = os.path.realpath(chipfire.find_program())
LIBRARY = f"{os.path.dirname(PROGRAM)}/libchipfire.so"
SOURCE = "crates/chip_arguments/src/help_texts.rt"
IS_ROOT = os.geteuid() == 0
#: Somebody who is neither root nor has a name.
OTHER = 54321
#: What is asked of the package; the last line is what it finds.
ASK = """
import json, warnings
with warnings.catch_warnings(record=True) as caught:
    warnings.simplefilter("always")
    import chipfire
    found = {"imported": [str(it.message) for it in caught]}
    for name, call in [
        ("program", chipfire.find_program), ("library", chipfire.find_library),
        ("fired", lambda: chipfire.plain(chipfire.path(1), [3]).fired),
        ("explained", lambda: chipfire.explain(12)[:8]),
    ]:
        try:
            found[name] = call()
        except FileNotFoundError as error:
            found[name], found["why"] = None, str(error)
    found["warned"] = [str(it.message) for it in caught]
print(json.dumps(found))
"""
#: A library that leaves a file when it is loaded.
LOADED = """
#include <fcntl.h>
__attribute__((constructor)) static void load(void) { creat("MARK", 0600); }
"""


def script(path, *lines):
    """Writes a program for a shell."""
    with open(path, "w", encoding="utf-8") as file:
        file.write("".join(f"{line}\n" for line in ("#!/bin/sh", *lines)))
    os.chmod(path, 0o755)


@functools.cache
def loading_library():
    """A library that leaves the file `loaded` in the folder that it is loaded in, or None without a compiler."""
    compiler = shutil.which("gcc")
    if compiler is None:
        return None
    room = loading_library.room = tempfile.TemporaryDirectory(prefix="chipfire-python-")
    with open(f"{room.name}/library.c", "w", encoding="ascii") as file:
        file.write(LOADED.replace("MARK", "loaded"))
    words = [compiler, "-shared", "-fPIC", "-o", f"{room.name}/libchipfire.so", file.name]
    subprocess.run(words, check=True)
    return f"{room.name}/libchipfire.so"


class Places(WithFolder):
    def setUp(self):
        super().setUp()
        os.chmod(self.folder, 0o755)
        self.folder = os.path.realpath(self.folder)
        os.mkdir(self.file("here"))
        self.real = PROGRAM

    def clone(self, name="clone", program=True):
        """A clone, with a program that leaves the file `started`."""
        top = self.file(name)
        shutil.copytree(f"{ROOT}/python", f"{top}/python", ignore=shutil.ignore_patterns("__pycache__"))
        os.makedirs(os.path.dirname(f"{top}/{SOURCE}"))
        shutil.copy(f"{ROOT}/{SOURCE}", f"{top}/{SOURCE}")
        os.mkdir(f"{top}/target")
        if program:
            script(f"{top}/target/chipfire", f": >{self.file('here')}/started", f'exec {self.real} "$@"')
            with open(f"{top}/target/chipfire.stamp", "w", encoding="ascii") as file:
                file.write("release\n")
        return top

    def installed(self, python, name="site", **contents):
        """A folder with the package as pip installs it from a folder, without a program."""
        site = self.file(name)
        shutil.copytree(f"{ROOT}/python/chipfire", f"{site}/chipfire", ignore=shutil.ignore_patterns("__pycache__"))
        version = finding.version_of(ROOT)
        with open(f"{site}/chipfire/version", "w", encoding="ascii") as file:
            file.write(version)
        os.mkdir(f"{site}/chipfire-{version}.dist-info")
        url = "file://" + python.replace("%", "%25").replace(" ", "%20")
        with open(f"{site}/chipfire-{version}.dist-info/direct_url.json", "w", encoding="ascii") as file:
            json.dump(contents or {"dir_info": {}, "url": url}, file)
        return site

    def asked(self, package, path="/nowhere", user=None, here=None, python=sys.executable):
        """What the package in a folder finds where it is called elsewhere, with the files that are then in `here`."""
        here = here or self.file("here")
        for name in ("started", "loaded"):
            if os.path.exists(f"{here}/{name}"):
                os.remove(f"{here}/{name}")
        environment = without.environment(package, PATH=path)
        who = {} if user is None else {"user": user, "group": user, "extra_groups": []}
        ran = subprocess.run(
            [python, "-c", ASK], env=environment, cwd=here, stdout=subprocess.PIPE, stderr=subprocess.PIPE,
            encoding="utf-8", **who)
        self.assertEqual(ran.returncode, 0, ran.stderr)
        found = json.loads(ran.stdout.splitlines()[-1])
        return {**found, **{name: os.path.exists(f"{here}/{name}") for name in ("started", "loaded")}}

    def finds(self, top, *packages, **how):
        """Each of the packages starts the program of a clone."""
        for package in packages:
            found = self.asked(package, **how)
            self.assertEqual((found["program"], found["started"]), (f"{top}/target/chipfire", True), found)
            self.assertEqual((found["fired"], found["explained"], found["imported"]), ([1, 0], "fault 12", []))

    def finds_none(self, why, *packages, **how):
        """None of the packages starts or loads what lies in a clone, and each says why."""
        for package in packages:
            found = self.asked(package, **how)
            self.assertEqual((found["program"], found["started"], found["loaded"]), (None, False, False), found)
            self.assertIn(why, found["why"])
            self.assertEqual(len(found["imported"]), 1)
            self.assertIn(why, found["imported"][0])


def everybody_s(path, sticky=False):
    """Lets everybody write to a folder or a file."""
    os.chmod(path, 0o1777 if sticky else os.stat(path).st_mode | 0o777)


class Clones(Places):
    def test_it_is_found_around_the_package_and_where_pip_was_named_its_folder(self):
        top = self.clone("a clone, 100%41")
        self.finds(top, f"{top}/python", self.installed(f"{top}/python"))

    def test_its_library_is_loaded_too(self):
        top = self.clone()
        shutil.copy(LIBRARY, f"{top}/target")
        script(f"{top}/chipfire", "exit 1")
        for package in (f"{top}/python", self.installed(f"{top}/python")):
            found = self.asked(package)
            self.assertEqual((found["library"], found["fired"]), (f"{top}/target/libchipfire.so", [1, 0]), found)
            self.assertEqual(found["warned"], [])

    def test_a_library_whose_stamp_is_older_than_the_sources_is_not_loaded_and_it_says_so(self):
        top = self.clone()
        shutil.copy(LIBRARY, f"{top}/target")
        script(f"{top}/chipfire", "exit 1")
        os.utime(f"{top}/target/chipfire.stamp", (1, 1))
        why = f"{top}/target/libchipfire.so is not loaded, since {top}/{SOURCE} has changed after {top}/target/chipfire.stamp"
        found = self.asked(f"{top}/python")
        self.assertEqual((found["library"], found["fired"], len(found["warned"])), (None, [1, 0], 1), found)
        self.assertIn(f"{why}, which ./chipfire renews", found["warned"][0])
        chains = "import chipfire; chipfire.chains(chipfire.path(1), 1, 1, 1, chips=0)"
        environment = without.environment(f"{top}/python", PATH="/nowhere")
        ran = subprocess.run([sys.executable, "-W", "ignore", "-c", chains], env=environment, capture_output=True, encoding="utf-8")
        self.assertIn(f"chains take the library: {why}", ran.stderr)

    def test_one_that_others_may_change_is_not_used_and_its_library_not_loaded(self):
        spoiled_ones = [("", False), ("", True), ("target", False), ("target/chipfire", False)]
        for number, (place, sticky) in enumerate(spoiled_ones):
            with self.subTest(place, sticky=sticky):
                top = self.clone(f"clone{number}")
                if loading_library():
                    shutil.copy(loading_library(), f"{top}/target")
                spoiled = f"{top}/{place}".rstrip("/")
                everybody_s(spoiled, sticky)
                site = self.installed(f"{top}/python", f"site{number}")
                self.finds_none(f"{spoiled} can be written by everybody", f"{top}/python", site)

    @unittest.skipUnless(IS_ROOT, "only root gives files to others")
    def test_one_that_belongs_to_somebody_else_is_not_used(self):
        for number, place in enumerate(("", "target", "target/chipfire")):
            with self.subTest(place):
                top = self.clone(f"clone{number}")
                if loading_library():
                    shutil.copy(loading_library(), f"{top}/target")
                spoiled = f"{top}/{place}".rstrip("/")
                os.chown(spoiled, OTHER, OTHER)
                site = self.installed(f"{top}/python", f"site{number}")
                self.finds_none(f"{spoiled} belongs to {OTHER}, and not to", f"{top}/python", site)

    @unittest.skipUnless(loading_library(), "there is no gcc, which makes a library that leaves a file")
    def test_a_library_of_somebody_else_is_not_loaded(self):
        top = self.clone()
        library = shutil.copy(loading_library(), f"{top}/target")
        everybody_s(library)
        for package in (f"{top}/python", self.installed(f"{top}/python")):
            found = self.asked(package)
            self.assertEqual((found["library"], found["loaded"], found["fired"]), (None, False, [1, 0]), found)
            slower = "each call starts the program, slower"
            self.assertEqual(found["warned"], [
                f"{library} is not loaded, since {library} can be written by everybody: {slower}"])

    def test_a_folder_above_it_may_be_everybody_s_if_it_is_sticky(self):
        above = self.file("above")
        os.mkdir(above)
        top = self.clone("above/clone")
        site = self.installed(f"{top}/python")
        everybody_s(above, sticky=True)
        self.finds(top, f"{top}/python", site)
        os.chmod(above, 0o777)
        self.finds_none(f"{above} can be written by everybody", f"{top}/python", site)

    def test_links_on_the_way(self):
        top = self.clone()
        for name, mode in (("own", 0o755), ("sticky", 0o1777), ("open", 0o777)):
            os.mkdir(self.file(name))
            os.symlink(top, self.file(f"{name}/link"))
            os.chmod(self.file(name), mode)
        packages = {}
        for name in ("own", "sticky", "open"):
            python = f"{self.file(name)}/link/python"
            packages[name] = python, self.installed(python, f"of {name}")
        self.finds(top, *packages["own"], *packages["sticky"])
        self.finds_none(f"{self.file('open')} can be written by everybody", *packages["open"])
        if IS_ROOT:
            os.lchown(self.file("sticky/link"), OTHER, OTHER)
            self.finds_none(f"{self.file('sticky/link')} belongs to {OTHER}", *packages["sticky"])

    def test_a_folder_of_it_that_is_a_link(self):
        top = self.clone()
        os.rename(f"{top}/target", self.file("kept"))
        os.symlink(self.file("kept"), f"{top}/target")
        self.finds(top, f"{top}/python")
        os.chmod(self.file("kept"), 0o777)
        self.finds_none(f"{self.file('kept')} can be written by everybody", f"{top}/python")

    @unittest.skipUnless(IS_ROOT, "only root asks as somebody else")
    def test_one_of_a_third_owner_is_used_by_the_environment_alone(self):
        python = "/usr/bin/python3"
        if not os.path.exists(python):
            self.skipTest("there is no Python of the system, which everybody can start")
        self.real = shutil.copy(PROGRAM, self.folder)
        top = self.clone()
        os.chown(self.file("here"), OTHER, OTHER)
        self.finds(top, f"{top}/python", user=OTHER, python=python)
        for folder, inner, files in os.walk(top):
            for name in (".", *inner, *files):
                os.chown(f"{folder}/{name}", OTHER, OTHER)
        self.finds(top, f"{top}/python", user=OTHER, python=python)
        self.finds_none(f"{top} belongs to {OTHER}, and not to", f"{top}/python", user=OTHER + 1, python=python)

    def test_a_folder_without_crates_is_none(self):
        top = self.clone()
        shutil.rmtree(f"{top}/crates")
        none = "it neither lies in a clone of the repository nor was installed from the folder of one"
        self.finds_none(none, f"{top}/python", self.installed(f"{top}/python"))

    def test_a_folder_that_only_lies_as_a_clone_s_is_none(self):
        top = self.clone()
        os.rename(f"{top}/python", f"{top}/other")
        self.finds_none("it neither lies in a clone of the repository", f"{top}/other")

    def test_what_pip_was_named_otherwise_is_none(self):
        top = self.clone()
        url = f"file://{top}/python"
        for number, contents in enumerate([
            {"url": url, "vcs_info": {"vcs": "git", "commit_id": "0"}}, {"url": url, "archive_info": {}},
        ]):
            with self.subTest(contents):
                self.finds_none("it neither lies in a clone", self.installed("", f"site{number}", **contents))

    def test_what_stands_in_direct_url(self):
        good = {"dir_info": {}, "url": "file:///a%20b/%c3%a9/python"}
        for changed, folder in [
            ({}, "/a b/é/python"), ({"url": "file://localhost/a/python"}, "/a/python"), ({"url": "file:/a"}, "/a"),
            ({"dir_info": {"editable": True}}, "/a b/é/python"), ({"url": "file:///%ff"}, os.fsdecode(b"/\xff")),
            ({"url": "file://elsewhere/a"}, None), ({"url": "https://localhost/a"}, None), ({"url": "file:a"}, None),
            ({"url": "/a"}, None), ({"url": "file:///a%00b"}, None), ({"url": "file:///a?b"}, None), ({"url": 3}, None),
            ({"dir_info": None}, None), ({"dir_info": []}, None), ({"vcs_info": {}}, None),
            ({"archive_info": {}}, None),
        ]:
            with self.subTest(changed):
                self.assertEqual(finding._folder_of({**good, **changed}), folder)
        for contents in ([], None, "file:///a", 3, {"url": "file:///a"}, {"dir_info": {}}):
            self.assertIsNone(finding._folder_of(contents))

    def test_a_direct_url_that_is_no_json_counts_for_nothing(self):
        top = self.clone()
        site = self.installed(f"{top}/python")
        version = finding.version_of(ROOT)
        with mock.patch.multiple(finding, HERE=f"{site}/chipfire", _noted=lambda name: version):
            self.assertEqual(finding._installed_from.__wrapped__(), f"{top}/python/..")
        for text in ("", "{", "[" * 10**5, '{"url": "file://[", "dir_info": {}}', "\ufffd"):
            with open(f"{site}/chipfire-{version}.dist-info/direct_url.json", "w", encoding="utf-8") as file:
                file.write(text)
            here = mock.patch.multiple(finding, HERE=f"{site}/chipfire", _noted=lambda name: version)
            with self.subTest(text[:9]), here:
                self.assertIsNone(finding._installed_from.__wrapped__())

    def test_the_dist_info_is_that_beside_the_package(self):
        top = self.clone()
        elsewhere = self.installed(f"{top}/python")
        alone = self.file("alone")
        shutil.move(f"{elsewhere}/chipfire", f"{alone}/chipfire")
        self.finds_none("it neither lies in a clone", f"{alone}:{elsewhere}")


class Released(Places):
    """A clone whose program is still in its release, so that `./chipfire` has to take it."""

    def released(self, name="clone"):
        top = self.clone(name, program=False)
        for folder in ("release", "tools", "packing", "js", "include"):
            os.mkdir(f"{top}/{folder}")
            with open(f"{top}/{folder}/PROVED", "w", encoding="ascii") as file:
                file.write("\n")
        script(f"{top}/chipfire", f": >{self.file('here')}/started", f"cp {PROGRAM} {top}/target/chipfire")
        return top

    def test_it_is_taken_and_found_but_not_by_an_import(self):
        top = self.released()
        words = [sys.executable, "-W", "error", "-c", "import chipfire"]
        subprocess.run(words, env={"PYTHONPATH": f"{top}/python", "PYTHONDONTWRITEBYTECODE": "1"}, check=True)
        self.assertEqual(os.listdir(f"{top}/target"), [])
        self.assertFalse(os.path.exists(f"{self.file('here')}/started"))
        self.finds(top, f"{top}/python", path="/usr/bin:/bin")

    def test_nothing_is_run_in_it_if_others_may_change_what_is_read(self):
        places = ("chipfire", "tools", "packing/PROVED", "release/PROVED", "js/PROVED", SOURCE, "target")
        for number, place in enumerate(places):
            with self.subTest(place):
                top = self.released(f"clone{number}")
                everybody_s(f"{top}/{place}")
                found = self.asked(f"{top}/python", path="/usr/bin:/bin")
                self.assertEqual((found["program"], found["started"]), (None, False), found)
                why = f"the clone {top} is not used, since {top}/{place} can be written by everybody"
                self.assertIn(why, found["why"])
                self.assertEqual(os.listdir(f"{top}/target"), [])

    def test_nor_if_a_link_lies_among_it(self):
        top = self.released()
        os.symlink("/nowhere", f"{top}/tools/link")
        found = self.asked(f"{top}/python", path="/usr/bin:/bin")
        self.assertEqual((found["program"], found["started"]), (None, False), found)
        self.assertIn(f"{top}/tools/link: a symbolic link", found["why"])


class OnThePath(Places):
    def test_the_folder_that_one_is_in_does_not_count(self):
        here, there = self.file("here"), self.file("there")
        os.mkdir(there)
        shutil.copytree(f"{ROOT}/python/chipfire", self.file("copy/chipfire"))
        for name in ("chipfire", "setpriv", "bash"):
            script(f"{here}/{name}", f": >{here}/started", "exit 1")
        for path in ("", ":", ".", "../here", f":{there}", f"{there}:"):
            with self.subTest(path):
                self.finds_none("none is on the PATH", self.file("copy"), path=path)
        script(f"{there}/chipfire", f'exec {PROGRAM} "$@"')
        for path in (f":{there}:/usr/bin:/bin", f"{there}:.:/nowhere"):
            with self.subTest(path):
                found = self.asked(self.file("copy"), path=path)
                self.assertEqual((found["program"], found["explained"]), (f"{there}/chipfire", "fault 12"))
                self.assertFalse(found["started"])


class Without(Places):
    """A package without a program."""

    def setUp(self):
        super().setUp()
        shutil.copytree(f"{ROOT}/python/chipfire", self.file("copy/chipfire"))

    def runs(self, code, *words, package="copy", **variables):
        """What Python says that runs this code."""
        given = without.environment(self.file(package), **{"PATH": "/nowhere", **variables})
        return subprocess.run([sys.executable, *words, "-c", code], env=given, capture_output=True, encoding="utf-8")

    def test_the_first_import_says_so_once(self):
        warned = self.runs("import chipfire\nimport chipfire, chipfire.library\nfrom chipfire import grid").stderr
        self.assertTrue(warned.startswith("<string>:1: RuntimeWarning: chipfire has no program: "), warned)
        self.assertEqual(warned.count("Warning"), 1)
        for said in ("the package carries none", "none is on the PATH", "work without it", "CHIPFIRE", "./chipfire"):
            self.assertIn(said, warned)

    def test_the_warning_can_be_turned_off(self):
        ran = self.runs("import chipfire", "-W", "ignore:chipfire has no program:RuntimeWarning")
        self.assertEqual((ran.returncode, ran.stderr), (0, ""))

    def test_it_says_why_none_was_installed(self):
        os.rename(self.clone(program=False), self.file("release"))
        site = self.installed(self.file("release/python"))
        with open(f"{site}/chipfire/without", "w", encoding="ascii") as file:
            file.write("the one in release/ was not taken: it is for another system")
        script(self.file("release/chipfire"), f": >{self.file('here')}/started", "exit 1")
        os.mkdir(self.file("release/release"))
        with open(self.file("release/release/PROVED"), "w", encoding="ascii"):
            pass
        warned = self.runs("import chipfire", package=site).stderr
        self.assertIn("carries none, since the one in release/ was not taken: it is for another system; the clone", warned)
        self.assertFalse(os.path.exists(f"{self.file('here')}/started"))

    def test_nothing_is_said_if_there_is_one(self):
        os.mkdir(self.file("bin"))
        os.symlink(PROGRAM, self.file("bin/chipfire"))
        for variables in ({"PATH": self.file("bin")}, {"CHIPFIRE": "/elsewhere"}):
            self.assertEqual(self.runs("import chipfire", **variables).stderr, "")

    def test_what_it_names_works(self):
        works = (
            "import chipfire as it, sys; from chipfire.model import Core\n"
            "grid = it.grid(2, 2); small = it.Setting(it.path(1), (1, 0)); events = it.Schedule().take(1)\n"
            "it.laplacian(grid), it.order(grid), it.Group(grid)\n"
            "it.Configuration(grid, 3).image(sys.argv[1] + '/a.png')\n"
            "it.explore(small, 'right'), it.judge(small, [])\n"
            "it.page(it.play(small, events), sys.argv[1] + '/b.html')\n"
            "it.choice_page('right', sys.argv[1] + '/c.html')\n"
            "try: it.plain(grid, 3)\n"
            "except it.ProgramNotFound: print(it.order(grid))\n")
        words = [sys.executable, "-c", works, self.folder]
        given = without.environment(self.file("copy"), PATH="/nowhere")
        ran = subprocess.run(words, env=given, capture_output=True, encoding="utf-8")
        # (the spanning trees of a cycle of 4 whose vertices have 2 edges each to a fifth)
        self.assertEqual(ran.stdout, "192\n", ran.stderr)


class Trust(WithFolder):
    """What makes a file one that somebody else can change."""

    def setUp(self):
        super().setUp()
        self.folder = os.path.realpath(self.folder)
        os.mkdir(self.file("folder"))
        self.path = self.file("folder/file", "")

    def doubted(self, said, path=None, top=None):
        self.assertIn(said, trust.doubt(path or self.path, top) or "none")

    def test_by_modes(self):
        self.doubted("none")
        for mode, said in [(0o644, "none"), (0o600, "none"), (0o646, f"{self.path} can be written by everybody")]:
            os.chmod(self.path, mode)
            self.doubted(said)
        os.chmod(self.path, 0o644)
        for mode, top, said in [
            (0o777, None, "folder can be written by everybody"), (0o1777, None, "folder can be written by everybody"),
            (0o1777, self.folder, "folder can be written by everybody"), (0o1777, "/elsewhere", "none"),
            (0o777, "/elsewhere", "folder can be written by everybody"), (0o1777, "/", "can be written by everybody"),
            (0o1777, f"{self.file('folder')}er", "none"),
        ]:
            os.chmod(self.file("folder"), mode)
            with self.subTest(mode=mode, top=top):
                self.doubted(said, top=top)

    def test_what_is_not_there(self):
        self.doubted("nothing: No such file or directory", self.file("folder/nothing"))
        self.doubted("Not a directory", f"{self.path}/nothing")

    def test_links(self):
        os.mkdir(self.file("other"))
        for name, target in [("whole", self.path), ("short", "../folder/file"), ("again", "short"), ("self", "self")]:
            os.symlink(target, self.file(f"other/{name}"))
        for name in ("whole", "short", "again"):
            self.doubted("none", self.file(f"other/{name}"))
        self.doubted("Too many levels of symbolic links", self.file("other/self"))

    def test_each_folder_of_a_link_s_target_counts(self):
        os.mkdir(self.file("other"))
        os.symlink("../folder/file", self.file("other/link"))
        os.chmod(self.file("folder"), 0o777)
        self.doubted("folder can be written by everybody", self.file("other/link"))
        os.chmod(self.file("folder"), 0o755)
        os.chmod(self.file("other"), 0o777)
        self.doubted("other can be written by everybody", self.file("other/link"))

    @unittest.skipUnless(IS_ROOT, "only root gives files to others")
    def test_by_owners(self):
        for path in (self.path, self.file("folder")):
            os.chown(path, OTHER, OTHER)
            self.doubted(f"{path} belongs to {OTHER}, and not to root")
            os.chown(path, 0, 0)
        os.chown(self.file("folder"), OTHER, OTHER)
        os.chmod(self.file("folder"), 0o1777)
        self.doubted(f"belongs to {OTHER}", top="/elsewhere")

    def test_a_group_may_write_that_is_the_user_s_own(self):
        me, gid = os.geteuid(), os.stat(self.path).st_gid
        os.chmod(self.path, 0o664)
        user = SimpleNamespace(pw_name="me", pw_uid=me, pw_gid=gid)
        alone, of_root = SimpleNamespace(gr_name="me", gr_mem=[]), SimpleNamespace(gr_name="root", gr_mem=["root"])
        root = SimpleNamespace(pw_name="root", pw_uid=0, pw_gid=gid)
        other = SimpleNamespace(pw_name="other", pw_uid=OTHER, pw_gid=gid)
        for group, users, said in [
            (alone, [user], "none"), (of_root, [root], "none"),
            (SimpleNamespace(gr_name="me", gr_mem=["me"]), [user], "none"),
            (SimpleNamespace(gr_name="me", gr_mem=["other"]), [user], "can be written by the group me"),
            (SimpleNamespace(gr_name="all", gr_mem=[]), [user], "can be written by the group all"),
            (SimpleNamespace(gr_name="other", gr_mem=[]), [user, other], "can be written by the group other"),
            (alone, [user, other], "can be written by the group me"),
            (alone, [SimpleNamespace(pw_name="me", pw_uid=me, pw_gid=gid + 1)], "can be written by the group me"),
            (None, [user], f"can be written by the group {gid}"),
        ]:
            named = {it.pw_name: it for it in users}
            table = mock.Mock(getpwnam=named.__getitem__, getpwall=lambda: users, getpwuid=lambda it: user)
            groups = mock.Mock(getgrgid={gid: group}.__getitem__ if group else {}.__getitem__)
            with self.subTest(group=group, users=users), mock.patch.multiple(trust, _USERS=table, _GROUPS=groups):
                self.doubted(said)

    def test_where_nobody_says_who_writes(self):
        with mock.patch.object(trust, "_USERS", None):
            self.doubted("this system does not say who can write to a file")


if __name__ == "__main__":
    unittest.main()
