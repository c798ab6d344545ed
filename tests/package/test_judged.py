"""./package --check takes what was packed of the sources that are checked out, and nothing else."""
import io
import os
import random
import shutil
import tarfile
import zipfile

import made

PACKAGES = made.PACKAGES
PROVED = "share/doc/chipfire/PROVED"


def changed(data, place=None):
    """Returns bytes of which one is another."""
    place = len(data) // 2 if place is None else place
    return data[:place] + bytes([data[place] ^ 1]) + data[place + 1:]


def repacked_archive(edit):
    """Returns the path of the archive after an edit of its files, bytes by names; a text is what a link names, and None is
    a pipe."""
    path = f"{made.room()}/archive.tar.xz"
    with tarfile.open(made.path_of(".tar.xz")) as old:
        modes = {entry.name: entry.mode for entry in old}
        files = {entry.name: entry.linkname if entry.issym() else old.extractfile(entry).read() for entry in old}
    edit(files)
    with tarfile.open(path, "w:xz", preset=0) as new:
        for name, data in files.items():
            entry = tarfile.TarInfo(name)
            entry.mode = modes.get(name, 0o644)
            if data is None:
                entry.type = tarfile.FIFOTYPE
            elif isinstance(data, str):
                entry.type, entry.linkname = tarfile.SYMTYPE, data
            else:
                entry.size = len(data)
            new.addfile(entry, io.BytesIO(data) if entry.size else None)
    return path


def repacked_wheel(edit):
    """Returns the path of the wheel after an edit of its files, bytes by names."""
    path = f"{made.room()}/{os.path.basename(made.path_of('.whl'))}"
    with zipfile.ZipFile(made.path_of(".whl")) as old:
        entries = {it.filename: it for it in old.infolist()}
        files = {name: old.read(name) for name in entries}
    edit(files)
    with zipfile.ZipFile(path, "w") as new:
        for name, data in files.items():
            new.writestr(entries.get(name, name), data)
    return path


def repacked_debian(edit):
    """Returns the path of the Debian package after an edit of the folder that it was unpacked into."""
    room, path = f"{made.room()}/deb", f"{made.room()}/chipfire.deb"
    made.run("dpkg-deb", "-R", made.path_of(".deb"), room, check=True)
    edit(room)
    made.run("dpkg-deb", "--root-owner-group", "-z0", "-b", room, path, check=True)
    return path


@made.kept
def bare():
    """Returns a checkout of the same sources where nothing was built."""
    top = made.room()
    shutil.copytree(made.home(), top, dirs_exist_ok=True, ignore=shutil.ignore_patterns("target", "dist"))
    return top


def source_changed():
    """Returns a checkout with a source that has one line more, which is committed, and nothing built."""
    top = made.checkout()
    with open(f"{top}/crates/chip_graph/src/lib.rt", "a", encoding="utf-8") as file:
        file.write("// one line more\n")
    made.commit(top)
    return top


@made.kept
def other():
    """Returns a checkout with other sources, and with packages of another program."""
    top = source_changed()
    program = f"{made.room()}/chipfire"
    made.write(program, made.read(made.PROGRAM) + b"\0")
    os.chmod(program, 0o755)
    made.build(top, program)
    ran = made.package(top)
    if ran.returncode != 0:
        raise AssertionError(ran.stderr)
    return top


class Checked(made.Test):
    def check(self, path, top=None):
        return made.package(top or made.home(), "--check", path)

    def takes(self, path, top=None):
        """Checks that a file is taken, and returns what is said."""
        ran = self.check(path, top)
        self.assertEqual((ran.returncode, ran.stderr), (0, ""), path)
        return ran.stdout

    def refuses(self, path, why, top=None):
        """Checks that a file is refused, with one line that says why."""
        ran = self.check(path, top)
        self.assertEqual((ran.returncode, ran.stdout), (1, ""), path)
        self.assertTrue(ran.stderr.startswith(f"package: {path}: "), ran.stderr)
        self.assertIn(why, ran.stderr)
        self.assertEqual(ran.stderr.count("\n"), 1, ran.stderr)


class Taken(Checked):
    def test_each_package_and_all_that_was_built(self):
        for path in (*map(made.path_of, PACKAGES), made.PROGRAM, *map(made.library, made.LIBRARIES)):
            said = self.takes(path)
            self.assertIn(made.read(f"{made.home()}/dist/PROVED").decode(), said)
            self.assertIn(f"\nkit {made.KIT}\n", said)
            self.assertIn("It is the build that was proved here.", said)

    def test_each_package_where_nothing_was_built(self):
        for path in map(made.path_of, PACKAGES):
            said = self.takes(path, bare())
            self.assertIn(made.read(f"{made.home()}/dist/PROVED").decode(), said)
            self.assertIn("Nothing was packed here", said)

    def test_not_a_program_or_library_alone_where_nothing_was_built(self):
        for path in (made.PROGRAM, *map(made.library, made.LIBRARIES)):
            self.refuses(path, "no program was packed of these sources here", bare())

    def test_a_package_of_an_earlier_commit_with_the_same_sources(self):
        top = made.copied()
        made.commit(top)
        made.build(top)
        self.assertEqual(made.package(top).returncode, 0)
        self.assertNotEqual(made.read(f"{top}/dist/PROVED"), made.read(f"{made.home()}/dist/PROVED"))
        for path in map(made.path_of, PACKAGES):
            self.takes(path, top)


class ProgramChanged(Checked):
    """A byte of the program is another."""

    WHY = "its program is not the one that its PROVED states"

    def test_alone(self):
        path = f"{made.room()}/chipfire"
        for place in (16, 100_000, os.path.getsize(made.PROGRAM) - 1):
            made.write(path, changed(made.read(made.PROGRAM), place))
            self.refuses(path, "not the program that ./package packed")

    def test_in_an_archive(self):
        def edit(files):
            name = next(it for it in files if it.endswith("/bin/chipfire"))
            files[name] = changed(files[name])
        for top in (made.home(), bare()):
            self.refuses(repacked_archive(edit), self.WHY, top)

    def test_in_a_wheel(self):
        def edit(files):
            files["chipfire/program/chipfire"] = changed(files["chipfire/program/chipfire"])
        for top in (made.home(), bare()):
            self.refuses(repacked_wheel(edit), self.WHY, top)

    def test_in_a_debian_package(self):
        def edit(room):
            made.write(f"{room}/usr/bin/chipfire", changed(made.read(f"{room}/usr/bin/chipfire")))
        for top in (made.home(), bare()):
            self.refuses(repacked_debian(edit), self.WHY, top)

    def test_with_a_statement_that_fits_it(self):
        top = made.checkout()
        program = f"{made.room()}/chipfire"
        made.write(program, made.read(made.PROGRAM) + b"\0")
        os.chmod(program, 0o755)
        made.build(top, program)
        self.assertEqual(made.package(top).returncode, 0)
        for path in (made.path_of(it, top) for it in PACKAGES):
            self.refuses(path, "not the one that ./package packed of these sources here")


class LibraryChanged(Checked):
    """A byte of a library is another."""

    PLACES = {made.SHARED: "libchipfire.so.1", made.STATIC: "libchipfire.a"}

    def each(self, path, word):
        for top in (made.home(), bare()):
            self.refuses(path, f"its {word} is not the one that its PROVED states", top)

    def test_alone(self):
        path = f"{made.room()}/library"
        for name in made.LIBRARIES:
            made.write(path, changed(made.read(made.library(name))))
            self.refuses(path, "nor a library")

    def test_in_an_archive(self):
        for word, name in self.PLACES.items():
            place = f"chipfire-{made.version()}/lib/{name}"
            self.each(repacked_archive(lambda files: files.update({place: changed(files[place])})), word)

    def test_in_a_wheel(self):
        place = f"chipfire/program/{made.SHARED}"
        self.each(repacked_wheel(lambda files: files.update({place: changed(files[place])})), made.SHARED)

    def test_in_a_debian_package(self):
        for word, name in self.PLACES.items():
            place = f"usr/lib/x86_64-linux-gnu/{name}"
            path = repacked_debian(lambda room: made.write(f"{room}/{place}", changed(made.read(f"{room}/{place}"))))
            self.each(path, word)


class SourcesChanged(Checked):
    """A byte of the sources is another."""

    def test_where_nothing_was_built(self):
        top = source_changed()
        for path in map(made.path_of, PACKAGES):
            self.refuses(path, "its PROVED states other sources than these", top)

    def test_where_other_sources_were_built(self):
        for path in map(made.path_of, PACKAGES):
            self.refuses(path, "its PROVED states other sources than these", other())
        self.refuses(made.PROGRAM, "not the program that ./package packed", other())

    def test_since_the_build(self):
        top = made.copied()
        path = f"{top}/crates/chip_graph/specs/Faults.antt"
        made.write(path, changed(made.read(path)))
        for package in (made.path_of(it, top) for it in PACKAGES):
            self.refuses(package, "its PROVED states other sources than these", top)
        self.refuses(made.PROGRAM, "no program was packed of these sources here", top)


class StatementChanged(Checked):
    """PROVED is that of another build, or none."""

    def stated(self, text):
        """Returns the path of the archive with this PROVED."""
        def edit(files):
            name = next(it for it in files if it.endswith(PROVED))
            files[name] = text
        return repacked_archive(edit)

    def replaced(self, old, new):
        """Returns the path of the archive with another text in its PROVED."""
        text = made.read(f"{made.home()}/dist/PROVED")
        self.assertEqual(text.count(old), 1)
        return self.stated(text.replace(old, new))

    def test_of_another_build(self):
        text = made.read(f"{other()}/dist/PROVED")
        for top in (made.home(), bare()):
            self.refuses(self.stated(text), "its PROVED states other sources than these", top)

    def test_of_another_build_in_a_wheel_and_a_debian_package(self):
        text = made.read(f"{other()}/dist/PROVED")
        wheel = repacked_wheel(lambda files: files.update({"chipfire/program/PROVED": text}))
        debian = repacked_debian(lambda room: made.write(f"{room}/usr/{PROVED}", text))
        for path in (wheel, debian):
            self.refuses(path, "its PROVED states other sources than these")

    def test_each_line(self):
        version, kit = made.version().encode(), made.KIT.encode()
        self.refuses(self.replaced(b"chipfire " + version, b"chipfire 9" + version), "states version 9")
        for word in ("program", *made.LIBRARIES):
            line = f"\n{word} sha256:".encode()
            self.refuses(self.replaced(line, line + b"0"), f"its {word} is not the one that its PROVED states")
        self.refuses(self.replaced(kit, b"another kit"), "states another kit than that of the program packed here: another kit")

    def test_a_commit_with_other_sources(self):
        top = made.copied()
        text = made.read(f"{top}/dist/PROVED")
        with open(f"{top}/crates/chip_graph/src/lib.rt", "a", encoding="utf-8") as file:
            file.write("// one line more\n")
        made.commit(top)
        head = made.run("git", "rev-parse", "HEAD", cwd=top).stdout.strip().encode()
        made.run("git", "reset", "-q", "--hard", "HEAD~1", cwd=top, check=True)
        old = text.partition(b"commit ")[2].partition(b"\n")[0]
        self.takes(self.stated(text), top)
        self.refuses(self.stated(text.replace(old, head)), "a commit that has other sources", top)

    def test_none(self):
        for text in (b"", b"proved\n", b"\xff\n", made.read(f"{made.home()}/dist/PROVED")[:-1]):
            self.refuses(self.stated(text), "its PROVED has not the lines that it should have")
        self.refuses(repacked_archive(lambda files: files.pop(next(it for it in files if it.endswith(PROVED)))),
                     f"there is no chipfire-{made.version()}/{PROVED} in it")


class OthersChanged(Checked):
    """The program and PROVED are right, and another file is not."""

    def each(self, path, name, tops=None):
        for top in tops or (made.home(), bare()):
            self.refuses(path, f"these files in it are not those of these sources: {name}", top)

    def test_an_example(self):
        name = f"chipfire-{made.version()}/share/doc/chipfire/examples/triangle/chips.csv"
        self.each(repacked_archive(lambda files: files.update({name: files[name] + b"1,1\n"})), name)
        self.each(repacked_archive(lambda files: files.pop(name)), name)

    def test_a_file_more(self):
        self.each(repacked_archive(lambda files: files.update({"../more": b""})), "../more")
        self.each(repacked_wheel(lambda files: files.update({"more.pth": b"import os\n"})), "more.pth")

    def test_a_file_of_the_python_package(self):
        name = "chipfire/__init__.py"
        self.each(repacked_wheel(lambda files: files.update({name: files[name] + b"\n"})), name)

    def test_a_script_that_debian_would_run(self):
        def edit(room):
            made.write(f"{room}/DEBIAN/postinst", b"#!/bin/sh\n")
            os.chmod(f"{room}/DEBIAN/postinst", 0o755)
        self.each(repacked_debian(edit), "DEBIAN/postinst")

    def test_a_text_that_debian_shows(self):
        name = "usr/share/doc/chipfire/copyright"
        self.each(repacked_debian(lambda room: made.write(f"{room}/{name}", b"")), name)

    def test_a_mode(self):
        self.each(repacked_debian(lambda room: os.chmod(f"{room}/usr/bin/chipfire", 0o4755)), "usr/bin/chipfire")

    def test_a_completion_where_the_program_was_built(self):
        name = f"chipfire-{made.version()}/share/bash-completion/completions/chipfire"
        path = repacked_archive(lambda files: files.update({name: files[name] + b"date\n"}))
        self.each(path, name, [made.home()])

    def test_a_document_less(self):
        manual, completion = "share/man/man1/chipfire.1", "share/fish/vendor_completions.d/chipfire.fish"
        for name in (f"chipfire-{made.version()}/{it}" for it in (manual, completion)):
            path = repacked_archive(lambda files: files.pop(name))
            for top in (made.home(), bare()):
                self.refuses(path, f"there is no {name} in it", top)
        for name in (f"usr/{manual}.gz", f"usr/{completion}"):
            path = repacked_debian(lambda room: os.remove(f"{room}/{name}"))
            for top in (made.home(), bare()):
                self.refuses(path, f"there is no {name} in it", top)

    def test_a_header_and_what_pkg_config_and_cmake_read(self):
        cmake = "lib/cmake/chipfire/chipfire-config.cmake"
        for name in ("include/chipfire.h", "include/chipfire.hpp", "lib/pkgconfig/chipfire.pc", cmake):
            name = f"chipfire-{made.version()}/{name}"
            self.each(repacked_archive(lambda files: files.update({name: files[name] + b"\n"})), name)

    def test_a_link(self):
        self.each(repacked_archive(lambda files: files.update({"link": "/etc/passwd"})), "link")
        name = f"chipfire-{made.version()}/lib/{made.SHARED}"
        self.each(repacked_archive(lambda files: files.update({name: "/etc/passwd"})), name)

    def test_what_is_no_file(self):
        self.refuses(repacked_archive(lambda files: files.update({"pipe": None})), "pipe in it is no file")


class NoPackage(Checked):
    def test_what_is_neither(self):
        path = f"{made.room()}/file"
        for data in (b"", b"text\n", b"#!/bin/sh\n", bytes(1000)):
            made.write(path, data)
            self.refuses(path, "neither a program nor an archive, a Debian package or a wheel")
        self.refuses(made.room(), "Is a directory")
        self.refuses(f"{path}.not", "No such file or directory")

    def test_what_is_cut_off(self):
        for end in PACKAGES:
            data, path = made.read(made.path_of(end)), f"{made.room()}/cut{end}"
            for length in (8, 100, len(data) // 2, len(data) - 40):
                made.write(path, data[:length])
                self.refuses(path, "")

    def test_an_archive_with_any_byte_changed(self):
        data, path = made.read(made.path_of(".tar.xz")), f"{made.room()}/changed.tar.xz"
        for place in [0, 7, len(data) - 1, *random.Random(36).sample(range(len(data)), 12)]:
            made.write(path, changed(data, place))
            self.refuses(path, "")

    def test_another_form_of_an_archive(self):
        inside = made.room()
        for words in (["gzip", "-k"], ["xz", "-k", "--format=lzma"]):
            path = f"{inside}/{words[0]}.tar"
            with tarfile.open(path, "w") as file:
                file.add(made.PROGRAM, "bin/chipfire")
            made.need(words[0])
            made.run(*words, path, check=True)
        for name in ("gzip.tar", "gzip.tar.gz", "xz.tar.lzma"):
            self.refuses(f"{inside}/{name}", "neither a program nor")
