"""What the library is: its names, what it is linked of, its header, and programs in C that are built with it."""
import os
import re
import shutil
import sys

import library
from library import BUILT, HEADER, INCLUDE, ROOT, SHARED, STATIC, Room, declared, need

STRICT = ["-Wall", "-Wextra", "-Werror", "-pedantic", f"-I{INCLUDE}"]
#: What the library asks of the C library.
ASKED = {"malloc", "realloc", "free", "memcpy", "memmove", "memset"}
PAGE = f"{ROOT}/docs/tasks/from-c.md"
EXAMPLE = f"{ROOT}/examples/c/grid.c"


def text_of(path):
    with open(path, encoding="utf-8") as file:
        return file.read()


class Names(Room):
    def names(self, path, *words):
        """Returns the names in a file that nm shows with these words."""
        need("nm")
        shown = self.runs("nm", "--format=posix", *words, path)
        return {line.split("@")[0].split()[0] for line in shown.splitlines() if len(line.split()) > 1}

    def test_the_shared_library_exports_what_the_header_declares(self):
        self.assertEqual(self.names(SHARED, "-D", "--defined-only"), set(declared()))

    def test_the_static_library_has_these_and_those_of_the_heap(self):
        names = self.names(STATIC, "--extern-only", "--defined-only")
        self.assertEqual({it for it in names if not it.startswith("rattle_")}, set(declared()))

    def test_they_ask_for_memory_alone(self):
        self.assertLessEqual(self.names(SHARED, "-D", "--undefined-only"), ASKED)
        asked = self.names(STATIC, "--undefined-only") - self.names(STATIC, "--extern-only", "--defined-only")
        self.assertLessEqual(asked, ASKED)


class Linked(Room):
    def test_its_name_and_its_protection(self):
        need("readelf")
        shown = self.runs("readelf", "--wide", "--dynamic", "--program-headers", "--sections", SHARED)
        self.assertIn("Library soname: [libchipfire.so.1]", shown)
        for word in ("BIND_NOW", "GNU_RELRO"):
            self.assertIn(word, shown)
        self.assertRegex(shown, r"GNU_STACK .* RW ")
        self.assertNotRegex(shown, r"\.symtab|\.debug|TEXTREL|RUNPATH|RPATH|INIT|FINI|\.tdata|\.tbss")

    def test_the_same_bytes_in_two_folders(self):
        need("rt")
        proved = f"{ROOT}/crates/chip_exports/out/libchip_exports.a"
        if not os.path.isfile(proved):
            self.skipTest("nothing was built of chip_exports here")
        for name in ("one", "other"):
            os.mkdir(f"{self.room}/{name}")
            shutil.copy(proved, f"{self.room}/{name}/proved.a")
            self.runs(sys.executable, f"{ROOT}/tools/library.py", f"{name}/proved.a", name, cwd=self.room)
        for name in ("libchipfire.so", "libchipfire.a"):
            first, second = (open(f"{self.room}/{it}/{name}", "rb").read() for it in ("one", "other"))
            self.assertTrue(first == second, name)

    def test_the_version_is_that_of_the_program(self):
        version = library.LIBRARY.chipfire_version()
        text = "{}.{}.{}".format(version // 10**6, version // 1000 % 1000, version % 1000)
        self.assertEqual(self.runs(library.PROGRAM, "--version"), f"chipfire {text}\n")


class Explained(Room):
    def test_each_fault_of_the_header(self):
        table = text_of(HEADER).partition("if the fault has no place.")[2].partition("The first fault")[0]
        numbers = re.findall(r"(?<![\^\d])([1-9]\d*) [a-z]", table)
        self.assertEqual(numbers, [*map(str, range(1, 15)), "26", "53", "90"])
        for number in numbers:
            self.assertRegex(self.runs(library.PROGRAM, "explain", number), rf"^fault {number} ")

    #: What the sentences of the header leave out of those of the program: places, and limits of files.
    SAID = {"edge i": "the edge", "vertex v": "the vertex", " of drop i, or of configuration i": "", "4096": "2097152", "65536": "8388608"}
    #: Those of a fault that files have too, in other words.
    OWN = {26: "the drop falls on no vertex", 53: "what was claimed is not how the game ends"}

    def stated(self):
        """Returns the number and the sentence of each status of the header, by its name there."""
        need("gcc")
        names = re.findall(r"^    CHIPFIRE_(\w+) = \d+,?$", text_of(HEADER), re.MULTILINE)
        shown = "".join(f' printf("%d %s\\n", CHIPFIRE_{it}, chipfire_strerror(CHIPFIRE_{it}));\n' for it in names)
        lines = f'#include <chipfire.h>\n#include <stdio.h>\nint main(void) {{\n{shown} puts(chipfire_strerror(15)); }}\n'
        with open(f"{self.room}/stated.c", "w", encoding="ascii") as file:
            file.write(lines)
        self.runs("gcc", "-std=c11", *STRICT, f"{self.room}/stated.c", "-o", f"{self.room}/stated")
        *said, unknown = self.runs(f"{self.room}/stated").splitlines()
        self.assertEqual(unknown, "no call returns this status")
        return {name: (int(line.partition(" ")[0]), line.partition(" ")[2]) for name, line in zip(names, said)}

    def test_each_status_by_its_name(self):
        """Each fault of the header has a constant, called as the program calls it, and the program's sentence."""
        stated = self.stated()
        self.assertEqual(stated.pop("OK"), (0, "success"))
        self.assertEqual([number for number, _ in stated.values()], [*range(1, 15), 26, 46, 47, 53, 90])
        for name, (number, sentence) in stated.items():
            explained = self.runs(library.PROGRAM, "explain", str(number)).splitlines()[0]
            its, wanted = re.fullmatch(r"fault \d+ (\w+)[ \w]*: (.*)", explained).groups()
            self.assertEqual(name, "FAULT_" + re.sub(r"(?<=[a-z])(?=[A-Z])", "_", its).upper())
            for old, new in self.SAID.items():
                wanted = wanted.replace(old, new)
            self.assertEqual(sentence, self.OWN.get(number, wanted))

    def test_the_version_of_the_header_is_that_of_the_library(self):
        version = re.search(r"^#define CHIPFIRE_VERSION UINT64_C\((\d+)\)$", text_of(HEADER), re.MULTILINE)[1]
        self.assertEqual(int(version), library.LIBRARY.chipfire_version())

    def test_each_refusal_of_books(self):
        """The program explains it, and FORMATS.md names the page that has it."""
        header, formats = map(text_of, (HEADER, f"{ROOT}/docs/FORMATS.md"))
        numbers = re.findall(r"^ \*     (4\d)  ", header, re.MULTILINE)
        self.assertEqual(numbers, ["46", "47"])
        page = re.search(r"^\| 46, 47 \|.*`(tasks/.*)`", formats, re.MULTILINE)[1]
        said = " ".join(text_of(f"{ROOT}/docs/{page}").split())
        for number in numbers:
            self.assertRegex(self.runs(library.PROGRAM, "explain", number), rf"^fault {number} ")
            self.assertIn(f" with fault {number} if ", said)


class Built(Room):
    def test_the_header_is_C_and_C_plus_plus(self):
        need("gcc", "g++")
        for compiler, form in (("gcc", "c11"), ("g++", "c++11"), ("g++", "c++20")):
            language = "c++" if compiler == "g++" else "c"
            self.runs(compiler, f"-std={form}", *STRICT, "-fsyntax-only", "-x", language, HEADER)

    def programs(self, source):
        """Returns the program of a source, linked with each of the libraries."""
        need("gcc")
        with_shared = [f"-L{BUILT}", "-lchipfire", f"-Wl,-rpath,{BUILT}"]
        for name, libraries in (("shared", with_shared), ("static", [STATIC])):
            self.runs("gcc", "-std=c11", *STRICT, source, *libraries, "-o", f"{self.room}/{name}")
            yield f"{self.room}/{name}"

    def test_each_call_and_each_fault_from_C(self):
        for program in self.programs(f"{ROOT}/tests/library/calls.c"):
            self.assertEqual(self.runs(program), "")

    def test_the_calls_with_a_sanitizer(self):
        """Undefined behaviour of the caller, as a null pointer where none may be, ends the program."""
        need("gcc")
        sanitized = ["-fsanitize=undefined", "-fno-sanitize-recover=all"]
        empty, calls = f"{self.room}/empty.c", f"{self.room}/calls"
        with open(empty, "w", encoding="ascii") as file:
            file.write("int main(void) { return 0; }\n")
        if library.run("gcc", *sanitized, empty, "-o", calls).returncode:
            self.skipTest("gcc has no sanitizer of undefined behaviour")
        self.runs("gcc", "-std=c11", "-g", *STRICT, *sanitized, f"{ROOT}/tests/library/calls.c", STATIC, "-o", calls)
        self.assertEqual(self.runs(calls), "")

    def test_the_example_prints_what_the_page_shows(self):
        shown = re.search(r"^\$ target/grid\n(.*?)^(?:\$|```)", text_of(PAGE), re.DOTALL | re.MULTILINE)[1]
        for program in self.programs(EXAMPLE):
            self.assertEqual(self.runs(program), shown)
