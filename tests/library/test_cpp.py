"""chipfire.hpp: strict compilers and sanitizers, each call, the pool of examples/c, and five ways to break that."""
import os
import re

import library
from library import INCLUDE, PROGRAM, ROOT, STATIC, Room, need

HERE = os.path.dirname(os.path.realpath(__file__))
POOL = f"{ROOT}/examples/c/pool.cpp"
STRICT = ["-Wall", "-Wextra", "-Wconversion", "-Wshadow", "-pedantic", "-Werror", "-pthread", f"-I{INCLUDE}"]
STANDARDS = ("c++17", "c++20")

#: What an edit makes of the pool: texts that stand once in it, and what stands there instead. Then what comes of it: that
#: it is over, that this was claimed early, that it is never over, or a refusal, with its process, and the row of its log that
#: would have come next. Last what the judge says of the logs. The root is process 2, edge 4 leads from it to 0, and 1 from 0
#: to 1.
GOT = "        parts_[me]->books.got(edge(victim, me));\n"
WORKED = "            task(me);\n            parts_[me]->books.done();\n"
PASSIVE = "fault 32: process 0: it has more to do while it is passive"
POOLS = {
    "right": ([], "over", "over 2 4 right\nend claimed\n"),
    # It is refused as soon as the work sets off more. What was got has no row.
    "got_after_the_work": (
        [(GOT, "        late = edge(victim, me);\n"),
         (WORKED, "            const auto its = late;\n            task(me);\n            parts_[me]->books.got(its);\n")],
        f"{PASSIVE}, at its row 0", "end open: message 0 of channel 4 is on its way\n"),
    # It is refused there too, after the row `passive`. Where the work sets off nothing, nobody sees it.
    "passive_amid_the_work": (
        [(WORKED, "            parts_[me]->books.done();\n            task(me);\n")],
        f"{PASSIVE}, at its row 2", "end missed\n"),
    # The root waits for nothing, so it claims early. The books of the tail refuse the acknowledgement, but only when it
    # comes. The judge names the row that got the message.
    "sent_and_not_noted": (
        [("            parts_[victim]->books.sent(edge(victim, me));\n", "")],
        "early, then fault 46: process 0: 1 acknowledgements on edge 1 are more than its messages, at its row 1",
        "chipfire: fault 70 Stuck 0 0\n"),
    # The books of the tail refuse it.
    "acknowledged_twice": (
        [("acked_[it.edge] = it.count;", "acked_[it.edge] = 2 * it.count;")],
        "fault 46: process 0: 2 acknowledgements on edge 1 are more than its messages, at its row 2",
        "end open: process 0 is active\n"),
    # Nobody sees it while it runs: it is never over. The log names the message.
    "a_lost_message": (
        [(f"{GOT}        return true;\n", "        return false;\n")], "never over",
        "end open: message 0 of channel 4 is on its way\n"),
}


def text_of(path):
    with open(path, encoding="utf-8") as file:
        return file.read()


def edited(edits):
    """Returns the text of the pool after edits."""
    text = text_of(POOL)
    for old, new in edits:
        assert text.count(old) == 1, f"{text.count(old)} times: {old}"
        text = text.replace(old, new)
    return text


class Built(Room):
    def compiled(self, source, *words):
        """Returns the program of a source, linked with the static library."""
        need("g++")
        program = f"{self.room}/program"
        self.runs("g++", "-std=c++17", *STRICT, *words, source, STATIC, "-o", program)
        return program

    def sanitized(self, source, kind):
        """Returns the program of a source with a sanitizer."""
        need("g++")
        empty = f"{self.room}/empty.cpp"
        with open(empty, "w", encoding="ascii") as file:
            file.write("int main() {}\n")
        words = ["-g", f"-fsanitize={kind}", "-fno-sanitize-recover=all"]
        if library.run("g++", *words, empty, "-o", f"{self.room}/empty").returncode:
            self.skipTest(f"g++ has no sanitizer {kind}")
        return self.compiled(source, *words)

    def test_the_header_is_strict(self):
        """Each compiler takes it, and two files of one program do."""
        for name in ("one", "main"):
            with open(f"{self.room}/{name}.cpp", "w", encoding="ascii") as file:
                file.write(f"#include <chipfire.hpp>\nint {name}() {{ return chipfire::Graph(1, 0).sink() != 0; }}\n")
        for compiler in ("g++", "clang++"):
            need(compiler)
            for standard in STANDARDS:
                self.runs(compiler, f"-std={standard}", *STRICT, "-fsyntax-only", f"{self.room}/main.cpp")
        self.compiled(f"{self.room}/main.cpp", f"{self.room}/one.cpp")

    def test_each_call_and_its_faults(self):
        calls = self.sanitized(f"{HERE}/calls.cpp", "address,undefined")
        self.assertEqual(self.runs(calls), "")

    def test_the_calls_with_a_sanitizer_of_threads(self):
        self.assertEqual(self.runs(self.sanitized(f"{HERE}/calls.cpp", "thread")), "")

    def test_the_pool_counts_the_ways(self):
        self.assertEqual(self.runs(self.sanitized(POOL, "thread")), "92 ways\n")

    def test_the_pool_is_over_when_its_tasks_are_done(self):
        """Runs of the pool beside a count that it never reads; the first leave logs."""
        pool = self.compiled(f"{ROOT}/bench/pool.cpp", "-O2")
        self.assertEqual(self.runs(pool, "100", "1", "600", "3", self.room), "100 0 0\n")
        for run in range(3):
            with open(f"{self.room}/log.csv", "w", encoding="ascii") as log:
                log.write("process,kind,channel\n")
                for process in range(5):
                    log.write(text_of(f"{self.room}/{run}-{process}.rows"))
            self.assertRegex(self.runs(PROGRAM, "judge", f"{self.room}/log.csv"), r"^over 4 \d+ right\nend claimed\n$")


class Broken(Room):
    """Each pool is played by one thread in one order, so what comes of it is always the same."""

    def played(self):
        """Returns what came of each pool, by its name."""
        need("g++")
        rows = []
        with open(f"{self.room}/pools.inc", "w", encoding="utf-8") as file:
            for name, (edits, _, _) in POOLS.items():
                text = edited(edits).replace("int main()", "int example()")
                file.write(f"namespace {name} {{\n{text}}}\n")
                rows.append(f'    {{"{name}", play<{name}::Pool>}},\n')
            file.write("static const struct { const char *name; void (*play)(const std::string &); } pools[] = {\n")
            file.writelines([*rows, "};\n"])
        words = ["g++", "-std=c++17", "-pthread", f"-I{INCLUDE}", f"-I{self.room}", f"{HERE}/pools.cpp", STATIC]
        self.runs(*words, "-o", f"{self.room}/pools")
        lines = self.runs(f"{self.room}/pools", self.room).splitlines()
        return dict(line.split(": ", 1) for line in lines)

    def rows(self, name, process):
        """Returns the rows that a process of a pool wrote."""
        return text_of(f"{self.room}/{name}-{process}.rows").splitlines(keepends=True)

    def placed(self, name, what):
        """Returns what came of a pool, a refusal with the row at which it was."""
        refused = re.search(r"process (\d+): ", what)
        return f"{what}, at its row {len(self.rows(name, refused[1]))}" if refused else what

    def judged(self, name):
        """Returns what the judge says of the logs of a pool."""
        log = f"{self.room}/log.csv"
        with open(log, "w", encoding="ascii") as file:
            file.writelines(["process,kind,channel\n", *(row for it in range(3) for row in self.rows(name, it))])
        ran = library.run(PROGRAM, "judge", log)
        return ran.stdout or ran.stderr

    def test_each_is_named_as_the_table_says(self):
        found = self.played()
        found = {name: (self.placed(name, what), self.judged(name)) for name, what in found.items()}
        self.assertEqual(found, {name: (what, judged) for name, (_, what, judged) in POOLS.items()})
