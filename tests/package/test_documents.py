"""The manual pages and the completions have each command and option that --help has, and work."""
import functools
import os
import re

import made

BASH = "share/bash-completion/completions/chipfire"
ZSH = "share/zsh/vendor-completions/_chipfire"
FISH = "share/fish/vendor_completions.d/chipfire.fish"


@functools.cache
def helps():
    """Returns the help of the program, by the name "", and that of each command by the command's."""
    whole = made.run(made.PROGRAM, "--help").stdout
    names = re.findall(r"^  (?!help )([a-z]+)  ", whole.partition("Commands:")[2].partition("Options:")[0], re.MULTILINE)
    return {"": whole, **{name: made.run(made.PROGRAM, name, "--help").stdout for name in names}}


def commands():
    """Returns the names of the commands."""
    return [name for name in helps() if name]


def words(name):
    """Returns the options that the help of a command lists, in all their spellings."""
    listed = helps()[name].partition("\nOptions:\n")[2].partition("\n\n")[0]
    heads = [line.strip().partition("  ")[0] for line in listed.split("\n")]
    return sorted(re.findall(r"(?<!\S)--?[A-Za-z-]+", " ".join(heads)))


def spaced(text):
    """Returns the words of a text, with one space between them."""
    return " ".join(text.split())


class Helps(made.Test):
    def test_all_that_the_tests_compare_with_is_found(self):
        self.assertEqual(words("check"), ["--help", "--large", "-h"])
        self.assertEqual(words(""), ["--help", "--version", "-V", "-h"])
        self.assertEqual(commands(), [
            "check", "plain", "avalanches", "recurrent", "identity", "run", "simulate", "replay", "resume", "verify", "judge",
            "explain"])


class Manual(made.Test):
    @staticmethod
    @functools.cache
    def page(name="chipfire", section=1):
        """Returns a page as `man` shows it."""
        made.need("man")
        words = ["man", "--nh", "--nj", "--warnings=w", "-l", f"{made.unpacked()}/share/man/man{section}/{name}.{section}"]
        shown = made.run(*words, MANWIDTH="400")
        if (shown.returncode, shown.stderr) != (0, ""):
            raise AssertionError(shown.stderr)
        return shown.stdout

    def pages(self):
        """Returns the page of the program, by the name "", and that of each command by its name."""
        return {"": self.page(), **{name: self.page(f"chipfire-{name}") for name in commands()}}

    def test_there_is_a_page_for_each_command_and_the_first_lists_them(self):
        there = {it.removesuffix(".1") for it in os.listdir(f"{made.unpacked()}/share/man/man1")}
        self.assertEqual(there, {"chipfire", *(f"chipfire-{name}" for name in commands())})
        listed = self.page().partition("\nCOMMANDS\n")[2].partition("\nOPTIONS\n")[0]
        self.assertEqual(re.findall(r"^ {7}chipfire-([a-z]+)\(1\)", listed, re.MULTILINE), commands())

    def test_the_first_begins_with_what_the_program_does(self):
        self.assertRegex(self.page(), r"\nDESCRIPTION\n +chipfire stabilizes abelian sandpiles")

    def test_each_has_each_option(self):
        for name, page in self.pages().items():
            part = re.search(r"\nOPTIONS\n(.*?)(?=\n[A-Z]|\Z)", page, re.DOTALL)[1]
            heads = re.findall(r"^ {7}(-.*?)(?:  .*)?$", part, re.MULTILINE)
            self.assertEqual(sorted(re.findall(r"(?<!\S)--?[A-Za-z-]+", " ".join(heads))), words(name), name)

    def test_each_says_all_that_its_help_says(self):
        for name, page in self.pages().items():
            for line in re.findall(r"^ +(?!help )\S.*?  +(\S.*)$", helps()[name], re.MULTILINE):
                self.assertIn(spaced(line), spaced(page))
            for block in helps()[name].split("\n\n"):
                if not block.startswith(("Usage: ", "Options:", "Arguments:", "Commands:")):
                    self.assertIn(spaced(block)[1:], spaced(page))

    def test_each_names_the_version(self):
        for page in (*self.pages().values(), self.page(section=3), self.page(section=5)):
            self.assertRegex(page.splitlines()[-1], rf"^chipfire {re.escape(made.version())} ")

    def test_that_of_the_library_has_each_declaration(self):
        declared = re.findall(r"\b(chipfire_\w+)\(", made.read(f"{made.ROOT}/include/chipfire.h").decode())
        page = self.page(section=3)
        self.assertGreater(len(declared), 20)
        self.assertEqual([it for it in declared if it not in page], [])

    def test_that_of_the_library_lists_arguments_and_has_nothing_for_the_compiler(self):
        page = self.page(section=3)
        self.assertRegex(page, r"\n {7}guesses\s+none; or as many as chips: ")
        self.assertRegex(page, r"\n +uint64_t owed; +/\* the number of messages ")
        self.assertNotIn("#endif", page)

    def test_that_of_files_has_each_part_and_fault(self):
        text = made.read(f"{made.ROOT}/docs/FORMATS.md").decode()
        page = self.page(section=5)
        for heading in re.findall("^## (.*)$", text, re.MULTILINE):
            self.assertIn(f"\n{heading.upper()}\n", page)
        for number, name in re.findall(r"^\| (\d+) \| `(\w+)", text, re.MULTILINE):
            self.assertRegex(page, rf"\n {{7}}{number} {name}\b")


class Bash(made.Test):
    def offered(self, *typed):
        """What a real bash offers for the last of these words."""
        script = ('source "$0"; COMP_WORDS=("$@") COMP_CWORD=$(($# - 1))\n'
                  '_chipfire && ((${#COMPREPLY[@]} == 0)) || printf "%s\\n" "${COMPREPLY[@]}"')
        asked = made.run("bash", "-c", script, f"{made.unpacked()}/{BASH}", "chipfire", *typed, cwd=f"{made.home()}/examples")
        self.assertEqual(asked.stderr, "")
        return sorted(asked.stdout.split())

    def test_it_completes_in_a_terminal(self):
        shell = ["bash", "--noprofile", "--norc", "-i"]
        text = made.typed(shell, f"source {made.unpacked()}/{BASH}", "chipfire run g c --wor", "--workers ")
        self.assertIn("--workers ", text)

    def test_it_has_each_command_and_option(self):
        self.assertEqual(self.offered(""), sorted([*commands(), *words("")]))
        for name in commands():
            self.assertEqual(self.offered(name, "-"), words(name), name)

    def test_it_completes_what_begins_so(self):
        self.assertEqual(self.offered("run", "g", "c", "--trace"), ["--trace", "--trace-rows"])
        self.assertEqual(self.offered("res"), ["resume"])

    def test_it_completes_files_where_one_is_wanted(self):
        self.assertEqual(self.offered("check", "triangle/gr"), ["triangle/graph.json"])
        self.assertEqual(self.offered("run", "g", "c", "--feed", "triangle/no"), ["triangle/no-chips.csv"])
        self.assertEqual(self.offered("run", "g", "c", "--feed", "=", "triangle/no"), ["triangle/no-chips.csv"])
        for typed in (["run", "g", "c", "--limit", ""], ["run", "--limit", "=", ""], ["explain", "tri"], ["tri"]):
            self.assertEqual(self.offered(*typed), [], typed)


class Fish(made.Test):
    def offered(self, line):
        """What fish offers for the last word of a line."""
        made.need("fish")
        file = f"{made.unpacked()}/{FISH}"
        asked = made.run("fish", "-c", f"source {file}; complete -C '{line}'", cwd=f"{made.home()}/examples")
        self.assertEqual((asked.returncode, asked.stderr), (0, ""))
        return sorted({it.split("\t")[0] for it in asked.stdout.splitlines()})

    def test_it_has_each_command_and_option(self):
        self.assertEqual(self.offered("chipfire "), sorted(commands()))
        for name in helps():
            wanted = [it for it in words(name) if it.startswith("--")]
            self.assertEqual([it.rstrip("=") for it in self.offered(f"chipfire {name} --")], wanted, name)

    def test_it_completes_what_begins_so(self):
        self.assertEqual(self.offered("chipfire run g c --wor"), ["--workers"])
        self.assertEqual(self.offered("chipfire check triangle/gr"), ["triangle/graph.json"])
        self.assertEqual(self.offered("chipfire explain triangle/gr"), [])


class Zsh(made.Test):
    def test_it_completes_in_a_terminal(self):
        made.need("zsh")
        setup = f"fpath=({made.unpacked()}/share/zsh/vendor-completions $fpath); autoload -Uz compinit; compinit -u -D"
        for line, wanted in (("chipfire run g c --wor", "--workers"), ("chipfire resu", "resume")):
            self.assertIn(wanted, made.typed(["zsh", "-f", "-i"], setup, line, wanted))

    def test_it_has_each_command_and_option(self):
        text = made.read(f"{made.unpacked()}/{ZSH}").decode()
        self.assertEqual(re.findall(r"^    '([a-z]+):", text, re.MULTILINE), commands())
        parts = dict(re.findall(r"^([a-z]+)\)\n(.*?);;", text, re.MULTILINE | re.DOTALL))
        parts[""] = text.partition("_arguments")[2].partition("\n")[0]
        self.assertEqual(sorted(parts), sorted(helps()))
        for name, part in parts.items():
            self.assertEqual(sorted(re.findall(r"'(--?[A-Za-z-]+)=?\[", part)), words(name), name)

    def test_it_is_zsh(self):
        made.need("zsh")
        asked = made.run("zsh", "-f", "-n", f"{made.unpacked()}/{ZSH}")
        self.assertEqual((asked.returncode, asked.stderr), (0, ""))
