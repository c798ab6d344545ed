"""The docstrings of the public names: their sections, their examples, which are run, and their places in the reference."""
import doctest
import inspect
import os
import re
import subprocess
import sys
import tempfile
import unittest

import chipfire
from test_sandpiles import has

HERE = os.path.dirname(os.path.realpath(__file__))
ROOT = os.path.dirname(os.path.dirname(HERE))
REFERENCE = f"{ROOT}/docs/site/reference"
SITE = f"{ROOT}/tools/site.py"
#: The public names with a docstring of their own. (The others are a type, a dict and a module.)
NAMES = [it for it in chipfire.__all__ if inspect.isfunction(getattr(chipfire, it)) or inspect.isclass(getattr(chipfire, it))]
#: What the examples of a name need beside the package.
WANTED = {"from_networkx": "networkx", "to_networkx": "networkx", "to_scipy": "scipy", "plot_sizes": "matplotlib"}
WANTED |= {"collapse": "numpy", "moments": "numpy", "Collapse": "numpy", "Moments": "numpy", "Firings": "numpy"}


def documented(name):
    """Returns the docstring of a name: its first line, and its sections by their heads."""
    text = inspect.getdoc(getattr(chipfire, name))
    parts = re.split(r"^(\w[\w ]*)\n-+\n", text, flags=re.MULTILINE)
    return text.partition("\n")[0], dict(zip(parts[1::2], parts[2::2]))


def named(section):
    """Returns the names that a section of parameters has."""
    heads = re.findall(r"^([\w*, ]+) : ", section, re.MULTILINE)
    return [it.strip().lstrip("*") for head in heads for it in head.split(",")]


def lists(name):
    """Returns the parameters of a function."""
    return list(inspect.signature(getattr(chipfire, name)).parameters)


class Sections(unittest.TestCase):
    def test_each_begins_with_one_line(self):
        for name in NAMES:
            self.assertRegex(documented(name)[0], r"^[A-Z].*[.:]$", name)

    def test_each_says_what_is_proved_has_an_example_and_leads_on(self):
        for name in NAMES:
            sections = documented(name)[1]
            self.assertLessEqual({"Notes", "Examples", "See Also"}, {*sections}, name)
            said = "None of this is proved" in sections["Notes"]
            has_both = re.search(r"^Proved: [^\0]*Not\s+proved: ", sections["Notes"], re.MULTILINE)
            self.assertNotEqual(said, bool(has_both), name)

    def test_each_function_has_its_parameters_and_what_it_returns_and_raises(self):
        for name in NAMES:
            if not inspect.isfunction(getattr(chipfire, name)):
                continue
            sections = documented(name)[1]
            self.assertEqual(sorted(named(sections["Parameters"])), sorted(lists(name)), name)
            is_none = inspect.signature(getattr(chipfire, name)).return_annotation == "None"
            self.assertEqual("Returns" in sections, not is_none, name)
            self.assertIn("Raises", sections, name)

    def test_each_class_has_its_parameters_or_its_attributes(self):
        for name in NAMES:
            value, sections = getattr(chipfire, name), documented(name)[1]
            if inspect.isclass(value) and name not in ("ProgramNotFound", "TraceCut"):
                self.assertTrue({"Parameters", "Attributes"} & {*sections}, name)
            if inspect.isclass(value) and "Parameters" in sections:
                self.assertEqual(sorted(named(sections["Parameters"])), sorted(lists(name)), name)

    def test_what_is_seen_also_is_there(self):
        for name in NAMES:
            for other in re.findall(r"[\w.]+", documented(name)[1]["See Also"]):
                part, _, method = other.partition(".")
                self.assertIn(part, chipfire.__all__, name)
                self.assertTrue(not method or hasattr(getattr(chipfire, part), method), other)


class Examples(unittest.TestCase):
    def setUp(self):
        room = tempfile.TemporaryDirectory(prefix="chipfire-python-")
        self.addCleanup(room.cleanup)
        self.addCleanup(os.chdir, os.getcwd())
        os.chdir(room.name)

    def test_each_example_does_what_it_shows(self):
        parser, runner = doctest.DocTestParser(), doctest.DocTestRunner(verbose=False)
        for name in NAMES:
            if name in WANTED and not has(WANTED[name]):
                continue
            text = inspect.getdoc(getattr(chipfire, name))
            output = []
            found = runner.run(parser.get_doctest(text, {"chipfire": chipfire}, name, None, 0), out=output.append)
            self.assertEqual((found.failed, "".join(output)), (0, ""), name)
            self.assertTrue(found.attempted or name == "from_sage", name)


class Reference(unittest.TestCase):
    def test_each_public_name_stands_there_once(self):
        listed = []
        for page in sorted(os.listdir(REFERENCE)):
            with open(f"{REFERENCE}/{page}", encoding="utf-8") as file:
                listed += re.findall(r"^\.\. (?:autofunction|autoclass|py:data):: (\w+)$", file.read(), re.MULTILINE)
        self.assertEqual(sorted(listed), sorted(chipfire.__all__))

    @unittest.skipUnless(has("sphinx") and has("numpydoc") and has("myst_parser"), "Sphinx is not here: see tools/site.py")
    def test_the_site_is_made_without_a_warning(self):
        with tempfile.TemporaryDirectory(prefix="chipfire-site-") as folder:
            words = [sys.executable, SITE, folder]
            made = subprocess.run(words, stdout=subprocess.PIPE, stderr=subprocess.STDOUT, encoding="utf-8")
            self.assertEqual((made.returncode, made.stdout), (0, ""))
            self.assertTrue(os.path.isfile(f"{folder}/docs/site/reference/graphs.html"))
            self.assertTrue(os.path.isfile(f"{folder}/searchindex.js"))


if __name__ == "__main__":
    unittest.main()
