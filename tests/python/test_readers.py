"""What reads the tests: a sample with all that can come of a test has the same outcomes by unittest and by pytest, and
names and numbers of tests are what is asked for."""

import importlib.util
import json
import os
import subprocess
import sys
import tempfile
import unittest

import counts
import job
import listed
import paths

SAMPLE = """
import unittest

class Single(unittest.TestCase):
    def test_right(self):
        pass
    def test_wrong(self):
        self.assertEqual(1, 2)
    def test_ends_by_an_error(self):
        raise KeyError
    @unittest.skip("the reason")
    def test_skipped(self):
        pass
    @unittest.expectedFailure
    def test_wrong_as_expected(self):
        self.fail()
    @unittest.expectedFailure
    def test_right_and_not_expected(self):
        pass

class Parts(unittest.TestCase):
    def test_one_part_is_wrong(self):
        for number in range(3):
            with self.subTest(number=number):
                self.assertNotEqual(number, 1)
    def test_one_part_is_skipped(self):
        for number in range(3):
            with self.subTest(number=number):
                if number == 1:
                    self.skipTest("the reason")

class Skipped(unittest.TestCase):
    @classmethod
    def setUpClass(cls):
        raise unittest.SkipTest("the reason")
    def test_one(self):
        pass
    def test_two(self):
        pass

class Broken(unittest.TestCase):
    @classmethod
    def setUpClass(cls):
        raise ValueError
    def test_one(self):
        pass
    def test_two(self):
        pass

class Ends(unittest.TestCase):
    @classmethod
    def tearDownClass(cls):
        raise ValueError
    def test_one(self):
        pass

class EndsEach(unittest.TestCase):
    def tearDown(self):
        raise ValueError
    def test_one(self):
        pass
"""
#: What comes of each test of the sample.
WORDS = {
    "Single::test_right": "passed",
    "Single::test_wrong": "failed",
    "Single::test_ends_by_an_error": "failed",
    "Single::test_skipped": "skipped",
    "Single::test_wrong_as_expected": "passed",
    "Single::test_right_and_not_expected": "failed",
    "Parts::test_one_part_is_wrong": "failed",
    "Parts::test_one_part_is_skipped": "skipped",
    "Skipped::test_one": "skipped",
    "Skipped::test_two": "skipped",
    "Broken::test_one": "failed",
    "Broken::test_two": "failed",
    "Ends::test_one": "failed",
    "EndsEach::test_one": "failed",
}
BY_UNITTEST = "outcomes = job.by_unittest({'modules': ['sample'], 'names': None})"
BY_PYTEST = """
import pytest
recorder = job.Recorder(None)
pytest.main(["-q", "-c", "/dev/null", "-p", "no:cacheprovider", "sample.py"], plugins=[recorder])
outcomes = recorder.outcomes
"""
TELL = "\nwith open('outcomes', 'w') as file: json.dump(outcomes, file)\n"


class Readers(unittest.TestCase):
    def reads(self, reading):
        """Has the sample read in a Python of its own, and compares the outcomes."""
        with tempfile.TemporaryDirectory() as folder:
            with open(f"{folder}/sample.py", "w", encoding="ascii") as file:
                file.write(SAMPLE)
            words = [sys.executable, "-c", f"import json, job{os.linesep}{reading}{TELL}"]
            environment = {**os.environ, "PYTHONPATH": f"{folder}:{paths.HERE}"}
            ran = subprocess.run(words, env=environment, cwd=folder, capture_output=True)
            self.assertTrue(os.path.exists(f"{folder}/outcomes"), ran)
            with open(f"{folder}/outcomes", encoding="ascii") as file:
                outcomes = json.load(file)
        words = {name.partition("::")[2]: word for name, (word, _) in outcomes.items()}
        reasons = {text for word, text in outcomes.values() if word == job.SKIPPED}
        self.assertEqual((words, reasons), (WORDS, {"the reason"}))

    def test_unittest(self):
        self.reads(BY_UNITTEST)

    @unittest.skipUnless(importlib.util.find_spec("pytest"), "pytest is not here")
    def test_pytest(self):
        self.reads(BY_PYTEST)


class Names(unittest.TestCase):
    def test_words_stand_in_a_name_and_numbers_are_whole(self):
        for name, words, is_so in (
            ("cases/plain.cases::one chip short", "one chip short", True),
            ("test_divisors::Ranks::test_by_hand", "divisors::ranks", True),
            ("chains::17", "chains::17", True),
            ("chains::170", "chains::17", False),
            ("chains::117", "17", False),
        ):
            self.assertIs(listed.has_words(name, words), is_so, (name, words))

    def test_a_start_is_one_of_the_name_or_of_what_follows_its_set(self):
        for name, start, is_so in (
            ("pages::docs/PACKAGES.md", "docs/PACK", True),
            ("pages::docs/PACKAGES.md", "pages::", True),
            ("pages::docs/PACKAGES.md", "PACKAGES", False),
            ("chains::170", "chains::17", False),
        ):
            self.assertIs(listed.is_named(name, start), is_so, (name, start))

    def test_no_name_stands_twice(self):
        with self.assertRaisesRegex(ValueError, "stand twice: games::1$"):
            listed.named({"games": [("1", list), ("2", list), ("1", list)]})


class Numbers(unittest.TestCase):
    def test_fewer_tests_than_there_were_are_reported(self):
        (least,) = (count for key, count in counts.least().items() if key == ("docs", ""))
        self.assertEqual(counts.wrong("docs", "", least), [])
        self.assertRegex(
            counts.wrong("docs", "", least - 1)[0], rf"docs: {least - 1} tests .* {least}\."
        )
        self.assertRegex(counts.wrong("docs", "elsewhere", least)[0], "no row for docs elsewhere")


if __name__ == "__main__":
    unittest.main()
