"""How packages are hidden: as if they were not installed, in this Python and in each that it starts."""
import subprocess
import sys
import unittest
from unittest import mock

import without

#: What is asked of a Python that hides `json`: what finds it, what an import says, and the same in one that it starts.
ASK = """
import csv, importlib.util, os, subprocess, sys, without
print(importlib.util.find_spec("json"))
try:
    import json.decoder
except ModuleNotFoundError as error:
    print(error, flush=True)
if len(sys.argv) > 1:
    environment = without.environment(os.environ["PYTHONPATH"])
    subprocess.run([sys.executable, "-c", sys.argv[1]], env=environment, check=True)
"""


class Hidden(unittest.TestCase):
    def test_they_are_not_found_and_others_are(self):
        with mock.patch.dict("os.environ", {without.NAME: "json"}):
            environment = without.environment()
        words = [sys.executable, "-c", ASK, ASK]
        ran = subprocess.run(words, env=environment, capture_output=True, encoding="utf-8")
        self.assertEqual((ran.stdout, ran.stderr), ("None\nNo module named 'json'\n" * 2, ""))

    @unittest.skipIf(without.hidden(), "packages are hidden here already")
    def test_they_are_not_hidden_if_they_were_imported(self):
        with mock.patch.dict("os.environ", {without.NAME: "unittest"}):
            self.assertRaisesRegex(RuntimeError, "too late: unittest is imported", without.hide)

    def test_nothing_is_hidden_unless_it_is_named(self):
        with mock.patch.dict("os.environ", {without.NAME: ""}):
            self.assertEqual(without.hidden(), set())
            environment = without.environment("/a", "/b", LANG="C")
        self.assertEqual(
            environment, {"PYTHONPATH": "/a:/b", "PYTHONDONTWRITEBYTECODE": "1", "LANG": "C"}
        )


if __name__ == "__main__":
    unittest.main()
