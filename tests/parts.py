"""Shows which part of a test failed where a reader of tests, as pytest, takes a part (`subTest`) for nothing of its own."""

import contextlib
import unittest


@contextlib.contextmanager
def part(case, message="", **values):
    """A part of a test, which ends it if it fails, and says first which part it is."""
    try:
        yield
    except unittest.SkipTest:
        raise
    except BaseException:
        words = [str(message)] * bool(message) + [f"{name}={it!r}" for name, it in values.items()]
        print("The part that failed:", *words)
        raise


def show():
    """Has each part of each test say so."""
    unittest.TestCase.subTest = part
