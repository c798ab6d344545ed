"""How parts of a test are shown by readers that know none."""
import contextlib
import io
import unittest

import parts


class Parts(unittest.TestCase):
    def shown_of(self, error):
        """What is shown of a part in which this error is raised, or none."""
        output = io.StringIO()
        expected = self.assertRaises(type(error)) if error else contextlib.nullcontext()
        with expected, contextlib.redirect_stdout(output), parts.part(self, "a row", number=3, name="b"):
            if error:
                raise error
        return output.getvalue()

    def test_what_fails_is_named(self):
        shown = "The part that failed: a row number=3 name='b'\n"
        self.assertEqual([self.shown_of(it) for it in (AssertionError(), KeyError(3))], [shown] * 2)

    def test_nothing_is_said_of_what_is_right_or_skipped(self):
        self.assertEqual([self.shown_of(it) for it in (None, unittest.SkipTest())], [""] * 2)


if __name__ == "__main__":
    unittest.main()
