"""Gives pytest the tests of the command line."""

import cli_tests
import listed

test_cli = listed.for_pytest("cli", cli_tests.tests)
