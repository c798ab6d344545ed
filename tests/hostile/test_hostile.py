"""Gives pytest the tests of hostile use."""

import hostile_tests
import listed

test_hostile = listed.for_pytest("hostile", hostile_tests.tests)
