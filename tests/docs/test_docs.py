"""Gives pytest the tests of the pages."""

import docs_tests
import listed

test_docs = listed.for_pytest("docs", docs_tests.tests)
