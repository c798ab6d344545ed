"""The list of the tests of the pages: they do what they show, what they cite is there, their links lead somewhere, and their
tables are true. Also of the mutants: they fit the code."""

import links
import listed
import mutants
import names
import sessions
import tables


def tests(program, _is_long):
    """Returns all tests."""
    sets = {"pages": sessions.tests(), "tables": tables.tests(program), "names": names.tests()}
    sets["links"] = links.tests()
    sets["mutants"] = mutants.tests()
    return listed.named(sets)
