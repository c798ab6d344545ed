"""The list of the tests of the command line.

The cases of tests/cli/cases/ and the results of examples/ come first. What must come of random games is known from
examples/play.py, from chipfire.model and from player.c, which share nothing with the program, and of random logs from
all their consistent cuts: each module says how.
"""

import answers
import boards
import busy
import chains
import closing
import command_lines
import crews
import cut_logs
import detectors
import diffusing
import drops
import emulated
import estimates
import feeds
import group
import guesses
import judged
import large
import largest
import listed
import logs
import long_logs
import missing_rows
import mixed_logs
import paced
import progress
import seals
import terminal
import verdicts
import written

#: Those whose tests take the program.
MODULES = (
    chains, boards, closing, feeds, crews, seals, verdicts, guesses, logs, detectors, long_logs, missing_rows, cut_logs,
    mixed_logs, drops, group, largest, diffusing, judged, terminal, written, paced, progress, estimates, busy,
)  # fmt: skip


def tests(program, is_long):
    """Returns all tests, by the modules that have them."""
    sets = {f"cases/{it}": command_lines.tests(program, it) for it in command_lines.names()}
    sets["examples"] = answers.tests()
    sets |= {it.__name__: it.tests(program) for it in MODULES}
    sets["large"] = large.tests(program, is_long)
    sets["emulated"] = emulated.tests(program, is_long)
    return listed.named(sets)
