"""`chipfire.lab.computations` under the name that pages and files of users have."""

import sys

from chipfire.lab import computations
from chipfire.lab.computations import *  # (so that type checkers see its names)

sys.modules[__name__] = computations
