"""`chipfire.backend.library` under the name that pages and files of users have."""

import sys

from chipfire.backend import library
from chipfire.backend.library import *  # (so that type checkers see its names)

sys.modules[__name__] = library
