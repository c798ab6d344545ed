"""`chipfire.lab.detectors` under the name that pages and files of users have."""

import sys

from chipfire.lab import detectors
from chipfire.lab.detectors import *  # (so that type checkers see its names)

sys.modules[__name__] = detectors
