"""`chipfire.lab.machine` under the name that pages and files of users have."""

import sys

from chipfire.lab import machine
from chipfire.lab.machine import *  # (so that type checkers see its names)

sys.modules[__name__] = machine
