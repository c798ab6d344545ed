"""`chipfire.lab.model` under the name that pages and files of users have."""

import sys

from chipfire.lab import model
from chipfire.lab.model import *  # (so that type checkers see its names)

sys.modules[__name__] = model
