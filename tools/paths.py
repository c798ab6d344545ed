"""Has Python find the modules of this repository, and refuses a Python that is too old for them, in words.

This alone changes where Python searches. The scripts in tools/ import it, those elsewhere run it by its path, and
./chipfire starts it to hear whether its Python is new enough.
"""
import os
import sys

ROOT = os.path.dirname(os.path.dirname(os.path.realpath(__file__)))
sys.dont_write_bytecode = True
sys.path[:0] = [it for it in (ROOT, f"{ROOT}/tools", f"{ROOT}/python") if it not in sys.path]
import contents  # noqa: E402  (which Python is too old)

if contents.is_old():
    this = ".".join(map(str, sys.version_info[:3]))
    required = contents.stated("requires-python")
    sys.exit(f"chipfire: it requires Python {required}, and {sys.executable} is Python {this}")
