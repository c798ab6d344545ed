#!/usr/bin/env python3
"""Makes what is made beside a program and its libraries that were proved here: what is for aarch64, and the package for
browsers and Node.

    tools/parts.py FOLDER     makes them in FOLDER, which has the program, where their tools are

The last line is `N passed, N failed`. What is not made, since a tool is missing, is skipped by name.
"""
import sys

import paths  # noqa: F401  (it has Python find the others)
from packing import parts

if __name__ == "__main__":
    is_well = parts.make_beside(*sys.argv[1:])
    print(f"{int(is_well)} passed, {int(not is_well)} failed")
    sys.exit(not is_well)
