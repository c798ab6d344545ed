#!/usr/bin/env python3
"""Drops a heap of chips on the middle of a square grid, stabilizes it, and draws what comes.

FILE is a .png or a .svg. Each vertex is a square of 8 by 8 points: 0 chips white, 1 yellow, 2 blue, 3 black.
"""
import argparse

import chipfire

parser = argparse.ArgumentParser(description=__doc__, formatter_class=argparse.RawDescriptionHelpFormatter)
parser.add_argument("side", metavar="SIDE", type=int, help="how many squares a side of the grid has")
parser.add_argument("chips", metavar="CHIPS", type=int, help="how many chips are dropped")
parser.add_argument("file", metavar="FILE", help="the picture that is written")
asked = parser.parse_args()
side = asked.side
try:
    report = chipfire.plain(chipfire.grid(side, side), {side * (side // 2) + side // 2: asked.chips})
    report.image(asked.file)
except (OSError, ValueError) as error:
    parser.error(str(error))
print(f"{asked.file}: {side} by {side}, {sum(report.fired)} firings, {report.chips[-1]} chips lost")
