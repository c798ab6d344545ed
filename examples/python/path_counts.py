#!/usr/bin/env python3
"""How often the vertices of a path fire, if 2n + 1 chips lie on its middle.

At the end one chip lies on each of the 2n + 1 vertices around it, and the vertex at distance d from the middle has
fired (n - d)(n - d + 1) / 2 times: 1, 3, 6 and so on from the ends inward (Anderson, Lovász, Shor, Spencer, Tardos and
Winkler, "Disks, balls, and walls", 1989). Together that is 1 + 4 + 9 + .. + n * n.
"""
import chipfire

for n in range(1, 9):
    middle = n
    report = chipfire.plain(chipfire.path(2 * n + 1), {middle: 2 * n + 1})
    firings = f"{sum(report.fired)} firing{'s' if n > 1 else ''}"
    print(f"{2 * n + 1} chips: {firings}, {' '.join(map(str, report.fired[:-1]))}")
