#!/usr/bin/env python3
"""The recurrent identity of the 20 by 20 grid. `chipfire.identity(grid)` is the same in one call."""
import chipfire

grid = chipfire.grid(20, 20)
twice = {v: 2 * chips for v, chips in grid.max_stable().items()}
rest = chipfire.plain(grid, twice).configuration
identity = chipfire.plain(grid, {v: twice[v] - rest[v] for v in twice}).configuration
for row in range(20):
    print(*(identity[20 * row + column] for column in range(20)))
