#!/usr/bin/env python3
"""Counts the ways to place queens by processes of the system, which send one another boards that are begun.

    queens.py [--side N] [--processes P]
"""
import argparse
import multiprocessing

import chipfire


def is_free(board, column):
    """Whether a queen in the next line is attacked by none above it."""
    return all(it != column and abs(it - column) != len(board) - line for line, it in enumerate(board))


def search(me, side, processes, ways):
    """Places one queen more on each board that comes."""
    for board in me:
        if len(board) == side:
            with ways.get_lock():
                ways.value += 1
            continue
        for column in range(side):
            if is_free(board, column):
                me.send((me.name + column) % processes, (*board, column))


def counted(side, processes):
    """Returns how many ways there are."""
    detector, ways = chipfire.Detector(range(processes), "multiprocessing"), multiprocessing.Value("Q", 0)
    words = [(detector[it], side, processes, ways) for it in range(processes)]
    loops = [multiprocessing.Process(target=search, args=it) for it in words]
    for loop in loops:
        loop.start()
    detector.begin(0, ())
    detector.wait()
    for loop in loops:
        loop.join()
    return ways.value


def main():
    parser = argparse.ArgumentParser(description=__doc__, formatter_class=argparse.RawDescriptionHelpFormatter)
    parser.add_argument("--side", type=int, default=6, help="how many squares a side of the board has (6 by default)")
    parser.add_argument("--processes", type=int, default=3, help="how many processes search (3 by default)")
    asked = parser.parse_args()
    print(f"{counted(asked.side, asked.processes)} ways")


if __name__ == "__main__":
    main()
