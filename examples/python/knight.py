#!/usr/bin/env python3
"""In how many moves a knight reaches each square from a corner, by threads that know no order.

Each square is a part. A message has a number of moves. If these are fewer than the square knew, it sends messages to
the squares that are one move further. Threads take messages from one queue. Only `chipfire.Books` say when the last
message is worked on: all are acknowledged, by messages too, and the root, which sent the first one, sees it.
"""
import argparse
import math
import queue
import threading
from concurrent.futures import ThreadPoolExecutor

import chipfire

ROOT = None
STEPS = [(1, 2), (2, 1), (2, -1), (1, -2), (-1, -2), (-2, -1), (-2, 1), (-1, 2)]


class Part:
    """A square, or the root, with the edges out of it. Who reads or writes the rest holds the lock."""

    def __init__(self, number, ins, outs):
        self.lock, self.outs = threading.Lock(), outs
        self.books = chipfire.Books(ins, outs, root=number == 0, process=number)
        self.moves = math.inf
        self.busy = 0  # how many threads work on a message to it


class Search:
    """The search on a board with `side` squares on a side. Edge 0 leads from the root to the corner."""

    def __init__(self, side):
        squares = [(line, column) for line in range(side) for column in range(side)]
        self.ends = [(ROOT, (0, 0))]
        for y, x in squares:
            self.ends += [((y, x), (y + dy, x + dx)) for dy, dx in STEPS if (y + dy, x + dx) in squares]
        self.parts = {}
        for number, it in enumerate([ROOT, *squares]):
            ins, outs = ([edge for edge, ends in enumerate(self.ends) if ends[end] == it] for end in (1, 0))
            self.parts[it] = Part(number, ins, outs)
        self.mail = queue.SimpleQueue()

    def send(self, edge, moves):
        """Sends a message."""
        tail = self.parts[self.ends[edge][0]]
        with tail.lock:
            tail.books.sent(edge)
        self.mail.put((edge, moves, None))

    def work(self, edge, moves):
        """Gets a message and works on it."""
        part = self.parts[self.ends[edge][1]]
        with part.lock:
            part.books.got(edge)
            part.busy += 1
            is_nearer = moves < part.moves
            part.moves = min(moves, part.moves)
        for out in part.outs if is_nearer else []:
            self.send(out, moves + 1)
        with part.lock:
            part.busy -= 1
        self.acknowledge(part)

    def acknowledge(self, part):
        """Acknowledges what a part may."""
        with part.lock:
            for edge, word in part.books.acknowledge(part.busy == 0):
                self.mail.put((edge, None, word))

    def settle(self, edge, word):
        """Settles acknowledgements. The root asks then whether it is over, and lets one thread end."""
        tail = self.ends[edge][0]
        part = self.parts[tail]
        with part.lock:
            part.books.settled(edge, word)
            is_over = tail is ROOT and part.books.is_over()
        if is_over:
            self.mail.put(None)
        self.acknowledge(part)

    def serve(self):
        """One thread: it works on messages, and lets another one end when it does."""
        try:
            for edge, moves, word in iter(self.mail.get, None):
                if moves is None:
                    self.settle(edge, word)
                else:
                    self.work(edge, moves)
        finally:
            self.mail.put(None)

    def find(self, threads):
        """Returns how many moves lead to each square; math.inf where none do."""
        self.send(0, 0)
        with ThreadPoolExecutor(threads) as pool:
            for thread in [pool.submit(self.serve) for _ in range(threads)]:
                thread.result()
        return {it: part.moves for it, part in self.parts.items() if it is not ROOT}


def main():
    parser = argparse.ArgumentParser(description=__doc__, formatter_class=argparse.RawDescriptionHelpFormatter)
    parser.add_argument("--side", type=int, default=8, help="how many squares a side of the board has (8 by default)")
    parser.add_argument("--threads", type=int, default=4, help="how many threads work (4 by default)")
    asked = parser.parse_args()
    moves = Search(asked.side).find(asked.threads)
    for line in range(asked.side):
        print(*(moves[line, column] for column in range(asked.side)))


if __name__ == "__main__":
    main()
