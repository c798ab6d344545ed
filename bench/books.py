#!/usr/bin/env python3
"""Times the calls of the library on books of many edges, by ctypes: those on arrays beside those with sums.

    bench/library/books [--program FILE]

A line for each number of edges: the microseconds of a message that is got and acknowledged on the last of them, and of
`is_over`.
"""
import ctypes
import os
import time
from array import array

import frame

#: How many edges the books have on each side.
EDGES = [10_000, 1_000_000]


def micros(times, call):
    """The microseconds of a call, which is made `times` times."""
    begun = time.perf_counter()
    for _ in range(times):
        call()
    return (time.perf_counter() - begun) / times * 1e6


class OnBooks:
    """Calls on the books of a process that gets a message on its last edge and acknowledges it: on arrays, and with
    sums."""

    def __init__(self, library, edges):
        self.calls, self.last = library.books(), edges - 1
        sides = [
            array("Q", [word for edge in range(edges) for word in (edge, 0, 0)]) for _ in range(2)
        ]
        self.sides, self.arrays = sides, [(side.buffer_info()[0], edges) for side in sides]
        self.parent, self.word = ctypes.c_uint64(2**64 - 1), ctypes.c_uint64()
        words = [word for its in self.arrays for word in its]
        self.books = library.BooksStruct(*words, self.parent.value)
        self.calls.chipfire_books_open(self.books)

    def message(self):
        ins, outs = self.arrays
        self.calls.chipfire_got(*ins, self.parent, self.last)
        self.calls.chipfire_may_ack(*ins, *outs, self.parent, self.last, 1, self.word)
        self.calls.chipfire_acked(*ins, *outs, self.parent, self.last, 1, self.word)

    def message_in_sums(self):
        self.calls.chipfire_books_got(self.books, self.last)
        self.calls.chipfire_books_acknowledge(self.books, self.last, 1, self.word, self.word)

    def is_over(self):
        self.calls.chipfire_is_over(*self.arrays[1], 1, self.word)

    def is_over_in_sums(self):
        self.calls.chipfire_books_is_over(self.books, 1, self.word)


def time_books(library, edges):
    """Prints how long a message takes on books of `edges` edges on each side, and to ask whether all is over."""
    of = OnBooks(library, edges)
    few, many = 2_000_000 // edges, 20_000
    words = f"{micros(few, of.message):.1f} us on arrays, {micros(many, of.message_in_sums):.1f} us with sums"
    print(f"{edges} edges: got and acknowledged in {words}", end="; ", flush=True)
    words = f"{micros(few, of.is_over):.1f} us on arrays, {micros(many, of.is_over_in_sums):.1f} us with sums"
    print(f"is_over {words}", flush=True)


def main():
    asked = frame.read_words(frame.parser(__doc__))
    os.environ["CHIPFIRE"] = asked.program
    import chipfire  # (frame has Python find it)

    for edges in EDGES:
        time_books(chipfire.backend.library, edges)


if __name__ == "__main__":
    main()
