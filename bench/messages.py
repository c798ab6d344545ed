#!/usr/bin/env python3
"""Times a message between two processes with a detector around it beside one without.

    bench/messages [--turns N] [--messages N] [--program FILE]

Two processes hand a number to and fro. In Python they are threads, by `queue.SimpleQueue`, or processes of the system,
by `multiprocessing.Queue`, and the detector is `chipfire.Detector`. In C++ (messages.cpp) one thread hands them over by
a deque with a lock, and each process has its `chipfire::Books`. With and without are timed one after the other; what
counts is the best turn. What is printed is Markdown, for docs/BENCHMARKS.md, in microseconds a message. By default FILE
is the program that ./chipfire built; the library lies beside it.
"""
import multiprocessing
import os
import queue
import subprocess
import threading
import time

import frame

import chipfire  # (frame has Python find it)

#: The two processes.
NAMES = ("left", "right")
COMPILE = ["g++", "-std=c++17", "-O2", f"-I{frame.ROOT}/include"]


def hand_over(inbox, outbox, most):
    """Hands numbers to the other until they reach `most`, without a detector."""
    number = 0
    while number < most:
        number = inbox.get()
        outbox.put(number + 1)


def play(me, other, most):
    """Hands numbers to the other until they reach `most`, with a detector."""
    for number in me:
        if number < most:
            me.send(other, number + 1)


def loops_of(backend, target, words):
    """Starts a loop for each of these words, and returns them."""
    make = threading.Thread if backend == "threading" else multiprocessing.Process
    loops = [make(target=target, args=its, daemon=True) for its in words]
    for loop in loops:
        loop.start()
    return loops


def plain_seconds(backend, messages):
    """The seconds of this number of messages without a detector."""
    make = queue.SimpleQueue if backend == "threading" else multiprocessing.Queue
    left, right = make(), make()
    loops = loops_of(backend, hand_over, [(left, right, messages), (right, left, messages)])
    begun = time.perf_counter()
    left.put(0)
    for loop in loops:
        loop.join()
    return time.perf_counter() - begun


def detected_seconds(backend, messages):
    """The seconds of this number of messages with a detector."""
    detector = chipfire.Detector(NAMES, backend)
    words = [(detector[me], other, messages) for me, other in (NAMES, reversed(NAMES))]
    loops = loops_of(backend, play, words)
    begun = time.perf_counter()
    detector.begin(NAMES[0], 0)
    detector.wait()
    seconds = time.perf_counter() - begun
    for loop in loops:
        loop.join()
    return seconds


def cpp_row(books, messages):
    """What messages.cpp prints: the microseconds without and with books."""
    said = subprocess.run([books, str(messages)], check=True, stdout=subprocess.PIPE, text=True)
    return [float(number) for number in said.stdout.split()]


def show(name, plain, detected):
    print(f"| {name} | {plain:.2f} us | {detected:.2f} us | {detected / plain:.2f} |", flush=True)


def main():
    words = frame.parser(__doc__, turns=5)
    words.add_argument("--messages", type=int, default=20_000)
    asked = frame.read_words(words)
    os.environ["CHIPFIRE"] = asked.program
    print(
        "| A message between | without | with a detector | with : without |\n|---|---:|---:|---:|"
    )
    for backend, name in (
        ("threading", "threads of Python"),
        ("multiprocessing", "processes of Python"),
    ):
        turns = [
            (plain_seconds(backend, asked.messages), detected_seconds(backend, asked.messages))
            for _ in range(asked.turns)
        ]
        show(name, *(min(column) / asked.messages * 1e6 for column in zip(*turns)))
    library = f"{os.path.dirname(asked.program)}/libchipfire.a"
    books = frame.compiled(COMPILE, "messages.cpp", "messages", [library])
    turns = [cpp_row(books, 50 * asked.messages) for _ in range(asked.turns)]
    show("queues of C++, in one thread", *map(min, zip(*turns)))


if __name__ == "__main__":
    main()
