#!/usr/bin/env python3
"""Counts primes by threads: a coordinator deals out ranges, workers split what is long, and send it what they find.

    coordinator.py [--below N] [--workers W]

Nobody knows how many results there will be. The detector says when the last one is worked on.
"""
import argparse
import threading

import chipfire

LONGEST = 50


def is_prime(number):
    return number > 1 and all(number % it for it in range(2, int(number**0.5) + 1))


def coordinate(me, workers, found):
    """Deals out the first range, and adds up what comes back."""
    for kind, what in me:
        if kind == "range":
            for worker in range(workers):
                first, last = (what * (worker + it) // workers for it in range(2))
                me.send(worker, (first, last))
        else:
            found.append(what)


def work(me, workers):
    """Counts in short ranges, and sends half of a long one on."""
    for first, last in me:
        middle = (first + last) // 2
        if last - first > LONGEST:
            me.send((me.name + 1) % workers, (first, middle))
            me.send(me.name, (middle, last))
        else:
            me.send("coordinator", ("count", sum(map(is_prime, range(first, last)))))


def counted(below, workers):
    """Returns how many primes there are below a number."""
    detector, found = chipfire.Detector(["coordinator", *range(workers)]), []
    loops = [threading.Thread(target=work, args=(detector[it], workers)) for it in range(workers)]
    loops.append(threading.Thread(target=coordinate, args=(detector["coordinator"], workers, found)))
    for loop in loops:
        loop.start()
    detector.begin("coordinator", ("range", below))
    detector.wait()
    for loop in loops:
        loop.join()
    return sum(found)


def main():
    parser = argparse.ArgumentParser(description=__doc__, formatter_class=argparse.RawDescriptionHelpFormatter)
    parser.add_argument("--below", type=int, default=1000, help="primes below which number (1,000 by default)")
    parser.add_argument("--workers", type=int, default=3, help="how many workers (3 by default)")
    asked = parser.parse_args()
    print(f"{counted(asked.below, asked.workers)} primes")


if __name__ == "__main__":
    main()
