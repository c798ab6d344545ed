"""Each request for memory refused, alone and with all after it: the same result, or a fault and nothing written. Inside
a search of counts it is the same result."""
import errno

from machine import LAST


def refused(machine, worked, first, last):
    """What is wrong with a run whose requests with these numbers are refused."""
    ran, tally = machine.run_refusing(worked.words, ("alloc", first, last, errno.ENOMEM))
    calls, met = tally["alloc"]
    if met == 0:
        return worked.differences(ran) or ([f"only {calls} requests were made"] if worked.is_steady else [])
    return worked.differences_or_fault(ran)


def of_run(machine, worked):
    count = machine.calls(worked.words)["alloc"]
    yield f"{worked.name}: asks for memory", lambda: [] if count else ["no request for memory was seen"]
    for number in range(1, count + 1):
        for what, last in [("", number), (" and all after it", LAST)]:
            name = f"{worked.name}: request {number} for memory{what} refused"
            yield name, lambda number=number, last=last: refused(machine, worked, number, last)


def needs(machine, worked):
    """How many requests for memory a run makes, and how many of them it cannot do without."""
    count = machine.calls(worked.words)["alloc"]
    ran = (machine.run_refusing(worked.words, ("alloc", it, it, errno.ENOMEM))[0] for it in range(1, count + 1))
    return count, sum(1 for it in ran if worked.differences(it))


def of_search(machine, worked):
    """A refused request ends the search and not the play: the search adds requests, but none that the run needs."""

    def faults():
        (made, needed), (fewer, needed_too) = needs(machine, worked), needs(machine, worked.unsearched())
        found = [] if fewer < made else [f"of {made} requests none is the search's"]
        return found + ([] if needed == needed_too else [f"needs {needed} requests, and {needed_too} without its search"])

    yield f"{worked.name}: its search can do without memory", faults


def kinds(worked):
    """Yields what finds facts of a run."""
    yield of_run
    if worked.near_limit:
        yield of_search
