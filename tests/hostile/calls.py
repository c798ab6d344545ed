"""Opens, reads and writes that fail, are cut short, move one byte, or are interrupted, each in turn."""
import errno

import expected
from machine import LAST
from worked import FILE, differences

OPEN_ERRORS = ["ENOENT", "EACCES", "EMFILE", "ENOMEM"]
READ_ERRORS = ["EIO", "EINTR", "EAGAIN", "EISDIR", "ENOMEM"]
WRITE_ERRORS = ["EIO", "EINTR", "EAGAIN", "EPIPE", "ENOSPC", "EFBIG", "EBADF"]
ONE_BYTE = -1
NOTHING = 0


def seen_calls(machine, worked):
    """The calls that are to fail are seen: each file is opened once and read to its end, and something is written."""

    def faults():
        seen, files, opens = machine.calls(worked.words), len(worked.files()), len(worked.opens())
        # (the place of a report is tried before the play)
        is_read = seen["open"] == opens + bool(worked.report) and seen["read"] >= 2 * files
        is_written = seen["err" if worked.fault else "out"] == 1 and (seen["file"] > 0) == (opens > files)
        is_well = is_read and is_written and seen["thread"] == worked.threads
        return [] if is_well else [f"of {files} files and {worked.threads} threads these calls were seen: {seen}"]

    yield f"{worked.name}: its calls are seen", faults


def failing_opens(machine, worked):
    """An open that fails names the argument; one that is interrupted is made again. The place of a report is tried before
    the play, beside it, and in it where that fails. An open that fails after the play is a write that fails."""
    opens = worked.opens()
    for number, place in enumerate(opens, 1):
        last = LAST if worked.report and number == len(opens) else number

        def again(number=number):
            ran, _ = machine.run_refusing(worked.words, ("open", number, number, errno.EINTR))
            return worked.differences(ran)

        yield f"{worked.name}: open {number} is interrupted", again
        for name in OPEN_ERRORS:

            def faults(number=number, last=last, place=place, error=getattr(errno, name)):
                ran, _ = machine.run_refusing(worked.words, ("open", number, last, error))
                return worked.faulted(ran, f"92 Open {place}")

            yield f"{worked.name}: open {number} fails by {name}", faults
    if worked.report:
        tried = len(opens)

        def in_place():
            ran, tally = machine.run_refusing(worked.words, ("open", tried, tried, errno.EACCES))
            return worked.differences(ran) + ([] if tally["open"] == (tried + 2, 1) else [f"opens: {tally}"])

        def unmade(error):
            ran, _ = machine.run_refusing(worked.words, ("open", tried + 1, LAST, error))
            return worked.faulted(ran, "93 Write", worked.out)

        yield f"{worked.name}: no file can be made beside its report", in_place
        for name in OPEN_ERRORS:
            yield f"{worked.name}: none can be made after the play by {name}", lambda name=name: unmade(getattr(errno, name))


def failing_reads(machine, worked):
    """A read that fails is reported as one, whichever it is and whyever."""
    for number in range(1, machine.calls(worked.words)["read"] + 1):
        for name in READ_ERRORS:

            def faults(number=number, error=getattr(errno, name)):
                ran, _ = machine.run_refusing(worked.words, ("read", number, number, error))
                return worked.faulted(ran, "29 Read")

            yield f"{worked.name}: read {number} fails by {name}", faults


def slow_reads(machine, worked):
    """Reads of one byte give the same; one that fails is reported, and one that gives nothing ends a file there."""
    slow = ("read", 1, LAST, ONE_BYTE)
    whole = lambda: worked.differences(machine.run_refusing(worked.words, slow)[0])
    yield f"{worked.name}: reads of one byte", whole
    files = worked.bytes_of_files()
    places = [(at, length) for at, text in enumerate(files) for length in range(len(text) + 1)]
    for number, (at, length) in enumerate(places, 1):

        def failing(number=number):
            ran, _ = machine.run_refusing(worked.words, ("read", number, number, errno.EINTR), slow)
            return worked.faulted(ran, "29 Read")

        def cut(number=number, at=at, length=length):
            ran, _ = machine.run_refusing(worked.words, ("read", number, number, NOTHING), slow)
            left = [text[:length] if it == at else text for it, text in enumerate(files)]
            wanted = expected.reference().outcome(worked.words[0], left, **worked.options())
            return wanted.differences(ran.out, ran.err, ran.status)

        yield f"{worked.name}: read {number} of one byte fails", failing
        yield f"{worked.name}: file {at + 1} is cut after {length} bytes", cut


def failing_writes(machine, worked):
    """A write that fails, or takes nothing, is reported with the bytes that went out before it; there is none after it."""
    for name in WRITE_ERRORS:

        def faults(error=getattr(errno, name)):
            ran, tally = machine.run_refusing(worked.words, ("out", 1, 1, error))
            return worked.faulted(ran, "93 Write 0") + ([] if tally["out"][0] == 1 else ["it wrote once more"])

        yield f"{worked.name}: the output fails by {name}", faults
    slow = ("out", 1, LAST, ONE_BYTE)
    whole = lambda: worked.differences(machine.run_refusing(worked.words, slow)[0])
    yield f"{worked.name}: writes of one byte", whole
    for written in range(len(worked.out)):
        for how in (errno.EINTR, NOTHING):

            def faults(written=written, how=how):
                ran, tally = machine.run_refusing(worked.words, ("out", written + 1, written + 1, how), slow)
                found = worked.faulted(ran, f"93 Write {written}", worked.out[:written])
                return found + ([] if tally["out"][0] == written + 1 else ["it wrote once more"])

            yield f"{worked.name}: the output {'fails' if how else 'takes nothing'} after {written} bytes", faults


def failing_faults(machine, worked):
    """Where the line of a fault cannot be written, the status reports it; nothing goes elsewhere."""
    for name in WRITE_ERRORS:

        def faults(error=getattr(errno, name)):
            ran, _ = machine.run_refusing(worked.words, ("err", 1, LAST, error))
            return differences(ran, b"", b"", 1)

        yield f"{worked.name}: the fault's line fails by {name}", faults
    slow = ("err", 1, LAST, ONE_BYTE)
    whole = lambda: worked.differences(machine.run_refusing(worked.words, slow)[0])
    yield f"{worked.name}: its line by one byte", whole


def failing_files(machine, worked):
    """A write of the file that fails is reported, and there is none after it; a report comes after the output, and traces
    before it."""
    slow = ("file", 1, LAST, ONE_BYTE)
    whole = lambda: worked.differences(machine.run_refusing(worked.words, slow)[0])
    yield f"{worked.name}: its file by one byte", whole
    for written in range(len(machine.run_refusing(worked.words)[0].file or b"")):
        for how in (errno.EINTR, NOTHING):

            def faults(written=written, how=how):
                ran, tally = machine.run_refusing(worked.words, ("file", written + 1, written + 1, how), slow)
                found = worked.faulted(ran, "93 Write", worked.out if worked.report else b"")
                return found + ([] if tally["file"][0] == written + 1 else ["it wrote once more"])

            yield f"{worked.name}: its file {'fails' if how else 'takes nothing'} after {written} bytes", faults


def failing_threads(machine, worked):
    """A thread that cannot be started is reported, and those that were started have ended."""
    for number in range(1, worked.threads + 1):

        def faults(number=number):
            ran, _ = machine.run_refusing(worked.words, ("thread", number, number, errno.EAGAIN))
            return worked.faulted(ran, "65 Spawn")

        yield f"{worked.name}: thread {number} cannot be started", faults


def kinds(worked):
    """Yields what finds facts of a run."""
    yield from (seen_calls, failing_opens, failing_reads)
    if worked.files():
        yield slow_reads
    yield failing_faults if worked.fault else failing_writes
    if FILE in worked.words:
        yield failing_files
    if worked.threads:
        yield failing_threads
