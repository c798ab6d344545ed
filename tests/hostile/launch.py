"""Starts a program and takes what it writes, quickly: a test makes thousands of runs."""
import dataclasses
import os
import select
import signal

SECONDS = 60


@dataclasses.dataclass
class Ran:
    """A finished run. `status` is the exit status, or below 0 the signal that ended it, or `None` where it went on too
    long; `file` is what stands in the file that it was to write, if there is one."""

    out: bytes
    err: bytes
    status: object
    file: object = None


def taken(file):
    """All that was written to a file in memory, which is closed."""
    with os.fdopen(file, "rb") as opened:
        opened.seek(0)
        return opened.read()


def end_of(process):
    """The status of a process, which is ended where it takes too long."""
    watched = os.pidfd_open(process)
    try:
        is_over = select.select([watched], [], [], SECONDS)[0]
    finally:
        os.close(watched)
    if not is_over:
        os.kill(process, signal.SIGKILL)
    _, status = os.waitpid(process, 0)
    return os.waitstatus_to_exitcode(status) if is_over else None


class Begun:
    """A run that has begun; `process` is its number."""

    def __init__(self, process, out, err, path):
        self.process, self.out, self.err, self.path = process, out, err, path

    def end(self):
        """The run, once it has ended."""
        ran = Ran(b"", b"", end_of(self.process))
        ran.out, ran.err = taken(self.out), taken(self.err)
        if self.path and os.path.exists(self.path):
            with open(self.path, "rb") as file:
                ran.file = file.read()
            os.remove(self.path)
        return ran


def start(words, environment=None, actions=(), path=None):
    """Starts a program with nothing on standard input and files in memory for what it writes.

    `actions` are further file actions of the start, made after these; `path` is the file that it writes, if any.
    """
    out, err = os.memfd_create("out"), os.memfd_create("err")
    files = [
        (os.POSIX_SPAWN_OPEN, 0, "/dev/null", os.O_RDONLY, 0),
        (os.POSIX_SPAWN_DUP2, out, 1),
        (os.POSIX_SPAWN_DUP2, err, 2),
        *actions,
    ]
    environment = os.environ if environment is None else {**os.environ, **environment}
    # (Python itself ignores these two, and a program inherits that)
    signals = [signal.SIGPIPE, signal.SIGXFSZ]
    return Begun(os.posix_spawn(words[0], words, environment, file_actions=files, setsigdef=signals), out, err, path)
