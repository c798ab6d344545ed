"""The program on real files: what it writes is compared with what it must write, to the byte.

A file of tests/cli/cases/ has one fact a line, its kind and what belongs to it; `#` begins a comment. A case begins with
`case`:

    case NAME           what it shows
    arguments WORDS     the arguments, with a shell's quotes; each is a TEXT; files are named from a folder that has the
                        files of this case and `examples`
    file NAME TEXT      a file with this text, and no newline but those written; a second line adds to it
    repeat NAME TIMES TEXT      adds TEXT to a file TIMES times
    fill NAME SIZE TEXT         adds to a file TEXT until it has SIZE bytes
    prefixes NAME TEXT  runs the case once for each proper beginning of TEXT, from no byte to all but the last
    folder NAME         a folder
    stdin TEXT          standard input, else empty
    out LINE            a line that must come on standard output, else nothing may
    out-of FILE         standard output must be this file's, named from the top of the repository
    out-names WORDS     standard output must not be empty, and must have each of these words
    out-to FILE         has standard output go to this file, a device
    err LINE            a line that must come on standard error
    writes NAME TEXT    the run must leave a file with this text
    fault REST          the one line `chipfire: fault REST` on standard error, status 1
    status N            the exit status, else 0

TEXT may have \\n, \\r, \\t, \\\\ and \\xHH, a byte; where it is not there, it is empty.
"""
import functools
import os
import re
import shlex
import subprocess
import tempfile

from paths import HERE, ROOT

CASES = f"{HERE}/cli/cases"
SECONDS = 60
ESCAPES = {b"n": b"\n", b"r": b"\r", b"t": b"\t", b"\\": b"\\"}
# How many fields a line of each of these kinds has before its text.
FILES = {"file": 1, "prefixes": 1, "repeat": 2, "fill": 2}


def bytes_of(text):
    """The bytes that a TEXT of a case stands for."""
    found = re.compile(rb"\\(?:x([0-9a-fA-F]{2})|(.))", re.DOTALL)
    return found.sub(lambda it: bytes([int(it[1], 16)]) if it[1] else ESCAPES[it[2]], text.encode())


class Case:
    def __init__(self, name, place):
        self.name, self.place = name, place
        self.arguments, self.files, self.prefixes = [], {}, None
        self.stdin, self.out, self.err, self.status = b"", b"", b"", 0
        self.names, self.out_to, self.writes = None, None, {}

    def add(self, key, rest):
        """Takes one line of the case."""
        if key == "arguments":
            self.arguments = [bytes_of(it) for it in shlex.split(rest)]
        elif key in FILES:
            self.add_file(key, (rest.split(" ", FILES[key]) + [""] * 2)[: FILES[key] + 1])
        elif key == "folder":
            self.files[rest] = None
        elif key == "stdin":
            self.stdin = bytes_of(rest)
        elif key == "out":
            self.out += rest.encode() + b"\n"
        elif key == "out-of":
            with open(f"{ROOT}/{rest}", "rb") as file:
                self.out = file.read()
        elif key == "out-names":
            self.names = rest.encode().split()
        elif key == "out-to":
            self.out_to = rest
        elif key == "err":
            self.err += rest.encode() + b"\n"
        elif key == "writes":
            name, _, text = rest.partition(" ")
            self.writes[name] = bytes_of(text)
        elif key == "fault":
            self.err, self.status = f"chipfire: fault {rest}\n".encode(), 1
        elif key == "status":
            self.status = int(rest)
        else:
            raise ValueError(f"{self.place}: no such kind: {key}")

    def add_file(self, key, fields):
        """Takes a line with what a file has, which is made when the case is run: some are large."""
        if key == "prefixes":
            self.prefixes = (fields[0], bytes_of(fields[-1]))
        else:
            self.files.setdefault(fields[0], []).append((key, fields))

    def runs(self):
        """The runs of this case: how each is named, and its files."""
        if self.prefixes is None:
            yield self.name, self.files
        else:
            name, text = self.prefixes
            for length in range(len(text)):
                yield f"{self.name}: {length} bytes", {**self.files, name: text[:length]}

    def faults_of(self, ran):
        """What of a finished run is not as it must be."""
        found = []
        if ran.returncode != self.status:
            found.append(f"expected status {self.status}, got {ran.returncode}")
        if ran.stderr != self.err:
            found.append(f"expected on standard error {shown(self.err)}, got {shown(ran.stderr)}")
        if self.names is not None:
            missing = [it.decode() for it in self.names if it not in ran.stdout]
            if missing or not ran.stdout:
                found.append(f"expected {' '.join(missing) or 'something'} in {shown(ran.stdout)}")
        elif self.out_to is None and ran.stdout != self.out:
            found.append(f"expected on standard output {shown(self.out)}, got {shown(ran.stdout)}")
        for name, text in self.writes.items():
            if ran.written[name] != text:
                found.append(f"expected in {name} {shown(text)}, got {shown(ran.written[name])}")
        return found


def text_of(pieces):
    """The text of a file by the lines of its case, or one that is made."""
    if isinstance(pieces, bytes):
        return pieces
    made = b""
    for key, fields in pieces:
        text = bytes_of(fields[-1])
        if key == "repeat":
            made += text * int(fields[1])
        elif key == "fill":
            left = int(fields[1]) - len(made)
            made += (text * (left // len(text) + 1))[:left]
        else:
            made += text
    return made


def shown(text):
    """Some bytes on one line, without their middle where they are many."""
    text = text if len(text) <= 400 else text[:200] + b" .. " + text[-200:]
    return repr(text)[1:] if text else "nothing"


def read_cases(path):
    cases = []
    with open(path, encoding="utf-8") as file:
        for number, line in enumerate(file, 1):
            line = line.rstrip("\n")
            if not line or line.startswith("#"):
                continue
            place = f"{os.path.relpath(path, ROOT)}:{number}"
            key, _, rest = line.partition(" ")
            if key == "case":
                cases.append(Case(rest, place))
            elif cases:
                cases[-1].add(key, rest)
            else:
                raise ValueError(f"{place}: a file begins with a case")
    return cases


def run(program, case, files):
    """Runs the program once, in a new folder that has these files."""
    with tempfile.TemporaryDirectory(prefix="chipfire-cli-") as room:
        os.symlink(f"{ROOT}/examples", f"{room}/examples")
        for name, pieces in files.items():
            if pieces is None:
                os.mkdir(f"{room}/{name}")
            else:
                with open(f"{room}/{name}", "wb") as file:
                    file.write(text_of(pieces))
        with open(case.out_to, "wb") if case.out_to else tempfile.TemporaryFile() as out:
            how = {"input": case.stdin, "stdout": out, "stderr": subprocess.PIPE, "cwd": room, "timeout": SECONDS}
            ran = subprocess.run([program, *case.arguments], **how)
            if not case.out_to:
                out.seek(0)
                ran.stdout = out.read()
            ran.written = {name: written_in(f"{room}/{name}") for name in case.writes}
            return ran


def written_in(path):
    """The text of a file that a run has left, or nothing where it has left none."""
    try:
        with open(path, "rb") as file:
            return file.read()
    except FileNotFoundError:
        return b""


def faults_of(program, case, files):
    """What is wrong with a run of a case that has these files, and where the case stands."""
    try:
        faults = case.faults_of(run(program, case, files))
    except subprocess.TimeoutExpired:
        faults = [f"it had not ended after {SECONDS} seconds"]
    arguments = b" ".join(case.arguments).decode(errors="backslashreplace")
    return [f"{case.place}: chipfire {arguments}", *faults] if faults else []


def names():
    """Returns the names of the files of cases."""
    return sorted(it for it in os.listdir(CASES) if it.endswith(".cases"))


def tests(program, name):
    """Yields the tests of a file of cases."""
    for case in read_cases(f"{CASES}/{name}"):
        for run_name, files in case.runs():
            yield run_name, functools.partial(faults_of, program, case, files)
