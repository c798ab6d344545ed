"""The system around the program: streams closed or full, devices, folders, limits, signals, several programs."""
import concurrent.futures
import contextlib
import dataclasses
import filecmp
import functools
import itertools
import json
import os
import random
import re
import shutil
import signal
import tempfile
import threading
import time

import expected
import launch
from worked import FILE, NO_MEMORY, differences, fault_differences

KIB, MIB = 1 << 10, 1 << 20
# Sizes of all memory and of the stack, in KiB: too little for the loader, just about enough, plenty.
SPACES = [1024, 2048, *range(2688, 3328, 64), 4096, 8192, 65536]
STACKS = [16, 32, *range(64, 136, 8), 192, 256, 1024, 8192]
LEAST_STACK = 192
CLOSE, DUP2, OPEN = os.POSIX_SPAWN_CLOSE, os.POSIX_SPAWN_DUP2, os.POSIX_SPAWN_OPEN


def closed_streams(machine, worked):
    """Files that are opened then get the numbers of standard streams, and nothing is written into them."""
    for closed in itertools.chain.from_iterable(itertools.combinations(range(3), many) for many in (1, 2, 3)):

        def faults(closed=closed):
            ran = machine.run(worked.words, [(CLOSE, stream) for stream in closed])
            if 1 in closed:
                return worked.unwritten(ran, 2 not in closed)
            return worked.unsaid(ran) if 2 in closed else worked.differences(ran)

        yield f"{worked.name}: with streams {closed} closed", faults


def pipe_without_reader():
    reading, writing = os.pipe()
    os.close(reading)
    return writing


def full_pipe():
    """The writing end of a pipe that is full, and does not wait; its other end stays open."""
    reading, writing = os.pipe2(os.O_NONBLOCK)
    try:
        while os.write(writing, bytes(4096)):
            pass
    except BlockingIOError:
        return writing, reading


STREAMS = {
    "a pipe without a reader": lambda: (pipe_without_reader(),),
    "a full pipe": full_pipe,
    "a device without room": lambda: (os.open("/dev/full", os.O_WRONLY),),
    "a file that is only read": lambda: (os.open("/dev/null", os.O_RDONLY),),
    "a folder": lambda: (os.open("/", os.O_RDONLY),),
}


def useless_streams(machine, worked):
    """Standard output or error is something that cannot be written."""
    for name, make in STREAMS.items():
        for stream, judge in ((1, worked.unwritten), (2, worked.unsaid)):

            def faults(make=make, stream=stream, judge=judge):
                files = make()
                try:
                    return judge(machine.run(worked.words, [(DUP2, files[0], stream)]))
                finally:
                    for file in files:
                        os.close(file)

            yield f"{worked.name}: stream {stream} is {name}", faults


def uphill(folder, length):
    """The files of a game that takes some seconds: a chain whose vertices send two chips back for one that goes on."""
    edges = [[v, v + 1, 1] for v in range(length)] + [[v, v - 1, 2] for v in range(1, length)]
    texts = {
        "graph.json": json.dumps({"edges": edges, "sink": length, "version": 1, "vertices": length + 1}),
        "chips.csv": "vertex,chips\n0,64\n",
    }
    for name, text in texts.items():
        with open(f"{folder}/{name}", "w", encoding="utf-8") as file:
            file.write(text)
    return [f"{folder}/{name}" for name in texts]


def unheard_progress(machine, command, *options):
    """The progress of a long play cannot be written, and its result is the same."""
    for name, make in {**STREAMS, "closed": None}.items():

        def faults(make=make):
            with tempfile.TemporaryDirectory(prefix="chipfire-hostile-") as room:
                words = [command, *uphill(room, 25), *options]
                files = make() if make else ()
                try:
                    quiet = machine.run(words)
                    ran = machine.run([*words, "--progress"], [(DUP2, files[0], 2) if files else (CLOSE, 2)])
                finally:
                    for file in files:
                        os.close(file)
            return differences(ran, quiet.out, b"", quiet.status)

        yield f"a long {command} with progress: stream 2 is {name}", faults


def size_limits(machine, worked):
    """The output stops at the system's limit on the size of files."""
    limit = KIB
    for room in sorted({0, 1, len(worked.out) // 2, max(len(worked.out) - 1, 0), len(worked.out)}):

        def faults(room=room):
            with tempfile.NamedTemporaryFile(prefix="chipfire-hostile-") as file:
                file.write(bytes(limit - room))
                file.flush()
                output = (OPEN, 1, file.name, os.O_WRONLY | os.O_APPEND, 0)
                ran = machine.run_under(f"FSIZE={limit}", worked.words, [output])
                with open(file.name, "rb") as written:
                    ran.out = written.read()[limit - room :]
            if room < len(worked.out):
                return worked.faulted(ran, f"93 Write {room}", worked.out[:room])
            return worked.differences(ran)

        yield f"{worked.name}: a file with room for {room} bytes", faults


def odd_files(machine, worked):
    """A folder cannot be read, and a device without an end is too long. Where too many files are open one cannot be opened,
    and no file is needed but those of the arguments."""
    for place, path in worked.files():
        for odd, fault in ((machine.room, "29 Read"), ("/dev/zero", "30 TooLong"), ("/proc/self/mem", "29 Read")):

            def faults(place=place, odd=odd, fault=fault):
                words = [*worked.words[:place], odd, *worked.words[place + 1 :]]
                return worked.faulted(machine.run(words), fault)

            yield f"{worked.name}: {odd} in place of {os.path.basename(path)}", faults
    opens = worked.opens()
    for number in range(1, len(opens) + 1):

        def faults(number=number):
            ran = machine.run_under(f"NOFILE={3 + number}", worked.words)
            return worked.faulted(ran, f"92 Open {opens[number]}") if number < len(opens) else worked.differences(ran)

        yield f"{worked.name}: {number} files may be open beside the standard streams", faults


def files_over_inputs(machine, worked):
    """A file to write that is an input under another name is refused, and the input stays as it was."""
    for place, path in worked.files():
        for how, link in (("a hard link", os.link), ("a symbolic link", os.symlink)):

            def faults(place=place, path=path, link=link):
                with tempfile.TemporaryDirectory(prefix="chipfire-hostile-") as room:
                    text, name = shutil.copy(path, f"{room}/input"), f"{room}/output"
                    link(text, name)
                    words = [name if word == FILE else word for word in worked.words]
                    words[place] = text
                    ran = machine.run(words)
                    is_kept = filecmp.cmp(path, text, shallow=False)
                found = fault_differences(ran, f"92 Open {worked.words.index(FILE)}")
                return found if is_kept else [*found, "the input was changed"]

            yield f"{worked.name}: its file is {how} of {os.path.basename(path)}", faults


def is_unstarted(ran):
    """Whether the system or its loader ended the program, with nothing of its own written."""
    by_signal = ran.status in (-signal.SIGSEGV, -signal.SIGKILL, -signal.SIGBUS)
    return ran.out == b"" and b"chipfire: fault" not in ran.err and (by_signal or ran.status == 127)


def small_spaces(machine, worked):
    """In little memory or on a small stack it succeeds, says that memory ran out, or is ended with nothing written."""
    for limit, sizes, enough in (("AS", SPACES, 65536), ("STACK", STACKS, LEAST_STACK)):
        for size in sizes:

            def faults(limit=limit, size=size, enough=enough):
                ran = machine.run_under(f"{limit}={size * KIB}", worked.words)
                if size >= enough:
                    return worked.differences(ran)
                return [] if is_unstarted(ran) else worked.differences_or_fault(ran)

            yield f"{worked.name}: {limit} of {size} KiB", faults


def small_stacks(machine):
    """What reads no file does with the least stack, too."""
    for words in (["--help"], ["run", "--help"], ["explain"], ["explain", "21"], ["explain", "rule", "11"]):

        def faults(words=words):
            ran = machine.run_under(f"STACK={LEAST_STACK * KIB}", words)
            return differences(ran, machine.run(words).out, b"", 0)

        yield f"{' '.join(words)}: STACK of {LEAST_STACK} KiB", faults


def several_at_once(machine, worked):
    """Programs on the same files do not disturb each other."""

    def faults():
        with concurrent.futures.ThreadPoolExecutor(8) as pool:
            return [it for ran in pool.map(machine.run, [worked.words] * 8) for it in worked.differences(ran)]

    yield f"{worked.name}: eight at once", faults


def trickle(path, text, process):
    """Writes a text into a pipe byte by byte, and stops and continues the process meanwhile, until that is gone."""
    with contextlib.suppress(BrokenPipeError, ProcessLookupError), open(path, "wb", buffering=0) as pipe:
        for at in range(len(text)):
            pipe.write(text[at : at + 1])
            if at % 20 == 0:
                signal.pidfd_send_signal(process, signal.SIGSTOP)
                time.sleep(0.001)
                signal.pidfd_send_signal(process, signal.SIGCONT)


def slow_pipes(machine, worked):
    """Files that come byte by byte from pipes, while the program is stopped and goes on, are the files all the same."""

    def faults():
        with tempfile.TemporaryDirectory(prefix="chipfire-hostile-") as room:
            words, pipes = list(worked.words), []
            for (place, _), text in zip(worked.files(), worked.bytes_of_files()):
                words[place] = f"{room}/{place}"
                os.mkfifo(words[place])
                pipes.append((words[place], text))
            begun = machine.start(words)
            process = os.pidfd_open(begun.process)
            # (each is opened for writing only once the program opens it, and all are opened before one is read)
            threads = [threading.Thread(target=trickle, args=(*pipe, process), daemon=True) for pipe in pipes]
            for thread in threads:
                thread.start()
            found = worked.differences(begun.end())
            # (a thread ends with the program, whose number it has until then, unless its pipe was never opened)
            for thread in threads:
                thread.join(launch.SECONDS)
            os.close(process)
            return found

    if worked.files():
        yield f"{worked.name}: slow pipes, stopped at times", faults


def read_some(pipe, count):
    """So many bytes of a pipe, or all until its end."""
    found = b""
    while len(found) < count and (some := os.read(pipe, min(4096, count - len(found)))):
        found += some
    return found


def leaving_readers(machine):
    """The reader of a long output goes away in its midst: what went out until then is right, and its length is reported."""
    edges = [[vertex, vertex - 1, 1] for vertex in range(1, 4096)]
    text = json.dumps({"edges": edges, "sink": 0, "version": 1, "vertices": 4096}).encode()
    whole = expected.reference().outcome("check", [text]).out
    # (a pipe holds 65,536 bytes, and more than these are still to come)
    for count in (0, 1, 4096, 65_536, 70_000, len(whole) + 1):

        def faults(count=count):
            reading, writing = os.pipe()
            with tempfile.NamedTemporaryFile(prefix="chipfire-hostile-") as file:
                file.write(text)
                file.flush()
                begun = machine.start(["check", file.name], actions=[(DUP2, writing, 1)])
                os.close(writing)
                read = read_some(reading, count)
                os.close(reading)
                ran = begun.end()
            if count > len(whole):
                return differences(ran, b"", b"", 0) or ([] if read == whole else ["another output"])
            found = re.fullmatch(rb"chipfire: fault 93 Write ([0-9]+)\n", ran.err)
            is_well = found and count <= int(found[1]) < len(whole) and ran.status == 1 and read == whole[:count]
            return [] if is_well else [f"after {count} bytes: {ran.err!r} and status {ran.status}"]

        yield f"a reader that leaves after {count} of {len(whole)} bytes", faults


def with_long_graph(worked, file):
    """The words of a run whose graph is this file, made as long as it may be."""
    place, path = worked.files()[0]
    with open(path, "rb") as graph:
        file.write(graph.read().ljust(16 * MIB))
    file.flush()
    return [*worked.words[:place], file.name, *worked.words[place + 1 :]]


def killed(machine, worked, seeds):
    """Ended from outside, as it reads a long file or its threads share a processor, it has written nothing, or all."""
    for seed in seeds:
        yield f"{worked.name}: ended at moment {seed}", functools.partial(ended, machine, worked, seed)


def ended(machine, worked, seed):
    """What is wrong with a run that is ended at a moment of this seed."""
    with tempfile.NamedTemporaryFile(prefix="chipfire-hostile-") as file:
        if worked.threads:
            begun = machine.start(worked.words, limits="CORES=1")
        else:
            begun = machine.start(with_long_graph(worked, file))
        time.sleep(random.Random(seed).uniform(0, 0.08))
        os.kill(begun.process, signal.SIGTERM)
        ran = begun.end()
    # (the signal may also come between the last byte and the end of the program)
    is_ended = ran.status == -signal.SIGTERM
    if is_ended and not ran.out:
        return differences(ran, b"", b"", -signal.SIGTERM) + worked.file_faults(ran)
    return worked.differences(dataclasses.replace(ran, status=worked.status) if is_ended else ran)


def many_words(machine):
    """Far too many words, or a long one, are reported as any other."""
    many = ["plain"] * 100_000
    yield "100,000 words", lambda: fault_differences(machine.run(many), "91 Usage")
    long = ["plain", "x" * 100_000, "y"]
    yield "a name of 100,000 letters", lambda: fault_differences(machine.run(long), "92 Open 1")


def wide_texts(machine):
    """16 MiB of small values need much memory, and where there is less it says so: no other fault comes instead."""
    nested = b'{"":' * 120 + b"0" + b"}" * 120 + b","
    for name, piece in (("objects", b'{"":0},'), ("lists", b"[],"), ("numbers", b"0,"), ("nested objects", nested)):

        def faults(piece=piece):
            with tempfile.NamedTemporaryFile(prefix="chipfire-hostile-") as file:
                file.write(b"[" + piece * ((16 * MIB - 3) // len(piece)) + b"0]")
                file.flush()
                ran = machine.run_under(f"AS={256 * MIB}", ["check", file.name])
            return fault_differences(ran, NO_MEMORY) and fault_differences(ran, "21 Shape")

        yield f"16 MiB of {name} in 256 MiB", faults


def wide_reports(machine, runs):
    """16 MiB that are no report are refused in little more memory than the text takes."""
    graph = next(word for word in runs[0].words if word.endswith(".json"))
    end = b'],"closed":true,"fired":[0],"over":[],"sealed":[],"version":1}\n'
    for name, piece in (("objects", b'{"":0},'), ("lists", b"[],"), ("numbers", b"0,"), ("digits", b"0")):

        def faults(piece=piece):
            with tempfile.NamedTemporaryFile(prefix="chipfire-hostile-") as file:
                file.write(b'{"chips":[' + piece * ((16 * MIB - 80) // len(piece)) + b"0" + end)
                file.flush()
                ran = machine.run_under(f"AS={64 * MIB}", ["resume", graph, file.name])
            return fault_differences(ran, "50 NotReport")

        yield f"a report of 16 MiB of {name} in 64 MiB", faults


def wide_rows(machine, runs):
    """16 MiB of commas, less one, are refused in 160 MB, be they a header, a row, or a row after a quote."""
    replay = next(it for it in runs if it.words[:1] == ["replay"])
    graph, chips, _ = (path for _, path in replay.files())
    commands = {
        b"vertex,chips\n": ["plain", graph],
        b"event,at,count\n": ["simulate", graph, chips],
        b"vertex,kind,edge,count\n": ["replay", graph, chips],
    }
    for (header, words), begin in itertools.product(commands.items(), (b"", b"HEADER", b'HEADER"')):

        def faults(header=header, words=words, begin=begin):
            with tempfile.NamedTemporaryFile(prefix="chipfire-hostile-") as file:
                file.write(begin.replace(b"HEADER", header).ljust(16 * MIB - 1, b","))
                file.flush()
                ran = machine.run_under(f"AS={160 * 1000**2}", [*words, file.name])
            return fault_differences(ran, "24 Row 0" if begin else "23 Header")

        yield f"{words[0]}: 16 MiB of commas after {begin!r} in 160 MB", faults


def kinds(worked):
    """Yields what finds facts of a run."""
    yield from (closed_streams, useless_streams)
    if not worked.fault:
        yield size_limits
    yield odd_files
    if FILE in worked.words:
        yield files_over_inputs
    yield from (small_spaces, several_at_once)
    if worked.files():
        yield slow_pipes


def others(runs):
    """Yields what finds facts of one run, or of none, each with more that it takes."""
    yield unheard_progress, "plain"
    yield unheard_progress, "run", "--workers", "1", "--turns", "3000000"
    yield from ((leaving_readers,), (small_stacks,), (many_words,), (wide_texts,))
    yield from ((wide_reports, runs), (wide_rows, runs))
