#!/usr/bin/env python3
"""Times `chipfire judge` beside a C++ program of the same algorithm (judge.cpp), on logs of a random computation.

    bench/judge [--turns N] [--rows N] [--processes N] [--early N] [--program FILE]

Work goes from process to process over channels of their own, then each process reports to process 0, which claims that it is
over. With --early process 0 makes N claims before, and all are early. Both programs must write the same verdicts. What counts
is the least time of a whole process; the memory is the most that it had. What is printed is Markdown, for docs/BENCHMARKS.md.
"""
import random
import resource
import subprocess
import time

import frame


def write_log(path, rows, processes, early):
    """Writes a log with about `rows` rows and with `early` early claims; each process sends on nine channels."""
    chance = random.Random(1)
    others = [[chance.randrange(processes) for _ in range(9)] for _ in range(processes)]
    waiting = [[] for _ in range(processes)]
    active = list(range(processes))
    every = rows // (early + 1)
    with open(path, "w", encoding="ascii") as file:
        file.write("process,kind,channel\n")
        file.writelines(f"{process},active,0\n" for process in range(processes))
        written, claims = processes, 0
        while active:
            place = chance.randrange(len(active))
            process = active[place]
            if written < rows and chance.random() < 0.9:
                channel = chance.randrange(9)
                waiting[others[process][channel]].append(9 * process + channel)
                file.write(f"{process},send,{9 * process + channel}\n")
                written += 1
            while waiting[process]:
                file.write(f"{process},receive,{waiting[process].pop()}\n")
                written += 1
            if claims < early and written > (claims + 1) * every:
                file.write("0,over,0\n")
                claims += 1
            if written >= rows:
                file.write(f"{process},passive,0\n")
                active[place] = active[-1]
                active.pop()
                written += 1
                if not active:
                    active = [it for it in range(processes) if waiting[it]]
        file.writelines(
            f"{process},tell,{process}\n0,hear,{process}\n" for process in range(1, processes)
        )
        file.write("0,over,0\n")


def timed(words):
    """The lines and the status of a program, its seconds, and the most memory of all that ran so far, in MB."""
    begun = time.perf_counter()
    ran = subprocess.run(words, stdout=subprocess.PIPE, text=True)
    seconds = time.perf_counter() - begun
    return (
        ran.stdout.splitlines(),
        ran.returncode,
        seconds,
        resource.getrusage(resource.RUSAGE_CHILDREN).ru_maxrss // 1024,
    )


def main():
    words = frame.parser(__doc__, turns=5, program=frame.STARTER)
    words.add_argument("--rows", type=int, default=10_000_000)
    words.add_argument("--processes", type=int, default=1000)
    words.add_argument("--early", type=int, default=0)
    words = frame.read_words(words)
    log = f"{frame.ROOM}/log.csv"
    other = frame.compiled(["g++", "-O2", "-std=c++17"], "judge.cpp", "judge")
    write_log(log, words.rows, words.processes, words.early)
    ours, theirs = [words.program, "judge", log, "--large"], [other, log]
    least, most = {}, {}
    for _ in range(words.turns):
        verdicts = {}
        for name, command in ("chipfire", ours), ("C++", theirs):
            lines, status, seconds, memory = timed(command)
            verdicts[name] = [line for line in lines if line.startswith("over ")], status
            least[name] = min(seconds, least.get(name, seconds))
            most.setdefault(name, memory)
        if verdicts["chipfire"] != verdicts["C++"]:
            frame.stop("the two programs give other verdicts")
    print(
        "| Rows | Early claims | chipfire | C++ | Ratio | Memory |\n| ---: | ---: | ---: | ---: | ---: | ---: |"
    )
    print(
        f"| {words.rows:,} | {words.early:,} | {least['chipfire']:.2f} s | {least['C++']:.2f} s "
        f"| {least['chipfire'] / least['C++']:.2f} | {most['chipfire']:,} MB |"
    )


if __name__ == "__main__":
    main()
