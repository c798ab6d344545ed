"""Starts a program under limits of the system: `limited.py AS=N,STACK=N PROGRAM WORDS`.

They are those of `ulimit`, in bytes, and CORES: on how many processors it runs. A write past a limit on the size of
files fails and does not end the program, as ./chipfire has it.
"""
import os
import resource
import signal
import sys

limits, *words = sys.argv[1:]
signal.signal(signal.SIGPIPE, signal.SIG_DFL)
signal.signal(signal.SIGXFSZ, signal.SIG_IGN)
for limit in limits.split(","):
    name, value = limit.split("=")
    if name == "CORES":
        os.sched_setaffinity(0, sorted(os.sched_getaffinity(0))[: int(value)])
    else:
        resource.setrlimit(getattr(resource, f"RLIMIT_{name}"), (int(value), int(value)))
os.execv(words[0], words)
