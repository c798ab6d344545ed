"""What a program needs of the machine that it starts on."""
import re


def c_library(program):
    """Returns the oldest version of the C library that has all symbols which the bytes of a program ask for."""
    return max(
        (int(major), int(minor)) for major, minor in re.findall(rb"\0GLIBC_(\d+)\.(\d+)", program)
    )
