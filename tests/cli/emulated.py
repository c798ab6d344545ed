"""The program for aarch64, by an emulator: cases of the command line, and random games by four workers whose traces replay.

A part of the cases is run, and with --long all. The emulator orders memory as this processor does: what a weakly ordered
one may do is not tried.
"""
import functools
import os

import command_lines
import crews
import emulator
import listed

#: A run that is not long takes every fifth case.
ONE_OF = 5
GAMES = 20


class OnFour(crews.Crew):
    """A game by four workers, with its trace."""

    def __init__(self, program, draw):
        super().__init__(program, draw)
        self.options[1] = "4"
        self.has_trace = True


def emulated(program):
    """Returns a command that starts the one for aarch64 that was built beside a program."""
    folder = emulator.built_for_aarch64(os.path.dirname(program))
    return emulator.command(f"{folder}/{os.path.basename(program)}")


def of_case(program, case, files):
    """What is wrong with a run of a case."""
    return command_lines.faults_of(emulated(program), case, files)


def of_game(draw, program):
    """What is wrong with a random game on threads."""
    return crews.faults_of(OnFour(emulated(program), draw))


def tests(program, is_long):
    """Yields the tests."""
    runs = [
        (f"{name}: {run_name}", case, files)
        for name in command_lines.names()
        for case in command_lines.read_cases(f"{command_lines.CASES}/{name}")
        for run_name, files in case.runs()
    ]
    for name, case, files in runs[:: 1 if is_long else ONE_OF]:
        yield name, functools.partial(of_case, program, case, files)
    for number, faults in listed.drawn(GAMES, "emulated crew", of_game, program):
        yield f"four workers {number}", faults
