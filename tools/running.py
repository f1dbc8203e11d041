"""Runs the program: in the place of this process, or at a terminal beside it."""

import os
import signal

from command_words import database_of
from sources import PROGRAM
from terminal import is_at_terminal

TURNED_OFF = signal.SIGPIPE, signal.SIGXFSZ  # by Python, for itself
# Asks the GNU C library for pages of 2 MB: each takes one page fault, and as much memory of 4 KB pages takes 512.
TUNABLES = "GLIBC_TUNABLES", "glibc.malloc.hugetlb=1"


def environment():
    """The program's environment: this process's own, with large pages unless it says something of the C library's tunables."""
    name, wanted = TUNABLES
    return {name: wanted, **os.environ}


def run_program(words):
    """Runs the program with these words, and gives its exit status where this process outlives it."""
    if is_at_terminal():
        from script_lines import script_of
        from watching import end_as, watch

        script = script_of(words)
        if script is not None or database_of(words) is not None:
            return end_as(watch(words, script))
    become_program(words)


def become_program(words):
    """Gives this process to the program, with the signals that Python turned off as they were."""
    for number in TURNED_OFF:
        signal.signal(number, signal.SIG_DFL)
    os.execve(PROGRAM, [PROGRAM, *words], environment())
