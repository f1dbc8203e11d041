"""A terminal, on which a line is shown between those of the program."""

import os


def is_at_terminal():
    """Whether the call is made at a terminal. Where standard output is a terminal too, it is the same one."""
    return os.isatty(2) and (not os.isatty(1) or os.path.sameopenfile(1, 2))


class Terminal:
    """Standard error, a terminal. What the program writes goes there, and between its lines one line is
    written over and over, which tells how far it is."""

    def __init__(self):
        self.last = b"\n"  # the program's last byte
        self.shows = False

    def put(self, data):
        """Writes what the program wrote."""
        self.clear()
        self.last = data[-1:]
        while data:
            data = data[os.write(2, data) :]

    def show(self, line):
        """Shows a line in the place of the one that is shown, or none."""
        if self.last == b"\n" and self.is_ours():
            self.clear()
            if line is not None:
                os.write(2, line[: self.room()].encode())
                self.shows = True

    def clear(self):
        """Takes the line away that is shown."""
        if self.shows:
            os.write(2, b"\r" + b" " * self.room() + b"\r")
        self.shows = False

    def begin_line(self):
        """Goes to an empty line. (A terminal echoes Ctrl-C.)"""
        if self.last != b"\n":
            os.write(2, b"\n")
        else:
            self.shows = self.is_ours()
            self.clear()

    def is_ours(self):
        """Whether this call is in the foreground."""
        try:
            return os.tcgetpgrp(2) == os.getpgrp()
        except OSError:
            return False

    def room(self):
        """How many letters a line can have."""
        return (os.get_terminal_size(2).columns or 80) - 1
