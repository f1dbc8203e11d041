"""How far the program is: by the bytes that it has read and written, or by the lines of its script."""

import os
import time

from command_words import command_of, database_of
from script_lines import TYPED

SHOWN_AFTER = 2.0  # seconds
TOLD_FROM = 100_000  # bytes: fewer aren't told as written


def bytes_of(process, database):
    """How many bytes a process has read and written so far, and how many the file has: 0 where that isn't
    told."""
    try:
        with open(f"/proc/{process}/io", encoding="ascii") as lines:
            counts = dict(line.split(":") for line in lines)
        return int(counts["rchar"]), int(counts["wchar"]), os.stat(database).st_size
    except (OSError, LookupError, TypeError, ValueError):
        return 0, 0, 0


def how_far(process, database, seconds):
    """The line that tells how far the program is. What it does first is to read the whole file; nothing
    tells when it has checked that."""
    read, written, size = bytes_of(process, database)
    if read < size:
        return f"settle: reading the file, {seconds:.0f} s, {megabytes(read)} of {megabytes(size)}"
    working = f"settle: at work, {seconds:.0f} s"
    return f"{working}, {megabytes(written)} written" if written >= TOLD_FROM else working


def megabytes(count):
    return f"{count / 1_000_000:.1f} MB"


def is_quiet(words, script):
    """Whether nothing may be shown: where it can't be seen that the program listens, and where what it
    reads may be typed."""
    reads_typed = any(word in TYPED for word in words) or (script is not None and script.reads_typed)
    return (os.isatty(0) and reads_typed) or (command_of(words) == "serve" and not os.isatty(1))


class Progress:
    """How far the program is: at which line of its script, where that is counted, or by the bytes that it
    has read and written."""

    def __init__(self, process, words, script):
        self.process, self.database, self.script = process, database_of(words), script
        self.began, self.is_quiet = time.monotonic(), is_quiet(words, script)
        self.half, self.awaits = b"", False

    def hear(self, data):
        """Takes in what the program wrote. While its last line is that it listens, it awaits connections."""
        *lines, self.half = (self.half + data).split(b"\n")
        if self.script is not None:
            for line in lines:
                self.script.hear(line.decode("ascii", "replace"))
        self.awaits = (self.half or lines[-1]).startswith(b"listening ")

    def hear_terminal(self, data):
        """Takes in what the program wrote to the terminal, where its answers go there."""
        if self.script is None or self.script.answers is None:
            self.hear(data)

    def hear_file(self):
        """Takes in what the program wrote to a file, where its answers go there."""
        if self.script is None or self.script.answers is None:
            return
        try:
            while data := os.read(self.script.answers, 65_536):
                self.hear(data)
        except OSError:
            self.script.shown = None

    def line(self):
        """The line that tells it, None while none is shown."""
        self.hear_file()
        lasts = time.monotonic() - self.began
        if lasts < SHOWN_AFTER or self.awaits or self.is_quiet:
            return None
        if self.script is None or self.script.shown is None or self.is_opening():
            return how_far(self.process, self.database, lasts)
        return self.script.line()

    def is_opening(self):
        """Whether the program still reads the database, and so has begun no line of its script."""
        if self.script.number > 1:
            return False
        read, _, size = bytes_of(self.process, self.database)
        return read < size
