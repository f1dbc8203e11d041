"""What a call tells that can't go on: exit statuses of the script `settle`, and lines on standard error."""

import os
import signal

NOT_BUILT, NO_TOOLCHAIN, NOT_WRITABLE, INTERRUPTED = 70, 71, 72, 130
WRONG_WORDS = 2  # the program's own, of which help is one
INTERRUPTS = signal.SIGINT, signal.SIGTERM, signal.SIGHUP


class Stop(Exception):
    """What keeps the script from running the program: an exit status, and why."""

    def __init__(self, status, why):
        super().__init__(why)
        self.status = status


def say(line):
    """Tells a line on standard error, where there is one that takes it."""
    try:
        os.write(2, f"settle: {line}\n".encode(errors="surrogateescape"))
    except OSError:
        pass
