"""What a command of `look` tells, what keeps it from going on, and the exit statuses."""

import collections

DONE, FAULT, WRONG_WORDS, INTERRUPTED = 0, 1, 2, 130

# Lines of standard output, the exit status, and lines of standard error.
Told = collections.namedtuple("Told", "lines status aside", defaults=(DONE, ()))


class Fault(Exception):
    """A fault of a file or of what is asked of it. Its text is one line, which names what and where."""


class WrongWords(Exception):
    """Words that ask for nothing that `look` does."""
