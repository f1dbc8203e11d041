"""What the tables of an office have for a day, summed up by a process of its own while this one reads the accepted files. Rows that have
the same sum are the same. So a command waits for one thing where it would wait for two, and rows are looked at one by one only where
something doesn't follow."""

import marshal
import os


def sum_of(rows):
    """A sum of a list of plain values. Other values have another."""
    import hashlib  # which only large offices need

    return hashlib.blake2b(marshal.dumps(rows, 2), digest_size=32).digest()  # which has no references, and so one form


KILL = 9  # the signal


class Beside:
    """What a function gives, which a process of its own finds out."""

    def __init__(self, find):
        self.found, writing = os.pipe()
        try:
            self.process = os.fork()
        except OSError:
            self.process = None  # and so nothing is found out
        if self.process == 0:
            tell(find, writing)
        os.close(writing)

    def result(self):
        """What was found. None if the process came to no end, and at the second call."""
        if self.found is None:
            return None
        with open(self.found, "rb", closefd=False) as file:
            told = file.read()
        self.end()
        return marshal.loads(told) if told else None

    def end(self):
        """Nothing of the process stays."""
        if self.found is None:
            return
        os.close(self.found)
        self.found = None
        if self.process is not None:
            os.kill(self.process, KILL)
            os.waitpid(self.process, 0)


def tell(find, writing):
    """Writes what a function gives, and ends this process."""
    try:
        told = marshal.dumps(find(), 2)
        with open(writing, "wb") as file:
            file.write(told)
    finally:
        os._exit(0)
