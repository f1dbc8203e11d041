"""An office in memory that has of an office what an answer depends on. `settle script` makes it out of files and a script. The program
gives the same answers over it as over the office's file: its machine is the same, and only its tables are others. But opening a file
means to look at each row of it, and making a run means to write it. So an office in memory answers sooner.

What it takes of the office comes before all deadlines, so that it is in force. Each file that it takes must be accepted with all its
rows. If one isn't, the office isn't one that `settle` alone has written, and the program is asked over a copy of it whole."""

import contextlib
import os

from . import clock
from .asking import SCRIPT, Answered, call, explained, listening, port_of, put_aside, put_script
from .office import KINDS
from .rows_as_files import body_of

# Moments before all deadlines, and after all days.
EARLY, LATE = 0, clock.midnight(clock.LAST + 1)
MANY = 1_000_000  # connections that a service may answer
KEY_FILE = "operator"


class Unlike(Exception):
    """The office in memory hasn't taken what the office has. So it isn't asked."""


class InMemory:
    """The script of an office in memory, with its files in a folder of its own."""

    def __init__(self, office, folder, avoided=""):
        """`avoided` is a file's name that none of these files has."""
        self.key, self.lead_minutes = office.operator_key(), office.lead_minutes
        self.folder, self.prefix = folder, "before" if not avoided.startswith("before") else "earlier"
        self.lines, self.wanted = [], []  # of the script, and what each must be answered
        os.mkdir(folder, 0o700)
        put_aside(os.path.join(folder, KEY_FILE), f"{self.key}\n".encode())

    def take(self, files, is_late=False):
        """Takes rows of the office's tables."""
        if sum(map(len, files.parts)) != files.count:
            raise Unlike
        for lines in files.parts:
            counts = (0, len(lines)) if is_late else (len(lines), 0)
            name = f"{self.prefix}-{len(self.lines)}.csv"
            self.take_file(files.kind, name, body_of(files.kind, lines).encode(), counts, LATE if is_late else EARLY)

    def take_file(self, kind, name, body, counts, moment=EARLY):
        """Takes a file at a moment. Of its rows so many take effect, and so many are late."""
        place = str(len(self.lines))
        os.mkdir(os.path.join(self.folder, place))
        put_aside(os.path.join(self.folder, place, name), body)
        self.lines.append(f"load {moment} {self.key} {kind} {place}/{name}")
        self.wanted.append("applied={} late={}".format(*counts))

    def order(self, day, kind, answer):
        """Makes a run, when all days are over, which must be answered so."""
        run = f"{clock.date_of(day)} {KINDS[kind]}"
        self.lines.append(f"run {LATE} {self.key} {run}")
        self.wanted.append(f"run {run} {answer}")

    def words(self, lines):
        """The words that run these lines after the office's own."""
        put_script(self.folder, [*self.lines, *lines])
        return "script", "--operator-key-file", KEY_FILE, f"--lead-minutes={self.lead_minutes}", SCRIPT

    @contextlib.contextmanager
    def served(self, moment):
        """The port of a service, to which all comes at one moment."""
        with listening(self.folder, *self.words([f"serve {moment} 0 {MANY}"])) as service:
            if [service.stdout.readline().rstrip("\n") for _ in self.wanted] != self.wanted:
                raise Unlike
            port = port_of(service.stdout.readline())
            if port is None:
                raise Unlike
            yield port

    def answered(self, lines):
        """What is answered to these lines after the office's own."""
        said, told = call(self.folder, *self.words(lines), "--explain")
        *answers, rest = said.split("\n", len(self.wanted))
        if answers != self.wanted:
            raise Unlike
        return Answered(rest, *explained(told, len(self.lines)))
