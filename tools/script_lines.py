"""The lines of a script, and at which of them the program is."""

import fcntl
import io
import os
import re
import stat
import time

from command_words import placed_words

TYPED = "/dev/stdin", "/dev/fd/0", "/dev/tty"  # paths whose bytes may be typed
MOST_OF_SCRIPT = 16_777_216  # bytes
MOST_OF_PATH = 30  # letters that are shown
KEY = "(?:op-)?[0-9A-Za-z]{8,64}"
RUN = "20[0-9]{2}-[0-9]{2}-[0-9]{2} (?:SF|R1|R2|R3|RF|DF)"
KINDS = "parties|units|meters|prices|contracts|reallocations"
# The lines of a script. What is in brackets is shown: neither moments nor keys.
FORMS = (
    f"(load) -?[0-9]+ {KEY} ({KINDS}) ([^ ]+)",
    f"(run) -?[0-9]+ {KEY} ({RUN})",
    f"(report) {KEY} (day {RUN}|csv {RUN}|balances)",
    "(serve) -?[0-9]+ ([0-9]+) [0-9]+",
)


def script_of(words):
    """The script that the words name, None where its lines can't be counted: it is read before the program
    reads it, so it has to be a file, and it has to be seen what the program answers."""
    placed = placed_words(words)
    if len(placed) != 2 or placed[0] != "script" or placed[1] in TYPED:
        return None
    try:
        if not is_file(os.stat(placed[1])) or not (os.isatty(1) or is_file(os.fstat(1))):
            return None
        with open(placed[1], "rb") as file:
            text = file.read(MOST_OF_SCRIPT + 1)
        answers = None if os.isatty(1) else open_answers()
    except OSError:
        return None
    return Script(text, answers) if len(text) <= MOST_OF_SCRIPT else None


def is_file(state):
    """Whether it is the state of a file with bytes of its own, and not that of a pipe or a device."""
    return stat.S_ISREG(state.st_mode)


def open_answers():
    """Opens the file that standard output is, to be read from where the program will write."""
    is_appended = fcntl.fcntl(1, fcntl.F_GETFL) & os.O_APPEND
    begin = os.fstat(1).st_size if is_appended else os.lseek(1, 0, os.SEEK_CUR)
    answers = os.open("/proc/self/fd/1", os.O_RDONLY)
    os.lseek(answers, begin, os.SEEK_SET)
    return answers


def shown_of(line):
    """What is shown of a line of a script, None where it is off its form."""
    for form in FORMS:
        if found := re.fullmatch(form, line.decode("ascii", "replace")):
            command, *rest = found.groups()
            return " ".join([command, *map(shown_word, rest)])
    return None


def shown_word(word):
    """A word with none but printable letters. One that is too long is shown by its end."""
    letters = "".join(letter if " " <= letter <= "~" else "?" for letter in word)
    return letters if len(letters) <= MOST_OF_PATH else f"..{letters[2 - MOST_OF_PATH :]}"


def answer_of(shown):
    """How the answer to a line of a script begins where it isn't refused, and in which forms the lines behind
    the first do, None where it has one line."""
    what, *run = shown.removeprefix("report ").split(" ")
    answers = {
        "load": ("applied=", None),
        "run": (f"{shown} ", None),
        "serve": ("listening ", None),
        "day": (f"DAY REPORT {' '.join(run)}", "PER |NET | *[0-9]+ "),
        "csv": ("date,kind,account,", f"{','.join(run)},"),
        "balances": ("account,moved_pence", "[0-9A-Z]+-[CP],"),
    }
    return answers[what]


class Script:
    """The lines of a script, and at which of them the program is, by what it has written. What is shown of
    that one is None where it isn't known, and then it never is again."""

    def __init__(self, text, answers):
        """`answers` is the file that the program's answers go into, None where they go to the terminal."""
        if not text.endswith(b"\n"):
            text += b"\n"
        self.lines, self.count, self.answers = io.BytesIO(text), text.count(b"\n"), answers
        self.reads_typed = any(f" {path}\n".encode() in text for path in TYPED)
        self.number = 0
        self.go_on()

    def go_on(self):
        """Goes to the next line. No rows of its answer have come."""
        self.number, self.since = self.number + 1, time.monotonic()
        self.shown, self.rows = shown_of(self.lines.readline().removesuffix(b"\n")), None

    def hear(self, told):
        """Takes in a line that the program wrote. One that explains another is passed over."""
        if self.shown is None or (told.startswith("line ") and ": " in told):
            return
        if self.rows is None:
            self.hear_first(told)
        else:
            self.hear_row(told)

    def hear_first(self, told):
        """Takes in the first line of an answer."""
        first, rows = answer_of(self.shown)
        if rows is not None and told.startswith(first):
            self.rows = rows
        elif told.startswith((first, "refused ", "fault ")):
            self.go_on()
        else:
            self.shown = None

    def hear_row(self, told):
        """Takes in a line of a report behind its first. The end of a day report is told, and so is one that
        is given up in a line's midst. Else the next line's answer tells the end."""
        is_day = self.tells_its_end()
        if "refused " in told[1:] or (is_day and (told == "END" or told.startswith("refused "))):
            self.go_on()
        elif re.match(self.rows, told):
            pass
        elif is_day or told.startswith(("refused 90 ", "refused 91 ")):
            self.shown = None  # of another report these may be its own, or of the next line
        else:
            self.go_on()
            self.hear(told)

    def tells_its_end(self):
        """Whether it is seen when the line at work, a report, ends."""
        return self.shown.startswith("report day ")

    def line(self):
        """The line that tells which line is at work, or that it may be the next."""
        may_be_next = self.rows is not None and not self.tells_its_end() and self.number < self.count
        shown = f"{self.shown}, or the next" if may_be_next else self.shown
        return f"settle: line {self.number} of {self.count}, {shown}, {time.monotonic() - self.since:.0f} s"
