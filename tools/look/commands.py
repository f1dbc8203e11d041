"""The commands of `look`: which there are, and how one is asked."""

import argparse
import functools
import importlib
import os
import sys

from .office import opened
from .telling import FAULT, INTERRUPTED, WRONG_WORDS, Fault, WrongWords

ABOUT = "Looks into an office's file, and never changes it. It copies the file and its log, and reads the copy."
PAGE = "docs/look.md shows each command with what it prints."
STATUSES = "Exit status: 0 done, 1 a fault of the file or of what it shows, 2 wrong words."
WIDTH = 78  # of help
# Each is in a module of its name.
COMMANDS = {
    "status": "dates with their prices, readings and runs, and what may be done next",
    "missing": "the prices and readings that a date lacks",
    "when": "the date, period, clock and seconds of each other",
    "why": "how an account comes to what it pays in a run",
    "statement": "an account's figures of a date, or of a range of dates",
    "compare": "what changed from one run of a date to another, and why",
    "postings": "what a run posted to whom",
    "check": "all rows of a file that would be refused, by asking the program",
    "preview": "what a run would answer and post, by asking the program",
    "snapshot": "a copy of the office, also while `settle serve` runs",
    "page": "a run, or the runs of several dates, as a page to read and to print, in HTML",
}


def module_of(command):
    return importlib.import_module(f".{command}", __package__)


def asked_by(words):
    """What the words ask. Only the module of the command that they begin with is read."""
    if words and words[0] in COMMANDS:
        command = parser_of(f"look {words[0]}", COMMANDS[words[0]])
        module_of(words[0]).take_words(command)
        return command.parse_args(words[1:], argparse.Namespace(command=words[0]))
    parser = parser_of("look", f"{ABOUT} {PAGE}")
    commands = parser.add_subparsers(dest="command", metavar="COMMAND", required=True)
    for name, told in COMMANDS.items():
        commands.add_parser(name, help=told)
    return parser.parse_args(words)


def parser_of(name, told):
    """A reader of words. The width of its help is fixed, since asking for the terminal's takes longer than all else that it does."""
    form = functools.partial(argparse.HelpFormatter, width=WIDTH)
    return argparse.ArgumentParser(name, description=told, epilog=STATUSES, allow_abbrev=False, formatter_class=form)


def told_of(asked):
    """What the command tells. Its words are judged before any file is looked at."""
    module = module_of(asked.command)
    if hasattr(module, "judge"):
        module.judge(asked)
    if getattr(module, "OPENS_ITSELF", False) or asked.db is None:
        return module.tell(None, asked)
    with opened(asked.db) as office:
        return module.tell(office, asked)


def main(words):
    """Does what the words ask, and gives the exit status."""
    try:
        told = told_of(asked_by(words))
        put(sys.stdout, told.lines)
        put(sys.stderr, told.aside)
        return told.status
    except WrongWords as wrong:
        put(sys.stderr, [f"look: {wrong}"])
        return WRONG_WORDS
    except Fault as fault:
        put(sys.stderr, [f"look: {fault}"])
        return FAULT
    except OSError as error:
        put(sys.stderr, [f"look: {error.filename or 'standard output'}: {error.strerror}"])
        return FAULT
    except KeyboardInterrupt:
        return INTERRUPTED


def put(stream, lines):
    """Writes lines. What isn't taken isn't tried again at the end."""
    try:
        for line in lines:
            stream.write(f"{line}\n")
        stream.flush()
    except OSError:
        os.dup2(os.open(os.devnull, os.O_WRONLY), stream.fileno())
        raise
