"""How the words of a command are read. A word that is off its grammar is named, with what it should be."""

import argparse

from . import clock
from .office import KINDS, account_of
from .telling import WrongWords


def date(text):
    try:
        return clock.day_of(text)
    except ValueError:
        raise argparse.ArgumentTypeError(f'"{text}" is no date from 2001-01-01 to 2099-12-31') from None


def kind(text):
    if text not in KINDS:
        raise argparse.ArgumentTypeError(f'"{text}" is no kind of run: {", ".join(KINDS)}')
    return KINDS.index(text)


def account(text):
    try:
        return account_of(text)
    except ValueError:
        raise argparse.ArgumentTypeError(f'"{text}" is no account, as CITYSUP-P or CITYSUP-C') from None


def period(text):
    if not text.isdecimal() or not 1 <= int(text) <= 50:
        raise argparse.ArgumentTypeError(f'"{text}" is no kind of run, and no period from 1 to 50')
    return int(text)


def kind_or(other):
    """Reads a kind of run, or what another reader reads."""
    return lambda text: ("kind", kind(text)) if text in KINDS else ("other", other(text))


def taken(rest):
    """A kind of run and another word, each of which may be there once."""
    found = dict(rest)
    if len(found) < len(rest):
        raise WrongWords("a word is one too many")
    return found.get("kind"), found.get("other")


def takes_office(command):
    command.add_argument("--db", metavar="PATH", required=True, help="the office's file")


def takes_date(command):
    command.add_argument("date", type=date, metavar="DATE")


def takes_kind(command, name="kind"):
    command.add_argument(name, type=kind, metavar="KIND")


def takes_account(command):
    command.add_argument("account", type=account, metavar="ACCOUNT")


def takes_key(command):
    """What the program is shown, and when."""
    command.add_argument("--key-file", metavar="PATH", help="a file whose first line is the key; the operator's, if not given")
    command.add_argument("--at", type=int, metavar="SECONDS", help="the moment; the clock's, if not given")


def takes_whole(command):
    command.add_argument("--whole", action="store_true", help="ask over a copy of the whole office, which takes longer")
