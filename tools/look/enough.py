"""What an office in memory needs of an office so that a file gets the same answer. That is what is registered; of references those that
the file may name; of reallocations those of its dates, since their percentages are summed, or of its units, which may get another lead
account; and whether the file's name is taken."""

import collections
import contextlib
import io
import os
import re
import sqlite3

from . import clock
from .accepted import CONTRACTS, DATES, METERS, PARTIES, PRICES, REALLOCATIONS, UNITS, rows_of
from .in_memory import EARLY, InMemory, Unlike
from .rows_as_files import HEADERS, in_force, references

# The kinds of files, and what is registered on which the answer to one depends.
NEEDED = {
    PARTIES: (PARTIES,),
    UNITS: (PARTIES, UNITS),
    METERS: (PARTIES, UNITS),
    PRICES: (),
    CONTRACTS: (PARTIES,),
    REALLOCATIONS: (PARTIES, UNITS),
}

DATE = re.compile(rb"[0-9]{4}-[0-9]{2}-[0-9]{2}")
FEW = 2_000  # rows of a table, which are taken whatever the file is about
# A file that was accepted, and how it was answered.
Accepted = collections.namedtuple("Accepted", "body applied late")


def held_under(office, kind, name):
    """The file that was accepted under a kind and a name. None if there is none."""
    for row in office.rows("SELECT body, applied, late FROM files WHERE kind = ? AND name = ?", kind, name):
        return Accepted._make(row)
    return None


def enough_for(office, folder, kind, name, data):
    """An office in memory, by a folder, that has what the answer to a file depends on. None if it can't be made."""
    try:
        small, held = InMemory(office, os.path.join(folder, "memory"), avoided=name), held_under(office, kind, name)
        if held and held.body == data:
            take_accepted(small, office, kind, name, held)
            return small
        for needed in NEEDED[kind]:
            small.take(in_force(office, needed))
        if kind == CONTRACTS:
            small.take(references(office, *those_in(office, "refs", "reference", data, fields_of)), is_late=True)
        if kind == REALLOCATIONS:
            small.take(in_force(office, kind, *those_in(office, kind, "day", data, days_of)))
        if kind == UNITS:
            small.take(in_force(office, REALLOCATIONS, *those_in(office, REALLOCATIONS, "unit", data, fields_of)))
        if held:
            small.take_file(kind, name, other_than(data, kind), (0, 0))
    except (Unlike, ValueError, sqlite3.Error):
        return None
    return small


def take_accepted(small, office, kind, name, held):
    """Takes a file that was accepted, as it was accepted. What its rows need is registered, and nothing that may refuse them is in
    force."""
    for needed in NEEDED[kind]:
        if needed != kind:
            small.take(in_force(office, needed))
    moment = EARLY
    if held.late:
        dates, periods = (rows_of(held.body).columns[at] for at in DATES[kind])
        starts = sorted(clock.start(clock.day_of(date), int(period)) for date, period in zip(dates, periods))
        moment = starts[held.late - 1] - office.lead_minutes * clock.MINUTE  # the last deadline that was over
    small.take_file(kind, name, held.body, (held.applied, held.late), moment)


def those_in(office, table, column, data, find):
    """The condition for the rows of a table that the file may be about. All rows of a small table are so."""
    if office.one(f"SELECT count(*) FROM {table}") <= FEW:
        return ("",)
    import json  # which few offices need

    return f"{column} IN (SELECT value FROM json_each(?))", json.dumps(find(data))


def fields_of(data):
    """All texts that may be a field of the file."""
    if b'"' not in data:
        return [*set(re.split("[,\r\n]", data.decode("latin-1")))]
    import csv  # which few files need

    try:
        return [*{field for record in csv.reader(io.StringIO(data.decode("latin-1"), newline="")) for field in record}]
    except csv.Error as error:
        raise ValueError(error) from None


def days_of(data):
    """The days of all dates that may be a field of the file."""
    texts = fields_of(data) if b'"' in data else [text.decode() for text in {*DATE.findall(data)}]
    days = []
    for text in texts:
        with contextlib.suppress(ValueError):
            days.append(clock.day_of(text))
    return days


def other_than(data, kind):
    """A file without rows that isn't this one."""
    empty = f"{HEADERS[kind]}\n".encode()
    return empty if empty != data else empty + b"\n"
