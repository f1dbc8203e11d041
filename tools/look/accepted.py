"""The rows of the files that an office has accepted, in the order in which they were accepted, and what was in force after each file.

The office keeps the bytes of each file. It keeps no moment. But all rows of a file came at one moment, so its late rows are those with
the earliest deadlines, and the file's count says how many they are. A day may have more than 100,000 rows, so they are taken column by
column."""

import collections
import functools
import io
import itertools
import re

from . import clock, figures
from .columns import Held, Keys, alone, cut, held_of, shared
from .office import SIDES, account_of
from .telling import Fault

METERS, PRICES, CONTRACTS, REALLOCATIONS, PARTIES, UNITS = "meters", "prices", "contracts", "reallocations", "parties", "units"
TIMED = CONTRACTS, REALLOCATIONS  # kinds of files whose rows may be late
# The places of the date and of the period in a row.
DATES = {METERS: (1, 2), PRICES: (0, 1), CONTRACTS: (3, 4), REALLOCATIONS: (2, 3)}
FOR_EVER = "2099-12-31"
MARK = b"\xef\xbb\xbf"  # with which a file in UTF-8 may begin

# A row that took effect: the place of its file in the order of acceptance, the file's name, the row's number, and its value.
Entry = collections.namedtuple("Entry", "place file row value")


def cited(entry):
    """The file and the row of an entry."""
    return f"{entry.file} row {entry.row}"


# How the rest of each key and the columns of the value are read off the columns of a day.


def readings_of(units, dates, periods, metered, tlm, balancing):
    return units, figures.scaled(metered, figures.KWH), figures.scaled(tlm, figures.TLM), figures.scaled(balancing, figures.KWH)


def prices_of(dates, periods, prices):
    return [None] * len(prices), figures.scaled(prices, figures.PRICE)


def contracts_of(references, sellers, buyers, dates, periods, volumes):
    """Under the reference, its seller and buyer and the volume."""
    return references, [*map(account_of, sellers)], [*map(account_of, buyers)], figures.scaled(volumes, figures.KWH)


def reallocations_of(units, accounts, dates, periods, percents, volumes):
    keys = [*zip(units, map(account_of, accounts))]
    return keys, figures.scaled(percents, figures.PERCENT), figures.scaled(volumes, figures.KWH)


READ = {METERS: readings_of, PRICES: prices_of, CONTRACTS: contracts_of, REALLOCATIONS: reallocations_of}


def last_day(text):
    return clock.day_of(text or FOR_EVER)


def parties_of(parties, first, last, keys):
    return parties, [*map(clock.day_of, first)], [*map(last_day, last)]


def units_of(units, parties, sides, marks, first, last):
    leads = [*zip(parties, map(SIDES.index, sides))]
    return units, leads, [mark == "yes" for mark in marks], [*map(clock.day_of, first)], [*map(last_day, last)]


REGISTERED = {PARTIES: parties_of, UNITS: units_of}


# The rows of a file: how many there are, the numbers of those that were looked for, and the fields of these column by column.
Rows = collections.namedtuple("Rows", "count numbers columns")


def rows_of(body, date=None, period=None):
    """The rows of a file. The header and empty lines are none. Where only those of a date or of a period are asked for, others may be
    left out."""
    if b'"' in body or b"\r" in body:
        return records_of(body)
    if b"\n\n" in body or body.startswith((b"\n", MARK)):
        body = b"\n".join(line for line in body.removeprefix(MARK).split(b"\n") if line)
    begin, end = body.find(b"\n") + 1, len(body) - body.endswith(b"\n")
    width = body.count(b",", 0, begin or end) + 1
    count = body.count(b"\n", begin, end) + 1 if 0 < begin < end else 0
    if date is None or (period is None and body.count(b"%s," % date) >= count):
        return Rows(count, range(1, count + 1), columns_of(body[begin:end].decode() if count else "", width))
    numbers, lines = lines_with(date, period, body, begin, end)
    return Rows(count, numbers, columns_of("\n".join(lines), width))


def records_of(body):
    """The rows of a file with quotes, or with other ends of lines."""
    import csv  # which few files need

    try:
        header, *rows = [record for record in csv.reader(io.StringIO(body.decode("utf-8-sig"), newline="")) if record]
    except csv.Error as error:
        raise ValueError(error) from None
    return Rows(len(rows), range(1, len(rows) + 1), [*zip(*rows, strict=True)] if rows else [()] * len(header))


def lines_with(date, period, body, begin, end):
    """The lines that have a date and a period, if one is asked for, and their numbers. There may be others of the date among them."""
    found = re.compile(b"%s,0*%d," % (date, period) if period else date).search(body, begin, end)
    if found is None:
        return [], []
    form = b"%s,%d," % (date, period) if period and b"%s,0" % date not in body else b"%s," % date
    first, last = line_at(body, found.start(), end)[0], line_at(body, body.rfind(form, begin, end), end)[1]
    number, count = body.count(b"\n", begin, first) + 1, body.count(b"\n", first, last) + 1
    if body.count(form, first, last) == count:
        return range(number, number + count), body[first:last].decode().split("\n")
    return lines_apart(form, body, number, first, last)


def lines_apart(form, body, number, begin, end):
    """The lines that have a form, between others, and their numbers. The first line has the number that is given."""
    numbers, lines, at = [], [], body.find(form, begin, end)
    while at >= 0:
        first, last = line_at(body, at, end)
        number += body.count(b"\n", begin, first)
        numbers.append(number)
        lines.append(body[first:last].decode())
        begin, at = first, body.find(form, last, end)
    return numbers, lines


def line_at(body, at, end):
    """Where the line at a place begins and ends."""
    last = body.find(b"\n", at, end)
    return body.rfind(b"\n", 0, at) + 1, end if last < 0 else last


def columns_of(text, width):
    """The fields of lines that have so many, column by column."""
    fields = text.replace("\n", ",").split(",") if text else []
    if len(fields) != width * (text.count("\n") + bool(text)):
        raise ValueError(width)
    return [fields[at::width] for at in range(width)]


class Taken:
    """The rows of a file that took effect: under each period, if they have one, the rows in force after it and their numbers."""

    def __init__(self, place, kind, name, blocks):
        self.place, self.kind, self.name, self.blocks = place, kind, name, blocks

    @functools.cached_property
    def entries(self):
        """The rows by their whole keys. Where a key comes twice, the last row counts."""
        found = {}
        for period, (held, numbers) in self.blocks.items():
            for key, number, value in zip(held.keys.names, numbers, zip(*held.columns)):
                found[period, key] = Entry(self.place, self.name, number, value)
        return found

    @functools.cached_property
    def registered(self):
        """The rows of each party or unit, in their order."""
        found = {}
        for held, numbers in self.blocks.values():
            for name, number, value in zip(held.keys.names, numbers, zip(*held.columns)):
                found.setdefault(name, []).append(Entry(self.place, self.name, number, value))
        return found

    def keys(self):
        """The whole keys of all rows."""
        return [(period, key) for period, (held, _) in self.blocks.items() for key in held.keys.names]


def registrations_of(rows):
    """What rows of a unit make, one after the other: each lead account, and its first and last day. A row with another lead account
    ends the registration before it, and one with the same takes its place."""
    found = []
    for lead, _, first, last in rows:
        if found and found[-1][0] == lead:
            found.pop()
        elif found:
            found[-1] = (*found[-1][:2], first - 1)
        found.append((lead, first, last))
    return found


def whole_unit(rows):
    """What is registered of a unit by its rows: its latest lead account, its mark, and the first and last day of all its range."""
    lead, mark, _, last = rows[-1]
    return lead, mark, registrations_of(rows)[0][1], last


def holds(value, day):
    """Whether a party's or unit's row is about a day."""
    first, last = value[-2:]
    return first <= day <= last


def blocks_of(periods, numbers, names, *columns):
    """The rows of each period and their numbers."""
    found, keys = {}, None
    for period, part, names_of_part, *parts in cut(periods, numbers, names, *columns):
        keys = shared(names_of_part, keys)
        found[period] = Held(keys, parts), part
    return found


class Accepted:
    """What the files say of a day, or of one period of it."""

    def __init__(self, office, day, period=None):
        self.office, self.day, self.period = office, day, period
        self.files = {}  # those with rows that took effect, by their places
        self.miscounts = []  # a line for each file whose counts aren't those of its rows
        self.read()

    def read(self):
        date = clock.date_of(self.day).encode()
        asked = "SELECT rowid, kind, name, body, applied, late FROM files ORDER BY rowid"
        for place, kind, name, body, *counts in self.office.connection.execute(asked):
            try:
                if kind in REGISTERED:
                    self.register(place, kind, name, rows_of(body), counts)
                elif date in body:
                    self.take(place, kind, name, body, counts)
            except (ValueError, IndexError, TypeError, KeyError):
                raise Fault(f"{self.office.path}: the accepted file {name} of {kind} can't be read") from None

    def register(self, place, kind, name, rows, counts):
        self.judge(kind, name, rows.count, counts, 0)
        names, *columns = REGISTERED[kind](*rows.columns)
        self.put(Taken(place, kind, name, {None: (Held(Keys(names), columns), rows.numbers)} if names else {}))

    def take(self, place, kind, name, body, counts):
        """Takes the rows of the day that came in time."""
        may_be_late, date, one = counts[1] and kind in TIMED, clock.date_of(self.day), self.period
        count, numbers, columns = rows_of(body) if may_be_late else rows_of(body, date.encode(), one)
        dates, periods = columns[DATES[kind][0]], [*map(int, columns[DATES[kind][1]])]
        were_late = late_rows(dates, periods, counts[1]) if may_be_late else itertools.repeat(False)
        self.judge(kind, name, count, counts, sum(were_late) if may_be_late else 0)
        if may_be_late or one or dates.count(date) < len(dates):
            asked = [
                other == date and one in (None, period) and not late for other, period, late in zip(dates, periods, were_late)
            ]
            *columns, periods, numbers = ([*itertools.compress(column, asked)] for column in (*columns, periods, numbers))
        self.put(Taken(place, kind, name, blocks_of(periods, numbers, *READ[kind](*columns))))

    def judge(self, kind, name, rows, counts, late):
        """Whether a file's counts may be those of its rows."""
        if sum(counts) != rows or counts[1] != late:
            applied = f"applied={counts[0]} late={counts[1]}"
            self.miscounts.append(f"{name} of {kind}: it was answered {applied}, and its {rows} rows can't have been")

    def put(self, taken):
        if taken.blocks:
            self.files[taken.place] = taken

    def in_force(self, kind, before=None):
        """What is in force after all files, or before the file at a place, by period."""
        if kind == UNITS:
            rows = self.rows_of_units(before)
            return {None: held_of({unit: whole_unit(own) for unit, own in rows.items()})} if rows else {}
        found = {}
        for file in self.files.values():
            if file.kind == kind and (before is None or file.place < before):
                for period, (held, _) in file.blocks.items():
                    found[period] = alone(held).over(found.get(period))
        return found

    def entry(self, kind, key, place=None):
        """The row that is in force under a whole key, or that was after the file at a place. None where there is none."""
        for file in reversed(self.files.values()):
            if file.kind == kind and (place is None or file.place <= place) and key in file.entries:
                return file.entries[key]
        return None

    def rows_of_units(self, before=None):
        """The rows of each unit in all files, or before the file at a place, in the order in which they were accepted."""
        found = {}
        for file in self.files.values():
            if file.kind == UNITS and (before is None or file.place < before):
                for unit, entries in file.registered.items():
                    found.setdefault(unit, []).extend(entry.value for entry in entries)
        return found

    def units_of_day(self, before):
        """The units of the day before the file at a place: their lead accounts, marks and days, by the last row that is about the day."""
        found = {}
        for unit, rows in self.rows_of_units(before).items():
            there = [row for row in rows if holds(row, self.day)]
            if there:
                found[unit] = there[-1]
        return found

    def entry_of_day(self, kind, key, place=None):
        """The row under a whole key that counts on the day after all files, or after the file at a place. Of a party or unit it is the
        last whose dates hold the day. None where there is none."""
        if kind not in REGISTERED:
            return self.entry(kind, key, place)
        for file in reversed(self.files.values()):
            if file.kind == kind and (place is None or file.place <= place):
                for entry in reversed(file.registered.get(key[1], [])):
                    if holds(entry.value, self.day):
                        return entry
        return None

    def keys_after(self, place):
        """The kind and the whole key of each row that came after the file at a place."""
        later = [file for file in self.files.values() if file.place > place]
        return {(file.kind, key): None for file in later for key in file.keys()}


def late_rows(dates, periods, late):
    """Which rows of a file were late. So many were, and they are those whose periods begin first."""
    starts = [clock.start(clock.day_of(date), period) for date, period in zip(dates, periods)]
    last_late = sorted(starts)[late - 1]
    return [start <= last_late for start in starts]
