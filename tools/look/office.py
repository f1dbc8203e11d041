"""The tables of an office, read in a copy of its files. docs/sql.md lists them."""

import collections
import contextlib
import functools
import os
import sqlite3

from . import clock
from .beside import Beside
from .copying import copied
from .rules import Unit
from .telling import Fault

VERSIONS = 1, 2  # of the tables that are read here. The program opens the last
LARGE = 1 << 22  # bytes of an office's file
MAPPED = 1 << 30  # bytes of a copy that are read without a call for each page
KINDS = ("SF", "R1", "R2", "R3", "RF", "DF")
SIDES = "PC"

Run = collections.namedtuple("Run", "periods accounts residual postings")
Party = collections.namedtuple("Party", "first last")


def name_of(account):
    """The text of an account, such as `CITYSUP-C`."""
    return f"{account[0]}-{SIDES[account[1]]}"


@functools.cache
def account_of(text):
    """The account of a text. One that is off its grammar is a ValueError."""
    party, dash, side = text.rpartition("-")
    if not dash or side not in ("P", "C") or not 1 <= len(party) <= 10 or not all(letter in CAPITALS for letter in party):
        raise ValueError(text)
    return party, SIDES.index(side)


CAPITALS = "ABCDEFGHIJKLMNOPQRSTUVWXYZ0123456789"


@contextlib.contextmanager
def opened(path):
    """An office, whose files are copied first. `path` is that of the office, which is named in what is told."""
    with copied(path) as copy, opened_copy(copy, path) as office:
        yield office


@contextlib.contextmanager
def opened_copy(copy, path):
    """The office in a copy. Rows that no office writes are a fault of the file."""
    connection, works = None, []
    try:
        connection = sqlite3.connect(copy, isolation_level=None)
        connection.execute("PRAGMA query_only = ON")
        connection.execute(f"PRAGMA mmap_size = {MAPPED}")
        yield Office(connection, path, copy, works)
    except sqlite3.Error as error:
        raise Fault(f"{path}: it can't be read as an office's file: {error}") from None
    finally:
        for work in works:
            work.end()
        if connection is not None:
            connection.close()


class Office:
    """The rows of an office."""

    def __init__(self, connection, path, copy, works):
        self.connection, self.path, self.copy, self.works = connection, path, copy, works
        self.version, self.lead_minutes = self.settings()

    def beside(self, find):
        """What `find` gives of the same copy, which a process of its own opens."""

        def find_alone():
            with opened_copy(self.copy, self.path) as alone:
                return find(alone)

        self.works.append(Beside(find_alone))
        return self.works[-1]

    def is_large(self):
        """Whether work is worth a process of its own."""
        return os.path.getsize(self.copy) >= LARGE

    def settings(self):
        """The version of the tables, which is one of those that are read here, and the office's lead time."""
        try:
            rows = self.connection.execute("SELECT version, lead_minutes FROM settings").fetchall()
        except sqlite3.Error:
            raise Fault(f"{self.path}: it is no office's file") from None
        if len(rows) != 1:
            raise Fault(f"{self.path}: it is no office's file: its settings have {len(rows)} rows")
        version, lead_minutes = rows[0]
        if version not in VERSIONS:
            read = " and ".join(map(str, VERSIONS))
            raise Fault(f"{self.path}: its tables are of version {version}, and only those of versions {read} are read here")
        return version, lead_minutes

    def judge_for_program(self):
        """Whether the program opens the office, and answers what it is asked."""
        if self.version != VERSIONS[-1]:
            told = f"its tables are of version {self.version}, which the program doesn't open; `settle migrate` makes them usable"
            raise Fault(f"{self.path}: {told}")

    def rows(self, statement, *values):
        return self.connection.execute(statement, values).fetchall()

    def one(self, statement, *values):
        return self.connection.execute(statement, values).fetchone()[0]

    def operator_key(self):
        """It is never shown."""
        return self.one("SELECT operator_key FROM settings")

    def account(self, party, side):
        """An account of a row."""
        if side not in (0, 1):
            raise Fault(f"{self.path}: a row of {party} has the side {side}, which no office writes")
        return party, side

    def date(self, day):
        """The date of a row's day."""
        if not clock.FIRST <= day <= clock.LAST:
            raise Fault(f"{self.path}: a row has the day {day}, which no office writes")
        return clock.date_of(day)

    def kind(self, number):
        """The kind of a run's row."""
        if not 0 <= number < len(KINDS):
            raise Fault(f"{self.path}: a row has the kind of run {number}, which no office writes")
        return KINDS[number]

    # What is registered

    def parties(self):
        return {party: Party(*days) for party, *days in self.party_rows()}

    def party_rows(self):
        """A party and its first and last day, in the order of parties."""
        return self.rows("SELECT party, day_from, day_to FROM parties ORDER BY party")

    def units(self):
        """All units by their names, in the order of their names."""
        return {unit: Unit((party, side), bool(mark), *days) for unit, party, side, mark, *days in self.unit_rows()}

    def units_on(self, day):
        """The units of a day by their names, in the order of their names, with the account that leads each on that day."""
        leads = {unit: lead for (unit, first), (lead, last) in self.registrations().items() if first <= day <= last}
        there = {name: unit for name, unit in self.units().items() if unit.first <= day <= unit.last}
        return {name: unit._replace(lead=leads.get(name, unit.lead)) for name, unit in there.items()}

    def registrations(self):
        """The account that leads a unit from a day on and the last of these days, under the unit and the first. In version 1 there is
        one for each unit."""
        of_one = "SELECT unit, day_from, party, side, day_to FROM units ORDER BY unit"
        asked = of_one if self.version == 1 else of_one.replace("units", "leads").replace("BY unit", "BY unit, day_from")
        return {(unit, first): (self.account(party, side), last) for unit, first, party, side, last in self.rows(asked)}

    def unit_rows(self):
        """A unit, the party and the side of its lead account, whether it is an interconnector's, and its first and last day."""
        rows = self.rows("SELECT unit, party, side, interconnector, day_from, day_to FROM units ORDER BY unit")
        for _, party, side, *_ in rows:
            self.account(party, side)
        return rows

    def references(self):
        """The seller and the buyer of each reference."""
        rows = self.rows("SELECT reference, seller, seller_side, buyer, buyer_side FROM refs")
        return {reference: (self.account(*row[:2]), self.account(*row[2:])) for reference, *row in rows}

    # What is in force for a day, a row for each

    def readings(self, day, period=None):
        """A period, a unit, its metered volume, the multiplier and the balancing volume."""
        return self.of_day("meters", "period, unit, metered, tlm, balancing", day, period)

    def prices(self, day, period=None):
        """A period and its price."""
        return self.of_day("prices", "period, price", day, period)

    def contracts(self, day, period=None):
        """A period, a reference and its volume."""
        return self.of_day("contracts", "period, reference, kwh", day, period)

    def reallocations(self, day, period=None):
        """A period, a unit, the party and the side of an account, the percentage and the fixed volume."""
        return self.of_day("reallocations", "period, unit, party, side, percent, fixed", day, period)

    def of_day(self, table, columns, day, period):
        """The rows of a day in a table, or those of one period."""
        asked, values = ("", ()) if period is None else (" AND period = ?", (period,))
        return self.rows(f"SELECT {columns} FROM {table} WHERE day = ?{asked}", day, *values)

    # What runs have kept

    def runs(self, day):
        """The runs of a day by their kinds' numbers, in their order."""
        rows = self.rows("SELECT kind, periods, accounts, residual, postings FROM runs WHERE day = ? ORDER BY kind", day)
        return {kind: Run(*values) for kind, *values in rows if self.kind(kind)}

    def run(self, day, kind):
        """The number of a run's kind: of the latest one where no kind is given. The run has to be there."""
        kinds = list(self.runs(day))
        if not kinds:
            raise Fault(f"{self.path}: {clock.date_of(day)} has no run")
        if kind is None:
            return kinds[-1]
        if kind not in kinds:
            raise Fault(f"{self.path}: {clock.date_of(day)} has no run {KINDS[kind]}; it has {', '.join(KINDS[k] for k in kinds)}")
        return kind

    def periods_of(self, day, kind):
        """The periods of which a run has kept something, in their order."""
        each = " UNION ".join(f"SELECT period FROM {table} WHERE day = ?1 AND kind = ?2" for table in ("results", "credits"))
        return [period for (period,) in self.rows(f"{each} ORDER BY period", day, kind)]

    def results(self, day, kind, period):
        """A party, a side and the figures of that account, a row for each account of a period, in the order of accounts."""
        figures = "credited, balancing, contracts, imbalance, charge, share"
        return self.of_run("results", f"party, side, {figures}", "party, side", day, kind, period)

    def credits(self, day, kind, period):
        """A unit, a party, a side and what that account is credited of the unit, a row for each of them, in their order."""
        return self.of_run("credits", "unit, party, side, credited", "unit, party, side", day, kind, period)

    def of_run(self, table, columns, order, day, kind, period):
        """The rows of a period of a run in a table."""
        return self.rows(f"SELECT {columns} FROM {table} WHERE day = ? AND kind = ? AND period = ? ORDER BY {order}", day, kind, period)

    def postings(self, day, kind):
        """What a run posted, by account."""
        rows = self.rows("SELECT party, side, pence FROM postings WHERE day = ? AND kind = ? ORDER BY party, side", day, kind)
        return {self.account(party, side): pence for party, side, pence in rows}
