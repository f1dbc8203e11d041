"""Rows of an office's tables as files of rows, in the form of docs/formats.md, so that another office may take them: one in memory that
the program is asked over, or a new one that goes on from a date.

SQLite writes the lines, which takes a third of the time that Python takes."""

import collections

from . import clock
from .accepted import CONTRACTS, METERS, PARTIES, PRICES, REALLOCATIONS, UNITS
from .figures import KWH, PERCENT, PRICE, TLM

MOST_ROWS = 14_000  # of a file. So many of the longest have fewer bytes than a file may have
HEADERS = {
    PARTIES: "party,from,to,key",
    UNITS: "unit,party,side,interconnector,from,to",
    METERS: "unit,date,period,metered_mwh,tlm,balancing_mwh",
    PRICES: "date,period,price",
    CONTRACTS: "reference,seller,buyer,date,period,mwh",
    REALLOCATIONS: "unit,account,date,period,percent,fixed_mwh",
}

# A column as it is written: its form for SQLite's printf, and the values that this takes, if any.
Column = collections.namedtuple("Column", "form values")
# Files of a kind, each a list of lines, and how many rows the table has for them.
Files = collections.namedtuple("Files", "kind parts count")


def text(column):
    return Column("%s", column)


def date(column):
    return Column("%s", f"date({column} * 86400, 'unixepoch')")


def account(party, side):
    return Column("%s-%s", f"{party}, substr('PC', {side} + 1, 1)")


def decimal(column, digits):
    """A whole number of small units with so many digits behind the point."""
    unit = 10**digits
    return Column(f"%s%d.%0{digits}d", f"CASE WHEN {column} < 0 THEN '-' ELSE '' END, abs({column}) / {unit}, abs({column}) % {unit}")


DATE, PERIOD = date("day"), Column("%d", "period")
TERM = date("day_from"), date("day_to")
FIRST_DAY = "max(one.day_from, other.day_from)"  # on which both parties of a reference take part, if there is one
SIDE, MARK = Column("%s", "substr('PC', side + 1, 1)"), Column("%s", "CASE interconnector WHEN 0 THEN 'no' ELSE 'yes' END")
COUNTERPARTIES = account("seller", "seller_side"), account("buyer", "buyer_side")
# A row for each registration of a unit, in the order of their dates.
REGISTRATIONS = (
    "(SELECT unit, leads.party, leads.side, interconnector, leads.day_from, leads.day_to"
    " FROM leads JOIN units USING (unit) ORDER BY unit, leads.day_from)"
)
# The table of each kind, and the columns of its rows.
TABLES = {
    PARTIES: ("parties", (text("party"), *TERM, text("access_key"))),
    UNITS: (REGISTRATIONS, (text("unit"), text("party"), SIDE, MARK, *TERM)),
    METERS: ("meters", (text("unit"), DATE, PERIOD, decimal("metered", KWH), decimal("tlm", TLM), decimal("balancing", KWH))),
    PRICES: ("prices", (DATE, PERIOD, decimal("price", PRICE))),
    CONTRACTS: ("contracts JOIN refs USING (reference)", (text("reference"), *COUNTERPARTIES, DATE, PERIOD, decimal("kwh", KWH))),
    REALLOCATIONS: (
        "reallocations",
        (text("unit"), account("party", "side"), DATE, PERIOD, decimal("percent", PERCENT), decimal("fixed", KWH)),
    ),
}
REFERENCES = (
    "refs LEFT JOIN parties AS one ON one.party = seller LEFT JOIN parties AS other ON other.party = buyer",
    (text("reference"), *COUNTERPARTIES, date(FIRST_DAY), text("1"), text("0")),
)


def in_force(office, kind, where="", *values):
    """The rows of a kind that are registered or in force. A condition may say which of them."""
    return files_of(office, kind, *TABLES[kind], where, values)


def in_force_on(office, kind, day):
    """The rows of a kind that are in force for a day. Its date is written out once."""
    table, columns = TABLES[kind]
    dated = [Column(clock.date_of(day), "") if column is DATE else column for column in columns]
    return files_of(office, kind, table, dated, "day = ?", (day,))


def references(office, where="", *values):
    """A row of a contract for each reference. If it comes late, it fixes the seller and the buyer, and nothing else."""
    return files_of(office, CONTRACTS, *REFERENCES, where, values)


def files_of(office, kind, table, columns, where, values):
    """The rows of a table as files of a kind."""
    forms, written = ",".join(column.form for column in columns), ", ".join(column.values for column in columns if column.values)
    asked = f"SELECT count(*), group_concat(printf('{forms}', {written}), char(10)) FROM {table}{where and f' WHERE {where}'}"
    ((count, lines),) = office.rows(asked, *values)
    return Files(kind, parts_of(lines.split("\n") if count else []), count)


def parts_of(lines):
    """The lines in parts that files may have."""
    return [lines[at : at + MOST_ROWS] for at in range(0, len(lines), MOST_ROWS)]


def body_of(kind, lines):
    """The text of a file."""
    return "\n".join([HEADERS[kind], *lines, ""])
