"""`look status`: each date that the office knows something of, whether it can be settled, and what has changed since."""

from . import clock
from .figures import counted
from .office import KINDS
from .telling import Told, WrongWords
from .texts import table
from .words import date, takes_office

HEADS = ["DATE", "PERIODS", "PRICES", "READINGS", "CONTRACTS", "RUNS", "CHANGED SINCE", "NEXT"]
WORDS = 0, 5, 6, 7  # the columns that have no numbers
BY_DAY = {
    "prices": "SELECT day, count(*) FROM prices GROUP BY day",
    "readings": "SELECT day, count(*) FROM meters JOIN units USING (unit) WHERE day BETWEEN day_from AND day_to GROUP BY day",
    "contracts": "SELECT day, count(*) FROM contracts GROUP BY day",
    "reallocations": "SELECT day, count(*) FROM reallocations GROUP BY day",
    "touched": "SELECT day, count(*) FROM touched GROUP BY day",
}


def take_words(command):
    takes_office(command)
    command.add_argument("first", nargs="?", type=date, metavar="FROM")
    command.add_argument("last", nargs="?", type=date, metavar="TO")


def judge(asked):
    if asked.last is not None and asked.last < asked.first:
        raise WrongWords("TO is before FROM")


def tell(office, asked):
    """The office in a line, and a line for each date from one to another, where such are given."""
    counts = {what: dict(office.rows(statement)) for what, statement in BY_DAY.items()}
    runs = {}
    for day, kind, accounts in office.rows("SELECT day, kind, accounts FROM runs ORDER BY day, kind"):
        runs.setdefault(day, []).append((kind, accounts))
    first, last = asked.first or clock.FIRST, asked.last or asked.first or clock.LAST
    days = [day for day in sorted({*runs, *(day for what in counts.values() for day in what)}) if first <= day <= last]
    dates = Dates(office, counts, runs)
    lines = [in_all(office), ""]
    if not days:
        return Told([*lines, "no date has a price, a reading, a contract, a reallocation or a run"])
    return Told([*lines, *table(HEADS, [dates.row(day) for day in days], WORDS)])


def in_all(office):
    parties, units, files = (office.one(f"SELECT count(*) FROM {name}") for name in ("parties", "units", "files"))
    known = f"{counted(parties, 'party', 'parties')}, {counted(units, 'unit')}, {counted(files, 'file')}"
    return f"{known}; deadlines {counted(office.lead_minutes, 'minute')} before a period"


class Dates:
    """What is known of each date."""

    def __init__(self, office, counts, runs):
        self.office, self.counts, self.runs = office, counts, runs
        self.parties, self.units = office.parties().values(), office.units().values()
        self.is_kept = office.rows("SELECT positions FROM marks") == [(1,)]

    def row(self, day):
        """The cells of a date's line."""
        periods = clock.count(day)
        wanted = periods * there(self.units, day)
        prices, readings, contracts, touched = (self.counts[what].get(day, 0) for what in ("prices", "readings", "contracts", "touched"))
        runs = [self.office.kind(kind) for kind, _ in self.runs.get(day, ())]
        changed = self.changed(day, touched)
        missing = [counted(periods - prices, "price")] * (prices < periods) + [counted(wanted - readings, "reading")] * (readings < wanted)
        if missing:
            after = f"{' and '.join(missing)} missing"
        else:
            after = following(runs, changed)
        counts = [str(periods), f"{prices}/{periods}", f"{readings}/{wanted}", str(contracts)]
        return [self.office.date(day), *counts, " ".join(runs) or "-", changed or "-", after]

    def changed(self, day, touched):
        """What may have changed since the latest run of a date."""
        if day not in self.runs:
            return ""
        if not self.is_kept:
            return "not known"
        accounts = self.runs[day][-1][1]
        others = 2 * there(self.parties, day) - accounts
        told = [counted(touched, "period")] * bool(touched) + [f"{counted(others, 'account')} more"] * bool(others)
        return ", ".join(told)


def there(registered, day):
    """How many of those that are registered take part on a day."""
    return sum(one.first <= day <= one.last for one in registered)


def following(runs, changed):
    """What may be done next for a date that lacks nothing."""
    if not runs:
        return "SF"
    if not changed:
        return "-"
    later = KINDS[KINDS.index(runs[-1]) + 1 :]
    return f"{later[0]} would settle it anew" if later else "no kind of run is left"
