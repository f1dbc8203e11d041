"""What rows of parties, units and reallocations register, and why such a row is refused, by docs/market.md: a second implementation
beside the program's. A row is a line of a file. Days are numbers of days since 1970-01-01."""
import collections
import copy
import datetime

from test_week import midnight, periods

EPOCH = datetime.date(1970, 1, 1)
LAST_DATE = "2099-12-31"
MOST_PARTIES, MOST_UNITS = 400, 2_000
HUNDRED = 10**7  # percent, in 10^-5 of a percent

Registration = collections.namedtuple("Registration", "first lead last")
UnitRow = collections.namedtuple("UnitRow", "unit lead mark first last")


def day_of(text):
    return (datetime.date.fromisoformat(text or LAST_DATE) - EPOCH).days


def date_of(day):
    return str(EPOCH + datetime.timedelta(day))


def unit_row(line):
    unit, party, side, mark, first, last = line.split(",")
    return UnitRow(unit, f"{party}-{side}", mark, day_of(first), day_of(last))


def percent_of(text):
    whole, _, rest = text.partition(".")
    return int(whole) * 10**5 + int(rest.ljust(5, "0"))


class Unit:
    """A unit's mark and its registrations, of which each begins on the day after the one before it ends."""

    def __init__(self, mark):
        self.mark, self.registrations = mark, []

    @property
    def first(self):
        return self.registrations[0].first

    @property
    def last(self):
        return self.registrations[-1].last

    @property
    def latest(self):
        return self.registrations[-1]

    def lead_on(self, day):
        """The account that leads the unit on a day, or None."""
        return next((one.lead for one in self.registrations if one.first <= day <= one.last), None)

    def refusal(self, row, given):
        """Why a further row of the unit is refused, or None. These accounts have a part of it in force on these days."""
        latest, succeeds = self.latest, row.lead != self.latest.lead
        if row.last < self.last or (not succeeds and row.first > latest.first):
            return 39
        if row.mark != self.mark:
            return 40
        if not succeeds and row.first < latest.first and len(self.registrations) > 1:
            return 40
        if succeeds and not latest.first < row.first <= self.last + 1:
            return 40
        if succeeds and any(account == row.lead and row.first <= day <= row.last for account, day in given):
            return 41
        return None

    def take(self, row):
        """Takes an accepted row. The days that are a succession's, if it is one."""
        succeeds = bool(self.registrations) and row.lead != self.latest.lead
        if succeeds:
            self.registrations[-1] = self.latest._replace(last=row.first - 1)
        elif self.registrations:
            self.registrations.pop()
        self.registrations.append(Registration(row.first, row.lead, row.last))
        return (row.first, row.last) if succeeds else None


class Register:
    def __init__(self, lead_seconds=3600):
        self.parties, self.units, self.lead_seconds = {}, {}, lead_seconds
        self.given = collections.defaultdict(dict)  # by unit: the percentage of each account, date and period in force

    # Why a row is refused

    def refusal(self, kind, line, moment):
        """The number of a row's refusal, or None."""
        return {"parties": self.of_party, "units": self.of_unit, "reallocations": self.of_reallocation}[kind](line, moment)

    def of_party(self, line, _):
        party, first, last, _ = line.split(",")
        if party not in self.parties:
            return 42 if len(self.parties) >= MOST_PARTIES else None
        known = self.parties[party]
        return 39 if known[0] < day_of(first) or day_of(last) < known[1] else None

    def of_unit(self, line, _):
        row = unit_row(line)
        party = row.lead[:-2]
        if party not in self.parties:
            return 30
        if not self.parties[party][0] <= row.first <= row.last <= self.parties[party][1]:
            return 33
        if row.unit not in self.units:
            return 42 if len(self.units) >= MOST_UNITS else None
        return self.units[row.unit].refusal(row, [(account, day_of(date)) for account, date, _ in self.given[row.unit]])

    def of_reallocation(self, line, moment):
        unit, account, date, period, percent, _ = line.split(",")
        party, day = account[:-2], day_of(date)
        if party not in self.parties:
            return 30
        if unit not in self.units:
            return 31
        if not self.parties[party][0] <= day <= self.parties[party][1] or self.units[unit].lead_on(day) is None:
            return 33
        if int(period) > periods(date):
            return 34
        if self.units[unit].lead_on(day) == account:
            return 37
        others = sum(part for key, part in self.given[unit].items() if key[1:] == (date, period) and key[0] != account)
        return 38 if not self.comes_late(date, period, moment) and others + percent_of(percent) > HUNDRED else None

    def comes_late(self, date, period, moment):
        return moment >= midnight(datetime.date.fromisoformat(date)) + 1800 * (int(period) - 1) - self.lead_seconds

    # What rows register

    def take(self, kind, line, moment):
        """Takes an accepted row. The days that are a succession's, if it is one."""
        if kind == "parties":
            party, first, last, _ = line.split(",")
            self.parties[party] = day_of(first), day_of(last)
        elif kind == "units":
            row = unit_row(line)
            return self.units.setdefault(row.unit, Unit(row.mark)).take(row)
        else:
            unit, account, date, period, percent, _ = line.split(",")
            if not self.comes_late(date, period, moment):
                self.given[unit][account, date, period] = percent_of(percent)
        return None

    def load(self, kind, lines, moment):
        """Takes a file whole or not at all. The number of its refusal and of its row, or None; and the days of its successions."""
        after, successions = copy.deepcopy(self), []
        for number, line in enumerate(lines, 1):
            refusal = after.refusal(kind, line, moment)
            if refusal:
                return (refusal, number), []
            successions.append(after.take(kind, line, moment))
        self.__dict__.update(after.__dict__)
        return None, [*filter(None, successions)]

    # As the tables have it

    def unit_rows(self):
        """The rows of `units`: the latest lead account, the mark and the whole range of each."""
        rows = [(name, *account(unit.latest.lead), int(unit.mark == "yes"), unit.first, unit.last) for name, unit in self.units.items()]
        return sorted(rows)

    def lead_rows(self):
        """The rows of `leads`: one for each registration."""
        found = [(name, one.first, *account(one.lead), one.last) for name, unit in self.units.items() for one in unit.registrations]
        return sorted(found)


def account(text):
    """The party and the side of an account, as the tables have them."""
    return text[:-2], "PC".index(text[-1])


def looking_back(lines, unit, day):
    """The account that leads a unit on a day by all accepted rows of units: that of the unit's last row whose dates hold the day."""
    found = [row.lead for row in map(unit_row, lines) if row.unit == unit and row.first <= day <= row.last]
    return found[-1] if found else None
