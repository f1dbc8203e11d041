"""`look compare`: what changed for each account from one run of a date to another, and because of which rows."""

from . import clock
from .accepted import METERS, cited
from .figures import counted, mwh, pounds
from .inputs import named, valued
from .office import KINDS, name_of
from .postings import Posted
from .recount import MOST, Day, concluded, differs, some
from .rules import Figures
from .telling import DONE, FAULT, Told
from .texts import table
from .words import takes_date, takes_kind, takes_office

NOTHING = Figures(0, 0, 0, 0, 0, 0)
HEADS = ["ACCOUNT", "CREDITED, MWh", "CONTRACTS, MWh", "IMBALANCE, MWh", "CHARGES", "SHARES"]
WORDS = 0, 7  # the columns that have no numbers


def take_words(command):
    takes_office(command)
    takes_date(command)
    takes_kind(command)
    takes_kind(command, "other")


def tell(office, asked):
    """The comparison of two runs of a date."""
    kinds = [office.run(asked.date, kind) for kind in (asked.kind, asked.other)]
    compared = Compared(Day(office, asked.date, kinds), *kinds)
    return Told([*compared.lines(), "", *compared.closing()], FAULT if compared.faults() else DONE)


class Compared:
    """Two runs of a date."""

    def __init__(self, of, kind, other):
        self.office, self.day = of.office, of.day
        self.one, self.other = of.recount(kind), of.recount(other)
        kinds = list(self.office.runs(self.day))
        self.is_next = kinds.index(other) == kinds.index(kind) + 1
        self.posted = Posted(of, other) if self.is_next else None
        self.changes = self.changed()

    def changed(self):
        """By how much each account's sums have changed, where they have."""
        sums = [recount.account_sums for recount in (self.one, self.other)]
        found = {}
        for account in sorted(sums[0].keys() | sums[1].keys()):
            before, after = (one.get(account, NOTHING) for one in sums)
            change = Figures(*(new - old for old, new in zip(before, after)))
            if any(change):
                found[account] = change
        return found

    def lines(self):
        """The accounts whose own figures changed, those that share alone, and the causes."""
        names = [KINDS[recount.kind] for recount in (self.one, self.other)]
        head = f"{clock.date_of(self.day)}: {names[0]} to {names[1]}"
        if not self.changes:
            return [head, "", "no account pays anything else", *self.causes()]
        own = [account for account, change in self.changes.items() if any(change[:5])]
        alone = [account for account in self.changes if account not in set(own)]
        shown = own + alone[:MOST]
        heads = [*HEADS, "POSTING" if self.is_next else "CHANGE", "BY"]
        lines = [head, "", *table(heads, [self.row(account) for account in shown], WORDS), ""]
        if alone:
            more = f", of which {MOST} are shown" if len(alone) > MOST else ""
            lines.append(f"By its share of the residual alone: {counted(len(alone), 'account')}{more}.")
        return [*lines, *self.cash(), *self.causes()]

    def row(self, account):
        change = self.changes[account]
        energy = map(mwh, (change.credited, change.contracts, change.imbalance))
        by = "energy" if any(change[:4]) else "price" if change.charge else "share"
        return [name_of(account), *energy, *map(pounds, (change.charge, change.share, change.charge + change.share)), by]

    def cash(self):
        """How the charges and the residual moved."""
        charges = sum(change.charge for change in self.changes.values())
        if not charges:
            return []
        words = ("rose", "fell") if charges > 0 else ("fell", "rose")
        told = f"All charges together {words[0]} by {pounds(abs(charges))}"
        return [f"{told}, so the residual {words[1]} by as much, which all share by weight."]

    def causes(self):
        """The rows that came between the two runs and say something else of the day."""
        between = rows_between(self.one, self.other)
        if not between:
            return ["No row that came between them says anything else of the date."]
        return ["Because of", *some([f"  {line}" for line in between])]

    def faults(self):
        """What doesn't follow, of the one run or of the other."""
        if self.posted:
            return self.posted.faults()
        return [*self.other.faults(), *(f"{KINDS[self.one.kind]}: {differs(one)}" for one in self.one.differences)]

    def closing(self):
        posted = " Each posting is the net of the second less that of the first." if self.is_next else ""
        return concluded(self.faults(), f"All figures of both runs follow from the accepted files.{posted}")


def rows_between(one, other):
    """A line for each row of the day that isn't the same for both runs."""
    accepted, places = one.of.accepted, (one.inputs.place, other.inputs.place)
    lines = []
    for kind, key in accepted.keys_after(min(places)):
        then, now = (accepted.entry_of_day(kind, key, place) for place in places)
        if then != now and one.matters(kind, then, now):
            lines.append((order_of(kind, key), cause(kind, key, then, now)))
    return [line for _, line in sorted(lines)]


def order_of(kind, key):
    """What is registered comes first, and then one period after the other."""
    return (key[0] or 0, kind, str(key[1]))


def cause(kind, key, then, now):
    """What a row changed."""
    values = [None if entry is None else entry.value for entry in (then, now)]
    if kind == METERS and None not in values:
        ticks = [mwh(metered * tlm) for metered, tlm, _ in values]
        return f"period {key[0]}  {key[1]}: {ticks[0]} -> {ticks[1]} MWh ({cited(now)})"
    return f"{named(kind, key)}: {valued(kind, values[0])} -> {valued(kind, values[1])} ({cited(now) if now else 'taken back'})"
