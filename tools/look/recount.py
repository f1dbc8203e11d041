"""The figures that a run has kept, beside those that follow from the accepted files by the rules of docs/market.md.

The office doesn't keep which files were there when a run was made. So the files are taken back one after the other, from the last one,
until all figures follow. A run of before a correction follows from the rows that were in force before it."""

import collections
import functools
import operator

from . import clock
from .accepted import Accepted, cited
from .columns import shared
from .figures import mwh, pounds
from .inputs import OF_DAY, inputs_of, named, valued
from .office import KINDS, name_of
from .rules import Figures, Settled
from .tables import departures, held
from .tables import sums_of as tables_sums

# A figure that a run has kept, and the one that follows. None where there is none.
Difference = collections.namedtuple("Difference", "period whose what kept follows")
# A row that the run used, and the one that has replaced it since.
Replaced = collections.namedtuple("Replaced", "kind key then now")
CASH = "charge", "share"
MOST = 10  # lines of a list


class Day:
    """What the accepted files say of a day, or of one period of it, and whether the tables say the same. Which runs will be asked for
    may be said at once, so that what they have kept is read meanwhile."""

    def __init__(self, office, day, kinds=(), period=None):
        self.office, self.day, self.period = office, day, period
        is_large = period is None and office.is_large()
        tables = office.beside(lambda alone: tables_sums(held(alone, day))) if is_large else None
        self.kept = {kind: office.beside(functools.partial(kept_sums, day, kind)) for kind in kinds} if is_large else {}
        self.accepted = Accepted(office, day, period)
        self.inputs = inputs_of(self.accepted)
        self.periods = range(1, clock.count(day) + 1) if period is None else [period]
        self.settled = self.inputs.settled(self.periods)
        self.departures = departures(office, self.inputs, tables and tables.result())
        self.recounts, self.given = {}, {}  # and what runs have of each period that no table has

    def let_go(self):
        """Holds no run any more. Else a run and its day hold each other, and neither is freed."""
        self.recounts.clear()

    def recount(self, kind):
        """A run of the day, counted once."""
        if kind not in self.recounts:
            self.recounts[kind] = Recount(self, kind, self.kept[kind].result() if kind in self.kept else None)
        return self.recounts[kind]


def recounted(office, day, kind, period=None):
    """A run of a day, or one of its periods."""
    return Day(office, day, [kind], period).recount(kind)


def kept_sums(day, kind, office):
    """A sum of what a run has kept of each period."""
    found, before = {}, None
    for period in office.periods_of(day, kind):
        before = kept_rows(office, day, kind, period, before)
        found[period] = before.sum
    return found


def kept_rows(office, day, kind, period, before=None):
    """What a run has kept of a period. Its keys are shared with what it has kept of another, where that has the same."""
    parties, sides, *figures = [*map(list, zip(*office.results(day, kind, period)))] or [[] for _ in range(8)]
    *units, ticks = [*map(list, zip(*office.credits(day, kind, period)))] or [[] for _ in range(4)]
    accounts = shared([*zip(parties, sides)], before and before.accounts)
    return Settled(accounts, figures, shared([*zip(*units)], before and before.units), ticks)


class Recount:
    """A run of a day, or one of its periods, with the inputs from which its figures follow, if they do. `sums` are those of what it has
    kept, if they are known."""

    def __init__(self, of, kind, sums):
        self.of, self.office, self.day, self.kind, self.sums = of, of.office, of.day, kind, sums
        self.rows = dict(of.given.get(kind, ()))
        self.inputs, self.settled, found = self.nearest()
        self.differences = [difference for period in sorted(found) for difference in found[period]]
        self.periods = {period: self.kept_of(period) for period in found}
        self.replaced = self.later_rows()

    def all_periods(self):
        """The periods of the day and those of the run, which are the same in an office that nobody has changed."""
        kept = self.sums if self.sums is not None else self.office.periods_of(self.day, self.kind) if self.of.period is None else ()
        return sorted({*self.of.periods, *self.rows, *kept})

    def kept(self, period):
        """What the run has kept of a period, read in the tables."""
        if period not in self.rows:
            self.rows[period] = kept_rows(self.office, self.day, self.kind, period)
            for account in self.rows[period].accounts.names:
                self.office.account(*account)
        return self.rows[period]

    def is_same(self, period, settled):
        """Whether the run has kept of a period that to which it settles."""
        if self.sums is not None:
            return self.sums.get(period) == settled.sum
        return self.kept(period).is_same(settled)

    def kept_of(self, period):
        """What the run has kept of a period."""
        settled = self.settled.get(period)
        return settled if settled is not None and self.is_same(period, settled) else self.kept(period)

    def nearest(self):
        """The inputs from which most figures follow, the latest of them; what they settle to, and the differences by period."""
        inputs, settled = self.of.inputs, self.of.settled
        found = {period: self.compared(period, settled.get(period)) for period in self.all_periods()}
        best = None
        while inputs.place:
            best = self.better(best, inputs, settled, found)
            if not best[0]:
                break
            inputs, concerned = inputs.take_back()
            affected = self.of.periods if None in concerned else concerned
            changed = inputs.settled(affected)
            settled = {**settled, **changed}
            found = {**found, **{period: self.compared(period, changed[period]) for period in affected}}
        return best[1:] if best else (inputs, settled, found)

    @staticmethod
    def better(best, inputs, settled, found):
        """The better of what was found so far, and what is found from these inputs."""
        number = sum(map(len, found.values()))
        return (number, inputs, settled, found) if best is None or number < best[0] else best

    def compared(self, period, settled):
        """The differences between what the run has kept of a period, and what it settles to."""
        if settled is not None and self.is_same(period, settled):
            return []
        kept = self.kept(period)
        if settled is None:
            return [Difference(period, name_of(account), "figures", row, None) for account, row in kept.rows()] or [
                Difference(period, "period", "inputs", None, None)
            ]
        return [
            *figure_differences(period, dict(kept.rows()), dict(settled.rows())),
            *credit_differences(period, kept.credits(), settled.credits()),
        ]

    def later_rows(self):
        """The rows that the run used and that have been replaced by others since."""
        accepted, found = self.of.accepted, []
        for kind, key in accepted.keys_after(self.inputs.place):
            then, now = accepted.entry_of_day(kind, key, self.inputs.place), accepted.entry_of_day(kind, key)
            if self.matters(kind, then, now):
                found.append(Replaced(kind, key, then, now))
        return sorted(found, key=lambda one: (one.now.place, one.now.row))

    def matters(self, kind, then, now):
        """Whether two rows in force under a key, each of which may be none, say something else of the day. Parties and units are there
        or not, and units have a lead account and a mark."""
        if then is None or now is None:
            return then is not now
        return then.value != now.value if kind in OF_DAY else then.value[:-2] != now.value[:-2]

    def weights(self, period):
        """Each account's weight by the run's own credits."""
        kept = self.periods[period]
        found, units = dict.fromkeys(kept.accounts.names, 0), self.inputs.units
        for unit, party, side, ticks in kept.credits():
            if unit in units and not units[unit].is_interconnector:
                found[party, side] = found.get((party, side), 0) + abs(ticks)
        return found

    @functools.cached_property
    def account_sums(self):
        """The figures of each account, summed over the periods."""
        alike = {}
        for kept in self.periods.values():
            alike.setdefault(kept.accounts, []).append(kept.figures)
        found = {}
        for accounts, figures in alike.items():
            columns = [map(sum, zip(*of_periods)) for of_periods in zip(*figures)]
            for account, *row in zip(accounts.names, *columns):
                found[account] = Figures._make(map(operator.add, found[account], row) if account in found else row)
        return found

    def nets(self):
        """What each account pays by the run's figures, over the periods."""
        return {account: figures.charge + figures.share for account, figures in self.account_sums.items()}

    def since(self):
        """The rows that the run didn't know."""
        if not self.replaced:
            return []
        return [f"Since {KINDS[self.kind]} these rows have come:", *some([f"  {replacement(one)}" for one in self.replaced])]

    def follows(self):
        """What is told where all follows."""
        used = f"the rows that {KINDS[self.kind]} used" if self.replaced else "the rows of the accepted files"
        return f"All figures follow from {used}."

    def closing(self):
        """The last lines of what is told about the run."""
        return [*self.since(), *concluded(self.faults(), self.follows())]

    def faults(self):
        """A line for all that doesn't follow."""
        return [*self.of.departures, *map(differs, self.differences)]


def figure_differences(period, kept, follows):
    for account in sorted(kept.keys() | follows.keys()):
        one, other = kept.get(account), follows.get(account)
        if one is None or other is None:
            yield Difference(period, name_of(account), "figures", one, other)
            continue
        for what, figure, right in zip(one._fields, one, other):
            if figure != right:
                yield Difference(period, name_of(account), what, figure, right)


def credit_differences(period, kept, follows):
    one, other = ({tuple(key): ticks for *key, ticks in rows} for rows in (kept, follows))
    for unit, party, side in sorted(one.keys() | other.keys()):
        ticks = [credits.get((unit, party, side)) for credits in (one, other)]
        if ticks[0] != ticks[1]:
            yield Difference(period, f"{unit} to {name_of((party, side))}", "credit", *ticks)


def differs(difference):
    """A difference as a line."""
    period, whose, what, kept, follows = difference
    if what == "inputs":
        return f"period {period}: a price or a reading isn't there, and the run has no figures of it"
    if what == "figures":
        if kept is None:
            return f"{whose}, period {period}: the run has no figures of it"
        return f"{whose}, period {period}: the run has figures of it, and none follow"
    write = pounds if what in CASH else mwh
    texts = ["none" if value is None else write(value) for value in (kept, follows)]
    return f"{whose}, period {period}: the run has the {what} {texts[0]}, and {texts[1]} follows"


def replacement(one):
    """A row that was replaced, as a line."""
    then = f"{cited(one.then)}, {valued(one.kind, one.then.value)}" if one.then else "nothing"
    return f"{named(one.kind, one.key)}: {then}; then {cited(one.now)}, {valued(one.kind, one.now.value)}"


def concluded(faults, follows):
    """What doesn't follow, or a line that says that all does."""
    if not faults:
        return [follows]
    count = f"{len(faults)} don't follow." if len(faults) > 1 else "1 doesn't follow."
    return [*some([f"! {fault}" for fault in faults]), count]


def some(lines):
    """The first of many lines, and how many more there are."""
    return lines if len(lines) <= MOST + 1 else [*lines[:MOST], f"  and {len(lines) - MOST:,} more"]
