"""`look postings`: what a run posted to whom, as a table, as CSV or as a journal of a ledger."""

import functools

from . import clock
from .figures import pounds
from .office import KINDS, SIDES, name_of
from .recount import Day, concluded, differs
from .telling import DONE, FAULT, Told
from .texts import table
from .words import takes_date, takes_kind, takes_office

CSV = "date,kind,account,pence"


def take_words(command):
    takes_office(command)
    takes_date(command)
    takes_kind(command)
    forms = command.add_mutually_exclusive_group()
    forms.add_argument("--csv", action="store_true")
    forms.add_argument("--hledger", action="store_true", help="a journal, as hledger and ledger read it")


def tell(office, asked):
    """The postings, and whether each is the new day net less the old one."""
    kind = office.run(asked.date, asked.kind)
    posted = posted_by(office, asked.date, kind)
    closing = posted.closing()
    status = FAULT if posted.faults() else DONE
    if asked.csv:
        return Told(posted.csv(), status, closing)
    if asked.hledger:
        return Told(posted.journal(), status, closing)
    return Told([*posted.table(), "", *closing], status)


def posted_by(office, day, kind):
    """What a run of a day posted."""
    return Posted(Day(office, day, [other for other in office.runs(day) if other <= kind][-2:]), kind)


class Posted:
    """What a run posted, beside its nets and those of the run before it."""

    def __init__(self, of, kind):
        self.office, self.day, self.kind = of.office, of.day, kind
        kinds = list(self.office.runs(self.day))
        self.row = self.office.runs(self.day)[kind]
        before = [other for other in kinds if other < kind]
        self.before = of.recount(before[-1]) if before else None
        self.recount = of.recount(kind)
        self.postings = self.office.postings(self.day, kind)
        self.old, self.new = self.before.nets() if self.before else {}, self.recount.nets()

    def table(self):
        """A line for each account with a posting, and the sum."""
        date, name = clock.date_of(self.day), KINDS[self.kind]
        over = f", what has changed since {KINDS[self.before.kind]}" if self.before else ", the first run of the date"
        head = f"Postings of {name} of {date}{over}"
        if not self.postings:
            return [head, "", "none"]
        rows = [[name_of(account), *map(pounds, (*self.nets(account), pence))] for account, pence in self.postings.items()]
        heads = ["ACCOUNT", f"NET BY {KINDS[self.before.kind]}" if self.before else "BEFORE", f"NET BY {name}", "POSTED"]
        return [head, "", *table(heads, [*rows, ["ALL", "", "", pounds(sum(self.postings.values()))]])]

    def nets(self, account):
        """What an account pays by the run before, and by this one."""
        return self.old.get(account, 0), self.new.get(account, 0)

    def csv(self):
        date, name = clock.date_of(self.day), KINDS[self.kind]
        return [CSV, *(f"{date},{name},{name_of(account)},{pence}" for account, pence in self.postings.items())]

    def journal(self):
        """A transaction, as hledger and ledger read it. It sums to zero."""
        if not self.postings:
            return [f"; {KINDS[self.kind]} of {clock.date_of(self.day)} has posted nothing"]
        names = {account: f"{account[0]}:{SIDES[account[1]]}" for account in self.postings}
        width = max(map(len, names.values()))
        amounts = {account: ledger_pounds(pence) for account, pence in self.postings.items()}
        right = max(map(len, amounts.values()))
        entries = [f"    {names[account]:<{width}}  {amounts[account]:>{right}}" for account in self.postings]
        return [f"{clock.date_of(self.day)} * Run {KINDS[self.kind]}", *entries]

    def faults(self):
        """What doesn't follow, of the run and of the run before it."""
        before = [f"{KINDS[self.before.kind]}: {differs(one)}" for one in self.before.differences] if self.before else []
        return [*self.recount.faults(), *before, *self.departures]

    @functools.cached_property
    def departures(self):
        """A line for each posting that isn't the change of the net, and for a row of the run that isn't what the run has."""
        lines = []
        for account in sorted(self.old.keys() | self.new.keys() | self.postings.keys()):
            (old, new), posted = self.nets(account), self.postings.get(account, 0)
            if posted != new - old:
                lines.append(f"{name_of(account)}: {pounds(posted)} is posted, and its net has changed by {pounds(new - old)}")
        zeros = [account for account, pence in self.postings.items() if not pence]
        lines += [f"{name_of(account)}: £0.00 is posted, and no such posting is made" for account in zeros]
        return [*lines, *self.row_departures()]

    def row_departures(self):
        """What the run's own row has counted and summed."""
        accounts, residual = self.recount.account_sums, sum(kept.residual for kept in self.recount.periods.values())
        counts = [
            ("periods", self.row.periods, clock.count(self.day)),
            ("accounts", self.row.accounts, len(accounts)),
            ("postings", self.row.postings, len(self.postings)),
        ]
        lines = [f"the run's row has {kept} {what}, and there are {found}" for what, kept, found in counts if kept != found]
        if self.row.residual != residual:
            lines.append(f"the run's row has the residual {pounds(self.row.residual)}, and {pounds(residual)} follows")
        return lines

    def closing(self):
        posted = "Each posting is the net of this run less that of the run before it, and they sum to zero."
        return [*self.recount.since(), *concluded(self.faults(), f"{self.recount.follows()} {posted}")]


def ledger_pounds(pence):
    """An amount as a journal has it, with the sign behind the pound and no commas."""
    return f"£{'-' if pence < 0 else ''}{abs(pence) // 100}.{abs(pence) % 100:02}"
