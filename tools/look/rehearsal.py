"""A run, rehearsed over an office in memory that has what the run depends on: what is registered, what is in force for its date, and
which runs the date has.

A run posts what has changed since the date's latest run, and that one was perhaps settled from other rows. So the runs that the date has
are made first, out of contracts alone, by which each account pays what the office has kept of the latest run. Then these contracts are
taken back, and the rows that are in force come."""

import collections
import itertools
import re
import sqlite3

from . import clock
from .accepted import CONTRACTS, METERS, PARTIES, PRICES, REALLOCATIONS, UNITS
from .columns import cut
from .figures import KWH, PRICE, decimal
from .in_memory import InMemory, Unlike
from .office import KINDS, Office, Run, account_of, name_of
from .rows_as_files import Files, in_force, in_force_on

OF_DATE = CONTRACTS, REALLOCATIONS, METERS, PRICES
# By the price of the first period a kWh costs a penny, and by that of the second 1,000 pence.
PRICES_OF_CASH = 10 * 10**PRICE, 10_000 * 10**PRICE
DEAR = 1_000
MOST_KWH = 10_000_000  # of a contract
RUN = re.compile(r"run \S+ \S+ periods (\d+) accounts (\d+) residual (-?\d+) postings (\d+)")
COLUMNS = 10  # of the results of a run, of which the first two are its date and kind

# The program's answer to the run; what it has posted to each account; and a period's accounts and columns of figures. Of a run that is
# refused there are the lines that say why.
Found = collections.namedtuple("Found", "answer refusal postings periods", defaults=({}, {}))


def rehearse(folder, key, moment, day, kind, office):
    """What is found of a run that is ordered at a moment with a key, as a plain tuple. None if it can't be found in memory."""
    try:
        small = InMemory(office, folder)
        nets = take_all(small, office, day)
        run, balances = f"{clock.date_of(day)} {KINDS[kind]}", f"report {small.key} balances"
        answered = small.answered([balances, f"run {moment} {key} {run}", balances, f"report {small.key} csv {run}"])
        return tuple(found_in(answered, nets, 2 * len(office.parties())))
    except (Unlike, ValueError, sqlite3.Error):
        return None


def take_all(small, office, day):
    """Takes what a run of a day depends on. What each account pays by the day's latest run, where that isn't nothing."""
    small.take(in_force(office, PARTIES))
    kinds = [*office.runs(day)]
    nets = nets_of(office, day, kinds[-1]) if kinds else {}
    if kinds:
        stand_in(small, office, day, kinds, nets)
    small.take(in_force(office, UNITS))
    for needed in OF_DATE:
        small.take(in_force_on(office, needed, day))
    return nets


def nets_of(office, day, kind):
    """What each account pays by a run that the office has kept, where that isn't nothing."""
    asked = "SELECT party, side, sum(charge + share) FROM results WHERE day = ? AND kind = ? GROUP BY party, side ORDER BY party, side"
    return {office.account(party, side): pence for party, side, pence in office.rows(asked, day, kind) if pence}


def stand_in(small, office, day, kinds, nets):
    """Makes the runs of a date, by which each account pays its net."""
    prices, contracts = in_force_on(office, PRICES, day).count, [*contracts_of(office, day, nets)]
    if prices < clock.count(day) or sum(nets.values()) or any(abs(kwh) > MOST_KWH for *_, kwh in contracts):
        raise Unlike
    date, accounts = clock.date_of(day), 2 * sum(party.first <= day <= party.last for party in office.parties().values())
    cash = itertools.chain(PRICES_OF_CASH, itertools.repeat(0))
    small.take(rows_as(PRICES, [f"{date},{period},{decimal(next(cash), PRICE)}" for period in range(1, clock.count(day) + 1)]))
    small.take(rows_as(CONTRACTS, [f"{words},{decimal(kwh, KWH)}" for words, kwh in contracts]))
    for kind in kinds:
        small.order(day, kind, f"periods {clock.count(day)} accounts {accounts} residual 0 postings {len(nets) if kind == kinds[0] else 0}")
    small.take(rows_as(CONTRACTS, [f"{words},0" for words, _ in contracts]))


def contracts_of(office, day, nets):
    """Contracts of two periods by which each account pays its net: what it sells to the first account, which so pays its own."""
    first, *others = nets or [None]
    taken = {reference for (reference,) in office.rows("SELECT reference FROM refs WHERE reference LIKE 'look-%'")}
    free = (reference for reference in map("look-{}".format, itertools.count()) if reference not in taken)
    for account, reference in zip(others, free):
        words = f"{reference},{name_of(account)},{name_of(first)},{clock.date_of(day)}"
        yield f"{words},1", nets[account] % DEAR
        yield f"{words},2", nets[account] // DEAR


def rows_as(kind, lines):
    return Files(kind, [lines] if lines else [], len(lines))


def found_in(answered, nets, accounts):
    """What is told by both balances of so many accounts, the run's answer between them, and the results behind."""
    lines = answered.said.split("\n", 2 * accounts + 3)
    if len(lines) < 2 * accounts + 4:
        raise Unlike
    before, answer, after = balances_in(lines[1 : accounts + 1]), lines[accounts + 1], balances_in(lines[accounts + 3 : -1])
    if {account: pence for account, pence in before.items() if pence} != nets:
        raise Unlike
    if not RUN.fullmatch(answer):
        return Found(None, [answer, *filter(None, [answered.whys.get(2)])])  # of the second line
    postings = {account: pence - before[account] for account, pence in after.items() if pence != before[account]}
    return Found(answer, None, postings, periods_in(lines[-1]))


def balances_in(lines):
    """What has been posted to each account."""
    return {account_of(name): int(pence) for name, pence in (line.split(",") for line in lines)}


def periods_in(text):
    """The accounts and the columns of figures of each period in the results of a run."""
    fields = text.replace(".", "").replace("\n", ",").split(",")[COLUMNS:-1]  # each decimal has as many digits as its column's unit
    names, periods, *figures = (fields[at::COLUMNS] for at in range(2, COLUMNS))
    parts = cut(map(int, periods), [*map(account_of, names)], *([*map(int, column)] for column in figures))
    return {period: (accounts, columns) for period, accounts, *columns in parts}


def is_same(found, settled):
    """Whether a run has the figures to which the periods settle."""
    if None in settled.values():
        return False
    return found.periods == {period: (one.accounts.names, one.figures) for period, one in settled.items() if one.accounts.names}


class Rehearsed(Office):
    """An office that has a run more, once it is found."""

    def __init__(self, office, day, kind):
        super().__init__(office.connection, office.path, office.copy, office.works)
        self.rehearsed, self.found = (day, kind), None

    def runs(self, day):
        runs = super().runs(day)
        if self.found and day == self.rehearsed[0]:
            runs[self.rehearsed[1]] = Run._make(map(int, RUN.fullmatch(self.found.answer).groups()))
        return runs

    def postings(self, day, kind):
        return self.found.postings if (day, kind) == self.rehearsed else super().postings(day, kind)
