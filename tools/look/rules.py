"""A Settlement Period, settled in whole numbers from docs/market.md alone. No code of the program and of its tests is used, so this is
a second computation of what the program has proved of itself.

An account is a pair of a party and a side, 0 for Production and 1 for Consumption. So pairs are in the order of accounts."""

import collections
import functools
import operator

from .beside import sum_of
from .columns import Keys
from .figures import near

# What a run keeps of an account, and the same in the order of its table.
Figures = collections.namedtuple("Figures", "credited balancing contracts imbalance charge share")
# A part of the residual: its whole pence, what is left of the quota, and whether it got a penny of those that were left over.
Part = collections.namedtuple("Part", "pence rest has_more")
# One of an account's credits: the unit's lead account and whether it is an interconnector's.
Unit = collections.namedtuple("Unit", "lead is_interconnector first last")
Reading = collections.namedtuple("Reading", "metered tlm balancing")

TLM_UNIT, CHARGE_UNIT = 10**7, 10**13


class Settled:
    """What a run keeps of a period, or what a period settles to: the figures of accounts, and the credits of units, by column."""

    def __init__(self, accounts, figures, units, ticks):
        self.accounts, self.figures = accounts, figures  # a column for each of `Figures`
        self.units, self.ticks = units, ticks  # under the unit, the party and the side

    @functools.cached_property
    def sum(self):
        return sum_of((self.accounts.sum, self.figures, self.units.sum, self.ticks))

    def is_same(self, other):
        """Whether another has the same rows."""
        return (self.accounts is other.accounts or self.accounts.names == other.accounts.names) and (
            (self.figures, self.units.names, self.ticks) == (other.figures, other.units.names, other.ticks)
        )

    def of(self, account):
        """The figures of an account. None where there is no such account."""
        at = self.accounts.places.get(account)
        return None if at is None else Figures._make(column[at] for column in self.figures)

    def rows(self):
        """Each account with its figures, in the order of accounts."""
        return zip(self.accounts.names, map(Figures._make, zip(*self.figures)))

    def credits(self):
        """A unit, a party, a side and what that account is credited of the unit."""
        return [(*key, ticks) for key, ticks in zip(self.units.names, self.ticks)]

    @property
    def residual(self):
        """Minus the sum of the charges."""
        return -sum(self.figures[4])


def subsidiary_credit(reading, percent, fixed):
    """What a reallocation gives to a subsidiary of a unit, in ticks."""
    metered, tlm, balancing = reading
    return near(((metered - balancing) * percent + fixed * TLM_UNIT) * tlm, TLM_UNIT)


def charges_of(imbalances, price):
    """The pence that each account is charged."""
    half = CHARGE_UNIT // 2
    cash = [imbalance * -price for imbalance in imbalances]
    return [(one + half) // CHARGE_UNIT if one >= 0 else -((half - one) // CHARGE_UNIT) for one in cash]


def quotas_of(residual, weights):
    """The part of a residual for each weight, without its sign: whole pence, and what is left of them."""
    if not any(weights):
        weights = [1] * len(weights)
    size, whole = abs(residual), sum(weights)
    return [divmod(size * weight, whole) for weight in weights]


def parts_of(residual, weights):
    """How a residual is divided by weights, by the method of largest remainders: a part for each weight, without its sign, and how
    many pence were left over."""
    quotas = quotas_of(residual, weights)
    lucky = luckiest(residual, quotas)
    return [Part(pence, rest, at in lucky) for at, (pence, rest) in enumerate(quotas)], len(lucky)


def luckiest(residual, quotas):
    """The places of the quotas that get one of the pence that were left over: those of which most is left, the first of equals."""
    left = abs(residual) - sum(pence for pence, _ in quotas)
    rests = [rest for _, rest in quotas]
    by_rest = sorted(range(len(quotas)), key=rests.__getitem__, reverse=True)  # which keeps the order of equals
    return {*by_rest[:left]}


def shares_of(residual, weights):
    """The share of each weight, in pence."""
    if not residual:
        return [0] * len(weights)
    quotas = quotas_of(residual, weights)
    shares = [pence for pence, _ in quotas]
    for at in luckiest(residual, quotas):
        shares[at] += 1
    return shares if residual > 0 else [-pence for pence in shares]


# Where credits go: the place of the account of each, its weight's factor, which is 0 for an interconnector's; the reallocations, each
# with the place of its unit; the order of the credits' keys, and these keys in it.
Layout = collections.namedtuple("Layout", "places factors given order keys")


class Market:
    """The accounts and the units of a day, in their orders. Where an account's party isn't there on the day, no period settles."""

    def __init__(self, accounts, units):
        self.accounts, self.units, self.layouts = Keys(accounts), units, {}
        self.names, self.leads = [*units], [unit.lead for unit in units.values()]
        self.factors = [0 if unit.is_interconnector else 1 for unit in units.values()]

    def layout(self, given):
        """Where the credits go if these units give to these accounts. Most periods have the same keys."""
        if given not in self.layouts:
            places = {name: at for at, name in enumerate(self.names)}
            there = [(at, places[unit], account) for at, (unit, account) in enumerate(given.names) if unit in places]
            accounts = [*self.leads, *(account for _, _, account in there)]
            factors = [*self.factors, *(self.factors[unit_at] for _, unit_at, _ in there)]
            keys = Keys([(name, *account) for name, account in zip([*self.names, *(self.names[one] for _, one, _ in there)], accounts)])
            found = [self.accounts.places[account] for account in accounts]
            self.layouts[given] = Layout(found, factors, [(at, one) for at, one, _ in there], keys.order, Keys(keys.sorted))
        return self.layouts[given]

    def readings(self, held):
        """The metered volumes, the multipliers and the balancing volumes in the order of units. None where a unit has none."""
        if held.keys.sorted == self.names:
            return held.in_order or ([], [], [])
        if not held.values.keys() >= self.units.keys():
            return None
        return [*zip(*map(held.values.__getitem__, self.names))] or ([], [], [])

    def settle(self, readings, given, contracts, price):
        """What a period settles to. None where a price or a reading isn't there, or an account."""
        columns = self.readings(readings)
        if price is None or columns is None:
            return None
        try:
            layout = self.layout(given.keys)
            credits = credits_of(columns, layout.given, given.columns)
            sold = self.sold(contracts)
        except KeyError:
            return None
        credited, weights, balanced = ([0] * len(self.accounts.names) for _ in range(3))
        for at, ticks, factor in zip(layout.places, credits, layout.factors):
            credited[at] += ticks
            weights[at] += factor * abs(ticks)
        for at, volume, tlm in zip(layout.places, columns[2], columns[1]):  # of the lead accounts, which come first
            balanced[at] += volume * tlm
        imbalances = [mine - taken - out for mine, taken, out in zip(credited, balanced, sold)]
        charges = charges_of(imbalances, price)
        figures = [credited, balanced, sold, imbalances, charges, shares_of(-sum(charges), weights)]
        return Settled(self.accounts, figures, layout.keys, [*map(credits.__getitem__, layout.order)])

    def sold(self, contracts):
        """What each account has sold, less what it has bought."""
        places, sold = self.accounts.places, [0] * len(self.accounts.names)
        for seller, buyer, kwh in zip(*contracts.columns):
            sold[places[seller]] += kwh
            sold[places[buyer]] -= kwh
        return [kwh * TLM_UNIT for kwh in sold]


def credits_of(readings, given, parts):
    """The credit of each unit to its lead account, which has what subsidiaries leave, and then that of each reallocation."""
    metered, tlms, balancing = readings
    credits = [*map(operator.mul, metered, tlms)]
    for at, unit in given:
        ticks = subsidiary_credit((metered[unit], tlms[unit], balancing[unit]), parts[0][at], parts[1][at])
        credits[unit] -= ticks
        credits.append(ticks)
    return credits
