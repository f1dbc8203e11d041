"""What a run is settled from: what is registered and in force for a day after the files up to some place."""

import functools

from . import clock, rules
from .accepted import CONTRACTS, METERS, PARTIES, PRICES, READ, REALLOCATIONS, REGISTERED, UNITS
from .columns import NOTHING
from .figures import KWH, PERCENT, TLM, decimal, per_mwh
from .office import name_of

OF_DAY = tuple(READ)


def inputs_of(accepted):
    """What is in force after all files."""
    return Inputs(accepted, max(accepted.files, default=0), {kind: accepted.in_force(kind) for kind in (*READ, *REGISTERED)})


class Inputs:
    """The rows in force, which may be taken back file by file."""

    def __init__(self, accepted, place, held):
        self.accepted, self.day, self.place, self.held = accepted, accepted.day, place, held

    def take_back(self):
        """What was in force before the last of these files; and the periods that this concerns, in which None stands for all."""
        file = self.accepted.files[self.place]
        held = {**self.held, file.kind: self.accepted.in_force(file.kind, self.place)}
        before = Inputs(self.accepted, max((other for other in self.accepted.files if other < self.place), default=0), held)
        concerned = {period for period in file.blocks if not before.of(file.kind, period).is_same(self.of(file.kind, period))}
        return before, concerned

    def of(self, kind, period=None):
        """The rows of a kind in a period."""
        return self.held[kind].get(period, NOTHING)

    @functools.cached_property
    def units(self):
        return {name: rules.Unit._make(row) for name, row in self.of(UNITS).values.items()}

    def accounts(self):
        """The accounts of the day, in their order."""
        there = sorted(party for party, (first, last) in self.of(PARTIES).values.items() if first <= self.day <= last)
        return [(party, side) for party in there for side in (0, 1)]

    @functools.cached_property
    def units_of_day(self):
        """Each with the account that leads it on the day."""
        return {name: rules.Unit._make(row) for name, row in sorted(self.accepted.units_of_day(self.place + 1).items())}

    def given(self, period):
        """The reallocations of a period, by unit and account."""
        found = {}
        for (unit, account), part in self.of(REALLOCATIONS, period).values.items():
            found.setdefault(unit, {})[account] = part
        return found

    def contracts(self, period):
        """Each reference with its seller, its buyer and its volume, in the order of references."""
        return [(reference, *row) for reference, row in sorted(self.of(CONTRACTS, period).values.items())]

    def reading(self, period, unit):
        row = self.of(METERS, period).values.get(unit)
        return None if row is None else rules.Reading._make(row)

    def price(self, period):
        (price,) = self.of(PRICES, period).values.get(None, (None,))
        return price

    def settled(self, periods):
        """What each of these periods settles to, by its number."""
        market, kinds = rules.Market(self.accounts(), self.units_of_day), (METERS, REALLOCATIONS, CONTRACTS)
        return {period: market.settle(*(self.of(kind, period) for kind in kinds), self.price(period)) for period in periods}


def named(kind, key):
    """What a key is of."""
    period, key = key
    if kind in REGISTERED:
        return f"{'party' if kind == PARTIES else 'unit'} {key}"
    if kind == PRICES:
        return f"the price of period {period}"
    if kind == REALLOCATIONS:
        return f"{key[0]} to {name_of(key[1])} in period {period}"
    return f"{key} in period {period}"


def valued(kind, value):
    """What a row says, as files write it."""
    if value is None:
        return "nothing"
    if kind == METERS:
        metered, tlm, balancing = value
        told = f"{decimal(metered, KWH)} MWh x {decimal(tlm, TLM)}"
        return f"{told}, balancing {decimal(balancing, KWH)}" if balancing else told
    if kind == PRICES:
        return per_mwh(*value)
    if kind == CONTRACTS:
        seller, buyer, kwh = value
        pair = f"{name_of(seller)} to {name_of(buyer)}" if seller and buyer else "no seller and buyer"
        return f"{pair}, {decimal(kwh, KWH)} MWh"
    if kind == REALLOCATIONS:
        return f"{decimal(value[0], PERCENT)} % and {decimal(value[1], KWH)} MWh"
    if kind == PARTIES:
        return " to ".join(map(date_or_number, value))
    lead, is_interconnector, *days = value
    mark = ", interconnector" if is_interconnector else ""
    return f"{name_of(lead)}{mark}, {' to '.join(map(date_or_number, days))}"


def date_or_number(day):
    """The date of a day, if it is one that files may have."""
    return clock.date_of(day) if clock.FIRST <= day <= clock.LAST else f"day {day}"
