"""`look why`: how an account comes to what it pays, in a period or in a day, each figure from those before it."""

from . import clock
from .figures import KWH, PERCENT, TLM, counted, decimal, mwh, per_mwh, pounds
from .office import KINDS, name_of
from .recount import recounted
from .rules import parts_of, subsidiary_credit
from .statement import account_is_there, of_account
from .telling import DONE, FAULT, Fault, Told
from .texts import item, listed
from .words import kind_or, period, taken, takes_account, takes_date, takes_office

LARGEST = 3


def take_words(command):
    takes_office(command)
    takes_account(command)
    takes_date(command)
    told = "the latest run and the whole day, if not given"
    command.add_argument("rest", nargs="*", default=[], type=kind_or(period), metavar="KIND PERIOD", help=told)


def judge(asked):
    asked.kind, asked.period = taken(asked.rest)


def tell(office, asked):
    """The figures of a period, or the sums of a day."""
    account_is_there(office, asked.account)
    kind = office.run(asked.date, asked.kind)
    if asked.period is not None and asked.period > clock.count(asked.date):
        raise Fault(f"{clock.date_of(asked.date)} has {clock.count(asked.date)} periods, and no period {asked.period}")
    recount = recounted(office, asked.date, kind, asked.period)
    rows = of_account(recount, asked.account)
    lines = OfDay(recount, asked.account, rows).lines() if asked.period is None else OfPeriod(recount, asked.account, rows).lines()
    return Told([*lines, "", *recount.closing()], FAULT if recount.faults() else DONE)


def pays(account, pence):
    return item(f"{name_of(account)} {'pays' if pence >= 0 else 'is paid'}", pounds(abs(pence)))


def standing(imbalance):
    return "long" if imbalance > 0 else "short" if imbalance < 0 else "in balance"


class OfPeriod:
    """An account in a period of a run."""

    def __init__(self, recount, account, rows):
        ((self.period, self.row),) = rows.items()
        self.recount, self.inputs, self.account = recount, recount.inputs, account
        self.credits = {unit: ticks for unit, *one, ticks in recount.periods[self.period].credits() if tuple(one) == account}

    def lines(self):
        begins = clock.start(self.recount.day, self.period)
        ends = begins + clock.PERIOD
        clocks = f"{clock.wall_clock(begins)} {clock.zone(begins)} to {clock.wall_clock(ends)} {clock.zone(ends)}"
        kind = KINDS[self.recount.kind]
        head = f"{name_of(self.account)}, {clock.date_of(self.recount.day)} period {self.period} ({clocks}), run {kind}"
        return [head, "", *self.energy(), *self.charge(), *self.share(), pays(self.account, self.row.charge + self.row.share)]

    def energy(self):
        """The credited energy, what is taken off it, and the imbalance."""
        lines = [item("Credited energy", mwh(self.row.credited), "MWh")]
        for unit in self.credits:
            lines += self.unit_lines(unit)
        lines.append(item("Balancing volume, taken off", mwh(-self.row.balancing or 0), "MWh"))
        lines += self.balancing_lines()
        lines.append(item("Contracts, sold less bought, taken off", mwh(-self.row.contracts or 0), "MWh"))
        lines += self.contract_lines()
        lines.append(item("Imbalance", mwh(self.row.imbalance), f"MWh, {standing(self.row.imbalance)}"))
        return lines

    def unit_lines(self, unit):
        """What the account is credited from a unit."""
        reading, ticks = self.inputs.reading(self.period, unit), self.credits[unit]
        registered = self.inputs.units_of_day.get(unit)
        mark = ", an interconnector's" if registered and registered.is_interconnector else ""
        if reading is None or registered is None:
            return [item(f"  {unit}, of which no reading was accepted", mwh(ticks))]
        given = self.inputs.given(self.period).get(unit, {})
        metered = f"{decimal(reading.metered, KWH)} MWh x {decimal(reading.tlm, TLM)}"
        if registered.lead != self.account:
            return [item(f"  {unit}{mark}: {part_of(reading, given.get(self.account))}", mwh(ticks))]
        if not given:
            return [item(f"  {unit}{mark}: {metered}", mwh(ticks))]
        lines = [item(f"  {unit}{mark}: {metered}", mwh(reading.metered * reading.tlm))]
        for account, part in sorted(given.items()):
            credit = subsidiary_credit(reading, *part)
            lines.append(item(f"    less {part_of(reading, part)} to {name_of(account)}", mwh(-credit or 0)))
        return [*lines, item("    the rest is credited", mwh(ticks))]

    def balancing_lines(self):
        """The units that the account leads and that have a balancing volume."""
        lines = []
        for unit, registered in self.inputs.units_of_day.items():
            reading = self.inputs.reading(self.period, unit)
            if registered.lead == self.account and reading and reading.balancing:
                told = f"  {unit}: {decimal(reading.balancing, KWH)} MWh x {decimal(reading.tlm, TLM)}"
                lines.append(item(told, mwh(-reading.balancing * reading.tlm)))
        return lines

    def contract_lines(self):
        """The contracts that the account has part in."""
        lines = []
        for reference, seller, buyer, kwh in self.inputs.contracts(self.period):
            if seller == self.account:
                lines.append(item(f"  {reference}: sold to {name_of(buyer)}", decimal(-kwh, KWH)))
            elif buyer == self.account:
                lines.append(item(f"  {reference}: bought from {name_of(seller)}", decimal(kwh, KWH)))
        return lines

    def charge(self):
        price = self.inputs.price(self.period)
        told = "no price was accepted" if price is None else f"{mwh(-self.row.imbalance or 0)} MWh x {per_mwh(price)}"
        return [item(f"Charge: {told}", pounds(self.row.charge))]

    def share(self):
        """The share of the residual, and how it is found."""
        residual, weights = self.recount.periods[self.period].residual, self.recount.weights(self.period)
        lines = [item(f"Share of the residual, which is {pounds(residual)}", pounds(self.row.share))]
        whole = sum(weights.values())
        alike = f"no account has a weight, so each of {len(weights)} counts alike"
        by = f"weight {mwh(weights[self.account])} of {mwh(whole)} MWh" if whole else alike
        if not residual:
            return [*lines, f"  {by}"]
        parts, left = parts_of(residual, list(weights.values()))
        part = parts[list(weights).index(self.account)]
        pence = part.pence if residual > 0 else -part.pence
        return [*lines, f"  {by}: {pence} whole pence{left_over(part.has_more, left)}"]


def left_over(has_more, left):
    """What came of the pence that were left over."""
    if not left:
        return ""
    if has_more:
        return ", and the one left over" if left == 1 else f", and one of the {left} left over"
    return f"; the {'one' if left == 1 else left} left over {'goes' if left == 1 else 'go'} to others"


def part_of(reading, part):
    """What a reallocation gives of a reading."""
    if part is None:
        return "by no accepted reallocation"
    percent, fixed = part
    share, volume = f"{decimal(percent, PERCENT)} % of {decimal(reading.metered - reading.balancing, KWH)}", f"{decimal(fixed, KWH)} MWh"
    both = f"{share} MWh" if not fixed else volume if not percent else f"({share} + {volume})"
    return f"{both} x {decimal(reading.tlm, TLM)}"


class OfDay:
    """An account in all periods of a run."""

    def __init__(self, recount, account, rows):
        self.recount, self.account, self.rows = recount, account, rows

    def lines(self):
        recount, kind, date = self.recount, KINDS[self.recount.kind], clock.date_of(self.recount.day)
        credited, balancing, contracts, imbalance, charge, share = (sum(column) for column in zip(*self.rows.values()))
        sides = [standing(row.imbalance) for row in self.rows.values()]
        stood = listed([f"{side} in {sides.count(side)}" for side in ("long", "short", "in balance") if side in sides])
        residual = sum(kept.residual for kept in recount.periods.values())
        return [
            f"{name_of(self.account)}, {date}, run {kind}, sums of {counted(len(self.rows), 'period')}",
            "",
            item("Credited energy", mwh(credited), "MWh"),
            *(item(f"  {unit}", mwh(ticks)) for unit, ticks in self.units()),
            item("Balancing volume, taken off", mwh(-balancing or 0), "MWh"),
            item("Contracts, sold less bought, taken off", mwh(-contracts or 0), "MWh"),
            *(item(f"  {reference}: {told}", decimal(kwh, KWH)) for reference, told, kwh in self.contracts()),
            item("Imbalance", mwh(imbalance), f"MWh, {stood}"),
            item("Charges", pounds(charge)),
            item(f"Shares of the residuals, which are {pounds(residual)}", pounds(share)),
            pays(self.account, charge + share),
            *self.largest(),
        ]

    def units(self):
        """What the account is credited from each unit."""
        sums = {}
        for kept in self.recount.periods.values():
            for unit, party, side, ticks in kept.credits():
                if (party, side) == self.account:
                    sums[unit] = sums.get(unit, 0) + ticks
        return sorted(sums.items())

    def contracts(self):
        """Each reference that the account has part in, with what it adds to the imbalance."""
        sums = {}
        for period in self.rows:
            for reference, seller, buyer, kwh in self.recount.inputs.contracts(period):
                if self.account in (seller, buyer):
                    told = f"sold to {name_of(buyer)}" if seller == self.account else f"bought from {name_of(seller)}"
                    key = reference, told
                    sums[key] = sums.get(key, 0) + (-kwh if seller == self.account else kwh)
        return [(*key, kwh) for key, kwh in sorted(sums.items())]

    def largest(self):
        """The periods in which most is paid, either way."""
        paid = {period: row.charge + row.share for period, row in self.rows.items()}
        first = [period for period in sorted(paid, key=lambda period: (-abs(paid[period]), period))[:LARGEST] if paid[period]]
        if not first:
            return []
        named = ", ".join(f"period {period} {pounds(paid[period])}" for period in first)
        return [f"The largest: {named}. `look why` with a period shows it."]
