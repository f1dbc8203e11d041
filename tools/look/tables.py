"""Whether the tables have what the accepted files say."""

from .accepted import CONTRACTS, METERS, PARTIES, PRICES, REALLOCATIONS, UNITS, cited, registrations_of
from .beside import sum_of
from .columns import NOTHING, Held, Keys, held_by_period
from .inputs import date_or_number, named, valued
from .office import name_of


def held(office, day, period=None):
    """What the tables have in force, by kind and then by period, as `Inputs` has it."""
    return {
        PARTIES: registered(*zip(*office.party_rows())),
        UNITS: registered(*units_of(*zip(*office.unit_rows()))),
        METERS: by_period(office.readings(day, period)),
        PRICES: by_period([(number, None, price) for number, price in office.prices(day, period)]),
        CONTRACTS: by_period(contracts_of(office, day, period)),
        REALLOCATIONS: by_period(
            [(number, (unit, office.account(party, side)), *part) for number, unit, party, side, *part in office.reallocations(day, period)]
        ),
    }


def contracts_of(office, day, period):
    """A period, a reference, its seller and its buyer, and its volume."""
    references = office.references()
    for number, reference, kwh in office.contracts(day, period):
        yield number, reference, *references.get(reference, (None, None)), kwh


def registered(names=(), *columns):
    """Rows of a key and a value."""
    return {None: Held(Keys([*names]), columns)} if names else {}


def units_of(names=(), parties=(), sides=(), marks=(), *days):
    """The columns of units, with the lead account in place of its party and side."""
    return names, [*zip(parties, sides)], [*map(bool, marks)], *days


def by_period(rows):
    """Rows of a period, a key and a value."""
    periods, names, *columns = [*zip(*rows)] or [(), ()]
    return held_by_period(periods, names, columns)


def sums_of(kinds):
    """A sum for each kind of what is in force."""
    return {kind: sum_of([(period, held.sum) for period, held in sorted(periods.items())]) for kind, periods in kinds.items()}


def departures(office, inputs, sums):
    """A line for each row in force that isn't the one that the files give. `sums` are those of the tables, if they are known."""
    accepted, lines = inputs.accepted, [*inputs.accepted.miscounts, *registrations_apart(office, inputs)]
    if sums is not None and sums == sums_of(inputs.held):
        return lines
    for kind, periods in held(office, accepted.day, accepted.period).items():
        for period in sorted(periods.keys() | inputs.held[kind].keys()):
            one, other = (rows.get(period, NOTHING) for rows in (periods, inputs.held[kind]))
            if not one.is_same(other):
                lines += [departure(accepted, kind, (period, key), one.values.get(key), other.values.get(key)) for key in apart(one.values, other.values)]
    return lines


def registrations_apart(office, inputs):
    """A line for each registration that isn't one of its unit's rows. Version 1 keeps none."""
    if office.version == 1:
        return []
    kept, rows = office.registrations(), inputs.accepted.rows_of_units()
    wanted = {(unit, first): (lead, last) for unit, own in rows.items() for lead, first, last in registrations_of(own)}
    return [
        f"unit {unit} from {date_or_number(first)}: the table leads has {led(kept, unit, first)}, and the files say {led(wanted, unit, first)}"
        for unit, first in apart(kept, wanted)
    ]


def led(registrations, unit, first):
    """What a registration says."""
    if (unit, first) not in registrations:
        return "nothing"
    lead, last = registrations[unit, first]
    return f"{name_of(lead)} to {date_or_number(last)}"


def apart(one, other):
    """The keys that have another value."""
    return sorted((key for key in one.keys() | other.keys() if one.get(key) != other.get(key)), key=str)


def departure(accepted, kind, key, value, follows):
    """What a table has under a key, and what the files say. Of a unit several rows may say it together."""
    entry = accepted.entry(kind, key)
    says = f"{cited(entry)} says" if entry and entry.value == follows else "the files say"
    told = f"{says} {valued(kind, follows)}" if entry else "no accepted file says so"
    return f"{named(kind, key)}: the table {kind} has {valued(kind, value)}, and {told}"
