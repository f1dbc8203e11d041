"""`look missing`: the prices and readings that a date lacks."""

from . import clock
from .figures import counted, periods_named
from .office import name_of
from .telling import Told
from .words import takes_date, takes_office


def take_words(command):
    takes_office(command)
    takes_date(command)


def tell(office, asked):
    """A line for the prices and for each unit that lack some, and what a run would name."""
    day, periods = asked.date, range(1, clock.count(asked.date) + 1)
    held = dict(office.prices(day))
    prices = [period for period in periods if period not in held]
    held = set(office.rows("SELECT unit, period FROM meters WHERE day = ?", day))
    units = office.units_on(day)
    readings = {name: [period for period in periods if (name, period) not in held] for name in units}
    lines = [f"{clock.date_of(day)}, a {clock.weekday_of(day)}: {counted(len(periods), 'period')}, {counted(len(units), 'unit')}"]
    if prices:
        lines.append(f"prices: {told(prices, periods)}")
    for name, numbers in readings.items():
        if numbers:
            lines.append(f"{name} ({name_of(units[name].lead)}): {told(numbers, periods)}")
    return Told([*lines, *found(prices, readings)])


def told(numbers, periods):
    return f"all {len(periods)} periods" if len(numbers) == len(periods) else periods_named(numbers)


def found(prices, readings):
    """How many are missing, and what a run would be refused for."""
    count = sum(map(len, readings.values()))
    if not prices and not count:
        return ["nothing is missing"]
    parts = [counted(len(prices), "price")] * bool(prices) + [counted(count, "reading")] * bool(count)
    lines = [f"{' and '.join(parts)} {'is' if len(prices) + count == 1 else 'are'} missing"]
    if prices:
        return [*lines, f"a run names the first: 53 MissingPrice period {prices[0]}"]
    period, unit = min((numbers[0], name) for name, numbers in readings.items() if numbers)
    return [*lines, f"a run names the first: 54 MissingMeter unit {unit} period {period}"]
