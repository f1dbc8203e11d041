"""The imbalances of accounts by period or by date as a picture in SVG, on one scale, with the residual below them."""

import collections
import html

from . import clock
from .figures import pounds, rounded
from .office import name_of

LONG, SHORT, CASH, FAINT = "#1f6fb4", "#d5661a", "#555555", "#666666"
LEFT, RIGHT, STEP, GAP, HEIGHT, FOOT = 130, 110, 15, 12, 420, 30  # in points
APART = 4  # steps from a month's name to the next
MOST, CASH_HEIGHT = 24, 80  # accounts, and how high the residual is drawn
MINUS = "\u2212"


# A step of the picture: the period or the day, its name, and the two lines below it.
Step = collections.namedtuple("Step", "key name below")


def steps_of_day(day):
    """A step for each period, with its number and the clock's time two hours apart."""
    numbers = range(1, clock.count(day) + 1)
    clocks = [clock.wall_clock(clock.start(day, number)) for number in numbers]
    return [Step(number, f"period {number}", (str(number), time) if number % 4 == 1 else ()) for number, time in zip(numbers, clocks)]


def steps_of_days(days):
    """A step for each day, with its day of the month, and each month once, where there is room for it."""
    found, months, free = [], set(), 0
    for at, day in enumerate(days):
        date = clock.date_of(day)
        month = "" if date[:7] in months or at < free else date[:7]
        if month:
            months.add(month)
            free = at + APART
        found.append(Step(day, date, (date[8:], month)))
    return found


def drawn(steps, by_account, residuals, over=""):
    """The lines of the picture. Accounts that were never out of balance, or less than others, are named below it."""
    sizes = {one: max(abs(row.imbalance) for row in rows.values()) for one, rows in by_account.items()}
    largest = sorted((one for one in sizes if sizes[one]), key=lambda one: (-sizes[one], one))
    shown = [one for one in by_account if one in set(largest[:MOST])]
    if not shown:
        return ["<p>No account was out of balance.</p>"]
    values = {html.escape(name_of(one)): [imbalance_of(by_account[one], step.key) for step in steps] for one in shown}
    whole = sum(max(0, *of) - min(0, *of) for of in values.values()) + 1
    parts, top = [], 4
    for name, of in values.items():
        made, top = plot(name, steps, of, top + GAP, HEIGHT / whole, (LONG, SHORT), rounded)
        parts += made
    cash = [residuals.get(step.key, 0) for step in steps]
    scale = CASH_HEIGHT / (max(0, *cash) - min(0, *cash) + 1)
    made, bottom = plot("Residual", steps, cash, top + 3 * GAP, scale, (CASH, CASH), pounds)
    width, height = LEFT + STEP * len(steps) + RIGHT, bottom + FOOT
    head = f'<svg xmlns="http://www.w3.org/2000/svg" role="img" width="{width}" height="{height:.0f}" viewBox="0 0 {width} {height:.0f}">'
    return [head, *parts, *made, *axis(steps, bottom), "</svg>", *left_out(by_account, shown, sizes, over)]


def imbalance_of(rows, key):
    return rows[key].imbalance if key in rows else 0


def plot(name, steps, values, top, scale, fills, write):
    """Each step above or below a line, and the sums of both at the right."""
    zero = top + max(0, *values) * scale + GAP / 2
    parts = [f'<text x="4" y="{zero + 4:.1f}" font-size="11" font-weight="bold">{name}</text>']
    for at, value in enumerate(values):
        if value:
            y, high = (zero - value * scale, value * scale) if value > 0 else (zero, -value * scale)
            told = f"{name}, {steps[at].name}: {signed(write(value))}{'' if write is pounds else ' MWh'}"
            place = f'x="{LEFT + at * STEP}" y="{y:.1f}" width="{STEP - 1}" height="{high:.1f}"'
            parts.append(f'<rect {place} fill="{fills[value < 0]}"><title>{told}</title></rect>')
    right = LEFT + len(values) * STEP
    parts.append(f'<path d="M{LEFT} {zero:.1f}H{right}" stroke="{FAINT}"/>')
    for pick, fill, y in (max, fills[0], zero - 2), (min, fills[1], zero + 11):
        if total := sum(pick(0, value) for value in values):
            place = f'x="{right + RIGHT - 4}" y="{y:.1f}" text-anchor="end"'
            parts.append(f'<text {place} font-size="11" fill="{fill}">{signed(write(total))}</text>')
    return parts, zero - min(0, *values) * scale + GAP / 2


def signed(text):
    return text.replace("-", MINUS)


def axis(steps, bottom):
    """The two lines below the steps."""
    for at, step in enumerate(steps):
        for text, size, y in zip(step.below, (10, 9), (bottom + 12, bottom + 24)):
            if text:
                x = LEFT + (at + 0.5) * STEP
                yield f'<text x="{x:.1f}" y="{y:.1f}" text-anchor="middle" font-size="{size}" fill="{FAINT}">{text}</text>'


def left_out(by_account, shown, sizes, over):
    """How many accounts aren't drawn, and how large their imbalances are at most."""
    others = [sizes[one] for one in by_account if one not in set(shown) and sizes[one]]
    if not others:
        return []
    most = f"{rounded(max(others))} MWh{over}"
    return [f"<p>{len(others):,} more accounts were never out of balance by more than {most}, and aren't drawn.</p>"]
