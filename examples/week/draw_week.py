#!/usr/bin/env python3
"""Draws a week's imbalances and residual cashflow as an SVG picture, from results exports of `settle`.

usage: draw_week.py [FILE..] > week.svg
A FILE has one export or several, one behind the other. Without a FILE they come on standard input. Of each date the
latest run is drawn. The same exports give the same bytes."""
import csv
import datetime
import fileinput
import sys

KINDS = ["SF", "R1", "R2", "R3", "RF", "DF"]
MWH, POUND = 10**10, 100  # imbalances are whole numbers of 10^-10 MWh, cash is in pence
LONG, SHORT, CASH, TEXT, FAINT, GRID, BAND = "#1f6fb4", "#d5661a", "#555555", "#1a1a1a", "#666666", "#dddddd", "#fcf3d6"
WIDTH, LEFT, PLOT, TOP, GAP = 980, 132, 740, 146, 24  # in points: the picture, and where its plots are
ENERGY, MONEY = 380, 130  # how high the plots of imbalances are together, and that of the cash


def latest(lines):
    """By date, the kind of its latest run, and that run's rows: account, period, imbalance and charge."""
    runs = {}
    for date, kind, account, period, _, _, _, imbalance, charge, _ in csv.reader(lines):
        if date != "date":
            rows = runs.setdefault(date, {}).setdefault(KINDS.index(kind), [])
            rows.append((account, int(period), int(imbalance.replace(".", "")), int(charge)))
    return {date: (KINDS[max(kinds)], kinds[max(kinds)]) for date, kinds in sorted(runs.items())}


def by_period(dates):
    """How many periods each date has, each account's imbalances in all periods, and the residual cashflow."""
    counts = [max(period for _, period, _, _ in rows) for _, rows in dates.values()]
    imbalances, cash = {}, [0] * sum(counts)
    for at, (_, rows) in enumerate(dates.values()):
        for account, period, imbalance, charge in rows:
            place = sum(counts[:at]) + period - 1
            imbalances.setdefault(account, [0] * sum(counts))[place] = imbalance
            cash[place] -= charge
    return counts, imbalances, cash


def number(value, unit, decimals, sign):
    """So many units, with a minus sign, the sign of a currency, and commas."""
    return ("\u2212" if value < 0 else "") + sign + f"{abs(value) / unit:,.{decimals}f}"


def text(x, y, words, anchor="start", fill=TEXT, weight="normal", size=12):
    look = f'text-anchor="{anchor}" fill="{fill}" font-weight="{weight}" font-size="{size}"'
    return f'<text x="{x:.1f}" y="{y:.1f}" {look}>{words}</text>'


def line(x, y, to, stroke=GRID):
    return f'<path d="M{x:.1f} {y:.1f}{to}" stroke="{stroke}"/>'


def area(name, values, zero, scale, width, fill):
    """A step from the line of zero for each Settlement Period. Steps of one height in a row are drawn as one."""
    path, last = f"M{LEFT} {zero:.1f}", f"{zero:.1f}"
    for place, value in enumerate([*values, 0]):
        if (y := f"{zero - value * scale:.1f}") != last:
            path += f"H{LEFT + place * width:.1f}V{y}"
        last = y
    return f'<path id="{name}" d="{path}Z" fill="{fill}"/>'


def plot(top, name, values, width, height, unit, decimals, sign, fills):
    """A plot, and where it ends: lines at round numbers, an area above zero and one below it, and the sum of each.
    `height` is how high a unit is drawn."""
    high, low, scale, right = max(0, *values), min(0, *values), height / unit, LEFT + len(values) * width
    zero = top + high * scale
    step = next(times * 10**power * unit for power in range(9) for times in (1, 2, 5) if times * 10**power * height >= 20)
    parts = [text(14, zero + 4, name, weight="bold")]
    for mark in range(-(-low // step), high // step + 1):
        if mark:
            parts.append(line(LEFT, zero - mark * step * scale, f"H{right:.1f}"))
            parts.append(text(LEFT - 6, zero - mark * step * scale + 4, number(mark * step, unit, 0, sign), "end", FAINT))
    for side, pick, fill, y in ("above", max, fills[0], zero - 3), ("below", min, fills[1], zero + 13):
        parts.append(area(f"{name.split()[0]}-{side}", [pick(0, value) for value in values], zero, scale, width, fill))
        if total := sum(pick(0, value) for value in values):
            parts.append(text(WIDTH - 10, y, number(total, unit, decimals, sign), "end", fill))
    return [*parts, line(LEFT, zero, f"H{right:.1f}", FAINT)], zero - low * scale


def day(date, kind, left, width, count, total, bottom):
    """What stands behind the plots for a date, and what over them."""
    name, middle, right = datetime.date.fromisoformat(date), left + count * width / 2, left + count * width
    behind = [line(left, TOP - 66, f"V{bottom + 56:.1f}")]
    words = [(TOP - 50, f"{name:%a} {name.day} {name:%b}", "bold"), (TOP - 35, f"{kind}, {count} periods", "normal")]
    words.append((bottom + 46, number(total, POUND, 2, "£"), "bold"))
    if count != 48:
        behind.insert(0, f'<path d="M{left:.1f} {TOP - 66}H{right:.1f}V{bottom + 56:.1f}H{left:.1f}Z" fill="{BAND}"/>')
        words.append((TOP - 20, "clocks go back" if count > 48 else "clocks go forward", "normal"))
    parts = [text(middle, y, said, "middle", weight=weight) for y, said, weight in words]
    for period in range(1, count, 12):
        x = left + (period - 0.5) * width
        parts += [line(x, bottom + 8, "v4", FAINT), text(x, bottom + 24, period, "middle", FAINT, size=11)]
    return behind, parts


def draw(dates):
    """The picture of the runs of these dates."""
    counts, imbalances, cash = by_period(dates)
    width, right, bottom = round(PLOT / sum(counts), 1), WIDTH - 10, TOP - GAP
    greatest = {account: max(map(abs, values)) for account, values in imbalances.items()}
    small = [account for account in imbalances if 50 * greatest[account] < max(greatest.values())]
    plots = {account: values for account, values in imbalances.items() if account not in small}
    plots["All accounts"] = [sum(values) for values in zip(*imbalances.values())]
    height = ENERGY * MWH / (sum(max(0, *values) - min(0, *values) for values in plots.values()) or 1)
    behind, parts = [], []
    for name, values in plots.items():
        made, bottom = plot(bottom + GAP, name, values, width, height, MWH, 1, "", (LONG, SHORT))
        parts += made
    told = "Residual cashflow in pounds: a plus is collected from the accounts by their shares, a minus is paid out to them"
    parts.append(text(14, bottom + 44, told))
    height = MONEY * POUND / (max(0, *cash) - min(0, *cash) or 1)
    made, bottom = plot(bottom + 62, "Residual", cash, width, height, POUND, 2, "£", (CASH, CASH))
    parts += made
    for at, (date, (kind, _)) in enumerate(dates.items()):
        begin, end = sum(counts[:at]), sum(counts[: at + 1])
        back, over = day(date, kind, LEFT + begin * width, width, counts[at], sum(cash[begin:end]), bottom)
        behind, parts = behind + back, parts + over
    title = f"Imbalances and residual cashflow, {min(dates)} to {max(dates)}"
    long, short = (f'<tspan fill="{fill}" font-weight="bold">{word}</tspan>' for fill, word in [(LONG, "long"), (SHORT, "short")])
    told = f"Imbalance in MWh, all on one scale: an account is {long} where it has too much energy, {short} where too little"
    parts += [text(14, 30, title, weight="bold", size=18), text(14, 56, told)]
    parts += [text(LEFT - 6, TOP - 35, "MWh", "end", FAINT), text(right, TOP - 35, "Sum, MWh", "end", FAINT)]
    parts.append(text(14, bottom + 24, "Settlement Period", fill=FAINT, size=11))
    parts.append(text(14, bottom + 46, "Sum of the day", weight="bold"))
    if small:
        told = f"Not drawn, as never a fiftieth of the greatest imbalance: {', '.join(small)}"
        parts.append(text(14, bottom + 76, told, fill=FAINT))
    size = f'width="{WIDTH}" height="{bottom + 92:.0f}" viewBox="0 0 {WIDTH} {bottom + 92:.0f}"'
    start = f'<svg xmlns="http://www.w3.org/2000/svg" {size} font-family="Verdana, DejaVu Sans, sans-serif">'
    paper = '<rect width="100%" height="100%" fill="#ffffff"/>'
    return "\n".join([start, f"<title>{title}</title>", paper, *behind, *parts, "</svg>\n"])


if __name__ == "__main__":
    sys.stdout.buffer.write(draw(latest(fileinput.input())).encode())
