"""`look statement`: an account's figures of a date, a line for each period; or of a range of dates, a line for each date."""

from . import clock
from .figures import PRICE, decimal, mwh, near, pounds, rounded
from .office import KINDS, name_of
from .recount import concluded, recounted
from .telling import DONE, FAULT, Fault, Told, WrongWords
from .texts import table
from .words import date, kind_or, taken, takes_account, takes_date, takes_office

HEADS = ["PER", "FROM", "CREDITED", "BALANCING", "CONTRACTS", "IMBALANCE", "PRICE", "CHARGE", "SHARE", "PAYS"]
DATES = ["DATE", "KIND", "CREDITED", "BALANCING", "CONTRACTS", "IMBALANCE", "CHARGES", "SHARES", "PAYS"]
CSV = (
    "date,kind,account,period,from,credited,balancing,contracts,imbalance,price,charge_pence,"
    "residual_pence,weight,weights,share_pence,pays_pence"
)


def take_words(command):
    takes_office(command)
    takes_account(command)
    takes_date(command)
    told = "one date and its latest run, if not given"
    command.add_argument("rest", nargs="*", default=[], type=kind_or(date), metavar="TO KIND", help=told)
    command.add_argument("--csv", action="store_true", help="all digits, and what each share is computed from")


def judge(asked):
    asked.kind, asked.last = taken(asked.rest)
    if asked.last is not None and asked.last < asked.date:
        raise WrongWords("TO is before the first date")


def tell(office, asked):
    """The statement of a date, or of the dates from one to another."""
    account_is_there(office, asked.account)
    dates = [OfDate(recounted(office, day, kind), asked) for day, kind in runs_of(office, asked)]
    status = FAULT if any(date.faults for date in dates) else DONE
    if asked.csv:
        return Told([CSV, *(line for date in dates for line in date.lines)], status, closing_of(dates))
    lines = of_range(dates, asked.account) if asked.last is not None else dates[0].lines
    return Told([*lines, "", *closing_of(dates)], status)


def runs_of(office, asked):
    """The day and the kind of each run that is asked for. In a range dates without such a run are left out."""
    if asked.last is None:
        return [(asked.date, office.run(asked.date, asked.kind))]
    days = [day for (day,) in office.rows("SELECT DISTINCT day FROM runs WHERE day BETWEEN ? AND ? ORDER BY day", asked.date, asked.last)]
    kinds = {day: list(office.runs(day)) for day in days}
    found = [(day, kinds[day][-1] if asked.kind is None else asked.kind) for day in days if asked.kind is None or asked.kind in kinds[day]]
    if not found:
        raise Fault(f"{office.path}: no date from {clock.date_of(asked.date)} to {clock.date_of(asked.last)} has such a run")
    return found


class OfDate:
    """What is told of a date. The run's other rows don't stay, since a range may have many dates."""

    def __init__(self, recount, asked):
        self.date, self.kind, rows = clock.date_of(recount.day), KINDS[recount.kind], of_account(recount, asked.account)
        self.sums = sums_of(rows.values())
        self.lines = []
        if asked.csv:
            self.lines = list(csv_lines(recount, asked.account, rows))
        elif asked.last is None:
            self.lines = of_periods(recount, asked.account, rows)
        self.since, self.faults, self.closing = recount.since(), recount.faults(), recount.closing()
        recount.of.let_go()


def closing_of(dates):
    """Whether all follows, of one run or of several."""
    if len(dates) == 1:
        return dates[0].closing
    lines, faults = [], []
    for one in dates:
        lines += [f"{one.date}: {line}" if at == 0 else line for at, line in enumerate(one.since)]
        faults += [f"{one.date} {one.kind}: {fault}" for fault in one.faults]
    return [*lines, *concluded(faults, "All figures follow from the rows that the runs used.")]


def account_is_there(office, account):
    if account[0] not in office.parties():
        raise Fault(f"{office.path}: there is no account {name_of(account)}: no party {account[0]} is registered")


def of_account(recount, account):
    """The account's figures by period."""
    rows = {period: row for period, kept in recount.periods.items() if (row := kept.of(account)) is not None}
    if not rows:
        raise Fault(f"{recount.office.path}: {KINDS[recount.kind]} of {clock.date_of(recount.day)} has no account {name_of(account)}")
    return rows


def of_periods(recount, account, rows):
    """A line for each period, and the sums of the day."""
    lines = []
    for period, row in rows.items():
        price = recount.inputs.price(period)
        shown = "-" if price is None else decimal(near(price, 1000), 2)
        cash = map(pounds, (row.charge, row.share, row.charge + row.share))
        begins = clock.wall_clock(clock.start(recount.day, period))
        lines.append([str(period), begins, *map(rounded, row[:4]), shown, *cash])
    sums = sums_of(rows.values())
    lines.append(["DAY", "", *map(rounded, sums[:4]), "", *map(pounds, (*sums[4:], sum(sums[4:])))])
    head = f"STATEMENT  {name_of(account)}  {clock.date_of(recount.day)}  {KINDS[recount.kind]}    energy in MWh, prices in £/MWh"
    return [head, "", *table(HEADS, lines, words=())]


def sums_of(rows):
    return [sum(column) for column in zip(*rows)]


def of_range(dates, account):
    """A line for each date, and the sums of them."""
    sums = sums_of(one.sums for one in dates)
    rows = [(one.date, one.kind, one.sums) for one in dates] + [("ALL", "", sums)]
    lines = [[date, kind, *map(rounded, sums[:4]), *map(pounds, (*sums[4:], sum(sums[4:])))] for date, kind, sums in rows]
    head = f"STATEMENT  {name_of(account)}  {dates[0].date} to {dates[-1].date}    energy in MWh"
    return [head, "", *table(DATES, lines, words=(0, 1))]


def csv_lines(recount, account, rows):
    """The figures with all their digits, and what a share is computed from."""
    for period, row in rows.items():
        weights = recount.weights(period)
        price = recount.inputs.price(period)
        begins = clock.in_utc(clock.start(recount.day, period))
        yield ",".join(
            [
                *(clock.date_of(recount.day), KINDS[recount.kind], name_of(account), str(period), begins),
                *map(mwh, row[:4]),
                "" if price is None else decimal(price, PRICE),
                *(str(row.charge), str(recount.periods[period].residual), mwh(weights.get(account, 0)), mwh(sum(weights.values()))),
                *(str(row.share), str(row.charge + row.share)),
            ]
        )
