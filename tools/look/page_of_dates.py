"""`look page FROM TO`: the runs of several dates as one page."""

from . import clock
from .figures import counted, pounds, rounded
from .office import KINDS, name_of
from .page import HEADS, cash_of, figure, folded, head_of, laws_of, row_of, shown_name, ticked
from .picture import drawn, steps_of_days
from .postings import posted_by
from .recount import concluded
from .rules import Figures
from .statement import runs_of
from .telling import DONE, FAULT, Fault, Told

OF_DATES = ["Date", "Run", "Periods", "Accounts", "Residual", "Postings"]
OF_ACCOUNT = ["Date", "Run", "Credited", "Balancing", "Contracts", "Imbalance", "Charges", "Shares", "Pays", "Posted by the run"]


def tell(office, asked):
    """The page of the dates from one to another, and a fault if a law that it shows doesn't hold of one of them."""
    dates = [OfDate(posted_by(office, day, kind)) for day, kind in runs_of(office, asked)]
    page = Dates(dates, asked.account)
    if asked.account is not None and asked.account not in page.sums:
        raise Fault(f"{office.path}: no run of these dates has an account {name_of(asked.account)}")
    faults = page.faults()
    return Told(page.lines(), FAULT if faults else DONE, concluded(faults, "") if faults else ())


class OfDate:
    """What is told of a date. The run's other rows don't stay, since there may be many dates."""

    def __init__(self, posted):
        recount = posted.recount
        self.day, self.date, self.kind, self.row = posted.day, clock.date_of(posted.day), KINDS[posted.kind], posted.row
        self.laws, self.faults, self.since = laws_of(posted), posted.faults(), recount.since()
        self.sums, self.postings = recount.account_sums, posted.postings
        recount.of.let_go()


class Dates:
    """The runs of several dates."""

    def __init__(self, dates, alone):
        self.dates, self.alone = dates, alone
        self.by_account = {}
        for one in dates:
            for account, sums in one.sums.items():
                self.by_account.setdefault(account, {})[one.day] = sums
        self.by_account = dict(sorted(self.by_account.items()))
        self.sums = {account: Figures._make(map(sum, zip(*rows.values()))) for account, rows in self.by_account.items()}

    def faults(self):
        return [f"{one.date} {one.kind}: {fault}" for one in self.dates for fault in one.faults]

    def lines(self):
        first, last = self.dates[0].date, self.dates[-1].date
        residual = sum(one.row.residual for one in self.dates)
        counts = f"{counted(len(self.dates), 'date')}, {counted(len(self.sums), 'account')}"
        since = [f"{one.date}: {line}" for one in self.dates for line in one.since]
        return [
            *head_of(f"Runs of {first} to {last}"),
            f"<p>{counts}. Residuals {figure(pounds(residual))}.</p>",
            *ticked(self.laws(), self.faults(), since),
            *self.table(),
            *self.accounts(),
            *self.field(),
            *self.statements(),
            "</body></html>",
        ]

    def laws(self):
        """What holds of all dates."""
        return [(said, all(dict(one.laws)[said] for one in self.dates)) for said, _ in self.dates[0].laws]

    def table(self):
        """A line for each date."""
        lines = ["<h2>Dates</h2>", "<table>", row_of(OF_DATES, "th")]
        for one in self.dates:
            counts = one.row.periods, one.row.accounts, pounds(one.row.residual), one.row.postings
            lines.append(figure_row([one.date, one.kind, *map(str, counts)]))
        return [*lines, "</table>"]

    def accounts(self):
        """A row for each account in which something happened, and the names of the others."""
        lines, still = ["<h2>Accounts</h2>", "<table>", row_of([*HEADS[:-1], "Posted by these runs"], "th")], []
        for account, sums in self.sums.items():
            posted = [one.postings[account] for one in self.dates if account in one.postings]
            if not posted and not any(any(row) for row in self.by_account[account].values()):
                still.append(shown_name(account))
                continue
            name = shown_name(account)
            told = f'<a href="#{name}">{name}</a>' if self.alone in (None, account) else name
            energy = (rounded(sums[at]) for at in (0, 2, 3))
            cells = *energy, *cash_of(sums), pounds(sum(posted)) if posted else ""
            lines.append(row_of([told, *map(figure, cells)]))
        signs = "A plus is what the account pays, and a minus what it is paid."
        lines += ["</table>", f"<p>{signs} A run posts only what has changed since the run of its date before it.</p>"]
        return [*lines, f"<p>Nothing but zeros: {', '.join(still)}.</p>"] if still else lines

    def field(self):
        """The picture of the imbalances."""
        told = (
            '<p>Each step is the sum of a date, in MWh, all on one scale: <b class="long">long</b> above the line, '
            '<b class="short">short</b> below it. At the right are the sums of both. The residual, in pounds, has a scale of its own.</p>'
        )
        steps = steps_of_days([one.day for one in self.dates])
        residuals = {one.day: one.row.residual for one in self.dates}
        return ["<h2>Imbalances by date</h2>", told, *drawn(steps, self.by_account, residuals, " on a date")]

    def statements(self):
        """Each account's dates, which are folded on the screen and printed open."""
        lines = ["<h2>Statements</h2>", "<p>Energies are in MWh.</p>"]
        for account, rows in self.by_account.items():
            if self.alone in (None, account) and any(any(row) for row in rows.values()):
                net = self.sums[account].charge + self.sums[account].share
                lines += folded(account, net, self.alone is not None, [row_of(OF_ACCOUNT, "th"), *self.rows(account)])
        return lines

    def rows(self, account):
        """An account's line for each date."""
        for one in self.dates:
            if account in one.sums:
                sums, posted = one.sums[account], one.postings.get(account)
                yield figure_row([one.date, one.kind, *map(rounded, sums[:4]), *cash_of(sums), "" if posted is None else pounds(posted)])


def figure_row(cells):
    """A date's cells, of which the first has its own dashes."""
    return row_of([cells[0], *map(figure, cells[1:])])
