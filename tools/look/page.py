"""`look page`: a run as one page in HTML to read, to print and to keep, or the runs of several dates. It has no script and asks for
nothing from the net, and what it shows is recomputed when it is written."""

import functools
import html

from . import clock
from .accepted import METERS
from .figures import counted, decimal, near, pounds, rounded
from .office import KINDS, name_of
from .picture import LONG, SHORT, drawn, steps_of_day
from .postings import posted_by
from .statement import account_is_there
from .telling import DONE, FAULT, Fault, Told, WrongWords
from .when import kind_of_day
from .words import account, date, kind_or, taken, takes_date, takes_office

STYLE = f"""
body{{font:14px/1.45 Verdana,"DejaVu Sans",sans-serif;max-width:72em;margin:2em auto;padding:0 1em;color:#1a1a1a;background:#fff}}
h1{{margin:0}} h2{{margin-top:1.8em}}
table{{border-collapse:collapse;font-variant-numeric:tabular-nums}}
th,td{{padding:.15em .7em;text-align:right;white-space:nowrap;border-bottom:1px solid #ddd}}
th:first-child,td:first-child{{text-align:left}}
ul{{list-style:none;padding:0}} .no{{color:#b00020}} .yes b{{color:#00632e}} a{{color:inherit}}
.long{{color:{LONG}}} .short{{color:{SHORT}}} svg{{max-width:100%;height:auto}}
.fold{{position:absolute;opacity:0}} .fold+label{{cursor:pointer;display:block;padding:.2em 0}}
.fold+label::before{{content:"▸ "}} .fold:checked+label::before{{content:"▾ "}}
.fold:focus+label{{outline:1px dotted}} .fold~.of{{display:none}} .fold:checked~.of{{display:table;margin-bottom:1em}}
.of th:first-child,.of td:first-child{{text-align:right}}
@media print{{
body{{max-width:none;font-size:10px}} section{{break-inside:avoid}}
.fold~.of{{display:table}} .fold+label::before{{content:""}} .fold+label{{margin-top:1.5em;font-weight:bold}}
}}
"""
POLICY = "default-src 'none'; style-src 'unsafe-inline'"
HEADS = ["Account", "Credited, MWh", "Contracts, MWh", "Imbalance, MWh", "Charges", "Shares", "Pays", "Posted by this run"]
OF_PERIODS = ["Period", "From", "Credited", "Balancing", "Contracts", "Imbalance", "Price", "Charge", "Share", "Pays"]
MINUS = "\u2212"


def take_words(command):
    takes_office(command)
    takes_date(command)
    told = "the run of a date, or the last date of several; of several dates each has its latest run, if no kind is given"
    command.add_argument("rest", nargs="*", default=[], type=kind_or(date), metavar="KIND TO", help=told)
    command.add_argument("--account", type=account, metavar="ACCOUNT", help="the statement of this account alone")


def judge(asked):
    asked.kind, asked.last = taken(asked.rest)
    if asked.kind is None and asked.last is None:
        raise WrongWords("the KIND of the run, or TO, is missing")
    if asked.last is not None and asked.last < asked.date:
        raise WrongWords("TO is before the first date")


def tell(office, asked):
    """The page, and a fault if a law that it shows doesn't hold."""
    if asked.account is not None:
        account_is_there(office, asked.account)
    if asked.last is not None:
        from . import page_of_dates

        return page_of_dates.tell(office, asked)
    kind = office.run(asked.date, asked.kind)
    posted = posted_by(office, asked.date, kind)
    page = Page(posted, asked.account)
    return Told(page.lines(), FAULT if posted.faults() else DONE, posted.closing() if posted.faults() else ())


def figure(text):
    """A figure as the page writes it."""
    return text.replace("-", MINUS)


def shown_name(one):
    """An account's name. Those of offices have nothing to be escaped."""
    return html.escape(name_of(one))


def row_of(cells, tag="td"):
    return f"<tr>{''.join(f'<{tag}>{cell}</{tag}>' for cell in cells)}</tr>"


def cash_of(row):
    """The charge, the share, and what is paid."""
    return map(pounds, (row.charge, row.share, row.charge + row.share))


def head_of(title):
    """What is above a page's first words."""
    return [
        '<!DOCTYPE html>\n<html lang="en"><head><meta charset="utf-8"/>',
        f'<meta http-equiv="Content-Security-Policy" content="{POLICY}"/>',
        f'<meta name="viewport" content="width=device-width"/><title>{title}</title><style>{STYLE}</style></head><body>',
        f"<h1>{title}</h1>",
    ]


def ticked(laws, faults, since):
    """What holds, or doesn't, with all faults and with what came later."""
    lines = ["<h2>What was recomputed for this page</h2>", "<ul>"]
    for said, holds in laws:
        lines.append(f'<li class="{"yes" if holds else "no"}"><b>{"✓" if holds else "✗"}</b> {said}</li>')
    lines += [f'<li class="no">{html.escape(fault)}</li>' for fault in faults]
    return [*lines, "</ul>", *(f"<p>{html.escape(line)}</p>" for line in since)]


def folded(one, net, is_open, rows):
    """An account's statement, which is folded on the screen and printed open."""
    name = shown_name(one)
    told = f"{name}: {'pays' if net >= 0 else 'is paid'} {pounds(abs(net))}"
    mark = ' checked="checked"' if is_open else ""
    head = f'<section id="{name}"><input class="fold" type="checkbox" id="of-{name}"{mark}/><label for="of-{name}">{told}</label>'
    return [head, f'<table class="of">{rows[0]}', *rows[1:], "</table></section>"]


class Page:
    """A run, with what it posted."""

    def __init__(self, posted, alone):
        self.posted, self.recount = posted, posted.recount
        self.date, self.kind = clock.date_of(posted.day), KINDS[posted.kind]
        self.by_account = {}
        for period, kept in self.recount.periods.items():
            for one, figures in kept.rows():
                self.by_account.setdefault(one, {})[period] = figures
        self.by_account = dict(sorted(self.by_account.items()))
        if alone is not None and alone not in self.by_account:
            raise Fault(f"{posted.office.path}: {self.kind} of {self.date} has no account {name_of(alone)}")
        self.alone = alone

    def lines(self):
        title = f"Run {self.kind} of {self.date}"
        before = f", what changed since {KINDS[self.posted.before.kind]}" if self.posted.before else ", the first run of the date"
        row = self.posted.row
        counts = f"{counted(row.periods, 'period')}, {counted(row.accounts, 'account')}"
        residual = f"Residual {figure(pounds(row.residual))}. {counted(row.postings, 'posting')}{before}."
        return [
            *head_of(title),
            f"<p>{clock.weekday_of(self.posted.day)}{kind_of_day(self.posted.day)}: {counts}. {residual}</p>",
            *self.laws(),
            *self.accounts(),
            *self.field(),
            *self.statements(),
            "</body></html>",
        ]

    def laws(self):
        """What holds, or doesn't. Faults are listed below."""
        return ticked(laws_of(self.posted), self.posted.faults(), self.recount.since())

    def accounts(self):
        """A row for each account in which something happened, and the names of the others."""
        lines = ["<h2>Accounts</h2>", "<table>", row_of(HEADS, "th")]
        still = []
        for one, rows in self.by_account.items():
            sums = [sum(column) for column in zip(*rows.values())]
            pence = self.posted.postings.get(one)
            if not any(sums) and pence is None and not any(any(row) for row in rows.values()):
                still.append(shown_name(one))
                continue
            energy = (figure(rounded(sums[at])) for at in (0, 2, 3))
            cash = (figure(pounds(amount)) for amount in (sums[4], sums[5]))
            net = f"<b>{figure(pounds(sums[4] + sums[5]))}</b>"
            name = f'<a href="#{shown_name(one)}">{shown_name(one)}</a>' if self.alone in (None, one) else shown_name(one)
            lines.append(row_of([name, *energy, *cash, net, "" if pence is None else figure(pounds(pence))]))
        lines.append("</table>")
        lines.append("<p>A plus is what the account pays, and a minus what it is paid.</p>")
        return [*lines, f"<p>Nothing but zeros: {', '.join(still)}.</p>"] if still else lines

    def field(self):
        """The picture of the imbalances."""
        told = (
            '<p>In MWh, all on one scale: <b class="long">long</b> above the line, <b class="short">short</b> below it. At the right '
            "are the sums of both over the day. The residual, in pounds, has a scale of its own.</p>"
        )
        residuals = {period: kept.residual for period, kept in self.recount.periods.items()}
        return ["<h2>Imbalances by period</h2>", told, *drawn(steps_of_day(self.posted.day), self.by_account, residuals)]

    def statements(self):
        """Each account's periods, which are folded on the screen and printed open."""
        lines = ["<h2>Statements</h2>", "<p>Energies are in MWh, and prices in pounds per MWh.</p>"]
        for one, rows in self.by_account.items():
            if self.alone in (None, one) and any(any(row) for row in rows.values()):
                lines += self.statement(one, rows)
        return lines

    def statement(self, one, rows):
        lines = []
        for period, row in rows.items():
            begins, price = self.shown(period)
            cells = [str(period), begins, *map(rounded, row[:4]), price, *cash_of(row)]
            lines.append(figure(f"<tr><td>{'</td><td>'.join(cells)}</td></tr>"))
        return folded(one, sum(row.charge + row.share for row in rows.values()), self.alone is not None, [row_of(OF_PERIODS, "th"), *lines])

    @functools.cache
    def shown(self, period):
        """When a period begins, and its price."""
        price = self.recount.inputs.price(period)
        return clock.wall_clock(clock.start(self.posted.day, period)), "" if price is None else decimal(near(price, 1000), 2)


def laws_of(posted):
    """Sentences about the run, and whether they hold."""
    recount = posted.recount
    periods = [kept.figures for kept in recount.periods.values()]
    return [
        ("Each figure follows from the accepted files.", not recount.differences),
        ("The tables have what the accepted files say.", not recount.of.departures),
        ("Contracts sum to zero in each period.", all(sum(contracts) == 0 for _, _, contracts, *_ in periods)),
        ("Each unit's credits sum to its loss-adjusted volume.", are_whole(recount)),
        (
            "Each imbalance is the credited energy less the balancing volume and the contracts.",
            all(row[3] == row[0] - row[1] - row[2] for figures in periods for row in zip(*figures)),
        ),
        (
            "Charges and shares sum to zero in each period.",
            all(sum(charges) + sum(shares) == 0 for *_, charges, shares in periods),
        ),
        ("Each posting is the new net less the old, and they sum to zero.", not posted.departures and sum(posted.postings.values()) == 0),
    ]


def are_whole(recount):
    """Whether the credits of each unit sum to what it has metered, times its multiplier."""
    for period, kept in recount.periods.items():
        sums, readings = {}, recount.inputs.of(METERS, period).values
        for (unit, _, _), ticks in zip(kept.units.names, kept.ticks):
            sums[unit] = sums.get(unit, 0) + ticks
        if sums != {unit: metered * tlm for unit, (metered, tlm, _) in readings.items() if unit in sums}:
            return False
    return True
