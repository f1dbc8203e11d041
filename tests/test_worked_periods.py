"""The two worked periods of docs/market.md. Each figure is compared with one that is worked out here or by
`bench/peer_office.py`, which needs no built program, and with what the built program settles."""
import contextlib
import csv
import io
import re
import runpy
import unittest
import unittest.mock
from fractions import Fraction

from programs import CONTRACTS, HOME, METER, settle
from test_commands import AtAFile
from test_database import rows_of
from test_desk import DAY, IDLE
from test_program import OfTheProgram
from test_reports import balances, report
from test_settlement import energy

PAGE = (HOME / "docs" / "market.md").read_text(encoding="utf-8")
MWH = 10**10


def section_of(title):
    """The text under a heading of the page."""
    return re.split(r"(?m)^## ", PAGE.split(f"\n## {title}\n")[1])[0]


def tables_of(text):
    """Each table of a text: its heads, and its rows by their first cells."""
    found = []
    for block in re.findall(r"(?:^\|.*\n)+", text, re.MULTILINE):
        heads, _, *rows = ([cell.strip() for cell in line.strip("|\n").split("|")] for line in block.splitlines())
        found.append((heads[1:], [(row[0], row[1:]) for row in rows]))
    return found


def number(cell):
    """A whole number or an exact fraction. An empty cell has no number."""
    return Fraction(cell.replace(",", "")) if cell else None


def numbers(cells):
    return [number(cell) for cell in cells]


def figures(table):
    """The figures of a table by the names of its rows, one for each head."""
    return {name: numbers(cells) for name, cells in table[1]}


def ticks(fraction):
    """An energy as it is written, from units of 10^-10 MWh."""
    return energy(Fraction(fraction, MWH))


def the_peer():
    """The functions of `bench/peer_office.py`."""
    path = str(HOME / "bench" / "peer_office.py")
    with unittest.mock.patch("sys.argv", [path, "init", ":memory:"]), contextlib.redirect_stdout(io.StringIO()):
        return runpy.run_path(path)


class Period:
    """A worked period: what is settled in it, and the tables of the page from which its units come."""

    def __init__(self, title):
        self.text = section_of(title)
        self.tables = tables_of(self.text)
        self.peer = the_peer()
        self.take_units(next(table for table in self.tables if "Lead account" in table[0]))
        (price,) = re.findall(r"with the price ([0-9,]+) in 10\^-5 of a pound per MWh", self.text)
        self.price = int(number(price))
        (pounds,) = re.findall(r"The price is ([0-9.]+) pounds per MWh", self.text)
        self.pounds = pounds
        self.accounts_table, self.cash_table = [table for table in self.tables if "GENCO-P" in table[0]]
        self.accounts = self.accounts_table[0]

    def take_units(self, table):
        """The lead account of each unit, and its reading in kWh and 10^-7."""
        self.units, self.told = {}, {}
        for unit, cells in table[1]:
            row = dict(zip(table[0], cells))
            balancing = number(row.get("Balancing, kWh", "0"))
            self.units[unit] = (row["Lead account"], *map(int, (number(row["Metered, kWh"]), number(row["Multiplier, 10^-7"]), balancing)))
            self.told[unit] = (number(row["Loss-adjusted, ticks"]), row["In MWh"])

    def settled(self, contracts, reallocated, interconnectors):
        """As the peer settles it: each account's figures by name, what it is credited from each unit, and the residual."""
        account = self.peer["account"]
        leads = [(unit, account(lead), int(unit in interconnectors)) for unit, (lead, *_) in self.units.items()]
        meters = {unit: reading for unit, (_, *reading) in self.units.items()}
        parties = sorted({name.partition("-")[0] for name in self.accounts})
        everybody = [(party, side) for party in parties for side in (0, 1)]
        sold = [(account(seller), account(buyer), kwh) for seller, buyer, kwh in contracts]
        parts = {unit: [(account(to), percent, fixed) for to, percent, fixed in rows] for unit, rows in reallocated.items()}
        rows, credits, residual = self.peer["settle"](everybody, leads, meters, sold, parts, self.price)
        heads = ("credited", "balancing", "contracts", "imbalance", "charge", "share")
        by_account = {f"{party}-{'PC'[side]}": dict(zip(heads, row)) for (party, side), *row in rows}
        return by_account, {(unit, f"{party}-{'PC'[side]}"): credit for unit, party, side, credit in credits}, residual


FIRST, SECOND = Period("A worked period"), Period("A second worked period")


def rows_of_files():
    """The rows that the page has for the second period, by kind of file."""
    found = {}
    for kind, (row,) in next(rows for heads, rows in SECOND.tables if heads == ["Row"]):
        found.setdefault(kind.strip("`"), []).append(row.strip("`"))
    return found


def tuples_of_files():
    """The same rows, as the peer reads them."""
    return {kind: list(SECOND.peer["tuples"](kind, csv.reader(rows))) for kind, rows in rows_of_files().items()}


def second_by_the_peer():
    rows = rows_of_files()
    contracts = [row.split(",") for row in rows["contracts"]]
    sold = [(row[1], row[2], int(Fraction(row[-1]) * 1000)) for row in contracts]
    parts = {}
    for row in rows["reallocations"]:
        unit, to, _, _, percent, fixed = row.split(",")
        parts.setdefault(unit, []).append((to, int(Fraction(percent) * 10**5), int(Fraction(fixed) * 1000)))
    marked = [row.split(",")[0] for row in rows["units"] if row.split(",")[3] == "yes"]
    return sold, parts, SECOND.settled(sold, parts, marked)


class OnThePage(unittest.TestCase):
    """Each figure of the page."""

    needs_programs = False

    def check_accounts(self, period, settled, credits, interconnectors=()):
        """The table of the accounts."""
        told = figures(period.accounts_table)

        def column(name):
            return [settled[account][name] for account in period.accounts]

        self.assertEqual(told["Credited energy"], column("credited"))
        self.assertEqual(told["Balancing volume"], column("balancing"))
        self.assertEqual(told["Net contracts"], column("contracts"))
        self.assertEqual(told["Contracts, kWh sold less bought"], [Fraction(net, 10**7) for net in column("contracts")])
        self.assertEqual(told["Imbalance"], column("imbalance"))
        written = dict(period.accounts_table[1])["Imbalance, MWh"]
        self.assertEqual(written, [ticks(imbalance) for imbalance in column("imbalance")])
        weights = dict.fromkeys(period.accounts, 0)
        for (unit, account), credit in credits.items():
            weights[account] += 0 if unit in interconnectors else abs(credit)
        self.assertEqual(told["Weight"], list(weights.values()))
        for unit in period.units:
            if f"Credit from {unit}" in told:
                wanted = [credits.get((unit, account)) for account in period.accounts]
                self.assertEqual(told[f"Credit from {unit}"], wanted)
        return weights

    def check_cash(self, period, settled, residual):
        """The charges in the table of the cash, and the residual in the text."""
        told = figures(period.cash_table)
        products = [-settled[account]["imbalance"] * period.price for account in period.accounts]
        self.assertEqual(told["-imbalance * price"], products)
        self.assertEqual(told["Divided by 10^13"], [Fraction(product, 10**13) for product in products])
        self.assertEqual(told["Charge, pence"], [settled[account]["charge"] for account in period.accounts])
        self.assertIn(f"= {residual} pence", period.text)
        self.assertEqual(Fraction(period.pounds) * 10**5, period.price)
        return told

    def check_units(self, period):
        for unit, (_, metered, multiplier, _) in period.units.items():
            self.assertEqual(period.told[unit], (metered * multiplier, ticks(metered * multiplier)))

    def others_are_nought(self, period, settled):
        for account in settled.keys() - set(period.accounts):
            self.assertEqual(set(settled[account].values()), {0}, account)

    def test_the_first(self):
        self.check_units(FIRST)
        settled, credits, residual = FIRST.settled([("GENCO-P", "SUPCO-C", 99_000)], {}, ())
        self.check_accounts(FIRST, settled, credits)
        self.check_cash(FIRST, settled, residual)
        self.others_are_nought(FIRST, settled)
        shares = [settled[account]["share"] for account in FIRST.accounts]
        self.assertIn(f"the shares are {shares[0]} and {shares[1]}", FIRST.text)
        nets = [settled[account]["charge"] + settled[account]["share"] for account in FIRST.accounts]
        self.assertIn(f"the accounts pay {nets[0]} and {nets[1]} pence in all", FIRST.text)

    def test_the_second(self):
        self.check_units(SECOND)
        _, _, (settled, credits, residual) = second_by_the_peer()
        weights = self.check_accounts(SECOND, settled, credits, ("I1",))
        told = self.check_cash(SECOND, settled, residual)
        self.others_are_nought(SECOND, settled)
        self.assertLess(residual, 0)
        whole = sum(weights.values())
        parts = [divmod(-residual * weights[account], whole) for account in SECOND.accounts]
        self.assertEqual(list(zip(told["Quota, whole pence"], told["Remainder"])), parts)
        self.assertIn(f"The weights sum to {whole:,}.", SECOND.text)
        shares = [settled[account]["share"] for account in SECOND.accounts]
        self.assertEqual(told["Share, pence"], shares)
        nets = [settled[account]["charge"] + settled[account]["share"] for account in SECOND.accounts]
        self.assertEqual((told["Charge and share, pence"], sum(nets)), (nets, 0))

    def test_the_credits_of_the_second(self):
        """Each step from the reading and the reallocation of G1 to both credits."""
        _, parts, (_, credits, _) = second_by_the_peer()
        ((to, percent, fixed),) = parts["G1"]
        lead, metered, multiplier, balancing = SECOND.units["G1"]
        (told,) = (figures(table) for table in SECOND.tables if table[0] == [""])
        product = (metered - balancing) * percent
        steps = [product, fixed * 10**7, product + fixed * 10**7, (product + fixed * 10**7) * multiplier]
        steps.append(Fraction(steps[-1], 10**7))
        wanted = [*steps, credits["G1", to], credits["G1", lead]]
        self.assertEqual([figure for (figure,) in told.values()], wanted)
        self.assertEqual(ticks(wanted[-2]), energy(wanted[-3] / MWH))
        self.assertEqual(wanted[-2] + wanted[-1], metered * multiplier)
        self.assertIn(f"The percentage is {percent:,} in 10^-5 of a percent, and the fixed volume is {fixed} kWh", SECOND.text)

    def test_the_rows_of_the_second(self):
        """They have the readings of the table of the units, and its price."""
        found = tuples_of_files()
        account = SECOND.peer["account"]
        leads = [(unit, *account(lead)) for unit, (lead, *_) in SECOND.units.items()]
        self.assertEqual([row[:3] for row in found["units"]], leads)
        readings = [(unit, *reading) for unit, (_, *reading) in SECOND.units.items()]
        self.assertEqual([(row[0], *row[3:]) for row in found["meters"]], readings)
        self.assertEqual([price for _, _, price in found["prices"]], [SECOND.price])


class FirstByTheProgram(OfTheProgram):
    def test_the_period(self):
        """What `settle period` prints of the example has the page's figures."""
        told = figures(FIRST.accounts_table)
        written = dict(FIRST.accounts_table[1])["Imbalance, MWh"]
        charges = figures(FIRST.cash_table)["Charge, pence"]
        lines = [
            f"account {account} credited {ticks(credited)} imbalance {imbalance} charge {charge}\n"
            for account, credited, imbalance, charge in zip(FIRST.accounts, told["Credited energy"], written, charges)
        ]
        text = "".join(lines) + f"residual {-sum(charges)}\n"
        self.assertEqual(settle("period", METER, CONTRACTS, FIRST.pounds), (0, text.encode(), b""))


class SecondByTheProgram(AtAFile):
    """The page's rows in an office in a file, on a date with nothing else in its other periods."""

    def lines(self):
        """The lines that load the rows, one file for each kind, and make SF."""
        rows = rows_of_files()
        rows["meters"] += [f"{unit},{DAY},{period},0,1,0" for period in IDLE for unit in SECOND.units]
        rows["prices"] += [f"{DAY},{period},0" for period in IDLE]
        return [*(self.load(kind, lines, f"{kind}.csv") for kind, lines in rows.items()), self.order("SF")]

    def settled(self, *lines):
        """What is printed for these lines after those of the period."""
        self.init()
        before = self.lines()
        status, written, told = self.run_script_at("".join(f"{line}\n" for line in [*before, *lines]))
        self.assertEqual((status, told), (0, b""))
        found = written.decode().splitlines()
        (run,) = re.findall(r"(?m)^run .*$", SECOND.text)
        self.assertEqual(found[len(before) - 1], run)
        return found[len(before) :]

    def test_the_results(self):
        rows = list(csv.DictReader(self.settled(report("csv"))))
        told = {**figures(SECOND.accounts_table), **figures(SECOND.cash_table)}
        energies = {"credited": "Credited energy", "balancing": "Balancing volume", "contracts": "Net contracts", "imbalance": "Imbalance"}
        pence = {"charge": "Charge, pence", "share": "Share, pence"}
        found = {row["account"]: row for row in rows if row["period"] == "1"}
        for place, account in enumerate(SECOND.accounts):
            row = found.pop(account)
            self.assertEqual({name: row[name] for name in energies}, {name: ticks(told[head][place]) for name, head in energies.items()})
            self.assertEqual({name: int(row[name]) for name in pence}, {name: told[head][place] for name, head in pence.items()})
        self.assertEqual(sorted(found), ["GENCO-C", "LINKCO-C", "SUPCO-P"])
        for row in [*found.values(), *(row for row in rows if row["period"] != "1")]:
            self.assertEqual([row[name] for name in (*energies, *pence)], [energy(0)] * 4 + ["0"] * 2)

    def test_the_credits_and_what_is_posted(self):
        self.assertEqual(self.settled(balances())[0], "account,moved_pence")
        told = figures(SECOND.accounts_table)
        wanted = {
            (unit, account): credit
            for unit in SECOND.units
            for account, credit in zip(SECOND.accounts, told[f"Credit from {unit}"])
            if credit is not None
        }
        rows = [row for _, _, period, *row in rows_of(self.database, "credits") if period == 1]
        found = {(unit, f"{party}-{'PC'[side]}"): credit for unit, party, side, credit in rows}
        self.assertEqual(found, wanted)
        posted = {f"{party}-{'PC'[side]}": pence for _, _, party, side, pence in rows_of(self.database, "postings")}
        self.assertEqual(posted, dict(zip(SECOND.accounts, figures(SECOND.cash_table)["Charge and share, pence"])))


if __name__ == "__main__":
    unittest.main()
