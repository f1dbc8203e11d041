"""What `./look` recomputes, without a built program: `why`, `statement`, `compare` and `postings`, over the offices of `versions` and
over offices that are drawn at random. All figures beside them are worked out in docs/market.md, printed on the guide's pages, or those
of `bench/peer_office.py`. A number that is changed in an office's file is found."""
import contextlib
import csv
import gc
import io
import itertools
import os
import random
import re
import shutil
import signal
import sqlite3
import subprocess
import time
import unittest
import unittest.mock
import weakref
from fractions import Fraction

import kept_offices
from looking import Looking, MadeOffice, RandomOffice, changing, look
from programs import IS_LONG
from test_desk import DAY, MARKET
from test_settlement import energy
from test_versions import PRINTED
from test_worked_periods import FIRST, SECOND, figures, rows_of_files

from look import beside, office, recount, rules
from look import figures as texts

SEEDS = range(40 if IS_LONG else 3)
# How many numbers are changed in each column, and of how many random offices.
EACH, OFFICES = (8, 6) if IS_LONG else (2, 1)
# The columns of numbers from which a statement follows, or which it shows.
NUMBERS = {
    "results": ["credited", "balancing", "contracts", "imbalance", "charge", "share"],
    "credits": ["credited"],
    "meters": ["metered", "tlm", "balancing"],
    "prices": ["price"],
    "contracts": ["kwh"],
    "reallocations": ["percent", "fixed"],
    "refs": ["seller_side", "buyer_side"],
    "units": ["side", "interconnector", "day_from", "day_to"],
    "parties": ["day_from", "day_to"],
}
# Those of what a run posted.
POSTED = {"postings": ["pence"], "runs": ["periods", "accounts", "residual", "postings"]}
# What is told of single changes of the example market's office after R1, in period 23.
TOLD = {
    "meters SET metered = 1 WHERE unit = '2__SHOPS' AND period = 23": "2__SHOPS in period 23: the table meters has 0.001 MWh x 1.0108000, "
    "and meters-2.csv row 1 says -59.316 MWh x 1.0108000",
    "prices SET price = -250000 WHERE period = 23": "the price of period 23: the table prices has -£2.50000, "
    "and prices.csv row 23 says £54.66260",
    "contracts SET kwh = 1 WHERE reference = 'SEA-CITY' AND period = 23": "SEA-CITY in period 23: "
    "the table contracts has SEALINK-P to CITYSUP-C, 0.001 MWh, and contracts.csv row ",
    "reallocations SET percent = 1 WHERE unit = 'E_MOOR-1' AND period = 23": "E_MOOR-1 to CITYSUP-P in period 23: "
    "the table reallocations has 0.00001 % and 0.000 MWh, and reallocations.csv row ",
    "results SET charge = 5 WHERE kind = 1 AND party = 'TRADECO' AND side = 0 AND period = 23": "TRADECO-P, period 23: "
    "the run has the charge £0.05, and £0.00 follows",
    "credits SET credited = 5 WHERE kind = 1 AND unit = '2__SHOPS' AND period = 23": "2__SHOPS to CITYSUP-C, period 23: "
    "the run has the credit 0.0000000005, and -59.9566128000 follows",
    "parties SET day_to = 20000 WHERE party = 'TRADECO'": "party TRADECO: the table parties has 2024-01-01 to 2024-10-04, "
    "and parties.csv row 4 says 2024-01-01 to 2099-12-31",
}
COLUMNS = "credited balancing contracts imbalance".split()


# The figures of a statement, as `why` shows each; what is taken off has the other sign.
SHOWN = {
    "credited": (1, r"Credited energy +(\S+) MWh"),
    "balancing": (-1, r"Balancing volume, taken off +(\S+) MWh"),
    "contracts": (-1, r"Contracts, sold less bought, taken off +(\S+) MWh"),
    "imbalance": (1, r"Imbalance +(\S+) MWh, (?:long|short|in balance)"),
    "charge": (1, r"Charge: .* (\S+)"),
    "share": (1, r"Share of the residual, which is \S+ +(\S+)"),
}


def number(text):
    return int(re.sub(r"[,.£]", "", text))


def shown_figures(lines):
    """The figures of an account in a period, in the smallest units."""
    text = "\n".join(lines)
    return {name: sign * number(re.search(rf"(?m)^{form}$", text)[1]) for name, (sign, form) in SHOWN.items()}


class Rules(unittest.TestCase):
    """The rules of docs/market.md by themselves."""

    needs_programs = False

    def test_nearest(self):
        """Beside fractions, with halves away from zero."""
        for value, unit in itertools.product(range(-25, 26), (1, 2, 7, 10)):
            exact = Fraction(abs(value), unit)
            whole = int(exact) + (exact - int(exact) >= Fraction(1, 2))
            self.assertEqual(texts.near(value, unit), whole if value >= 0 else -whole)

    def test_shares_of_the_page(self):
        """The three splits that docs/market.md names."""
        self.assertEqual(rules.shares_of(1, [5, 5, 5]), [1, 0, 0])
        self.assertEqual(rules.shares_of(-100, [2, 2, 2]), [-34, -33, -33])
        self.assertEqual(rules.shares_of(10, [0, 0, 0, 0]), [3, 3, 2, 2])

    def test_no_split_is_nearer(self):
        """Of all splits whose amounts are the quotas rounded down or up, with the first of the nearest taken."""
        for total, weights in itertools.product(range(-6, 7), itertools.product(range(4), repeat=3)):
            shares = rules.shares_of(total, list(weights))
            used = weights if any(weights) else (1, 1, 1)
            quotas = [Fraction(total * weight, sum(used)) for weight in used]
            whole = [abs(quota) // 1 for quota in quotas]
            sign = 1 if total >= 0 else -1
            splits = [[sign * int(low + more) for low, more in zip(whole, mores)] for mores in itertools.product((1, 0), repeat=3)]
            splits = [split for split in splits if sum(split) == total]
            far = [sum((amount - quota) ** 2 for amount, quota in zip(split, quotas)) for split in splits]
            self.assertEqual(shares, splits[far.index(min(far))], (total, weights))

    def test_texts(self):
        for value, digits, text in ((0, 3, "0.000"), (-5, 3, "-0.005"), (12345, 3, "12.345"), (-1, 10, "-0.0000000001")):
            self.assertEqual(texts.decimal(value, digits), text)
            self.assertEqual(texts.scaled([text], digits), [value])
        for text, digits, value in (("-0", 3, 0), ("007", 3, 7000), ("-.5".replace(".", "0."), 3, -500), ("1.5", 7, 15_000_000)):
            self.assertEqual(texts.scaled([text], digits), [value])
        self.assertEqual([texts.pounds(pence) for pence in (0, -5, 123456, -100)], ["£0.00", "-£0.05", "£1,234.56", "-£1.00"])
        for ticks, text in ((10**7, "0.001"), (-(10**7), "-0.001"), (5 * 10**6, "0.001"), (-5 * 10**6, "-0.001"), (4_999_999, "0.000")):
            self.assertEqual(texts.rounded(ticks), text)
        self.assertEqual(texts.per_mwh(-381_579), "-£3.81579")
        self.assertEqual(texts.spans([1, 2, 3, 5, 7, 8]), "1 to 3, 5, 7 to 8")


class WorkedPeriods(Looking):
    """`why`, beside the tables of docs/market.md."""

    def why(self, database, account, *words):
        """What is told by its labels: the last word of each line that has an amount, without its unit."""
        lines = self.shows("why", "--db", database, account, DAY, "SF", *words)
        self.assertEqual(lines[-1], "All figures follow from the rows of the accepted files.")
        found = {}
        for line in lines:
            if words := re.fullmatch(r" *(.*?)  +(-?£?[\d,]+\.\d+)( MWh.*)?", line):
                found[words[1]] = words[2]
        return lines, found

    def test_the_first(self):
        """GENCO-P of the market of two parties. It pays 38 pence."""
        lines, told = self.why(self.kept("first-sf"), "GENCO-P", "1")
        page, at = figures(FIRST.accounts_table), FIRST.accounts.index("GENCO-P")
        self.compare(told, {name: row[at] for name, row in page.items()})
        self.assertEqual(lines[0], "GENCO-P, 2024-07-01 period 1 (00:00 BST to 00:30 BST), run SF")
        self.assertEqual(told["G1: 100.000 MWh x 0.9950000"], "99.5000000000")
        self.assertEqual(told["C1: sold to SUPCO-C"], "-99.000")
        self.assertEqual(told["Charge: -0.5000000000 MWh x £50.00000"], "-£25.00")
        self.assertEqual(told["Share of the residual, which is £50.50"], "£25.38")
        self.assertIn("  weight 99.5000000000 of 197.9900000000 MWh: 2537 whole pence, and the one left over", lines)
        self.assertEqual(told["GENCO-P pays"], "£0.38")

    def compare(self, told, page):
        self.assertEqual(told["Credited energy"], energy(page["Credited energy"] / 10**10))
        self.assertEqual(told["Balancing volume, taken off"], energy(-page["Balancing volume"] / 10**10))
        self.assertEqual(told["Contracts, sold less bought, taken off"], energy(-page["Net contracts"] / 10**10))
        self.assertEqual(told["Imbalance"], energy(page["Imbalance"] / 10**10))

    def test_the_second(self):
        """With a reallocation, an interconnector, balancing volumes, and a residual that is paid out."""
        made = MadeOffice(self.room / "office.db")
        for kind, rows in rows_of_files().items():
            later = {"meters": [f"{unit},{DAY},{period},0,1,0" for period in range(2, 49) for unit in ("G1", "I1", "S1")]}
            later["prices"] = [f"{DAY},{period},0" for period in range(2, 49)]
            made.load(kind, rows + later.get(kind, []))
        made.run(DAY, "SF")
        page, cash = figures(SECOND.accounts_table), figures(SECOND.cash_table)
        self.assertEqual(len(SECOND.accounts), 3)
        for at, account in enumerate(SECOND.accounts):
            lines, told = self.why(made.path, account, "1")
            self.compare(told, {name: row[at] for name, row in page.items()})
            label = next(name for name in told if name.startswith("Charge: "))
            self.assertTrue(label.endswith(" MWh x £62.50000"))
            self.assertEqual(number(told[label]), cash["Charge, pence"][at])
            self.assertEqual(number(told["Share of the residual, which is -£1,062.63"]), cash["Share, pence"][at])
            weight, quota = page["Weight"][at], cash["Quota, whole pence"][at]
            self.assertIn(f"  weight {energy(weight / 10**10)} of 229.7700000000 MWh: {-quota} whole pence", "\n".join(lines))
            pays = cash["Charge and share, pence"][at]
            self.assertEqual(number(told[f"{account} {'pays' if pays >= 0 else 'is paid'}"]), abs(pays))
            day = self.why(made.path, account)[1]
            self.assertEqual((number(day["Charges"]), day["Imbalance"]), (cash["Charge, pence"][at], told["Imbalance"]))
        lines, told = self.why(made.path, "GENCO-P", "1")
        self.assertEqual(told["less (33.33333 % of 96.000 + 0.500 MWh) x 0.9912000 to SUPCO-C"], "-32.2139968282")
        self.assertEqual(told["the rest is credited"], "66.9060031718")
        self.assertEqual(told["G1: 4.000 MWh x 0.9912000"], "-3.9648000000")
        lines, told = self.why(made.path, "SUPCO-C", "1")
        self.assertEqual(told["G1: (33.33333 % of 96.000 + 0.500 MWh) x 0.9912000"], "32.2139968282")
        self.assertEqual((told["C1: bought from GENCO-P"], told["C2: bought from LINKCO-P"]), ("60.000", "19.750"))
        self.assertIn(": -75320 whole pence, and the one left over", "\n".join(lines))
        lines, told = self.why(made.path, "LINKCO-P", "1")
        self.assertEqual(told["I1, an interconnector's: 20.000 MWh x 1.0000000"], "20.0000000000")


class Kept(Looking):
    """The kept offices, whose figures the guide has."""

    def test_all_runs_follow(self):
        """Of each kept office. What doesn't follow from the rows in force follows from those that were corrected."""
        count = 0
        for name in (name for name in kept_offices.OFFICES if not name.startswith("new")):
            database = self.kept(name)
            with contextlib.closing(sqlite3.connect(shutil.copy(database, self.room / "read.db"))) as read:
                runs = read.execute("SELECT day, kind FROM runs").fetchall() if not name.startswith("killed") else [(19905, 0)]
            for day, kind in runs:
                lines = self.shows("postings", "--db", database, office.clock.date_of(day), office.KINDS[kind])
                self.assertTrue(lines[-1].startswith("All figures follow from the rows "), lines[-1])
                count += 1
        self.assertEqual(count, 30)

    def test_what_the_guide_tells(self):
        """The balances of the market and of the week, from the postings of all runs; and what R1 of the week posted."""
        for name in "market", "week":
            sums = {}
            for date, kind in (line.split()[1:3] for line in PRINTED[name][0]):
                for row in self.csv("postings", "--db", self.kept(name), date, kind):
                    self.assertEqual((row["date"], row["kind"]), (date, kind))
                    sums[row["account"]] = sums.get(row["account"], 0) + int(row["pence"])
            accounts = [f"{party}-{side}" for party in ("CITYSUP", "NORTHGEN", "SEALINK", "TRADECO") for side in "PC"]
            self.assertEqual([sums.get(account, 0) for account in accounts], PRINTED[name][1])
        rows = self.csv("postings", "--db", self.kept("week"), "2024-10-24", "R1")
        posted = {row["account"]: int(row["pence"]) for row in rows}
        self.assertEqual(posted, {"CITYSUP-C": 2_270_973, "CITYSUP-P": -157_202, "NORTHGEN-P": -2_113_771})

    def csv(self, *words):
        """The rows of a table in CSV. That all follows is told on standard error."""
        status, out, err = look(*words, "--csv")
        self.assertEqual(status, 0, err)
        self.assertIn("All figures follow from ", err)
        return list(csv.DictReader(io.StringIO(out)))

    def test_a_run_of_before_a_correction(self):
        """The rows that SF used, and those that came after it, by file and row."""
        lines = self.shows("why", "--db", self.kept("market"), "CITYSUP-C", DAY, "SF", "23")
        self.assertEqual(
            lines[-3:],
            [
                "Since SF these rows have come:",
                "  2__SHOPS in period 23: meters.csv row 115, -65.907 MWh x 1.0108000; then meters-2.csv row 1, -59.316 MWh x 1.0108000",
                "All figures follow from the rows that SF used.",
            ],
        )
        lines = self.shows("why", "--db", self.kept("market"), "CITYSUP-C", DAY, "SF", "22")
        self.assertEqual(lines[-1], "All figures follow from the rows of the accepted files.")
        lines = self.shows("why", "--db", self.kept("dearer-r1"), "GENCO-P", DAY, "SF")
        self.assertEqual(lines[-2], "  the price of period 1: f5.csv row 1, £50.00000; then p2.csv row 1, £60.00000")

    def test_late_rows_are_not_in_force(self):
        """The week's late file has volumes for periods 19 to 26, and those of 19 to 21 came too late."""
        for period, told in ("21", False), ("22", True):
            lines = self.shows("why", "--db", self.kept("week"), "CITYSUP-C", "2024-10-27", period)
            self.assertEqual(any("NORTH-CITY-SUNDAY: bought from NORTHGEN-P" in line for line in lines), told, lines)

    def test_compare(self):
        """The shops' two corrections. Others pay for it by their shares, as the guide's balances and the README's say."""
        lines = self.shows("compare", "--db", self.kept("market"), DAY, "SF", "R1")
        rows = [re.split(r"  +", line) for line in lines[3 : lines.index("", 3)]]
        changes = {row[0]: number(row[-2]) for row in rows}
        self.assertEqual({row[0]: row[-1] for row in rows}, {"CITYSUP-C": "energy", "CITYSUP-P": "share", "NORTHGEN-P": "share"})
        moved = [after - before for after, before in zip(PRINTED["market"][1], PRINTED["without-positions"][1])]
        self.assertEqual(changes, dict(zip(["CITYSUP-P", "CITYSUP-C", "NORTHGEN-P"], moved)))
        self.assertEqual(sum(changes.values()), 0)
        for row in rows:
            self.assertEqual(number(row[-4]) + number(row[-3]), number(row[-2]))
        self.assertIn("By its share of the residual alone: 2 accounts.", lines)
        # The residual printed by SF, and that by R1.
        self.assertIn(f"fell by {texts.pounds(565_755 - 491_572)}, so the residual rose by as much", "\n".join(lines))
        self.assertIn("  period 23  2__SHOPS: -66.6187956000 -> -59.9566128000 MWh (meters-2.csv row 1)", lines)
        self.assertIn("  period 24  2__SHOPS: -69.9362412000 -> -62.9425160000 MWh (meters-2.csv row 2)", lines)
        self.assertEqual(energy(Fraction(-65_907 * 10_108_000, 10**10)), "-66.6187956000")
        self.assertEqual(self.shows("compare", "--db", self.kept("first-r1"), DAY, "SF", "R1")[2], "no account pays anything else")

    def test_a_price_that_changed(self):
        lines = self.shows("compare", "--db", self.kept("dearer-r1"), DAY, "SF", "R1")
        self.assertIn("  the price of period 1: £50.00000 -> £60.00000 (p2.csv row 1)", lines)
        # At 60 pounds GENCO-P pays 45 pence and not 38.
        self.assertRegex("\n".join(lines), r"GENCO-P .* -£5\.00 +£5\.07 +£0\.07  price\n")

    def test_a_statement(self):
        """GENCO-P is charged -25.00 and has a share of 25.38 in period 1, and nothing happens after it."""
        lines = self.shows("statement", "--db", self.kept("first-sf"), "GENCO-P", DAY)
        self.assertEqual(lines[0], "STATEMENT  GENCO-P  2024-07-01  SF    energy in MWh, prices in £/MWh")
        self.assertEqual(lines[3].split(), ["1", "00:00", "99.500", "0.000", "99.000", "0.500", "50.00", "-£25.00", "£25.38", "£0.38"])
        self.assertEqual(lines[4].split(), ["2", "00:30", *["0.000"] * 4, "0.00", *["£0.00"] * 3])
        self.assertEqual(lines[51].split(), ["DAY", "99.500", "0.000", "99.000", "0.500", "-£25.00", "£25.38", "£0.38"])

    def test_a_range(self):
        """Each date by its latest run, or by one kind. The sums are the guide's balances."""
        lines = self.shows("statement", "--db", self.kept("week"), "NORTHGEN-P", "2024-10-21", "2024-10-27")
        rows = [line.split() for line in lines[3:10]]
        self.assertEqual([row[:2] for row in rows], [[f"2024-10-{day}", "R1" if day == 24 else "SF"] for day in range(21, 28)])
        self.assertEqual(sum(number(row[-1]) for row in rows), PRINTED["week"][1][2])
        self.assertEqual(number(lines[10].split()[-1]), PRINTED["week"][1][2])
        lines = self.shows("statement", "--db", self.kept("week"), "NORTHGEN-P", "2024-10-21", "2024-10-27", "R1")
        self.assertEqual([line.split()[:2] for line in lines[3:4]], [["2024-10-24", "R1"]])

    def test_the_rows_of_a_date_do_not_stay(self):
        """Of a range of dates, though nothing is collected that holds itself."""
        gc.disable()
        self.addCleanup(gc.enable)
        database, held = self.kept("week"), []
        made = recount.Recount.__init__

        def init(self, *words):
            held.append(weakref.ref(self))
            made(self, *words)
            tally.append(sum(one() is not None for one in held))

        with unittest.mock.patch.object(recount.Recount, "__init__", init):
            for words in ("statement", "--db", database, "CITYSUP-C"), ("page", "--db", database):
                tally = []
                self.assertEqual(look(*words, "2024-10-01", "2024-10-31")[0], 0)
                self.assertGreaterEqual(len(tally), 7)
                self.assertLessEqual(max(tally), 2)  # those of a date

    def test_a_journal(self):
        """Its amounts are the postings and sum to zero; `hledger` and `ledger` take it, if they are there."""
        status, out, _ = look("postings", "--db", self.kept("week"), "2024-10-24", "R1", "--hledger")
        self.assertEqual(status, 0)
        head, *entries = out.splitlines()
        self.assertEqual(head, "2024-10-24 * Run R1")
        found = {name: number(amount) for name, amount in map(str.split, entries)}
        self.assertEqual(found, {"CITYSUP:P": -157_202, "CITYSUP:C": 2_270_973, "NORTHGEN:P": -2_113_771})
        self.assertIn("; R1 of 2024-07-01 has posted nothing", look("postings", "--db", self.kept("first-r1"), DAY, "R1", "--hledger")[1])
        for program in filter(shutil.which, ("hledger", "ledger")):
            made = subprocess.run([program, "-f", "-", "balance"], input=out, capture_output=True, text=True)
            self.assertEqual(made.returncode, 0, made.stderr)


class AtRandom(Looking):
    """Offices with corrections between their runs, whose results the peer computes."""

    def test_all_runs_follow(self):
        """Each figure of each account is the peer's, and what each run posted."""
        for seed in SEEDS:
            with self.subTest(seed):
                made = RandomOffice(self.room / f"{seed}.db", seed)
                nets = {}
                for kind in made.runs:
                    results = [row for row in csv.DictReader(io.StringIO(made.results(made.date, kind)))]
                    posted = {row["account"]: int(row["pence"]) for row in self.csv("postings", "--db", made.path, made.date, kind)}
                    paid = {}
                    for row in results:
                        paid[row["account"]] = paid.get(row["account"], 0) + int(row["charge"]) + int(row["share"])
                    self.assertEqual(posted, {one: net - nets.get(one, 0) for one, net in paid.items() if net != nets.get(one, 0)})
                    nets = paid
                    self.compare(made, kind, results)

    def compare(self, made, kind, results):
        """The statement of an account, and why it pays that in a period."""
        account = made.draw.choice(made.accounts)
        wanted = [row for row in results if row["account"] == account]
        found = self.csv("statement", "--db", made.path, account, made.date, kind)
        for row, right in zip(found, wanted, strict=True):
            for name in (*COLUMNS, "period"):
                self.assertEqual(row[name], right[name])
            self.assertEqual((row["charge_pence"], row["share_pence"]), (right["charge"], right["share"]))
        right = made.draw.choice(wanted)
        lines = self.shows("why", "--db", made.path, account, made.date, kind, right["period"])
        self.assertRegex("\n".join(lines), rf"\nImbalance +{re.escape(right['imbalance'])} MWh")

    csv = Kept.csv

    def test_why_of_each_statement(self):
        """Of each account in each period of each run: its figures are the peer's, and all follows."""
        draw, asked = random.Random(7), 0
        for seed in range(OFFICES if not IS_LONG else 10):
            made = RandomOffice(self.room / f"{seed}.db", seed)
            for kind in made.runs:
                rows = list(csv.DictReader(io.StringIO(made.results(made.date, kind))))
                for row in rows if IS_LONG else draw.sample(rows, 4):
                    lines = self.shows("why", "--db", made.path, row["account"], made.date, kind, row["period"])
                    self.assertEqual(shown_figures(lines), {name: number(row[name]) for name in SHOWN}, (seed, kind, row))
                    self.assertRegex(lines[-1], r"^All figures follow from the rows (that \w\w used|of the accepted files)\.$")
                    asked += 1
        self.assertGreater(asked, 5_000 if IS_LONG else 8)

    def test_compare(self):
        """The changes of all accounts are the postings, and sum to zero. Each cause is a row of a file of after the first run."""
        made = RandomOffice(self.room / "office.db", 3)
        lines = self.shows("compare", "--db", made.path, made.date, "SF", "R1")
        rows = [re.split(r"  +", line) for line in lines[3 : lines.index("", 3)]]
        posted = {row["account"]: int(row["pence"]) for row in self.csv("postings", "--db", made.path, made.date, "R1")}
        self.assertEqual({row[0]: number(row[-2]) for row in rows if number(row[-2])}, posted)
        causes = lines[lines.index("Because of") + 1 : lines.index("", lines.index("Because of"))]
        self.assertGreater(len(causes), 3)
        for cause in causes:
            self.assertRegex(cause, r"\((f7|f8|f9|f10|f11)\.csv row \d\)$|and \d+ more")


class Successions(Looking):
    """A unit that another account leads from the date of a run on, after its first run. The figures are worked out by hand."""

    def setUp(self):
        super().setUp()
        self.made = MadeOffice(self.room / "office.db")
        for kind, rows in (*MARKET, ("parties", ["NEWCO,2024-01-01,,newco0001"])):
            self.made.load(kind, rows)
        self.made.run(DAY, "SF")
        self.name = self.made.load("units", [f"S1,NEWCO,C,no,{DAY},"])
        self.made.run(DAY, "R1")

    def test_why(self):
        """98.49 MWh of demand are NEWCO's now, and nobody has sold them to it. It pays 4,924.50 pounds, and 25.12 of the residual."""
        lines = self.shows("why", "--db", self.made.path, "NEWCO-C", DAY, "R1", 1)
        self.assertEqual(shown_figures(lines)["credited"], -984_900_000_000)
        self.assertEqual([number(line.split()[-1]) for line in lines if line.startswith("NEWCO-C pays")], [494_962])
        self.assertEqual(lines[-1], "All figures follow from the rows of the accepted files.")

    def test_what_the_first_run_used(self):
        """The row by which SUPCO-C led the unit on the date."""
        lines = self.shows("why", "--db", self.made.path, "SUPCO-C", DAY, "SF", 1)
        (since,) = (line for line in lines if line.startswith("  unit S1: "))
        then, now = "SUPCO-C, 2024-01-01 to 2099-12-31", f"NEWCO-C, {DAY} to 2099-12-31"
        self.assertEqual(since, f"  unit S1: f2.csv row 2, {then}; then {self.name} row 1, {now}")
        self.assertEqual(lines[-1], "All figures follow from the rows that SF used.")

    def test_compare(self):
        """The row is the cause of what changed."""
        lines = self.shows("compare", "--db", self.made.path, DAY, "SF", "R1")
        at = lines.index("Because of")
        self.assertEqual(lines[at + 1], f"  unit S1: SUPCO-C, 2024-01-01 to 2099-12-31 -> NEWCO-C, {DAY} to 2099-12-31 ({self.name} row 1)")

    def test_a_later_succession(self):
        """It is no cause of anything on the date."""
        self.made.load("units", ["S1,GENCO,C,no,2024-07-02,"])
        lines = self.shows("why", "--db", self.made.path, "NEWCO-C", DAY, "R1", 1)
        self.assertEqual(lines[-1], "All figures follow from the rows of the accepted files.")
        self.assertFalse([line for line in lines if line.startswith("Since ")])

    def test_registrations(self):
        """Both are told if they aren't what the files make."""
        with changing(self.made.path) as made:
            made.execute("UPDATE leads SET day_to = day_to + 1 WHERE unit = 'S1' AND party = 'SUPCO'")
            made.execute("DELETE FROM leads WHERE unit = 'S1' AND party = 'NEWCO'")
        lines = self.shows("why", "--db", self.made.path, "NEWCO-C", DAY, "R1", 1, status=1)
        self.assertEqual(
            [line for line in lines if line.startswith("! ")],
            [
                "! unit S1 from 2024-01-01: the table leads has SUPCO-C to 2024-07-01, and the files say SUPCO-C to 2024-06-30",
                "! unit S1 from 2024-07-01: the table leads has nothing, and the files say NEWCO-C to 2099-12-31",
            ],
        )


class LargeOffice(Looking):
    """What the tables of a large office have is summed up by processes of their own. Here the example market's counts as large."""

    CHANGED = {
        "results": "share",
        "credits": "credited",
        "meters": "balancing",
        "prices": "price",
        "contracts": "kwh",
        "reallocations": "fixed",
        "units": "day_from",
        "parties": "day_from",
        "postings": "pence",
    }

    def told(self, database, least):
        """What is told by some commands, where offices from so many bytes on are large."""
        asked = [("compare", DAY, "SF", "R1"), ("statement", "CITYSUP-C", DAY, "R1"), ("page", DAY, "R1")]
        with unittest.mock.patch.object(office, "LARGE", least):
            return [look(command, "--db", database, *words) for command, *words in asked]

    def test_the_same_is_told(self):
        """As of a small office: where all follows, and where a number of a table is changed."""
        database = self.kept("market")
        told = self.told(database, 0)
        self.assertEqual(told, self.told(database, 1 << 62))
        self.assertEqual({status for status, _, _ in told}, {0})
        for table, column in self.CHANGED.items():
            with self.subTest(table):
                with changing(database) as made:
                    made.execute(f"UPDATE {table} SET {column} = {column} + 1 WHERE rowid = (SELECT max(rowid) FROM {table})")
                told = self.told(database, 0)
                self.assertEqual(told, self.told(database, 1 << 62))
                self.assertIn(1, {status for status, _, _ in told})
                with changing(database) as made:
                    made.execute(f"UPDATE {table} SET {column} = {column} - 1 WHERE rowid = (SELECT max(rowid) FROM {table})")

    def test_a_process_that_comes_to_no_end(self):
        """Nothing is known of it, nothing of it stays, and the rows are looked at one by one."""
        for find in (lambda: 1 // 0), (lambda: os.kill(os.getpid(), signal.SIGKILL)):
            self.assertIsNone(beside.Beside(find).result())
        beside.Beside(lambda: time.sleep(3600)).end()
        with self.assertRaises(ChildProcessError):
            os.waitpid(-1, os.WNOHANG)
        for name, instead in ("tell", lambda *_: os._exit(1)), ("os.fork", unittest.mock.Mock(side_effect=OSError(11, "no process"))):
            with unittest.mock.patch.object(office, "LARGE", 0), unittest.mock.patch(f"look.beside.{name}", instead):
                self.assertEqual(look("postings", "--db", self.kept("market"), DAY, "R1")[0], 0)

    def test_sums(self):
        """The same rows have the same sum, however they were made, and others have another."""
        rows = [("AB", 1, -(2**62)), ("AB", 0, 300)]
        self.assertEqual(beside.sum_of(rows), beside.sum_of([("".join("AB"), int("1"), -int(str(2**62))), ("".join("AB"), 0, int("300"))]))
        others = rows[:1], rows[::-1], [rows[0], ("AB", 0, 301)], [rows[0], ("Ab", 0, 300)], [rows[0], ("A", "B", 0, 300)], []
        self.assertEqual(len({beside.sum_of(each) for each in (rows, *others)}), 7)


class Changed(Looking):
    """Single numbers that are changed in an office's file."""

    def change(self, database, table, column, rowid, value):
        with changing(database) as made:
            made.execute(f"UPDATE {table} SET {column} = ? WHERE rowid = ?", (value, rowid))

    def rows(self, database, table, column):
        """The number, the day, the kind and the period of each row, as far as it has them."""
        with changing(database) as made:
            names = [row[1] for row in made.execute(f"PRAGMA table_info({table})")]
            shown = [name if name in names else "NULL" for name in ("day", "kind", "period")]
            return made.execute(f"SELECT rowid, {column}, {', '.join(shown)} FROM {table}").fetchall()

    def each(self, database, draw, columns, shows):
        """Changes some numbers of each column by one or by more, and sees that each is found in what is shown of its row's run."""
        tried = 0
        for table, names in columns.items():
            for column in names:
                rows = self.rows(database, table, column)
                for rowid, old, day, kind, period in draw.sample(rows, min(EACH, len(rows))):
                    new = 1 - old if column.endswith("side") or column == "interconnector" else old + draw.choice((1, -1, 1000, -(10**9)))
                    self.change(database, table, column, rowid, new)
                    told = [look(*words) for words in shows(day, kind, period)]
                    found = [out for status, out, err in told if status == 1 and ("! " in out or "look: " in err)]
                    self.assertTrue(found, (table, column, rowid, old, new))
                    self.change(database, table, column, rowid, old)
                    tried += 1
        return tried

    def test_why(self):
        """Of the example market and of random offices: of an account in the number's period."""
        draw, tried = random.Random(1), 0
        offices = [(self.kept("market"), DAY, ["SF", "R1"], "TRADECO-P")]
        for seed in range(OFFICES):
            made = RandomOffice(self.room / f"{seed}.db", seed)
            offices.append((made.path, made.date, made.runs, made.accounts[0]))
        for database, date, kinds, account in offices:

            def shows(_, kind, period):
                run = kinds[-1] if kind is None else office.KINDS[kind]
                return [("why", "--db", database, account, date, run, *([period] if period else []))]

            tried += self.each(database, draw, NUMBERS, shows)
            for kind in kinds:
                self.assertEqual(look("why", "--db", database, account, date, kind)[0], 0)
        self.assertGreater(tried, 500 if IS_LONG else 60)

    def test_registrations(self):
        """Each number of a unit's registration, and a registration that is gone, too many or of another party."""
        draw, database = random.Random(4), self.present("market")

        def shows(*_):
            return [("why", "--db", database, "TRADECO-P", DAY, "R1")]

        self.assertGreater(self.each(database, draw, {"leads": ["side", "day_from", "day_to"]}, shows), 5)
        whole = database.read_bytes()
        for change, told in (
            ("UPDATE leads SET party = 'TRADECO' WHERE unit = '2__SHOPS'", "unit 2__SHOPS from 2024-01-01: the table leads has TRADECO-C to 2099-12-31, and the files say CITYSUP-C to 2099-12-31"),
            ("DELETE FROM leads WHERE unit = '2__SHOPS'", "unit 2__SHOPS from 2024-01-01: the table leads has nothing, and the files say CITYSUP-C to 2099-12-31"),
            ("INSERT INTO leads VALUES ('2__SHOPS', 19905, 'TRADECO', 0, 19905)", "unit 2__SHOPS from 2024-07-01: the table leads has TRADECO-P to 2024-07-01, and the files say nothing"),
        ):
            with self.subTest(change):
                database.write_bytes(whole)
                with changing(database) as made:
                    self.assertEqual(made.execute(change).rowcount, 1)
                lines = self.shows("why", "--db", database, "TRADECO-P", DAY, "R1", status=1)
                self.assertEqual([line for line in lines if line.startswith("! ")], [f"! {told}"])
                self.assertEqual(lines[-1], "1 doesn't follow.")

    def test_postings(self):
        """What a run posted, and what its own row has counted."""
        database, draw = self.kept("market"), random.Random(2)

        def shows(day, kind, _):
            return [("postings", "--db", database, DAY, office.KINDS[kind]), ("page", "--db", database, DAY, office.KINDS[kind])]

        self.assertGreater(self.each(database, draw, POSTED, shows), 8)

    def test_what_is_told(self):
        """A reading, a price, a contract and a reallocation that were changed are told with the row that gives them, and a figure with
        the one that follows."""
        for change, told in TOLD.items():
            with self.subTest(change):
                shutil.rmtree(self.room / "market", ignore_errors=True)
                database = self.kept("market")
                with changing(database) as made:
                    self.assertEqual(made.execute(f"UPDATE {change}").rowcount, 1)
                lines = self.shows("why", "--db", database, "CITYSUP-C", DAY, "R1", "23", status=1)
                marked = [line for line in lines if line.startswith("! ")]
                self.assertEqual(len(marked), 1, lines)
                self.assertTrue(marked[0].startswith(f"! {told}"), marked[0])
                self.assertEqual(lines[-1], "1 doesn't follow.")

    def test_rows_that_are_gone_or_too_many(self):
        for change in (
            "DELETE FROM results WHERE kind = 1 AND party = 'TRADECO' AND side = 0 AND period = 23",
            "DELETE FROM credits WHERE kind = 1 AND unit = '2__SHOPS' AND period = 23",
            "DELETE FROM meters WHERE unit = '2__SHOPS' AND period = 23",
            "DELETE FROM prices WHERE period = 23",
            "DELETE FROM contracts WHERE reference = 'SEA-CITY' AND period = 23",
            "DELETE FROM reallocations WHERE unit = 'E_MOOR-1' AND period = 23",
            "DELETE FROM refs WHERE reference = 'SEA-CITY'",
            "DELETE FROM units WHERE unit = 'E_MOOR-1'",
            "DELETE FROM parties WHERE party = 'TRADECO'",
            "DELETE FROM files WHERE kind = 'prices'",
            "INSERT INTO contracts VALUES ('MADE-UP', 19905, 23, 5)",
            "INSERT INTO meters VALUES ('MADE-UP', 19905, 23, 5, 5, 5)",
            "INSERT INTO results VALUES (19905, 1, 23, 'MADEUP', 0, 0, 0, 0, 0, 0, 0)",
            "INSERT INTO credits VALUES (19905, 1, 23, 'MADE-UP', 'CITYSUP', 0, 0)",
            "UPDATE files SET applied = applied + 1 WHERE kind = 'prices'",
            "UPDATE files SET late = late + 1, applied = applied - 1 WHERE kind = 'prices'",
        ):
            with self.subTest(change):
                shutil.rmtree(self.room / "market", ignore_errors=True)
                database = self.kept("market")
                with changing(database) as made:
                    self.assertEqual(made.execute(change).rowcount, 1)
                status, out, err = look("why", "--db", database, "CITYSUP-C", DAY, "R1", "23")
                self.assertEqual(status, 1, out)
                self.assertIn("doesn't follow." if out.count("\n! ") == 1 else "don't follow.", out)
                self.assertEqual(err, "")

    def test_the_count_of_late_rows(self):
        """It says which rows of the week's late file are in force."""
        database = self.kept("week")
        for late in 2, 4:
            with changing(database) as made:
                made.execute("UPDATE files SET late = ?, applied = 8 - ? WHERE name = 'contracts-late.csv'", (late, late))
            status, out, _ = look("why", "--db", database, "CITYSUP-C", "2024-10-27", "SF")
            self.assertEqual(status, 1)
            self.assertIn("! NORTH-CITY-", out)


if __name__ == "__main__":
    unittest.main()
