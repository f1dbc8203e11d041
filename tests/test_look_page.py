"""`./look page`, without a built program: the page is read back, and its figures are those of `bench/peer_office.py` and of the guide."""
import csv
import io
import re
import shutil
import unittest
import xml.etree.ElementTree

from looking import Looking, MadeOffice, RandomOffice, changing, look
from programs import HOME
from test_desk import DAY
from test_versions import PRINTED

from look import clock, picture

SVG = "{http://www.w3.org/2000/svg}"
LONG, SHORT = "#1f6fb4", "#d5661a"  # as in examples/week/week.svg
MWH = 10**10
NAME = "party || '-' || substr('PC', side + 1, 1)"  # of an account's row
SUMS = "sum(credited), sum(balancing), sum(contracts), sum(imbalance), sum(charge), sum(share)"
# A law of the page that doesn't hold when a row of the example market's office is changed.
LAWS = {
    "results SET charge = charge + 1 WHERE kind = 1 AND period = 3 AND party = 'CITYSUP' AND side = 0": "Charges and shares sum to zero "
    "in each period.",
    "credits SET credited = credited + 1 WHERE kind = 1 AND period = 3 AND unit = '2__SHOPS'": "Each unit's credits sum to its "
    "loss-adjusted volume.",
    "postings SET pence = pence + 1 WHERE kind = 1 AND party = 'NORTHGEN'": "Each posting is the new net less the old, and they sum to "
    "zero.",
    "prices SET price = price + 1 WHERE period = 3": "The tables have what the accepted files say.",
    "results SET contracts = contracts + 1 WHERE kind = 1 AND period = 3 AND party = 'TRADECO'": "Contracts sum to zero in each period.",
    "results SET imbalance = imbalance + 1 WHERE kind = 1 AND period = 3 AND party = 'TRADECO' AND side = 0": "Each imbalance is the "
    "credited energy less the balancing volume and the contracts.",
    "results SET share = share + 1 WHERE kind = 1 AND period = 3 AND party = 'TRADECO' AND side = 1": "Each figure follows from the "
    "accepted files.",
}


def number(text):
    return int(re.sub(r"[,.£]", "", text).replace("\u2212", "-"))


class Page:
    """What can be read off a page, which is XML too."""

    def __init__(self, text, before=0):
        """`before` are the tables above that of the accounts."""
        self.text = text
        self.root = xml.etree.ElementTree.fromstring(text.partition("\n")[2])
        self.laws = [(item.get("class"), "".join(item.itertext())) for item in self.root.iter("li")]
        tables = [[self.cells(row) for row in table.iter("tr")] for table in self.root.iter("table")]
        self.before, tables = tables[:before], tables[before:]
        self.accounts = {row[0]: row[1:] for row in tables[0][1:]}
        names = [section.get("id") for section in self.root.iter("section")]
        self.statements = dict(zip(names, (table[1:] for table in tables[1:]), strict=True))
        self.words = ["".join(part.itertext()) for part in self.root.iter("p")]

    @staticmethod
    def cells(row):
        return ["".join(cell.itertext()) for cell in row]

    def steps(self, name):
        """The heights that the picture has for an account, or for the residual, by period, and their colours."""
        found = {}
        for part in self.root.iter(f"{SVG}rect"):
            whose, period, told = re.fullmatch(r"(\S+), (?:period (\d+)|[-\d]{10}): (.*)", part[0].text).groups()
            if whose == name:
                found[int(period or len(found) + 1)] = float(part.get("height")), part.get("fill"), told
        return found


class Pages(Looking):
    def page(self, *words, status=0):
        found, out, err = look("page", "--db", *words)
        self.assertEqual(found, status, err)
        self.assertEqual(bool(err), bool(status))
        return Page(out)

    def test_what_it_asks_for(self):
        """Nothing: it has no script, no picture that is elsewhere, and links to itself alone."""
        page = self.page(self.kept("market"), DAY, "R1")
        self.assertIn("<meta http-equiv=\"Content-Security-Policy\" content=\"default-src 'none'; style-src 'unsafe-inline'\"/>", page.text)
        tags = {part.tag.removeprefix(SVG) for part in page.root.iter()}
        self.assertEqual(tags & {"script", "img", "link", "iframe", "object", "form", "base", "image", "use", "foreignObject"}, set())
        self.assertEqual(re.findall(r"https?://[^\"]*", page.text), ["http://www.w3.org/2000/svg"])
        self.assertNotIn("url(", page.text)
        self.assertNotIn("@import", page.text)
        ids = {part.get("id") for part in page.root.iter()}
        for part in page.root.iter():
            self.assertEqual([name for name in part.keys() if name.startswith("on") or name == "src"], [])
            if part.get("href"):
                self.assertIn(part.get("href").removeprefix("#"), ids)

    def test_the_market(self):
        """The nets are the guide's balances, and the postings those of R1. What is all zeros is one line."""
        page = self.page(self.kept("market"), DAY, "R1")
        self.assertEqual(page.root.find("body/h1").text, "Run R1 of 2024-07-01")
        self.assertEqual(page.words[0], "Monday: 48 periods, 8 accounts. Residual \u2212£4,915.72. 3 postings, what changed since SF.")
        names = [f"{party}-{side}" for party in ("CITYSUP", "NORTHGEN", "SEALINK", "TRADECO") for side in "PC"]
        nets = dict(zip(names, PRINTED["market"][1]))
        paid = {name: number(cells[5]) for name, cells in page.accounts.items()}
        self.assertEqual(paid, {name: net for name, net in nets.items() if net})
        posted = {name: number(cells[6]) for name, cells in page.accounts.items() if cells[6]}
        before = PRINTED["without-positions"][1]
        self.assertEqual(posted, {name: net - old for (name, net), old in zip(nets.items(), before) if net != old})
        self.assertIn("Nothing but zeros: NORTHGEN-C, SEALINK-C, TRADECO-C.", page.words)
        self.assertEqual({mark for mark, _ in page.laws}, {"yes"})
        self.assertEqual(len(page.laws), 7)

    def test_the_page_of_the_example_market(self):
        """The one to which the README leads is that of R1."""
        page = self.page(self.kept("market"), DAY, "R1")
        self.assertEqual((HOME / "examples/market/2024-07-01-R1.html").read_text(encoding="utf-8"), page.text)

    def test_the_same_office_gives_the_same_bytes(self):
        pages = [self.page(self.kept("week"), "2024-10-27", "SF").text for _ in range(2)]
        self.assertEqual(*pages)

    def test_statements_and_pictures(self):
        """Of the week's longest day and of random offices: each figure rounded as it is shown, and each step as high as its account's
        imbalance. All accounts have one scale."""
        for seed in range(3):
            made = RandomOffice(self.room / f"{seed}.db", seed)
            kind = made.runs[-1]
            page = self.page(made.path, made.date, kind)
            results = {}
            for row in csv.DictReader(io.StringIO(made.results(made.date, kind))):
                results.setdefault(row["account"], {})[int(row["period"])] = row
            moved = {name: rows for name, rows in results.items() if any(float(row["imbalance"]) for row in rows.values())}
            scales = [self.compare(page, name, rows) for name, rows in moved.items()]
            self.assertGreater(len(scales), 2)
            self.assertLess(max(scales), 1.05 * min(scales))

    def compare(self, page, name, rows):
        """The account's statement and its steps. Returns the height of a unit."""
        statement = {int(cells[0]): cells for cells in page.statements[name]}
        self.assertEqual(list(statement), list(rows))
        for period, row in rows.items():
            cells = statement[period]
            charge, share = int(row["charge"]), int(row["share"])
            self.assertEqual([number(cell) for cell in cells[7:]], [charge, share, charge + share])
            for cell, what in zip(cells[2:6], ("credited", "balancing", "contracts", "imbalance")):
                self.assertAlmostEqual(float(cell.replace("\u2212", "-")), float(row[what]), delta=0.00051)
        net = sum(int(row["charge"]) + int(row["share"]) for row in rows.values())
        self.assertEqual(number(page.accounts[name][5]), net)
        imbalances = {period: int(row["imbalance"].replace(".", "")) for period, row in rows.items() if float(row["imbalance"])}
        steps = page.steps(name)
        fills = {period: fill for period, (_, fill, _) in steps.items()}
        self.assertEqual(fills, {period: LONG if value > 0 else SHORT for period, value in imbalances.items()})
        largest = max(imbalances, key=lambda period: abs(imbalances[period]))
        scale = steps[largest][0] / abs(imbalances[largest])
        for period, (height, _, _) in steps.items():
            self.assertAlmostEqual(height, abs(imbalances[period]) * scale, delta=0.1)
        return scale

    def test_the_residual_in_the_picture(self):
        """Minus the sum of the charges of each period, as the peer has them."""
        made = RandomOffice(self.room / "office.db", 5)
        page, residuals = self.page(made.path, made.date, "SF"), {}
        for row in csv.DictReader(io.StringIO(made.results(made.date, "SF"))):
            residuals[int(row["period"])] = residuals.get(int(row["period"]), 0) - int(row["charge"])
        told = {period: number(words) for period, (_, _, words) in page.steps("Residual").items()}
        self.assertEqual(told, {period: pence for period, pence in residuals.items() if pence})

    def test_a_day_of_fifty_periods(self):
        page = self.page(self.kept("week"), "2024-10-27", "SF")
        self.assertEqual([cells[0] for cells in page.statements["NORTHGEN-P"]], [str(period) for period in range(1, 51)])
        self.assertEqual([cells[1] for cells in page.statements["NORTHGEN-P"]][2:6], ["01:00", "01:30", "01:00", "01:30"])
        self.assertTrue(page.words[0].startswith("Sunday, on which clocks go back: 50 periods, 8 accounts. "), page.words[0])

    def test_one_account(self):
        page = self.page(self.kept("market"), DAY, "R1", "--account", "CITYSUP-C")
        self.assertEqual(list(page.statements), ["CITYSUP-C"])
        (box,) = page.root.iter("input")
        self.assertEqual(box.get("checked"), "checked")
        self.assertEqual(len(page.accounts), 5)

    def test_nothing_happens(self):
        """All accounts are named in one line, and none is drawn."""
        made = MadeOffice(self.room / "office.db")
        made.load("parties", ["IDLE,2024-01-01,,idle00001"])
        made.load("units", ["U,IDLE,P,no,2024-01-01,"])
        made.load("prices", [f"{DAY},{period},5" for period in range(1, 49)])
        made.load("meters", [f"U,{DAY},{period},0,1,0" for period in range(1, 49)])
        made.run(DAY, "SF")
        page = self.page(made.path, DAY, "SF")
        self.assertEqual((page.statements, page.accounts), ({}, {}))
        self.assertIn("Nothing but zeros: IDLE-P, IDLE-C.", page.words)
        self.assertIn("No account was out of balance.", page.words)

    def test_dates(self):
        """Of each date the sums of what the program has kept, and of all dates their sums; each step is a date's. A party that has
        no row of a date has no line of it."""
        database = self.kept("week")
        page = Page(look("page", "--db", database, "2024-10-01", "2024-10-31")[1], before=1)
        self.assertEqual(page.root.find("body/h1").text, "Runs of 2024-10-21 to 2024-10-27")
        self.assertEqual({mark for mark, _ in page.laws}, {"yes"})
        with changing(database) as made:
            latest = "WHERE (day, kind) IN (SELECT day, max(kind) FROM runs GROUP BY day)"
            runs = made.execute(f"SELECT periods, accounts, residual, postings FROM runs {latest} ORDER BY day").fetchall()
            sums = made.execute(f"SELECT {NAME}, day, {SUMS} FROM results {latest} GROUP BY party, side, day").fetchall()
            moved = made.execute(f"SELECT {NAME}, sum(pence) FROM postings {latest} GROUP BY party, side").fetchall()
        ((_, *dates),) = page.before
        self.assertEqual([(*map(number, cells[2:]),) for cells in dates], runs)
        found = {(name, cells[0]): cells[2:] for name, statement in page.statements.items() for cells in statement}
        for name, day, *kept in sums:
            if not any(row[0] == name and any(row[2:]) for row in sums):
                self.assertNotIn(name, page.statements)
                continue
            cells = found[name, clock.date_of(day)]
            self.assertEqual([number(cell) for cell in cells[4:7]], [*kept[4:], sum(kept[4:])])
            for cell, ticks in zip(cells[:4], kept):
                self.assertAlmostEqual(float(cell.replace("\u2212", "-")), ticks / MWH, delta=0.00051)
            self.assertEqual(len(page.steps(name)), sum(one == name and row[3] != 0 for one, _, *row in sums))
        self.assertEqual({name: number(cells[6]) for name, cells in page.accounts.items() if cells[6]}, dict(moved))

    def test_months_below_the_picture(self):
        """Each is named once, and none so near to another that it would stand on it."""
        for first in range(clock.day_of("2024-01-20"), clock.day_of("2024-02-05")):
            steps = picture.steps_of_days(range(first, first + 60))
            named = [(at, step.below[1]) for at, step in enumerate(steps) if step.below[1]]
            self.assertEqual([month for _, month in named], sorted({step.name[:7] for step in steps}))
            self.assertGreaterEqual(min(later - at for (at, _), (later, _) in zip(named, named[1:])), 4)
            self.assertTrue(all(steps[at].name.startswith(month) for at, month in named))

    def test_a_law_that_does_not_hold_of_a_date(self):
        """It is marked of all dates, and the fault is told with its date."""
        database = self.kept("week")
        with changing(database) as made:
            made.execute("UPDATE results SET charge = charge + 1 WHERE day = (SELECT max(day) FROM runs) AND period = 50")
        status, out, err = look("page", "--db", database, "2024-10-20", "2024-10-31", "SF", "--account", "CITYSUP-C")
        page = Page(out, before=1)
        self.assertEqual(status, 1)
        self.assertIn(("no", "\u2717 Charges and shares sum to zero in each period."), page.laws)
        self.assertTrue(all(words.startswith("2024-10-27 SF: ") for mark, words in page.laws if mark == "no" and words[0] != "\u2717"))
        self.assertIn("! 2024-10-27 SF: CITYSUP-C, period 50: the run has the charge", err)
        self.assertEqual(list(page.statements), ["CITYSUP-C"])

    def test_a_law_that_does_not_hold(self):
        """It is marked, what doesn't follow is told, and the status is 1."""
        for change, law in LAWS.items():
            with self.subTest(law):
                shutil.rmtree(self.room / "market", ignore_errors=True)
                database = self.kept("market")
                with changing(database) as made:
                    made.execute(f"UPDATE {change}")
                page = self.page(database, DAY, "R1", status=1)
                self.assertIn(("no", f"\u2717 {law}"), page.laws)
                self.assertGreater(len([words for mark, words in page.laws if mark == "no"]), 1)


if __name__ == "__main__":
    unittest.main()
