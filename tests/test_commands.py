"""An office in a database file, by the commands `settle init`, `load`, `run`, `report` and `script --db`. Each is a process of
its own that opens the file again, and Python's `sqlite3` reads what it leaves. What is served over a file is in
test_command_serving.py, and how commands stop in test_command_faults.py."""
import contextlib
import datetime
import sqlite3
import time
import unittest

import test_database
import test_desk
import test_reports
from programs import settle
from test_database import LAST_DAY, NEW_YEAR, TODAY, VERSION, content_of, leads_of, rows_of
from test_desk import APPLIED, DAY, DEADLINE, EARLY, END, IDLE, LATE, LOADED, OPERATOR, Desk, text_of
from test_reports import BALANCES, DAY_REPORT, JOINS, RESULTS, balances, report

# A script with more lines than this is run by one call of `script --db`.
MOST_CALLS = 200
LAST_MOMENT = 2**63 - 1


def words_of(line, database):
    """The words of the command that asks an office in a file what a line of a script asks."""
    name, *words = line.split(" ")
    file = ["--db", str(database)]
    if name == "report":
        key, *asked = words
        return [name, *file, "--key", key, *asked]
    moment, key, *asked = words
    return [name, *file, "--key", key, f"--at={moment}", *asked]


def answer(text):
    """How a command ends that tells this: by lines on standard output if it is done, on standard error if it stops."""
    line = f"{text}\n".encode()
    return (1, b"", line) if text.startswith(("refused ", "fault ")) else (0, line, b"")


def day_number(date):
    return (datetime.date.fromisoformat(date) - datetime.date(1970, 1, 1)).days


class AtAFile(Desk):
    """A test whose commands are asked of the office in one file."""

    def setUp(self):
        super().setUp()
        self.database = self.room / "office.db"

    def command(self, name, *words, **how):
        """A command on the file."""
        return settle(name, "--db", str(self.database), *map(str, words), **how)

    def init(self, *options, operator=OPERATOR):
        self.assertEqual(self.command("init", "--operator-key", operator, *options), (0, b"ready\n", b""))
        self.is_sound()

    def asks(self, line):
        """What comes of a command that asks what a line of a script does. It must leave a sound file."""
        made = settle(*words_of(line, self.database))
        self.is_sound()
        return made

    def answers(self, line, text):
        """A command that asks what a line of a script does ends like this."""
        self.assertEqual(self.asks(line), answer(text), line)

    def is_sound(self):
        with contextlib.closing(sqlite3.connect(self.database)) as connection:
            self.assertEqual(connection.execute("PRAGMA integrity_check").fetchall(), [("ok",)])

    def changes_nothing(self, line, text):
        """It ends like this, and each row of the file is as it was."""
        before = content_of(self.database)
        self.answers(line, text)
        self.assertEqual(content_of(self.database), before)

    def init_market(self):
        """An office that has loaded the market."""
        self.init()
        for line, text in zip(self.market(), LOADED, strict=True):
            self.answers(line, text)

    def run_script_at(self, text, **how):
        """Runs a script of this text over the file."""
        return self.command("script", self.file("script", text), **how)


def near(number, of):
    """The whole number that is nearest to a fraction, halves away from zero."""
    size = (2 * abs(number) + of) // (2 * of)
    return -size if number < 0 else size


def shares_of(total, weights):
    """A total divided by weights: each share is the quota rounded down, and what is left goes to those with the largest
    remainders."""
    parts = [divmod(abs(total) * weight, sum(weights)) for weight in weights]
    left = abs(total) - sum(whole for whole, _ in parts)
    first = sorted(range(len(parts)), key=lambda place: (-parts[place][1], place))[:left]
    sign = -1 if total < 0 else 1
    return [sign * (whole + (place in first)) for place, (whole, _) in enumerate(parts)]


# What the market's units meter in period 1 in kWh, with the multiplier in its seventh decimal, and what the account sells in
# kWh, by account.
FIRST = {("GENCO", 0): (100_000, 9_950_000, 99_000), ("SUPCO", 1): (-98_000, 10_050_000, -99_000)}
JOINED = {**FIRST, ("NEWCO", 0): (10_000, 10_000_000, 0)}


def results_of(kind, metered, price):
    """The rows of a run of the market's day, on which nothing happens except in period 1. Energies are in 10^-10 MWh: a kWh
    times a ten-millionth. The price is in its fifth decimal."""
    accounts = [(party, side) for party in sorted({party for party, _ in metered}) for side in (0, 1)]
    figures = []
    for account in accounts:
        kwh, multiplier, sold = metered.get(account, (0, 0, 0))
        credited, contracts = kwh * multiplier, sold * 10**7
        imbalance = credited - contracts
        figures.append((credited, 0, contracts, imbalance, near(-imbalance * price, 10**13)))
    shares = shares_of(-sum(row[-1] for row in figures), [abs(row[0]) for row in figures])
    rows = [(TODAY, kind, 1, *account, *row, share) for account, row, share in zip(accounts, figures, shares)]
    return sorted([*rows, *((TODAY, kind, period, *account, *[0] * 6) for period in IDLE for account in accounts)])


class WorkedDays(AtAFile):
    """Days whose figures are worked out by hand, as the file has them."""

    def cash(self, kind):
        """The charge and the share of each account in period 1 of a run, if they are not both 0, and its day net."""
        rows = [row for row in rows_of(self.database, "results") if row[1] == kind]
        first = {f"{row[3]}-{'PC'[row[4]]}": row[9:] for row in rows if row[2] == 1 and any(row[9:])}
        nets = dict.fromkeys(first, 0)
        for row in rows:
            if (name := f"{row[3]}-{'PC'[row[4]]}") in nets:
                nets[name] += row[9] + row[10]
        return {name: (*first[name], nets[name]) for name in first}

    def postings(self, kind):
        rows = rows_of(self.database, "postings")
        return {f"{party}-{'PC'[side]}": pence for day, run, party, side, pence in rows if (day, run) == (TODAY, kind)}

    def settle_dearer(self):
        """The market's first run, and another at 60 pounds."""
        self.answers(self.order("SF", END), f"run {DAY} SF periods 48 accounts 4 residual 5050 postings 2")
        self.answers(self.dearer(), APPLIED)
        self.answers(self.order("R1"), f"run {DAY} R1 periods 48 accounts 4 residual 6060 postings 2")

    def test_the_market(self):
        self.init_market()
        self.assertEqual(self.asks(self.order("SF", 1_719_874_800)), answer("run 2024-07-01 SF periods 48 accounts 4 residual 5050 postings 2"))
        self.assertEqual(self.cash(0), {"GENCO-P": (-2500, 2538, 38), "SUPCO-C": (-2550, 2512, -38)})
        self.assertEqual(self.postings(0), {"GENCO-P": 38, "SUPCO-C": -38})
        self.assertEqual(rows_of(self.database, "results"), results_of(0, FIRST, 5_000_000))
        self.assertEqual(rows_of(self.database, "runs"), [(TODAY, 0, 48, 4, 5050, 2)])
        credits = {row[3:] for row in rows_of(self.database, "credits") if row[2] == 1}
        self.assertEqual(credits, {("G1", "GENCO", 0, 995_000_000_000), ("S1", "SUPCO", 1, -984_900_000_000)})
        for line, text in ((report("day"), DAY_REPORT), (report("csv"), RESULTS), (balances(), BALANCES)):
            self.changes_nothing(line, text.removesuffix("\n"))

    def test_the_rows_of_the_market(self):
        self.init("--lead-minutes=45")
        for line, text in zip(self.market(), LOADED, strict=True):
            self.answers(line, text)
        wanted = {
            "settings": [(1, VERSION, 45, OPERATOR)],
            "parties": [(party, NEW_YEAR, LAST_DAY, f"{party.lower()}0001") for party in ("GENCO", "SUPCO")],
            "units": [("G1", "GENCO", 0, 0, NEW_YEAR, LAST_DAY), ("S1", "SUPCO", 1, 0, NEW_YEAR, LAST_DAY)],
            "leads": [("G1", NEW_YEAR, "GENCO", 0, LAST_DAY), ("S1", NEW_YEAR, "SUPCO", 1, LAST_DAY)],
            "refs": [("C1", "GENCO", 0, "SUPCO", 1)],
            "contracts": [("C1", TODAY, 1, 99_000)],
            "prices": [(TODAY, 1, 5_000_000), *((TODAY, period, 0) for period in IDLE)],
            "reallocations": [],
            "runs": [],
        }
        for table, rows in wanted.items():
            self.assertEqual(rows_of(self.database, table), rows, table)
        meters = rows_of(self.database, "meters")
        self.assertEqual(len(meters), 96)
        self.assertEqual([row for row in meters if row[2] == 1], [("G1", TODAY, 1, 100_000, 9_950_000, 0), ("S1", TODAY, 1, -98_000, 10_050_000, 0)])
        files = {(kind, name): rest for kind, name, *rest in rows_of(self.database, "files")}
        wanted = {(kind, f"f{number}.csv"): [text_of(kind, rows), len(rows), 0] for number, (kind, rows) in enumerate(test_desk.MARKET, 1)}
        self.assertEqual(files, wanted)

    def test_a_dearer_price(self):
        self.init_market()
        self.settle_dearer()
        self.assertEqual(self.cash(1), {"GENCO-P": (-3000, 3045, 45), "SUPCO-C": (-3060, 3015, -45)})
        self.assertEqual(self.postings(1), {"GENCO-P": 7, "SUPCO-C": -7})
        wanted = sorted(results_of(0, FIRST, 5_000_000) + results_of(1, FIRST, 6_000_000))
        self.assertEqual(rows_of(self.database, "results"), wanted)
        moved = "account,moved_pence\nGENCO-P,45\nGENCO-C,0\nSUPCO-P,0\nSUPCO-C,-45"
        self.changes_nothing(balances(), moved)
        self.changes_nothing(report("day"), DAY_REPORT.removesuffix("\n"))

    def test_a_party_more(self):
        self.init_market()
        self.answers(self.order("SF", END), f"run {DAY} SF periods 48 accounts 4 residual 5050 postings 2")
        for (kind, rows), text in zip(JOINS, (APPLIED, APPLIED, "applied=48 late=0"), strict=True):
            self.answers(self.load(kind, rows, f"n{kind}.csv"), text)
        self.answers(self.order("R1"), "run 2024-07-01 R1 periods 48 accounts 6 residual 55050 postings 3")
        nets = {"GENCO-P": (-2500, 26_335, 23_835), "NEWCO-P": (-50_000, 2_647, -47_353), "SUPCO-C": (-2550, 26_068, 23_518)}
        self.assertEqual(self.cash(1), nets)
        posted = {"GENCO-P": 23_797, "NEWCO-P": -47_353, "SUPCO-C": 23_556}
        self.assertEqual((self.postings(1), sum(posted.values())), (posted, 0))
        rows = [row for row in rows_of(self.database, "results") if row[1] == 1]
        self.assertEqual(rows, results_of(1, JOINED, 5_000_000))

    def test_the_order_of_runs(self):
        self.init_market()
        self.changes_nothing(self.order("R1"), "refused 51 NoInitialRun")
        self.changes_nothing(self.order("SF", 1_719_874_799), "refused 52 DayNotOver")
        settled = "run 2024-07-01 SF periods 48 accounts 4 residual 5050 postings 2"
        self.answers(self.order("SF", 1_719_874_800), settled)
        self.changes_nothing(self.order("SF"), settled)
        self.answers(self.order("RF"), "run 2024-07-01 RF periods 48 accounts 4 residual 5050 postings 0")
        self.assertEqual(self.postings(4), {})
        self.changes_nothing(self.order("R2"), "refused 50 RunOrder")
        prices = [f"2024-07-02,{period},0" for period in range(1, 49)]
        self.answers(self.load("prices", prices, "next.csv"), "applied=48 late=0")
        self.changes_nothing(self.order("SF", date="2024-07-02"), "refused 54 MissingMeter unit G1 period 1")
        self.assertEqual([row[:2] for row in rows_of(self.database, "runs")], [(TODAY, 0), (TODAY, 4)])


class WorkedFiles(AtAFile):
    """Files whose replies are worked out by hand."""

    def setUp(self):
        super().setUp()
        self.init_market()

    def contract(self, name, mwh, moment=EARLY):
        return self.load("contracts", f"C1,GENCO-P,SUPCO-C,{DAY},1,{mwh}", name, moment)

    def in_force(self):
        """The kWh of each contract."""
        return {reference: kwh for reference, _, _, kwh in rows_of(self.database, "contracts")}

    def test_days_on_which_clocks_change(self):
        self.answers(self.load("meters", "G1,2024-03-31,46,1,1,0", "spring.csv"), "applied=1 late=0")
        self.answers(self.load("meters", "G1,2024-10-27,50,1,1,0", "autumn.csv"), "applied=1 late=0")
        self.changes_nothing(self.load("meters", "G1,2024-03-31,47,1,1,0", "a.csv"), "refused 34 NoSuchPeriod row 1")
        self.changes_nothing(self.load("meters", "G1,2024-10-27,51,1,1,0", "b.csv"), "refused 14 BadField row 1 column 3")
        self.changes_nothing(self.load("meters", f"G1,{DAY},49,1,1,0", "c.csv"), "refused 34 NoSuchPeriod row 1")
        wanted = [("G1", day_number(date), period, 1000, 10_000_000, 0) for date, period in (("2024-03-31", 46), ("2024-10-27", 50))]
        self.assertEqual([row for row in rows_of(self.database, "meters") if row[1] != TODAY], wanted)

    def test_deadlines(self):
        for name, mwh, moment, text, kwh in (
            ("a.csv", "98.000", 1_719_784_799, "applied=1 late=0", 98_000),
            ("b.csv", "97.000", 1_719_784_800, "applied=0 late=1", 98_000),
            ("c.csv", "96.000", 1_719_700_000, "applied=1 late=0", 96_000),
        ):
            self.answers(self.contract(name, mwh, moment), text)
            self.assertEqual(self.in_force(), {"C1": kwh}, name)
        counts = {name: rest for kind, name, _, *rest in rows_of(self.database, "files") if kind == "contracts"}
        self.assertEqual(counts, {"f3.csv": [1, 0], "a.csv": [1, 0], "b.csv": [0, 1], "c.csv": [1, 0]})

    def test_a_file_that_comes_again(self):
        self.answers(self.contract("a.csv", "98.000", DEADLINE - 1), APPLIED)
        self.answers(self.contract("b.csv", "96.000"), APPLIED)
        for moment in (EARLY, DEADLINE, -5, -(2**63), LAST_MOMENT):
            self.changes_nothing(self.contract("a.csv", "98.000", moment), APPLIED)
        self.changes_nothing(self.contract("a.csv", "98.001"), "refused 20 FileChanged")
        self.assertEqual(self.in_force(), {"C1": 96_000})

    def test_registrations_of_units(self):
        """A unit that keeps its lead account has one, from its first date to its last. A row with a wider range takes the place of the
        unit's own, also where it begins earlier. A refused file changes none."""
        kept = rows_of(self.database, "leads")

        def leads(*more):
            rows = [(unit, day_number(first), party, side, day_number(last)) for unit, first, party, side, last in more]
            self.assertEqual(rows_of(self.database, "leads"), sorted([*kept, *rows]))
            self.assertEqual(leads_of(rows_of(self.database, "units")), sorted([*kept, *rows]))

        for number, (first, last) in enumerate(
            (
                ("2024-03-01", "2024-03-31"),
                ("2024-03-01", "2024-04-30"),
                ("2024-02-01", "2024-04-30"),
                ("2024-01-31", "2024-05-01"),
                ("2024-01-31", "2024-05-01"),
                ("2024-01-31", ""),
            )
        ):
            self.answers(self.load("units", f"W1,GENCO,P,no,{first},{last}", f"w{number}.csv"), APPLIED)
            leads(("W1", first, "GENCO", 0, last or "2099-12-31"))
        own = ("W1", "2024-01-31", "GENCO", 0, "2099-12-31")
        for row, text in (
            ("W1,GENCO,P,no,2024-02-01,", "refused 39 ShrinksRange row 1"),
            ("W1,GENCO,P,no,2024-01-30,2099-12-30", "refused 39 ShrinksRange row 1"),
            ("W1,SUPCO,P,no,2024-01-30,", "refused 40 UnitMoved row 1"),
            ("W1,GENCO,C,no,2024-01-30,", "refused 40 UnitMoved row 1"),
            ("W1,GENCO,P,no,2023-12-31,", "refused 33 NotEffective row 1"),
        ):
            self.changes_nothing(self.load("units", row, "refused.csv"), text)
        rows = ["W2,SUPCO,C,yes,2024-05-02,2024-05-02", "W2,SUPCO,C,yes,2024-05-01,2024-05-03"]
        self.changes_nothing(self.load("units", [*rows, "W2,SUPCO,C,yes,2024-05-02,2024-05-03"], "refused.csv"), "refused 39 ShrinksRange row 3")
        self.answers(self.load("units", rows, "two.csv"), "applied=2 late=0")
        leads(own, ("W2", "2024-05-01", "SUPCO", 1, "2024-05-03"))

    def test_units_that_change_their_lead_account(self):
        """`leads` has a row for each registration, and `units` the latest lead account and the whole range. The runs of the dates keep
        what they have."""
        self.answers(self.order("SF", END), test_desk.SETTLED)
        self.answers(self.load("parties", "NEWCO,2024-01-01,,newco0001", "n.csv"), APPLIED)
        before = content_of(self.database)
        self.answers(self.load("units", [f"S1,NEWCO,C,no,{DAY},"], "s.csv"), APPLIED)
        other = ("G1", NEW_YEAR, "GENCO", 0, LAST_DAY)
        self.assertEqual(rows_of(self.database, "leads"), [other, ("S1", NEW_YEAR, "SUPCO", 1, TODAY - 1), ("S1", TODAY, "NEWCO", 1, LAST_DAY)])
        self.assertEqual(rows_of(self.database, "units")[1:], [("S1", "NEWCO", 1, 0, NEW_YEAR, LAST_DAY)])
        self.assertEqual(rows_of(self.database, "touched"), [(TODAY, period) for period in range(1, 49)])
        after = content_of(self.database)
        changed = {table for table in before if before[table] != after[table]}
        self.assertEqual(changed, {"leads", "units", "files", "touched"})
        self.answers(self.order("R1"), f"run {DAY} R1 periods 48 accounts 6 residual 5050 postings 2")
        posted = [row[2:] for row in rows_of(self.database, "postings") if row[1] == 1]
        self.assertEqual(posted, [("NEWCO", 1, 494_962), ("SUPCO", 1, -494_962)])
        credits = {row[3:] for row in rows_of(self.database, "credits") if row[1:3] == (1, 1)}
        self.assertEqual(credits, {("G1", "GENCO", 0, 995_000_000_000), ("S1", "NEWCO", 1, -984_900_000_000)})
        self.assertEqual(rows_of(self.database, "touched"), [])
        self.changes_nothing(self.load("units", ["S1,NEWCO,C,no,2024-07-02,"], "t.csv"), "refused 39 ShrinksRange row 1")

    def test_a_bad_third_row(self):
        rows = [f"C{number},GENCO-P,{'SUPCO-C' if number < 4 else 'GENCO-P'},{DAY},1,1.000" for number in (2, 3, 4)]
        self.changes_nothing(self.load("contracts", rows, "bad.csv"), "refused 35 SameAccount row 3")
        self.answers(self.load("contracts", rows[:2], "bad.csv"), "applied=2 late=0")
        self.assertEqual(self.in_force(), {"C1": 99_000, "C2": 1000, "C3": 1000})

    def test_a_hundred_percent(self):
        percents = [("SUPCO-P", "60"), ("SUPCO-C", "40")]
        rows = [f"G1,{account},{DAY},1,{percent},0" for account, percent in percents]
        self.answers(self.load("reallocations", rows, "a.csv"), "applied=2 late=0")
        over = self.load("reallocations", f"G1,SUPCO-C,{DAY},1,40.00001,0", "b.csv")
        self.changes_nothing(over, "refused 38 OverHundred row 1")
        wanted = [("G1", "SUPCO", side, TODAY, 1, percent, 0) for side, percent in ((0, 6_000_000), (1, 4_000_000))]
        self.assertEqual(rows_of(self.database, "reallocations"), wanted)

    def test_sizes(self):
        self.answers(self.load("meters", [], "header.csv"), "applied=0 late=0")
        self.changes_nothing(self.load("meters", b"", "none.csv"), "refused 12 BadHeader")
        self.changes_nothing(self.load("meters", [f"G1,{DAY},1,0,1,0"] * 20_001, "many.csv"), "refused 11 TooManyRows")
        volume = f"C5,GENCO-P,SUPCO-C,{DAY},1,10000.00"
        self.answers(self.load("contracts", f"{volume}0", "most.csv"), APPLIED)
        self.changes_nothing(self.load("contracts", f"{volume}1", "more.csv"), "refused 14 BadField row 1 column 6")
        self.assertEqual(self.in_force(), {"C1": 99_000, "C5": 10_000_000})
        kept = [(body, applied, late) for _, name, body, applied, late in rows_of(self.database, "files") if name == "header.csv"]
        self.assertEqual(kept, [(text_of("meters", []), 0, 0)])


class Cut(AtAFile):
    """An output takes a number of bytes of a report and then fails."""

    def test_where_an_output_fails(self):
        """These bytes are written, and the fault is told. A later report is whole, and nothing has changed."""
        self.init_market()
        self.answers(self.order("SF", END), test_desk.SETTLED)
        before = content_of(self.database)
        for line, text, counts in test_reports.CUTS:
            for count in (*counts, len(text)):
                with self.subTest(line, count=count):
                    wanted = (0, text.encode(), b"") if count == len(text) else (1, text[:count].encode(), b"fault output\n")
                    found = test_reports.written_up_to(count, self.room / "out", *words_of(line, self.database))
                    self.assertEqual(found, wanted)
        self.assertEqual(content_of(self.database), before)


class ByCommands(Desk):
    """A test whose scripts are run over offices in new files: each line by a command of its own, or all by `script --db`."""

    ANEW = True

    def setUp(self):
        super().setUp()
        self.offices = 0

    def run_script(self, text, *options, **how):
        """What the script itself would print."""
        self.offices += 1
        self.database = self.room / f"office{self.offices}.db"
        made = settle("init", "--db", str(self.database), "--operator-key", OPERATOR, *options)
        self.assertEqual(made, (0, b"ready\n", b""))
        if not self.ANEW or text.count("\n") > MOST_CALLS:
            return settle("script", "--db", str(self.database), self.file("script", text), **how)
        return 0, b"".join(self.told_by(line, **how) for line in text.splitlines()), b""

    def told_by(self, line, **how):
        """What a line of a script prints, by a command."""
        status, written, told = settle(*words_of(line, self.database), **how)
        self.assertIn((status, bool(written), bool(told)), ((0, True, False), (1, False, True)), line)
        return written + told


# What the desk's scripts tell, by commands. What is expected is derived with those tests.
class Runs(ByCommands, test_desk.Runs):
    pass


class Deadlines(ByCommands, test_desk.Deadlines):
    pass


class Repeats(ByCommands, test_desk.Repeats):
    pass


class Rows(ByCommands, test_desk.Rows):
    pass


class Successions(ByCommands, test_desk.Successions):
    pass


class Texts(ByCommands, test_desk.Texts):
    pass


class Reports(ByCommands, test_reports.Reports):
    # (these look at what only `settle script` tells)
    test_lines_off_their_form = None
    test_an_output_that_takes_a_part = None


class Beside(ByCommands, test_database.Beside):
    """Lists of requests, drawn at random: commands and `script --db` give the same answers and reports as `script`."""

    test_a_day_beside_the_peer = None

    def setUp(self):
        Desk.setUp(self)
        self.offices = 0


class Scripts(AtAFile):
    """`script --db` runs a script over the office in a file."""

    def lines(self):
        """Loads, runs and reports, some of them refused."""
        missing = f"load {EARLY} {OPERATOR} prices {self.room}/missing.csv"
        late = self.load("contracts", f"C1,GENCO-P,SUPCO-C,{DAY},1,1.000", "late.csv", DEADLINE)
        asked = [report("day"), report("csv"), balances(), report("day", "R3"), balances("genco0001")]
        return [*self.market(), missing, late, self.order("R1"), self.order("SF"), *asked, self.dearer(), self.order("R1"), *asked]

    def test_three_ways(self):
        """By commands, by `script --db` and by `script`, the same lines have the same answers, and both files have the same
        rows."""
        lines = self.lines()
        text = "".join(f"{line}\n" for line in lines)
        wanted = settle("script", "--operator-key", OPERATOR, self.file("script", text))
        self.assertEqual((wanted[0], wanted[2]), (0, b""))
        self.assertEqual(wanted[1].count(DAY_REPORT.encode()), 2)
        contents = []
        for name in ("whole.db", "pieces.db"):
            self.database = self.room / name
            self.init()
            if name == "whole.db":
                self.assertEqual(self.run_script_at(text), wanted)
            else:
                found = [self.asks(line) for line in lines]
                self.assertEqual(b"".join(written + told for _, written, told in found), wanted[1])
            contents.append(content_of(self.database))
        self.assertEqual(*contents)
        self.assertEqual({table for table, rows in contents[0].items() if not rows}, {"reallocations", "touched"})

    def test_the_tables_stay(self):
        """A script continues after a command or another script has ended."""
        self.init()
        *first, last = self.market()
        self.answers(first[0], LOADED[0])
        self.assertEqual(self.run_script_at("\n".join(first[1:])), (0, "".join(f"{text}\n" for text in LOADED[1:4]).encode(), b""))
        self.is_sound()
        self.answers(last, LOADED[4])
        self.assertEqual(self.run_script_at(self.order("SF", END) + "\n"), (0, f"run {DAY} SF periods 48 accounts 4 residual 5050 postings 2\n".encode(), b""))
        self.answers(report("csv"), RESULTS.removesuffix("\n"))

    def test_the_offices_own_lead_minutes(self):
        """The office's own minutes count, not those of the script's words."""
        for minutes, text in (("60", LATE), ("59", APPLIED)):
            self.database = self.room / f"{minutes}.db"
            self.init("--lead-minutes", minutes)
            rows = [*self.market(), self.load("contracts", f"C1,GENCO-P,SUPCO-C,{DAY},1,1.000", "l.csv", DEADLINE)]
            found = self.run_script_at("".join(f"{line}\n" for line in rows))
            self.assertEqual(found, (0, "".join(f"{line}\n" for line in [*LOADED, text]).encode(), b""))
            self.assertEqual(rows_of(self.database, "contracts"), [("C1", TODAY, 1, 1000 if text == APPLIED else 99_000)])

    def test_a_line_off_its_form(self):
        """Nothing is run."""
        self.init()
        before = content_of(self.database)
        for line in ("", "x", f"run {END} {OPERATOR} {DAY} XX", f"report {OPERATOR} day", "serve 5 65536 1"):
            self.is_wrong(self.run_script_at(f"{self.load(*test_desk.MARKET[0])}\n{line}\n"), 2)
            self.assertEqual(content_of(self.database), before, line)

    def test_a_script_of_no_lines(self):
        self.init()
        self.assertEqual(self.run_script_at(b""), (0, b"", b""))
        self.is_sound()

    def test_a_line_that_serves(self):
        self.init()
        status, written, told = self.run_script_at(f"serve 5 0 0\n{balances()}\n")
        self.assertEqual((status, told), (0, b""))
        self.assertRegex(written, rb"\Alistening 127\.0\.0\.1:[1-9][0-9]*\naccount,moved_pence\n\Z")


def date_in(days):
    """The date that is this many days ahead by the clock of this machine."""
    return (datetime.datetime.now(datetime.timezone.utc) + datetime.timedelta(days)).date().isoformat()


class Clock(AtAFile):
    """Without `--at`, a command comes at the moment that the machine's clock tells."""

    def setUp(self):
        super().setUp()
        self.init_market()

    def load_now(self, date, name, *options):
        """A contract for period 1 of a date."""
        path = self.path(name, text_of("contracts", [f"C1,GENCO-P,SUPCO-C,{date},1,1.000"]))
        return self.command("load", "--key", OPERATOR, *options, "contracts", path)

    def run_now(self, date):
        return self.command("run", "--key", OPERATOR, date, "SF")

    def test_runs(self):
        self.assertEqual(self.run_now(date_in(2)), answer("refused 52 DayNotOver"))
        self.assertEqual(self.run_now("2099-12-31"), answer("refused 52 DayNotOver"))
        self.assertEqual(self.run_now(date_in(-2)), answer("refused 53 MissingPrice period 1"))
        self.assertEqual(self.run_now(DAY), answer(test_desk.SETTLED))

    def test_loads(self):
        for days, text in ((-2, LATE), (2, APPLIED)):
            self.assertEqual(self.load_now(date_in(days), f"{days}.csv"), answer(text), days)

    def test_moments_that_are_given(self):
        """They count instead of the clock, also those before 1970."""
        for moment, text in ((-5, APPLIED), (-(2**63), APPLIED), (DEADLINE - 1, APPLIED), (DEADLINE, LATE), (LAST_MOMENT, LATE)):
            self.assertEqual(self.load_now(DAY, f"{moment}.csv", f"--at={moment}"), answer(text), moment)
        self.assertEqual(self.load_now(DAY, "apart.csv", "--at", DEADLINE - 1), answer(APPLIED))

    def test_the_second(self):
        """With a lead of 0 the periods that have begun are late, and the others are not."""
        self.database = self.room / "nolead.db"
        self.init("--lead-minutes", "0")
        self.answers(self.load(*test_desk.MARKET[0]), LOADED[0])
        dates = [date_in(days) for days in (-1, 0, 1)]
        rows = [f"C1,GENCO-P,SUPCO-C,{date},{period},1.000" for date in dates for period in range(1, 47)]
        starts = [midnight(date) + 1800 * (period - 1) for date in dates for period in range(1, 47)]
        path = self.path("now.csv", text_of("contracts", rows))
        first = int(time.time())
        made = self.command("load", "--key", OPERATOR, "contracts", path)
        last = int(time.time())
        lates = {sum(start <= moment for start in starts) for moment in range(first, last + 1)}
        self.assertIn(made, [answer(f"applied={len(rows) - late} late={late}") for late in lates])


def midnight(date):
    """When a date begins in the market's zone. Clocks go forward on the last Sunday of March and back on that of October, both
    at 01:00Z."""
    day = datetime.date.fromisoformat(date)
    forward, back = (datetime.date(day.year, month, 31) for month in (3, 10))
    forward, back = (last - datetime.timedelta((last.weekday() + 1) % 7) for last in (forward, back))
    return day_number(date) * 86_400 - (3600 if forward < day <= back else 0)


if __name__ == "__main__":
    unittest.main()
