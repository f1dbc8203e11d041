"""An office in a database file, through `hh_bench office`. Scripts over a file get the same answers as over tables in memory,
`sqlite3` reads the file and finds what was loaded and settled, and a file that is no office's is refused."""
import contextlib
import csv
import io
import os
import random
import re
import resource
import runpy
import shutil
import signal
import sqlite3
import subprocess
import unittest
import unittest.mock

import test_desk
import test_reports
from programs import BENCH, HOME, as_nobody, need, settle
from test_desk import APPLIED, DAY, DEADLINE, DEARER, EARLY, END, LATE, LOADED, MARKET, NEXT_END, OPERATOR, SETTLED, START
from test_desk import Desk, text_of
from test_reports import BALANCES, DAY_REPORT, RESULTS, balances, report

STORE = "refused 91 Store"
VERSION = 2  # of the tables
MOST_CALLS = 200
# Each table with its columns. They are whole numbers, unless a word follows. The first columns, as many as the number says, are
# the key.
TABLES = {
    "settings": (1, "id version lead_minutes operator_key:TEXT"),
    "parties": (1, "party:TEXT day_from day_to access_key:TEXT"),
    "units": (1, "unit:TEXT party:TEXT side interconnector day_from day_to"),
    "meters": (3, "unit:TEXT day period metered tlm balancing"),
    "prices": (2, "day period price"),
    "refs": (1, "reference:TEXT seller:TEXT seller_side buyer:TEXT buyer_side"),
    "contracts": (3, "reference:TEXT day period kwh"),
    "reallocations": (5, "unit:TEXT party:TEXT side day period percent fixed"),
    "files": (2, "kind:TEXT name:TEXT body:BLOB applied late"),
    "runs": (2, "day kind periods accounts residual postings"),
    "results": (5, "day kind period party:TEXT side credited balancing contracts imbalance charge share"),
    "credits": (6, "day kind period unit:TEXT party:TEXT side credited"),
    "postings": (4, "day kind party:TEXT side pence"),
    "positions": (4, "day period party:TEXT side kwh lost"),
    "touched": (2, "day period"),
    "marks": (1, "id positions"),
    "leads": (2, "unit:TEXT day_from party:TEXT side day_to"),
}
# Those of version 2, and those of version 1, in the order in which they are made.
TABLES_OF_TWO = [
    *("settings", "parties", "units", "meters", "prices", "refs", "contracts", "reallocations", "files", "runs", "results", "credits"),
    *("postings", "positions", "touched", "marks", "leads"),
]
TABLES_OF_ONE = [table for table in TABLES_OF_TWO if table != "leads"]
# 2024-07-01 is the 19,905th day after 1970-01-01, and 2024-01-01 the 19,723rd; 2001-01-01 is the 11,323rd, 2024-10-27 the 20,023rd
# and 2099-12-31 the 47,481st.
TODAY, NEW_YEAR, FIRST_DAY, AUTUMN, LAST_DAY = 19_905, 19_723, 11_323, 20_023, 47_481
KINDS = ("SF", "R1", "R2", "R3", "RF", "DF")
# An office's file becomes one in which no positions are kept, as they once weren't.
WITHOUT_POSITIONS = ("DELETE FROM positions", "DELETE FROM touched", "UPDATE marks SET positions = 0")
# An office's file becomes one of version 1.
OF_VERSION_ONE = ("DROP TABLE leads", "UPDATE settings SET version = 1")


def office(database, script, *made, **how):
    """The status of `hh_bench office`, and what it wrote on standard output and error."""
    words = [BENCH, "office", str(database), str(script), *made]
    done = subprocess.run(words, stdin=subprocess.DEVNULL, capture_output=True, **how)
    return done.returncode, done.stdout, done.stderr


def rows_of(database, table, order=None):
    """The rows of a table, in the order of its key."""
    keys, columns = TABLES[table]
    order = order or ", ".join(column.partition(":")[0] for column in columns.split()[:keys])
    with contextlib.closing(sqlite3.connect(database)) as connection:
        return connection.execute(f"SELECT * FROM {table} ORDER BY {order}").fetchall()


def content_of(database, tables=TABLES):
    """All rows of an office's database, by table."""
    return {table: rows_of(database, table) for table in tables}


def tables_of(version):
    """The tables of an office of an earlier version, or those of the present one."""
    return {1: TABLES_OF_ONE, 2: TABLES_OF_TWO}.get(version, [*TABLES])


def content_of_any(database):
    """All rows of an office's database, which has the tables of the version that its settings name and no others."""
    ((_, version, *_),) = rows_of(database, "settings")
    tables = tables_of(version)
    with contextlib.closing(sqlite3.connect(database)) as connection:
        found = [name for (name,) in connection.execute("SELECT name FROM sqlite_schema WHERE type = 'table'")]
    assert found == tables, (version, found)
    return content_of(database, tables)


def leads_of(units):
    """The rows of `leads` by which each of these units has one registration, from its first date to its last."""
    return sorted((unit, first, party, side, last) for unit, party, side, _, first, last in units)


def changed_by(database, *statements):
    """Runs statements over a file by sqlite3."""
    with contextlib.closing(sqlite3.connect(database)) as connection:
        for statement in statements:
            connection.execute(statement)
        connection.commit()


class InAFile(Desk):
    """A test whose scripts are run over an office in a new file. The two times are removed from what is told."""

    ANEW = False

    def setUp(self):
        need(BENCH)
        super().setUp()
        self.offices = 0

    def database(self):
        """The path of a file that is not there yet."""
        self.offices += 1
        return self.room / f"office{self.offices}.db"

    def over(self, database, text, *made, **how):
        """Runs a script over a file, and removes the two times from what is told."""
        status, written, told = office(database, self.file("script", text), *made, **how)
        return status, written, re.sub(rb"\A[0-9]+\n[0-9]+\n", b"", told)

    def replies_over(self, database, *lines, made=()):
        """What is printed for these lines over the office in a file."""
        status, written, told = self.over(database, "".join(f"{line}\n" for line in lines), *made)
        self.assertEqual((status, told), (0, b""))
        return written.decode().splitlines()

    def run_script(self, text, *options, **how):
        minutes = "60"
        for word, value in zip(options[::2], options[1::2]):
            self.assertEqual(word, "--lead-minutes")
            minutes = value
        database = self.database()
        pieces = [text]
        if self.ANEW and text.count("\n") <= MOST_CALLS:
            pieces = ["", *text.splitlines(keepends=True)]
        written = b""
        for number, piece in enumerate(pieces):
            made = (OPERATOR, minutes) if number == 0 else ()
            status, more, told = self.over(database, piece, *made, **how)
            written += more
            if status:
                return status, written, told
        return 0, written, b""

    def loaded(self, *more):
        """A file with the market's office, and what is printed for some more lines."""
        database = self.database()
        found = self.replies_over(database, *self.market(), *more, made=(OPERATOR, "60"))
        self.assertEqual(found[:5], LOADED)
        return database, found[5:]


class Anew(InAFile):
    """A test whose scripts are run by one call for each line, so each line opens the file again."""

    ANEW = True


# The desk's tests, over a file. What they expect is derived there.
class Runs(InAFile, test_desk.Runs):
    pass


class Deadlines(InAFile, test_desk.Deadlines):
    pass


class Repeats(InAFile, test_desk.Repeats):
    pass


class Rows(InAFile, test_desk.Rows):
    pass


class Successions(InAFile, test_desk.Successions):
    pass


class Whole(InAFile, test_desk.Whole):
    pass


class Reports(InAFile, test_reports.Reports):
    # (these look at what else `settle` tells)
    test_lines_off_their_form = None
    test_an_output_that_takes_a_part = None


class RunsAnew(Anew, test_desk.Runs):
    pass


class DeadlinesAnew(Anew, test_desk.Deadlines):
    pass


class RepeatsAnew(Anew, test_desk.Repeats):
    pass


class RowsAnew(Anew, test_desk.Rows):
    pass


class SuccessionsAnew(Anew, test_desk.Successions):
    pass


class ReportsAnew(Anew, test_reports.Reports):
    test_lines_off_their_form = None
    test_an_output_that_takes_a_part = None


class Positions(InAFile):
    """Contract positions that a file keeps, and the Settlement Periods that have changed since the latest run of their date."""

    def touched(self, database):
        return [period for date, period in rows_of(database, "touched") if date == TODAY]

    def positions(self, database, period):
        """What is kept for the accounts in a Settlement Period: party, side, kWh, and whether the position is lost."""
        return [row[2:] for row in rows_of(database, "positions") if row[:2] == (TODAY, period)]

    def settled_again(self, database, before, kind):
        """The Settlement Periods that a run of a kind settles again: those in which it does not take over what the run before
        has, in which one figure of each account and the energy of each unit are changed here."""
        number, last = KINDS.index(kind), KINDS.index(before)
        changed = (("results", "balancing", 6, -5), ("credits", "credited", 6, 2**63 - 1))
        changed_by(database, *(f"UPDATE {table} SET {column} = {value} WHERE kind = {last}" for table, column, _, value in changed))
        found = self.replies_over(database, self.order(kind))
        self.assertRegex(found[0], rf"\Arun {DAY} {kind} periods 48 ")
        rows = [[row for row in rows_of(database, table) if row[1] == number] for table, *_ in changed]
        again = [{row[2] for row in made if row[place] != value} for made, (*_, place, value) in zip(rows, changed)]
        self.assertEqual(*again)
        return sorted(again[0])

    def test_what_touches_a_period(self):
        database, told = self.loaded()
        self.assertEqual((told, self.touched(database)), ([], list(range(1, 49))))
        self.assertEqual(self.replies_over(database, self.order("SF")), [SETTLED])
        self.assertEqual(self.touched(database), [])
        late = self.load("contracts", f"C1,GENCO-P,SUPCO-C,{DAY},1,98.000", "c2.csv", moment=DEADLINE)
        self.assertEqual(self.replies_over(database, late), [LATE])
        self.assertEqual(self.touched(database), [])
        self.assertEqual(self.replies_over(database, self.dearer()), [APPLIED])
        self.assertEqual(self.touched(database), [1])
        self.assertEqual(self.replies_over(database, self.order("R1")), [DEARER])
        self.assertEqual(self.touched(database), [])

    def test_what_a_run_settles_again(self):
        """The Settlement Periods of rows in time since the run before. Late rows change none. If accounts have joined, all."""
        database, told = self.loaded(self.order("SF"))
        late = [self.load("contracts", f"C1,GENCO-P,SUPCO-C,{DAY},1,{mwh}", f"c{mwh}.csv", DEADLINE) for mwh in (98, 97)]
        cheaper = self.load("prices", f"{DAY},1,40.00000", "p3.csv")
        joins = self.load("parties", "NEWCO,2024-01-01,,newco0001", "n2.csv")
        steps = [
            ("R1", [], []),
            ("R2", [late[0]], []),
            ("R3", [self.dearer()], [1]),
            ("RF", [cheaper, late[1]], [1]),
            ("DF", [joins], [*range(1, 49)]),
        ]
        before = "SF"
        for kind, lines, wanted in steps:
            with self.subTest(kind):
                self.replies_over(database, *lines)
                self.assertEqual(self.settled_again(database, before, kind), wanted)
            before = kind

    def test_what_a_succession_touches(self):
        """All Settlement Periods of those of its dates that have a run, and no others. Here the date before it has a run, the first of its
        dates has one, and the next has none and is touched by its readings. A row with the same lead account touches none."""
        dates = "2024-06-30", DAY, "2024-07-02"
        rows = {date: {kind: [row.replace(DAY, date) for row in rows] for kind, rows in MARKET} for date in dates}
        loads = [self.load(kind, rows[date][kind], f"{date}.csv") for date in (dates[0], dates[2]) for kind in ("meters", "prices")]
        runs = [self.order("SF", date=date) for date in dates[:2]]
        before = [self.load("parties", "NEWCO,2024-01-01,,newco0001", "n.csv"), *loads, *runs]
        after = [(TODAY + 1, period) for period in range(1, 49)]
        for row, touched in (
            ("S1,SUPCO,C,no,2024-01-01,", after),
            ("S1,NEWCO,C,no,2024-07-03,", after),
            (f"S1,NEWCO,C,no,{DAY},", [*((TODAY, period) for period in range(1, 49)), *after]),
        ):
            database, told = self.loaded(*before)
            self.assertTrue(all(line.startswith(("applied=", "run ")) for line in told), told)
            self.assertEqual(rows_of(database, "touched"), after)
            self.assertEqual(self.replies_over(database, self.load("units", row, "s.csv")), [APPLIED])
            self.assertEqual(rows_of(database, "touched"), touched)
        self.assertEqual(self.settled_again(database, "SF", "R1"), [*range(1, 49)])
        self.assertEqual(self.replies_over(database, self.order("R1", date=dates[0])), [f"run {dates[0]} R1 periods 48 accounts 6 residual 5050 postings 0"])

    def test_a_unit_that_joins_a_date(self):
        """No Settlement Period is touched, and the first lacks the reading of the unit."""
        unit = self.load("units", "N2,GENCO,P,no,2024-01-01,", "u2.csv")
        _, told = self.loaded(self.order("SF"), unit, self.order("R1"))
        self.assertEqual(told, [SETTLED, APPLIED, "refused 54 MissingMeter unit N2 period 1"])

    def test_positions_of_the_market(self):
        database, _ = self.loaded()
        self.assertEqual(self.positions(database, 1), [("GENCO", 0, 99_000, 0), ("SUPCO", 1, -99_000, 0)])
        self.replies_over(database, self.load("contracts", f"C1,GENCO-P,SUPCO-C,{DAY},1,98.000", "c2.csv"))
        self.assertEqual(self.positions(database, 1), [("GENCO", 0, 98_000, 0), ("SUPCO", 1, -98_000, 0)])

    def test_the_greatest_positions(self):
        """Ten thousand contracts of the greatest volume sum to the greatest position that is known. With one kWh more it is
        lost, and stays lost. In both cases the Settlement Period is too large, as it is in memory."""
        most = self.load("contracts", [f"R{number},GENCO-P,SUPCO-C,{DAY},2,10000.000" for number in range(10_000)], "c2.csv")
        more, none = (
            self.load("contracts", f"{reference},GENCO-P,SUPCO-C,{DAY},2,{volume}", name)
            for reference, volume, name in (("R10000", "0.001", "c3.csv"), ("R0", "0", "c4.csv"))
        )
        order = self.order("SF")
        database, told = self.loaded(most, order)
        self.assertEqual(self.positions(database, 2), [("GENCO", 0, 10**11, 0), ("SUPCO", 1, -(10**11), 0)])
        self.assertEqual(self.positions(database, 3), [])
        # Each volume replaces one of 10,000 MWh, or the one before, and the positions are less by so many kWh.
        for number, (reference, mwh, less) in enumerate((("R7", "-10000", 2), ("R8", "0", 3), ("R7", "10000", 1), ("R8", "10000", 0))):
            step = self.load("contracts", f"{reference},GENCO-P,SUPCO-C,{DAY},2,{mwh}", f"s{number}.csv")
            self.assertEqual(self.replies_over(database, step), [APPLIED])
            sold = 10**11 - less * 10**7
            self.assertEqual(self.positions(database, 2), [("GENCO", 0, sold, 0), ("SUPCO", 1, -sold, 0)])
        told += self.replies_over(database, more, order, none)
        self.assertEqual(self.positions(database, 2), [("GENCO", 0, 0, 1), ("SUPCO", 1, 0, 1)])
        refused = "refused 55 TooLarge period 2"
        self.assertEqual(told, ["applied=10000 late=0", refused, APPLIED, refused, APPLIED])
        status, written, _ = settle("script", "--operator-key", OPERATOR, self.file("memory", "".join(
            f"{line}\n" for line in (*self.market(), most, order, more, order, none))))
        self.assertEqual((status, written.decode().splitlines()[5:]), (0, told))


    def test_a_lost_position_stays_lost(self):
        """Also if the volume by which it was lost is replaced by 0."""
        database, _ = self.loaded()
        changed_by(database, "UPDATE positions SET kwh = 100000000000 - 98999 WHERE party = 'GENCO'")
        lines = [self.load("contracts", f"C1,GENCO-P,SUPCO-C,{DAY},1,{mwh}", f"c{mwh}.csv") for mwh in ("198", "0", "99")]
        for line in lines:
            self.assertEqual(self.replies_over(database, line), [APPLIED])
            self.assertEqual(self.positions(database, 1)[0], ("GENCO", 0, 0, 1))

    def test_positions_that_are_kept(self):
        """They are moved from what is kept by what the rows of a file change, and prices move none."""
        database, _ = self.loaded()
        changed_by(database, "UPDATE positions SET kwh = -99000 WHERE party = 'GENCO'", "UPDATE positions SET kwh = 0, lost = 1 WHERE party = 'SUPCO'")
        contracts = [f"C1,GENCO-P,SUPCO-C,{DAY},1,{mwh}" for mwh in ("100", "99.5")]
        for line, reply in ((self.load("contracts", contracts, "c2.csv"), "applied=2 late=0"), (self.dearer(), APPLIED)):
            self.assertEqual(self.replies_over(database, line), [reply])
            self.assertEqual(self.positions(database, 1), [("GENCO", 0, -98_500, 0), ("SUPCO", 1, 0, 1)])

    def test_positions_of_a_long_day(self):
        """A contract in each of its 50 Settlement Periods, of which the last is then sold back."""
        database, _ = self.loaded()
        rows = [f"C1,GENCO-P,SUPCO-C,2024-10-27,{period},10000" for period in range(1, 51)]
        back = "C1,GENCO-P,SUPCO-C,2024-10-27,50,-10000"
        for lines, last in ((rows, 10**7), (back, -(10**7))):
            self.replies_over(database, self.load("contracts", lines, f"c{last}.csv"))
            sold = [10**7] * 49 + [last]
            wanted = [(AUTUMN, period, *row) for period, kwh in enumerate(sold, 1) for row in (("GENCO", 0, kwh, 0), ("SUPCO", 1, -kwh, 0))]
            self.assertEqual([row for row in rows_of(database, "positions") if row[0] == AUTUMN], wanted)
        self.assertEqual([row[1] for row in rows_of(database, "touched") if row[0] == AUTUMN], list(range(1, 51)))


class Beside(InAFile):
    """Lists of requests, drawn at random: the answers over a file are those over tables in memory."""

    PARTIES = ("GENCO", "SUPCO", "NEWCO")
    ACCOUNTS = [f"{party}-{side}" for party in PARTIES for side in "PC"]
    UNITS = ("G1", "S1", "N1")

    def row(self, draw, kind):
        """A row of a kind, good or bad."""
        party, unit, period = draw.choice(self.PARTIES), draw.choice(self.UNITS), draw.randint(1, 49)
        if kind == "parties":
            return f"{party},{draw.choice(('2024-01-01', '2023-01-01', '2024-02-01'))},,{party.lower()}000{draw.randint(1, 2)}"
        if kind == "units":
            return f"{unit},{party},{draw.choice('PC')},{draw.choice(('no', 'no', 'yes'))},2024-01-01,"
        if kind == "meters":
            return f"{unit},{DAY},{period},{draw.randint(-99, 99)}.5,0.99,{draw.choice((0, 0, 1.25))}"
        if kind == "prices":
            return f"{DAY},{period},{draw.choice(('50', '-5.00001', '99999.99999', '100000'))}"
        if kind == "contracts":
            seller, buyer = draw.choice(self.ACCOUNTS), draw.choice(self.ACCOUNTS)
            return f"C{draw.randint(1, 3)},{seller},{buyer},{DAY},{period},{draw.randint(-9, 9)}.125"
        return f"{unit},{draw.choice(self.ACCOUNTS)},{DAY},{period},{draw.choice((0, 10, 60, 100))},{draw.choice((0, 1.5))}"

    def line(self, draw, market):
        """A line of a script: a load, mostly of a new file; a repeat; a run; or a report."""
        moment = draw.choice((EARLY, DEADLINE - 1, DEADLINE, DEADLINE + 1800 * 20, NEXT_END, -1))
        key = draw.choice((OPERATOR,) * 9 + ("genco0001", "op-nobody001"))
        what = draw.randint(0, 9)
        if what <= 3:
            kind = draw.choice(list(test_desk.HEADERS))
            rows = [self.row(draw, kind) for _ in range(draw.randint(0, 4))]
            return self.load(kind, rows, f"r{draw.randint(1, 6)}.csv", moment, key)
        if what == 4:
            return draw.choice(market)
        if what <= 7:
            return self.order(draw.choice(KINDS), draw.choice((END - 1, END, NEXT_END)), draw.choice((DAY, DAY, "2024-07-02")), key)
        return draw.choice((report("day", draw.choice(KINDS), key), report("csv", draw.choice(KINDS), key), balances(key)))

    def script(self, seed):
        draw = random.Random(seed)
        market = self.market()
        first = [] if seed % 3 == 0 else market
        lines = [*first, *(self.line(draw, market) for _ in range(30))]
        if seed % 2:
            draw.shuffle(lines)
        return "".join(f"{line}\n" for line in lines)

    def test_lists_of_requests(self):
        for seed in range(12):
            text = self.script(seed)
            wanted = settle("script", "--operator-key", OPERATOR, self.file("script", text))
            self.assertEqual((wanted[0], wanted[2]), (0, b""))
            self.assertIn(b"applied=", wanted[1])
            for anew in (False, True):
                with self.subTest(seed=seed, anew=anew):
                    self.ANEW = anew
                    self.assertEqual(self.run_script(text), wanted)

    def test_a_day_beside_the_peer(self):
        """A day of 20 parties and 60 units: the file has the same tables as `bench/peer_office.py` keeps."""
        folder = self.room / "day"
        words = ["--parties=20", "--units=60", "--contracts=20", "--reallocations=10"]
        subprocess.run(["python3", str(HOME / "bench" / "gen_day.py"), str(folder), *words], check=True)
        files = [line.split() for line in (folder / "order").read_text().splitlines()]
        database = self.database()
        lines = [f"load {EARLY} {OPERATOR} {kind} {folder}/{name}" for kind, name in files]
        made = self.replies_over(database, *lines, self.order("SF"), made=(OPERATOR, "60"))
        peer = self.peer_of(folder, files)
        told = io.StringIO()
        with contextlib.redirect_stdout(told):
            peer["run"](peer["connection"], DAY, "SF")
        self.assertEqual(made[-1:], told.getvalue().splitlines())
        for table in TABLES:
            if table not in ("settings", "positions", "touched", "marks"):
                with self.subTest(table):
                    self.assertEqual(set(rows_of(database, table)), set(peer["connection"].execute(f"SELECT * FROM {table}")))

    def peer_of(self, folder, files):
        """The peer over tables in memory, after it has loaded these files."""
        path = str(HOME / "bench" / "peer_office.py")
        with contextlib.redirect_stdout(io.StringIO()):
            with unittest.mock.patch("sys.argv", [path, "init", ":memory:"]):
                peer = runpy.run_path(path)
            for kind, name in files:
                peer["load"](peer["connection"], kind, f"{folder}/{name}")
        return peer


class Kept(InAFile):
    """What sqlite3 reads in the file."""

    def test_the_tables_and_their_columns(self):
        database, _ = self.loaded()
        with contextlib.closing(sqlite3.connect(database)) as connection:
            self.assertEqual(connection.execute("PRAGMA integrity_check").fetchall(), [("ok",)])
            found = connection.execute("SELECT name, sql FROM sqlite_schema WHERE type = 'table'").fetchall()
            self.assertEqual([name for name, _ in found], list(TABLES))
            others = "SELECT name FROM sqlite_schema WHERE type <> 'table' AND name NOT LIKE 'sqlite_autoindex_%'"
            self.assertEqual(connection.execute(others).fetchall(), [])
            for name, text in found:
                keys, columns = TABLES[name]
                wanted = [column.partition(":")[::2] for column in columns.split()]
                told = connection.execute(f"PRAGMA table_info({name})").fetchall()
                places = [*range(1, keys + 1), *[0] * (len(wanted) - keys)]
                with self.subTest(name):
                    self.assertTrue(text.endswith(") STRICT"))
                    self.assertEqual(
                        [(column, kind, missing, key) for _, column, kind, missing, _, key in told],
                        [(column, kind or "INT", 1, place) for (column, kind), place in zip(wanted, places)],
                    )

    def test_a_new_office(self):
        database = self.database()
        self.assertEqual(self.replies_over(database, made=(OPERATOR, "45")), [])
        content = content_of(database)
        self.assertEqual(content.pop("settings"), [(1, VERSION, 45, OPERATOR)])
        self.assertEqual(content.pop("marks"), [(1, 1)])
        self.assertEqual(content, dict.fromkeys(content, []))

    def test_the_market(self):
        """Energies are kept in kWh, multipliers with 7 decimals, percentages and prices with 5, dates as days."""
        database, _ = self.loaded(self.load("reallocations", f"G1,SUPCO-C,{DAY},1,12.5,-0.5"))
        idle = range(2, 49)
        meters = [("G1", TODAY, 1, 100_000, 9_950_000, 0), *(("G1", TODAY, period, 0, 10_000_000, 0) for period in idle)]
        meters += [("S1", TODAY, 1, -98_000, 10_050_000, 0), *(("S1", TODAY, period, 0, 10_000_000, 0) for period in idle)]
        wanted = {
            "settings": [(1, VERSION, 60, OPERATOR)],
            "parties": [("GENCO", NEW_YEAR, LAST_DAY, "genco0001"), ("SUPCO", NEW_YEAR, LAST_DAY, "supco0001")],
            "units": [("G1", "GENCO", 0, 0, NEW_YEAR, LAST_DAY), ("S1", "SUPCO", 1, 0, NEW_YEAR, LAST_DAY)],
            "meters": meters,
            "prices": [(TODAY, 1, 5_000_000), *((TODAY, period, 0) for period in idle)],
            "refs": [("C1", "GENCO", 0, "SUPCO", 1)],
            "contracts": [("C1", TODAY, 1, 99_000)],
            "reallocations": [("G1", "SUPCO", 1, TODAY, 1, 1_250_000, -500)],
            "positions": [(TODAY, 1, "GENCO", 0, 99_000, 0), (TODAY, 1, "SUPCO", 1, -99_000, 0)],
            "touched": [(TODAY, period) for period in range(1, 49)],
            "marks": [(1, 1)],
            "leads": [("G1", NEW_YEAR, "GENCO", 0, LAST_DAY), ("S1", NEW_YEAR, "SUPCO", 1, LAST_DAY)],
        }
        content = content_of(database)
        files = {(kind, name): (body, applied, late) for kind, name, body, applied, late in content.pop("files")}
        for number, (kind, rows) in enumerate(MARKET, 1):
            self.assertEqual(files[kind, f"f{number}.csv"], (text_of(kind, rows), len(rows), 0))
        self.assertEqual(len(files), 6)
        for table, rows in content.items():
            with self.subTest(table):
                self.assertEqual(rows, wanted.get(table, []))

    def test_rows_at_the_ends_of_their_ranges(self):
        """Among them the ranges of dates, and numbers as large and as small as they may be."""
        files = {
            "parties": ["NEWCO,2001-01-01,,newco0001", "OLDCO,2024-01-01,2024-01-01,oldco0001", "GENCO,2001-01-01,2099-12-31,genco0002"],
            "units": ["G_1,GENCO,C,no,2024-01-01,2024-01-01", "I1,GENCO,C,yes,2001-01-01,2099-12-31", "G1,GENCO,P,no,2023-12-31,"],
            "meters": ["G1,2024-10-27,49,10000,0.9912345,-10000", "G1,2024-10-27,50,-10000.000,2,0.001"],
            "prices": ["2024-10-27,50,-99999.99999", "2024-10-27,49,99999.99999"],
            "contracts": ["c-1,GENCO-P,SUPCO-C,2024-10-27,3,-1.500", "c-1,GENCO-P,SUPCO-C,2099-12-31,1,10000"],
            "reallocations": ["G1,SUPCO-P,2024-10-27,3,25,10000", "G1,SUPCO-P,2024-10-27,4,100,-0.001", "G1,SUPCO-P,2024-10-27,5,0.00001,0"],
        }
        wanted = {
            "parties": [("GENCO", FIRST_DAY, LAST_DAY, "genco0002"), ("NEWCO", FIRST_DAY, LAST_DAY, "newco0001"), ("OLDCO", NEW_YEAR, NEW_YEAR, "oldco0001")],
            "units": [("G1", "GENCO", 0, 0, NEW_YEAR - 1, LAST_DAY), ("G_1", "GENCO", 1, 0, NEW_YEAR, NEW_YEAR), ("I1", "GENCO", 1, 1, FIRST_DAY, LAST_DAY)],
            "meters": [("G1", AUTUMN, 49, 10_000_000, 9_912_345, -10_000_000), ("G1", AUTUMN, 50, -10_000_000, 20_000_000, 1)],
            "prices": [(AUTUMN, 49, 9_999_999_999), (AUTUMN, 50, -9_999_999_999)],
            "leads": [("G1", NEW_YEAR - 1, "GENCO", 0, LAST_DAY), ("G_1", NEW_YEAR, "GENCO", 1, NEW_YEAR), ("I1", FIRST_DAY, "GENCO", 1, LAST_DAY)],
            "refs": [("c-1", "GENCO", 0, "SUPCO", 1)],
            "contracts": [("c-1", AUTUMN, 3, -1_500), ("c-1", LAST_DAY, 1, 10_000_000)],
            "reallocations": [("G1", "SUPCO", 0, AUTUMN, period, *row) for period, row in ((3, (2_500_000, 10_000_000)), (4, (10_000_000, -1)), (5, (1, 0)))],
        }
        before = content_of(self.loaded()[0])
        database, told = self.loaded(*(self.load(kind, rows, "ends.csv") for kind, rows in files.items()))
        self.assertEqual(told, [f"applied={len(rows)} late=0" for rows in files.values()])
        after = content_of(database)
        for table, rows in wanted.items():
            with self.subTest(table):
                self.assertEqual([row for row in after[table] if row not in before[table]], rows)
        self.assertEqual(after["leads"], leads_of(after["units"]))

    def test_balances_of_any_size(self):
        """They may be larger than a posting. What is posted to an account of no party isn't shown."""
        database, _ = self.loaded(self.order("SF", END))
        changed_by(
            database,
            f"UPDATE postings SET pence = {2**63 - 1} WHERE party = 'GENCO'",
            f"UPDATE postings SET pence = {-(2**63)} WHERE party = 'SUPCO'",
            f"INSERT INTO postings VALUES ({TODAY + 1}, 0, 'GENCO', 0, 1), ({TODAY + 1}, 0, 'NEWCO', 0, 7)",
        )
        wanted = ["account,moved_pence", f"GENCO-P,{2**63}", "GENCO-C,0", "SUPCO-P,0", f"SUPCO-C,{-(2**63)}"]
        self.assertEqual(self.replies_over(database, balances()), wanted)

    def test_figures_as_large_as_they_are_kept(self):
        """An energy that is wider than its field of 20 is written whole."""
        database, _ = self.loaded(self.order("SF", END))
        changed_by(database, f"UPDATE results SET credited = {-(2**63)}, balancing = {2**63 - 1} WHERE period = 1 AND party = 'GENCO' AND side = 0")
        energies = "-922337203.6854775808", "922337203.6854775807", "99.0000000000", "0.5000000000"
        found = self.replies_over(database, report("day"), report("csv"))
        self.assertEqual(found[2], f"{1:3} {'GENCO-P':12} {' '.join(f'{energy:>20}' for energy in energies)} {-2500:14} {2538:14}")
        self.assertEqual(found[DAY_REPORT.count("\n") + 1], f"{DAY},SF,GENCO-P,1,{','.join(energies)},-2500,2538")

    def test_what_is_settled(self):
        """The rows of the run are those of the text that was derived by hand, and each unit's credit goes to its lead account."""
        database, found = self.loaded(self.order("SF", END))
        self.assertEqual(found, [SETTLED])
        results = []
        for row in csv.DictReader(io.StringIO(RESULTS)):
            party, _, side = row["account"].partition("-")
            energies = [int(row[name].replace(".", "")) for name in ("credited", "balancing", "contracts", "imbalance")]
            results.append((TODAY, 0, int(row["period"]), party, "PC".index(side), *energies, int(row["charge"]), int(row["share"])))
        self.assertEqual(sorted(rows_of(database, "results")), sorted(results))
        self.assertEqual(rows_of(database, "runs"), [(TODAY, 0, 48, 4, 5050, 2)])
        self.assertEqual(rows_of(database, "postings"), [(TODAY, 0, "GENCO", 0, 38), (TODAY, 0, "SUPCO", 1, -38)])
        credits = [(TODAY, 0, 1, "G1", "GENCO", 0, 995_000_000_000), (TODAY, 0, 1, "S1", "SUPCO", 1, -984_900_000_000)]
        idle = [(TODAY, 0, period, unit, party, side, 0) for period in range(2, 49) for unit, party, side in (("G1", "GENCO", 0), ("S1", "SUPCO", 1))]
        self.assertEqual(rows_of(database, "credits"), sorted([*credits, *idle]))

    def test_a_later_run(self):
        """It has rows of its own, and those of the first are as they were."""
        database, _ = self.loaded(self.order("SF", END))
        first = content_of(database)
        self.assertEqual(self.replies_over(database, self.dearer(), self.order("R1")), ["applied=1 late=0", DEARER])
        second = content_of(database)
        for table in ("results", "credits", "runs", "postings"):
            with self.subTest(table):
                self.assertEqual([row for row in second[table] if row[1] == 0], first[table])
                self.assertEqual(len([row for row in second[table] if row[1] == 1]), len(first[table]))
        self.assertEqual([row for row in second["postings"] if row[1]], [(TODAY, 1, "GENCO", 0, 7), (TODAY, 1, "SUPCO", 1, -7)])

    def test_what_is_in_force_after_many_files(self):
        """Each key has the row that was accepted last. A late row fixes only its reference. A refused file leaves nothing."""
        draw = random.Random(7)
        database, _ = self.loaded()
        force = {("C1", TODAY, 1): 99_000}
        refs = {"C1": ("GENCO", 0, "SUPCO", 1)}
        lines, kept = [], []
        for number in range(60):
            reference = f"C{draw.randint(1, 9)}"
            ends = draw.choice((("GENCO", 0, "SUPCO", 1), ("SUPCO", 0, "GENCO", 1)))
            moment, period, kwh = draw.choice((EARLY, DEADLINE, DEADLINE + 1800 * 24)), draw.randint(1, 48), draw.randint(-99_999, 99_999)
            seller, buyer = f"{ends[0]}-{'PC'[ends[1]]}", f"{ends[2]}-{'PC'[ends[3]]}"
            sign, size = "-" if kwh < 0 else "", abs(kwh)
            row = f"{reference},{seller},{buyer},{DAY},{period},{sign}{size // 1000}.{size % 1000:03}"
            lines.append(self.load("contracts", row, f"g{number}.csv", moment))
            if refs.setdefault(reference, ends) != ends:
                kept.append("refused 36 ReferenceMoved row 1")
            elif moment >= DEADLINE + 1800 * (period - 1):
                kept.append("applied=0 late=1")
            else:
                kept.append("applied=1 late=0")
                force[reference, TODAY, period] = kwh
        self.assertEqual(len(set(kept)), 3)
        self.assertEqual(self.replies_over(database, *lines), kept)
        self.assertEqual(rows_of(database, "contracts"), sorted((*key, kwh) for key, kwh in force.items()))
        self.assertEqual(rows_of(database, "refs"), sorted((reference, *ends) for reference, ends in refs.items()))
        self.assertEqual(len(rows_of(database, "files")), 5 + sum(not reply.startswith("refused") for reply in kept))

    def test_a_known_key_behind_new_ones(self):
        """Rows with new keys are written several at a time. A row whose key is known replaces the row that was there, wherever
        in its file it comes. Of the rows of a file that have one key the last counts."""
        forms = {
            "meters": ("G1,2024-07-02,{},{},1.0000000,0.000", lambda period, kwh: ("G1", TODAY + 1, period, kwh, 10_000_000, 0)),
            "contracts": ("C1,GENCO-P,SUPCO-C,2024-07-02,{},{}", lambda period, kwh: ("C1", TODAY + 1, period, kwh)),
        }
        for kind, (text, row) in forms.items():
            for known in (1, 8, 9, 14, 24):
                with self.subTest(kind, known=known):
                    database, _ = self.loaded()
                    lines = [text.format(period, f"{period}.000") for period in range(1, 25)]
                    again = text.format(2, "7.500")
                    first = self.load(kind, text.format(known, "99.000"), "first.csv")
                    second = self.load(kind, [*lines, again], "second.csv")
                    replies = ["applied=1 late=0", "applied=25 late=0"]
                    self.assertEqual(self.replies_over(database, first, second), replies)
                    wanted = [row(period, 7_500 if period == 2 else 1_000 * period) for period in range(1, 25)]
                    self.assertEqual([found for found in rows_of(database, kind) if found[1] == TODAY + 1], wanted)

    def test_a_file_that_sqlite3_has_packed(self):
        """Rows moved to other pages by sqlite3 are the same rows."""
        database, _ = self.loaded(self.order("SF", END))
        changed_by(database, "VACUUM")
        self.assertEqual("".join(f"{line}\n" for line in self.replies_over(database, report("day"), balances())), DAY_REPORT + BALANCES)

    def test_a_copy(self):
        """The file by itself is the whole office: it is copied, and both copies go on independently."""
        database, _ = self.loaded(self.order("SF", END))
        copy = self.room / "copy.db"
        shutil.copy(database, copy)
        self.assertEqual(self.replies_over(copy, self.dearer(), self.order("R1")), ["applied=1 late=0", DEARER])
        self.assertEqual(self.replies_over(database, report("day", "R1")), ["refused 63 NoRun"])


class Bad(InAFile):
    """Files that are no office's, and disks that fail: the answer is 91, nothing changes, and the next call succeeds."""

    def refused(self, database, *made):
        """The office is not taken over or made: nothing is printed, and 91 is told."""
        status, written, told = office(database, self.file("script", f"{balances()}\n"), *made)
        self.assertEqual((status, written, told.decode().splitlines()[-1]), (1, b"", STORE))

    def unharmed(self, database, *made):
        """It is refused, and the file has the bytes that it had."""
        before = database.read_bytes()
        self.refused(database, *made)
        self.assertEqual(database.read_bytes(), before)

    def test_files_that_are_no_database(self):
        database = self.database()
        for data in (b"xy", b"party,from,to,key\n" * 400, bytes(range(256)) * 64, b"\0" * 8192, b"SQLite format 3\0" * 512):
            with self.subTest(data[:16]):
                database.write_bytes(data)
                self.unharmed(database)
                self.unharmed(database, OPERATOR, "60")

    def test_a_damaged_file(self):
        """An office's, cut short or with a page of another file."""
        whole, _ = self.loaded()
        data = whole.read_bytes()
        database = self.database()
        for damaged in (data[: len(data) // 2], data[:4096] + b"\xff" * 4096 + data[8192:], data[:-4096]):
            database.write_bytes(damaged)
            self.unharmed(database)

    def test_an_empty_file(self):
        """There is no office in it, so none can be taken over, but one can be made."""
        database = self.database()
        database.write_bytes(b"")
        self.refused(database)
        self.assertEqual(self.replies_over(database, *self.market(), made=(OPERATOR, "60")), LOADED)
        self.refused(database, OPERATOR, "60")

    def test_no_file(self):
        self.refused(self.room / "missing.db")
        self.refused(self.room / "folder" / "missing.db", OPERATOR, "60")
        self.refused(self.room, OPERATOR, "60")

    def test_a_database_with_other_tables(self):
        database = self.database()
        changed_by(database, "CREATE TABLE notes (text)", "INSERT INTO notes VALUES ('kept')")
        for made in ((), (OPERATOR, "60")):
            self.refused(database, *made)
            with contextlib.closing(sqlite3.connect(database)) as connection:
                self.assertEqual(connection.execute("SELECT text FROM notes").fetchall(), [("kept",)])
                self.assertEqual(len(connection.execute("SELECT * FROM sqlite_schema").fetchall()), 1)

    def test_an_office_with_other_tables(self):
        """One table more, one table fewer, one column more, another key, another declared type."""
        for statements in (
            ["CREATE TABLE more (id INT)"],
            ["DROP TABLE touched"],
            ["DROP TABLE leads"],
            ["ALTER TABLE marks ADD COLUMN more INT"],
            ["DROP TABLE touched", "CREATE TABLE touched (day INT NOT NULL, period INT NOT NULL, PRIMARY KEY (period, day)) STRICT"],
            ["DROP TABLE touched", "CREATE TABLE touched (day INT NOT NULL, period TEXT NOT NULL, PRIMARY KEY (day, period)) STRICT"],
            ["DROP TABLE touched", "CREATE TABLE touched (day INT NOT NULL, period INT NOT NULL, PRIMARY KEY (day, period))"],
        ):
            with self.subTest(statements[-1]):
                database, _ = self.loaded()
                changed_by(database, *statements)
                before = rows_of(database, "meters")
                self.refused(database)
                self.assertEqual(rows_of(database, "meters"), before)

    def test_settings_that_are_none(self):
        """Another version, minutes out of their range, keys off their grammar, no settings; no mark, a mark out of its range,
        and a mark that says that no positions are kept although there are some."""
        database, _ = self.loaded()
        data = database.read_bytes()
        for statement in (
            "UPDATE settings SET version = 1",
            "UPDATE settings SET version = 7",
            "UPDATE settings SET version = 0",
            "UPDATE settings SET id = 2",
            "UPDATE settings SET lead_minutes = 1441",
            "UPDATE settings SET lead_minutes = -1",
            "UPDATE settings SET operator_key = 'op-short1'",
            "UPDATE settings SET operator_key = 'genco0001000'",
            "UPDATE settings SET operator_key = 'settle001'",
            "UPDATE settings SET operator_key = 'op-settle_001'",
            "DELETE FROM settings",
            "DELETE FROM marks",
            "UPDATE marks SET positions = 2",
            "UPDATE marks SET positions = 0",
        ):
            with self.subTest(statement):
                database.write_bytes(data)
                changed_by(database, statement)
                before = content_of(database)
                self.refused(database)
                self.assertEqual(content_of(database), before)
        database.write_bytes(data)
        changed_by(database, "UPDATE settings SET lead_minutes = 1440")
        self.assertEqual(self.replies_over(database, self.load(*MARKET[0], name="f1.csv")), LOADED[:1])

    def test_contracts_off_their_range(self):
        """If no positions are kept, they are made from all contracts. So no office is taken over that has such a contract."""
        whole, _ = self.loaded()
        data = whole.read_bytes()
        for change in (
            "reference = 'c 1'",
            "reference = ''",
            "day = 11322",
            "day = 47482",
            "day = -1",
            "period = 0",
            "period = 51",
            "period = 65537",
            "kwh = 10000001",
            "kwh = -10000001",
        ):
            with self.subTest(change):
                database = self.database()
                database.write_bytes(data)
                changed_by(database, *WITHOUT_POSITIONS, f"UPDATE contracts SET {change}")
                before = content_of(database)
                self.refused(database)
                self.assertEqual(content_of(database), before)
        database.write_bytes(data)
        changed_by(database, *WITHOUT_POSITIONS)
        self.assertEqual(len(self.replies_over(database, balances())), 5)

    def test_rows_off_their_range(self):
        """What needs such a row is answered with 91, and everything else as usual. No row changes."""
        whole, _ = self.loaded(self.order("SF", END))
        data = whole.read_bytes()
        for statement, line in (
            ("UPDATE meters SET metered = 10000001 WHERE unit = 'G1' AND period = 1", self.order("R1")),
            ("UPDATE meters SET tlm = -1 WHERE unit = 'G1' AND period = 1", self.order("R1")),
            ("UPDATE prices SET price = 10000000000 WHERE period = 1", self.order("R1")),
            ("UPDATE units SET interconnector = 2 WHERE unit = 'G1'", self.order("R1")),
            ("UPDATE units SET side = 2 WHERE unit = 'G1'", self.order("R1")),
            ("UPDATE units SET day_to = day_from - 1 WHERE unit = 'G1'", self.order("R1")),
            ("UPDATE runs SET kind = 6", self.order("R1")),
            ("UPDATE positions SET kwh = 1, lost = 1 WHERE party = 'GENCO'", self.order("R1")),
            ("UPDATE positions SET kwh = -1, lost = 1 WHERE party = 'GENCO'", self.order("R1")),
            ("UPDATE positions SET lost = 2 WHERE party = 'GENCO'", self.order("R1")),
            ("UPDATE positions SET kwh = 100000000001 WHERE party = 'GENCO'", self.order("R1")),
            ("UPDATE positions SET kwh = -100000000001 WHERE party = 'SUPCO'", self.order("R1")),
            ("UPDATE positions SET period = 51 WHERE party = 'GENCO'", self.order("R1")),
            ("INSERT INTO touched VALUES (19905, 0)", self.order("R1")),
            ("INSERT INTO touched VALUES (19905, 51)", self.order("R1")),
            ("UPDATE files SET applied = 4294967296 WHERE name = 'f4.csv'", self.load(*MARKET[3], name="f4.csv")),
            ("UPDATE parties SET day_to = day_from - 1", balances()),
            ("UPDATE parties SET access_key = 'short' WHERE party = 'GENCO'", balances()),
            ("UPDATE postings SET side = 2 WHERE party = 'GENCO'", balances()),
            ("UPDATE results SET party = 'genco' WHERE period = 7 AND party = 'GENCO' AND side = 0", report("day")),
            ("UPDATE runs SET periods = 256", report("day")),
        ):
            database = self.database()
            database.write_bytes(data)
            changed_by(database, statement)
            before = content_of(database)
            with self.subTest(statement):
                found = self.replies_over(database, line, self.load(*MARKET[4], name="f5.csv"), line)
                self.assertEqual(found, [STORE, LOADED[4], STORE])
                self.assertEqual(content_of(database), before)

    def test_a_file_in_use(self):
        """Another process has it open: it is refused until that process ends."""
        database, _ = self.loaded()
        with contextlib.closing(sqlite3.connect(database)) as connection:
            connection.execute("BEGIN EXCLUSIVE")
            self.refused(database)
            connection.execute("ROLLBACK")
        self.assertEqual(len(self.replies_over(database, balances())), 5)

    def test_a_file_of_others(self):
        """Root may write every file, so this calls a copy of the program as nobody."""
        nobody = as_nobody()
        if nobody is None:
            self.skipTest("root may write every file, and setpriv doesn't give up its rights here")
        database, _ = self.loaded()
        os.chmod(self.room, 0o755)
        program = shutil.copy(BENCH, self.room / "hh_bench")
        os.chmod(program, 0o755)
        script = self.file("script", f"{balances()}\n")
        os.chmod(script, 0o644)
        before = database.read_bytes()
        for mode in (0o444, 0):
            os.chmod(database, mode)
            made = subprocess.run([*nobody, program, "office", database, script], capture_output=True)
            self.assertEqual((made.returncode, made.stdout, made.stderr.decode().splitlines()[-1:]), (1, b"", [STORE]))
        os.chmod(database, 0o644)
        self.assertEqual(database.read_bytes(), before)
        self.assertEqual(len(self.replies_over(database, balances())), 5)

    def limited(self, size):
        """Only for the program: no file can grow beyond this many bytes, and a write that would is told as failed."""

        def limit():
            signal.signal(signal.SIGXFSZ, signal.SIG_IGN)
            resource.setrlimit(resource.RLIMIT_FSIZE, (size, size))

        return limit

    def test_a_full_disk(self):
        """However early the disk is full, each line is answered or told 91, and later the office has what was answered."""
        whole, _ = self.loaded()
        data = whole.read_bytes()
        rows = [f"U{number},GENCO,P,no,2024-01-01," for number in range(1500)]
        lines = [self.load("units", rows), self.load("prices", f"{DAY},1,51.00000", "p9.csv"), balances()]
        text = "".join(f"{line}\n" for line in lines)
        refusals = 0
        for more in (0, 4096, 40_960, 131_072, 409_600, 1_638_400):
            database = self.database()
            database.write_bytes(data)
            before = content_of(database)
            status, written, told = office(database, self.file("script", text), preexec_fn=self.limited(len(data) + more))
            found = written.decode().splitlines()
            with self.subTest(more=more):
                self.assertIn(status, (0, 1))
                if status:
                    self.assertEqual(told.decode().splitlines()[-1], STORE)
                accepted = [line for line in found if line.startswith("applied=")]
                refusals += found.count(STORE)
                self.assertEqual(self.replies_over(database, balances())[0], "account,moved_pence")
                after = content_of(database)
                self.assertIn(len(after["units"]), (2, 1502))
                self.assertLessEqual(len(accepted), len(after["files"]) - len(before["files"]))
                self.assertEqual(self.replies_over(database, *lines[:2]), ["applied=1500 late=0", "applied=1 late=0"])
        self.assertGreater(refusals, 0)

    def test_an_output_that_fails(self):
        """What was answered is kept."""
        database, _ = self.loaded()
        words = [BENCH, "office", str(database), self.file("script", f"{self.dearer()}\n{balances()}\n")]
        made = subprocess.run(["sh", "-c", '"$@" >/dev/full', "sh", *words], capture_output=True)
        self.assertEqual((made.returncode, made.stderr.decode().splitlines()[-1]), (1, "fault output"))
        self.assertIn((TODAY, 1, 6_000_000), rows_of(database, "prices"))

    def test_words_and_scripts_that_are_none(self):
        database = self.database()
        script = self.file("script", "")
        for words in ((), (database,), (database, script, OPERATOR), (database, script, OPERATOR, "60", "60"), (database, script, "short", "60"), (database, script, OPERATOR, "1441")):
            made = subprocess.run([BENCH, "office", *map(str, words)], capture_output=True)
            self.assertEqual((made.returncode, made.stdout), (2, b""))
        self.assertEqual(office(database, self.file("script", "x\n"), OPERATOR, "60")[:2], (2, b""))
        self.assertEqual(office(database, self.room / "none", OPERATOR, "60"), (1, b"", b"fault input\n"))
        self.assertFalse(database.exists())


if __name__ == "__main__":
    unittest.main()
