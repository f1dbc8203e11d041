"""What an analyst meets at the office's desk, through the built `settle script`: files are loaded, or come late, twice or
wrong; runs are made or refused; and each line is answered. Every script begins with empty tables."""
import contextlib
import csv
import io
import os
import pathlib
import runpy
import shutil
import subprocess
import sys
import unittest
import unittest.mock

from programs import HOME, SETTLE, as_nobody, settle
from test_program import OfTheProgram

OPERATOR = "op-settle001"
DAY = "2024-07-01"
# 2024-07-01 begins at 2024-06-30T23:00:00Z. With a lead of 60 minutes period 1 has its deadline at 22:00:00Z.
START = 1_719_788_400
DEADLINE = START - 3600
# 2024-06-29T22:26:40Z, when files come unless a test says otherwise.
EARLY = 1_719_700_000
# 2024-07-01 has 48 periods, so it ends at 2024-07-01T23:00:00Z, and 2024-07-02 a day later.
END = 1_719_874_800
NEXT_END = 1_719_961_200
HEADERS = {
    "parties": "party,from,to,key",
    "units": "unit,party,side,interconnector,from,to",
    "meters": "unit,date,period,metered_mwh,tlm,balancing_mwh",
    "prices": "date,period,price",
    "contracts": "reference,seller,buyer,date,period,mwh",
    "reallocations": "unit,account,date,period,percent,fixed_mwh",
}
IDLE = range(2, 49)
MARKET = [
    ("parties", ["GENCO,2024-01-01,,genco0001", "SUPCO,2024-01-01,,supco0001"]),
    ("units", ["G1,GENCO,P,no,2024-01-01,", "S1,SUPCO,C,no,2024-01-01,"]),
    ("contracts", [f"C1,GENCO-P,SUPCO-C,{DAY},1,99.000"]),
    (
        "meters",
        [f"G1,{DAY},1,100.000,0.9950000,0", f"S1,{DAY},1,-98.000,1.0050000,0"]
        + [f"{unit},{DAY},{period},0,1,0" for period in IDLE for unit in ("G1", "S1")],
    ),
    ("prices", [f"{DAY},1,50.00000"] + [f"{DAY},{period},0" for period in IDLE]),
]
# A unit that joins, gets a wider range and then another lead account; and one of the market that another account leads from the day on.
# They change no figure of a run that was made.
LEADS_CHANGE = [
    "W1,GENCO,P,no,2024-07-10,2024-07-20",
    "W1,GENCO,P,no,2024-07-09,2024-07-21",
    "W1,GENCO,C,no,2024-07-15,2024-07-21",
    f"S1,SUPCO,P,no,{DAY},",
]
# Two parties, two units, one contract, and for 48 periods two readings and a price each.
LOADED = ["applied=2 late=0", "applied=2 late=0", "applied=1 late=0", "applied=96 late=0", "applied=48 late=0"]
APPLIED = "applied=1 late=0"
LATE = "applied=0 late=1"
# What the market settles to. GENCO-P has 0.5 MWh too much and SUPCO-C 0.51, so at 50 pounds they are paid 2,500 and 2,550
# pence. They share these 5,050 by credited energy, 99.5 to 98.49, and bear 2,538 and 2,512. So one account pays 38 pence, and
# the other is paid 38.
SETTLED = f"run {DAY} SF periods 48 accounts 4 residual 5050 postings 2"
# At 60 pounds they are paid 3,000 and 3,060, and share 3,045 and 3,015. GENCO-P pays 45 pence, 7 more.
DEARER = f"run {DAY} R1 periods 48 accounts 4 residual 6060 postings 2"


def text_of(kind, rows):
    """The bytes of a file, one line for each row."""
    return "".join(f"{line}\n" for line in [HEADERS[kind], *rows]).encode()


def told_by_the_peer(folder, files):
    """What `bench/peer_office.py` tells about SF of these files, and its results: another program's figures, from Python's
    whole numbers."""
    path = str(HOME / "bench" / "peer_office.py")
    with contextlib.redirect_stdout(io.StringIO()):
        with unittest.mock.patch("sys.argv", [path, "init", ":memory:"]):
            peer = runpy.run_path(path)
        for kind, name in files:
            peer["load"](peer["connection"], kind, f"{folder}/{name}")
    told = io.StringIO()
    with contextlib.redirect_stdout(told):
        peer["run"](peer["connection"], DAY, "SF")
        peer["report"](peer["connection"], DAY, "SF")
    return told.getvalue().splitlines()


def realloc(account, percent):
    """A percentage of unit G1 in period 1."""
    return f"G1,{account},{DAY},1,{percent},0"


class Desk(OfTheProgram):
    """A test with scripts and files in a folder of its own."""

    def setUp(self):
        super().setUp()
        self.folders = 0

    def path(self, name, data):
        """A new file with this name, in a folder without other files."""
        self.folders += 1
        folder = self.room / str(self.folders)
        folder.mkdir()
        (folder / name).write_bytes(data)
        return str(folder / name)

    def load(self, kind, rows, name="x.csv", moment=EARLY, key=OPERATOR):
        """The line of a script that loads a file. If rows are given, they follow the kind's header. If bytes are given, they
        are the whole file."""
        data = rows if isinstance(rows, bytes) else text_of(kind, [rows] if isinstance(rows, str) else rows)
        return f"load {moment} {key} {kind} {self.path(name, data)}"

    def market(self):
        """The lines that load the market."""
        return [self.load(kind, rows, f"f{number}.csv") for number, (kind, rows) in enumerate(MARKET, 1)]

    def order(self, kind, moment=NEXT_END, date=DAY, key=OPERATOR):
        """The line of a script that makes a run."""
        return f"run {moment} {key} {date} {kind}"

    def dearer(self):
        """The line that loads a price of 60 pounds for period 1."""
        return self.load("prices", f"{DAY},1,60.00000", "p2.csv")

    def run_script(self, text, *options, **how):
        """Runs a script of this text."""
        return settle("script", "--operator-key", OPERATOR, *options, self.file("script", text), **how)

    def replies(self, *lines, options=(), **how):
        """What is printed for these lines."""
        status, written, told = self.run_script("".join(f"{line}\n" for line in lines), *options, **how)
        self.assertEqual((status, told), (0, b""))
        self.assertTrue(written.endswith(b"\n") or not lines)
        return written.decode().splitlines()

    def after_market(self, *lines, options=()):
        """What is printed for these lines once the market is loaded."""
        found = self.replies(*self.market(), *lines, options=options)
        self.assertEqual(found[:5], LOADED)
        return found[5:]

    def is_wrong(self, made, line=None):
        """Status 2 with nothing run. The line that is off its form is told by its number, and on a second line by one of its
        words. The whole text of that is tested in test_explain.py."""
        status, written, told = made
        self.assertEqual((status, written), (2, b""))
        self.assertTrue(told.endswith(b"\n"))
        if line is not None:
            self.assertRegex(told, rb"\Aline %d is off its form\nline %d (?:word [1-9][0-9]* |is empty: ).*\n\Z" % (line, line))


class Loads(Desk):
    def test_the_market(self):
        self.assertEqual(self.replies(*self.market()), LOADED)

    def test_each_call_begins_with_empty_tables(self):
        self.assertEqual(self.replies(*self.market()), LOADED)
        units = self.load(*MARKET[1])
        self.assertEqual(self.replies(units), ["refused 30 UnknownParty row 1"])

    def test_the_last_line_may_lack_its_end(self):
        script = self.load(*MARKET[0]) + "\n" + self.load(*MARKET[1])
        self.assertEqual(self.run_script(script), (0, b"applied=2 late=0\napplied=2 late=0\n", b""))

    def test_a_script_of_no_bytes(self):
        self.assertEqual(self.run_script(b""), (0, b"", b""))

    def test_as_many_bytes_as_a_script_may_have(self):
        most = 16_777_216
        front, back = f"load {EARLY} {OPERATOR} parties /", "/nowhere.csv\n"
        line = front + "x" * (most - len(front) - len(back)) + back
        self.assertEqual(self.run_script(line), (0, b"fault file\n", b""))
        self.assertEqual(self.run_script(line + "\n"), (1, b"", b"refused 10 FileTooLarge\n"))

    def test_a_relative_path_without_a_folder(self):
        self.file("f1.csv", text_of(*MARKET[0]))
        line = f"load {EARLY} {OPERATOR} parties f1.csv"
        self.assertEqual(self.replies(line, cwd=self.room), ["applied=2 late=0"])

    def test_a_folder_whose_name_is_not_ascii(self):
        folder = self.room / "Zähler"
        folder.mkdir()
        (folder / "f1.csv").write_bytes(text_of(*MARKET[0]))
        self.assertEqual(self.replies(f"load {EARLY} {OPERATOR} parties {folder}/f1.csv"), ["applied=2 late=0"])

    def test_forms_of_a_file(self):
        """One mark at the start, CRLF, quotes and empty lines are taken; a second mark is not."""
        rows = b"date,period,price\r\n\r\n\"2024-07-01\",07,-0.5\r\n"
        mark = b"\xef\xbb\xbf"
        lines = [self.load("prices", mark * count + rows, f"{count}.csv") for count in range(3)]
        self.assertEqual(self.replies(*lines), [APPLIED, APPLIED, "refused 12 BadHeader"])

    def test_output_that_no_pipe_holds(self):
        """Each of 5,000 lines is answered."""
        self.file("h.csv", text_of("meters", []))
        line = f"load 0 {OPERATOR} meters h.csv\n"
        reply = b"applied=0 late=0\n"
        self.assertGreater(len(reply) * 5000, 65_536)
        self.assertEqual(self.run_script(line * 5000, cwd=self.room), (0, reply * 5000, b""))

    def test_a_day_at_the_markets_size(self):
        """400 parties, 2,000 units, and everything that they tell in a day. Each row is applied, SF and its results are the
        peer's, and what is posted to each account is its net by them."""
        folder = self.room / "day"
        subprocess.run([sys.executable, str(HOME / "bench" / "gen_day.py"), str(folder)], check=True)
        files = [line.split() for line in (folder / "order").read_text().splitlines()]
        lines = [f"load {EARLY} {OPERATOR} {kind} {folder}/{name}" for kind, name in files]
        rows = [len((folder / name).read_bytes().splitlines()) - 1 for _, name in files]
        self.assertGreater(sum(rows), 100_000)
        reports = [f"report {OPERATOR} {words}" for words in (f"csv {DAY} SF", "balances")]
        found = self.replies(*lines, self.order("SF"), *reports)
        self.assertEqual(found[: len(rows)], [f"applied={count} late=0" for count in rows])
        told = told_by_the_peer(folder, files)
        settled, moved = found[len(rows) :][: len(told)], found[len(rows) + len(told) :]
        self.assertRegex(settled[0], rf"\Arun {DAY} SF periods 48 accounts 800 residual -?[0-9]+ postings [0-9]+\Z")
        self.assertEqual(len(told), 2 + 48 * 800)
        for line, wanted in zip(settled, told):
            self.assertEqual(line, wanted)
        nets = {}
        for row in csv.DictReader(told[1:]):
            nets[row["account"]] = nets.get(row["account"], 0) + int(row["charge"]) + int(row["share"])
        self.assertEqual(moved, ["account,moved_pence", *(f"{account},{net}" for account, net in nets.items())])
        self.assertEqual((len(nets), sum(nets.values())), (800, 0))


class Keys(Desk):
    """The operator's key allows a load, and no other does."""

    FORBIDDEN = "refused 60 Forbidden"

    def test_a_partys_key(self):
        again = self.load(*MARKET[0], name="f1.csv", key="genco0001")
        self.assertEqual(self.after_market(again), [self.FORBIDDEN])

    def test_keys_of_nobody(self):
        lines = [self.load(*MARKET[0], key=key) for key in ("nobody01", "op-settle002", OPERATOR + "0")]
        self.assertEqual(self.replies(*lines), [self.FORBIDDEN] * 3)

    def test_nothing_is_loaded_by_them(self):
        parties = self.load(*MARKET[0], name="f1.csv", key="genco0001")
        units = self.load(*MARKET[1])
        self.assertEqual(self.replies(parties, units), [self.FORBIDDEN, "refused 30 UnknownParty row 1"])

    def test_before_the_size_and_the_name(self):
        too_large = self.load("meters", b"x" * 1_048_577, "f4.csv", key="genco0001")
        changed = self.load("parties", [], "f1.csv", key="genco0001")
        self.assertEqual(self.after_market(too_large, changed), [self.FORBIDDEN] * 2)

    def test_the_shortest_and_the_longest(self):
        for key in ("op-" + "Settle01", "op-" + "0" * 61):
            script = self.file("keys", self.load(*MARKET[0], key=key) + "\n")
            self.assertEqual(settle("script", "--operator-key", key, script), (0, b"applied=2 late=0\n", b""))


class Runs(Desk):
    """A run settles every period of its date from what is in force at that time."""

    def test_the_first_run(self):
        self.assertEqual(self.after_market(self.order("SF", END)), [SETTLED])

    def test_what_has_changed_is_posted(self):
        lines = [self.order("SF"), self.dearer(), self.order("R1")]
        self.assertEqual(self.after_market(*lines), [SETTLED, APPLIED, DEARER])

    def test_nothing_is_posted_where_nothing_has_changed(self):
        lines = [self.order("SF"), self.dearer(), self.order("R1"), self.order("R2")]
        unchanged = f"run {DAY} R2 periods 48 accounts 4 residual 6060 postings 0"
        self.assertEqual(self.after_market(*lines), [SETTLED, APPLIED, DEARER, unchanged])

    def test_a_party_more(self):
        """NEWCO joins with a unit that exports 10 MWh, which it has not sold."""
        readings = [f"N1,{DAY},1,10.000,1.0000000,0"] + [f"N1,{DAY},{period},0,1,0" for period in IDLE]
        lines = [
            self.order("SF"),
            self.load("parties", "NEWCO,2024-01-01,,newco0001"),
            self.load("units", "N1,NEWCO,P,no,2024-01-01,"),
            self.load("meters", readings),
            self.order("R1"),
        ]
        wanted = [
            SETTLED,
            APPLIED,
            APPLIED,
            "applied=48 late=0",
            f"run {DAY} R1 periods 48 accounts 6 residual 55050 postings 3",
        ]
        self.assertEqual(self.after_market(*lines), wanted)

    def test_a_negative_price(self):
        """The signs of all charges and shares change, and so does that of the residual."""
        lines = [self.order("SF"), self.load("prices", f"{DAY},1,-50.00000", "p2.csv"), self.order("R1")]
        turned = f"run {DAY} R1 periods 48 accounts 4 residual -5050 postings 2"
        self.assertEqual(self.after_market(*lines), [SETTLED, APPLIED, turned])

    def test_the_order_of_the_kinds(self):
        """The first is SF, later kinds may be left out, and none may come before an earlier one."""
        final = f"run {DAY} RF periods 48 accounts 4 residual 5050 postings 0"
        lines = [self.order(kind) for kind in ("R1", "SF", "RF", "R2", "R1", "RF")]
        none, back = "refused 51 NoInitialRun", "refused 50 RunOrder"
        self.assertEqual(self.after_market(*lines), [none, SETTLED, final, back, back, final])

    def test_each_kind(self):
        """The six kinds follow each other, and are told again. DF may come immediately after SF."""
        kinds = "SF", "R1", "R2", "R3", "RF", "DF"
        told = [SETTLED] + [f"run {DAY} {kind} periods 48 accounts 4 residual 5050 postings 0" for kind in kinds[1:]]
        lines = [self.order(kind) for kind in kinds]
        self.assertEqual(self.after_market(*lines, lines[3], lines[-1]), [*told, told[3], told[-1]])
        self.assertEqual(self.after_market(lines[0], lines[-1], lines[-2]), [told[0], told[-1], "refused 50 RunOrder"])

    def test_nobody_is_registered(self):
        """Nothing is shared among no accounts."""
        lines = [self.load("prices", [f"{DAY},{period},50" for period in range(1, 49)]), self.order("SF")]
        wanted = ["applied=48 late=0", f"run {DAY} SF periods 48 accounts 0 residual 0 postings 0"]
        self.assertEqual(self.replies(*lines), wanted)

    def test_the_most_contracts(self):
        """A thousand contracts of 10,000 MWh are the most energy that an account may have sold in a period."""
        rows = [f"L{number},GENCO-P,SUPCO-C,{DAY},2,10000.000" for number in range(1_001)]
        lines = [
            self.load("contracts", rows, "large.csv"),
            self.order("SF"),
            self.load("contracts", f"L1000,GENCO-P,SUPCO-C,{DAY},2,0", "less.csv"),
            self.order("SF"),
        ]
        self.assertEqual(self.after_market(*lines), ["applied=1001 late=0", "refused 55 TooLarge period 2", APPLIED, SETTLED])

    def test_kinds_that_are_left_out(self):
        """RF posts what has changed since SF, which is the latest run before it, and DF what has changed since RF."""
        lines = [self.order("SF"), self.dearer(), self.order("RF"), self.order("DF"), f"report {OPERATOR} balances"]
        wanted = [SETTLED, APPLIED, DEARER.replace(" R1 ", " RF "), DEARER.replace(" R1 ", " DF ").replace("postings 2", "postings 0")]
        moved = ["account,moved_pence", "GENCO-P,45", "GENCO-C,0", "SUPCO-P,0", "SUPCO-C,-45"]
        self.assertEqual(self.after_market(*lines), [*wanted, *moved])

    def test_a_price_that_stands_twice(self):
        """The last row counts, and both are counted as applied."""
        twice = self.load("prices", [f"{DAY},1,40.00000", f"{DAY},1,60.00000"], "p2.csv")
        dearer = DEARER.replace(" R1 ", " SF ")
        self.assertEqual(self.after_market(twice, self.order("SF")), ["applied=2 late=0", dearer])

    def test_a_moment_in_milliseconds(self):
        """A minute before the day begins: too early in seconds, but in milliseconds it would be long after the day's end."""
        lines = [self.order("SF", START - 60), self.order("SF", (START - 60) * 1000)]
        self.assertEqual(self.after_market(*lines), ["refused 52 DayNotOver", SETTLED])

    def test_the_end_of_the_day(self):
        """A day is over at the end of its last second."""
        lines = [self.order("SF", moment) for moment in (END - 1, -(2**63), END)]
        early = "refused 52 DayNotOver"
        self.assertEqual(self.after_market(*lines), [early, early, SETTLED])

    def test_days_on_which_clocks_change(self):
        """They end after 46 and 50 periods. Nothing is metered, so nothing is charged."""
        for date, midnight, periods in (("2024-03-31", 1_711_843_200, 46), ("2024-10-27", 1_729_983_600, 50)):
            end = midnight + 1800 * periods
            numbers = range(1, periods + 1)
            readings = [f"{unit},{date},{period},0,1,0" for period in numbers for unit in ("G1", "S1")]
            lines = [
                self.load("prices", [f"{date},{period},50" for period in numbers]),
                self.load("meters", readings),
                self.order("SF", end - 1, date),
                self.order("SF", end, date),
            ]
            wanted = [
                f"applied={periods} late=0",
                f"applied={2 * periods} late=0",
                "refused 52 DayNotOver",
                f"run {date} SF periods {periods} accounts 4 residual 0 postings 0",
            ]
            with self.subTest(date):
                self.assertEqual(self.after_market(*lines), wanted)

    def test_a_run_that_is_there(self):
        """It is told once more, whatever the moment and whatever has come since, and stays as it is."""
        lines = [
            self.order("SF"),
            self.order("SF", 0),
            self.load("meters", f"G1,{DAY},1,101.000,0.9950000,0", "m2.csv"),
            self.order("SF"),
            self.dearer(),
            self.order("RF"),
            self.order("SF"),
        ]
        found = self.after_market(*lines)
        self.assertEqual([found[place] for place in (0, 1, 3, 6)], [SETTLED] * 4)

    def test_a_price_is_missing(self):
        """The first period without a price is told, before any reading that is missing."""
        date = "2024-07-02"
        prices = [f"{date},{period},0" for period in range(1, 49) if period not in (11, 30)]
        lines = [self.order("SF", date=date), self.load("prices", prices), self.order("SF", date=date)]
        wanted = ["refused 53 MissingPrice period 1", "applied=46 late=0", "refused 53 MissingPrice period 11"]
        self.assertEqual(self.after_market(*lines), wanted)

    def test_a_reading_is_missing(self):
        """The first period with such a unit is told, and the first such unit by the bytes of its id. An id may have 16 bytes."""
        date = "2024-07-02"
        long = "ABCDEFGH_-123456"
        prices = [f"{date},{period},0" for period in range(1, 49)]
        readings = [f"G1,{date},{period},0,1,0" for period in range(1, 49)]
        lines = [
            self.load("prices", prices),
            self.order("SF", date=date),
            self.load("meters", readings),
            self.order("SF", date=date),
            self.load("units", f"{long},GENCO,P,no,{date},", "long.csv"),
            self.order("SF", date=date),
        ]
        self.assertEqual(len(long), 16)
        wanted = [
            "applied=48 late=0",
            "refused 54 MissingMeter unit G1 period 1",
            "applied=48 late=0",
            "refused 54 MissingMeter unit S1 period 1",
            APPLIED,
            f"refused 54 MissingMeter unit {long} period 1",
        ]
        self.assertEqual(self.after_market(*lines), wanted)

    def test_a_period_past_a_limit(self):
        """Six units of 20,000 MWh each exceed the limit of a charge at the greatest price. The first such period is told."""
        units = [f"U{number}" for number in range(6)]
        volumes = {20: 10000, 30: 10000}
        readings = [
            f"{unit},{DAY},{period},{volumes.get(period, 0)},2,0" for period in range(1, 49) for unit in units
        ]
        lines = [
            self.load("units", [f"{unit},GENCO,P,no,2024-01-01," for unit in units]),
            self.load("meters", readings),
            self.load("prices", [f"{DAY},{period},99999.99999" for period in (20, 30)], "dear.csv"),
            self.order("SF"),
            self.load("prices", [f"{DAY},20,1"], "cheap.csv"),
            self.order("SF"),
            self.load("prices", [f"{DAY},30,1"], "cheaper.csv"),
            self.order("SF"),
        ]
        wanted = [
            "applied=6 late=0",
            "applied=288 late=0",
            "applied=2 late=0",
            "refused 55 TooLarge period 20",
            APPLIED,
            "refused 55 TooLarge period 30",
            APPLIED,
            # 120,000 MWh at a pound each in two periods, and what the first period has.
            f"run {DAY} SF periods 48 accounts 4 residual {2 * 12_000_000 + 5_050} postings 2",
        ]
        self.assertEqual(self.after_market(*lines), wanted)

    def test_a_refused_run_leaves_no_trace(self):
        """R1 is no first run, even after an SF that was refused."""
        lines = [self.order("SF", END - 1), self.order("R1"), self.order("SF"), self.order("SF")]
        wanted = ["refused 52 DayNotOver", "refused 51 NoInitialRun", SETTLED, SETTLED]
        self.assertEqual(self.after_market(*lines), wanted)

    def test_keys(self):
        """Only the operator may make a run, or hear about one by ordering it again."""
        keys = "genco0001", "supco0001", "nobody01", "op-settle002"
        lines = [self.order("SF", key=key) for key in keys]
        again = self.order("SF", key="genco0001")
        forbidden = "refused 60 Forbidden"
        self.assertEqual(self.after_market(*lines, self.order("SF"), again), [forbidden] * 4 + [SETTLED, forbidden])

    def test_each_call_begins_without_runs(self):
        self.assertEqual(self.after_market(self.order("SF")), [SETTLED])
        self.assertEqual(self.after_market(self.order("R1")), ["refused 51 NoInitialRun"])

    def test_the_first_and_the_last_date(self):
        """Neither has prices, and no moment is too late."""
        lines = [self.order("SF", 2**63 - 1, date) for date in ("2001-01-01", "2099-12-31")]
        self.assertEqual(self.after_market(*lines), ["refused 53 MissingPrice period 1"] * 2)


class Deadlines(Desk):
    """A notification must come before the second of its period's deadline."""

    def contract(self, number, moment, date=DAY, period=1):
        """A file with one contract. The number gives its name and volume."""
        return self.load("contracts", f"C1,GENCO-P,SUPCO-C,{date},{period},{number}.000", f"c{number}.csv", moment)

    def test_the_deadlines_second(self):
        lines = [self.contract(98, DEADLINE - 1), self.contract(97, DEADLINE), self.contract(96, EARLY)]
        self.assertEqual(self.after_market(*lines), [APPLIED, LATE, APPLIED])

    def test_each_row_has_its_own_deadline(self):
        """At the deadline of period 3 the rows of periods 1 to 3 are late."""
        rows = [f"C1,GENCO-P,SUPCO-C,{DAY},{period},1.000" for period in range(1, 49)]
        line = self.load("contracts", rows, moment=DEADLINE + 2 * 1800)
        self.assertEqual(self.after_market(line), ["applied=45 late=3"])

    def test_days_on_which_clocks_change(self):
        """The last period of 46 and of 50 begins half an hour before the next midnight."""
        for date, midnight, last in (("2024-03-31", 1_711_843_200, 46), ("2024-10-27", 1_729_983_600, 50)):
            for period in (1, last):
                deadline = midnight + 1800 * (period - 1) - 3600
                lines = [self.contract(1, deadline - 1, date, period), self.contract(2, deadline, date, period)]
                with self.subTest(f"{date} {period}"):
                    self.assertEqual(self.after_market(*lines), [APPLIED, LATE])

    def test_lead_minutes(self):
        """The default is 60. With 0 the deadline is the start, and with 1440 it is a day before."""
        for words, lead in (((), 60), (("60",), 60), (("0",), 0), (("1440",), 1440), (("0090",), 90)):
            deadline = START - 60 * lead
            options = [word for minutes in words for word in ("--lead-minutes", minutes)]
            lines = [self.contract(1, deadline - 1), self.contract(2, deadline)]
            with self.subTest(lead=lead):
                self.assertEqual(self.after_market(*lines, options=options), [APPLIED, LATE])

    def test_the_first_and_the_last_moment(self):
        lines = [self.contract(1, -(2**63)), self.contract(2, 2**63 - 1), self.contract(3, -1)]
        self.assertEqual(self.after_market(*lines), [APPLIED, LATE, APPLIED])

    def test_moments_in_milliseconds(self):
        """Taken as seconds they are after each deadline. All the same, the file's name is used, the seller and buyer of a new
        reference are fixed, and readings and prices count."""
        rows = [f"C9,GENCO-P,SUPCO-C,{DAY},1,1.000", "C9,GENCO-P,SUPCO-C,2099-12-31,48,1.000"]
        lines = [
            self.load("contracts", rows, "c.csv", EARLY * 1000),
            self.load("reallocations", realloc("SUPCO-P", 60), "r.csv", EARLY * 1000),
            self.load("contracts", rows, "c.csv"),
            self.load("contracts", f"C9,SUPCO-C,GENCO-P,{DAY},1,1.000", "e.csv"),
            self.load("contracts", rows, "d.csv"),
            self.load("prices", f"{DAY},1,60.00000", "p2.csv", EARLY * 1000),
        ]
        late = "applied=0 late=2"
        self.assertEqual(self.after_market(*lines), [late, LATE, late, "refused 36 ReferenceMoved row 1", "applied=2 late=0", APPLIED])

    def test_readings_and_prices_are_never_late(self):
        after = START + 400 * 86_400
        lines = [
            self.load("meters", f"G1,{DAY},1,101.000,0.9950000,0", moment=after),
            self.load("prices", f"{DAY},1,51.00000", moment=after),
        ]
        self.assertEqual(self.after_market(*lines), [APPLIED, APPLIED])

    def test_a_late_row_is_not_in_force(self):
        """The 60 percent that come late leave room for 100."""
        lines = [
            self.load("reallocations", realloc("SUPCO-P", 60), "a", DEADLINE),
            self.load("reallocations", realloc("SUPCO-C", 100), "b"),
            self.load("reallocations", realloc("SUPCO-P", "0.00001"), "c"),
        ]
        self.assertEqual(self.after_market(*lines), [LATE, APPLIED, "refused 38 OverHundred row 1"])

    def test_a_late_row_changes_none_in_force(self):
        """10 percent are in force, and still are after 100 come late."""
        lines = [
            self.load("reallocations", realloc("SUPCO-P", 10), "a"),
            self.load("reallocations", realloc("SUPCO-P", 100), "b", DEADLINE),
            self.load("reallocations", realloc("SUPCO-C", 90), "c"),
            self.load("reallocations", realloc("SUPCO-C", "90.00001"), "d"),
        ]
        self.assertEqual(self.after_market(*lines), [APPLIED, LATE, APPLIED, "refused 38 OverHundred row 1"])

    def test_the_row_accepted_last_counts_whatever_its_moment(self):
        """60 percent of the deadline's last second are replaced by 10 of a day before."""
        lines = [
            self.load("reallocations", realloc("SUPCO-P", 60), "a", DEADLINE - 1),
            self.load("reallocations", realloc("SUPCO-P", 10), "b", EARLY),
            self.load("reallocations", realloc("SUPCO-C", 90), "c", EARLY),
            self.load("reallocations", realloc("SUPCO-C", "90.00001"), "d", EARLY),
        ]
        self.assertEqual(self.after_market(*lines), [APPLIED] * 3 + ["refused 38 OverHundred row 1"])

    def test_a_late_row_fixes_its_reference(self):
        lines = [
            self.load("contracts", f"C9,GENCO-P,SUPCO-C,{DAY},1,1.000", "a", DEADLINE),
            self.load("contracts", f"C9,SUPCO-C,GENCO-P,{DAY},1,1.000", "b"),
            self.load("contracts", f"C9,GENCO-P,SUPCO-C,{DAY},1,1.000", "c"),
        ]
        self.assertEqual(self.after_market(*lines), [LATE, "refused 36 ReferenceMoved row 1", APPLIED])


class Repeats(Desk):
    """A file that has been accepted is known by its kind, its name and its bytes."""

    def test_the_kept_reply(self):
        rows = [f"C1,GENCO-P,SUPCO-C,{DAY},{period},98.000" for period in (1, 2)]
        moments = DEADLINE, EARLY, START + 86_400, -1
        lines = [self.load("contracts", rows, "c.csv", moment) for moment in moments]
        self.assertEqual(self.after_market(*lines), ["applied=1 late=1"] * 4)

    def test_one_byte_changed(self):
        rows = f"C1,GENCO-P,SUPCO-C,{DAY},1,98.000"
        data = text_of("contracts", [rows])
        lines = [
            self.load("contracts", data, "c.csv"),
            self.load("contracts", data.replace(b"98.000", b"98.001"), "c.csv"),
            self.load("contracts", data[:-1], "c.csv"),
            self.load("contracts", b"\xff", "c.csv"),
            self.load("contracts", data, "c.csv"),
            self.load("contracts", data, "C.csv"),
        ]
        changed = "refused 20 FileChanged"
        self.assertEqual(self.after_market(*lines), [APPLIED, changed, changed, changed, APPLIED, APPLIED])

    def test_too_large_goes_before_changed(self):
        line = self.load("prices", b"x" * 1_048_577, "f5.csv")
        self.assertEqual(self.after_market(line), ["refused 10 FileTooLarge"])

    def test_nothing_is_changed_by_them(self):
        """50 percent replace 60. After the file with the 60 comes again, another 50 can still be given away."""
        lines = [
            self.load("reallocations", realloc("SUPCO-P", 60), "a"),
            self.load("reallocations", realloc("SUPCO-P", 50), "b"),
            self.load("reallocations", realloc("SUPCO-P", 60), "a"),
            self.load("reallocations", realloc("SUPCO-C", 50), "c"),
            self.load("reallocations", realloc("SUPCO-P", 60), "d"),
        ]
        self.assertEqual(self.after_market(*lines), [APPLIED] * 4 + ["refused 38 OverHundred row 1"])

    def test_each_kind_has_its_own_names(self):
        lines = [self.load(kind, [], "same.csv") for kind in HEADERS]
        self.assertEqual(self.replies(*lines), ["applied=0 late=0"] * 6)

    def test_folders_have_one_space_of_names(self):
        """Each file is in a folder of its own."""
        dates = DAY, "2024-07-02"
        lines = [self.load("prices", f"{date},1,50", "prices.csv") for date in dates]
        lines += [self.load("prices", f"{date},1,50", f"prices-{date}.csv") for date in dates]
        self.assertEqual(self.after_market(*lines), [APPLIED, "refused 20 FileChanged", APPLIED, APPLIED])

    def test_the_same_bytes_under_another_name(self):
        """It is another file: 10 percent replace 60, and 60 are in force again when their bytes come as a third file."""
        lines = [
            self.load("reallocations", realloc("SUPCO-P", 60), "a"),
            self.load("reallocations", realloc("SUPCO-P", 10), "b"),
            self.load("reallocations", realloc("SUPCO-P", 60), "c"),
            self.load("reallocations", realloc("SUPCO-C", "40.00001"), "d"),
            self.load("reallocations", realloc("SUPCO-C", 40), "e"),
        ]
        self.assertEqual(self.after_market(*lines), [APPLIED] * 3 + ["refused 38 OverHundred row 1", APPLIED])

    def test_a_refused_file_is_judged_anew(self):
        units = self.load(*MARKET[1], name="u.csv")
        lines = [units, self.load(*MARKET[0]), units, units]
        wanted = ["refused 30 UnknownParty row 1", "applied=2 late=0", "applied=2 late=0", "applied=2 late=0"]
        self.assertEqual(self.replies(*lines), wanted)


class Rows(Desk):
    """What a row is refused for, over the market."""

    def refused(self, kind, rows, wanted):
        with self.subTest(f"{kind} {rows}"):
            self.assertEqual(self.after_market(self.load(kind, rows)), [wanted])

    def test_parties(self):
        self.refused("parties", "GENCO,2024-02-01,,genco0001", "refused 39 ShrinksRange row 1")
        self.refused("parties", "GENCO,2024-01-01,2098-12-31,genco0001", "refused 39 ShrinksRange row 1")
        self.refused("parties", "GENCO,2023-12-31,,genco0002", APPLIED)

    def test_units(self):
        self.refused("units", "U1,NEWCO,P,no,2024-01-01,", "refused 30 UnknownParty row 1")
        self.refused("units", "U1,GENCO,P,no,2023-12-31,", "refused 33 NotEffective row 1")
        self.refused("units", "G1,GENCO,P,no,2024-01-02,", "refused 39 ShrinksRange row 1")
        for row in ("G1,SUPCO,P,no,2024-01-01,", "G1,GENCO,C,no,2024-01-01,", "G1,GENCO,P,yes,2024-01-01,"):
            self.refused("units", row, "refused 40 UnitMoved row 1")
        self.refused("units", "G1,GENCO,C,no,2024-01-02,", APPLIED)

    def test_readings(self):
        self.refused("meters", f"U1,{DAY},49,1,1,0", "refused 31 UnknownUnit row 1")
        self.refused("meters", "G1,2023-12-31,49,1,1,0", "refused 33 NotEffective row 1")
        self.refused("meters", f"G1,{DAY},49,1,1,0", "refused 34 NoSuchPeriod row 1")

    def test_periods_of_days_on_which_clocks_change(self):
        self.refused("prices", "2024-03-31,46,1", APPLIED)
        self.refused("prices", "2024-03-31,47,1", "refused 34 NoSuchPeriod row 1")
        self.refused("prices", "2024-10-27,50,1", APPLIED)
        self.refused("prices", "2024-10-27,51,1", "refused 14 BadField row 1 column 2")

    def test_contracts(self):
        self.refused("contracts", f"C9,NEWCO-P,SUPCO-C,{DAY},1,1", "refused 30 UnknownParty row 1")
        self.refused("contracts", f"C9,GENCO-P,NEWCO-C,{DAY},1,1", "refused 30 UnknownParty row 1")
        self.refused("contracts", "C9,GENCO-P,SUPCO-C,2023-12-31,1,1", "refused 33 NotEffective row 1")
        self.refused("contracts", f"C9,GENCO-P,GENCO-P,{DAY},49,1", "refused 34 NoSuchPeriod row 1")
        self.refused("contracts", f"C1,GENCO-P,GENCO-P,{DAY},1,1", "refused 35 SameAccount row 1")
        self.refused("contracts", f"C1,GENCO-P,SUPCO-P,{DAY},1,1", "refused 36 ReferenceMoved row 1")
        self.refused("contracts", f"C9,GENCO-P,GENCO-C,{DAY},1,1", APPLIED)

    def test_reallocations(self):
        self.refused("reallocations", f"U1,NEWCO-P,{DAY},1,1,0", "refused 30 UnknownParty row 1")
        self.refused("reallocations", f"U1,SUPCO-P,{DAY},1,1,0", "refused 31 UnknownUnit row 1")
        self.refused("reallocations", "G1,SUPCO-P,2023-12-31,1,1,0", "refused 33 NotEffective row 1")
        self.refused("reallocations", f"G1,GENCO-P,{DAY},49,1,0", "refused 34 NoSuchPeriod row 1")
        self.refused("reallocations", f"G1,GENCO-P,{DAY},1,1,0", "refused 37 OwnLead row 1")
        self.refused("reallocations", f"G1,GENCO-C,{DAY},1,100.00000,0", APPLIED)

    def test_a_hundred_percent(self):
        lines = [
            self.load("reallocations", [realloc("SUPCO-P", 60), realloc("SUPCO-C", 40)], "a"),
            self.load("reallocations", realloc("SUPCO-C", "40.00001"), "b"),
            self.load("reallocations", realloc("SUPCO-C", 40), "c"),
        ]
        self.assertEqual(self.after_market(*lines), ["applied=2 late=0", "refused 38 OverHundred row 1", APPLIED])
        rows = [realloc("SUPCO-P", 60), realloc("SUPCO-C", "40.00001")]
        self.refused("reallocations", rows, "refused 38 OverHundred row 2")

    def test_four_hundred_parties(self):
        """Two are registered, so there is room for 398. A party that is known is accepted all the same."""
        rows = [f"P{number},2024-01-01,,party{number:03}" for number in range(399)]
        self.refused("parties", rows, "refused 42 TooMany row 399")
        self.refused("parties", [*rows[:398], "GENCO,2023-01-01,,genco0001"], "applied=399 late=0")

    def test_two_thousand_units(self):
        rows = [f"U{number},GENCO,P,no,2024-01-01," for number in range(1999)]
        self.refused("units", rows, "refused 42 TooMany row 1999")
        self.refused("units", rows[:1998], "applied=1998 late=0")


class Successions(Desk):
    """Units that get another lead account from a date on. S1 is led by SUPCO-C, and NEWCO takes it over."""

    TAKES_OVER = f"S1,NEWCO,C,no,{DAY},"
    # Loads and runs: NEWCO joins after SF.
    BEFORE = [*LOADED, SETTLED, APPLIED]
    # 98.49 MWh of demand are NEWCO-C's now, for which it has bought nothing: at 50 pounds it pays 492,450 pence. SUPCO-C still has the
    # 99 MWh that it bought, and is paid 495,000. As before, 5,050 pence are left, and 99.5 and 98.49 MWh of credited energy bear them.
    RESULTS = {
        "GENCO-P": ("99.5000000000", "99.0000000000", "0.5000000000", -2500, 2538),
        "NEWCO-C": ("-98.4900000000", "0.0000000000", "-98.4900000000", 492_450, 2512),
        "SUPCO-C": ("0.0000000000", "-99.0000000000", "99.0000000000", -495_000, 0),
    }

    def units(self, *rows, name="s.csv"):
        return self.load("units", [*rows], name)

    def after_it_joins(self, *lines, options=()):
        """What is printed for these lines once the market is settled and NEWCO has joined."""
        before = [*self.market(), self.order("SF", END), self.load("parties", "NEWCO,2024-01-01,,newco0001", "n.csv")]
        found = self.replies(*before, *lines, options=options)
        self.assertEqual(found[:7], self.BEFORE)
        return found[7:]

    def answers(self, *pairs):
        """Each line is answered so, one after the other."""
        self.assertEqual(self.after_it_joins(*(line for line, _ in pairs)), [told for _, told in pairs])

    def answers_rows(self, *pairs):
        """A file of each row of units is answered so."""
        self.answers(*((self.units(row, name=f"{number}.csv"), told) for number, (row, told) in enumerate(pairs)))

    def test_what_is_refused(self):
        self.answers_rows(
            (f"S1,NEWCO,C,no,{DAY},2024-12-31", "refused 39 ShrinksRange row 1"),
            ("S1,NEWCO,C,no,2024-01-01,", "refused 40 UnitMoved row 1"),
            (f"S1,NEWCO,C,yes,{DAY},", "refused 40 UnitMoved row 1"),
            (self.TAKES_OVER, APPLIED),
            ("S1,SUPCO,C,no,2024-01-01,", "refused 40 UnitMoved row 1"),
        )

    def test_a_lead_account_that_has_a_part(self):
        """Also if it is one of nothing, in the last period of a later date. No hindrance are a part on the day before, one that came late,
        and one of another account or of another unit."""
        part, none = "S1,NEWCO-C,{},1,10,0", "S1,NEWCO-C,2025-03-30,46,0,0"
        takes, hinders = (self.units(self.TAKES_OVER), APPLIED), (self.units(self.TAKES_OVER), "refused 41 LeadIsSubsidiary row 1")

        def given(row, told=APPLIED, moment=EARLY):
            return self.load("reallocations", row, "r.csv", moment), told

        self.answers(given(part.format(DAY)), hinders)
        self.answers(given(none), hinders)
        self.answers(given("S1,NEWCO-C,2024-06-30,48,10,0"), takes)
        self.answers(given(part.format(DAY), LATE, DEADLINE), takes)
        self.answers(given(part.format(DAY).replace("-C", "-P")), takes)
        self.answers(given(part.format(DAY).replace("S1", "G1")), takes)
        self.answers(given(part.format(DAY).replace("NEWCO", "GENCO")), takes)

    def test_the_next_run(self):
        lines = [self.units(self.TAKES_OVER), self.order("R1"), f"report {OPERATOR} csv {DAY} R1", f"report {OPERATOR} balances"]
        told = self.after_it_joins(*lines)
        self.assertEqual(told[:2], [APPLIED, f"run {DAY} R1 periods 48 accounts 6 residual 5050 postings 2"])
        zero = "0.0000000000"
        wanted = ["date,kind,account,period,credited,balancing,contracts,imbalance,charge,share"]
        nets = {}
        for account in ("GENCO-P", "GENCO-C", "NEWCO-P", "NEWCO-C", "SUPCO-P", "SUPCO-C"):
            credited, contracts, imbalance, *cash = self.RESULTS.get(account, (zero, zero, zero, 0, 0))
            wanted.append(f"{DAY},R1,{account},1,{credited},{zero},{contracts},{imbalance},{','.join(map(str, cash))}")
            nets[account] = sum(cash)
        self.assertEqual(told[2:9], wanted)
        self.assertEqual({row.split(",", 4)[4] for row in told[9 : 3 + 48 * 6]}, {f"{zero},{zero},{zero},{zero},0,0"})
        self.assertEqual((nets["GENCO-P"], nets["NEWCO-C"], nets["SUPCO-C"]), (38, 494_962, -495_000))
        self.assertEqual(told[3 + 48 * 6 :], ["account,moved_pence", *(f"{account},{net}" for account, net in nets.items())])

    def test_the_lead_account_of_each_date(self):
        """A reallocation to the lead account of its own date is refused."""
        own = "refused 37 OwnLead row 1"
        cases = (("SUPCO-C", "2024-06-30", own), ("NEWCO-C", DAY, own), ("NEWCO-C", "2024-06-30", APPLIED), ("SUPCO-C", DAY, APPLIED))
        parts = ((self.load("reallocations", f"S1,{account},{date},48,10,0", f"{account}{date}"), told) for account, date, told in cases)
        self.answers((self.units(self.TAKES_OVER), APPLIED), *parts)

    def test_a_date_before(self):
        """On 2024-06-30 nothing is sold. At 50 pounds GENCO-P is paid 497,500 pence and the lead account of S1 pays 492,450; of the 5,050
        that are left they bear 2,538 and 2,512."""
        date = "2024-06-30"
        rows = {kind: [row.replace(DAY, date) for row in rows] for kind, rows in MARKET}
        lines = [self.load(kind, rows[kind], f"before-{kind}.csv") for kind in ("meters", "prices")]
        lines += [self.units(self.TAKES_OVER), self.order("SF", date=date), f"report {OPERATOR} csv {date} SF"]
        told = self.after_it_joins(*lines)
        self.assertEqual(told[:4], ["applied=96 late=0", "applied=48 late=0", APPLIED, f"run {date} SF periods 48 accounts 6 residual 5050 postings 2"])
        figures = [row.split(",") for row in told[5:11]]
        cash = {row[2]: (int(row[-2]), int(row[-1])) for row in figures if row[-2:] != ["0", "0"]}
        self.assertEqual(cash, {"GENCO-P": (-497_500, 2538), "SUPCO-C": (492_450, 2512)})

    def test_where_a_succession_begins(self):
        """After the first day of the last registration, and at latest on the day after the unit's last. It ends no earlier than the unit."""
        moved, shrinks = "refused 40 UnitMoved row 1", "refused 39 ShrinksRange row 1"
        first = self.units("S2,SUPCO,C,no,2024-01-01,2024-06-30", name="s2.csv")
        for row, told in (
            ("2024-07-02,2024-12-31", moved),
            ("2024-01-01,2024-06-30", moved),
            ("2024-01-02,2024-06-29", shrinks),
            ("2024-01-02,2024-06-30", APPLIED),
            ("2024-06-30,2024-06-30", APPLIED),
            (f"{DAY},2024-12-31", APPLIED),
            (f"{DAY},{DAY}", APPLIED),
        ):
            with self.subTest(row):
                self.answers((first, APPLIED), (self.units(f"S2,NEWCO,C,no,{row}"), told))

    def test_the_last_days(self):
        """A registration may end on the last date that there is, and begin on it."""
        last = "2099-12-31"
        self.answers_rows(
            (f"S1,NEWCO,C,no,{last},{last}", APPLIED),
            (f"S1,GENCO,C,no,{last},", "refused 40 UnitMoved row 1"),
            (f"S1,NEWCO,C,no,{last},", APPLIED),
        )

    def test_a_widening_of_the_last_registration(self):
        shrinks, moved = "refused 39 ShrinksRange row 1", "refused 40 UnitMoved row 1"
        self.answers_rows(
            ("S2,SUPCO,C,no,2024-02-01,2024-12-31", APPLIED),
            ("S2,SUPCO,C,no,2024-01-15,2024-12-31", APPLIED),
            (f"S2,NEWCO,C,no,{DAY},2024-12-31", APPLIED),
            ("S2,NEWCO,C,no,2024-07-02,2025-12-31", shrinks),
            (f"S2,NEWCO,C,no,{DAY},2024-12-30", shrinks),
            ("S2,NEWCO,C,no,2024-06-30,2025-12-31", moved),
            ("S2,NEWCO,C,no,2024-01-15,2025-12-31", moved),
            (f"S2,NEWCO,C,yes,{DAY},2025-12-31", moved),
            (f"S2,NEWCO,C,no,{DAY},2025-12-31", APPLIED),
            ("S2,SUPCO,C,no,2026-01-02,2026-12-31", moved),
            ("S2,SUPCO,C,no,2026-01-01,2026-12-31", APPLIED),
        )

    def test_the_smallest_number(self):
        """Each row meets all that follow in the list, too."""
        part = self.load("reallocations", f"S1,NEWCO-C,{DAY},1,10,0", "r.csv")
        rows = (
            (f"S1,NOBODY,C,yes,{DAY},{DAY}", "refused 30 UnknownParty row 1"),
            (f"S1,NEWCO,C,yes,2023-12-31,{DAY}", "refused 33 NotEffective row 1"),
            (f"S1,NEWCO,C,yes,{DAY},{DAY}", "refused 39 ShrinksRange row 1"),
            (f"S1,NEWCO,C,yes,{DAY},", "refused 40 UnitMoved row 1"),
            (f"S1,NEWCO,C,no,{DAY},", "refused 41 LeadIsSubsidiary row 1"),
        )
        self.answers((part, APPLIED), *((self.units(row, name=f"{number}.csv"), told) for number, (row, told) in enumerate(rows)))

    def test_the_lead_party_is_there_on_all_dates(self):
        ends = self.load("parties", "ENDS,2024-01-01,2024-12-31,ends00001", "e.csv")
        self.answers((ends, APPLIED), (self.units(f"S1,ENDS,C,no,{DAY},"), "refused 33 NotEffective row 1"))

    def test_rows_see_the_rows_before_them(self):
        """A unit comes back to an account that it had, and the other account of a party is another. A refused file changes nothing."""
        rows = [self.TAKES_OVER, "S1,NEWCO,P,no,2024-07-08,", "S1,SUPCO,C,no,2024-07-15,"]
        self.answers(
            (self.units(*rows, "S1,GENCO,C,no,2024-07-15,", name="a.csv"), "refused 40 UnitMoved row 4"),
            (self.units(*rows, f"S1,SUPCO,C,no,{DAY},", name="b.csv"), "refused 40 UnitMoved row 4"),
            (self.order("R1"), f"run {DAY} R1 periods 48 accounts 6 residual 5050 postings 0"),
            (self.units(*rows, name="a.csv"), "applied=3 late=0"),
            (self.units(*rows, name="c.csv"), "refused 40 UnitMoved row 1"),
            (self.order("R2"), f"run {DAY} R2 periods 48 accounts 6 residual 5050 postings 2"),
        )

    def test_a_file_that_comes_again(self):
        line, back = self.units(self.TAKES_OVER), self.units("S1,SUPCO,C,no,2024-07-08,", name="t.csv")
        run = self.order("R1"), f"run {DAY} R1 periods 48 accounts 6 residual 5050 postings 2"
        self.answers((line, APPLIED), (back, APPLIED), (line, APPLIED), run)


class Whole(Desk):
    """A file is applied whole or not at all."""

    def test_a_bad_third_row(self):
        """After it the file's name can still be used, and so can the references of the rows before it: C2 is accepted with
        seller and buyer exchanged. After that is accepted, neither can be used."""
        bad = [
            f"C2,GENCO-P,SUPCO-C,{DAY},1,1.000",
            f"C3,GENCO-P,SUPCO-C,{DAY},1,1.000",
            f"C4,GENCO-P,GENCO-P,{DAY},1,1.000",
        ]
        exchanged = [f"C2,SUPCO-C,GENCO-P,{DAY},1,1.000", f"C3,SUPCO-C,GENCO-P,{DAY},1,1.000"]
        lines = [
            self.load("contracts", bad, "c.csv"),
            self.load("contracts", exchanged, "c.csv"),
            self.load("contracts", bad[0], "d.csv"),
            self.load("contracts", bad[:2], "c.csv"),
        ]
        wanted = [
            "refused 35 SameAccount row 3",
            "applied=2 late=0",
            "refused 36 ReferenceMoved row 1",
            "refused 20 FileChanged",
        ]
        self.assertEqual(self.after_market(*lines), wanted)

    def test_no_party_of_a_refused_file_is_registered(self):
        lines = [
            self.load("parties", ["NEWCO,2024-01-01,,newco0001", "GENCO,2024-02-01,,genco0001"], "a"),
            self.load("units", "N1,NEWCO,P,no,2024-01-01,", "b"),
        ]
        self.assertEqual(self.after_market(*lines), ["refused 39 ShrinksRange row 2", "refused 30 UnknownParty row 1"])

    def test_no_percentage_of_a_refused_file_is_in_force(self):
        lines = [
            self.load("reallocations", [realloc("SUPCO-P", 60), realloc("SUPCO-C", 41)], "a"),
            self.load("reallocations", realloc("SUPCO-C", 100), "b"),
        ]
        self.assertEqual(self.after_market(*lines), ["refused 38 OverHundred row 2", APPLIED])

    def test_rows_see_the_rows_before_them(self):
        rows = [f"C2,GENCO-P,SUPCO-C,{DAY},1,1.000", f"C2,SUPCO-C,GENCO-P,{DAY},2,1.000"]
        self.assertEqual(self.after_market(self.load("contracts", rows)), ["refused 36 ReferenceMoved row 2"])

    def test_a_key_that_stands_twice(self):
        """The last row counts, and both are counted, as applied or as late."""
        twice = [realloc("SUPCO-P", 60), realloc("SUPCO-P", 10)]
        lines = [
            self.load("reallocations", twice, "a"),
            self.load("reallocations", realloc("SUPCO-C", "90.00001"), "b"),
            self.load("reallocations", realloc("SUPCO-C", 90), "c"),
            self.load("reallocations", twice, "d", DEADLINE),
        ]
        wanted = ["applied=2 late=0", "refused 38 OverHundred row 1", APPLIED, "applied=0 late=2"]
        self.assertEqual(self.after_market(*lines), wanted)

    def test_texts_are_read_before_rows_are_judged(self):
        rows = [f"C2,GENCO-P,GENCO-P,{DAY},1,1.000", f"C3,GENCO-P,SUPCO-C,{DAY},1,1.0000"]
        self.assertEqual(self.after_market(self.load("contracts", rows)), ["refused 14 BadField row 2 column 6"])


class Texts(Desk):
    """Files whose texts are wrong, or as large as they may be."""

    TOO_LARGE = "refused 10 FileTooLarge"

    def test_a_header_alone_and_no_bytes(self):
        lines = [self.load("meters", [], "a"), self.load("meters", b"", "b"), self.load("meters", b"\n\n", "c")]
        self.assertEqual(self.replies(*lines), ["applied=0 late=0", "refused 12 BadHeader", "refused 12 BadHeader"])

    def test_a_header_of_another_kind(self):
        self.assertEqual(self.replies(self.load("units", text_of("parties", []))), ["refused 12 BadHeader"])

    def test_the_most_rows(self):
        rows = [f"G1,{DAY},1,0,1,0"] * 20_001
        lines = [self.load("meters", rows, "a"), self.load("meters", rows[1:], "b")]
        self.assertEqual(self.after_market(*lines), ["refused 11 TooManyRows", "applied=20000 late=0"])

    def test_the_greatest_volume(self):
        volumes = "10000.000", "-10000.000", "10000.001", "-10000.001"
        lines = [self.load("contracts", f"C5,GENCO-P,SUPCO-C,{DAY},1,{mwh}", f"c{mwh}") for mwh in volumes]
        bad = "refused 14 BadField row 1 column 6"
        self.assertEqual(self.after_market(*lines), [APPLIED, APPLIED, bad, bad])

    def test_records_and_fields(self):
        """A record with one field too few or too many, and the first field that is wrong."""
        for rows, wanted in (
            (["2024-07-01,1,1", "2024-07-01,2"], "refused 13 BadRecord row 2"),
            (["2024-07-01,1,50,5"], "refused 13 BadRecord row 1"),
            (["2024-07-1,0,x"], "refused 14 BadField row 1 column 1"),
            (["2024-07-01,0,x"], "refused 14 BadField row 1 column 2"),
            (["2024-07-01,1,+1"], "refused 14 BadField row 1 column 3"),
            (["2024-07-01,1,100000"], "refused 14 BadField row 1 column 3"),
        ):
            with self.subTest(rows):
                self.assertEqual(self.replies(self.load("prices", rows)), [wanted])
        ends_early = "NEWCO,2024-02-01,2024-01-31,newco0001"
        self.assertEqual(self.replies(self.load("parties", ends_early)), ["refused 14 BadField row 1 column 3"])

    def test_the_greatest_file(self):
        """1,048,576 bytes are read, and one more is refused."""
        header = text_of("meters", [])
        whole = header + b"\n" * (1_048_576 - len(header))
        lines = [self.load("meters", whole + b"\n", "a"), self.load("meters", whole, "a")]
        self.assertEqual(self.replies(*lines), [self.TOO_LARGE, "applied=0 late=0"])

    def test_a_file_without_end(self):
        line = f"load {EARLY} {OPERATOR} meters /dev/zero"
        self.assertEqual(self.replies(line, *self.market()), [self.TOO_LARGE, *LOADED])

    def test_a_megabyte_in_one_field(self):
        header = text_of("meters", [])
        rest = f",{DAY},1,1,1,0\n".encode()
        long = b"A" * (1_048_576 - len(header) - len(rest))
        for data, wanted in (
            (header + long + rest, "refused 14 BadField row 1 column 1"),
            (long, "refused 12 BadHeader"),
            (header + b'"' + long + b",\n" * 7, "refused 13 BadRecord row 1"),
        ):
            self.assertEqual(self.after_market(self.load("meters", data)), [wanted])

    def test_marks_and_quotes(self):
        """A file of readings may begin with one byte order mark, and a field may be in quotes. If a quote is opened and never
        closed, the rest of the file is one field."""
        header, mark = text_of("meters", []), "\ufeff".encode()
        rest = f",{DAY},1,1,1,0\n".encode()
        for data, wanted in (
            (mark + header + b"G1" + rest, APPLIED),
            (mark * 2 + header + b"G1" + rest, "refused 12 BadHeader"),
            (mark + b"\n" + mark + header + b"G1" + rest, "refused 12 BadHeader"),
            (header + mark + b"G1" + rest, "refused 14 BadField row 1 column 1"),
            (header + b'"G1"' + rest, APPLIED),
            (header + b'"G2"' + rest, "refused 31 UnknownUnit row 1"),
            (header + b'"G1' + rest, "refused 13 BadRecord row 1"),
            (header + b'"G1' + rest + b"G1" + rest, "refused 13 BadRecord row 1"),
            (header + b"G1" + rest + b'"G1' + rest, "refused 13 BadRecord row 2"),
            (header + b"G1" + rest.replace(b"0\n", b'"0\n'), "refused 14 BadField row 1 column 6"),
        ):
            with self.subTest(data):
                self.assertEqual(self.after_market(self.load("meters", data)), [wanted])

    def test_bytes_that_are_no_text(self):
        header = text_of("meters", [])
        rest = f",{DAY},1,1,1,0\n".encode()
        every = bytes(range(256))
        for data, wanted in (
            (every * 40, "refused 12 BadHeader"),
            (b"\xff" + header, "refused 12 BadHeader"),
            (header.replace(b"unit", b"un\0t"), "refused 12 BadHeader"),
            (header + b"G1\xff" + rest, "refused 14 BadField row 1 column 1"),
            (header + b"G1\0" + rest, "refused 14 BadField row 1 column 1"),
            (header + b"\0", "refused 13 BadRecord row 1"),
            (header.decode().encode("utf-16"), "refused 12 BadHeader"),
        ):
            with self.subTest(data[:60]):
                self.assertEqual(self.after_market(self.load("meters", data)), [wanted])


class Files(Desk):
    """What the paths of a script lead to. If a file can't be read, that is told, and the script goes on."""

    def line(self, path, kind="parties"):
        return f"load {EARLY} {OPERATOR} {kind} {path}"

    def test_files_that_cannot_be_read(self):
        missing, link = str(self.room / "missing.csv"), str(self.room / "link.csv")
        os.symlink("nowhere.csv", link)
        through = self.file("f", b"") + "/x.csv"
        lines = [self.line(path) for path in (missing, link, through, self.room)]
        self.assertEqual(self.replies(*lines, *self.market()), ["fault file"] * 4 + LOADED)

    def test_an_accepted_file_that_is_gone(self):
        """A repeat is known by its bytes. Without them there is no repeat."""
        before = self.load(*MARKET[0], name="f1.csv")
        lines = [before, self.line(self.room / "f1.csv")]
        self.assertEqual(self.replies(*lines), ["applied=2 late=0", "fault file"])

    def test_files_of_others(self):
        """Root may read every file, so this calls a copy of the program as nobody."""
        nobody = as_nobody()
        if nobody is None:
            self.skipTest("root may read every file, and setpriv doesn't give up its rights here")
        os.chmod(self.room, 0o755)
        program = shutil.copy(SETTLE, self.room / "settle")
        os.chmod(program, 0o755)
        closed = self.file("f1.csv", text_of(*MARKET[0]))
        script = self.file("script", self.line(closed) + "\n")
        for modes, ended in (
            ((0o644, 0o644), (0, b"applied=2 late=0\n", b"")),
            ((0o644, 0), (0, b"fault file\n", b"")),
            ((0, 0o644), (1, b"", b"fault file\n")),
        ):
            for path, mode in zip((script, closed), modes):
                os.chmod(path, mode)
            made = subprocess.run([*nobody, program, "script", "--operator-key", OPERATOR, script], capture_output=True)
            self.assertEqual((made.returncode, made.stdout, made.stderr), ended)

    def test_a_pipe_with_a_name(self):
        """What another program writes into it, in pieces, is the file."""
        pipe = self.room / "f4.csv"
        os.mkfifo(pipe)
        data = self.file("data", text_of(*MARKET[3]))
        writes = 'exec >"$1"; head -c 1000 "$0"; sleep 0.2; tail -c +1001 "$0"'
        writer = subprocess.Popen(["sh", "-c", writes, data, str(pipe)])
        self.addCleanup(writer.wait)
        self.addCleanup(writer.kill)
        lines = [*self.market()[:3], self.line(pipe, "meters"), self.load(*MARKET[3], name="f4.csv")]
        self.assertEqual(self.replies(*lines, timeout=60), [*LOADED[:4], LOADED[3]])

    def test_the_script_cannot_be_read(self):
        for path in (self.room / "missing", self.room):
            made = settle("script", "--operator-key", OPERATOR, str(path))
            self.assertEqual(made, (1, b"", b"fault file\n"))


class OffTheirForm(Desk):
    """A script with a line that is off its form is not run at all."""

    def test_lines(self):
        path = self.path("f1.csv", text_of(*MARKET[0]))
        for line in (
            "",
            " ",
            "load",
            f"{EARLY} {OPERATOR} parties {path}",
            f"LOAD {EARLY} {OPERATOR} parties {path}",
            f"stop {EARLY} {OPERATOR} parties {path}",
            f"load {EARLY} {OPERATOR} parties",
            f"load {EARLY} {OPERATOR} parties {path} {path}",
            f"load {EARLY} {OPERATOR} parties {path} ",
            f" load {EARLY} {OPERATOR} parties {path}",
            f"load {EARLY}  {OPERATOR} parties {path}",
            f"load\t{EARLY} {OPERATOR} parties {path}",
            f"load {EARLY} {OPERATOR} parties {path}\r",
            f"load {EARLY}.0 {OPERATOR} parties {path}",
            f"load +{EARLY} {OPERATOR} parties {path}",
            f"load x {OPERATOR} parties {path}",
            f"load {2**63} {OPERATOR} parties {path}",
            f"load {-(2**63) - 1} {OPERATOR} parties {path}",
            f"load {EARLY} op-short parties {path}",
            f"load {EARLY} op-{'k' * 62} parties {path}",
            f"load {EARLY} genco01 parties {path}",
            f"load {EARLY} {'k' * 65} parties {path}",
            f"load {EARLY} genco_0001 parties {path}",
            f"load {EARLY} {OPERATOR} party {path}",
            f"load {EARLY} {OPERATOR} Parties {path}",
            f"load {EARLY} {OPERATOR} parties {self.room}/",
            f"load {EARLY} {OPERATOR} parties {self.room}/a,b.csv",
            f"load {EARLY} {OPERATOR} parties {self.room}/ä.csv",
            f"load {EARLY} {OPERATOR} parties {self.room}/{'n' * 65}",
        ):
            with self.subTest(line):
                good = self.load(*MARKET[0])
                self.is_wrong(self.run_script(f"{good}\n{line}\n{good}\n"), line=2)

    def test_lines_of_runs(self):
        for line in (
            "run",
            f"{END} {OPERATOR} {DAY} SF",
            f"RUN {END} {OPERATOR} {DAY} SF",
            f"run {END} {OPERATOR} {DAY}",
            f"run {END} {OPERATOR} SF",
            f"run {END} {DAY} SF",
            f"run {OPERATOR} {DAY} SF",
            f"run {END} {OPERATOR} SF {DAY}",
            f"run {END} {OPERATOR} {DAY} SF R1",
            f"run {END} {OPERATOR} {DAY} SF ",
            f"run {END} {OPERATOR} {DAY}  SF",
            f"run {END} {OPERATOR} {DAY} SF\r",
            f"run {END} {OPERATOR} {DAY} ",
            f"run {END} {OPERATOR} {DAY} S",
            f"run {END} {OPERATOR} {DAY} XX",
            f"run {END} {OPERATOR} {DAY} sf",
            f"run {END} {OPERATOR} {DAY} RA",
            f"run {END} {OPERATOR} {DAY} II",
            f"run {END} {OPERATOR} 2024-02-30 SF",
            f"run {END} {OPERATOR} 2023-02-29 SF",
            f"run {END} {OPERATOR} 2024-7-1 SF",
            f"run {END} {OPERATOR} 2000-12-31 SF",
            f"run {END} {OPERATOR} 2100-01-01 SF",
            f"run {END}.0 {OPERATOR} {DAY} SF",
            f"run +{END} {OPERATOR} {DAY} SF",
            f"run one {OPERATOR} {DAY} SF",
            f"run {2**63} {OPERATOR} {DAY} SF",
            f"run {END} op-short {DAY} SF",
            f"run {END} genco01 {DAY} SF",
        ):
            with self.subTest(line):
                good = self.load(*MARKET[0])
                self.is_wrong(self.run_script(f"{good}\n{line}\n{good}\n"), line=2)

    def test_a_path_that_is_no_text(self):
        line = f"load {EARLY} {OPERATOR} parties ".encode() + b"\xff/f1.csv\n"
        self.is_wrong(self.run_script(line), line=1)

    def test_the_first_such_line_is_told(self):
        good = self.load(*MARKET[0])
        self.is_wrong(self.run_script(f"{good}\n" * 16 + "x\n" * 30), line=17)

    def test_scripts_that_are_none(self):
        for data in (b"\n", b"\0", bytes(range(256)), text_of(*MARKET[0])):
            with self.subTest(data[:20]):
                self.is_wrong(self.run_script(data), line=1)

    def test_a_name_of_64_letters(self):
        self.assertEqual(self.replies(self.load(*MARKET[0], name="n" * 64)), ["applied=2 late=0"])


class WrongWords(Desk):
    """Words that form no command: nothing is run, and the script is not even looked for."""

    def test_operator_keys(self):
        script = self.file("script", self.load(*MARKET[0]) + "\n")
        for key in ("", "genco0001", "op-short01", "op-" + "k" * 62, "OP-settle001", "op-settle_01", "op-settle001 "):
            for path in (script, str(self.room / "missing")):
                with self.subTest(f"{key} {path}"):
                    self.is_wrong(settle("script", "--operator-key", key, path))

    def test_lead_minutes(self):
        script = self.load(*MARKET[0]) + "\n"
        for minutes in ("1441", "-1", "-0", "+5", "60.0", "", "x", "18446744073709551617"):
            for options in (["--lead-minutes", minutes], [f"--lead-minutes={minutes}"]):
                with self.subTest(options):
                    self.is_wrong(self.run_script(script, *options))

    def test_no_lead_minutes(self):
        made = self.run_script(self.load(*MARKET[0]) + "\n", "--lead-minutes=0")
        self.assertEqual(made, (0, b"applied=2 late=0\n", b""))

    def test_words(self):
        script = self.file("script", self.load(*MARKET[0]) + "\n")
        key = ("--operator-key", OPERATOR)
        for words in (
            (),
            (script,),
            key,
            ("--operator-key", script),
            (*key, script, script),
            (*key, "--lead-minutes", script),
            (*key, "--key", "genco0001", script),
            (*key, script, "--help"),
        ):
            with self.subTest(words):
                self.is_wrong(settle("script", *words))

    def test_a_path_that_is_no_text(self):
        self.is_wrong(settle(b"script", b"--operator-key", OPERATOR.encode(), b"\xff.script"))


class Streams(Desk):
    """What is told if standard output or standard error takes nothing."""

    def by_shell(self, streams, text):
        words = [SETTLE, "script", "--operator-key", OPERATOR, self.file("script", text)]
        made = subprocess.run(["sh", "-c", f'"$@" {streams}', "sh", *words], capture_output=True)
        return made.returncode, made.stdout, made.stderr

    def test_a_full_device(self):
        for text in (self.load(*MARKET[0]), f"load 0 {OPERATOR} units /nowhere"):
            self.assertEqual(self.by_shell(">/dev/full", text), (1, b"", b"fault output\n"))

    def test_a_full_device_that_is_not_written_to(self):
        self.assertEqual(self.by_shell(">/dev/full", ""), (0, b"", b""))
        status, written, told = self.by_shell(">/dev/full", "x")
        self.assertEqual((status, written), (2, b""))
        self.assertNotEqual(told, b"fault output\n")

    def test_a_full_device_for_errors(self):
        good = self.load(*MARKET[0])
        self.assertEqual(self.by_shell("2>/dev/full", good), (0, b"applied=2 late=0\n", b""))
        self.assertEqual(self.by_shell("2>/dev/full", "x"), (2, b"", b""))

    def test_a_pipe_that_nobody_reads(self):
        script = self.file("script", self.load(*MARKET[0]))
        reads, writes = os.pipe()
        os.close(reads)
        words = [SETTLE, "script", "--operator-key", OPERATOR, script]
        made = subprocess.run(words, stdout=writes, stderr=subprocess.PIPE)
        os.close(writes)
        self.assertEqual((made.returncode, made.stderr), (1, b"fault output\n"))

    def test_files_are_left_as_they_were(self):
        """Without standard streams the files get their descriptors, and nothing is written to them."""
        data = text_of(*MARKET[0])
        path = self.path("f1.csv", data)
        self.by_shell("<&- >&- 2>&-", f"load 0 {OPERATOR} parties {path}\nload 0 {OPERATOR} units {path}\n")
        self.assertEqual(pathlib.Path(path).read_bytes(), data)


class ExampleMarket(Desk):
    """`examples/market`: the replies follow from the rows of its files and the deadlines."""

    KEY = "op-market001"
    FOLDER = "examples/market/"

    def expected(self, moment, kind, name, lead):
        """The reply to a file that is accepted when it comes at this moment."""
        with open(HOME / self.FOLDER / name, newline="", encoding="utf-8") as opened:
            rows = list(csv.DictReader(opened))
        deadlines = []
        if kind in ("contracts", "reallocations"):
            deadlines = [START + 1800 * (int(row["period"]) - 1) - 60 * lead for row in rows]
        late = sum(moment >= deadline for deadline in deadlines)
        return f"applied={len(rows) - late} late={late}"

    def replies_to(self, script, lead):
        """The lines of a script of the market, and what is printed for them, side by side."""
        path = self.FOLDER + script
        lines = (HOME / path).read_text(encoding="utf-8").splitlines()
        words = "script", "--operator-key", self.KEY, "--lead-minutes", str(lead), path
        status, written, told = settle(*words, cwd=HOME)
        self.assertEqual((status, told), (0, b""))
        return list(zip(lines, written.decode().splitlines(), strict=True))

    def check(self, script, lead, others):
        """The answer to each line follows from its file, unless `others` has the answer to that line."""
        first = {}
        for number, (line, reply) in enumerate(self.replies_to(script, lead), 1):
            _, moment, _, kind, path = line.split(" ")
            name = path.removeprefix(self.FOLDER)
            with self.subTest(f"{script} {lead}: line {number}"):
                if number in others:
                    self.assertEqual(reply, others[number])
                    continue
                # (a file that was accepted keeps the moment at which it was)
                came = first.setdefault((kind, path), int(moment))
                self.assertEqual(reply, self.expected(came, kind, name, lead))

    def test_the_plain_day(self):
        for lead in (0, 60):
            self.check("plain.script", lead, {})

    def test_the_day(self):
        """A changed file, a seller who buys, 110 percent, a price with seven decimals, a party's key, and a missing file, one
        after the other. With a lead of a day the 110 percent come late."""
        others = {
            8: "refused 20 FileChanged",
            9: "refused 35 SameAccount row 3",
            11: "refused 38 OverHundred row 1",
            13: "refused 14 BadField row 2 column 3",
            14: "refused 60 Forbidden",
            17: "fault file",
        }
        for lead in (0, 60):
            self.check("day.script", lead, others)
        self.check("day.script", 1440, {line: reply for line, reply in others.items() if line != 11})

    def test_line_3_in_milliseconds(self):
        """All contracts of the plain day are late, and still are after the same file comes in time."""
        parties, units, contracts = (HOME / self.FOLDER / "plain.script").read_text().splitlines()[:3]
        far = contracts.replace(" 1719568800 ", " 1719568800000 ")
        self.assertNotEqual(far, contracts)
        script = self.file("far", "\n".join([parties, units, far, contracts]))
        status, written, told = settle("script", "--operator-key", self.KEY, script, cwd=HOME)
        self.assertEqual((status, told), (0, b""))
        self.assertEqual(written.decode().splitlines()[2:], ["applied=0 late=126"] * 2)

    def test_the_wrong_order(self):
        unknown = "refused 30 UnknownParty row 1"
        self.check("order.script", 60, {1: unknown, 2: unknown, 4: "refused 31 UnknownUnit row 1"})


if __name__ == "__main__":
    unittest.main()
