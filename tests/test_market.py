"""Files of the example market through `hh_bench load`: from text to what becomes of each row. All rows come at
2024-06-01T00:00:00Z, before the market's deadlines. Late rows are mainly tested in test_desk.py. Each date that there is: its
periods, and when it ends. Also what `hh_bench read` and `hh_bench settle` print."""
import datetime
import pathlib
import subprocess
import tempfile
import unittest

from programs import BENCH, need
from test_commands import midnight
from test_desk import HEADERS, Desk, text_of

METERS = "unit,date,period,metered_mwh,tlm,balancing_mwh\n"
CONTRACTS = "reference,seller,buyer,date,period,mwh\n"
REALLOCATIONS = "unit,account,date,period,percent,fixed_mwh\n"
IDLE = range(2, 49)
MARKET = [
    ("parties", "party,from,to,key\nGENCO,2024-01-01,,genco0001\nSUPCO,2024-01-01,,supco0001\n"),
    ("units", "unit,party,side,interconnector,from,to\nG1,GENCO,P,no,2024-01-01,\nS1,SUPCO,C,no,2024-01-01,\n"),
    ("contracts", CONTRACTS + "C1,GENCO-P,SUPCO-C,2024-07-01,1,99.000\n"),
    (
        "meters",
        METERS
        + "G1,2024-07-01,1,100.000,0.9950000,0\nS1,2024-07-01,1,-98.000,1.0050000,0\n"
        + "".join(f"{unit},2024-07-01,{period},0,1,0\n" for period in IDLE for unit in ("G1", "S1")),
    ),
    (
        "prices",
        "date,period,price\n2024-07-01,1,50.00000\n" + "".join(f"2024-07-01,{period},0\n" for period in IDLE),
    ),
]
LOADED = [
    "parties applied 2 late 0 refused 0",
    "units applied 2 late 0 refused 0",
    "contracts applied 1 late 0 refused 0",
    "meters applied 96 late 0 refused 0",
    "prices applied 48 late 0 refused 0",
]


def bench(*words):
    """The status of `hh_bench` with these words, and the lines on standard output and on standard error."""
    done = subprocess.run([BENCH, *words], capture_output=True, text=True)
    return done.returncode, done.stdout.splitlines(), done.stderr.splitlines()


def mixed(total, number):
    """A checksum with one more number, in 64 bits: it is multiplied by a prime, and then the number's size is added, with its
    sign as the last bit."""
    return ((total * 1_099_511_628_211 + abs(number)) * 2 + (number < 0)) % 2**64


def text(field):
    return list(field.encode())


def date(field):
    """Days since 1970-01-01. An empty text means 2099-12-31."""
    return [(datetime.date.fromisoformat(field or "2099-12-31") - datetime.date(1970, 1, 1)).days]


def account(field):
    """The party's bytes, and whether the side is Consumption."""
    party, _, side = field.partition("-")
    return [*text(party), side == "C"]


def decimal(places):
    """A number with some decimals, in units of the last decimal."""

    def numbers(field):
        size, _, fraction = field.lstrip("-").partition(".")
        number = int(size + fraction.ljust(places, "0"))
        return [-number if field.startswith("-") else number]

    return numbers


# What each field of a row adds to the checksum, in the order of the columns. In a file of reallocations, the account, which is
# in the second column, comes after the period.
FIELDS = {
    "parties": [text, date, date, text],
    "units": [text, text, lambda side: [side == "C"], lambda mark: [mark == "yes"], date, date],
    "meters": [text, date, decimal(0), decimal(3), decimal(7), decimal(3)],
    "prices": [date, decimal(0), decimal(5)],
    "contracts": [text, account, account, date, decimal(0), decimal(3)],
    "reallocations": [text, date, decimal(0), account, decimal(5), decimal(3)],
}


def checksum(kind, rows):
    """The checksum of rows, given as lines of a file: the checksum of the numbers of all their fields, one after the other."""
    total = 0
    for row in rows:
        cells = row.split(",")
        if kind == "reallocations":
            cells.insert(3, cells.pop(1))
        for field, cell in zip(FIELDS[kind], cells, strict=True):
            for number in field(cell):
                total = mixed(total, number)
    return total


class OfTheBench(unittest.TestCase):
    """A test with a folder of its own for files."""

    def setUp(self):
        need(BENCH)
        folder = tempfile.TemporaryDirectory()
        self.addCleanup(folder.cleanup)
        self.room = pathlib.Path(folder.name)


class Market(OfTheBench):
    def load(self, *files):
        """What becomes of the market's files and these: the lines, and what is told on standard error beside the times."""
        words = []
        for number, (kind, text) in enumerate([*MARKET, *files]):
            path = self.room / f"{number}.csv"
            path.write_text(text, encoding="utf-8")
            words += [kind, str(path)]
        done = subprocess.run([BENCH, "load", *words], capture_output=True, text=True)
        told = [line for line in done.stderr.splitlines() if not line.isdigit()]
        self.assertEqual(done.stdout.splitlines()[:5], LOADED)
        return done.stdout.splitlines()[5:], told

    def test_the_market_is_loaded(self):
        self.assertEqual(self.load(), ([], []))

    def test_a_row_comes_late(self):
        """2024-06-01 began at 23:00Z, an hour before the rows come. So with a lead of an hour the deadline of period 5 is the
        very second at which they come, and that of period 6 is half an hour later."""
        rows = "".join(f"C1,GENCO-P,SUPCO-C,2024-06-01,{period},1\n" for period in (5, 6))
        self.assertEqual(self.load(("contracts", CONTRACTS + rows)), (["contracts applied 1 late 1 refused 0"], []))

    def test_periods_of_clock_change_days(self):
        for date, period, becomes in [
            ("2024-03-31", 46, "applied 1 late 0 refused 0"),
            ("2024-03-31", 47, "applied 0 late 0 refused 1"),
            ("2024-10-27", 50, "applied 1 late 0 refused 0"),
            ("2024-07-01", 49, "applied 0 late 0 refused 1"),
        ]:
            with self.subTest(f"{date} {period}"):
                lines = self.load(("meters", METERS + f"G1,{date},{period},1,1,0\n"))
                self.assertEqual(lines, ([f"meters {becomes}"], []))

    def test_period_51_is_no_field(self):
        lines = self.load(("meters", METERS + "G1,2024-10-27,51,1,1,0\n"))
        self.assertEqual(lines, ([], ["refused 14 BadField"]))

    def test_a_seller_who_buys(self):
        rows = "C2,GENCO-P,SUPCO-C,2024-07-01,1,1\nC3,SUPCO-P,GENCO-P,2024-07-01,2,1\nC4,GENCO-P,GENCO-P,2024-07-01,1,1\n"
        self.assertEqual(self.load(("contracts", CONTRACTS + rows)), (["contracts applied 2 late 0 refused 1"], []))

    def test_no_more_than_a_hundred_percent(self):
        both = "G1,SUPCO-P,2024-07-01,1,60,0\nG1,SUPCO-C,2024-07-01,1,40,0\n"
        more = "G1,SUPCO-C,2024-07-01,1,40.00001,0\n"
        lines = self.load(("reallocations", REALLOCATIONS + both), ("reallocations", REALLOCATIONS + more))
        self.assertEqual(
            lines,
            (["reallocations applied 2 late 0 refused 0", "reallocations applied 0 late 0 refused 1"], []),
        )

    def test_a_reference_keeps_its_counterparties(self):
        moved = ("contracts", CONTRACTS + "C1,SUPCO-C,GENCO-P,2024-07-01,1,1\n")
        self.assertEqual(self.load(moved), (["contracts applied 0 late 0 refused 1"], []))

    def test_headers_and_the_range_of_a_volume(self):
        self.assertEqual(self.load(("meters", METERS)), (["meters applied 0 late 0 refused 0"], []))
        self.assertEqual(self.load(("meters", "")), ([], ["refused 12 BadHeader"]))
        most = "C5,GENCO-P,SUPCO-C,2024-07-01,1,10000.000\n"
        self.assertEqual(self.load(("contracts", CONTRACTS + most)), (["contracts applied 1 late 0 refused 0"], []))
        above = "C6,GENCO-P,SUPCO-C,2024-07-01,1,10000.001\n"
        self.assertEqual(self.load(("contracts", CONTRACTS + above)), ([], ["refused 14 BadField"]))


class Dates(Desk):
    """Each date from 2001-01-01 to 2099-12-31, by the rule of the market's clocks that `midnight` has: they go forward on the
    last Sunday of March, and back on that of October."""

    MOST_ROWS = 20_000

    @classmethod
    def setUpClass(cls):
        first, last = datetime.date(2001, 1, 1).toordinal(), datetime.date(2099, 12, 31).toordinal()
        days = [datetime.date.fromordinal(day).isoformat() for day in range(first, last + 2)]
        starts = [midnight(day) for day in days]
        cls.dates, cls.ends = days[:-1], starts[1:]
        cls.counts = [(end - start) // 1800 for start, end in zip(starts, cls.ends)]

    def applied(self, periods):
        """How many prices are applied, late and refused, if each of these dates has one for this period."""
        rows = [f"{date},{period},0" for date, period in periods]
        pieces = [rows[at : at + self.MOST_ROWS] for at in range(0, len(rows), self.MOST_ROWS)]
        paths = [self.path(f"{number}.csv", text_of("prices", piece)) for number, piece in enumerate(pieces)]
        status, written, _ = bench("load", *(word for path in paths for word in ("prices", path)))
        self.assertEqual((status, len(written)), (0, len(pieces)))
        found = [[int(word) for word in line.split()[2::2]] for line in written]
        return [sum(counts) for counts in zip(*found)]

    def test_the_dates_by_the_rule(self):
        self.assertEqual(len(self.dates), 36_159)
        self.assertEqual([self.counts.count(count) for count in (46, 50, 48)], [99, 99, 35_961])
        self.assertEqual(self.ends[0] - self.counts[0] * 1800, 978_307_200)

    def test_the_last_period_of_each_date(self):
        """It has a price, and no period behind it has one. Period 51 is no period of any date."""
        need(BENCH)
        self.assertEqual(self.applied(zip(self.dates, self.counts)), [36_159, 0, 0])
        behind = [(date, count + 1) for date, count in zip(self.dates, self.counts) if count < 50]
        self.assertEqual(self.applied(behind), [0, 0, 36_060])

    def test_the_end_of_each_date(self):
        """A run a second before the next date begins is too early. At that second it lacks a price."""
        lines = [self.order("SF", moment, date) for date, end in zip(self.dates, self.ends) for moment in (end - 1, end)]
        found = self.replies(*lines)
        wanted = ["refused 52 DayNotOver", "refused 53 MissingPrice period 1"] * len(self.dates)
        self.assertEqual([pair for pair in zip(lines, found, wanted, strict=True) if pair[1] != pair[2]][:5], [])


class Measured(OfTheBench):
    """What is told about a file that is read again and again, and about a period that is settled again and again."""

    ROWS = {
        "parties": ["GENCO,2024-01-01,,genco0001", "SUPCO,2001-01-01,2024-12-31,Supco00001"],
        "units": ["T_GEN-1,GENCO,P,no,2024-01-01,", "S1,SUPCO,C,yes,2024-01-01,2024-12-31"],
        "meters": ["G1,2024-07-01,1,100.000,0.9950000,-0.001", "S1,2024-07-01,48,-98,1.005,0"],
        "prices": ["2024-07-01,1,50.00000", "2024-10-27,50,-99999.99999"],
        "contracts": ["C1,GENCO-P,SUPCO-C,2024-07-01,1,99.000", "c-2_X,SUPCO-C,GENCO-P,2024-07-01,02,-0.5"],
        "reallocations": ["G1,SUPCO-C,2024-07-01,1,60,-0.25", "S1,GENCO-P,2024-07-01,48,0.00001,10000"],
    }

    def path(self, kind, rows):
        path = self.room / f"{kind}.csv"
        path.write_text("".join(f"{line}\n" for line in [HEADERS[kind], *rows]), encoding="utf-8")
        return str(path)

    def is_timed(self, told, times):
        """A line of nanoseconds for each time, and nothing else."""
        self.assertEqual(len(told), times)
        for line in told:
            self.assertRegex(line, r"\A[0-9]+\Z")

    def test_files_are_read(self):
        for kind, rows in self.ROWS.items():
            with self.subTest(kind):
                status, written, told = bench("read", kind, self.path(kind, rows), "2")
                self.assertEqual((status, written), (0, [f"{len(rows)} {checksum(kind, rows)}"]))
                self.is_timed(told, 2)

    def test_a_file_that_is_refused(self):
        status, written, told = bench("read", "prices", self.path("prices", ["2024-07-01,1,x"]), "2")
        self.assertEqual((status, written), (0, ["refused 14 BadField"]))
        self.is_timed(told, 2)

    def test_a_file_that_is_not_there(self):
        self.assertEqual(bench("read", "prices", str(self.room / "none"), "2"), (1, [], ["fault input"]))

    def test_a_period_is_settled(self):
        """It is the same each time."""
        status, written, told = bench("settle", "2")
        self.assertEqual((status, len(written)), (0, 1))
        self.assertRegex(written[0], r"\A[1-9][0-9]*\Z")
        self.is_timed(told, 2)
        self.assertEqual(bench("settle", "1")[1], written)

    def test_wrong_words(self):
        path = self.path("meters", [])
        for words in (
            (),
            ("settle",),
            ("settle", "x"),
            ("settle", "-1"),
            ("settle", "1", "1"),
            ("load",),
            ("load", "meters"),
            ("load", "meter", path),
            ("read", "meters", "x"),
            ("read", "meters", path),
            ("read", "meters", path, "x"),
            ("measure", "1"),
        ):
            with self.subTest(words):
                status, written, told = bench(*words)
                self.assertEqual((status, written, len(told)), (2, [], 1))


if __name__ == "__main__":
    unittest.main()
