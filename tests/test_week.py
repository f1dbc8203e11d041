"""The week of `examples/week`, over an office in a file: what is told for each line, what its runs settle, and the picture that
is drawn of it. Which rows come late is computed here by the rule of the clocks. All figures are those of
`bench/peer_office.py`, which is given the other rows."""
import contextlib
import csv
import datetime
import functools
import io
import pathlib
import re
import runpy
import subprocess
import sys
import tempfile
import unittest
import unittest.mock
import xml.etree.ElementTree

from programs import HOME, SETTLE, need, settle
from test_documents import BLOCK

WEEK = "examples/week/"
KEY = "op-market001"
DATES = [f"2024-10-{day}" for day in range(21, 28)]
COUNTS = [48] * 6 + [50]
CORRECTED = "2024-10-24"
# The column of a row's date, by kind. Its period is in the next column.
DEADLINES = {"contracts": 3, "reallocations": 2}
LEAD = 3600
HEADER = "date,kind,account,period,credited,balancing,contracts,imbalance,charge,share\n"
MWH = 10**10
SVG = "{http://www.w3.org/2000/svg}"


def last_sunday(year, month):
    """The last Sunday of a month with 31 days."""
    end = datetime.date(year, month, 31)
    return end - datetime.timedelta((end.weekday() + 1) % 7)


def midnight(date):
    """The second at which a date begins. Clocks are an hour ahead from a Sunday in March to one in October, and change after
    midnight."""
    ahead = last_sunday(date.year, 3) < date <= last_sunday(date.year, 10)
    return (date - datetime.date(1970, 1, 1)).days * 86_400 - 3600 * ahead


def periods(date):
    """How many half hours there are from one midnight to the next."""
    date = datetime.date.fromisoformat(date)
    return (midnight(date + datetime.timedelta(1)) - midnight(date)) // 1800


def is_late(kind, row, moment):
    """Whether a row comes at or after its deadline, which is this many seconds before its period."""
    if kind not in DEADLINES:
        return False
    date, period = row[DEADLINES[kind] :][:2]
    return moment >= midnight(datetime.date.fromisoformat(date)) + 1800 * (int(period) - 1) - LEAD


def lines_of(script):
    return [line.split(" ") for line in (HOME / WEEK / script).read_text(encoding="utf-8").splitlines()]


def rows_of(path):
    with open(HOME / path, newline="", encoding="utf-8") as file:
        return list(csv.reader(file))[1:]


class Peer:
    """The other office. It knows no deadlines."""

    def __init__(self):
        path = str(HOME / "bench" / "peer_office.py")
        with contextlib.redirect_stdout(io.StringIO()), unittest.mock.patch("sys.argv", [path, "init", ":memory:"]):
            self.calls = runpy.run_path(path)

    def tells(self, name, *words):
        told = io.StringIO()
        with contextlib.redirect_stdout(told):
            self.calls[name](self.calls["connection"], *words)
        return told.getvalue()

    def loads(self, kind, path, moment):
        """Loads the rows that come in time, and counts them and the others."""
        rows = rows_of(path)
        timely = [row for row in rows if not is_late(kind, row, moment)]
        with tempfile.TemporaryDirectory() as folder:
            copy = pathlib.Path(folder) / pathlib.Path(path).name
            copy.write_text("".join(",".join(row) + "\n" for row in [["header"], *timely]), encoding="utf-8")
            self.tells("load", kind, str(copy))
        return f"applied={len(timely)} late={len(rows) - len(timely)}\n"

    def answer(self, line):
        """What is told for a line of a script."""
        if line[0] == "load":
            _, moment, _, kind, path = line
            return self.loads(kind, path, int(moment))
        return self.tells(line[0], *line[3:])


@functools.cache
def of_the_peer():
    """What is told for each line of the week, and its results."""
    peer = Peer()
    answers = [peer.answer(line) for line in lines_of("week.script")]
    return answers, "".join(peer.answer(line) for line in lines_of("results.script"))


@functools.cache
def of_the_change():
    """What is told for each line of the change of supplier, what R1 of each date posted, and the balances after it."""
    peer = Peer()
    for line in lines_of("week.script"):
        peer.answer(line)
    answers, db = [peer.answer(line) for line in lines_of("change.script")], peer.calls["connection"]
    posted = {}
    for day, party, side, pence in db.execute("SELECT day, party, side, pence FROM postings WHERE kind = 1"):
        posted.setdefault(str(datetime.date(1970, 1, 1) + datetime.timedelta(day)), {})[f"{party}-{'PC'[side]}"] = pence
    moved = dict(((party, side), pence) for party, side, pence in db.execute("SELECT party, side, sum(pence) FROM postings GROUP BY party, side"))
    parties = [party for (party,) in db.execute("SELECT party FROM parties ORDER BY party")]
    balances = [f"{party}-{'PC'[side]},{moved.get((party, side), 0)}\n" for party in parties for side in (0, 1)]
    return answers, posted, "".join(["account,moved_pence\n", *balances])


def latest(exports):
    """The rows of exports, without those of a date for which there is a later run."""
    rows = [row for row in csv.DictReader(io.StringIO(exports)) if row["date"] != "date"]
    last = {row["date"]: row["kind"] for row in rows}
    return [row for row in rows if row["kind"] == last[row["date"]]]


class Week(unittest.TestCase):
    """The commands of the guide, and what the peer says about them."""

    @classmethod
    def setUpClass(cls):
        need(SETTLE)
        folder = tempfile.TemporaryDirectory()
        cls.addClassCleanup(folder.cleanup)
        cls.room = pathlib.Path(folder.name)
        (cls.room / "settle").symlink_to(SETTLE)
        (cls.room / "examples").symlink_to(HOME / "examples")
        cls.made = settle("init", "--db", "week.db", "--operator-key", KEY, cwd=cls.room)
        cls.loaded = settle("script", "--db", "week.db", WEEK + "week.script", cwd=cls.room)
        cls.balances = settle("report", "--db", "week.db", "--key", KEY, "balances", cwd=cls.room)
        blocks = BLOCK.findall((HOME / "docs/guide.md").read_text(encoding="utf-8"))
        lines = next(block for block in blocks if "> week.svg" in block).replace("python3", sys.executable)
        cls.drawn = subprocess.run(["sh", "-e", "-c", lines], cwd=cls.room, capture_output=True)
        cls.changed = settle("script", "--db", "week.db", WEEK + "change.script", cwd=cls.room)
        cls.after = settle("report", "--db", "week.db", "--key", KEY, "balances", cwd=cls.room)

    def setUp(self):
        self.answers, self.exports = of_the_peer()

    def test_what_is_told(self):
        self.assertEqual(self.made, (0, b"ready\n", b""))
        status, written, told = self.loaded
        self.assertEqual((status, told), (0, b""))
        self.assertEqual(written.decode().splitlines(keepends=True), self.answers)

    def test_results(self):
        """The figures of each account in each period of each run."""
        self.assertEqual((self.drawn.returncode, self.drawn.stdout, self.drawn.stderr), (0, b"", b""))
        self.assertEqual((self.room / "week.csv").read_text(encoding="utf-8").splitlines(), self.exports.splitlines())

    def test_balances(self):
        """Each account has paid what it pays by the latest runs."""
        nets = {}
        for row in latest(self.exports):
            nets[row["account"]] = nets.get(row["account"], 0) + int(row["charge"]) + int(row["share"])
        wanted = "".join(f"{account},{net}\n" for account, net in nets.items())
        self.assertEqual(self.balances, (0, f"account,moved_pence\n{wanted}".encode(), b""))
        self.assertEqual(sum(nets.values()), 0)

    def test_the_change_of_supplier(self):
        answers, _, balances = of_the_change()
        self.assertEqual(self.changed, (0, "".join(answers).encode(), b""))
        self.assertEqual(self.after, (0, balances.encode(), b""))

    def test_the_picture(self):
        """The folder's is drawn again, byte for byte."""
        self.assertEqual((self.drawn.returncode, self.drawn.stderr), (0, b""))
        self.assertEqual((self.room / "week.svg").read_bytes(), (HOME / WEEK / "week.svg").read_bytes())


class Files(unittest.TestCase):
    """What the folder has, and what the guide says about it."""

    needs_programs = False

    def test_the_week(self):
        """From a Monday to a Sunday on which clocks go back. Each period has a price, and a reading of each unit."""
        self.assertEqual([datetime.date.fromisoformat(date).weekday() for date in DATES], list(range(7)))
        self.assertEqual([periods(date) for date in DATES], COUNTS)
        units = [row[0] for row in rows_of("examples/market/units.csv")]
        for date, count in zip(DATES, COUNTS):
            numbers = [str(number) for number in range(1, count + 1)]
            prices = rows_of(f"{WEEK}prices-{date}.csv")
            self.assertEqual([row[:2] for row in prices], [[date, number] for number in numbers])
            meters = rows_of(f"{WEEK}meters-{date}.csv")
            self.assertEqual([row[:3] for row in meters], [[unit, date, number] for number in numbers for unit in units])

    def test_what_happens_in_it(self):
        """A negative price, a file with some late rows, and readings that are corrected before R1."""
        self.assertTrue(any(row[2].startswith("-") for row in rows_of(f"{WEEK}prices-{DATES[-1]}.csv")))
        lines = lines_of("week.script")
        (moment,) = (int(line[1]) for line in lines if line[-1] == f"{WEEK}contracts-late.csv")
        late = [is_late("contracts", row, moment) for row in rows_of(f"{WEEK}contracts-late.csv")]
        self.assertEqual(set(late), {True, False})
        name = f"{WEEK}meters-{CORRECTED}"
        before = {tuple(row[:3]): row[3] for row in rows_of(f"{name}.csv")}
        for row in rows_of(f"{name}-corrected.csv"):
            self.assertNotEqual(row[3], before[tuple(row[:3])])
        self.assertEqual([line[-2:] for line in lines[-2:]], [["meters", f"{name}-corrected.csv"], [CORRECTED, "R1"]])

    def test_each_file_is_loaded(self):
        """The lines are in the order of their moments."""
        lines = [*lines_of("week.script"), *lines_of("change.script")]
        loaded = [pathlib.Path(line[-1]).name for line in lines if line[-1].startswith(WEEK)]
        self.assertEqual(sorted(loaded), sorted(path.name for path in (HOME / WEEK).glob("*.csv")))
        moments = [int(line[1]) for line in lines]
        self.assertEqual(moments, sorted(moments))

    def test_what_the_correction_posts(self):
        """The guide tells what R1 posts: the new nets minus the old ones, if they differ."""
        posted = {}
        for row in csv.DictReader(io.StringIO(of_the_peer()[1])):
            if row["date"] == CORRECTED:
                pence = int(row["charge"]) + int(row["share"])
                posted[row["account"]] = posted.get(row["account"], 0) + (pence if row["kind"] == "R1" else -pence)
        guide = (HOME / "docs/guide.md").read_text(encoding="utf-8")
        (section,) = re.findall(r"^### A week$.*?(?=^##)", guide, re.MULTILINE | re.DOTALL)
        found = re.findall(r"(-?[\d,]+)(?: pence)? to ([A-Z]+-[PC])\b", section)
        told = {account: int(pence.replace(",", "")) for pence, account in found}
        self.assertEqual(told, {account: pence for account, pence in posted.items() if pence})

    def test_the_change_of_supplier(self):
        """The guide shows the file, what is printed and what R1 of Saturday posts, and the balances, which sum to zero. All that R1 posts
        sums to zero, too."""
        answers, posted, balances = of_the_change()
        guide = (HOME / "docs/guide.md").read_text(encoding="utf-8")
        (section,) = re.findall(r"^### Changing a supplier$.*?(?=^##)", guide, re.MULTILINE | re.DOTALL)
        file, script, told, report, after = BLOCK.findall(section)
        self.assertEqual(file, (HOME / WEEK / "units-shops.csv").read_text(encoding="utf-8"))
        self.assertEqual((told, after), ("".join(answers), balances))
        self.assertEqual(sum(int(line.split(",")[1]) for line in balances.splitlines()[1:]), 0)
        found = re.findall(r"(-?[\d,]+)(?: pence)? to ([A-Z]+-[PC])\b", section)
        self.assertEqual({account: int(pence.replace(",", "")) for pence, account in found}, posted["2024-10-26"])
        self.assertEqual({sum(pence.values()) for pence in posted.values()}, {0})

    def test_clocks(self):
        """Two of these dates begin at 23:00 UTC, an hour earlier than one in March."""
        begins = {"2024-03-31": 1_711_843_200, "2024-07-01": 1_719_788_400, "2024-10-27": 1_729_983_600}
        for date, second in begins.items():
            self.assertEqual(midnight(datetime.date.fromisoformat(date)), second)
        self.assertEqual([periods(date) for date in begins], [46, 48, 50])


def drawn_of(exports):
    """The picture that is drawn from exports on standard input."""
    made = subprocess.run([sys.executable, HOME / WEEK / "draw_week.py"], input=exports.encode(), capture_output=True)
    if made.returncode or made.stderr:
        raise AssertionError(made.stderr.decode())
    return made.stdout


def written(value, decimals=1, unit=MWH, sign=""):
    """A quantity as pictures write it."""
    whole, rest = divmod((2 * abs(value) * 10**decimals + unit) // (2 * unit), 10**decimals)
    return f"{'−' if value < 0 else ''}{sign}{whole:,}" + (f".{rest:0{decimals}}" if decimals else "")


class Picture:
    """What can be read off a picture."""

    def __init__(self, data):
        root = xml.etree.ElementTree.fromstring(data)
        texts = [("".join(part.itertext()), float(part.get("x")), float(part.get("y"))) for part in root.iter(f"{SVG}text")]
        self.words = [words for words, _, _ in texts]
        self.rows = {}
        for words, x, y in sorted(texts, key=lambda text: text[1]):
            self.rows.setdefault(y, []).append((words, x))
        self.paths = {part.get("id"): part.get("d") for part in root.iter(f"{SVG}path") if part.get("id")}
        self.fills = {part.get("id"): part.get("fill") for part in root.iter(f"{SVG}path") if part.get("id")}
        self.key = {part.text: part.get("fill") for part in root.iter(f"{SVG}tspan")}
        # The numbers of Settlement Periods, with their places.
        (axis,) = (row for row in self.rows.values() if row[0][0] == "Settlement Period")
        self.axis = [(int(words), x) for words, x in axis[1:]]
        (one, x), (other, next_x) = self.axis[:2]
        self.width = (next_x - x) / (other - one)

    def row(self, name):
        """The texts to the right of the text that begins a row."""
        (row,) = (row for row in self.rows.values() if row[0][0] == name)
        return [words for words, _ in row[1:]]

    def plot(self, name, count):
        """Where a plot's line of zero is, and how high each of this many periods is drawn above or below it."""
        heights = [0.0] * count
        for side in "above", "below":
            path = re.fullmatch(r"M([\d.]+) ([\d.]+)((?:H[\d.]+V[\d.]+)*)Z", self.paths[f"{name}-{side}"])
            left, zero = float(path[1]), float(path[2])
            steps = [0.0] * count
            for x, y in re.findall(r"H([\d.]+)V([\d.]+)", path[3]):
                place = round((float(x) - left) / self.width)
                steps[place:] = [zero - float(y)] * (count - place)
            heights = [height + step for height, step in zip(heights, steps)]
        return zero, heights


class Drawn(unittest.TestCase):
    """The folder's picture, compared with the peer's results."""

    def setUp(self):
        self.picture = Picture((HOME / WEEK / "week.svg").read_bytes())
        self.imbalances, self.cash = {}, [0] * sum(COUNTS)
        for row in latest(of_the_peer()[1]):
            place = sum(COUNTS[: DATES.index(row["date"])]) + int(row["period"]) - 1
            imbalances = self.imbalances.setdefault(row["account"], [0] * sum(COUNTS))
            imbalances[place] = int(row["imbalance"].replace(".", ""))
            self.cash[place] -= int(row["charge"])
        self.whole = [sum(values) for values in zip(*self.imbalances.values())]

    def compare(self, name, values, scale):
        """Each period is drawn where its value belongs. Places have one decimal."""
        _, heights = self.picture.plot(name, len(values))
        for place, (height, value) in enumerate(zip(heights, values, strict=True)):
            self.assertAlmostEqual(height, value * scale, delta=0.2, msg=f"{name} {place}")

    def scale(self, name, values):
        """The height of one unit, computed from the greatest value."""
        greatest = max(map(abs, values))
        return max(map(abs, self.picture.plot(name, len(values))[1])) / greatest

    def test_imbalances(self):
        """All have the same scale. What is left out is named, and is small."""
        scale = self.scale("All", self.whole)
        self.compare("All", self.whole, scale)
        left_out = [account for account in self.imbalances if f"{account}-above" not in self.picture.paths]
        for account, values in self.imbalances.items():
            if account not in left_out:
                self.compare(account, values, scale)
        (words,) = (words for words in self.picture.words if words.startswith("Not drawn"))
        self.assertEqual(words.partition(": ")[2], ", ".join(left_out))
        greatest = max(abs(value) for values in self.imbalances.values() for value in values)
        for account in left_out:
            self.assertLess(50 * max(map(abs, self.imbalances[account])), greatest)

    def test_colours(self):
        """What is long and what is short has the colour of its word."""
        self.assertEqual(sorted(self.picture.key), ["long", "short"])
        for name, fill in self.picture.fills.items():
            if not name.startswith("Residual"):
                self.assertEqual(fill, self.picture.key["long" if name.endswith("above") else "short"], name)

    def test_residual_cashflow(self):
        self.compare("Residual", self.cash, self.scale("Residual", self.cash))

    def test_numbers_beside_the_plots(self):
        """Each is four points below the line that it labels."""
        for name, values, unit, sign in ("All", self.whole, MWH, ""), ("Residual", self.cash, 100, "£"):
            zero, _ = self.picture.plot(name, len(values))
            scale = self.scale(name, values) * unit
            bottom, top = zero - scale * min(values) / unit, zero - scale * max(values) / unit
            texts = [(words, y) for y, row in self.picture.rows.items() for words, _ in row]
            found = [(words, y) for words, y in texts if top <= y - 4 <= bottom and re.fullmatch(rf"−?{sign}[\d,]+", words)]
            self.assertGreater(len(found), 2)
            for words, y in found:
                number = int(re.sub("[^0-9]", "", words)) * (-1 if "−" in words else 1)
                self.assertAlmostEqual(y - 4, zero - number * scale, delta=0.3)

    def test_sums(self):
        """The sums over each account's periods above zero and below it, and over each date's residuals."""
        drawn = {account: values for account, values in self.imbalances.items() if f"{account}-above" in self.picture.paths}
        sums = []
        for values in *drawn.values(), self.whole:
            above, below = (sum(pick(0, value) for value in values) for pick in (max, min))
            sums += [written(total) for total in (above, below) if total]
        above, below = (sum(pick(0, value) for value in self.cash) for pick in (max, min))
        sums += [written(total, 2, 100, "£") for total in (above, below)]
        right = max(x for row in self.picture.rows.values() for _, x in row)
        found = [row[-1][0] for _, row in sorted(self.picture.rows.items()) if row[-1][1] == right]
        self.assertEqual(found, ["Sum, MWh", *sums])
        residuals = {}
        for answer in of_the_peer()[0]:
            if words := re.match(r"run (\S+) (\S+) periods (\d+) .* residual (-?\d+) ", answer):
                residuals[words[1]] = (words[2], words[3], int(words[4]))
        self.assertEqual(self.picture.row("Sum of the day"), [written(residuals[date][2], 2, 100, "£") for date in DATES])
        (heads,) = (row for row in self.picture.rows.values() if row[0][0] == "MWh")
        wanted = [f"{kind}, {count} periods" for kind, count, _ in (residuals[date] for date in DATES)]
        self.assertEqual([words for words, _ in heads[1:-1]], wanted)
        self.assertEqual([words for words in self.picture.words if "clocks" in words], ["clocks go back"])

    def test_axis(self):
        """Periods 1, 13 and so on of each date are in the middle of what is drawn for them, and each date is in the middle of
        its own."""
        left = float(re.match(r"M([\d.]+) ", self.picture.paths["All-above"])[1])
        begins = range(0, 337, 48)
        wanted = [(begin, period) for begin, count in zip(begins, COUNTS) for period in range(1, count, 12)]
        self.assertEqual([number for number, _ in self.picture.axis], [period for _, period in wanted])
        for (begin, period), (_, x) in zip(wanted, self.picture.axis):
            self.assertAlmostEqual(x, left + (begin + period - 0.5) * self.picture.width, delta=0.1)
        (dates,) = (row for row in self.picture.rows.values() if row[0][0] == "Mon 21 Oct")
        names = zip(["Mon", "Tue", "Wed", "Thu", "Fri", "Sat", "Sun"], range(21, 28))
        self.assertEqual([words for words, _ in dates], [f"{name} {day} Oct" for name, day in names])
        for begin, count, (_, x) in zip(begins, COUNTS, dates):
            self.assertAlmostEqual(x, left + (begin + count / 2) * self.picture.width, delta=0.1)


class OtherExports(unittest.TestCase):
    """Pictures of one date, on which clocks go forward."""

    DATE = "2024-03-31"

    def export(self, kind, rows):
        """An export of accounts that have the same imbalance and charge in each period."""
        lines = [
            f"{self.DATE},{kind},{account},{period},0.0000000000,0.0000000000,0.0000000000,{imbalance},{charge},0\n"
            for period in range(1, 47)
            for account, imbalance, charge in rows
        ]
        return HEADER + "".join(lines)

    def test_the_latest_run(self):
        """In any order of the runs. 46 times 2 MWh and -0.5 MWh are 92 and -23, and both together 69. 46 times 75 pence are
        34.50 pounds."""
        first = self.export("SF", [("ALFA-P", "1.0000000000", -50), ("BETA-C", "0.0000000000", 0)])
        rows = [("ALFA-P", "2.0000000000", -100), ("BETA-C", "-0.5000000000", 25), ("BETA-P", "0.0000000000", 0)]
        later = self.export("R1", rows)
        data = drawn_of(later + first)
        self.assertEqual(data, drawn_of(first + later))
        picture = Picture(data)
        for words in "R1, 46 periods", "clocks go forward", "92.0", "−23.0", "69.0", "£34.50", "Sun 31 Mar":
            self.assertIn(words, picture.words)
        self.assertNotIn("SF, 46 periods", picture.words)
        self.assertEqual([words.partition(": ")[2] for words in picture.words if words.startswith("Not drawn")], ["BETA-P"])
        _, heights = picture.plot("ALFA-P", 46)
        _, others = picture.plot("BETA-C", 46)
        self.assertEqual((len(set(heights)), len(set(others))), (1, 1))
        self.assertAlmostEqual(heights[0], -4 * others[0], delta=0.5)

    def test_nothing_out_of_balance(self):
        """Only lines are drawn."""
        picture = Picture(drawn_of(self.export("SF", [("ALFA-P", "0.0000000000", 0), ("ALFA-C", "0.0000000000", 0)])))
        self.assertEqual(picture.row("Sum of the day"), ["£0.00"])
        for name in "ALFA-P", "ALFA-C", "All", "Residual":
            self.assertEqual(set(picture.plot(name, 46)[1]), {0.0})


if __name__ == "__main__":
    unittest.main()
