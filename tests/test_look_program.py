"""The commands of `./look` that ask the program over a copy, `check` and `preview`; and what the others show of offices that the program
has made: of lists of requests drawn at random, and of a service that clients ask meanwhile."""
import contextlib
import csv
import io
import os
import random
import re
import shutil
import sqlite3
import threading
import unittest
import unittest.mock

from killing import MoreRuns, Service, connect, replied
from looking import Looking, documented, look
from programs import HOME, IS_LONG, SETTLE, need, settle
from test_both_stores import DATES, after, told
from test_desk import OPERATOR, text_of
from test_serving import request

from look import check, clock, office, preview

DAY, KEY = "2024-07-01", "op-market001"
MARKET = HOME / "examples" / "market"
EARLY = 1_719_568_800  # 2024-06-28 10:00 UTC, when the market's contracts come
REQUESTS = 1_200 if IS_LONG else 200
SNAPSHOTS = 1_000 if IS_LONG else 15
MEANWHILE = 0.003  # seconds between two requests
NOTHING = "Nothing was changed."
# What R1 of the example market answers, as the guide has it.
ANSWER = "run 2024-07-01 R1 periods 48 accounts 8 residual -491572 postings 3"


class Records(unittest.TestCase):
    """How a file is cut into rows."""

    needs_programs = False

    def test_beside_the_reader_of_python(self):
        """Each row by itself is the record that Python reads, and nothing else is left out than empty lines. A row's line is that
        in which it begins."""
        draw = random.Random(4)
        for _ in range(3_000):
            data = "".join(draw.choices(('"', ",", "\r", "\n", "\r\n", "a", " ", '""'), k=draw.randrange(12))).encode()
            header, rows = check.rows_of(data)
            records = [record for record in csv.reader(io.StringIO(data.decode(), newline="")) if record]
            parts = [header.lstrip(b"\r\n")] * bool(header) + [row.data for row in rows]
            cut = [next(csv.reader(io.StringIO(part.decode(), newline=""))) for part in parts]
            self.assertEqual(cut, records, data)
            self.assertEqual([row.number for row in rows], list(range(1, len(records))))
            for row in rows:
                before = data[: place_of(data, header, rows, row)]
                self.assertEqual(row.line, 1 + len(re.findall(rb"\r\n|\r|\n", before)), data)

    def test_a_mark_at_the_start(self):
        header, rows = check.rows_of(b"\xef\xbb\xbfdate,period,price\r\n\r\nx,y,z\r\n")
        self.assertEqual((header, rows), (b"\xef\xbb\xbfdate,period,price\r\n", [check.Row(1, 3, b"x,y,z\r\n")]))


def place_of(data, header, rows, wanted):
    """Where a row begins. Between the rows are empty lines alone."""
    at = len(header)
    for row in rows:
        while data[at : at + 1] in (b"\r", b"\n") and not data.startswith(row.data, at):
            at += 1
        if row is wanted:
            return at
        at += len(row.data)
    raise AssertionError(data)


class Asking(Looking):
    """A test with the example market, settled by SF, and with its corrected readings. No copy of a whole office is asked unless that
    is asked for."""

    needs_programs = True

    @classmethod
    def setUpClass(cls):
        need(SETTLE)

    def setUp(self):
        super().setUp()
        self.begin(unittest.mock.patch.dict(os.environ, SETTLE_PROGRAM=SETTLE))
        self.begin(unittest.mock.patch.object(check, "found_by", self.found_by(check.found_by)))
        self.begin(unittest.mock.patch.object(preview, "over_the_copy", self.over_the_copy(preview.over_the_copy)))
        self.begin(unittest.mock.patch.object(check, "enough_for", self.enough_for(check.enough_for)))

    def kept(self, name):
        """The file of a kept office that `settle migrate` has taken to the present version."""
        path = self.room / name / "office.db"
        if not path.exists():
            made = settle("migrate", "--db", str(super().kept(name)))
            self.assertEqual((made[0], made[2]), (0, b""))
        return path

    def begin(self, patch):
        patch.start()
        self.addCleanup(patch.stop)

    # What replaces the calls by which a copy of the whole office is asked.

    def found_by(self, real):
        return lambda ways, *words: real(ways[:1] if ways[0] is not None else ways, *words)

    def enough_for(self, real):
        def small(*words):
            made = real(*words)
            self.assertIsNotNone(made, words)
            return made

        return small

    def over_the_copy(self, real):
        def whole_copy(copy, key, moment, asked, was_made):
            self.assertTrue(asked.whole or was_made, asked)
            return real(copy, key, moment, asked, was_made)

        return whole_copy

    def market(self):
        """The office of the README after SF, with the readings that were corrected."""
        database = self.room / "market.db"
        lines = [line.replace("examples/market", str(MARKET)) for line in (MARKET / "plain.script").read_text().splitlines()]
        lines += [f"run 1720170000 {KEY} {DAY} SF", f"load 1721376000 {KEY} meters {MARKET}/meters-2.csv"]
        script = self.room / "market.script"
        script.write_text("".join(f"{line}\n" for line in lines))
        self.assertEqual(settle("init", "--db", str(database), "--operator-key", KEY)[0], 0)
        self.assertEqual(settle("script", "--db", str(database), "--strict", str(script))[0], 0)
        return database

    def copy_of(self, database):
        """Another office with the same files, which may be changed."""
        folder = self.room / "copies"
        folder.mkdir(exist_ok=True)
        copy = folder / f"{len(list(folder.iterdir()))}.db"
        for end in ("", "-wal"):
            with contextlib.suppress(FileNotFoundError):
                shutil.copy(f"{database}{end}", f"{copy}{end}")
        return copy

    def stays(self, database, *words):
        """What `look` tells. The office's files stay as they are."""
        before = {path.name: (path.read_bytes(), path.stat().st_mtime_ns) for path in database.parent.glob(f"{database.name}*")}
        made = look(*words)
        after_it = {path.name: (path.read_bytes(), path.stat().st_mtime_ns) for path in database.parent.glob(f"{database.name}*")}
        self.assertEqual(after_it, before)
        return made


class Check(Asking):
    """All rows that would be refused."""

    def file(self, name, text):
        path = self.room / "rows" / name
        path.parent.mkdir(exist_ok=True)
        path.write_bytes(text if isinstance(text, bytes) else text.encode())
        return path

    def faults(self, database, kind, path, *words, at=EARLY):
        """The rows with the numbers of their refusals, and the lines."""
        status, out, err = self.stays(database, "check", "--db", database, "--at", at, *words, kind, path)
        self.assertEqual(err, "")
        lines = out.splitlines()
        found = [(int(row), int(number)) for row, number in re.findall(r"(?m)^  row (\d+), line \d+ +(\d+) ", out)]
        found += [("file", int(number)) for number in re.findall(r"(?m)^  the file +(\d+) ", out)]
        self.assertEqual(status, 1 if found else 0, out)
        self.assertEqual(lines[-1], NOTHING)
        return found, lines

    def load(self, database, kind, path, at=EARLY):
        """What `load` answers over a copy of the office."""
        status, out, err = settle("load", "--db", str(self.copy_of(database)), "--key", KEY, f"--at={at}", kind, str(path))
        return (out or err).decode().splitlines()[0]

    def test_planted_faults(self):
        """Four faults among prices: all are found, in their rows and lines, with the words of the program. Without these rows the
        file is accepted."""
        rows = (MARKET / "prices.csv").read_text().splitlines()
        rows[3] = rows[3].replace(",", ",,", 1)
        rows[10] = rows[10].rsplit(",", 1)[0] + ",96.1234567"
        rows[20] = rows[20].replace(DAY, "2024-02-30")
        rows[47] = rows[47].replace(f"{DAY},47,", f"{DAY},49,")
        database, path = self.market(), self.file("faulty.csv", "\n".join(rows))
        found, lines = self.faults(database, "prices", path)
        self.assertEqual(found, [(3, 13), (10, 14), (20, 14), (47, 34)])
        self.assertEqual(self.load(database, "prices", path), "refused 13 BadRecord row 3")
        self.assertEqual(lines[0], f"{path}, prices that come at 2024-06-28T10:00:00Z ({EARLY}):")
        self.assertEqual(lines[1], "  row 3, line 4    13 BadRecord: it has 4 fields, expected 3")
        wanted = '  row 10, line 11  14 BadField: column 3, price, is "96.1234567"; expected a decimal number with at most 5 digits'
        self.assertTrue(lines[2].startswith(wanted), lines[2])
        self.assertTrue(lines[3].startswith('  row 20, line 21  14 BadField: column 1, date, is "2024-02-30"; expected a date'), lines[3])
        self.assertRegex(lines[4], r"^  row 47, line 48  34 NoSuchPeriod: \".*\"; .*")
        self.assertEqual(lines[5:7], ["4 of 48 rows would be refused.", "Without them the file would be answered applied=44 late=0"])
        left = self.file("left.csv", "\n".join(row for at, row in enumerate(rows) if at not in (3, 10, 20, 47)))
        self.assertEqual(self.faults(database, "prices", left)[0], [])
        self.assertEqual(self.load(database, "prices", left), "applied=44 late=0")

    def test_the_files_of_the_common_day(self):
        """Each as the office would answer it. What is late now was in time then."""
        database = self.market()
        for kind, name, at, wanted in (
            ("reallocations", "reallocations-2.csv", EARLY, 38),
            ("contracts", "contracts-4.csv", EARLY, 35),
            ("prices", "prices-2.csv", EARLY, 14),
            ("contracts", "contracts-2.csv", EARLY, None),
            ("reallocations", "reallocations-2.csv", 1_735_689_600, None),
        ):
            found, lines = self.faults(database, kind, MARKET / name, at=at)
            answer = self.load(database, kind, MARKET / name, at=at)
            if wanted is None:
                self.assertEqual((found, lines[1]), ([], f"would be accepted: {answer}"))
            else:
                self.assertEqual(found[0][1], wanted)
                self.assertTrue(answer.startswith(f"refused {wanted} "))
        self.assertRegex("\n".join(lines), r"\n  late: rows? 1")

    def test_files_that_are_refused_whole(self):
        database = self.market()
        large = self.file("large.csv", b"date,period,price\n" + b"\n" * 1_048_576)
        many = self.file("many.csv", "date,period,price\n" + f"{DAY},1,1\n" * 20_001)
        semicolons = self.file("semicolons.csv", "date;period;price\n")
        for path, wanted in (large, 10), (many, 11), (semicolons, 12), (self.file("none.csv", ""), 12):
            found, lines = self.faults(database, "prices", path)
            self.assertEqual(found, [("file", wanted)], lines)
            self.assertTrue(self.load(database, "prices", path).startswith(f"refused {wanted} "))

    def test_a_name_that_is_taken(self):
        """By other bytes. The rows are looked at all the same."""
        database, path = self.market(), self.file("prices.csv", f"date,period,price\n{DAY},49,1\n{DAY},1,1\n")
        found, lines = self.faults(database, "prices", path)
        self.assertEqual(found, [(1, 34), ("file", 20)])
        self.assertIn("a file of prices named prices.csv was accepted with other bytes", lines[1])
        self.assertEqual(self.load(database, "prices", path), "refused 20 FileChanged")
        found, lines = self.faults(database, "prices", MARKET / "prices.csv")
        self.assertEqual(found, [])
        self.assertEqual(lines[1:3], ["would be accepted: applied=48 late=0", "It was accepted before. Sent again, it changes nothing."])

    def test_other_forms_of_lines(self):
        """A mark of the order of bytes, other line ends, empty lines and quotes. Rows keep their numbers and lines."""
        text = f'\ufeffdate,period,price\r\n\r\n"{DAY}",1,1\r\n{DAY},50,1\r\n\r\n{DAY},"1\n",2\r\n{DAY},2,x'
        found, lines = self.faults(self.market(), "prices", self.file("forms.csv", text))
        self.assertEqual(found, [(2, 34), (3, 14), (4, 14)])
        self.assertEqual([re.search(r"line (\d+)", line)[1] for line in lines[1:4]], ["4", "6", "8"])
        self.assertEqual(lines[5], "Without them the file would be answered applied=1 late=0")

    def test_keys(self):
        """By default it is the operator's. A party's is refused, and none is shown."""
        database, path = self.market(), self.file("one.csv", f"date,period,price\n{DAY},1,1\n")
        for key, wanted in ((KEY, []), ("citysupkey1", [("file", 60)])):
            found, lines = self.faults(database, "prices", path, "--key-file", self.file("key", f"{key}\r\nmore\n"))
            self.assertEqual(found, wanted)
            self.assertNotIn(key, "\n".join(lines))
        for key in "short", "op-\u00e4\u00e4\u00e4\u00e4\u00e4\u00e4\u00e4\u00e4", "with a blank":
            told = self.refuses("check", "--db", database, "--key-file", self.file("key", key), "prices", path)
            self.assertRegex(told, r"its first line, of \d+ bytes, is no key")
            self.assertNotIn(key, told)
        self.assertIn("No such file", self.refuses("check", "--db", database, "--key-file", self.room / "no", "prices", path))

    def test_what_cannot_be_asked(self):
        database, path = self.market(), self.file("one.csv", f"date,period,price\n{DAY},1,1\n")
        self.assertIn("No such file", self.refuses("check", "--db", database, "prices", self.room / "no.csv"))
        self.assertIn("a file's name has 1 to 64", self.refuses("check", "--db", database, "prices", self.file("a b.csv", "x")))
        with unittest.mock.patch.dict(os.environ, SETTLE_PROGRAM=str(self.room / "none")):
            self.assertIn("there is no program to ask", self.refuses("check", "--db", database, "prices", path))
        with unittest.mock.patch.dict(os.environ, SETTLE_PROGRAM=shutil.which("false")):
            self.assertIn("it doesn't answer over a copy: it said nothing", self.refuses("check", "--whole", "--db", database, "prices", path))

    def test_many_faults(self):
        """The first hundred are shown."""
        rows = "".join(f"{DAY},{period},x\n" for period in range(1, 49)) * 3
        found, lines = self.faults(self.market(), "prices", self.file("many.csv", f"date,period,price\n{rows}"))
        self.assertEqual(found, [(row, 14) for row in range(1, 101)])
        self.assertIn("These are the first 100; there may be more.", lines)

    def test_files_drawn_at_random(self):
        """Nothing is found exactly if a load over another copy is accepted, and otherwise the first that is found is what `load`
        answers. With all that is found taken out the rest is accepted."""
        draw = random.Random(6)
        database, units = self.market(), ["2__SHOPS", "E_MOOR-1", "NONE-1"]
        accounts = ["CITYSUP-P", "CITYSUP-C", "NORTHGEN-P", "NOBODY-P", "SEALINK-P"]
        outcomes = set()
        for number in range(60 if IS_LONG else 5):
            kind = ("prices", "contracts", "meters", "reallocations")[number % 4]
            rows = [self.row(draw, kind, accounts, units, number % 3 < 2) for _ in range(draw.randint(1, 8))]
            path = self.file(f"{number}.csv", text_of(kind, rows))
            found, _ = self.faults(database, kind, path)
            answer = self.load(database, kind, path)
            outcomes.add(bool(found))
            self.assertEqual(answer.startswith("refused "), bool(found), (rows, answer))
            if found:
                first = re.match(r"refused (\d+) \w+ row (\d+)", answer)
                self.assertIn((int(first[2]), int(first[1])), found)
                places = {row for row, _ in found}
                left = self.file(f"{number}-left.csv", text_of(kind, [row for at, row in enumerate(rows, 1) if at not in places]))
                self.assertTrue(self.load(database, kind, left).startswith("applied="), (rows, found))
        self.assertEqual(outcomes, {True, False})

    def row(self, draw, kind, accounts, units, may_be_wrong):
        """A row, whose period and number may be wrong. Its accounts and its unit may be so in any case."""
        period = draw.choice((1, 48, 49, 51)) if may_be_wrong and draw.random() < 0.3 else draw.randint(1, 48)
        number = draw.choice(("1", "2.5", "-3", "1,5")) if may_be_wrong and draw.random() < 0.3 else "4"
        if kind == "meters":
            return f"{draw.choice(units)},{DAY},{period},{number},1,0"
        if kind == "prices":
            return f"{DAY},{period},{number}"
        if kind == "contracts":
            return f"R{draw.randint(1, 3)},{draw.choice(accounts)},{draw.choice(accounts)},{DAY},{period},{number}"
        return f"{draw.choice(units)},{draw.choice(accounts)},{DAY},{period},{draw.choice((10, 45, 70))},{number}"


class TenMistakes(Asking):
    """The ten usual mistakes of `test_mistakes.py`: what `look` says of each is enough to mend it."""

    def told(self, status, *words):
        """What is told in one text."""
        found, out, err = look(words[0], "--db", self.database, *words[1:])
        self.assertEqual(found, status, out + err)
        return out + err

    def check(self, kind, text, name="new.csv", at=EARLY, status=1):
        path = self.room / name
        path.write_text(text)
        return self.told(status, "check", "--at", at, kind, path)

    def test_each(self):
        self.database = self.market()
        meters, prices, contracts = ((MARKET / f"{kind}.csv").read_text() for kind in ("meters", "prices", "contracts"))
        lines = meters.splitlines()
        with self.subTest("a wrong header"):
            self.assertIn("expected unit,date,period,metered_mwh,tlm,balancing_mwh", self.check("meters", meters.replace("metered_mwh", "MWh")))
        with self.subTest("decimal commas, all of them at once"):
            rows = [",".join(f'"{field.replace(".", ",")}"' if "." in field else field for field in line.split(",")) for line in lines[1:6]]
            told = self.check("meters", "\n".join([lines[0], *rows]))
            self.assertEqual(re.findall(r"(?m)^  row (\d+), line \d+ +14 .*expected a decimal number", told), ["1", "2", "3", "4", "5"])
        with self.subTest("dates of another order"):
            told = self.check("prices", prices.replace(DAY, "01/07/2024", 6))
            self.assertEqual(len(re.findall(r'"01/07/2024"; expected a date YYYY-MM-DD', told)), 6)
        with self.subTest("a wrong key"):
            (self.room / "key").write_text("citysupkey1\n")
            told = self.told(1, "check", "--key-file", self.room / "key", "prices", MARKET / "prices-3.csv")
            self.assertIn("60 Forbidden: the key that is shown isn't the operator's", told)
        with self.subTest("a changed file"):
            told = self.check("contracts", contracts.replace(",33,100.000", ",33,110.000"), "contracts.csv")
            self.assertIn("was accepted with other bytes; give this one another name", told)
        with self.subTest("a late contract"):
            told = self.told(0, "check", "--at", 1_719_824_400, "contracts", MARKET / "contracts-3.csv")
            self.assertIn("would be accepted: applied=3 late=3\n  late: rows 1 to 3\n", told)
        with self.subTest("an empty row at the end"):
            self.assertRegex(self.check("prices", f"{prices.splitlines()[0]}\n{DAY},1,5\n,,\n"), r'row 2, line 3 +14 .*date, is ""')
        with self.subTest("seller and buyer exchanged"):
            reference, seller, buyer, *rest = contracts.splitlines()[3].split(",")
            told = self.check("contracts", f"{contracts.splitlines()[0]}\n{','.join([reference, buyer, seller, *rest])}\n")
            self.assertIn(f"the first row of reference {reference} has another seller or buyer", told)
        with self.subTest("a path off by a folder"):
            self.assertIn("no.csv: No such file or directory", self.told(1, "check", "prices", self.room / "no.csv"))
        with self.subTest("missing readings"):
            with contextlib.closing(sqlite3.connect(self.database)) as made, made:
                made.execute("DELETE FROM meters WHERE unit = '2__SHOPS' AND period = 7 OR unit = 'I_SEALINK' AND period BETWEEN 8 AND 10")
            told = self.told(0, "missing", DAY)
            self.assertIn("2__SHOPS (CITYSUP-C): period 7\nI_SEALINK (SEALINK-P): periods 8 to 10\n4 readings are missing\n", told)


class Preview(Asking):
    """What a run would answer and post."""

    def test_it_is_the_run_that_follows(self):
        """R1 of the market. The answer, and what is posted to whom, are those that the run then has."""
        database = self.market()
        status, out, err = self.stays(database, "preview", "--db", database, "--at", 1_721_379_600, DAY, "R1")
        self.assertEqual((status, err), (0, ""))
        lines = out.splitlines()
        self.assertEqual(lines[:2], ["R1 of 2024-07-01, ordered at 2024-07-19T09:00:00Z (1721379600), would answer:", ANSWER])
        made = settle("run", "--db", str(database), "--key", KEY, "--at=1721379600", DAY, "R1")
        self.assertEqual(made, (0, f"{lines[1]}\n".encode(), b""))
        compared = self.shows("compare", "--db", database, DAY, "SF", "R1")
        self.assertEqual(lines[3 : 3 + len(compared)], compared)
        self.assertEqual(lines[-1], NOTHING)
        lines = self.shows("preview", "--db", database, DAY, "R1")
        self.assertEqual(lines[1:], [ANSWER, "", "It was made before. Asked again, it posts nothing.", NOTHING])

    def test_the_first_run(self):
        """Each posting of SF, as the README's balances have them."""
        database = self.market()
        with contextlib.closing(sqlite3.connect(database)) as made, made:
            for table in "runs", "results", "credits", "postings":
                made.execute(f"DELETE FROM {table}")
        status, out, err = self.stays(database, "preview", "--db", database, DAY, "SF")
        self.assertEqual((status, err), (0, ""), out)
        self.assertIn("Postings of SF of 2024-07-01, the first run of the date", out)
        self.assertRegex(out, r"\nSEALINK-P +£0\.00 +£5,977\.94 +£5,977\.94\n")

    def test_runs_that_are_refused(self):
        """For the reason for which the run itself is."""
        database = self.market()
        for date, kind, at, told in (
            (DAY, "SF", EARLY, None),
            ("2024-07-02", "R1", 1_735_689_600, "refused 51 NoInitialRun"),
            ("2024-07-02", "SF", EARLY, "refused 52 DayNotOver"),
            ("2024-07-02", "SF", 1_735_689_600, "refused 53 MissingPrice period 1"),
        ):
            status, out, err = self.stays(database, "preview", "--db", database, "--at", at, date, kind)
            made = settle("run", "--db", str(self.copy_of(database)), "--key", KEY, f"--at={at}", date, kind)
            answer = (made[1] or made[2]).decode().splitlines()[0]
            self.assertEqual((status, err, out.splitlines()[1]), (1 if told else 0, "", answer))
            self.assertEqual(out.splitlines()[-1], NOTHING)
            self.assertEqual("`look missing` names all" in out, told == "refused 53 MissingPrice period 1")
            if told:
                self.assertEqual(answer, told)

    def test_keys(self):
        database = self.market()
        key_file = self.room / "key"
        key_file.write_text("citysupkey1\n")
        status, out, _ = self.stays(database, "preview", "--db", database, "--key-file", key_file, DAY, "R1")
        self.assertEqual((status, out.splitlines()[1]), (1, "refused 60 Forbidden"))
        self.assertNotIn("citysupkey1", out)
        self.assertNotIn(KEY, self.stays(database, "preview", "--db", database, DAY, "R1")[1])

    def test_what_the_page_shows(self):
        """The commands of docs/look.md that ask the program, over the office before R1."""
        shown = set()
        database = self.market()
        shutil.copy(database, self.room / "before.db")
        (self.room / "examples").symlink_to(HOME / "examples")
        here = os.getcwd()
        self.addCleanup(os.chdir, here)
        os.chdir(self.room)
        for words, printed in documented():
            if words[0] in ("check", "preview"):
                _, out, err = look(*words)
                self.assertEqual(out + err, printed)
                shown.add(words[0])
        self.assertEqual(shown, {"check", "preview"})


class AtRandom(Asking):
    """An office that was asked a list of requests drawn at random: parties and units that join, late rows, corrections and runs."""

    def test_what_is_shown(self):
        """After each part of the list: a date is called ready exactly if the program over a copy doesn't answer 53 or 54, and what is
        missing first is what it names. What a preview shows is what the run then answers and posts. All figures of all runs follow."""
        requests = MoreRuns(self.room / "files", 21).draw_all(REQUESTS)
        database = self.room / "office.db"
        self.assertEqual(settle("init", "--db", str(database), "--operator-key", OPERATOR)[0], 0)
        seen = set()
        for begin in range(0, REQUESTS, 100):
            told(self.room / "script", requests[begin : begin + 100], "--db", database)
            for date in DATES if IS_LONG else DATES[begin // 100 % 2 :: 2]:
                seen.add(self.compare(database, date))
        self.assertGreaterEqual(seen, {"53", "54", "run"})
        self.follows(database)

    def compare(self, database, date):
        """What is told of a date, and what a run of it is answered."""
        rows = [re.split(r"  +", line) for line in self.shows("status", "--db", database, date)[3:]]
        lines = self.shows("missing", "--db", database, date)
        runs = rows[0][5].replace("-", "").split() if rows else []
        kinds = office.KINDS[office.KINDS.index(runs[-1]) + 1 :] if runs else office.KINDS
        if not kinds:
            return "no kind"
        copy, at = self.copy_of(database), after(DATES.index(date))
        previewed = look("preview", "--db", database, "--at", at, date, kinds[0])[1].splitlines()
        made = settle("run", "--db", str(copy), "--key", OPERATOR, f"--at={at}", date, kinds[0])
        answer = (made[1] or made[2]).decode().strip()
        number = re.match(r"refused (\d+)", answer)
        self.assertEqual(previewed[1], answer)
        if not number:
            shown = ("compare", date, runs[-1], kinds[0]) if runs else ("postings", date, kinds[0])
            self.assertEqual(previewed[3:-1], self.shows(shown[0], "--db", copy, *shown[1:]))
        is_ready = lines[-1] == "nothing is missing"
        self.assertEqual(is_ready, not (number and number[1] in ("53", "54")), (lines, answer))
        if rows:
            self.assertEqual("missing" in rows[0][7], not is_ready)
        if not is_ready:
            self.assertEqual(f"refused {lines[-1].partition(': ')[2]}", answer)
        return number[1] if number else "run"

    def follows(self, database):
        """The postings of all runs, and some statements."""
        with contextlib.closing(sqlite3.connect(self.copy_of(database))) as made:
            runs = made.execute("SELECT day, kind FROM runs").fetchall()
        self.assertGreater(len(runs), 5)
        for day, kind in runs:
            date, name = clock.date_of(day), office.KINDS[kind]
            lines = self.shows("postings", "--db", database, date, name)
            self.assertTrue(lines[-1].startswith("All figures follow from "), lines[-3:])
            self.assertTrue(self.shows("why", "--db", database, "ALFA-P", date, name, "1")[-1].startswith("All figures follow from "))


class WhileItServes(Asking):
    """Copies of an office that a service has open, while a client sends files."""

    def test_each_copy_is_an_office_between_two_requests(self):
        """Each file that a copy has is there with all its rows, and with no rows of others. What was answered before the copy was
        begun is there."""
        database, sent, replies = self.market(), self.files(min(40 * SNAPSHOTS, 36_000)), []
        ended = threading.Event()

        def ask(port):
            for name, rows in sent.items():
                if ended.wait(MEANWHILE):
                    return
                replies.append(replied(connect(port), request("POST", f"/files/prices/{name}", KEY, text_of("prices", rows))))

        with Service(database, 1_735_689_600) as service:
            client = threading.Thread(target=ask, args=(service.port(),))
            client.start()
            try:
                for number in range(SNAPSHOTS):
                    self.judge(database, sent, len(replies))
            finally:
                ended.set()
                client.join()
            self.assertEqual(settle("report", "--db", str(database), "--key", KEY, "balances"), (1, b"", b"refused 91 Store\n"))
            self.assertIn("240/240", self.shows("status", "--db", database, DAY)[-1])
        self.assertGreater(len(replies), 5)
        for reply, rows in zip(replies, sent.values()):
            self.assertIn(b'{"applied":%d,"late":0}' % len(rows), reply)

    def files(self, count):
        """Rows of files of prices by the files' names. Each has a date of its own."""
        draw = random.Random(8)
        days = [day for day in range(clock.FIRST, clock.FIRST + count) if day != clock.day_of(DAY)]
        most = {day: draw.randint(2, 40) for day in days}
        return {f"p{day}.csv": [f"{clock.date_of(day)},{period},{day % 97}" for period in range(1, most[day])] for day in days}

    def judge(self, database, sent, answered):
        """Makes a copy, and looks which of the files that are sent it has. So many were answered before."""
        out = self.room / "snapshot.db"
        lines = self.shows("snapshot", "--db", database, out)
        with contextlib.closing(sqlite3.connect(out)) as copy:
            names = [name for (name,) in copy.execute("SELECT name FROM files WHERE kind = 'prices' ORDER BY rowid") if name in sent]
            counts = dict(copy.execute("SELECT day, count(*) FROM prices WHERE day <> ? GROUP BY day", (clock.day_of(DAY),)))
        for end in "", "-wal", "-shm":
            out.with_name(out.name + end).unlink(missing_ok=True)
        self.assertEqual(names, list(sent)[: len(names)])
        self.assertGreaterEqual(len(names), answered)
        self.assertEqual(counts, {clock.day_of(sent[name][0][:10]): len(sent[name]) for name in names})
        self.assertIn("it is whole", lines[1])


if __name__ == "__main__":
    unittest.main()
