"""How tests call `look`, and offices whose files are made without the program: their tables are those that the program makes, and
their rows those that `bench/peer_office.py` computes from the files that it is given."""
import contextlib
import datetime
import io
import pathlib
import random
import re
import sqlite3
import tempfile
import unittest

from kept_offices import unpack
from office_tables import creations
from programs import HOME
from test_database import VERSION
from test_desk import EARLY, OPERATOR, text_of
from test_documents import BLOCK
from test_week import Peer, is_late, midnight, periods

from look import commands

MADE = creations()


def look(*words):
    """The status of `look`, and what it wrote on standard output and error, in this process."""
    out, err = io.StringIO(), io.StringIO()
    with contextlib.redirect_stdout(out), contextlib.redirect_stderr(err):
        try:
            status = commands.main([str(word) for word in words])
        except SystemExit as end:
            status = end.code
    return status, out.getvalue(), err.getvalue()


def documented():
    """The words of each command in docs/look.md, and what the next block says that it prints."""
    blocks = BLOCK.findall((HOME / "docs/look.md").read_text(encoding="utf-8"))
    for block, printed in zip(blocks, blocks[1:]):
        if words := re.fullmatch(r"\./look (.*)\n", block):
            yield words[1].split(), printed


class Looking(unittest.TestCase):
    """A test with a folder, in which there may be offices."""

    needs_programs = False

    def setUp(self):
        room = tempfile.TemporaryDirectory()
        self.addCleanup(room.cleanup)
        self.room = pathlib.Path(room.name)

    def kept(self, name):
        """The file of a kept office."""
        path = self.room / name / "office.db"
        return path if path.exists() else unpack(name, path.parent)

    def present(self, name):
        """The file of a kept office in a folder of its own, with the tables of the present version, as `settle migrate` fills them."""
        path = self.room / f"{name}-present" / "office.db"
        if not path.exists():
            unpack(name, path.parent)
            with changing(path) as made:
                made.execute(MADE[-1])
                self.assertIn("TABLE leads", MADE[-1])
                made.execute("INSERT INTO leads SELECT unit, day_from, party, side, day_to FROM units")
                made.execute("UPDATE settings SET version = ?", (VERSION,))
        return path

    def shows(self, *words, status=0):
        """The lines of standard output. Standard error has nothing."""
        found, out, err = look(*words)
        self.assertEqual((found, err), (status, ""), (words, out))
        return out.splitlines()

    def refuses(self, *words, status=1):
        """The only line of standard error, where nothing is shown."""
        found, out, err = look(*words)
        self.assertEqual((found, out), (status, ""), (words, err))
        (line,) = err.splitlines()
        return line


@contextlib.contextmanager
def changing(path):
    """A connection to an office's file, whose changes stay."""
    with contextlib.closing(sqlite3.connect(path)) as connection, connection:
        yield connection


class MadeOffice:
    """An office's file that the peer fills."""

    def __init__(self, path, lead_minutes=60):
        self.path, self.peer, self.files = path, Peer(), 0
        with changing(path) as made:
            for statement in MADE:
                made.execute(statement)
            made.execute("INSERT INTO settings VALUES (1, ?, ?, ?)", (VERSION, lead_minutes, OPERATOR))
            made.execute("INSERT INTO marks VALUES (1, 1)")

    def load(self, kind, rows, moment=EARLY):
        """Loads rows as a file of a new name, which is returned. The peer gets those that come in time."""
        self.files += 1
        name = f"f{self.files}.csv"
        timely = [row for row in rows if not is_late(kind, row.split(","), moment)]
        with tempfile.TemporaryDirectory() as folder, changing(self.path) as made:
            path = pathlib.Path(folder) / name
            path.write_bytes(text_of(kind, timely))
            self.tell("load", made, kind, str(path))
            counts = text_of(kind, rows), len(timely), len(rows) - len(timely)
            made.execute("UPDATE files SET body = ?, applied = ?, late = ? WHERE kind = ? AND name = ?", (*counts, kind, name))
        return name

    def run(self, date, kind):
        """Makes a run, and returns what the peer tells about it."""
        with changing(self.path) as made:
            return self.tell("run", made, date, kind)

    def results(self, date, kind):
        """The results export that the peer writes."""
        with changing(self.path) as made:
            return self.tell("report", made, date, kind)

    def tell(self, name, made, *words):
        told = io.StringIO()
        with contextlib.redirect_stdout(told):
            self.peer.calls[name](made, *words)
        return told.getvalue()


class RandomOffice(MadeOffice):
    """An office with a market and days that are drawn from a seed. Readings, prices, contracts and reallocations are corrected between
    the runs of each day, and some units get another lead account."""

    DATES = "2024-03-31", "2024-07-01", "2024-10-27"

    def __init__(self, path, seed):
        super().__init__(path)
        self.draw = random.Random(seed)
        self.parties = [f"P{number}" for number in range(self.draw.randint(2, 4))]
        self.accounts = [f"{party}-{side}" for party in self.parties for side in "PC"]
        self.units = {f"U_{number}": self.draw.choice(self.accounts) for number in range(self.draw.randint(1, 4))}
        self.date = self.draw.choice(self.DATES)
        self.numbers = range(1, periods(self.date) + 1)
        self.runs = []
        self.load("parties", [f"{party},2024-01-01,,party000{party}" for party in self.parties])
        self.marks = {unit: self.draw.choice(("no", "no", "yes")) for unit in self.units}
        self.leads = {unit: [(lead, "2024-01-01")] for unit, lead in self.units.items()}
        self.load("units", [self.led(unit, lead, "2024-01-01") for unit, lead in self.units.items()])
        self.fill()
        self.settle("SF", "R1", self.draw.choice(("R2", "DF")))

    def fill(self):
        """All that a run needs, and more."""
        pairs = [(f"C{number}", *self.draw.sample(self.accounts, 2)) for number in range(3)]
        self.pairs = {reference: (seller, buyer) for reference, seller, buyer in pairs}
        self.load("contracts", [self.contract(reference, number) for reference in self.pairs for number in self.numbers])
        others = [(unit, self.draw.choice([one for one in self.accounts if one != lead])) for unit, lead in self.units.items()]
        self.given = others[: len(others) // 2 + 1]
        self.load("reallocations", [self.reallocation(*given, number) for given in self.given for number in self.numbers])
        self.load("prices", [self.price(number) for number in self.numbers])
        self.load("meters", [self.meter(unit, number) for number in self.numbers for unit in self.units])

    def settle(self, *kinds):
        """Makes these runs, with corrections between them. Some notifications come late."""
        for kind in kinds:
            self.run(self.date, kind)
            self.runs.append(kind)
            some = sorted(self.draw.sample(self.numbers, 4))
            self.load("meters", [self.meter(self.draw.choice(list(self.units)), number) for number in some])
            self.load("prices", [self.price(some[0])])
            noon = EARLY if self.draw.random() < 0.5 else midnight(datetime.date.fromisoformat(self.date)) + 12 * 3600
            self.load("contracts", [self.contract(self.draw.choice(list(self.pairs)), number) for number in some], noon)
            self.load("reallocations", [self.reallocation(*self.draw.choice(self.given), number) for number in some], noon)
            self.succeed()

    def succeed(self):
        """Some units get another lead account, from the day of the runs on, or from the day before or after it. It is none to which a part
        of the unit is given."""
        date = datetime.date.fromisoformat(self.date) + datetime.timedelta(self.draw.choice((-1, 0, 0, 1)))
        rows = []
        for unit, leads in self.leads.items():
            lead, first = leads[-1]
            others = [account for account in self.accounts if account != lead and (unit, account) not in self.given]
            if self.draw.random() < 0.4 and str(date) > first:
                leads.append((self.draw.choice(others), str(date)))
                rows.append(self.led(unit, *leads[-1]))
        if rows:
            self.load("units", rows)

    def led(self, unit, lead, first):
        """The row by which an account leads a unit from a date on."""
        return f"{unit},{lead[:-2]},{lead[-1]},{self.marks[unit]},{first},"

    def energy(self, most):
        kwh = self.draw.randint(-most, most)
        return f"{'-' if kwh < 0 else ''}{abs(kwh) // 1000}.{abs(kwh) % 1000:03}"

    def meter(self, unit, number):
        tlm, balancing = self.draw.choice(("1", "0.9950000", "1.0123457")), self.draw.choice((0, "1.250", "-0.5"))
        return f"{unit},{self.date},{number},{self.energy(90_000)},{tlm},{balancing}"

    def price(self, number):
        return f"{self.date},{number},{self.draw.randint(-20, 200)}.{self.draw.randrange(10**5):05}"

    def contract(self, reference, number):
        return f"{reference},{','.join(self.pairs[reference])},{self.date},{number},{self.energy(50_000)}"

    def reallocation(self, unit, account, number):
        percent = self.draw.choice(("0", "2.50000", "12.5", "33.33333"))
        return f"{unit},{account},{self.date},{number},{percent},{self.draw.choice((0, self.energy(2000)))}"
