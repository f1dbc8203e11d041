"""The second implementation of registrations, `registering.py`, beside docs/market.md, by rows whose answers are worked out by hand and
by rows drawn at random; and `bench/peer_office.py` beside it. No built program is needed."""
import csv
import io
import pathlib
import random
import subprocess
import sys
import tempfile
import unittest

from programs import HOME
from registering import Register, date_of, day_of, looking_back, unit_row
from test_desk import DAY, DEADLINE, EARLY, MARKET, text_of
from test_week import Peer

NEWCO = "NEWCO,2024-01-01,,newco0001"
TAKES_OVER = f"S1,NEWCO,C,no,{DAY},"


class Worked(unittest.TestCase):
    """S1 is led by SUPCO-C, and NEWCO takes it over."""

    needs_programs = False

    def setUp(self):
        self.register = Register()
        for kind, rows in (*MARKET[:2], ("parties", [NEWCO])):
            self.assertEqual(self.register.load(kind, rows, EARLY), (None, []))

    def refused(self, row, kind="units", moment=EARLY):
        refusal, _ = self.register.load(kind, [row], moment)
        return refusal and refusal[0]

    def test_refusals(self):
        for row, refusal in (
            (f"S1,NEWCO,C,no,{DAY},2024-12-31", 39),
            ("S1,NEWCO,C,no,2024-01-01,", 40),
            (f"S1,NEWCO,C,yes,{DAY},", 40),
            (TAKES_OVER, None),
            ("S1,SUPCO,C,no,2024-01-01,", 40),
            ("S1,NEWCO,C,no,2024-07-02,", 39),
        ):
            self.assertEqual(self.refused(row), refusal, row)

    def test_a_lead_account_that_has_a_part(self):
        for row, moment, refusal in (
            (f"S1,NEWCO-C,{DAY},1,10,0", DEADLINE, None),
            ("S1,NEWCO-C,2024-06-30,48,10,0", EARLY, None),
            ("S1,NEWCO-C,2025-03-30,46,0,0", EARLY, 41),
        ):
            self.assertIsNone(self.refused(row, "reallocations", moment))
            register = Register()
            register.__dict__.update(self.register.__dict__)
            self.assertEqual((register.load("units", [TAKES_OVER], EARLY)[0] or (None,))[0], refusal, row)

    def test_the_lead_account_of_each_date(self):
        self.assertEqual(self.register.load("units", [TAKES_OVER], EARLY), (None, [(day_of(DAY), day_of(""))]))
        unit = self.register.units["S1"]
        self.assertEqual([unit.lead_on(day_of(date)) for date in ("2023-12-31", "2024-06-30", DAY)], [None, "SUPCO-C", "NEWCO-C"])
        own = (("SUPCO-C", "2024-06-30", 37), ("NEWCO-C", DAY, 37), ("NEWCO-C", "2024-06-30", None), ("SUPCO-C", DAY, None))
        for account, date, refusal in own:
            self.assertEqual(self.refused(f"S1,{account},{date},48,10,0", "reallocations"), refusal)

    def test_the_rows_of_tables(self):
        self.register.load("units", [TAKES_OVER], EARLY)
        first, change, last = map(day_of, ("2024-01-01", DAY, ""))
        leads = [("G1", first, "GENCO", 0, last), ("S1", first, "SUPCO", 1, change - 1), ("S1", change, "NEWCO", 1, last)]
        self.assertEqual(self.register.lead_rows(), leads)
        self.assertEqual(self.register.unit_rows(), [("G1", "GENCO", 0, 0, first, last), ("S1", "NEWCO", 1, 0, first, last)])

    def test_the_next_run_of_the_peer(self):
        """98.49 MWh of demand for which NEWCO-C has bought nothing, and 99 MWh that SUPCO-C has bought and doesn't use, at 50 pounds."""
        peer = Peer()
        with tempfile.TemporaryDirectory() as folder:

            def load(kind, rows, name):
                path = pathlib.Path(folder) / name
                path.write_bytes(text_of(kind, rows))
                return peer.tells("load", kind, str(path))

            for number, (kind, rows) in enumerate((*MARKET, ("parties", [NEWCO]))):
                load(kind, rows, f"f{number}.csv")
            peer.tells("run", DAY, "SF")
            self.assertEqual(load("units", [TAKES_OVER], "s.csv"), "applied=1 late=0\n")
        self.assertEqual(peer.tells("run", DAY, "R1"), f"run {DAY} R1 periods 48 accounts 6 residual 5050 postings 2\n")
        rows = [row for row in csv.DictReader(io.StringIO(peer.tells("report", DAY, "R1"))) if row["period"] == "1"]
        cash = {row["account"]: (int(row["charge"]), int(row["share"])) for row in rows}
        nothing = dict.fromkeys(("GENCO-C", "NEWCO-P", "SUPCO-P"), (0, 0))
        self.assertEqual(cash, nothing | {"GENCO-P": (-2500, 2538), "NEWCO-C": (492_450, 2512), "SUPCO-C": (-495_000, 0)})
        nets = [sum(cash[account]) for account in ("GENCO-P", "NEWCO-C", "SUPCO-C")]
        self.assertEqual(nets, [38, 494_962, -495_000])
        posted = peer.calls["connection"].execute("SELECT party, side, pence FROM postings WHERE kind = 1").fetchall()
        self.assertEqual(posted, [("NEWCO", 1, 494_962), ("SUPCO", 1, -494_962)])
        for table, wanted in (("leads", self.after().lead_rows()), ("units", self.after().unit_rows())):
            self.assertEqual(peer.calls["connection"].execute(f"SELECT * FROM {table}").fetchall(), wanted)

    def after(self):
        """The register after the change."""
        self.register.load("units", [TAKES_OVER], EARLY)
        return self.register


class AtRandom(unittest.TestCase):
    """Rows of few units, accounts and days, so that each refusal comes often."""

    needs_programs = False
    DAYS = range(day_of("2024-06-01"), day_of("2024-06-15"))

    def drawn(self, seed):
        """A register, and the rows that it accepted."""
        draw, register, accepted, refusals = random.Random(seed), Register(), [], []
        register.load("parties", [f"{party},2024-06-01,,party0001" for party in ("ALFA", "BETA", "GAMMA")], EARLY)
        for _ in range(120):
            kind = draw.choice(("units", "units", "reallocations"))
            first, last = sorted(draw.choices(self.DAYS, k=2))
            party, side = draw.choice(("ALFA", "BETA", "GAMMA")), draw.choice("PC")
            unit = draw.choice(("U1", "U2"))
            known = register.units.get(unit)
            if known and draw.random() < 0.7:
                first, last = draw.choice((known.latest.first, known.last + 1, first)), max(last, known.last)
            row = f"{unit},{party},{side},{draw.choice(('no',) * 9 + ('yes',))},{date_of(first)},{date_of(max(first, last))}"
            if kind == "reallocations":
                row = f"{unit},{party}-{side},{date_of(first)},{draw.randint(1, 3)},{draw.choice((0, 10, 60))},0"
            refusal, _ = register.load(kind, [row], 0)
            refusals.append(refusal and refusal[0])
            if kind == "units" and not refusal:
                accepted.append(row)
        return register, accepted, refusals

    def test_each_date_looking_back(self):
        """Registrations follow each other without a day between them, and give each date the account of the last row that is about it."""
        met = set()
        for seed in range(40):
            register, accepted, refusals = self.drawn(seed)
            met.update(refusals)
            for name, unit in register.units.items():
                for one, other in zip(unit.registrations, unit.registrations[1:]):
                    self.assertEqual(one.last + 1, other.first)
                    self.assertNotEqual(one.lead, other.lead)
                for day in range(self.DAYS.start - 1, self.DAYS.stop + 20):
                    self.assertEqual(unit.lead_on(day), looking_back(accepted, name, day), (seed, name, date_of(day)))
                self.assertEqual({unit.mark}, {row.mark for row in map(unit_row, accepted) if row.unit == name})
        self.assertEqual(met, {None, 31, 33, 37, 38, 39, 40, 41})

    def test_no_part_goes_to_the_lead_account(self):
        """After all rows, of each part that is in force."""
        count = 0
        for seed in range(40):
            register, _, _ = self.drawn(seed)
            for name, given in register.given.items():
                for account, date, _ in given:
                    self.assertNotEqual(register.units[name].lead_on(day_of(date)), account)
                    count += 1
        self.assertGreater(count, 200)

    def test_the_peer_beside_it(self):
        """Its tables after the same rows."""
        for seed in range(5):
            register, accepted, _ = self.drawn(seed)
            peer = Peer()
            with tempfile.TemporaryDirectory() as folder:
                for number in range(0, len(accepted), 3):
                    path = pathlib.Path(folder) / f"{number}.csv"
                    path.write_bytes(text_of("units", accepted[number : number + 3]))
                    peer.tells("load", "units", str(path))
            for table, wanted in (("leads", register.lead_rows()), ("units", register.unit_rows())):
                self.assertEqual(peer.calls["connection"].execute(f"SELECT * FROM {table}").fetchall(), wanted)


class Generated(unittest.TestCase):
    """The files of `bench/gen_successions.py`, for small days of `bench/gen_day.py`."""

    needs_programs = False
    DATES = DAY, "2024-07-02"

    def setUp(self):
        folder = tempfile.TemporaryDirectory()
        self.addCleanup(folder.cleanup)
        self.room, self.register = pathlib.Path(folder.name), Register()
        for date in self.DATES:
            day = self.room / date
            self.make("gen_day.py", day, "--date", date, "--parties=5", "--units=7", "--contracts=1", "--reallocations=6")
            for kind, name in (line.split() for line in (day / "order").read_text().splitlines()):
                if kind in ("parties", "units", "reallocations"):
                    self.assertEqual(self.register.load(kind, self.rows(day / name), 0), (None, []))

    def make(self, script, *words):
        subprocess.run([sys.executable, str(HOME / "bench" / script), *map(str, words)], check=True)

    def rows(self, path):
        return path.read_text().splitlines()[1:]

    def test_no_row_is_refused(self):
        """Each is a succession, also of a second file whose dates follow."""
        for first, each, step in (("2024-01-02", 20, 1), ("2024-01-22", 3, 1), (DAY, 10, 3)):
            path = self.room / f"{first}.csv"
            self.make("gen_successions.py", self.room, path, f"--each={each}", f"--first={first}", f"--step={step}")
            refusal, successions = self.register.load("units", self.rows(path), EARLY)
            self.assertEqual((refusal, len(successions)), (None, 7 * each))
            self.assertEqual(min(successions)[0], day_of(first))
        self.assertEqual({len(unit.registrations) for unit in self.register.units.values()}, {34})


if __name__ == "__main__":
    unittest.main()
