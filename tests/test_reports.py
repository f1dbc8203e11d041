"""What the operator reads about a settled date: the day report, the results as CSV and the balances, through the built `settle
script`. The texts in `tests/reports` were not made by the program. They were made from the figures that the market's rules give
for the only period in which anything happens."""
import csv
import io
import resource
import signal
import subprocess
import unittest

from programs import HOME, SETTLE
from test_desk import APPLIED, DAY, DEARER, END, IDLE, LOADED, MARKET, OPERATOR, SETTLED, Desk

TEXTS = HOME / "tests" / "reports"
DAY_REPORT = (TEXTS / "day.txt").read_text()
RESULTS = (TEXTS / "results.csv").read_text()
BALANCES = (TEXTS / "balances.csv").read_text()
NO_RUN = "refused 63 NoRun"
FORBIDDEN = "refused 60 Forbidden"
# NEWCO joins with a unit that exports 10 MWh in period 1, which it has not sold.
JOINS = [
    ("parties", ["NEWCO,2024-01-01,,newco0001"]),
    ("units", ["N1,NEWCO,P,no,2024-01-01,"]),
    ("meters", [f"N1,{DAY},1,10.000,1.0000000,0"] + [f"N1,{DAY},{period},0,1,0" for period in IDLE]),
]


def report(form, kind="SF", key=OPERATOR, date=DAY):
    """The line of a script that asks for a report of a run."""
    return f"report {key} {form} {date} {kind}"


def balances(key=OPERATOR):
    """The line of a script that asks for the balances."""
    return f"report {key} balances"


class Reports(Desk):
    """What is printed between two lines' answers is the report, and nothing else."""

    def written(self, *lines):
        """What is printed for these lines after the market is loaded and its date settled."""
        found = self.after_market(self.order("SF", END), *lines)
        self.assertEqual(found[0], SETTLED)
        return "".join(f"{line}\n" for line in found[1:])

    def joined(self):
        """The lines by which NEWCO joins, and a run after them."""
        loads = [self.load(kind, rows, f"n{number}.csv") for number, (kind, rows) in enumerate(JOINS)]
        return [*loads, self.order("R1")]

    def test_the_sizes_of_the_texts(self):
        self.assertEqual((DAY_REPORT.count("\n"), len(DAY_REPORT)), (247, 26_984))
        self.assertEqual((RESULTS.count("\n"), len(BALANCES)), (193, 63))

    def test_the_day_report(self):
        self.assertEqual(self.written(report("day")), DAY_REPORT)

    def test_the_results(self):
        self.assertEqual(self.written(report("csv")), RESULTS)

    def test_the_balances(self):
        self.assertEqual(self.written(balances()), BALANCES)

    def test_one_after_the_other(self):
        """The script goes on after each report, and none changes what the next shows."""
        lines = [report("day"), balances(), report("csv"), report("day"), balances()]
        self.assertEqual(self.written(*lines), DAY_REPORT + BALANCES + RESULTS + DAY_REPORT + BALANCES)

    def test_a_later_run(self):
        """It has reports of its own. Those of the first stay as they are, and the balances are what both runs have posted."""
        moved = BALANCES.replace("38", "45")
        lines = [self.dearer(), self.order("R1"), report("csv"), report("day"), balances()]
        self.assertEqual(self.written(*lines), f"{APPLIED}\n{DEARER}\n" + RESULTS + DAY_REPORT + moved)
        later = self.written(self.dearer(), self.order("R1"), report("csv", "R1"))
        rows = list(csv.DictReader(io.StringIO(later.split("\n", 2)[2])))
        first = [(row["account"], row["charge"], row["share"]) for row in rows if row["period"] == "1"]
        wanted = [("GENCO-P", "-3000", "3045"), ("GENCO-C", "0", "0"), ("SUPCO-P", "0", "0"), ("SUPCO-C", "-3060", "3015")]
        self.assertEqual(first, wanted)
        self.assertEqual({row["kind"] for row in rows}, {"R1"})

    def test_a_party_more(self):
        """Its rows are in the order of accounts. A run before it joined does not show it."""
        found = self.written(*self.joined(), report("day", "R1"), balances())
        lines = found.splitlines()[4:]
        self.assertEqual(lines[0], f"DAY REPORT {DAY} R1")
        first = [line.split() for line in lines[2:8]]
        self.assertEqual([fields[1] for fields in first], ["GENCO-P", "GENCO-C", "NEWCO-P", "NEWCO-C", "SUPCO-P", "SUPCO-C"])
        cash = {fields[1]: (int(fields[-2]), int(fields[-1])) for fields in first}
        self.assertEqual(cash["GENCO-P"], (-2500, 26_335))
        self.assertEqual(cash["NEWCO-P"], (-50_000, 2_647))
        self.assertEqual(cash["SUPCO-C"], (-2550, 26_068))
        self.assertEqual(lines[8], "  1 RESIDUAL              55050")
        self.assertIn("NET NEWCO-P                -47353", lines)
        self.assertEqual(lines[-8:], ["END", "account,moved_pence", "GENCO-P,23835", "GENCO-C,0", "NEWCO-P,-47353", "NEWCO-C,0", "SUPCO-P,0", "SUPCO-C,23518"])
        self.assertEqual(self.written(*self.joined(), report("day")).split("\n", 4)[4], DAY_REPORT)

    def test_contracts_that_net_to_the_same(self):
        """However the parties come to sell 99 MWh, by other volumes, by a negative one or through another account, they have
        the market's results."""
        cases = [
            ["C1,GENCO-P,SUPCO-C,{},1,100", "C2,SUPCO-C,GENCO-P,{},1,1"],
            ["C2,SUPCO-C,GENCO-P,{},1,-99"],
            ["C1,GENCO-P,SUPCO-C,{},1,49", "C2,GENCO-P,SUPCO-P,{},1,50", "C3,SUPCO-P,SUPCO-C,{},1,50"],
        ]
        for rows in cases:
            files = [*MARKET[:2], ("contracts", [row.format(DAY) for row in rows]), *MARKET[3:]]
            loads = [self.load(kind, rows, f"f{number}.csv") for number, (kind, rows) in enumerate(files, 1)]
            with self.subTest(rows):
                found = self.replies(*loads, self.order("SF", END), report("csv"))
                self.assertEqual(found[2:6], [f"applied={len(rows)} late=0", *LOADED[3:], SETTLED])
                self.assertEqual("".join(f"{line}\n" for line in found[6:]), RESULTS)

    def test_charges_with_shares_sum_to_zero(self):
        """As the results are read by a reader of CSV, in each period and in all."""
        sums = {}
        for row in csv.DictReader(io.StringIO(self.written(report("csv")))):
            sums[row["period"]] = sums.get(row["period"], 0) + int(row["charge"]) + int(row["share"])
        self.assertEqual(set(sums.values()), {0})
        self.assertEqual(len(sums), 48)

    def test_a_run_that_is_not_there(self):
        lines = [report("day", "R3"), report("csv", "R3"), report("day", date="2024-07-02"), report("csv", date="2024-07-02")]
        self.assertEqual(self.written(*lines), f"{NO_RUN}\n" * 4)

    def test_keys(self):
        """A party's key is refused before it is asked whether the run exists, and so is a key that nobody has."""
        for key in ("genco0001", "nobody001", "op-nobody001"):
            lines = [report("day", key=key), report("csv", key=key), report("day", "R3", key=key), balances(key)]
            self.assertEqual(self.written(*lines), f"{FORBIDDEN}\n" * 4)

    def test_balances_before_any_run(self):
        """Each registered party has both its accounts, and an office without parties has none."""
        zero = ["account,moved_pence", "GENCO-P,0", "GENCO-C,0", "SUPCO-P,0", "SUPCO-C,0"]
        self.assertEqual(self.after_market(balances()), zero)
        self.assertEqual(self.replies(balances()), zero[:1])

    def test_nothing_before_any_run(self):
        self.assertEqual(self.after_market(report("day"), report("csv")), [NO_RUN, NO_RUN])

    def test_lines_off_their_form(self):
        """Nothing of the script is run."""
        for line in (
            f"report {OPERATOR}",
            f"report {OPERATOR} day",
            f"report {OPERATOR} day {DAY}",
            f"report {OPERATOR} day SF {DAY}",
            f"report {OPERATOR} day {DAY} SF ",
            f"report {OPERATOR} day 2024-02-30 SF",
            f"report {OPERATOR} csv {DAY} sf",
            f"report {OPERATOR} CSV {DAY} SF",
            f"report {OPERATOR} html {DAY} SF",
            f"report {OPERATOR} balances {DAY} SF",
            f"report {OPERATOR} balance",
            "report op-short balances",
            "report balances",
            f"report {END} {OPERATOR} balances",
        ):
            with self.subTest(line):
                self.is_wrong(self.run_script(f"{balances()}\n{line}\n"), 2)

    def test_an_output_that_takes_a_part(self):
        """The first bytes of the report are written and no others. The script stops, and the fault is told."""
        text = "".join(f"{line}\n" for line in [*self.market(), self.order("SF", END), report("day"), balances()])
        whole = ("\n".join([*LOADED, SETTLED]) + "\n" + DAY_REPORT).encode()
        for size in (0, 512, 1024, 20_480):
            with self.subTest(size):
                written = self.room / f"cut-{size}"
                words = [SETTLE, "script", "--operator-key", OPERATOR, self.file("script", text)]
                limited = f"ulimit -f {size // 512}; exec \"$@\" >{written}"
                made = subprocess.run(["sh", "-c", f"trap '' XFSZ; {limited}", "sh", *words], capture_output=True)
                self.assertEqual((made.returncode, made.stderr), (1, b"fault output\n"))
                self.assertEqual(written.read_bytes(), whole[:size])


# Each report with its text, and after how many bytes an output fails in the midst of it.
CUTS = [
    (report("day"), DAY_REPORT, (0, 1, 25, 156, 26_983)),
    (report("csv"), RESULTS, (0, 76, 77, 78, 15_612)),
    (balances(), BALANCES, (62,)),
]


def written_up_to(size, path, *words):
    """How a call of `settle` ends whose output can't take more than this many bytes. The output is behind a megabyte of a file
    that can't grow further, so that a database has room in its files."""
    room = 2**20
    path.write_bytes(bytes(room))

    def limit():
        signal.signal(signal.SIGXFSZ, signal.SIG_IGN)
        resource.setrlimit(resource.RLIMIT_FSIZE, (room + size, room + size))

    with open(path, "ab") as out:
        made = subprocess.run([SETTLE, *words], stdin=subprocess.DEVNULL, stdout=out, stderr=subprocess.PIPE, preexec_fn=limit)
    return made.returncode, path.read_bytes()[room:], made.stderr


class Cut(Desk):
    """An output takes a number of bytes of a report and then fails."""

    def test_where_an_output_fails(self):
        """These bytes are written, and the fault is told. If it has exactly the room, the report is whole."""
        front = "".join(f"{line}\n" for line in [*LOADED, SETTLED])
        for line, text, counts in CUTS:
            script = self.file("script", "".join(f"{asked}\n" for asked in [*self.market(), self.order("SF", END), line]))
            whole = (front + text).encode()
            for count in (*counts, len(text)):
                with self.subTest(line, count=count):
                    wanted = (0, whole, b"") if count == len(text) else (1, whole[: len(front) + count], b"fault output\n")
                    made = written_up_to(len(front) + count, self.room / "out", "script", "--operator-key", OPERATOR, script)
                    self.assertEqual(made, wanted)


if __name__ == "__main__":
    unittest.main()
