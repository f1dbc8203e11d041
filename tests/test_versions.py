"""The database files in `versions`, which the programs of earlier commits have made. `sqlite3` reads in each what its office was asked.
The program refuses a copy of an office of an earlier version until `settle migrate` has taken it to the present version. Then it opens
the copy: its reports, its answers to what the office was asked before, and those to what it is asked next. It opens a copy of an office
of the present version as it is. The figures of the two parties' days are worked out by hand. Those of the market and of the week were
printed on the guide's pages. All others are those of `bench/peer_office.py`, which is given the rows that come in time. The files of
rows are those that the databases have, so the examples may change."""
import contextlib
import csv
import functools
import gzip
import io
import itertools
import pathlib
import shutil
import sqlite3
import tempfile
import unittest

import test_desk
from kept_offices import ENDS, FOLDER, JOINS, MADE_AGAIN, OFFICES, TAKES_OVER, packed, unpack
from programs import SETTLE, need, settle
from test_both_stores import Outcome, nets_of
from test_commands import FIRST, answer, results_of, words_of
from test_database import KINDS, LAST_DAY, NEW_YEAR, TABLES, TABLES_OF_TWO, TODAY, VERSION
from test_database import content_of, content_of_any, leads_of, rows_of, tables_of
from test_desk import APPLIED, DAY, DEARER, LOADED, SETTLED
from test_memory import HEADS, account_line
from test_reports import BALANCES, DAY_REPORT, RESULTS
from test_week import Peer

# The tables that are no part of what an office contains.
BESIDE = ("positions", "touched", "marks")
LATER = 1_735_689_600
MIGRATED, STORE = answer(f"version {VERSION}"), answer("refused 91 Store")
# The header of a log has this many bytes, and that of each page in it this many.
LOG_HEADER, PAGE_HEADER, PAGE = 32, 24, 4_096
UNCHANGED = DEARER.replace("6060", "5050").replace("postings 2", "postings 0")
DEARER_AGAIN = DEARER.replace("R1", "R2").replace("postings 2", "postings 0")
MOVED = "account,moved_pence\nGENCO-P,{0}\nGENCO-C,0\nSUPCO-P,0\nSUPCO-C,-{0}\n"
# The first run after NEWCO-C has got the lead of S1, and the balances once NEWCO has joined.
TAKEN_OVER = f"run {DAY} R1 periods 48 accounts 6 residual 5050 postings 2"
JOINED = "account,moved_pence\nGENCO-P,38\nGENCO-C,0\nNEWCO-P,0\nNEWCO-C,{}\nSUPCO-P,0\nSUPCO-C,{}\n"


def of_both_versions(said):
    """What is said of offices of version 1, by their names, and of those of version 2 that were asked the same."""
    return said | {f"{name}-2": said[name] for name in MADE_AGAIN if name in said}


# What each office of the two parties was told, what its runs have posted to GENCO-P and taken from SUPCO-C, and the price of each
# run in pounds. At 50 pounds GENCO-P pays 38 pence and at 60 pounds 45, as test_desk.py works out.
TOLD_FIRST = {
    "new": [],
    "first-sf": [*LOADED, SETTLED],
    "first-r1": [*LOADED, SETTLED, UNCHANGED],
    "dearer-sf": [*LOADED, SETTLED, APPLIED],
    "dearer-r1": [*LOADED, SETTLED, APPLIED, DEARER],
    "killed": [*LOADED, SETTLED, APPLIED, DEARER],
    "killed-writing": [*LOADED, SETTLED, APPLIED],
}
TOLD = {
    **of_both_versions(TOLD_FIRST),
    "succession-2": [*LOADED, SETTLED, APPLIED, APPLIED],
    "migrated-2": TOLD_FIRST["first-r1"],
}
POSTED = {"SF": 38, "R1": 7}
BY_HAND = of_both_versions(
    {
        "first-sf": (["SF"], {"SF": 50}),
        "first-r1": (["SF"], {"SF": 50, "R1": 50}),
        "migrated-2": (["SF"], {"SF": 50, "R1": 50}),
        "dearer-sf": (["SF"], {"SF": 50}),
        "dearer-r1": (["SF", "R1"], {"SF": 50, "R1": 60}),
        "killed": (["SF", "R1"], {"SF": 50, "R1": 60}),
        "killed-writing": (["SF"], {"SF": 50}),
    }
)
# What the guide printed of the example market's office after its corrected readings, and of its week. Without these the market's
# balances are those of the README.
PRINTED = of_both_versions(
    {
        "market": (
            [
                "run 2024-07-01 SF periods 48 accounts 8 residual -565755 postings 5",
                "run 2024-07-01 R1 periods 48 accounts 8 residual -491572 postings 3",
            ],
            [-2_764_774, 3_136_106, -628_128, 0, 597_794, 0, -340_998, 0],
        ),
        "week": (
            [
                "run 2024-10-21 SF periods 48 accounts 8 residual 1572855 postings 4",
                "run 2024-10-22 SF periods 48 accounts 8 residual 414881 postings 5",
                "run 2024-10-23 SF periods 48 accounts 8 residual -1700412 postings 5",
                "run 2024-10-24 SF periods 48 accounts 8 residual 1089202 postings 4",
                "run 2024-10-25 SF periods 48 accounts 8 residual -2075155 postings 5",
                "run 2024-10-26 SF periods 48 accounts 8 residual -289557 postings 3",
                "run 2024-10-27 SF periods 50 accounts 8 residual 585061 postings 3",
                "run 2024-10-24 R1 periods 48 accounts 8 residual -2611264 postings 3",
            ],
            [-632_111, 1_240_862, -2_713_956, 0, 1_559_344, 0, -13_831, 559_692],
        ),
        "without-positions": (
            ["run 2024-07-01 SF periods 48 accounts 8 residual -565755 postings 5"],
            [-2_769_367, 3_172_223, -659_652, 0, 597_794, 0, -340_998, 0],
        ),
    }
)
# What is asked of an office next. The files are among those that some office had.
NEXT = of_both_versions(
    {
        "new": OFFICES["dearer-r1"].lines,
        "first-sf": OFFICES["dearer-r1"].lines[-2:],
        "first-r1": [f"run {LATER} op-settle001 {DAY} RF"],
        "dearer-sf": OFFICES["dearer-r1"].lines[-1:],
        "dearer-r1": [f"run {LATER} op-settle001 {DAY} R2"],
        "market": [f"run {LATER} op-market001 {DAY} R2"],
        "week": [f"run {LATER} op-market001 2024-10-{day} {kind}" for day, kind in ((27, "R1"), (24, "R2"))],
        "without-positions": OFFICES["market"].lines[-1:],
        "killed": [f"run {LATER} op-settle001 {DAY} R2"],
        "killed-writing": [OFFICES["killed-writing"].cut, f"run {LATER} op-settle001 {DAY} R2"],
        "succession-2": OFFICES["dearer-r1"].lines[-1:],
        "migrated-2": [JOINS, TAKES_OVER, f"run {LATER} op-settle001 {DAY} R2"],
    }
)


def earlier_offices():
    """Those of an earlier version than the present one."""
    return {name: office for name, office in OFFICES.items() if office.version < VERSION}


def runs_of(lines):
    """The date and the kind of each run that lines ask for."""
    return [tuple(line.split(" ")[-2:]) for line in lines if line.startswith("run ")]


def day_report(results):
    """The day report of the run that has these results, by the forms in docs/formats.md."""
    rows = list(csv.DictReader(io.StringIO(results)))
    lines, nets = [f"DAY REPORT {rows[0]['date']} {rows[0]['kind']}", account_line(HEADS)], {}
    for period, group in itertools.groupby(rows, key=lambda row: row["period"]):
        residual = 0
        for row in group:
            lines.append(account_line([period, row["account"], *(row[head.lower()] for head in HEADS[2:])]))
            residual -= int(row["charge"])
            nets[row["account"]] = nets.get(row["account"], 0) + int(row["charge"]) + int(row["share"])
        lines.append(f"{period:>3} {'RESIDUAL':<12} {residual:>14}")
    lines += [f"NET {account:<12} {net:>16}" for account, net in nets.items()]
    return "\n".join([*lines, "END", ""])


@functools.cache
def room():
    """A folder that stays until all tests have ended."""
    folder = tempfile.TemporaryDirectory()
    unittest.addModuleCleanup(folder.cleanup)
    return pathlib.Path(folder.name)


@functools.cache
def content(name):
    """All rows of an office's file with its log, before the program opens it."""
    return content_of(unpack(name, room() / "read" / name), tables_of(OFFICES[name].version))


@functools.cache
def files():
    """A folder with all files of rows that the offices have had, by their names."""
    folder = room() / "files"
    folder.mkdir(exist_ok=True)
    for name in OFFICES:
        for _, file, body, *_ in content(name)["files"]:
            path = folder / file
            if path.exists() and path.read_bytes() != body:
                raise AssertionError(f"{name} has another file {file}")
            path.write_bytes(body)
    return folder


def located(line):
    """A line with the path at which its file is."""
    *words, last = line.split(" ")
    return " ".join([*words, str(files() / pathlib.Path(last).name)]) if words[0] == "load" else line


class Wanted:
    """What another office says that is asked the same: the peer, whose tables are in memory."""

    def __init__(self, lines=()):
        self.peer, self.outcome, self.told, self.lines = Peer(), Outcome(), [], []
        for line in lines:
            self.ask(line)

    def ask(self, line):
        """What is told for a line."""
        told = self.peer.answer(located(line).split(" "))
        self.outcome.take(located(line), told.encode())
        self.lines.append(line)
        self.told.append(told)
        return told

    def rows(self, statement):
        return self.peer.calls["connection"].execute(statement).fetchall()

    def results(self, date, kind):
        return self.peer.tells("report", date, kind)

    def balances(self):
        """Of both accounts of each party."""
        parties = self.rows("SELECT party FROM parties ORDER BY party")
        moved = {(party, side): 0 for (party,) in parties for side in (0, 1)}
        for party, side, pence in self.rows("SELECT party, side, pence FROM postings"):
            moved[party, side] += pence
        lines = [f"{party}-{'PC'[side]},{pence}\n" for (party, side), pence in moved.items()]
        return "".join(["account,moved_pence\n", *lines])

    def reports(self):
        """Each report that an office may be asked for, by its words, with its text."""
        found = {("balances",): self.balances()}
        for date, kind in runs_of(self.lines):
            results = self.results(date, kind)
            found["csv", date, kind] = results
            found["day", date, kind] = day_report(results)
        return found

    def content(self):
        """The rows of each table that the peer keeps as the office does, and of the tables that are updated beside them."""
        tables = TABLES.keys() - {"settings", "files", *BESIDE}
        found = {table: sorted(self.rows(f"SELECT * FROM {table}")) for table in tables}
        found["positions"] = nets_of(found["refs"], found["contracts"])
        found["touched"] = sorted(self.outcome.touched)
        return found


@functools.cache
def wanted(name):
    """What is wanted of an office as it was when its last line was answered."""
    return Wanted(OFFICES[name].answered())


def ends_in(log):
    """Where each change in a log ends. The header of a change's last page has the size of the file, which is 0 in all others."""
    size = PAGE_HEADER + int.from_bytes(log[8:12], "big")
    places = range(LOG_HEADER, len(log) - size + 1, size)
    return [place + size for place in places if any(log[place + 4 : place + 8])]


class Files(unittest.TestCase):
    """What the files have, before the program opens them."""

    needs_programs = False

    def test_which_there_are(self):
        """One for each office, and its log. `sqlite3`, which took the positions away, has removed the log of that office. They
        are packed with no time and no name."""
        logs = [name for name, office in OFFICES.items() if office.has_positions]
        wanted = {f"{name}.db.gz" for name in OFFICES} | {f"{name}.db-wal.gz" for name in logs}
        self.assertEqual({path.name for path in FOLDER.iterdir() if path.suffix == ".gz"}, wanted)
        for name in wanted:
            head = (FOLDER / name).read_bytes()[:8]
            self.assertEqual((head[:4], head[4:]), (b"\x1f\x8b\x08\x00", bytes(4)), name)

    def test_the_page_names_each(self):
        page = (FOLDER / "README.md").read_text(encoding="utf-8")
        for name in OFFICES:
            self.assertIn(f"| `{name}` |", page)

    def test_they_are_sound(self):
        """The program's tables of the office's version, in files that are whole."""
        for name, office in OFFICES.items():
            with self.subTest(name):
                wanted = tables_of(office.version)
                columns = {table: [word.partition(":")[0] for word in TABLES[table][1].split()] for table in wanted}
                database = unpack(name, room() / "sound" / name)
                with contextlib.closing(sqlite3.connect(database)) as connection:
                    self.assertEqual(connection.execute("PRAGMA integrity_check").fetchall(), [("ok",)])
                    names = [name for (name,) in connection.execute("SELECT name FROM sqlite_schema WHERE type = 'table'")]
                    tables = {table: [row[1] for row in connection.execute(f"PRAGMA table_info({table})")] for table in names}
                self.assertEqual((names, tables), (wanted, columns))
                self.assertEqual(content(name)["settings"], [(1, office.version, office.lead_minutes, office.operator)])

    def test_rows(self):
        """They are what the office was asked. Version 1 didn't have the table of registrations."""
        for name, office in OFFICES.items():
            found, kept = content(name), wanted(name).content()
            self.assertEqual({*TABLES_OF_TWO} & (kept.keys() - found.keys()), {"leads"} if office.version == 1 else set(), name)
            for table, rows in ((table, kept[table]) for table in kept.keys() & found.keys()):
                with self.subTest(f"{name} {table}"):
                    if table in BESIDE and not office.has_positions:
                        self.assertEqual(found[table], [])
                    elif table == "positions":
                        self.assertEqual({row[:4]: row[4] for row in found[table] if row[4]}, rows)
                        self.assertLessEqual({row[5] for row in found[table]}, {0})
                    else:
                        self.assertEqual(sorted(found[table]), rows)
            self.assertEqual(found["marks"], [(1, int(office.has_positions))], name)

    def test_files_of_rows(self):
        """Each is there with its reply, which counts all its rows."""
        for name, office in OFFICES.items():
            asked = zip(map(str.split, office.answered()), wanted(name).told)
            replies = {(line[3], pathlib.Path(line[4]).name): told for line, told in asked if line[0] == "load"}
            found = content(name)["files"]
            kept = {(kind, file): f"applied={applied} late={late}\n" for kind, file, _, applied, late in found}
            self.assertEqual(kept, replies, name)
            for kind, file, body, applied, late in found:
                self.assertEqual(applied + late, body.count(b"\n") - 1, (name, kind, file))

    def test_some_have_touched_periods(self):
        """And some have none, so that a later program meets both."""
        found = {name: len(content(name)["touched"]) for name in OFFICES}
        touched = of_both_versions({"dearer-sf": 1, "killed-writing": 1, "succession-2": 48})
        self.assertEqual(found, dict.fromkeys(OFFICES, 0) | touched)

    def test_logs(self):
        """The log of an office that was killed has what its service changed, and the file lacks it. All others hold nothing."""
        for name, office in OFFICES.items():
            with self.subTest(name):
                database = unpack(name, room() / "logs" / name)
                log = database.with_name("office.db-wal")
                size = log.stat().st_size if log.exists() else 0
                if not office.is_killed():
                    self.assertLess(size, LOG_HEADER + PAGE_HEADER)
                    continue
                self.assertGreater(size, PAGE)
                log.unlink()
                before = Wanted(office.lines).content()
                self.assertEqual([rows_of(database, table) for table in ("runs", "results", "postings")], [[], [], []])
                self.assertEqual(sorted(rows_of(database, "prices")), before["prices"])
                self.assertNotEqual(content(name)["runs"], [])

    def test_a_log_with_half_a_change(self):
        """The log of the service that was killed while it was writing has the changes that it had answered, and then a part of
        another, which the log of the service that was killed later has whole. Zeros are behind both: the program makes room at once."""
        for names in ("killed", "killed-writing"), ("killed-2", "killed-writing-2"):
            whole, cut = (gzip.decompress(packed(name, ENDS[1]).read_bytes()).rstrip(b"\0") for name in names)
            ends = ends_in(whole + bytes(PAGE))
            self.assertEqual(len(ends), 3, names)
            self.assertLessEqual(len(whole), ends[-1], names)
            self.assertEqual(ends_in(cut), ends[:2], names)
            self.assertGreater(len(cut), ends[1], names)


class ByHand(unittest.TestCase):
    """That what is wanted of the offices is what was worked out by hand, or printed on the guide's pages."""

    needs_programs = False

    def test_the_two_parties(self):
        for name, told in TOLD.items():
            self.assertEqual(wanted(name).told, [f"{line}\n" for line in told], name)
        for name, (posted, prices) in BY_HAND.items():
            with self.subTest(name):
                self.assertEqual(wanted(name).balances(), MOVED.format(sum(POSTED[kind] for kind in posted)))
                rows = [row for kind, pounds in prices.items() for row in results_of(KINDS.index(kind), FIRST, pounds * 10**5)]
                self.assertEqual(wanted(name).content()["results"], sorted(rows))
        for name in "new", "new-2":
            self.assertEqual(wanted(name).balances(), "account,moved_pence\n")

    def test_a_succession(self):
        """SUPCO-C leads S1 to the day before, and NEWCO-C from the day on, whose periods are all touched. SF stays as it was."""
        found = wanted("succession-2")
        content = found.content()
        leads = [("G1", NEW_YEAR, "GENCO", 0, LAST_DAY), ("S1", NEW_YEAR, "SUPCO", 1, TODAY - 1), ("S1", TODAY, "NEWCO", 1, LAST_DAY)]
        self.assertEqual(content["leads"], leads)
        self.assertEqual(content["touched"], [(TODAY, period) for period in range(1, 49)])
        self.assertEqual(content["results"], results_of(0, FIRST, 50 * 10**5))
        self.assertEqual(found.balances(), JOINED.format(0, -38))
        self.assertEqual(found.results(DAY, "SF"), RESULTS)

    def test_the_run_after_a_succession(self):
        """As test_desk.py works out, NEWCO-C pays 494,962 pence for the energy that SUPCO-C has bought, SUPCO-C is paid 495,000, and GENCO-P
        pays 38 as before. That is R1 of one office. It is R2 of the other, whose succession comes after R1 and its migration."""
        nothing = (*["0.0000000000"] * 3, 0, 0)
        for name, kind in ("succession-2", "R1"), ("migrated-2", "R2"):
            after = Wanted((*OFFICES[name].answered(), *NEXT[name]))
            self.assertEqual(after.balances(), JOINED.format(494_962, -495_000), name)
            posted = [row[1:] for row in after.content()["postings"] if row[1] > 0]
            number = KINDS.index(kind)
            self.assertEqual(posted, [(number, "NEWCO", 1, 494_962), (number, "SUPCO", 1, -494_962)], name)
            figures = {account: [] for account in ("GENCO-P", "GENCO-C", "NEWCO-P", "NEWCO-C", "SUPCO-P", "SUPCO-C")}
            for row in csv.DictReader(io.StringIO(after.results(DAY, kind))):
                energies = row["credited"], row["contracts"], row["imbalance"]
                figures[row["account"]].append((*energies, int(row["charge"]), int(row["share"])))
            for account, found in figures.items():
                first = test_desk.Successions.RESULTS.get(account, nothing)
                self.assertEqual(found, [first, *[nothing] * 47], (name, account))

    def test_registrations(self):
        """The peer's are those of `registering.py`. Each unit has one, from its first date to its last, unless it has got another lead
        account."""
        for name in OFFICES:
            outcome, content = wanted(name).outcome, wanted(name).content()
            self.assertEqual(outcome.others, [], name)
            self.assertEqual((content["units"], content["leads"]), (outcome.register.unit_rows(), outcome.register.lead_rows()), name)
            self.assertEqual(content["leads"] == leads_of(content["units"]), name != "succession-2", name)

    def test_the_texts_of_reports(self):
        for name in BY_HAND:
            reports = wanted(name).reports()
            self.assertEqual((reports["day", DAY, "SF"], reports["csv", DAY, "SF"]), (DAY_REPORT, RESULTS), name)
        self.assertEqual(wanted("first-sf").balances(), BALANCES)
        cash = [["-3000", "3045"], ["0", "0"], ["0", "0"], ["-3060", "3015"]]
        for name in "dearer-r1", "dearer-r1-2":
            lines = wanted(name).reports()["day", DAY, "R1"].splitlines()
            self.assertEqual([line.split()[-2:] for line in lines[2:6]], cash)
            self.assertEqual(lines[6].split(), ["1", "RESIDUAL", "6060"])

    def test_the_market_and_the_week(self):
        for name, (runs, moved) in PRINTED.items():
            with self.subTest(name):
                told = [line.removesuffix("\n") for line in wanted(name).told]
                self.assertEqual([line for line in told if line.startswith("run ")], runs)
                self.assertEqual([int(line.partition(",")[2]) for line in wanted(name).balances().splitlines()[1:]], moved)

    def test_each_office_is_one_of_these(self):
        self.assertEqual(TOLD.keys() | PRINTED.keys(), OFFICES.keys())
        self.assertEqual(NEXT.keys(), OFFICES.keys())


class OfTheFiles(unittest.TestCase):
    """A test with copies of the files in a folder of its own."""

    @classmethod
    def setUpClass(cls):
        need(SETTLE)

    def setUp(self):
        folder = tempfile.TemporaryDirectory()
        self.addCleanup(folder.cleanup)
        self.room = pathlib.Path(folder.name)

    def unpacked(self, name):
        """The path of a copy that no other test has opened."""
        return unpack(name, self.room / name)

    def migrated(self, name):
        """The path of such a copy after `settle migrate`, which leaves it of the present version."""
        database = self.unpacked(name)
        self.assertEqual(self.command(database, "migrate"), MIGRATED, name)
        return database

    def opened(self, name):
        """The path of such a copy, which is of the present version. Only one of an earlier version was migrated."""
        return self.migrated(name) if name in earlier_offices() else self.unpacked(name)

    def command(self, database, name, *words):
        return settle(name, "--db", str(database), *words)

    def content(self, database):
        """All rows of what was left, in a copy of it."""
        with tempfile.TemporaryDirectory() as folder:
            copy = pathlib.Path(shutil.copytree(database.parent, pathlib.Path(folder) / "copy")) / database.name
            with contextlib.closing(sqlite3.connect(copy)) as connection:
                self.assertEqual(connection.execute("PRAGMA integrity_check").fetchall(), [("ok",)])
            return content_of_any(copy)

    def compare(self, made, text, about):
        """A command is done, and has written this. The first line that differs is named, since the texts are long."""
        status, written, told = made
        self.assertEqual((status, told), (0, b""), about)
        for number, (line, wanted) in enumerate(itertools.zip_longest(written.decode().splitlines(), text.splitlines()), 1):
            self.assertEqual(line, wanted, f"{about} line {number}")
        self.assertEqual(len(written), len(text), about)

    def reports(self, name, database, wanted):
        """Each report of each run, and the refusal of one that wasn't made."""
        key = OFFICES[name].operator
        for words, text in wanted.reports().items():
            self.compare(self.command(database, "report", "--key", key, *words), text, f"{name} {words}")
        for form in ("day", "csv"):
            self.assertEqual(self.command(database, "report", "--key", key, form, DAY, "DF"), answer("refused 63 NoRun"), name)

    def as_migrated(self, name):
        """All rows that are wanted of an office that was taken to the present version. Each unit of one of version 1 has one registration,
        from its first date to its last."""
        found, office = dict(content(name)), OFFICES[name]
        if office.version == 1:
            found["leads"] = leads_of(found["units"])
        return {**found, "settings": [(1, VERSION, office.lead_minutes, office.operator)]}

    def as_opened(self, name):
        """The same once another command has opened the office and changed nothing. If no positions were kept it has made them, and each
        period of each run counts as touched."""
        found = self.as_migrated(name)
        if not OFFICES[name].has_positions:
            counts = {day: periods for day, _, periods, *_ in found["runs"]}
            nets = nets_of(found["refs"], found["contracts"])
            found["positions"] = sorted((*key, kwh, 0) for key, kwh in nets.items())
            found["touched"] = sorted((day, period) for day, count in counts.items() for period in range(1, count + 1))
            found["marks"] = [(1, 1)]
        return found


class Migrated(OfTheFiles):
    """Each file is of its version, until `settle migrate` has taken it to the present version."""

    def test_refused_before(self):
        """An office of an earlier version, by each other command. A file without a log keeps its bytes, and one with a log its rows, as
        `sqlite3` reads both. After that it migrates as if nothing had been asked."""
        script = self.room / "nothing.script"
        script.write_bytes(b"")
        for name, office in earlier_offices().items():
            with self.subTest(name):
                database = self.unpacked(name)
                before = database.read_bytes()
                self.assertEqual(database.with_name("office.db-wal").exists(), office.has_positions)
                for words in (
                    ("report", "--key", office.operator, "balances"),
                    ("report", "--key", office.operator, "day", DAY, "SF"),
                    ("load", "--key", office.operator, "prices", str(files() / "p2.csv")),
                    ("run", "--key", office.operator, DAY, "SF"),
                    ("serve", "--port=0", "--count=0"),
                    ("script", str(script)),
                ):
                    self.assertEqual(self.command(database, *words), STORE, words)
                    self.assertEqual(self.content(database), content(name))
                    if not office.has_positions:
                        self.assertEqual(database.read_bytes(), before)
                self.assertEqual(self.command(database, "migrate"), MIGRATED)
                self.assertEqual(self.content(database), self.as_migrated(name))

    def test_twice(self):
        """The second time no row changes, and of an office of the present version none the first time. Positions that weren't kept aren't
        written."""
        for name in OFFICES:
            with self.subTest(name):
                database = self.unpacked(name)
                for _ in range(2):
                    self.assertEqual(self.command(database, "migrate"), MIGRATED)
                    self.assertEqual(self.content(database), self.as_migrated(name))

    def test_what_is_in_the_file_by_itself(self):
        """A command that ends copies the log into the file, also what a killed service had left there."""
        for name in OFFICES:
            with self.subTest(name):
                database = self.migrated(name)
                alone = shutil.copy(database, self.room / f"{name}-alone.db")
                self.assertEqual(content_of_any(alone), self.as_migrated(name))


class Opened(OfTheFiles):
    """Copies of the files, which are of the present version or were taken to it. The program opens them."""

    def test_reports(self):
        """They print what they printed before, and change no row."""
        for name in OFFICES:
            with self.subTest(name):
                database = self.opened(name)
                self.reports(name, database, wanted(name))
                found, before = self.content(database), self.as_opened(name)
                for table in TABLES:
                    rows = [row for row in found[table] if table != "positions" or row[4] or OFFICES[name].has_positions]
                    self.assertEqual(rows, before[table], table)

    def test_the_same_again(self):
        """What was answered gets its answer again, and changes nothing."""
        for name, office in OFFICES.items():
            with self.subTest(name):
                database = self.opened(name)
                self.command(database, "report", "--key", office.operator, "balances")
                before = self.content(database)
                for line, told in zip(office.answered(), wanted(name).told):
                    self.compare(settle(*words_of(located(line), database)), told, f"{name} {line}")
                self.assertEqual(self.content(database), before)

    def test_what_comes_next(self):
        """Loads and runs after those that the office had, and its reports after them."""
        for name, lines in NEXT.items():
            with self.subTest(name):
                database, after = self.opened(name), Wanted(OFFICES[name].answered())
                for line in lines:
                    self.compare(settle(*words_of(located(line), database)), after.ask(line), f"{name} {line}")
                self.reports(name, database, after)
                found, kept = self.content(database), after.content()
                for table in kept.keys() - {"positions"}:
                    self.assertEqual(sorted(found[table]), kept[table], (name, table))
                self.assertEqual({row[:4]: row[4] for row in found["positions"] if row[4]}, kept["positions"], name)

    def test_what_comes_next_by_hand(self):
        """The answers to the two parties' next runs."""
        told = {
            "first-sf": [APPLIED, DEARER],
            "first-r1": [UNCHANGED.replace("R1", "RF")],
            "dearer-sf": [DEARER],
            "dearer-r1": [DEARER_AGAIN],
            "killed": [DEARER_AGAIN],
            "killed-writing": [DEARER, DEARER_AGAIN],
            "without-positions": PRINTED["market"][0][1:],
            "succession-2": [TAKEN_OVER],
            "migrated-2": [APPLIED, APPLIED, TAKEN_OVER.replace("R1", "R2")],
        }
        for name, lines in of_both_versions(told).items():
            database = self.opened(name)
            for line, text in zip(NEXT[name], lines, strict=True):
                self.assertEqual(settle(*words_of(located(line), database)), answer(text), f"{name} {line}")

    def test_what_was_answered_before_a_kill(self):
        """It is in the log alone before the program opens the office, and in the file after that. What the service was writing
        isn't there."""
        for name in [name for name, office in OFFICES.items() if office.is_killed()]:
            with self.subTest(name):
                database = self.unpacked(name)
                alone = shutil.copy(database, self.room / f"{name}-alone.db")
                self.assertEqual(rows_of(alone, "runs"), [])
                self.assertGreater(database.with_name("office.db-wal").stat().st_size, 0)
                if name in earlier_offices():
                    self.assertEqual(self.command(database, "migrate"), MIGRATED)
                self.assertNotEqual(self.command(database, "report", "--key", OFFICES[name].operator, "balances")[1], b"")
                shutil.copy(database, alone)
                self.assertEqual(sorted(rows_of(alone, "runs")), wanted(name).content()["runs"])
                self.assertEqual(sorted(rows_of(alone, "prices")), wanted(name).content()["prices"])
                self.assertEqual(content_of(alone), self.as_opened(name))


if __name__ == "__main__":
    unittest.main()
