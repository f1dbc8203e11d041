"""`settle migrate`, which takes an office of version 1 to the present version: what it answers, in which order its faults are found, and
what becomes of the files. Files that an earlier program made are in test_versions.py, and migrations that are killed, that meet a full
disk or are refused memory in test_command_crashes.py."""
import contextlib
import os
import shutil
import sqlite3
import unittest

from kept_offices import OFFICES, unpack
from office_tables import creations
from programs import settle
from test_command_faults import NO_FILE, OUTPUT, PATIENCE, STORE, Faults
from test_commands import answer
from test_database import OF_VERSION_ONE, TABLES_OF_ONE, VERSION, WITHOUT_POSITIONS, changed_by, content_of, content_of_any, leads_of, rows_of
from test_desk import APPLIED, DAY, END, OPERATOR, SETTLED
from test_explain import NO_OFFICE

DONE = answer(f"version {VERSION}")
# The statement that makes the table of leads.
LEADS = creations()[-1]


class OfVersionOne(Faults):
    """A test whose office, which has loaded the market, has become one of version 1. `sqlite3` has left no log beside it."""

    def setUp(self):
        super().setUp()
        self.present = content_of(self.database)
        changed_by(self.database, *OF_VERSION_ONE)
        self.older = content_of_any(self.database)
        self.assertEqual(self.older, {**{table: self.present[table] for table in TABLES_OF_ONE}, "settings": [(1, 1, 60, OPERATOR)]})

    def names(self):
        """All that is in the folder."""
        return sorted(path.relative_to(self.room) for path in self.room.rglob("*"))

    def is_older(self):
        """The office is of version 1, and has its rows."""
        self.is_sound()
        self.assertEqual(content_of_any(self.database), self.older)

    def is_migrated(self):
        """The office has the rows that it had before it was made one of version 1."""
        self.is_sound()
        self.assertEqual(content_of_any(self.database), self.present)


class Answers(OfVersionOne):
    """What is answered, and what the office then has."""

    def test_an_older_office(self):
        """Each unit has one registration. All other rows are as before, except for the version."""
        self.assertEqual(self.command("migrate"), DONE)
        self.is_migrated()
        self.assertEqual(rows_of(self.database, "leads"), leads_of(self.older["units"]))
        self.assertEqual(self.command("migrate"), DONE)
        self.is_migrated()

    def test_an_office_of_this_version(self):
        """It stays as it is."""
        self.database = self.room / "new.db"
        self.init()
        before = content_of(self.database)
        self.assertEqual(self.command("migrate"), DONE)
        self.is_sound()
        self.assertEqual(content_of(self.database), before)

    def test_units_of_all_sorts(self):
        """Both sides, interconnector units, one date alone, and the first and last dates there are."""
        rows = ["I-1,GENCO,C,yes,2024-03-01,2024-03-01", "I_2,SUPCO,P,yes,2024-01-01,", "Z,SUPCO,C,no,2024-02-29,2099-12-31", "0,GENCO,P,no,2024-01-01,2024-12-31"]
        parties = "GENCO,2001-01-01,2099-12-31,genco0001"
        self.assertEqual(self.command("migrate"), DONE)
        for kind, lines in ("parties", [parties]), ("units", [*rows, "OLD,GENCO,P,no,2001-01-01,"]):
            self.answers(self.load(kind, lines, f"{kind}-2.csv"), f"applied={len(lines)} late=0")
        wanted = content_of(self.database)
        self.assertEqual((len(wanted["units"]), wanted["leads"]), (7, leads_of(wanted["units"])))
        changed_by(self.database, *OF_VERSION_ONE)
        self.assertEqual(self.command("migrate"), DONE)
        self.assertEqual(content_of(self.database), wanted)

    def test_an_office_with_nothing(self):
        self.database = self.room / "new.db"
        self.init("--lead-minutes=0")
        before = content_of(self.database)
        changed_by(self.database, *OF_VERSION_ONE)
        self.assertEqual(self.command("migrate"), DONE)
        self.assertEqual((content_of(self.database), before["leads"], before["settings"]), (before, [], [(1, VERSION, 0, OPERATOR)]))

    def test_what_comes_after_it(self):
        """Each command is done, and what was answered is answered again."""
        self.assertEqual(self.command("migrate"), DONE)
        for line, (kind, rows) in zip(self.market(), (("parties", 2), ("units", 2), ("contracts", 1), ("meters", 96), ("prices", 48)), strict=True):
            self.assertIn(f" {kind} ", line)
            self.changes_nothing(line, f"applied={rows} late=0")
        self.answers(self.order("SF", END), SETTLED)
        self.answers(self.load("units", "G1,GENCO,P,no,2024-01-01,", "u2.csv"), APPLIED)
        self.assertEqual(rows_of(self.database, "leads"), self.present["leads"])
        for name, words in self.commands.items():
            self.assertEqual(self.command(name, *words, timeout=PATIENCE)[::2], (0, b""), name)

    def test_a_unit_that_changes_its_lead_account_after_it(self):
        """Also on a date that has a run of version 1. NEWCO-C pays 494,962 pence for the energy that SUPCO-C had bought."""
        self.assertEqual(self.command("migrate"), DONE)
        self.answers(self.order("SF", END), SETTLED)
        changed_by(self.database, *OF_VERSION_ONE)
        self.assertEqual(self.command("migrate"), DONE)
        self.answers(self.load("parties", "NEWCO,2024-01-01,,newco0001", "n.csv"), APPLIED)
        self.answers(self.load("units", f"S1,NEWCO,C,no,{DAY},", "s.csv"), APPLIED)
        self.answers(self.order("R1"), f"run {DAY} R1 periods 48 accounts 6 residual 5050 postings 2")
        posted = [row[2:] for row in rows_of(self.database, "postings") if row[1] == 1]
        self.assertEqual(posted, [("NEWCO", 1, 494_962), ("SUPCO", 1, -494_962)])

    def test_without_positions(self):
        """None are written by it. The next command writes them, even if it only asks. Each period of each run then counts as touched, and
        there is no run."""
        changed_by(self.database, *WITHOUT_POSITIONS)
        self.assertEqual(self.command("migrate"), DONE)
        wanted = {**self.present, "positions": [], "touched": [], "marks": [(1, 0)]}
        self.assertEqual(content_of(self.database), wanted)
        self.assertEqual(self.command("migrate"), DONE)
        self.assertEqual(content_of(self.database), wanted)
        self.assertEqual(self.command("report", *self.commands["report"])[0], 0)
        self.assertEqual(content_of(self.database), {**self.present, "touched": []})

    def test_marks_that_no_office_has(self):
        """It doesn't look at them, and leaves them. Other commands then refuse the office."""
        whole = self.database.read_bytes()
        for statement in ("DELETE FROM marks", "UPDATE marks SET positions = 0"):
            with self.subTest(statement):
                self.database.write_bytes(whole)
                changed_by(self.database, statement)
                marks = rows_of(self.database, "marks")
                self.assertEqual(self.command("migrate"), DONE)
                self.assertEqual(content_of(self.database), {**self.present, "marks": marks})
                self.assertEqual(self.command("report", *self.commands["report"]), STORE)


class OtherCommands(OfVersionOne):
    """Every other command refuses an office of version 1."""

    def test_each(self):
        """The file keeps its bytes."""
        before, names = self.database.read_bytes(), self.names()
        for name, words in self.commands.items():
            if name != "migrate":
                with self.subTest(name):
                    self.assertEqual(self.command(name, *words, timeout=PATIENCE), STORE)
                    self.assertEqual(self.database.read_bytes(), before)
                    self.assertLessEqual({*names}, {*self.names()})
        self.is_older()
        self.assertEqual(self.command("migrate"), DONE)

    def test_how_that_is_explained(self):
        """It says what makes the office usable."""
        self.assertIn("settle migrate makes it usable", NO_OFFICE)
        wanted = 1, b"", f"refused 91 Store\n{self.database}: {NO_OFFICE}\n".encode()
        for name, words in self.commands.items():
            if name != "migrate":
                self.assertEqual(self.command(name, "--explain", *words, timeout=PATIENCE), wanted, name)
        self.assertEqual(self.command("migrate", "--explain"), DONE)

    def test_a_new_office(self):
        """`init` opens nothing."""
        self.assertEqual(self.command("init", "--operator-key", OPERATOR), answer("fault exists"))
        self.is_older()


class Order(OfVersionOne):
    """Words, path, opening, version, output: the first of these that is wrong is told."""

    def test_words(self):
        """Before anything is looked for."""
        for words in (("more",), ("--key", OPERATOR), ("--at=5",), ("--db", str(self.database))):
            self.is_wrong(self.by_shell(">/dev/full", "migrate", *words))
        self.is_older()
        self.database = self.room / "missing.db"
        self.is_wrong(self.command("migrate", "more"))

    def test_paths(self):
        """Nothing is made where nothing is, and a log without its file stays."""
        os.symlink("nowhere.db", self.room / "link.db")
        (self.room / "gone.db-wal").write_bytes(b"kept")
        before = self.names()
        for path in ("missing.db", "missing/office.db", "link.db", "gone.db", "office.db/office.db"):
            self.database = self.room / path
            for made in (self.command("migrate"), self.by_shell(">/dev/full", "migrate"), self.by_shell(">&-", "migrate")):
                self.assertEqual(made, NO_FILE, path)
        self.assertEqual(self.command("migrate", "--explain"), (1, b"", f"fault nofile\n{self.database}: there is nothing\n".encode()))
        self.assertEqual(settle("migrate", "--db", ""), NO_FILE)
        self.assertEqual((self.names(), (self.room / "gone.db-wal").read_bytes()), (before, b"kept"))

    def test_opening(self):
        """Another process has the file open."""
        with contextlib.closing(sqlite3.connect(self.database)) as connection:
            connection.execute("BEGIN EXCLUSIVE")
            self.assertEqual(self.command("migrate"), STORE)
            self.assertEqual(self.by_shell(">/dev/full", "migrate"), STORE)
            connection.execute("ROLLBACK")
        self.is_older()
        self.assertEqual(self.command("migrate"), DONE)

    def test_versions(self):
        """Before the output."""
        changed_by(self.database, "UPDATE settings SET version = 7")
        self.assertEqual(self.by_shell(">/dev/full", "migrate"), STORE)
        self.assertEqual(rows_of(self.database, "settings"), [(1, 7, 60, OPERATOR)])

    def test_outputs(self):
        """The office was migrated. When it is asked again, that is told."""
        whole = self.database.read_bytes()
        for streams in (">/dev/full", ">&-", "<&- >&-"):
            with self.subTest(streams):
                self.database.write_bytes(whole)
                self.assertEqual(self.by_shell(streams, "migrate"), OUTPUT)
                self.is_migrated()
                self.assertEqual(self.by_shell(streams, "migrate"), OUTPUT)
                self.is_migrated()
                self.assertEqual(self.command("migrate"), DONE)

    def test_no_streams(self):
        """The database doesn't get their descriptors, or isn't harmed by getting them."""
        self.assertEqual(self.by_shell("<&- >&- 2>&-", "migrate"), (1, b"", b""))
        self.is_migrated()


class Foreign(OfVersionOne):
    """Databases that are none of version 1 or of the present one: `migrate` and all other commands refuse them, and they stay as they
    are."""

    def refused(self, *statements):
        """The office of version 1 is refused after these statements. `sqlite3` has left no log, so the file keeps its bytes."""
        file, office = self.room / "changed.db", self.database
        for path in self.room.glob("changed.db*"):
            path.unlink()
        shutil.copy(office, file)
        changed_by(file, *statements)
        self.database, before = file, file.read_bytes()
        with self.subTest(statements):
            for name, words in self.commands.items():
                self.assertEqual(self.command(name, *words, timeout=PATIENCE), STORE, name)
                self.assertEqual(file.read_bytes(), before, name)
            self.is_sound()
        self.database = office

    def test_other_versions(self):
        """Also the present version, whose table of leads is missing."""
        for version in (7, VERSION, 3, 0, -1, 257, 2**32 + 1):
            self.refused(f"UPDATE settings SET version = {version}")

    def test_other_settings(self):
        for statement in (
            "DELETE FROM settings",
            "UPDATE settings SET id = 2",
            "UPDATE settings SET operator_key = 'short'",
            "UPDATE settings SET lead_minutes = 1441",
        ):
            self.refused(statement)

    def test_other_tables(self):
        for statements in (
            ["CREATE TABLE notes (text)"],
            ["DROP TABLE marks"],
            ["DROP TABLE settings"],
            ["DROP TABLE units"],
            ["ALTER TABLE prices ADD COLUMN more INT"],
            ["CREATE INDEX dates ON meters (day)"],
            ["CREATE VIEW leads AS SELECT * FROM units"],
            [LEADS],
            [LEADS.replace("day_to INT", "day_to TEXT"), f"UPDATE settings SET version = {VERSION}"],
            [LEADS.replace("(unit, day_from))", "(unit))"), f"UPDATE settings SET version = {VERSION}"],
            [LEADS, f"UPDATE settings SET version = {VERSION}", "CREATE TABLE notes (text)"],
        ):
            self.refused(*statements)

    def test_units_that_no_office_has(self):
        """It reads them all, and writes nothing."""
        for statement in (
            "UPDATE units SET side = 2 WHERE unit = 'G1'",
            "UPDATE units SET interconnector = 2 WHERE unit = 'S1'",
            "UPDATE units SET day_to = day_from - 1 WHERE unit = 'S1'",
            "UPDATE units SET day_to = 47482 WHERE unit = 'S1'",
            "UPDATE units SET party = 'genco' WHERE unit = 'G1'",
            "UPDATE units SET unit = 'g1' WHERE unit = 'G1'",
        ):
            self.refused(statement)

    def test_a_table_of_leads_that_was_made_by_hand(self):
        """It has the columns and the key, and the settings name the present version: nobody looks whether its rows are those of the
        units."""
        changed_by(self.database, LEADS, "INSERT INTO leads SELECT unit, day_from, party, side, day_to FROM units", f"UPDATE settings SET version = {VERSION}")
        self.is_migrated()
        self.assertEqual(self.command("migrate"), DONE)
        self.is_migrated()


class Files(OfVersionOne):
    """No file is removed, whatever is answered."""

    def stay(self, database, wanted, streams=""):
        """Each file that is there before is there after it. Files are put into a folder of their own."""
        before = {path.name for path in database.parent.iterdir()}
        self.database = database
        self.assertEqual(self.by_shell(streams, "migrate"), wanted)
        self.assertLessEqual(before, {path.name for path in database.parent.iterdir()})
        return before

    def test_of_kept_offices(self):
        """Migrated, again, and by an output that takes nothing."""
        for name in OFFICES:
            with self.subTest(name):
                database = unpack(name, self.room / name)
                self.stay(database, OUTPUT, ">/dev/full")
                self.stay(database, DONE)
                self.stay(database, DONE)

    def test_of_what_is_refused(self):
        """A database of others, an office with another version, what is no database, and a log whose file isn't there."""
        notes = self.room / "notes"
        notes.mkdir()
        changed_by(notes / "notes.db", "CREATE TABLE notes (text)")
        self.stay(notes / "notes.db", STORE)
        for name in ("market", "killed", "killed-2"):
            database = unpack(name, self.room / "refused" / name)
            with contextlib.closing(sqlite3.connect(database)) as connection:
                connection.execute("PRAGMA wal_autocheckpoint = 0")
                connection.execute("UPDATE settings SET version = 7")
                connection.commit()
                copies = self.room / "copies" / name
                shutil.copytree(database.parent, copies)
            (copies / "office.db-shm").unlink(missing_ok=True)
            self.assertGreater((copies / "office.db-wal").stat().st_size, 4096)
            self.stay(copies / "office.db", STORE)
            self.assertEqual(rows_of(copies / "office.db", "settings")[0][1], 7)
        for data in (b"", b"x", b"SQLite format 3\0" * 512):
            folder = self.room / f"bytes{len(data)}"
            folder.mkdir()
            (folder / "office.db").write_bytes(data)
            (folder / "office.db-wal").write_bytes(b"")
            self.stay(folder / "office.db", STORE)
            self.assertEqual((folder / "office.db").read_bytes(), data)
        gone = self.room / "gone"
        gone.mkdir()
        (gone / "office.db-wal").write_bytes(b"kept")
        self.assertEqual(self.stay(gone / "office.db", NO_FILE), {"office.db-wal"})
        self.assertEqual([path.name for path in gone.iterdir()], ["office.db-wal"])


if __name__ == "__main__":
    unittest.main()
