"""`./look` over the offices of `versions`, without a built program: how it copies an office's files, that nothing of the office changes,
which words it takes, what it refuses, and the commands that count: `status`, `missing`, `when` and `snapshot`."""
import contextlib
import os
import pathlib
import random
import re
import shutil
import sqlite3
import stat
import subprocess
import sys
import time
import unittest
import unittest.mock

from kept_offices import OFFICES
from looking import Looking, changing, documented, look
from programs import HOME, IS_LONG
from test_database import content_of_any

from look import clock, commands, copying, office
from look.telling import Fault

DAY = "2024-07-01"
LOG_HEADER = 32
ZONE = "GMT0BST,M3.5.0/1,M10.5.0"  # as docs/market.md has it
# A word for each command over an office that shows figures, with the office that has them.
SHOWING = [
    ("status",),
    ("missing", DAY),
    ("why", "CITYSUP-C", DAY, "SF", "23"),
    ("why", "CITYSUP-C", DAY),
    ("statement", "CITYSUP-C", DAY),
    ("statement", "CITYSUP-C", DAY, "--csv"),
    ("statement", "CITYSUP-C", DAY, "2024-07-31"),
    ("compare", DAY, "SF", "R1"),
    ("postings", DAY, "R1"),
    ("postings", DAY, "R1", "--csv"),
    ("postings", DAY, "R1", "--hledger"),
    ("page", DAY, "R1"),
]

# What a row may get, by the type of the column.
VALUES = {
    "INT": (0, -1, 2, 99, 47_482, 10**15, 2**63 - 1, -(2**63)),
    "TEXT": ("", "x", "A" * 100, "\u00e9", '"', "a,b", "<b>&", "2__SHOPS"),
    "BLOB": (b"", b"\xff\xfe", b'a,2024-07-01,b\n"', b"x\n2024-07-01,1\n", b"x\nU,X-Q,2024-07-01,1,1,1\n"),
}


def asked(words, database):
    """The words with an office behind the command."""
    return [words[0], "--db", database, *words[1:]]


def state_of(database):
    """The bytes and the times of all files beside an office, and its own."""
    return {path.name: (path.read_bytes(), path.stat().st_mtime_ns, path.stat().st_ino) for path in database.parent.iterdir()}


class Copies(Looking):
    """Both files are copied byte by byte, and the copy alone is opened."""

    def test_the_office_stays_as_it_is(self):
        """Its bytes, times and files; whatever is asked. No folder stays behind."""
        database = self.kept("market")
        before = state_of(database)
        with unittest.mock.patch.dict(os.environ, TMPDIR=str(self.room)):
            for words in [*SHOWING, ("snapshot", self.room / "copy.db")]:
                look(*asked(words, database))
                self.assertEqual(state_of(database), before, words)
        self.assertEqual([path.name for path in self.room.iterdir() if path.name.startswith("look-")], [])

    def test_what_is_in_the_log_alone(self):
        """The services of four offices were killed, and what they committed last is in the log. What two were writing isn't there."""
        for name, runs in ("killed", "SF R1"), ("killed-writing", "SF"), ("killed-2", "SF R1"), ("killed-writing-2", "SF"):
            row = self.shows("status", "--db", self.kept(name))[-1]
            self.assertRegex(row, rf"{DAY} +48 +48/48 +96/96 +1 +{runs} ")

    def test_links(self):
        """The log is beside the file to which a link leads. Of a file with two names nobody knows where it is."""
        database = self.kept("killed")
        link = self.room / "link.db"
        link.symlink_to(database)
        self.assertEqual(self.shows("status", "--db", link), self.shows("status", "--db", database))
        link.unlink()
        os.link(database, link)
        told = "the file has another name too, and its log may be beside that one"
        for path in link, database:
            self.assertEqual(self.refuses("status", "--db", path), f"look: {path}: {told}")

    def test_an_office_without_a_log(self):
        database = self.kept("without-positions")
        self.assertEqual([path.name for path in database.parent.iterdir()], ["office.db"])
        self.assertIn(" SF ", self.shows("status", "--db", database)[-1])

    def test_while_another_program_holds_the_file(self):
        """The lock of a process doesn't keep `look` out, and stays."""
        database = self.kept("market")
        with contextlib.closing(sqlite3.connect(database, isolation_level=None)) as other:
            other.execute("PRAGMA locking_mode = EXCLUSIVE")
            other.execute("BEGIN EXCLUSIVE")
            made = subprocess.run([HOME / "look", "status", "--db", database], capture_output=True, text=True)
            self.assertEqual((made.returncode, made.stderr), (0, ""))
            self.assertIn("240/240", made.stdout)
            with contextlib.closing(sqlite3.connect(database, timeout=0)) as third, self.assertRaises(sqlite3.OperationalError):
                third.execute("SELECT * FROM runs").fetchall()

    def test_nobody_else_may_read_the_copy(self):
        database = self.kept("killed")
        os.chmod(database, 0o644)
        with copying.copied(str(database)) as copy:
            for path in copy, copy + "-wal":
                self.assertEqual(stat.S_IMODE(os.stat(path).st_mode), 0o600)
            self.assertEqual(stat.S_IMODE(os.stat(os.path.dirname(copy)).st_mode), 0o700)
            self.assertEqual(pathlib.Path(copy).read_bytes(), database.read_bytes())
            self.assertEqual(pathlib.Path(copy + "-wal").read_bytes(), database.with_name("office.db-wal").read_bytes())
        self.assertFalse(os.path.exists(os.path.dirname(copy)))

    def copies_while(self, database, *happen):
        """How often both files were copied while these things happened, one in each copying. The copy's rows are the office's."""
        left, made = list(happen), []

        def copy_file(path, copy, real=copying.copy_file):
            real(path, copy)
            made.append(path)
            if path == str(database) and left:
                left.pop(0)()

        with unittest.mock.patch.object(copying, "copy_file", copy_file), unittest.mock.patch.object(copying, "PAUSE", 0):
            copying.copy_office(str(database), str(self.room / "copy.db"))
        self.assertEqual(content_of_any(self.room / "copy.db"), content_of_any(shutil.copytree(database.parent, self.room / "whole") / "office.db"))
        return made.count(str(database))

    def test_a_file_that_moves_is_copied_anew(self):
        database = self.kept("dearer-sf")
        other = self.kept("dearer-r1")

        def written():
            shutil.copy(other, database)

        def touched():
            os.utime(database, ns=(0, database.stat().st_mtime_ns + 1))

        self.assertEqual(self.copies_while(database, written, touched), 3)

    def test_a_log_that_begins_anew(self):
        """What was in the log was copied into the file, and the log has another header."""
        database = self.kept("killed")
        log = database.with_name("office.db-wal")

        def folded():
            times = database.stat()
            with contextlib.closing(sqlite3.connect(database)) as other:
                other.execute("PRAGMA wal_checkpoint(TRUNCATE)")
            log.write_bytes(b"7\x7f\x06\x82" + bytes(LOG_HEADER - 4))
            os.utime(database, ns=(times.st_atime_ns, times.st_mtime_ns))

        self.assertEqual(self.copies_while(database, folded), 2)

    def test_a_log_that_goes(self):
        database = self.kept("killed")

        def gone():
            with contextlib.closing(sqlite3.connect(database)) as other:
                other.execute("SELECT count(*) FROM runs").fetchall()

        self.assertEqual(self.copies_while(database, gone), 2)
        self.assertFalse((self.room / "copy.db-wal").exists())

    def test_a_log_that_only_grows(self):
        """The copy has a beginning of it, and in that what was committed. Nothing is copied anew."""
        database = self.kept("killed")
        log = database.with_name("office.db-wal")
        whole = log.read_bytes()
        log.write_bytes(whole[: len(whole) // 2])
        before = content_of_any(database.parent.rename(self.room / "half") / "office.db")
        database = self.kept("killed")
        log = database.with_name("office.db-wal")
        log.write_bytes(whole[: len(whole) // 2])
        made = []

        def copy_file(path, copy, real=copying.copy_file):
            real(path, copy)
            made.append(path)
            if path == str(log):
                log.write_bytes(whole)

        with unittest.mock.patch.object(copying, "copy_file", copy_file):
            copying.copy_office(str(database), str(self.room / "copy.db"))
        self.assertEqual(len(made), 2)
        self.assertEqual(content_of_any(self.room / "copy.db"), before)

    def test_a_file_that_never_stays(self):
        database = self.kept("new")
        with unittest.mock.patch.object(copying, "stayed", lambda *_: False), unittest.mock.patch.object(copying, "PATIENCE", 0.05):
            with self.assertRaisesRegex(Fault, "it changed each time"):
                copying.copy_office(str(database), str(self.room / "copy.db"))

    def test_no_key_is_shown(self):
        database = self.kept("market")
        with contextlib.closing(sqlite3.connect(database)) as office_file:
            keys = [key for (key,) in office_file.execute("SELECT access_key FROM parties UNION SELECT operator_key FROM settings")]
        self.assertEqual(len(keys), 5)
        for words in SHOWING:
            told = "".join(look(*asked(words, database))[1:])
            self.assertEqual([key for key in keys if key in told], [], words)

    def test_a_signal_leaves_no_copy(self):
        """Nor does Ctrl-C. The command reads from a pipe that it waits for."""
        code = "import os, signal, sys; sys.path.insert(0, sys.argv[1]); import runpy; os.environ['TMPDIR'] = sys.argv[3];"
        code += "import look.office as office; office.Office.settings = lambda self: os.kill(os.getpid(), signal.SIGTERM) or 60;"
        code += "sys.argv = ['look', 'status', '--db', sys.argv[2]]; runpy.run_path(sys.path[0] + '/../look', run_name='__main__')"
        call = [sys.executable, "-B", "-c", code, HOME / "tools", self.kept("new"), self.room]
        made = subprocess.run(call, capture_output=True, text=True)
        self.assertEqual((made.returncode, made.stdout), (130, ""), made.stderr)
        self.assertEqual([path.name for path in self.room.iterdir() if path.name.startswith("look-")], [])


class Refused(Looking):
    """What can't be done is one line with status 1, and a word that is wrong has status 2."""

    def test_files_that_are_no_offices(self):
        other = self.room / "other.db"
        with changing(other) as made:
            made.execute("CREATE TABLE runs (day)")
        text, empty = self.room / "text", self.room / "empty.db"
        text.write_text("a file\n" * 1000)
        empty.write_bytes(b"")
        for path in other, text, empty:
            self.assertEqual(self.refuses("status", "--db", path), f"look: {path}: it is no office's file")
        self.assertEqual(self.refuses("status", "--db", self.room), f"look: {self.room}: it is no file")
        self.assertEqual(self.refuses("status", "--db", self.room / "gone.db"), f"look: {self.room}/gone.db: there is no file")

    def test_a_file_that_may_not_be_read(self):
        database = self.kept("new")
        with unittest.mock.patch("builtins.open", side_effect=PermissionError(13, "Permission denied", str(database))):
            with self.assertRaisesRegex(Fault, "Permission denied"):
                copying.copy_file(str(database), str(self.room / "copy"))

    def test_another_version(self):
        database = self.kept("market")
        for version in 0, 3:
            with changing(database) as made:
                made.execute("UPDATE settings SET version = ?", (version,))
            told = self.refuses("status", "--db", database)
            self.assertIn(f"its tables are of version {version}, and only those of versions 1 and 2 are read here", told)

    def test_both_versions(self):
        """Of an office that was migrated the same is shown, and of one of version 2 that was asked the same."""
        for words in SHOWING:
            shown = look(*asked(words, self.kept("market")))
            for database in self.present("market"), self.kept("market-2"):
                with self.subTest(f"{words} {database}"):
                    self.assertEqual(look(*asked(words, database)), shown)

    def test_what_the_program_is_not_asked(self):
        """It opens the present version alone, so nothing of an older office is asked, and the line says what helps."""
        database = self.kept("market")
        path = self.room / "p.csv"
        path.write_text("date,period,price\n")
        for words in ("check", "--db", database, "prices", path), ("preview", "--db", database, DAY, "R2"):
            for more in (), ("--whole",):
                told = self.refuses(words[0], *more, *words[1:])
                self.assertEqual(told, f"look: {database}: its tables are of version 1, which the program doesn't open; `settle migrate` makes them usable")

    def test_a_change_that_is_half_done(self):
        database = self.kept("new")
        database.with_name("office.db-journal").write_bytes(b"")
        self.assertIn("office.db-journal", self.refuses("status", "--db", database))

    def test_a_damaged_file(self):
        """Pages that are overwritten are a fault of the file, in one line."""
        database = self.kept("market")
        data = bytearray(database.read_bytes())
        for page in range(2, len(data) // 4096):
            data[page * 4096 : page * 4096 + 64] = bytes(64)
        database.write_bytes(data)
        for words in SHOWING:
            self.assertIn(str(database), self.refuses(*asked(words, database)))

    def test_rows_that_no_office_writes(self):
        for change in (
            "UPDATE runs SET kind = 6 WHERE kind = 1",
            "UPDATE results SET side = 2 WHERE period = 3 AND side = 1",
            "UPDATE units SET side = -1",
            "UPDATE files SET body = x'00ff' WHERE kind = 'meters'",
            "UPDATE files SET body = CAST(replace(CAST(body AS TEXT), ',1,', ',x,') AS BLOB) WHERE kind = 'prices'",
        ):
            with self.subTest(change):
                shutil.rmtree(self.room / "market", ignore_errors=True)
                database = self.kept("market")
                with changing(database) as made:
                    made.execute(change)
                found, out, err = look("why", "--db", database, "CITYSUP-C", DAY, "SF")
                self.assertEqual(found, 1, out)
                self.assertTrue(err.count("\n") == 1 or "doesn't follow" in out or "don't follow" in out, (out, err))

    def test_any_number_and_text(self):
        """Rows get values that no office writes, as many as tables may hold. What is shown of them is a line or a mark, and no failure
        of the script."""
        draw, whole = random.Random(9), self.kept("market")
        with changing(whole) as made:
            names = [name for (name,) in made.execute("SELECT name FROM sqlite_master WHERE type = 'table'")]
            tables = [(name, made.execute(f"PRAGMA table_info({name})").fetchall()) for name in names]
        for number in range(400 if IS_LONG else 20):
            database = self.room / f"{number}.db"
            shutil.copy(whole, database)
            with changing(database) as made:
                table, columns = draw.choice(tables)
                column, kind = draw.choice(columns)[1:3]
                (rowid,) = draw.choice(made.execute(f"SELECT rowid FROM {table}").fetchall() or [(1,)])
                with contextlib.suppress(sqlite3.IntegrityError):
                    made.execute(f"UPDATE {table} SET {column} = ? WHERE rowid = ?", (draw.choice(VALUES[kind]), rowid))
            words = draw.choice(SHOWING)
            status, out, err = look(*asked(words, database))
            self.assertIn(status, (0, 1), (words, table, column))
            self.assertTrue(out or err.count("\n") == 1, (words, table, column, err))

    def test_what_is_not_there(self):
        database = self.kept("market")
        for words, told in (
            (("why", "NOBODY-P", DAY), "there is no account NOBODY-P: no party NOBODY is registered"),
            (("statement", "NOBODY-C", DAY), "there is no account NOBODY-C: no party NOBODY is registered"),
            (("page", DAY, "SF", "--account", "NOBODY-C"), "there is no account NOBODY-C: no party NOBODY is registered"),
            (("why", "CITYSUP-P", "2024-07-02"), "2024-07-02 has no run"),
            (("postings", "2024-07-02", "SF"), "2024-07-02 has no run"),
            (("page", DAY, "R2"), "2024-07-01 has no run R2; it has SF, R1"),
            (("compare", DAY, "SF", "DF"), "2024-07-01 has no run DF; it has SF, R1"),
            (("statement", "CITYSUP-P", "2024-07-02", "2024-07-09"), "no date from 2024-07-02 to 2024-07-09 has such a run"),
        ):
            self.assertEqual(self.refuses(*asked(words, database)), f"look: {database}: {told}")
        told = self.refuses(*asked(("why", "CITYSUP-P", DAY, "SF", "49"), database))
        self.assertEqual(told, "look: 2024-07-01 has 48 periods, and no period 49")

    def test_wrong_words(self):
        """They are judged before any file is looked at."""
        for words in (
            (),
            ("statuses",),
            ("status",),
            ("status", "--db"),
            ("status", "--db", "no.db", "2024-02-30"),
            ("status", "--db", "no.db", DAY, "2024-06-30"),
            ("missing", "--db", "no.db"),
            ("missing", "--db", "no.db", "2000-12-31"),
            ("missing", "--db", "no.db", "20240701"),
            ("why", "--db", "no.db", "CITYSUP", DAY),
            ("why", "--db", "no.db", "citysup-P", DAY),
            ("why", "--db", "no.db", "CITYSUP-P", DAY, "S1"),
            ("why", "--db", "no.db", "CITYSUP-P", DAY, "SF", "51"),
            ("why", "--db", "no.db", "CITYSUP-P", DAY, "SF", "1", "2"),
            ("statement", "--db", "no.db", "CITYSUP-P", DAY, "2024-06-30"),
            ("postings", "--db", "no.db", DAY, "SF", "--csv", "--hledger"),
            ("page", "--db", "no.db", DAY),
            ("page", "--db", "no.db", DAY, "2024-06-30"),
            ("check", "--db", "no.db", "rows", "file.csv"),
            ("preview", "--db", "no.db", "--at", "noon", DAY, "SF"),
            ("when",),
            ("when", "25:00"),
            ("when", DAY, "1", "2"),
            ("when", "1719784800", "1"),
        ):
            found, out, err = look(*words)
            self.assertEqual((found, out), (2, ""), words)
            self.assertIn("look", err.splitlines()[-1])

    def test_help(self):
        found, out, err = look("--help")
        self.assertEqual((found, err), (0, ""))
        for name in "status missing when why statement compare postings check preview snapshot page".split():
            self.assertIn(f"\n    {name}", out)
            self.assertEqual(look(name, "--help")[0], 0)

    def test_an_output_that_takes_nothing(self):
        """It is full, closed, or its reader has gone away."""
        line = f"{HOME / 'look'} statement --db {self.kept('market')} CITYSUP-C {DAY}"
        for end, told in ("> /dev/full", "look: standard output: No space left on device\n"), (">&-", ""), ("| true", None):
            made = subprocess.run(["sh", "-c", f"{line} {end}"], capture_output=True, text=True)
            self.assertEqual(made.stdout, "")
            if told is not None:
                self.assertEqual((made.returncode, made.stderr), (1, told))
            self.assertIn(made.stderr, (told, "", "look: standard output: Broken pipe\n"))


class Status(Looking):
    """Which dates there are, what they lack, and what may be done next."""

    def rows(self, database, *words):
        """The cells of each date."""
        return [re.split(r"  +", line) for line in self.shows("status", "--db", database, *words)[3:]]

    def test_a_new_office(self):
        lines = self.shows("status", "--db", self.kept("new"))
        self.assertEqual(lines[0], "0 parties, 0 units, 0 files; deadlines 45 minutes before a period")
        self.assertEqual(lines[2:], ["no date has a price, a reading, a contract, a reallocation or a run"])

    def test_the_week(self):
        """As it stood on the morning of 2024-10-28, with prices and readings missing for Sunday, and Thursday's corrections loaded."""
        database = self.kept("week")
        with changing(database) as week:
            week.execute("DELETE FROM prices WHERE day = ? AND period >= 49", (clock.day_of("2024-10-27"),))
            week.execute("DELETE FROM meters WHERE day = ? AND period >= 45 AND unit = 'I_SEALINK'", (clock.day_of("2024-10-27"),))
            week.execute("DELETE FROM runs WHERE day = ?", (clock.day_of("2024-10-27"),))
            week.execute("DELETE FROM runs WHERE kind = 1")
            week.executemany("INSERT INTO touched VALUES (?, ?)", [(clock.day_of("2024-10-24"), period) for period in range(21, 27)])
        rows = self.rows(database, "2024-10-23", "2024-10-27")
        settled = [["48", "48/48", "240/240", contracts, "SF"] for contracts in ("204", "204", "204", "144")]
        self.assertEqual(
            rows,
            [
                ["2024-10-23", *settled[0], "-", "-"],
                ["2024-10-24", *settled[1], "6 periods", "R1 would settle it anew"],
                ["2024-10-25", *settled[2], "-", "-"],
                ["2024-10-26", *settled[3], "-", "-"],
                ["2024-10-27", "50", "48/50", "244/250", "155", "-", "-", "2 prices and 6 readings missing"],
            ],
        )
        self.assertEqual(self.rows(database, "2024-10-24"), rows[1:2])
        self.assertEqual(
            self.shows("missing", "--db", database, "2024-10-27"),
            [
                "2024-10-27, a Sunday: 50 periods, 5 units",
                "prices: periods 49 to 50",
                "I_SEALINK (SEALINK-P): periods 45 to 50",
                "2 prices and 6 readings are missing",
                "a run names the first: 53 MissingPrice period 49",
            ],
        )

    def test_what_has_changed_since(self):
        """A price of dearer-sf was corrected. In an office without positions it isn't known which periods have changed. A party that
        joined is two accounts more."""
        self.assertEqual(self.rows(self.kept("dearer-sf"))[0][-2:], ["1 period", "R1 would settle it anew"])
        self.assertEqual(self.rows(self.kept("without-positions"))[0][-2:], ["not known", "R1 would settle it anew"])
        database = self.kept("first-r1")
        with changing(database) as made:
            made.execute("INSERT INTO parties VALUES ('NEWCO', ?, ?, 'newco0001')", (clock.day_of(DAY), clock.day_of(DAY)))
        self.assertEqual(self.rows(database)[0][-2:], ["2 accounts more", "R2 would settle it anew"])
        with changing(database) as made:
            made.execute("UPDATE runs SET kind = 5 WHERE kind = 1")
        self.assertEqual(self.rows(database)[0][-3:], ["SF DF", "2 accounts more", "no kind of run is left"])

    def test_a_date_that_is_ready(self):
        database = self.kept("first-sf")
        with changing(database) as made:
            made.execute("DELETE FROM runs")
        self.assertEqual(self.rows(database)[0][-3:], ["-", "-", "SF"])

    def test_units_and_dates(self):
        """A unit counts on the dates of its range alone, and so do its readings."""
        database = self.kept("first-sf")
        with changing(database) as made:
            made.execute("UPDATE units SET day_from = ? WHERE unit = 'S1'", (clock.day_of("2024-07-02"),))
        self.assertEqual(self.rows(database)[0][:5], [DAY, "48", "48/48", "48/48", "1"])

    def test_nothing_is_missing(self):
        lines = self.shows("missing", "--db", self.kept("market"), DAY)
        self.assertEqual(lines, ["2024-07-01, a Monday: 48 periods, 5 units", "nothing is missing"])

    def test_readings_alone_are_missing(self):
        """The first period comes first, and then the unit's name."""
        database = self.kept("market")
        with changing(database) as made:
            missing = [("T_NORTH-1", 7), ("E_MOOR-1", 9), ("2__SHOPS", 7), ("2__SHOPS", 9)]
            made.executemany("DELETE FROM meters WHERE unit = ? AND period = ?", missing)
        self.assertEqual(
            self.shows("missing", "--db", database, DAY)[1:],
            [
                "2__SHOPS (CITYSUP-C): periods 7, 9",
                "E_MOOR-1 (NORTHGEN-P): period 9",
                "T_NORTH-1 (NORTHGEN-P): period 7",
                "4 readings are missing",
                "a run names the first: 54 MissingMeter unit 2__SHOPS period 7",
            ],
        )

    def test_who_leads_a_unit_on_a_date(self):
        """It is the account of the registration that holds the date. The unit's own row has the latest."""
        database = self.present("market")
        with changing(database) as made:
            made.execute("DELETE FROM prices")
            day = clock.day_of(DAY)
            made.execute("UPDATE leads SET day_to = ? WHERE unit = '2__SHOPS'", (day,))
            made.execute("INSERT INTO leads VALUES ('2__SHOPS', ?, 'TRADECO', 1, ?)", (day + 1, clock.LAST))
            made.execute("UPDATE units SET party = 'TRADECO' WHERE unit = '2__SHOPS'")
            made.execute("DELETE FROM meters WHERE unit = '2__SHOPS'")
        self.assertIn("2__SHOPS (CITYSUP-C): all 48 periods", self.shows("missing", "--db", database, DAY))
        self.assertIn("2__SHOPS (TRADECO-C): all 48 periods", self.shows("missing", "--db", database, "2024-07-02"))

    def test_all_is_missing(self):
        """SEALINK takes part until 2025-03-31."""
        lines = self.shows("missing", "--db", self.kept("market"), "2025-04-01")
        self.assertEqual(lines[0], "2025-04-01, a Tuesday: 48 periods, 4 units")
        self.assertEqual(lines[1], "prices: all 48 periods")
        self.assertEqual(lines[-2], "48 prices and 192 readings are missing")


class When(Looking):
    """Dates, periods, clocks and moments, beside those of the C library for the market's zone."""

    def setUp(self):
        super().setUp()
        self.addCleanup(time.tzset)
        patched = unittest.mock.patch.dict(os.environ, TZ=ZONE)
        patched.start()
        self.addCleanup(patched.stop)
        time.tzset()

    def test_all_dates(self):
        """How many periods each has, and when it begins."""
        counts = {}
        begin = midnight_of(clock.FIRST)
        for day in range(clock.FIRST, clock.LAST + 1):
            end = midnight_of(day + 1)
            self.assertEqual(clock.midnight(day), begin)
            self.assertEqual(clock.count(day) * 1800, end - begin)
            counts[clock.count(day)] = counts.get(clock.count(day), 0) + 1
            begin = end
        self.assertEqual(counts, {48: 35_961, 46: 99, 50: 99})  # as docs/market.md counts them

    def test_periods_of_days_on_which_clocks_change(self):
        for date, count in ("2024-03-31", 46), ("2024-07-01", 48), ("2024-10-27", 50):
            day = clock.day_of(date)
            for period in range(1, count + 1):
                begin = midnight_of(day) + 1800 * (period - 1)
                local = time.localtime(begin)
                name = "BST" if local.tm_isdst else "GMT"
                lines = self.shows("when", date, period)
                self.assertRegex(lines[0], rf"^{date}.*: period {period} of {count}$")
                utc = time.strftime("%Y-%m-%dT%H:%M:%SZ", time.gmtime(begin))
                self.assertEqual(lines[1], f"from  {local.tm_hour:02}:{local.tm_min:02} {name}  {utc}  {begin}")
                self.assertTrue(lines[2].endswith(f"  {begin + 1800}"))
                self.assertIn(f"  {begin - 3600}  60 minutes before it", lines[3])
                self.assertEqual(self.shows("when", begin + (1799 if period % 2 else 0))[1:], lines)

    def test_a_date(self):
        """The midnights of docs/market.md."""
        for date, begin, told in (
            ("2024-03-31", 1_711_843_200, "a Sunday, on which clocks go forward: 46 periods"),
            ("2024-07-01", 1_719_788_400, "a Monday: 48 periods"),
            ("2024-10-27", 1_729_983_600, "a Sunday, on which clocks go back: 50 periods"),
        ):
            lines = self.shows("when", date)
            self.assertEqual(lines[0], f"{date}, {told}")
            self.assertTrue(lines[1].endswith(f"  {begin}"))
        self.assertTrue(self.shows("when", "2024-03-31")[2].endswith("  1711926000"))

    def test_a_time_of_a_clock(self):
        """On a day on which clocks change it is another period, two, or none. On 2024-10-27 period 19 begins at 08:00."""
        lines = [f"08:10 on a day of {count} periods: period {period}" for count, period in ((48, 17), (46, 15), (50, 19))]
        self.assertEqual(self.shows("when", "08:10"), lines)
        self.assertEqual([line.partition(": ")[2] for line in self.shows("when", "1:29")], ["period 3", "never", "period 3 and 5"])
        self.assertEqual([line.partition(": ")[2] for line in self.shows("when", "00:59")], ["period 2"] * 3)
        self.assertEqual(self.shows("when", "2024-10-27", "08:10")[0], "2024-10-27, on which clocks go back: period 19 of 50")
        both = self.shows("when", "2024-10-27", "01:30")
        self.assertEqual([line.rpartition(": ")[2] for line in both if ": " in line], ["period 4 of 50", "period 6 of 50"])
        told = self.refuses("when", "2024-03-31", "01:30")
        self.assertEqual(told, "look: clocks never show 01:30 on 2024-03-31: they go forward at 01:00")

    def test_the_lead_time_of_an_office(self):
        self.assertIn("45 minutes before it", self.shows("when", "--db", self.kept("new"), DAY, 1)[-1])

    def test_what_is_no_moment(self):
        """Milliseconds are far outside of all dates."""
        self.assertIn("moments are seconds", self.refuses("when", "1719784800000"))
        self.assertEqual(self.refuses("when", DAY, "49"), "look: 2024-07-01 has 48 periods, and no period 49")


def midnight_of(day):
    """The second at which a day begins, by the C library."""
    date = clock.date_of(day) if day <= clock.LAST else "2100-01-01"
    year, month, number = map(int, date.split("-"))
    return int(time.mktime((year, month, number, 0, 0, 0, 0, 0, -1)))


class Snapshots(Looking):
    def test_a_copy(self):
        """Both files, with the same bytes; for nobody else."""
        for name in "killed", "without-positions":
            database, out = self.kept(name), self.room / f"{name}.db"
            lines = self.shows("snapshot", "--db", database, out)
            self.assertEqual(out.read_bytes(), database.read_bytes())
            self.assertEqual(stat.S_IMODE(out.stat().st_mode), 0o600)
            log = out.with_name(f"{name}.db-wal")
            self.assertEqual(log.exists(), name == "killed")
            if log.exists():
                self.assertEqual(log.read_bytes(), database.with_name("office.db-wal").read_bytes())
            self.assertTrue(lines[0].startswith(f"{out} with {database.stat().st_size:,} bytes"))
            self.assertIn("it is whole", lines[1])
        self.assertEqual(lines[1], "4 parties, 5 units, 7 files, 1 run; it is whole")

    def test_where_something_is(self):
        database, out = self.kept("new"), self.room / "out.db"
        out.write_text("mine")
        self.assertEqual(self.refuses("snapshot", "--db", database, out), f"look: {out}: there is something already")
        self.assertEqual(out.read_text(), "mine")
        log = self.room / "other.db-wal"
        log.write_text("mine")
        self.assertIn(str(log), self.refuses("snapshot", "--db", database, self.room / "other.db"))
        self.assertFalse((self.room / "other.db").exists())

    def test_what_is_left_of_a_copy_that_fails(self):
        """Nothing, if the office isn't whole, or the folder isn't there."""
        database = self.kept("market")
        with open(database, "r+b") as file:
            file.seek(40 * 4096)
            file.write(b"\xff" * 4096)
        out = self.room / "out.db"
        self.refuses("snapshot", "--db", database, out)
        self.assertFalse(out.exists())
        self.assertIn("No such file or directory", self.refuses("snapshot", "--db", self.kept("new"), self.room / "no" / "out.db"))


class Documented(Looking):
    """docs/look.md, over the offices of the guide."""

    ASKING = "check", "preview"

    def setUp(self):
        super().setUp()
        for name in "market", "week":
            for path in self.kept(name).parent.iterdir():
                shutil.copy(path, self.room / path.name.replace("office", name))
        here = os.getcwd()
        self.addCleanup(os.chdir, here)
        os.chdir(self.room)

    def test_what_the_commands_print(self):
        """Those that ask the program are in test_look_program.py."""
        shown = set()
        for words, printed in documented():
            if words[0] not in (*self.ASKING, "snapshot", "page"):
                with self.subTest(" ".join(words)):
                    _, out, err = look(*words)
                    self.assertEqual(out + err, printed)
                    shown.add(words[0])
        self.assertEqual(shown, {"status", "missing", "when", "why", "statement", "compare", "postings"})

    def test_the_lines_for_a_shell(self):
        """A snapshot and a page."""
        lines = re.findall(r"```sh\n(\./look .*\n)```", (HOME / "docs/look.md").read_text(encoding="utf-8"))
        self.assertEqual(len(lines), 2)
        (self.room / "backup").mkdir()
        (self.room / "look").symlink_to(HOME / "look")
        script = "".join(lines).replace("/backup/", "backup/")
        made = subprocess.run(["sh", "-e", "-c", script], capture_output=True, text=True)
        self.assertEqual((made.returncode, made.stderr), (0, ""))
        self.assertEqual((self.room / "backup/market.db").read_bytes(), (self.room / "market.db").read_bytes())
        self.assertEqual((self.room / "2024-07-01-R1.html").read_text(encoding="utf-8"), look("page", "--db", "market.db", DAY, "R1")[1])

    def test_each_command_has_a_section(self):
        page = (HOME / "docs/look.md").read_text(encoding="utf-8")
        for name in commands.COMMANDS:
            self.assertIn(f"\n## {name}\n", page)
            self.assertIn(f"| [`{name}`](#{name}) |", page)


class Read(Looking):
    """What the modules of `look` hold of an office."""

    def test_all_kept_offices_open(self):
        for name, kept in OFFICES.items():
            with office.opened(str(self.kept(name))) as opened:
                self.assertEqual(opened.lead_minutes, kept.lead_minutes)
                self.assertEqual(opened.operator_key(), kept.operator)

    def test_accounts(self):
        for text, account in ("CITYSUP-P", ("CITYSUP", 0)), ("A-C", ("A", 1)), ("A1B2C3D4E5-C", ("A1B2C3D4E5", 1)):
            self.assertEqual(office.account_of(text), account)
            self.assertEqual(office.name_of(account), text)
        for text in "CITYSUP", "CITYSUP-X", "-P", "citysup-P", "A1B2C3D4E5F-C", "A B-P", "A-P-", "\u00c4-P":
            with self.assertRaises(ValueError, msg=text):
                office.account_of(text)


if __name__ == "__main__":
    unittest.main()
