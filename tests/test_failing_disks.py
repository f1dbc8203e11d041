"""An office in a file whose disk fails, by `failing_disk.c`: each read, write or sync of the database, or of its log, after none of
them, after one, and so on until none fails. `sqlite3` then reads what is left, if nothing is lost and if all is lost that was not
synced: it is what was there before the request that met the failure, or after it. From each third of that, or by `tests/run --long`
from all of it, the office goes on, and all that is asked again gets the right answers.

Scripts are run by `hh_bench office`. With few pages in memory the program writes pages, and copies the log into the database's
file, during requests. With many it writes the database's file when it closes it."""
import contextlib
import hashlib
import os
import pathlib
import re
import shutil
import sqlite3
import subprocess
import tempfile
import unittest

from programs import BENCH, HOME, IS_LONG, need
from test_database import TABLES
from test_desk import APPLIED, DAY, DEADLINE, DEARER, EARLY, LEADS_CHANGE, LOADED, MARKET, NEXT_END, OPERATOR, SETTLED, text_of
from test_reports import BALANCES, balances

PATIENCE = 120
MOST_CALLS = 20_000
GO_ON_EACH = 1 if IS_LONG else 3  # of what disks that fail leave
# The words by which an office is made: the operator's key, and the lead in minutes.
MADE = (OPERATOR, "60")
STORE = "refused 91 Store"
# A contract of 98 MWh replaces the market's 99 a second before its deadline, and then one of 99 replaces it, sent earlier.
FILES = [
    *((EARLY, kind, rows) for kind, rows in MARKET),
    (DEADLINE - 1, "contracts", [f"C1,GENCO-P,SUPCO-C,{DAY},1,98.000"]),
    (EARLY, "contracts", [f"C1,GENCO-P,SUPCO-C,{DAY},1,99.000"]),
    (EARLY, "prices", [f"{DAY},1,60.00000"]),
    (EARLY, "units", LEADS_CHANGE),
]
ANSWERS = [*LOADED, APPLIED, APPLIED, SETTLED, APPLIED, DEARER, f"applied={len(LEADS_CHANGE)} late=0"]
TOLD = "".join(f"{answer}\n" for answer in ANSWERS) + BALANCES.replace("38", "45")
# Which part met a failure: making the office, a request, the balances, or closing it.
MAKING, ENDING = "making", "ending"


def content_of(path):
    """All rows of a database, by table. Nothing if it has no tables, or isn't a database."""
    with contextlib.closing(sqlite3.connect(path)) as connection:
        try:
            if not connection.execute("SELECT count(*) FROM sqlite_schema").fetchone()[0]:
                return None
        except sqlite3.DatabaseError:
            return None
        keys = {table: [column.partition(":")[0] for column in columns.split()[:count]] for table, (count, columns) in TABLES.items()}
        return {table: connection.execute(f"SELECT * FROM {table} ORDER BY {', '.join(key)}").fetchall() for table, key in keys.items()}


class FailingDisk(unittest.TestCase):
    """A test with a folder of its own, in memory if there is one, and the scripts."""

    SMALL = ()

    def setUp(self):
        if shutil.which("cc") is None:
            self.skipTest("no C compiler `cc` is on the path, so no disk failed")
        need(BENCH)
        room = tempfile.TemporaryDirectory(dir="/dev/shm" if os.access("/dev/shm", os.W_OK) else None)
        self.addCleanup(room.cleanup)
        self.room = pathlib.Path(room.name).resolve()
        self.library = self.room / "failing_disk.so"
        subprocess.run(["cc", "-shared", "-fPIC", "-O1", "-o", self.library, HOME / "tests" / "failing_disk.c"], check=True)
        self.script = self.room / "script"
        self.lines = self.requests()
        self.known = {}
        self.contents = self.contents_after_each()

    def requests(self):
        """The lines of the script: the market is loaded and settled, and again at a higher price. Then units get a wider range and other
        lead accounts."""
        lines = []
        for number, (moment, kind, rows) in enumerate(FILES):
            path = self.room / f"f{number}.csv"
            path.write_bytes(text_of(kind, rows))
            lines.append(f"load {moment} {OPERATOR} {kind} {path}\n")
        lines.insert(7, f"run {NEXT_END} {OPERATOR} {DAY} SF\n")
        lines.insert(-1, f"run {NEXT_END} {OPERATOR} {DAY} R1\n")
        return [*lines, f"{balances()}\n"]

    def ask(self, database, lines, made=(), **how):
        """What comes of these lines over a file: the status, what is printed, and what is told beside the times."""
        self.script.write_text("".join(lines))
        words = [BENCH, "office", str(database), str(self.script), *self.SMALL, *made]
        done = subprocess.run(words, stdin=subprocess.DEVNULL, capture_output=True, text=True, timeout=PATIENCE, close_fds=False, **how)
        return done.returncode, done.stdout, re.sub(r"(?m)^[0-9]+\n", "", done.stderr)

    def contents_after_each(self):
        """What a file has that was made, and after each of the requests, if no disk fails."""
        database, found = self.room / "right.db", []
        for line in ["", *self.lines[:-1]]:
            status, _, told = self.ask(database, [line], () if found else MADE)
            self.assertEqual((status, told), (0, ""))
            found.append(content_of(database))
        for before, after in zip(found, found[1:]):
            self.assertNotEqual(before, after)
        return found

    def left(self, database, log):
        """What `sqlite3` reads of a database and its log. What it has read before isn't read again."""
        key = hashlib.blake2b(database).digest() + hashlib.blake2b(log).digest()
        if key not in self.known:
            self.put("read.db", database, log)
            self.known[key] = content_of(self.room / "read.db")
        return self.known[key]

    def put(self, name, database, log):
        """A file with a log, in the place of those that were there."""
        for ending, data in (("", database), ("-wal", log), ("-shm", None), (".synced", None), ("-wal.synced", None)):
            path = self.room / f"{name}{ending}"
            path.unlink(missing_ok=True)
            if data:
                path.write_bytes(data)
        return self.room / name

    def read(self, name):
        """The bytes of a file, or none if it isn't there."""
        path = self.room / name
        return path.read_bytes() if path.exists() else b""

    def failed(self, failing, passing):
        """What comes of all lines if a disk fails after so many calls, and which part met that, or none. What each loss leaves."""
        database = self.put("office.db", b"", b"")
        disk = {"LD_PRELOAD": str(self.library), "DISK_OF": str(database), "FAILING": failing, "FAIL_AFTER": str(passing)}
        status, printed, told = self.ask(database, self.lines, MADE, env=dict(os.environ, **disk))
        answers = printed.splitlines()
        if (status, told) == (0, ""):
            part = None
        elif not printed:
            part = MAKING
        else:
            part = ENDING if STORE not in answers else answers.index(STORE)
        self.assertTrue(TOLD.startswith(printed.partition(f"{STORE}\n")[0]), printed)
        self.assertTrue(part is None or status == 1, (status, told))
        return part, [[self.read(f"office.db{end}{ending}") for end in ("", "-wal")] for ending in ("", ".synced")]

    def allowed(self, part):
        """What may be left if this part met a failure."""
        if part == MAKING:
            return [None, self.contents[0]]
        return self.contents[-1:] if part in (ENDING, None) else self.contents[part : part + 2]

    def go_on(self, files):
        """The office goes on from what is left. If it was not made, it is made now."""
        made = () if self.left(*files) else MADE
        database = self.put("office.db", *files)
        self.assertEqual(self.ask(database, self.lines, made), (0, TOLD, ""))
        self.assertEqual(content_of(database), self.contents[-1])

    def sweep(self, failing):
        """Which parts met a failure. The office goes on from each third of what is left, or by `tests/run --long` from all of it."""
        met, tried = set(), set()
        for passing in range(MOST_CALLS):
            with self.subTest(failing, passing=passing):
                part, losses = self.failed(failing, passing)
                met.add(part)
                for files in losses:
                    self.assertIn(self.left(*files), self.allowed(part))
                    key = part, *(hashlib.blake2b(data).digest() for data in files)
                    if key not in tried and len(tried) % GO_ON_EACH == 0:
                        self.go_on(files)
                    tried.add(key)
                if part is None:
                    return met
        raise AssertionError("a disk always failed")

    def meets(self, failing, *parts):
        self.assertLessEqual({*parts}, self.sweep(failing))


class LogWithManyPages(FailingDisk):
    def test_each_request_meets_a_failure(self):
        self.meets("log", MAKING, ENDING, *range(len(ANSWERS)))


class LogWithFewPages(FailingDisk):
    SMALL = ("small",)

    def test_each_request_meets_a_failure(self):
        self.meets("log", MAKING, ENDING, *range(len(ANSWERS)))


class DatabaseWithManyPages(FailingDisk):
    def test_both_ends_meet_failures(self):
        self.meets("database", MAKING, ENDING)


class DatabaseWithFewPages(FailingDisk):
    SMALL = ("small",)

    def test_each_request_meets_a_failure(self):
        self.meets("database", MAKING, ENDING, *range(len(ANSWERS)))


if __name__ == "__main__":
    unittest.main()
