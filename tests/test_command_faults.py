"""How commands on an office in a database file stop: at paths, at files that are no office's, at inputs, at ports, at the
office and at outputs; which of these comes first; and that nothing else is changed. Wrong words are in test_command_words.py.
Commands that run at the same time and killed ones are in test_command_crashes.py."""
import os
import pathlib
import shutil
import socket
import sqlite3
import subprocess
import unittest

from programs import SETTLE, as_nobody, settle
from test_commands import AtAFile, answer, words_of
from test_database import TODAY, VERSION, changed_by, content_of, rows_of
from test_desk import APPLIED, DAY, EARLY, END, LOADED, MARKET, NEXT_END, OPERATOR, SETTLED, text_of
from test_reports import balances

STORE = answer("refused 91 Store")
FORBIDDEN = answer("refused 60 Forbidden")
NO_FILE = answer("fault nofile")
EXISTS = answer("fault exists")
UNREADABLE = answer("fault file")
NO_SOCKET = answer("fault socket")
OUTPUT = answer("fault output")
PATIENCE = 60


class Faults(AtAFile):
    """A test with an office that has loaded the market, and each command on it, which would be done."""

    def setUp(self):
        super().setUp()
        self.init_market()
        self.prices = self.path("p2.csv", text_of("prices", [f"{DAY},1,60.00000"]))
        self.script = self.file("balances", f"{balances()}\n")
        self.commands = {
            "migrate": (),
            "load": ("--key", OPERATOR, f"--at={EARLY}", "prices", self.prices),
            "run": ("--key", OPERATOR, f"--at={END}", DAY, "SF"),
            "report": ("--key", OPERATOR, "balances"),
            "serve": ("--port=0", "--count=0"),
            "script": (self.script,),
        }

    def each(self, wanted, **how):
        """Each command ends like this."""
        for name, words in self.commands.items():
            with self.subTest(name):
                self.assertEqual(self.command(name, *words, timeout=PATIENCE, **how), wanted)

    def by_shell(self, streams, name, *words):
        """A command whose streams a shell sets like this."""
        call = ["sh", "-c", f'exec "$@" {streams}', "sh", SETTLE, name, "--db", str(self.database), *map(str, words)]
        made = subprocess.run(call, stdin=subprocess.DEVNULL, capture_output=True, timeout=PATIENCE)
        return made.returncode, made.stdout, made.stderr

    def taken_port(self):
        """A port on which another process listens."""
        taken = socket.socket()
        self.addCleanup(taken.close)
        taken.bind(("127.0.0.1", 0))
        taken.listen()
        return taken.getsockname()[1]

    def start(self, name, *words, **how):
        """A command that runs beside the test."""
        call = [SETTLE, name, "--db", str(self.database), *map(str, words)]
        begun = subprocess.Popen(call, stdin=subprocess.DEVNULL, stdout=subprocess.PIPE, stderr=subprocess.PIPE, **how)
        for clean in (begun.stderr.close, begun.stdout.close, begun.wait, begun.kill):
            self.addCleanup(clean)
        return begun


class Paths(Faults):
    """What is at a path is looked at after the words were found right, and before anything else is."""

    def test_what_is_there(self):
        """No office is made if there is anything at the path."""
        before = self.database.read_bytes()
        empty, folder = self.file("empty", b""), str(self.room)
        other = self.file("other", b"kept")
        for path in (str(self.database), empty, folder, other):
            made = settle("init", "--db", path, "--operator-key", "op-other0001")
            self.assertEqual(made, EXISTS, path)
        self.assertEqual((self.database.read_bytes(), pathlib.Path(empty).read_bytes(), pathlib.Path(other).read_bytes()), (before, b"", b"kept"))

    def test_what_is_not_there(self):
        os.symlink("nowhere.db", self.room / "link.db")
        before = sorted(self.room.iterdir())
        for path in ("missing.db", "missing/office.db", "link.db"):
            self.database = self.room / path
            self.each(NO_FILE)
        self.assertEqual(sorted(self.room.iterdir()), before)
        for name, words in self.commands.items():
            self.assertEqual(settle(name, "--db", "", *words), NO_FILE)

    def test_before_what_comes_later(self):
        """Before inputs, ports and outputs."""
        self.database = self.room / "missing.db"
        missing, port = str(self.room / "missing.csv"), self.taken_port()
        self.assertEqual(self.command("load", "--key", OPERATOR, "prices", missing), NO_FILE)
        self.assertEqual(self.command("script", missing), NO_FILE)
        self.assertEqual(self.command("serve", f"--port={port}"), NO_FILE)
        self.assertEqual(self.by_shell(">/dev/full", "report", "--key", OPERATOR, "balances"), NO_FILE)
        self.assertEqual(self.by_shell(">/dev/full", "migrate"), NO_FILE)
        self.database = self.room / "empty"
        self.database.write_bytes(b"")
        self.assertEqual(self.by_shell(">/dev/full", "init", "--operator-key", OPERATOR), EXISTS)

    def test_what_is_below_a_file(self):
        """There can be nothing."""
        self.database = self.database / "office.db"
        self.each(NO_FILE)

    def test_where_none_can_be_made(self):
        """In a folder that isn't there, the database refuses, and nothing is made."""
        path = self.room / "missing" / "office.db"
        self.assertEqual(settle("init", "--db", str(path), "--operator-key", OPERATOR), STORE)
        self.assertFalse(path.parent.exists())

    def test_beside_a_log(self):
        """A log whose database is not there belongs to another database, which may come back. It stays as it is."""
        log = self.room / "gone.db-wal"
        log.write_bytes(b"kept")
        self.assertEqual(settle("init", "--db", str(self.room / "gone.db"), "--operator-key", OPERATOR), STORE)
        self.assertEqual((log.read_bytes(), sorted(self.room.glob("gone.db*"))), (b"kept", [log]))
        log.write_bytes(b"")
        self.assertEqual(settle("init", "--db", str(self.room / "gone.db"), "--operator-key", OPERATOR), answer("ready"))

    def test_what_cannot_be_looked_at(self):
        """It is not known what is there. Root may look everywhere, so this calls a copy of the program as nobody."""
        nobody = as_nobody()
        if nobody is None:
            self.skipTest("root may look everywhere, and setpriv doesn't give up its rights here")
        os.chmod(self.room, 0o755)
        program = shutil.copy(SETTLE, self.room / "settle")
        os.chmod(program, 0o755)
        shut = self.room / "shut"
        shut.mkdir(mode=0o700)
        commands = {**self.commands, "init": ("--operator-key", OPERATOR)}
        for name, words in commands.items():
            call = [*nobody, program, name, "--db", str(shut / "office.db"), *words]
            made = subprocess.run(call, stdin=subprocess.DEVNULL, capture_output=True, timeout=PATIENCE)
            self.assertEqual((made.returncode, made.stdout, made.stderr), STORE, name)
        self.assertEqual(list(shut.iterdir()), [])

    def test_a_relative_path(self):
        """It is relative to the folder in which the command is called."""
        self.assertEqual(settle("init", "--db", "here.db", "--operator-key", OPERATOR, cwd=self.room), answer("ready"))
        self.assertEqual(rows_of(self.room / "here.db", "settings"), [(1, VERSION, 60, OPERATOR)])
        made = settle("report", "--db", "./here.db", "--key", OPERATOR, "balances", cwd=self.room)
        self.assertEqual(made, answer("account,moved_pence"))


class Foreign(Faults):
    """Files that contain no office of this version are refused, and stay as they are."""

    def unharmed(self, data):
        self.database = self.room / "foreign.db"
        self.database.write_bytes(data)
        self.each(STORE)
        self.assertEqual(self.database.read_bytes(), data)
        if not data.startswith(b"SQLite format 3\0"):
            self.assertEqual(list(self.room.glob("foreign.db?*")), [], "nothing is put beside it")

    def test_files_that_are_no_database(self):
        for data in (b"xy", b"party,from,to,key\n" * 400, bytes(range(256)) * 64, b"\0" * 8192, b"SQLite format 3\0" * 512):
            with self.subTest(data[:16]):
                self.unharmed(data)

    def test_an_empty_file(self):
        self.database = self.room / "empty.db"
        self.database.write_bytes(b"")
        self.each(STORE)

    def test_files_of_a_byte_or_none_stay(self):
        for data in (b"", b"x"):
            with self.subTest(data):
                self.unharmed(data)

    def test_a_damaged_file(self):
        whole = self.database.read_bytes()
        for data in (whole[: len(whole) // 2], whole[:4096] + b"\xff" * 4096 + whole[8192:], whole[:-4096]):
            self.unharmed(data)

    def changed(self, *statements):
        """The office's file is refused after statements were run over it, and still has its rows."""
        file = self.room / "changed.db"
        shutil.copy(self.database, file)
        changed_by(file, *statements)
        self.database, office = file, self.database
        with self.subTest(statements):
            self.each(STORE)
            self.is_sound()
            self.assertEqual(len(rows_of(file, "meters")), 96)
        self.database = office

    def test_other_tables(self):
        for statements in (
            ["CREATE TABLE notes (text)"],
            ["DROP TABLE marks"],
            ["DROP TABLE settings"],
            ["DROP TABLE leads"],
            ["ALTER TABLE prices ADD COLUMN more INT"],
            ["CREATE INDEX dates ON meters (day)"],
        ):
            self.changed(*statements)

    def test_other_versions(self):
        for statement in (
            "UPDATE settings SET version = 1",
            "UPDATE settings SET version = 7",
            "UPDATE settings SET version = 0",
            "UPDATE settings SET version = -1",
            "DELETE FROM settings",
            "UPDATE settings SET operator_key = 'short'",
            "UPDATE settings SET lead_minutes = 1441",
        ):
            self.changed(statement)

    def test_a_database_of_others(self):
        self.database = self.room / "notes.db"
        changed_by(self.database, "CREATE TABLE notes (text)", "INSERT INTO notes VALUES ('kept')")
        before = self.database.read_bytes()
        self.each(STORE)
        self.assertEqual(self.database.read_bytes(), before)
        connection = sqlite3.connect(self.database)
        self.addCleanup(connection.close)
        self.assertEqual(connection.execute("SELECT * FROM notes").fetchall(), [("kept",)])
        self.assertEqual(connection.execute("SELECT name FROM sqlite_schema").fetchall(), [("notes",)])

    def test_a_folder(self):
        self.database = self.room
        self.each(STORE)

    def test_before_what_comes_later(self):
        """Before inputs, ports, the office and outputs."""
        missing, port = str(self.room / "missing.csv"), self.taken_port()
        for statement in ("UPDATE settings SET version = 7", "CREATE TABLE notes (text)"):
            changed_by(self.database, statement)
            with self.subTest(statement):
                self.assertEqual(self.command("load", "--key", OPERATOR, "prices", missing), STORE)
                self.assertEqual(self.command("serve", f"--port={port}"), STORE)
                self.assertEqual(self.command("report", "--key", "genco0001", "balances"), STORE)
                self.assertEqual(self.command("run", "--key", OPERATOR, DAY, "R1"), STORE)
                self.assertEqual(self.by_shell(">/dev/full", "report", "--key", OPERATOR, "balances"), STORE)
                self.assertEqual(self.by_shell(">/dev/full", "migrate"), STORE)

    def test_before_a_script_that_is_not_there(self):
        changed_by(self.database, "UPDATE settings SET version = 7")
        self.assertEqual(self.command("script", self.room / "missing"), STORE)

    def test_files_of_others(self):
        """Root may write every file, so this calls a copy of the program as nobody."""
        nobody = as_nobody()
        if nobody is None:
            self.skipTest("root may write every file, and setpriv doesn't give up its rights here")
        os.chmod(self.room, 0o755)
        program = shutil.copy(SETTLE, self.room / "settle")
        os.chmod(program, 0o755)
        before = self.database.read_bytes()
        for mode in (0o444, 0):
            os.chmod(self.database, mode)
            for name, words in self.commands.items():
                call = [*nobody, program, name, "--db", str(self.database), *words]
                made = subprocess.run(call, stdin=subprocess.DEVNULL, capture_output=True, timeout=PATIENCE)
                self.assertEqual((made.returncode, made.stdout, made.stderr), STORE, (name, mode))
        os.chmod(self.database, 0o644)
        self.assertEqual(self.database.read_bytes(), before)


class InputsAndTheOffice(Faults):
    """What a command brings is read before the office is asked. If either of them stops the command, nothing changes."""

    def changes_nothing_by(self, wanted, name, *words):
        before = content_of(self.database)
        self.assertEqual(self.command(name, *words, timeout=PATIENCE), wanted, words)
        self.is_sound()
        self.assertEqual(content_of(self.database), before)

    def test_files_that_cannot_be_read(self):
        """Before the key is looked at."""
        os.symlink("nowhere.csv", self.room / "link.csv")
        os.mkdir(self.room / "folder.csv")
        for path in ("missing.csv", "link.csv", "folder.csv", "balances/x.csv"):
            for key in (OPERATOR, "genco0001"):
                self.changes_nothing_by(UNREADABLE, "load", "--key", key, "prices", self.room / path)
        self.changes_nothing_by(UNREADABLE, "script", self.room / "missing")
        self.changes_nothing_by(UNREADABLE, "script", self.room)

    def test_a_port_that_is_taken(self):
        self.changes_nothing_by(NO_SOCKET, "serve", f"--port={self.taken_port()}", "--count=1")

    def test_keys(self):
        """Before the file and the run are judged. A party's key allows none of them."""
        for key in ("genco0001", "nobody001", "op-settle002", OPERATOR + "0"):
            self.changes_nothing_by(FORBIDDEN, "load", "--key", key, "prices", self.prices)
            self.changes_nothing_by(FORBIDDEN, "load", "--key", key, "units", self.prices)
            self.changes_nothing_by(FORBIDDEN, "load", "--key", key, "prices", "/dev/zero")
            self.changes_nothing_by(FORBIDDEN, "run", "--key", key, DAY, "SF")
            self.changes_nothing_by(FORBIDDEN, "run", "--key", key, DAY, "R1")
            for words in (("balances",), ("day", DAY, "SF"), ("csv", DAY, "SF")):
                self.changes_nothing_by(FORBIDDEN, "report", "--key", key, *words)

    def test_refusals(self):
        """One refusal of each kind: some tell a row or a unit, others only their name."""
        rows = [
            ("prices", b"x" * 1_048_577, "refused 10 FileTooLarge"),
            ("prices", b"date\n", "refused 12 BadHeader"),
            ("prices", [f"{DAY},1,1", f"{DAY},1"], "refused 13 BadRecord row 2"),
            ("prices", [f"{DAY},1,1", f"{DAY},51,1"], "refused 14 BadField row 2 column 2"),
            ("prices", [f"{DAY},49,1"], "refused 34 NoSuchPeriod row 1"),
            ("units", ["U,NEWCO,P,no,2024-01-01,"], "refused 30 UnknownParty row 1"),
            ("meters", [f"U,{DAY},1,0,1,0"], "refused 31 UnknownUnit row 1"),
            ("meters", ["G1,2023-01-01,1,0,1,0"], "refused 33 NotEffective row 1"),
            ("contracts", [f"C1,SUPCO-C,GENCO-P,{DAY},1,1"], "refused 36 ReferenceMoved row 1"),
            ("reallocations", [f"G1,GENCO-P,{DAY},1,1,0"], "refused 37 OwnLead row 1"),
            ("parties", ["GENCO,2024-02-01,,genco0001"], "refused 39 ShrinksRange row 1"),
            ("units", ["G1,GENCO,C,no,2024-01-01,"], "refused 40 UnitMoved row 1"),
        ]
        for kind, data, text in rows:
            self.changes_nothing(self.load(kind, data), text)
        self.changes_nothing(self.load("prices", [f"{DAY},1,1"], "f5.csv"), "refused 20 FileChanged")
        self.changes_nothing(self.order("SF", END, "2024-07-02"), "refused 52 DayNotOver")
        self.changes_nothing(self.order("SF", NEXT_END, "2024-07-02"), "refused 53 MissingPrice period 1")
        self.changes_nothing(f"report {OPERATOR} day {DAY} SF", "refused 63 NoRun")


class Outputs(Faults):
    """An output that takes nothing is told last. What was done is kept."""

    def test_what_was_done_stays(self):
        self.database, office = self.room / "full.db", self.database
        self.assertEqual(self.by_shell(">/dev/full", "init", "--operator-key", OPERATOR), OUTPUT)
        self.is_sound()
        self.assertEqual(rows_of(self.database, "settings"), [(1, VERSION, 60, OPERATOR)])
        self.answers(self.load(*MARKET[0]), LOADED[0])
        self.database = office
        self.assertEqual(self.by_shell(">/dev/full", "load", *self.commands["load"]), OUTPUT)
        self.is_sound()
        self.assertIn((TODAY, 1, 6_000_000), rows_of(self.database, "prices"))
        self.assertEqual(self.by_shell(">/dev/full", "run", *self.commands["run"]), OUTPUT)
        self.is_sound()
        self.assertEqual(rows_of(self.database, "runs"), [(TODAY, 0, 48, 4, 6060, 2)])
        before = content_of(self.database)
        self.answers(f"load {EARLY} {OPERATOR} prices {self.prices}", APPLIED)
        self.answers(self.order("SF", END), SETTLED.replace("5050", "6060"))
        for words in (("balances",), ("day", DAY, "SF"), ("csv", DAY, "SF")):
            self.assertEqual(self.by_shell(">/dev/full", "report", "--key", OPERATOR, *words), OUTPUT)
        self.assertEqual(content_of(self.database), before)

    def test_no_connection_is_awaited(self):
        self.assertEqual(self.by_shell(">/dev/full", "serve", "--port=0"), OUTPUT)

    def test_a_script(self):
        """It stops after the first line, which was run."""
        lines = [f"load {EARLY} {OPERATOR} prices {self.prices}", self.order("SF", END)]
        script = self.file("script", "".join(f"{line}\n" for line in lines))
        self.assertEqual(self.by_shell(">/dev/full", "script", script), OUTPUT)
        self.is_sound()
        self.assertIn((TODAY, 1, 6_000_000), rows_of(self.database, "prices"))
        self.assertEqual(rows_of(self.database, "runs"), [])

    def test_other_faults_go_first(self):
        missing, port = self.room / "missing.csv", self.taken_port()
        for wanted, name, *words in (
            (UNREADABLE, "load", "--key", OPERATOR, "prices", missing),
            (UNREADABLE, "script", missing),
            (NO_SOCKET, "serve", f"--port={port}"),
            (FORBIDDEN, "load", "--key", "genco0001", "prices", self.prices),
            (FORBIDDEN, "report", "--key", "genco0001", "balances"),
            (answer("refused 51 NoInitialRun"), "run", "--key", OPERATOR, DAY, "R1"),
            (answer("refused 63 NoRun"), "report", "--key", OPERATOR, "day", DAY, "SF"),
        ):
            self.assertEqual(self.by_shell(">/dev/full", name, *words), wanted, words)
        self.is_wrong(self.by_shell(">/dev/full", "run", "--key", OPERATOR, DAY, "XX"))

    def test_standard_error_that_takes_nothing(self):
        """Only the status tells it."""
        for streams in ("2>/dev/full", "2>&-"):
            self.assertEqual(self.by_shell(streams, "report", *self.commands["report"])[::2], (0, b""))
            self.assertEqual(self.by_shell(streams, "report", "--key", "genco0001", "balances"), (1, b"", b""))
            self.assertEqual(self.by_shell(streams, "report", "--key", OPERATOR, "x"), (2, b"", b""))
            self.assertEqual(self.by_shell(streams, "init", "--operator-key", OPERATOR), (1, b"", b""))

    def test_no_streams(self):
        """The database does not get their descriptors, or is not harmed by getting them."""
        self.assertEqual(self.by_shell("<&- >&- 2>&-", "load", *self.commands["load"]), (1, b"", b""))
        self.is_sound()
        self.assertIn((TODAY, 1, 6_000_000), rows_of(self.database, "prices"))
        self.assertEqual(self.by_shell("<&- >&- 2>&-", "report", "--key", "genco0001", "balances"), (1, b"", b""))
        self.database = self.room / "streams.db"
        self.assertEqual(self.by_shell("<&- >&- 2>&-", "init", "--operator-key", OPERATOR), (1, b"", b""))
        self.is_sound()
        self.answers(self.load(*MARKET[0]), LOADED[0])

    def test_a_reader_that_ends(self):
        """Only the failure of the output is told, and the office is as it was."""
        self.answers(self.order("SF", END), SETTLED)
        before = content_of(self.database)
        words = words_of(f"report {OPERATOR} day {DAY} SF", self.database)
        made = subprocess.run(["sh", "-c", '"$@" | head -1', "sh", SETTLE, *words], capture_output=True)
        self.assertEqual((made.returncode, made.stdout), (0, f"DAY REPORT {DAY} SF\n".encode()))
        self.assertIn(made.stderr, (b"", b"fault output\n"))
        reads, writes = os.pipe()
        os.close(reads)
        for words in (("balances",), ("day", DAY, "SF"), ("csv", DAY, "SF")):
            call = [SETTLE, "report", "--db", str(self.database), "--key", OPERATOR, *words]
            made = subprocess.run(call, stdout=writes, stderr=subprocess.PIPE)
            self.assertEqual((made.returncode, made.stderr), (1, b"fault output\n"))
        os.close(writes)
        self.assertEqual(content_of(self.database), before)


if __name__ == "__main__":
    unittest.main()
