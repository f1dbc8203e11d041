"""Commands on an office in a database file that run at the same time, that are killed, whose disk is full, or to which memory
is refused: the file is whole. Services that are killed at random moments are in test_kill.py."""
import contextlib
import itertools
import os
import resource
import shutil
import signal
import socket
import sqlite3
import subprocess
import time
import unittest

from kept_offices import unpack
from killing import connect, replied
from programs import HOME, IS_LONG, settle
from test_command_faults import EXISTS, NO_FILE, PATIENCE, STORE, Faults
from test_commands import answer, words_of
from test_database import OF_VERSION_ONE, TABLES_OF_ONE, TODAY, VERSION, changed_by, content_of, content_of_any, rows_of
from test_desk import APPLIED, DAY, DEARER, EARLY, END, LEADS_CHANGE, LOADED, MARKET, OPERATOR, SETTLED, text_of
from test_reports import BALANCES, DAY_REPORT, balances
from test_serving import reply, request

NO_MEMORY = answer("refused 90 Memory")
MIGRATED = answer(f"version {VERSION}")
MOST_CALLS, MOST_ALLOCATIONS = 5000, 1_000_000
ASKED_AGAIN_EACH = 1 if IS_LONG else 3  # of the calls at which a program is killed


def allocations():
    """The numbers of the allocations that are refused: the first ones, and then one of many."""
    first, step = (300, 61) if IS_LONG else (100, 97)
    return itertools.chain(range(1, first + 1), range(first + step, MOST_ALLOCATIONS, step))


class Shared(Faults):
    """Another process uses the file: a command is refused, or waits, and the file is unharmed."""

    def test_a_file_in_use(self):
        with sqlite3.connect(self.database) as connection:
            connection.execute("BEGIN EXCLUSIVE")
            self.each(STORE)
            connection.execute("ROLLBACK")
        connection.close()
        self.assertEqual(self.command("load", *self.commands["load"]), answer(APPLIED))

    def test_beside_one_that_serves(self):
        serving = self.start("serve", "--port=0", "--count=1", f"--at={EARLY}")
        port = int(serving.stdout.readline().decode().rpartition(":")[2])
        before = self.database.read_bytes()
        self.each(STORE)
        self.assertEqual(self.database.read_bytes(), before)
        with socket.create_connection(("127.0.0.1", port), timeout=PATIENCE) as client:
            client.sendall(f"GET /balances/SUPCO-C HTTP/1.1\r\nHost: a\r\nx-office-key: {OPERATOR}\r\n\r\n".encode())
            got = b"".join(iter(lambda: client.recv(65_536), b""))
        self.assertTrue(got.endswith(b'{"account":"SUPCO-C","moved_pence":0}'), got)
        self.assertEqual(serving.communicate(timeout=PATIENCE), (b"", b""))
        self.is_sound()
        self.assertEqual(self.command("load", *self.commands["load"]), answer(APPLIED))

    def test_loads_at_once(self):
        """The loads that are done are in the file, and no others."""
        done = {"f5.csv"}
        for number in range(12):
            names = [f"{number}-{side}.csv" for side in "abc"]
            paths = [self.path(name, text_of("prices", [f"{DAY},1,{number}"])) for name in names]
            begun = [self.start("load", "--key", OPERATOR, "prices", path) for path in paths]
            for name, load in zip(names, begun):
                written, told = load.communicate(timeout=PATIENCE)
                self.assertIn((load.returncode, written, told), (answer(APPLIED), STORE))
                done |= {name} if load.returncode == 0 else set()
            self.is_sound()
            self.assertEqual({name for kind, name, *_ in rows_of(self.database, "files") if kind == "prices"}, done)

    def test_two_that_migrate_an_office(self):
        """One does it. The other waits for it or comes after it, or is refused."""
        after = content_of(self.database)
        changed_by(self.database, *OF_VERSION_ONE)
        before = self.database.read_bytes()
        for _ in range(12):
            self.database.write_bytes(before)
            begun = [self.start("migrate") for _ in range(2)]
            ends = [(*migrating.communicate(timeout=PATIENCE), migrating.returncode) for migrating in begun]
            ends = [(status, written, told) for written, told, status in ends]
            self.assertIn(MIGRATED, ends)
            self.assertLessEqual({*ends}, {MIGRATED, STORE})
            self.is_sound()
            self.assertEqual(content_of_any(self.database), after)

    def test_two_that_make_an_office(self):
        """One makes it, with its key."""
        keys = "op-first00001", "op-second0001"
        for number in range(12):
            self.database = self.room / f"new{number}.db"
            begun = [self.start("init", "--operator-key", key) for key in keys]
            made = [(*init.communicate(timeout=PATIENCE), init.returncode) for init in begun]
            ends = {key: (status, written, told) for key, (written, told, status) in zip(keys, made)}
            ready = [key for key, end in ends.items() if end == answer("ready")]
            self.assertEqual(len(ready), 1, ends)
            self.assertIn(next(end for key, end in ends.items() if key not in ready), (EXISTS, STORE))
            self.is_sound()
            self.assertEqual(rows_of(self.database, "settings"), [(1, VERSION, 60, ready[0])])


class Ended(Faults):
    """A test whose commands end early, over copies of an office."""

    def setUp(self):
        super().setUp()
        self.base = self.room / "base.db"
        shutil.copy(self.database, self.base)

    def fresh(self, name):
        """A copy of the office, in a folder of its own from which everything else is removed."""
        folder = self.room / name
        shutil.rmtree(folder, ignore_errors=True)
        folder.mkdir()
        self.database = folder / "office.db"
        shutil.copy(self.base, self.database)

    def make_older(self):
        """The office becomes one of version 1. What it had, and what it has once it is migrated."""
        after = content_of(self.base)
        changed_by(self.base, *OF_VERSION_ONE)
        return content_of(self.base, TABLES_OF_ONE), after

    def settle_first(self):
        """The office has a run from now on. The words of a load by which units get a wider range and other lead accounts, and what it is
        answered. The dates of one of them have the run."""
        self.answers(self.order("SF", END), SETTLED)
        shutil.copy(self.database, self.base)
        words = "load", "--key", OPERATOR, f"--at={EARLY}", "units", self.path("leads.csv", text_of("units", LEADS_CHANGE))
        return words, answer(f"applied={len(LEADS_CHANGE)} late=0")

    def compiled(self, name):
        """A library that is preloaded into a program, built from its source."""
        library = str(self.room / f"{name}.so")
        source = str(HOME / "tests" / name)
        subprocess.run(["cc", "-shared", "-fPIC", "-O1", "-o", library, source, "-ldl"], check=True)
        return library

    def read_copy(self, name, end="copy"):
        """What sqlite3 finds in what was left. What was left stays as it is."""
        copy = self.room / f"{name}-{end}"
        shutil.copytree(self.database.parent, copy)
        self.database, left = copy / "office.db", self.database
        self.is_sound()
        content = content_of_any(self.database)
        self.database = left
        return content


class Killed(Ended):
    """A command that is killed leaves the office as it was before or after the command. So does one whose disk is full."""

    def setUp(self):
        super().setUp()
        days = [f"2024-{month:02}-{day:02}" for month in (8, 9) for day in range(1, 31)]
        rows = [f"{unit},{day},{period},1.000,1,0" for unit in ("G1", "S1") for day in days for period in range(1, 49)]
        self.assertEqual(len(rows), 5760)
        self.big = self.path("big.csv", text_of("meters", rows))

    def load_words(self):
        return "load", "--key", OPERATOR, f"--at={EARLY}", "meters", self.big

    def test_a_load(self):
        self.fresh("whole")
        before = content_of(self.database)
        began = time.monotonic()
        self.assertEqual(self.command(*self.load_words()), answer("applied=5760 late=0"))
        lasted = time.monotonic() - began
        after = content_of(self.database)
        self.assertEqual(len(after["meters"]), 96 + 5760)
        for number in range(25):
            name = f"killed{number}"
            self.fresh(name)
            begun = self.start(*self.load_words())
            time.sleep(lasted * number / 20)
            begun.kill()
            written, told = begun.communicate(timeout=PATIENCE)
            self.assertEqual(told, b"")
            with self.subTest(f"killed after {number} of 20 parts"):
                content = self.read_copy(name)
                self.assertIn(content, [after] if written else [before, after])
                self.answers(balances(), "account,moved_pence\nGENCO-P,0\nGENCO-C,0\nSUPCO-P,0\nSUPCO-C,0")
                self.assertEqual(content_of(self.database), content)
                self.assertEqual(self.command(*self.load_words()), answer("applied=5760 late=0"))
                self.is_sound()
                self.assertEqual(content_of(self.database), after)

    def test_a_full_disk(self):
        """No file can grow beyond some bytes more than the office has. The command is refused, and done later when there is
        room."""
        for more in (0, 4096, 40_960):
            self.fresh(f"full{more}")
            before = content_of(self.database)
            size = self.database.stat().st_size + more

            def limit():
                signal.signal(signal.SIGXFSZ, signal.SIG_IGN)
                resource.setrlimit(resource.RLIMIT_FSIZE, (size, size))

            self.assertEqual(self.command(*self.load_words(), preexec_fn=limit), STORE)
            self.assertEqual(self.read_copy(f"full{more}"), before)
            self.assertEqual(self.command(*self.load_words()), answer("applied=5760 late=0"))
            self.is_sound()

    def test_a_full_disk_under_a_migration(self):
        """It is refused, and done later when there is room. The office is of version 1 until then."""
        before, after = self.make_older()
        for more in (0, 1, 4096, 8192):
            self.fresh(f"migrating{more}")
            size = self.database.stat().st_size + more

            def limit():
                signal.signal(signal.SIGXFSZ, signal.SIG_IGN)
                resource.setrlimit(resource.RLIMIT_FSIZE, (size, size))

            # (the log has its own length, and is shorter than the file)
            made = self.command("migrate", preexec_fn=limit)
            with self.subTest(more):
                self.assertIn(made, (STORE, MIGRATED))
                self.assertEqual(self.read_copy(f"migrating{more}"), before if made == STORE else after)
                self.assertEqual(self.command("migrate"), MIGRATED)
                self.assertEqual(self.read_copy(f"migrating{more}", "migrated"), after)

    def test_a_refused_office_leaves_nothing(self):
        """An office for which there is no room is refused, and made later when there is room."""
        self.database = self.room / "new.db"
        for size in (0, 1, 4096, 8192, 20_480, 40_960):

            def limit():
                signal.signal(signal.SIGXFSZ, signal.SIG_IGN)
                resource.setrlimit(resource.RLIMIT_FSIZE, (size, size))

            with self.subTest(size):
                self.assertEqual(self.command("init", "--operator-key", OPERATOR, preexec_fn=limit), STORE)
                self.assertEqual(list(self.room.glob("new.db*")), [])
        self.init()

    def kill_serving(self):
        """A service makes a run and is killed."""
        serving = self.start("serve", "--port=0", f"--at={END}")
        port = int(serving.stdout.readline().decode().rpartition(":")[2])
        got = replied(connect(port), request("POST", f"/runs/{DAY}/SF", OPERATOR))
        self.assertTrue(got.startswith(b"HTTP/1.1 200 OK\r\n"), got)
        serving.kill()
        serving.communicate(timeout=PATIENCE)

    def test_one_that_serves(self):
        """A service is ended by a signal. What it has answered is kept."""
        self.kill_serving()
        self.answers(balances(), "account,moved_pence\nGENCO-P,38\nGENCO-C,0\nSUPCO-P,0\nSUPCO-C,-38")
        self.assertEqual(rows_of(self.database, "runs"), [(TODAY, 0, 48, 4, 5050, 2)])

    def test_the_log_of_one_that_was_killed(self):
        """It has what was answered, and the file has it after another command has ended. `sqlite3` reads both."""
        self.kill_serving()
        without, beside = self.room / "without.db", self.room / "beside.db"
        for copy in (without, beside):
            shutil.copy(self.database, copy)
        shutil.copy(f"{self.database}-wal", f"{beside}-wal")
        self.assertEqual(rows_of(without, "runs"), [])
        with contextlib.closing(sqlite3.connect(f"file:{beside}?mode=ro", uri=True)) as connection:
            self.assertEqual(len(connection.execute("SELECT * FROM runs").fetchall()), 1)
        self.assertEqual(self.command("report", "--key", OPERATOR, "balances"), (0, BALANCES.encode(), b""))
        shutil.copy(self.database, without)
        self.assertEqual(len(rows_of(without, "runs")), 1)


@unittest.skipUnless(shutil.which("cc"), "no C compiler `cc` is on the path, so no call was cut off")
class KilledAtEachCall(Ended):
    """A command or a service is killed at each of its calls that change a file, in the middle of what it writes."""

    def setUp(self):
        super().setUp()
        self.preloaded = self.compiled("killing_calls.c")

    def environment(self, number):
        """The environment of a program that is killed at the call with this number, if it makes that many, and never for 0."""
        return dict(os.environ, KILL_AT=str(number), LD_PRELOAD=self.preloaded)

    def killed(self, number, name, *words):
        """What comes of a command that is killed like this."""
        return self.command(name, *words, env=self.environment(number), timeout=PATIENCE)

    def served(self, number, sent):
        """What comes of a service that is killed like this, with what its only client got."""
        serving = self.start("serve", "--port=0", "--count=1", f"--at={END}", env=self.environment(number))
        told, got = serving.stdout.readline().decode(), b""
        if told:
            got = replied(connect(int(told.rpartition(":")[2])), sent)
        _, wrong = serving.communicate(timeout=PATIENCE)
        return serving.returncode, got, wrong

    def kill_each(self, name, ask, replies, contents):
        """Kills what asks an office at each call in turn. What is left is the content after all replies that came, or after one
        more, and after each third kill everything is asked again. `ask` takes the number of a call. Each content but the first is
        the one after a reply."""
        beginnings = [b"".join(replies[:count]) for count in range(len(contents))]
        whole = (0, beginnings[-1], b"")
        found = set()
        for number in range(1, MOST_CALLS):
            self.fresh(f"{name}{number}")
            made = ask(number)
            if made == whole:
                self.assertEqual(found, set(range(len(contents))), "each was found")
                return
            with self.subTest(f"{name} killed at call {number}"):
                self.assertEqual((made[0], made[2]), (-signal.SIGKILL, b""))
                self.assertIn(made[1], beginnings)
                came = beginnings.index(made[1])
                left = contents.index(self.read_copy(f"{name}{number}"))
                self.assertIn(left, (came, came + 1))
                found.add(left)
                if number % ASKED_AGAIN_EACH == 0:
                    self.ask_again(ask, whole, contents, came)
        self.fail("it was always killed")

    def ask_again(self, ask, whole, contents, came):
        """A report leaves what is there, and everything that is asked again is answered and is there once."""
        self.assertEqual(self.command("report", "--key", OPERATOR, "balances")[::2], (0, b""))
        self.is_sound()
        self.assertIn(content_of(self.database), contents[came : came + 2])
        self.assertEqual(ask(0), whole)
        self.is_sound()
        self.assertEqual(content_of(self.database), contents[-1])

    def kill_one(self, name, ask, told):
        """Kills a command that asks for one thing, which changes the office and is told."""
        self.fresh(f"{name}0")
        contents = [content_of(self.database)]
        self.assertEqual(ask(0), (0, told, b""))
        contents.append(content_of(self.database))
        self.assertNotEqual(*contents)
        self.kill_each(name, ask, [told], contents)

    def test_a_load(self):
        self.kill_one("load", lambda number: self.killed(number, "load", *self.commands["load"]), answer(APPLIED)[1])

    def test_a_run(self):
        self.kill_one("run", lambda number: self.killed(number, "run", *self.commands["run"]), answer(SETTLED)[1])

    def test_units_that_change_their_lead_account(self):
        words, wanted = self.settle_first()
        self.kill_one("leads", lambda number: self.killed(number, *words), wanted[1])

    def test_a_service_that_loads(self):
        sent = request("POST", "/files/prices/p2.csv", OPERATOR, text_of("prices", [f"{DAY},1,60.00000"]))
        self.kill_one("load", lambda number: self.served(number, sent), reply(200, '{"applied":1,"late":0}'))

    def test_a_service_that_runs(self):
        told = f'{{"accounts":4,"date":"{DAY}","kind":"SF","periods":48,"postings":2,"residual_pence":5050}}'
        sent = request("POST", f"/runs/{DAY}/SF", OPERATOR)
        self.kill_one("run", lambda number: self.served(number, sent), reply(200, told))

    def test_a_script(self):
        """Each line is there whole or not at all, and so are those before it. One MWh more is sold: GENCO-P has half a megawatt
        hour too little, and SUPCO-C has 1.51 too much. At 60 pounds 9,060 pence minus 3,000 are missing."""
        sold = self.load("contracts", f"C2,GENCO-P,SUPCO-C,{DAY},1,1.000", "c2.csv")
        lines = [self.order("SF"), self.dearer(), self.order("R1"), sold, self.order("R2")]
        told = [SETTLED, APPLIED, DEARER, APPLIED, f"run {DAY} R2 periods 48 accounts 4 residual 6060 postings 2"]
        replies = [answer(text)[1] for text in told]
        self.fresh("lines")
        contents = [content_of(self.database)]
        for line, wanted in zip(lines, replies):
            self.assertEqual(settle(*words_of(line, self.database)), (0, wanted, b""))
            contents.append(content_of(self.database))
        script = self.file("lines.script", "".join(f"{line}\n" for line in lines))
        self.kill_each("script", lambda number: self.killed(number, "script", script), replies, contents)

    def kill_migrations(self, name, begin):
        """Kills `migrate` at each call in turn, over an office of version 1 that `begin` puts into a folder. What is left is of version 1
        or of this version, whole, and the next `migrate` ends the work. Until then other commands refuse an office of version 1. No file
        is removed."""
        begin(f"{name}0")
        contents = [self.read_copy(f"{name}0")]
        self.assertEqual(contents[0].keys(), {*TABLES_OF_ONE})
        self.assertEqual(self.killed(0, "migrate"), MIGRATED)
        contents.append(content_of_any(self.database))
        found = set()
        for number in range(1, MOST_CALLS):
            begin(f"{name}{number}")
            files = {path.name for path in self.database.parent.iterdir()}
            made = self.killed(number, "migrate")
            if made == MIGRATED:
                self.assertEqual(found, {0, 1}, "each was found")
                return
            with self.subTest(f"{name} killed at call {number}"):
                self.assertEqual((made[0], made[2]), (-signal.SIGKILL, b""))
                self.assertLessEqual(files, {path.name for path in self.database.parent.iterdir()})
                left = contents.index(self.read_copy(f"{name}{number}"))
                self.assertIn(made[1], (b"", MIGRATED[1]) if left else (b"",))
                found.add(left)
                if number % ASKED_AGAIN_EACH == 0 and not left:
                    self.assertEqual(self.command("report", "--key", OPERATOR, "balances"), STORE)
                    self.assertEqual(self.read_copy(f"{name}{number}", "refused"), contents[0])
                self.assertEqual(self.command("migrate"), MIGRATED)
                self.is_sound()
                self.assertEqual(content_of_any(self.database), contents[1])
        self.fail("it was always killed")

    def test_a_migration(self):
        """Of an office without a log beside it."""
        self.make_older()
        self.kill_migrations("older", self.fresh)

    def test_migrations_of_kept_offices(self):
        """They were made by an earlier program. One has in its log what its file lacks, and a part of a change that never ended."""
        for office in ("dearer-sf", "killed-writing"):

            def begin(name, office=office):
                folder = self.room / name
                shutil.rmtree(folder, ignore_errors=True)
                self.database = unpack(office, folder)

            self.kill_migrations(office, begin)

    def test_a_new_office(self):
        """If it is not whole, a command is refused. Nothing but the new office is ever removed."""
        refused = 0
        for number in range(1, MOST_CALLS):
            self.database = self.room / f"new{number}.db"
            made = self.killed(number, "init", "--operator-key", OPERATOR)
            if made == answer("ready"):
                self.assertGreater(refused, 0)
                return
            with self.subTest(f"killed at call {number}"):
                self.assertEqual((made[0], made[2]), (-signal.SIGKILL, b""))
                status, written, told = self.command("report", "--key", OPERATOR, "balances")
                if (status, written, told) == STORE:
                    self.assertEqual(made[1], b"")
                    refused += 1
                    continue
                self.assertEqual((status, written, told), answer("account,moved_pence"))
                self.is_sound()
                self.assertEqual(rows_of(self.database, "settings"), [(1, VERSION, 60, OPERATOR)])
                self.answers(self.load(*MARKET[0]), LOADED[0])
        self.fail("it was always killed")


@unittest.skipUnless(shutil.which("cc"), "no C compiler `cc` is on the path, so memory was not refused")
class RefusedMemory(Ended):
    """Each allocation of a command is refused in turn, and after the first 100 every 97th; by `tests/run --long` after the first 300
    every 61st. It is told by 90, with the office as it was, or the command manages without that memory."""

    def setUp(self):
        super().setUp()
        self.preloaded, self.note = self.compiled("failing_malloc.c"), self.room / "refused"

    def refused(self, number, name, *words):
        """What comes of a command whose allocation with this number is refused, and whether it makes that many."""
        environment = dict(os.environ, FAIL_AT=str(number), FAIL_NOTE=str(self.note), LD_PRELOAD=self.preloaded)
        made = self.command(name, *words, env=environment, timeout=PATIENCE)
        was_refused = self.note.exists()
        self.note.unlink(missing_ok=True)
        return made, was_refused

    def refuse_each(self, wanted, name, *words):
        self.fresh("memory")
        before = content_of_any(self.database)
        self.assertEqual(self.command(name, *words), wanted)
        after, shown = content_of_any(self.database), 0
        for number in allocations():
            self.fresh("memory")
            made, was_refused = self.refused(number, name, *words)
            if not was_refused:
                self.assertEqual(made, wanted)
                self.assertGreater(shown, 0)
                return
            with self.subTest(f"{name}: allocation {number} refused"):
                is_told = (made[0], made[2]) == (1, NO_MEMORY[2]) and wanted[1].startswith(made[1])
                self.assertTrue(is_told or made == wanted, made)
                self.is_sound()
                self.assertEqual(content_of_any(self.database), before if is_told else after)
                shown += is_told
        self.fail("it was always refused")

    def test_a_migration(self):
        self.make_older()
        self.refuse_each(MIGRATED, "migrate")

    def test_loads(self):
        self.refuse_each(answer(APPLIED), "load", *self.commands["load"])
        changed = self.path("f5.csv", text_of("prices", [f"{DAY},1,60.00000"]))
        self.refuse_each(answer("refused 20 FileChanged"), "load", "--key", OPERATOR, "--at=5", "prices", changed)

    def test_a_run(self):
        self.refuse_each(answer(SETTLED), "run", *self.commands["run"])

    def test_units_that_change_their_lead_account(self):
        words, wanted = self.settle_first()
        self.refuse_each(wanted, *words)

    def test_reports(self):
        self.answers(self.order("SF", END), SETTLED)
        shutil.copy(self.database, self.base)
        self.refuse_each((0, DAY_REPORT.encode(), b""), "report", "--key", OPERATOR, "day", DAY, "SF")
        self.refuse_each((0, BALANCES.encode(), b""), "report", "--key", OPERATOR, "balances")

    def test_a_new_office(self):
        """If it is refused, there is none."""
        shown = 0
        for number in allocations():
            self.database = self.room / f"memory{number}.db"
            made, was_refused = self.refused(number, "init", "--operator-key", OPERATOR)
            if not was_refused:
                self.assertEqual(made, answer("ready"))
                self.assertGreater(shown, 0)
                return
            with self.subTest(f"allocation {number} refused"):
                self.assertIn(made, (answer("ready"), NO_MEMORY))
                there = answer("account,moved_pence") if made[0] == 0 else NO_FILE
                self.assertEqual(self.command("report", "--key", OPERATOR, "balances"), there)
                shown += made == NO_MEMORY
        self.fail("it was always refused")


if __name__ == "__main__":
    unittest.main()
