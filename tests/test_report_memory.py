"""How much memory the reports of an office in a database file take beyond what opening the file takes. They are written
while their rows are read from the file. So it is little, and about the same for many accounts as for few.

Each script ends with the load of a named pipe, at which the program waits for the test. At this point the peak is read."""
import contextlib
import os
import re
import sqlite3
import subprocess
import time
import unittest

from programs import SETTLE
from test_commands import AtAFile
from test_database import LAST_DAY, NEW_YEAR, TODAY
from test_desk import DAY, EARLY, OPERATOR
from test_reports import report

PERIODS = 48
PATIENCE = 120
FEW, MANY = 10, 800
# Kilobytes. What the system tells about a process is inexact by some hundreds. A program that kept the 38,400 rows of 800
# accounts took 15,000 more than one that only opened the file.
MOST, MOST_BETWEEN = 4096, 2048
REFUSED = "refused 12 BadHeader"


def accounts_of(count):
    """This many accounts, two for each party, in their order."""
    return [(f"PARTY{number // 2:04}", number % 2) for number in range(count)]


def results_of(accounts):
    """The rows of a run in which each account has some energy in each Settlement Period, and pays for it."""
    for period in range(1, PERIODS + 1):
        for number, account in enumerate(accounts):
            ticks = (7 * number + period) * 1_234_567_890
            pence = 17 * number + period
            energies = (ticks, 100 * number, -ticks // 3, ticks + ticks // 3)
            yield TODAY, 0, period, *account, *energies, -pence, pence


def peak_of(process):
    """The greatest memory of a process so far, in kilobytes."""
    with open(f"/proc/{process}/status", encoding="ascii") as status:
        return int(re.search(r"^VmHWM:\s*([0-9]+) kB$", status.read(), re.MULTILINE)[1])


class Memory(AtAFile):
    def setUp(self):
        super().setUp()
        self.pipe = self.room / "pipe.csv"
        os.mkfifo(self.pipe)

    def settled(self, count):
        """Makes an office with a run of this many accounts."""
        self.database = self.room / f"office{count}.db"
        self.assertEqual(self.command("init", "--operator-key", OPERATOR), (0, b"ready\n", b""))
        accounts = accounts_of(count)
        parties = [(party, NEW_YEAR, LAST_DAY, f"key{party}") for party, side in accounts if side == 0]
        with contextlib.closing(sqlite3.connect(self.database)) as connection, connection:
            connection.executemany("INSERT INTO parties VALUES (?, ?, ?, ?)", parties)
            connection.execute("INSERT INTO runs VALUES (?, 0, ?, ?, 0, 0)", (TODAY, PERIODS, count))
            connection.executemany(f"INSERT INTO results VALUES ({', '.join('?' * 11)})", results_of(accounts))
        self.is_sound()

    def waited(self, process):
        """The end of the pipe to which this writes, after the program has begun to read from the other end."""
        ends = time.monotonic() + PATIENCE
        while process.poll() is None and time.monotonic() < ends:
            try:
                return os.open(self.pipe, os.O_WRONLY | os.O_NONBLOCK)
            except OSError:
                time.sleep(0.001)
        process.kill()
        self.fail(f"the program doesn't come to the pipe; its status is {process.wait()}")

    def peak(self, *lines):
        """The program's peak after these lines of a script, in kilobytes, and what it prints for them."""
        script = self.file("script", "".join(f"{line}\n" for line in [*lines, f"load {EARLY} {OPERATOR} meters {self.pipe}"]))
        out = self.room / "out"
        with out.open("wb") as stream:
            command = [SETTLE, "script", "--db", str(self.database), script]
            process = subprocess.Popen(command, stdin=subprocess.DEVNULL, stdout=stream)
            end = self.waited(process)
            peak = peak_of(process.pid)
            os.write(end, b"x\n")
            os.close(end)
            self.assertEqual(process.wait(PATIENCE), 0)
        *printed, refused = out.read_text().splitlines()
        self.assertEqual(refused, REFUSED)
        return peak, printed

    def beyond(self, count):
        """How many kilobytes the day report and the results take beyond opening the file, for this many accounts."""
        self.settled(count)
        opened, printed = self.peak()
        self.assertEqual(printed, [])
        day, printed = self.peak(report("day"))
        lines = 2 + PERIODS * (count + 1) + count + 1
        self.assertEqual((len(printed), printed[0], printed[-1]), (lines, f"DAY REPORT {DAY} SF", "END"))
        results, printed = self.peak(report("csv"))
        self.assertEqual(len(printed), 1 + PERIODS * count)
        return {"day": day - opened, "csv": results - opened}

    def test_few_and_many_accounts(self):
        few, many = self.beyond(FEW), self.beyond(MANY)
        for form in few:
            with self.subTest(form, few=few, many=many):
                self.assertLess(max(few[form], many[form]), MOST)
                self.assertLess(abs(few[form] - many[form]), MOST_BETWEEN)


if __name__ == "__main__":
    unittest.main()
