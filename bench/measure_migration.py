#!/usr/bin/env python3
"""Measures `settle migrate` on an office of version 1 at the market's size, beside `settle report .. balances` on the same office.

usage: measure_migration.py [PROGRAM] [--rounds 5] [--days 3]
PROGRAM is the built program, by default crates/hh_settle/out/hh_settle at the top of this repository. It makes an office with days of
gen_day.py, of the same 400 parties and 2,000 units, and SF of each. Each unit has one registration, so Python's `sqlite3` makes it one of
version 1: it drops the table of leads and sets the version. In each round a copy of that file is migrated, and then the balances are
asked of the copy. The balances must be those of the office as it was made. It says whether the aim is met, a ratio of at most 1.5. It
needs Python 3."""
import argparse
import contextlib
import datetime
import pathlib
import shutil
import sqlite3
import statistics
import subprocess
import sys
import tempfile

from measure_day import FIRST, KEY, lines_of_day, run_once, script_of
from measure_run import LATER
from measuring import BENCH, print_table

MOST = 1.5
A_DAY = 86_400  # seconds
OF_VERSION_ONE = "DROP TABLE leads", "UPDATE settings SET version = 1"


def read_words():
    parser = argparse.ArgumentParser(description=__doc__, formatter_class=argparse.RawDescriptionHelpFormatter)
    parser.add_argument("program", nargs="?", default=str(BENCH.parent / "crates" / "hh_settle" / "out" / "hh_settle"))
    parser.add_argument("--rounds", type=int, default=5)
    parser.add_argument("--days", type=int, default=3)
    words = parser.parse_args()
    words.program = str(pathlib.Path(words.program).resolve())
    if not pathlib.Path(words.program).is_file():
        sys.exit(f"no program at {words.program}: build it by ./settle")
    if min(words.rounds, words.days) < 1:
        sys.exit("--rounds and --days are at least 1")
    return words


def new_office(program, folder, days, *sizes):
    """The path of an office with these days, each settled by SF. The sizes are words of gen_day.py."""
    database, lines = folder / "office.db", []
    for number in range(1, days + 1):
        date = FIRST + datetime.timedelta(number - 1)
        lines += [lines_of_day(folder, number, *sizes), f"run {LATER + A_DAY * number} {KEY} {date} SF\n"]
    for words in ("init", "--operator-key", KEY), ("script", "--strict", script_of(folder, "days", lines)):
        subprocess.run([program, words[0], "--db", str(database), *words[1:]], stdout=subprocess.DEVNULL, check=True)
    return database


def counts_of(database):
    """The rows of parties, of units and of all tables."""
    with contextlib.closing(sqlite3.connect(database)) as connection:
        tables = [name for (name,) in connection.execute("SELECT name FROM sqlite_schema WHERE type = 'table'")]
        rows = {table: connection.execute(f"SELECT count(*) FROM {table}").fetchone()[0] for table in tables}
    return rows["parties"], rows["units"], sum(rows.values())


def made_older(database):
    """Makes an office one of version 1. `sqlite3` copies the log into the file, and removes it."""
    with contextlib.closing(sqlite3.connect(database)) as connection:
        for statement in OF_VERSION_ONE:
            connection.execute(statement)
        connection.commit()


def main():
    words = read_words()
    with tempfile.TemporaryDirectory() as name:
        folder = pathlib.Path(name)
        database, copy = new_office(words.program, folder, words.days), folder / "copy.db"
        migrate = [words.program, "migrate", "--db", str(copy)]
        parties, units, rows = counts_of(database)
        report = [words.program, "report", "--db", str(database), "--key", KEY, "balances"]
        balances, _ = run_once("report", [report])
        made_older(database)
        report[3] = str(copy)
        times = {"settle migrate": [], "settle report .. balances": []}
        for _ in range(words.rounds):
            for path in folder.glob("copy.db*"):
                path.unlink()
            shutil.copy(database, copy)
            for (command, milliseconds), asked, wanted in zip(times.items(), (migrate, report), (b"version 2\n", balances)):
                told, taken = run_once(command, [asked])
                if told != wanted:
                    sys.exit(f"{command} wrote something else")
                milliseconds.append(taken)
        print(f"{parties} parties, {units} units, settled days: {words.days}. {rows} rows; {database.stat().st_size} bytes of version 1.")
        print_table(times, 1)
        migrated, reported = map(statistics.median, times.values())
        met = "met" if migrated <= MOST * reported else "missed"
        print(f"\nTo migrate takes {migrated / reported:.2f} times as long as to report the balances. The aim, at most {MOST}, is {met}.")


if __name__ == "__main__":
    main()
