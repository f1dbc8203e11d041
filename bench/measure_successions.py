#!/usr/bin/env python3
"""Measures loads of files in which units change their lead accounts, on an office with thirty settled days.

usage: measure_successions.py [PROGRAM] [--rounds 3] [--days 30] [--parties 40] [--units 200] [--contracts 40] [--reallocations 20]
PROGRAM is the built program, by default crates/hh_settle/out/hh_settle at the top of this repository. It makes an office with days of
gen_day.py, by default of a tenth of the market, and SF of each. gen_successions.py writes three files: one with ten successions of
each unit, within the thirty days; one with a hundred of each, before them; and one with another hundred of each, which follow on. In
each round the first is loaded into a copy of the office, and the other two one after the other into another copy. Each load touches
every Settlement Period that has a run. Beside them the balances are asked of the office, which is opened for each command. The memory
is the most that the process had at once. It needs Python 3 and Linux."""
import argparse
import contextlib
import pathlib
import shutil
import sqlite3
import statistics
import subprocess
import sys
import tempfile
import time

from measure_counts import usage_of
from measure_day import KEY, MOMENT
from measure_migration import new_office
from measuring import BENCH, print_table

MARKET = {"parties": 40, "units": 200, "contracts": 40, "reallocations": 20}
# The file, how many successions each unit has in it, the first of their dates, and the days from one to the next.
TENS, HUNDREDS, MORE = ("ten of each unit", 10, "2024-07-01", 3), ("a hundred of each", 100, "2024-01-02", 1), ("a hundred more", 100, "2024-04-11", 1)


def read_words():
    parser = argparse.ArgumentParser(description=__doc__, formatter_class=argparse.RawDescriptionHelpFormatter)
    parser.add_argument("program", nargs="?", default=str(BENCH.parent / "crates" / "hh_settle" / "out" / "hh_settle"))
    for name, value in {"rounds": 3, "days": 30, **MARKET}.items():
        parser.add_argument(f"--{name}", type=int, default=value)
    words = parser.parse_args()
    words.program = str(pathlib.Path(words.program).resolve())
    if not pathlib.Path(words.program).is_file():
        sys.exit(f"no program at {words.program}: build it by ./settle")
    if min(words.rounds, words.days) < 1:
        sys.exit("--rounds and --days are at least 1")
    return words


def written(folder, name, each, first, step):
    """The path of a file of successions, and how many there are."""
    path = folder / f"successions-{first}-{each}.csv"
    subprocess.run([sys.executable, str(BENCH / "gen_successions.py"), str(folder), str(path), f"--each={each}", f"--first={first}", f"--step={step}"], check=True)
    return name, path, path.read_text().count("\n") - 1


def copied(database, copy):
    """A new copy of an office. The file is whole, because the commands before have closed it."""
    for path in copy.parent.glob(f"{copy.name}*"):
        path.unlink()
    for path in database.parent.glob(f"{database.name}*"):
        shutil.copy(path, copy.parent / path.name.replace(database.name, copy.name))


def touched(database):
    """How many Settlement Periods are touched, and how many registrations there are."""
    with contextlib.closing(sqlite3.connect(database)) as connection:
        return [connection.execute(f"SELECT count(*) FROM {table}").fetchone()[0] for table in ("touched", "leads")]


def taken_by(command):
    """The milliseconds and the megabytes that a command took."""
    begin = time.perf_counter()
    _, kilobytes, _ = usage_of(command)
    return (time.perf_counter() - begin) * 1000, kilobytes / 1024


def main():
    words = read_words()
    with tempfile.TemporaryDirectory() as name:
        folder = pathlib.Path(name)
        database, copy = new_office(words.program, folder, words.days, *(f"--{name}={getattr(words, name)}" for name in MARKET)), folder / "copy.db"
        groups = [[written(folder, *TENS)], [written(folder, *HUNDREDS), written(folder, *MORE)]]
        report = [words.program, "report", "--db", str(copy), "--key", KEY, "balances"]
        times, memory = {"report .. balances": []}, {}
        for _ in range(words.rounds):
            for files in groups:
                copied(database, copy)
                times["report .. balances"].append(taken_by(report)[0])
                for title, path, count in files:
                    load = [words.program, "load", "--db", str(copy), "--key", KEY, f"--at={MOMENT}", "units", str(path)]
                    milliseconds, megabytes = taken_by(load)
                    times.setdefault(f"load of {count}: {title}", []).append(milliseconds)
                    memory.setdefault(f"load of {count}: {title}", []).append(megabytes)
                    periods, leads = touched(copy)
                    print(f"{title}: {periods} periods are touched, and {leads} registrations kept")
    print_table(times, 1)
    print()
    for title, megabytes in memory.items():
        print(f"{title}: {statistics.median(megabytes):.1f} MB")


if __name__ == "__main__":
    main()
