#!/usr/bin/env python3
"""Measures the two reports of a run over a database file, beside the same reports over tables in memory.

usage: measure_database_reports.py [PROGRAM] [--rounds 3] [--times 5]
PROGRAM is the built program, by default crates/hh_settle/out/hh_settle at the top of this repository.
The day of gen_day.py is loaded into a new file, and SF is made. In each round `settle script --db` opens that file once,
and is asked for the day report and for the results, the one behind the other, --times times. Then `settle script` loads
the same day into tables in memory, makes SF, and is asked for the same reports. Before and behind each report comes the
load of a named pipe whose header is refused, at which the program waits for this script. So each report is timed by
itself: neither opening the file nor loading the day is in it. The program writes to a file. The outputs are compared.
Beside them is shown what SQLite's own library takes to go through the rows of the run by their key, and to write nothing."""
import contextlib
import pathlib
import sqlite3
import statistics
import sys
import tempfile
import time

from measure_day import FIRST, KEY, lines_of_day, script_of
from measure_office import new_pipes, of_program, with_marks
from measure_reports import report_lines, whole_of
from measure_run import run_line
from measuring import print_table, read_words

TITLES = ("The day report", "The results")
FILE, MEMORY, SCAN = "settle script --db", "settle script", "SQLite's scan alone"
# All columns of the results are read, within the library. The office has no other run.
SCANNED = """SELECT count(*), total(day + kind + period + side + credited + balancing + contracts + imbalance + charge
    + share + length(party)) FROM results INDEXED BY sqlite_autoindex_results_1
    WHERE day = (SELECT max(day) FROM runs) AND kind = 0"""
# Pages of 4,096 bytes, as many as the program keeps in memory.
CACHED = "PRAGMA cache_size = 16384"
# The most time that a report over a file may take, as a multiple of its time in memory.
MOST = 1.3


def new_office(program, database, script):
    """Makes an office in a file and runs a script over it."""
    whole_of([program, "init", "--db", str(database), "--operator-key", KEY])
    return whole_of([program, "script", "--db", str(database), script])[0].splitlines()


def same(file, memory):
    """Stops if the lines of the reports differ."""
    for number, (one, other) in enumerate(zip(file, memory), 1):
        if one != other:
            sys.exit(f"over a file and in memory line {number} differs: {one} / {other}")
    if len(file) != len(memory):
        sys.exit(f"over a file there are {len(file)} lines, and in memory {len(memory)}")


def scan_of(database, times):
    """The milliseconds of each scan of the results in a file, and the number of their rows."""
    taken = []
    with contextlib.closing(sqlite3.connect(database)) as connection:
        connection.execute(CACHED)
        for _ in range(times):
            began = time.perf_counter()
            rows = connection.execute(SCANNED).fetchone()[0]
            taken.append(1000 * (time.perf_counter() - began))
    return taken, rows


def measure(words, folder):
    """The milliseconds of each report for each program, by the title of the report, and how many lines both have."""
    prepared = [lines_of_day(folder, 1), run_line("SF")]
    asked = report_lines("SF")[:2] * words.times
    pipes = new_pipes(folder, len(asked))
    reports = with_marks(asked, pipes)
    database = folder / "office.db"
    told = new_office(words.program, database, script_of(folder, "prepared", prepared))
    commands = {
        FILE: [words.program, "script", "--db", str(database), script_of(folder, "file", reports)],
        MEMORY: [words.program, "script", "--operator-key", KEY, script_of(folder, "memory", [*prepared, *reports])],
    }
    times = {title: {name: [] for name in commands} for title in TITLES}
    for _ in range(words.rounds):
        found = {}
        for name, command in commands.items():
            found[name], taken = of_program(command, pipes)
            for place, title in enumerate(TITLES):
                times[title][name] += taken[place :: len(TITLES)]
        same([*told, *found[FILE]], found[MEMORY])
        scanned, rows = scan_of(database, words.times)
        for title in TITLES:
            times[title].setdefault(SCAN, []).extend(scanned)
    return times, len(found[FILE]) // words.times, rows


def main():
    words = read_words(__doc__, "hh_settle", times=5)
    with tempfile.TemporaryDirectory() as name:
        times, lines, rows = measure(words, pathlib.Path(name))
    print(f"Both reports of {FIRST} SF, {lines} lines of {rows} rows, are the same over a file and in memory.")
    for title, taken in times.items():
        print(f"\n{title}:")
        print_table(taken, 2)
        ratio = statistics.median(taken[FILE]) / statistics.median(taken[MEMORY])
        told = "met" if ratio <= MOST else "not met"
        print(f"\nOver a file it takes {ratio:.2f} of the time in memory. The aim is at most {MOST}: {told}.")


if __name__ == "__main__":
    main()
