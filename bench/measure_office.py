#!/usr/bin/env python3
"""Measures an office in a database file beside one in memory and the Python peer.

usage: measure_office.py [--rounds 5] [--days 10] [--bench PROGRAM] [--settle PROGRAM]
The programs are by default crates/hh_bench/out/hh_bench and crates/hh_settle/out/hh_settle at the top of this repository.
A script loads the day of gen_day.py, orders SF, loads the prices again with the first raised by 10 pounds, orders R1, and
asks for its three reports. Then it loads a file of one price, and orders R2: all prices touch each Settlement Period, one price
touches one, and the others are handed on as R1 settled them. `hh_bench office` runs it over a new file and `settle script` over tables in memory, each as one
process; `peer_office.py` makes the same steps over a new file, as one process too. The lines of the loads and the runs and the
results are compared. Before and behind each part comes the load of a named pipe whose header is refused, at which a program
waits for this script: so each part is timed by itself, and making or opening the tables is not in it.
Then one script makes as many days one after the other in one file, under other dates and file names, and what the later
days cost is shown beside the first. Last, the file is opened by an empty script after 1, 3 and all days."""
import argparse
import contextlib
import os
import pathlib
import runpy
import shutil
import sqlite3
import statistics
import subprocess
import sys
import tempfile
import time
import unittest.mock

from measure_day import FIRST, KEY, MOMENT, lines_of_day, milliseconds_of_marks, script_of
from measure_reports import report_lines
from measure_run import LATER, dearer_prices
from measuring import BENCH

MINUTES = "60"
PARTS = ("the day loaded", "SF", "the prices again", "R1", "three reports", "one price again", "R2")
SECONDS_OF_A_DAY = 86_400


def read_arguments():
    parser = argparse.ArgumentParser(description=__doc__, formatter_class=argparse.RawDescriptionHelpFormatter)
    parser.add_argument("--rounds", type=int, default=5)
    parser.add_argument("--days", type=int, default=10)
    for crate in ("bench", "settle"):
        parser.add_argument(f"--{crate}", default=str(BENCH.parent / "crates" / f"hh_{crate}" / "out" / f"hh_{crate}"))
    parser.add_argument("--peer", nargs=2, help=argparse.SUPPRESS)
    words = parser.parse_args()
    if min(words.rounds, words.days) < 1:
        sys.exit("--rounds and --days are at least 1")
    return words


def parts_of_day(folder, number):
    """The lines of each part of the day with this number. The first day is 1."""
    load = lines_of_day(folder, number)
    date = load.split(f"{folder}/", 1)[1][:10]
    later = LATER + (number - 1) * SECONDS_OF_A_DAY
    again = dearer_prices(folder, date)
    orders = {kind: f"run {later} {KEY} {date} {kind}\n" for kind in ("SF", "R1", "R2")}
    prices, price = (f"load {later} {KEY} prices {path}\n" for path in (again, one_price(folder, date, again)))
    return [load, orders["SF"], prices, orders["R1"], "".join(report_lines("R1", date)), price, orders["R2"]]


def one_price(folder, date, prices):
    """A file with the first of some prices."""
    path = folder / f"{date}-one-price.csv"
    path.write_text("".join(pathlib.Path(prices).read_text().splitlines(keepends=True)[:2]))
    return path


def with_marks(parts, pipes):
    """The parts, with a mark before the first and after each."""
    marks = [f"load {MOMENT} {KEY} meters {pipe}\n" for pipe in pipes]
    return [marks[0], *(piece for pair in zip(parts, marks[1:]) for piece in pair)]


def new_pipes(folder, count):
    pipes = [str(folder / f"part-{number}.csv") for number in range(count + 1)]
    for pipe in pipes:
        if not os.path.exists(pipe):
            os.mkfifo(pipe)
    return pipes


def removed(database):
    for left in database.parent.glob(f"{database.name}*"):
        left.unlink()


def told_lines(output):
    """What is printed, without the marks."""
    return [line for line in output.splitlines() if line != "refused 12 BadHeader"]


def of_program(command, pipes):
    output, taken = milliseconds_of_marks(command, pipes, b"x\n")
    return told_lines(output), taken


def office_command(words, database, script, *made):
    return [words.bench, "office", str(database), str(script), *made]


# ---- the peer, as one process


def peer_steps(database, script):
    """Makes the steps of a script by the peer, and tells the milliseconds of each part on standard error."""
    path = str(BENCH / "peer_office.py")
    with contextlib.redirect_stdout(sys.stderr), unittest.mock.patch("sys.argv", [path, "init", database]):
        peer = runpy.run_path(path)
    connection = peer["connection"]
    begin = None
    for line in pathlib.Path(script).read_text().splitlines():
        what, *words = line.split()
        if what == "load" and "/part-" in words[-1]:
            now = time.perf_counter()
            if begin is not None:
                print(f"{(now - begin) * 1000:.3f}", file=sys.stderr)
            begin = time.perf_counter()
            continue
        with connection:
            if what == "load":
                peer["load"](connection, *words[2:])
            elif what == "run":
                peer["run"](connection, *words[2:])
            elif words[1] == "csv":
                peer["report"](connection, *words[2:])


def of_peer(database, script):
    removed(database)
    with tempfile.TemporaryFile() as out:
        command = [sys.executable, __file__, "--peer", str(database), script]
        told = subprocess.run(command, stdout=out, stderr=subprocess.PIPE, text=True, check=True).stderr
        out.seek(0)
        return out.read().decode().splitlines(), [float(line) for line in told.splitlines() if line != "ready"]


# ---- one day


def compare(file, memory, peer):
    """The two programs must print the same, and the peer the same loads, runs and results."""
    if file != memory:
        sys.exit("the outputs over a file and over tables in memory differ")
    wanted = set(peer)
    if not wanted <= set(file):
        sys.exit(f"the peer prints other lines: {sorted(wanted - set(file))[:3]}")


def measure_day(words, folder):
    """The milliseconds of each part of the first day, for each program, and how many rows and bytes the file has then."""
    pipes = new_pipes(folder, len(PARTS))
    script = script_of(folder, "first", with_marks(parts_of_day(folder, 1), pipes))
    ours, theirs = folder / "ours.db", folder / "theirs.db"
    times = {"in a file": [], "in memory": [], "Python peer": []}
    for _ in range(words.rounds):
        removed(ours)
        file, taken = of_program(office_command(words, ours, script, KEY, MINUTES), pipes)
        times["in a file"].append(taken)
        memory, taken = of_program([words.settle, "script", "--operator-key", KEY, script], pipes)
        times["in memory"].append(taken)
        peer, taken = of_peer(theirs, script)
        times["Python peer"].append(taken)
        compare(file, memory, peer)
    print(f"The file has {rows_in(ours)} rows and {ours.stat().st_size} bytes, the peer's {theirs.stat().st_size}.")
    return times


def print_parts(times):
    print()
    print("| Part | In a file, ms | Least, ms | Most, ms | In memory, ms | Python peer, ms | To the Python peer |")
    print("|---|---:|---:|---:|---:|---:|---:|")
    rows = [(part, [[taken[place] for taken in rounds] for rounds in times.values()]) for place, part in enumerate(PARTS)]
    rows.append(("all", [[sum(taken) for taken in rounds] for rounds in times.values()]))
    for part, (file, memory, peer) in rows:
        medians = [statistics.median(taken) for taken in (file, memory, peer)]
        figures = [medians[0], min(file), max(file), medians[1], medians[2]]
        print(f"| {part} | {' | '.join(f'{figure:.1f}' for figure in figures)} | {medians[0] / medians[2]:.2f} |")
    reports = PARTS.index("three reports")
    without = [statistics.median([sum(taken) - taken[reports] for taken in rounds]) for rounds in times.values()]
    print(f"\nWithout the reports, of which the peer writes one: {without[0]:.1f} ms, {without[0] / without[2]:.2f} of the peer's.")


# ---- days one after the other in one file, and opening the file


def rows_in(database):
    """How many rows the tables of a file have."""
    with contextlib.closing(sqlite3.connect(database)) as connection:
        tables = [name for (name,) in connection.execute("SELECT name FROM sqlite_schema WHERE type = 'table'")]
        return sum(connection.execute(f"SELECT count(*) FROM {table}").fetchone()[0] for table in tables)


def measure_days(words, folder):
    """Makes days in one file, with a call for each. Tells what the parts of each cost, and copies the file after some of them."""
    pipes = new_pipes(folder, len(PARTS))
    database = folder / "days.db"
    removed(database)
    costs, files = [], {}
    for number in range(1, words.days + 1):
        script = script_of(folder, "day", with_marks(parts_of_day(folder, number), pipes))
        made = (KEY, MINUTES) if number == 1 else ()
        costs.append(of_program(office_command(words, database, script, *made), pipes)[1])
        if number in (1, 3, words.days):
            files[number] = shutil.copy(database, folder / f"after-{number}.db")
    return costs, files


def print_days(costs):
    print()
    print("| Day | " + " | ".join(f"{part}, ms" for part in PARTS) + " | All, ms | To the first day |")
    print("|---:|" + "---:|" * (len(PARTS) + 2))
    for number, taken in enumerate(costs, 1):
        figures = [f"{figure:.1f}" for figure in (*taken, sum(taken))]
        print(f"| {number} | {' | '.join(figures)} | {sum(taken) / sum(costs[0]):.2f} |")


def opened(words, database, script):
    """The milliseconds of opening and of all the rest, as the program tells them, and the most memory in MB."""
    process = subprocess.Popen(office_command(words, database, script), stdout=subprocess.DEVNULL, stderr=subprocess.PIPE, text=True)
    told = process.stderr.read().split()
    _, status, usage = os.wait4(process.pid, 0)
    process.returncode = status
    if status != 0 or len(told) != 2:
        sys.exit(f"{database} is not opened: {told}")
    return int(told[0]) / 1e6, int(told[1]) / 1e6, usage.ru_maxrss / 1024


def print_openings(words, folder, files):
    script = script_of(folder, "empty", [])
    print()
    print("| Days | Rows | Bytes | Opening, ms | Least, ms | Most, ms | us a row | The rest, ms | Memory, MB |")
    print("|---:|---:|---:|---:|---:|---:|---:|---:|---:|")
    for days, database in files.items():
        rounds = [opened(words, database, script) for _ in range(words.rounds)]
        opening, rest, memory = (statistics.median(taken) for taken in zip(*rounds))
        least, most = min(taken[0] for taken in rounds), max(taken[0] for taken in rounds)
        rows, size = rows_in(database), pathlib.Path(database).stat().st_size
        figures = [f"{opening:.1f}", f"{least:.1f}", f"{most:.1f}", f"{opening * 1000 / rows:.2f}", f"{rest:.1f}", f"{memory:.0f}"]
        print(f"| {days} | {rows} | {size} | {' | '.join(figures)} |")


def main():
    words = read_arguments()
    if words.peer:
        peer_steps(*words.peer)
        return
    for program in (words.bench, words.settle):
        if not pathlib.Path(program).is_file():
            sys.exit(f"no program at {program}")
    with tempfile.TemporaryDirectory() as name:
        folder = pathlib.Path(name)
        print_parts(measure_day(words, folder))
        costs, files = measure_days(words, folder)
        print_days(costs)
        print_openings(words, folder, files)


if __name__ == "__main__":
    main()
