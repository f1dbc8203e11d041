#!/usr/bin/env python3
"""Measures runs by `settle script` beside a Rust and a Python peer.

usage: measure_run.py [PROGRAM] [--rounds 7]
PROGRAM is the built program, by default crates/hh_settle/out/hh_settle at the top of this repository.
A script loads the day of gen_day.py, orders SF, loads the prices again with the first raised by 10 pounds, and orders
R1. Before and behind each run comes the load of a named pipe, at which the program waits for this script, so that
each run is timed by itself. The Rust peer tells what its runs took, and settles all periods in each; the Python
peer is called for each run, over a database in a file. The lines of the runs are compared. It needs `rustc`."""
import pathlib
import statistics
import subprocess
import sys
import tempfile
import time

from measure_day import FIRST, KEY, MOMENT, ONE_UNIT, lines_of_day, marks_of, milliseconds_of_marks, script_of
from measuring import BENCH, build_rust_peer, print_table, read_words

# 2024-07-02T23:00:00Z, after the day's end.
LATER = 1_719_961_200


def dearer_prices(folder, date=FIRST):
    """The path of a day's prices with the first raised by 10 pounds."""
    prices = next((folder / str(date)).glob("prices*"))
    lines = prices.read_text().splitlines()
    date, period, price = lines[1].split(",")
    lines[1] = f"{date},{period},{float(price) + 10:.5f}"
    again = folder / f"again-{prices.name}"
    again.write_text("\n".join(lines) + "\n")
    return again


def run_line(kind):
    return f"run {LATER} {KEY} {FIRST} {kind}\n"


def runs_of_settle(program, script, pipes):
    """The lines of the runs, and the milliseconds of each."""
    output, passed = milliseconds_of_marks([program, "script", "--operator-key", KEY, script], pipes)
    return lines_of_runs(output), passed[::2]


def lines_of_runs(output):
    return [line for line in output.splitlines() if line.startswith("run ")]


def runs_of_rust(peer, script):
    """The lines of the runs, and the milliseconds of both together, as the peer tells them."""
    done = subprocess.run([peer, "--whole", "--times", script], capture_output=True, text=True, check=True)
    told = done.stderr.split("run ", 1)[1]
    return lines_of_runs(done.stdout), float(told.split(" ms", 1)[0])


def runs_of_python(folder, again, rounds):
    """The lines of the runs, and the milliseconds of both together, one round after the other, each over a new database."""
    peer = [sys.executable, str(BENCH / "peer_office.py")]
    database = folder / "office.db"
    files = [line.split() for line in (folder / str(FIRST) / "order").read_text().splitlines()]
    taken, lines = [], []
    for _ in range(rounds):
        for left in folder.glob("office.db*"):
            left.unlink()
        subprocess.run([*peer, "init", str(database)], stdout=subprocess.DEVNULL, check=True)
        for kind, name in files:
            path = str(folder / str(FIRST) / name)
            subprocess.run([*peer, "load", str(database), kind, path], stdout=subprocess.DEVNULL, check=True)
        first, first_taken = timed([*peer, "run", str(database), str(FIRST), "SF"])
        subprocess.run([*peer, "load", str(database), "prices", str(again)], stdout=subprocess.DEVNULL, check=True)
        second, second_taken = timed([*peer, "run", str(database), str(FIRST), "R1"])
        lines = lines_of_runs(first + second)
        taken.append(first_taken + second_taken)
    return lines, taken


def timed(command):
    begin = time.perf_counter()
    done = subprocess.run(command, capture_output=True, text=True, check=True)
    return done.stdout, (time.perf_counter() - begin) * 1000


def main():
    arguments = read_words(__doc__, "hh_settle")
    with tempfile.TemporaryDirectory() as name:
        folder = pathlib.Path(name)
        day = lines_of_day(folder, 1)
        again = dearer_prices(folder)
        reload = f"load {LATER} {KEY} prices {again}\n"
        pipes = marks_of(folder, 3)
        marks = [f"load {MOMENT} {KEY} meters {pipe}\n" for pipe in pipes]
        ours = script_of(folder, "ours", [day, marks[0], run_line("SF"), marks[1], reload, marks[2], run_line("R1"), marks[3]])
        whole = script_of(folder, "whole", [day, run_line("SF"), reload, run_line("R1")])
        peer = build_rust_peer("peer_office", folder, *ONE_UNIT)
        wanted, python = runs_of_python(folder, again, min(arguments.rounds, 3))
        first, second, rust = [], [], []
        for _ in range(arguments.rounds):
            lines, taken = runs_of_settle(arguments.program, ours, pipes)
            peer_lines, peer_taken = runs_of_rust(peer, whole)
            if not lines == peer_lines == wanted:
                sys.exit(f"the lines differ: {lines}, {peer_lines}, {wanted}")
            first.append(taken[0])
            second.append(taken[1])
            rust.append(peer_taken)
        both = [one + two for one, two in zip(first, second)]
        print("\n".join(wanted))
        print(f"SF {statistics.median(first):.1f} ms, R1 {statistics.median(second):.1f} ms")
        print_table({"settle script": both, "Rust peer": rust, "Python peer": python}, 1)


if __name__ == "__main__":
    main()
