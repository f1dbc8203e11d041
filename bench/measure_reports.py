#!/usr/bin/env python3
"""Measures reports, and a day from its files to its reports, by `settle script` beside a Rust and a Python peer.

usage: measure_reports.py [PROGRAM] [--rounds 7]
PROGRAM is the built program, by default crates/hh_settle/out/hh_settle at the top of this repository.
First the day report, and the results with the balances behind them, of the run SF of the day of gen_day.py: before and
behind them comes the load of a named pipe, at which the program waits for this script. The Rust peer tells what its
reports took. Then the whole day: a script loads it, orders SF, loads the prices again with the first raised by 10
pounds, orders R1, and asks for its three reports. `settle` and the Rust peer run that script, each as a new process
whose output is a file, and the outputs are compared; the Python peer is called for each of its steps, over a
database in a file, and of the reports writes the results alone. It needs `rustc`."""
import pathlib
import re
import subprocess
import sys
import tempfile
import time

from measure_day import FIRST, KEY, MOMENT, ONE_UNIT, lines_of_day, marks_of, milliseconds_of_marks, script_of
from measure_run import LATER, dearer_prices, run_line, timed
from measuring import BENCH, build_rust_peer, print_table, read_words


def report_lines(kind, date=FIRST):
    """The lines that ask for the day report, for the results and for the balances."""
    return [f"report {KEY} day {date} {kind}\n", f"report {KEY} csv {date} {kind}\n", f"report {KEY} balances\n"]


def reports_of_rust(peer, script):
    """The milliseconds of the day report, and of the other two together, as the peer tells them."""
    with tempfile.TemporaryFile() as out:
        told = subprocess.run([peer, "--whole", "--times", script], stdout=out, stderr=subprocess.PIPE, text=True, check=True).stderr
    return [float(figure) for figure in re.findall(r"report [a-z ]+ ([0-9.]+) ms", told)]


def whole_of(command):
    """What a process writes to a file, and the milliseconds from its start to its end."""
    with tempfile.TemporaryFile() as out:
        begin = time.perf_counter()
        subprocess.run(command, stdout=out, check=True)
        taken = (time.perf_counter() - begin) * 1000
        out.seek(0)
        return out.read().decode(), taken


def whole_of_python(folder, again):
    """What the calls of the Python peer print for the same day, and the milliseconds of all of them."""
    for left in folder.glob("office.db*"):
        left.unlink()
    files = [line.split() for line in (folder / str(FIRST) / "order").read_text().splitlines()]
    steps = [["init"], *(["load", kind, str(folder / str(FIRST) / name)] for kind, name in files)]
    steps += [["run", str(FIRST), "SF"], ["load", "prices", str(again)], ["run", str(FIRST), "R1"], ["report", str(FIRST), "R1"]]
    peer, database = [sys.executable, str(BENCH / "peer_office.py")], str(folder / "office.db")
    done = [timed([*peer, first, database, *rest]) for first, *rest in steps]
    return "".join(output for output, _ in done).removeprefix("ready\n"), sum(taken for _, taken in done)


def measure_reports(arguments, peer, folder, day):
    pipes = marks_of(folder, 2)
    marks = [f"load {MOMENT} {KEY} meters {pipe}\n" for pipe in pipes]
    asked = report_lines("SF")
    ours = script_of(folder, "ours", [day, run_line("SF"), marks[0], asked[0], marks[1], *asked[1:], marks[2]])
    plain = script_of(folder, "plain", [day, run_line("SF"), *asked])
    taken = {"The day report": ([], []), "The results and the balances": ([], [])}
    for _ in range(arguments.rounds):
        passed = milliseconds_of_marks([arguments.program, "script", "--operator-key", KEY, ours], pipes)[1]
        for times, mine, theirs in zip(taken.values(), passed, reports_of_rust(peer, plain)):
            times[0].append(mine)
            times[1].append(theirs)
    for title, (mine, theirs) in taken.items():
        print(f"\n{title}:")
        print_table({"settle script": mine, "Rust peer": theirs}, 2)


def script_of_whole(folder, day):
    """The path of a script that loads a day, orders SF, loads the prices again, orders R1 and asks for its reports."""
    reload = f"load {LATER} {KEY} prices {dearer_prices(folder)}\n"
    return script_of(folder, "whole", [day, run_line("SF"), reload, run_line("R1"), *report_lines("R1")])


def measure_whole(arguments, peer, folder, day):
    again = dearer_prices(folder)
    script = script_of_whole(folder, day)
    commands = {
        "settle script": [arguments.program, "script", "--operator-key", KEY, script],
        "Rust peer": [peer, "--whole", script],
    }
    times = {name: [] for name in [*commands, "Python peer"]}
    for number in range(arguments.rounds):
        outputs = {}
        for name, command in commands.items():
            outputs[name], taken = whole_of(command)
            times[name].append(taken)
        text = outputs["settle script"]
        if text != outputs["Rust peer"]:
            sys.exit("the outputs of settle script and the Rust peer differ")
        if number < 3:
            found, taken = whole_of_python(folder, again)
            if not set(found.splitlines()) <= set(text.splitlines()):
                sys.exit("the Python peer prints lines that settle script does not")
            times["Python peer"].append(taken)
    print(f"\nThe whole day, {len(text)} bytes of {len(text.splitlines())} lines:")
    print_table(times, 1)


def main():
    arguments = read_words(__doc__, "hh_settle")
    with tempfile.TemporaryDirectory() as name:
        folder = pathlib.Path(name)
        day = lines_of_day(folder, 1)
        peer = build_rust_peer("peer_office", folder, *ONE_UNIT)
        measure_reports(arguments, peer, folder, day)
        measure_whole(arguments, peer, folder, day)


if __name__ == "__main__":
    main()
