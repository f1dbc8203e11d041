#!/usr/bin/env python3
"""Measures the loading of Settlement Days by `settle script` beside a Rust and a Python peer.

usage: measure_day.py [PROGRAM] [--rounds 7] [--days 10,30] [--day-rounds 3]
PROGRAM is the built program, by default crates/hh_settle/out/hh_settle at the top of this repository.
The first day is that of gen_day.py. A script loads its files: `settle` and the Rust peer run it, and the Python peer
is called for each of its files over a database in a file, as an analyst would. The outputs are compared byte for
byte; then the three run in turn. After it come days of the same parties and units under other
dates and file names, all loaded by one script, and what each of --days cost is printed beside the first; --days ''
leaves this out. Between two days comes the load of a named pipe, at which the program waits for this script. It
needs `rustc`."""
import argparse
import datetime
import os
import pathlib
import statistics
import subprocess
import sys
import tempfile
import time

from measuring import BENCH, build_rust_peer, print_table

KEY = "op-settle001"
FIRST = datetime.date(2024, 7, 1)
# 2024-06-01T00:00:00Z, before all deadlines.
MOMENT = 1_717_200_000
NO_READINGS = b"unit,date,period,metered_mwh,tlm,balancing_mwh\n"
# Built as one unit, like the peer that reads a file.
ONE_UNIT = ["-C", "codegen-units=1"]


def read_arguments():
    parser = argparse.ArgumentParser(description=__doc__, formatter_class=argparse.RawDescriptionHelpFormatter)
    parser.add_argument("program", nargs="?", default=str(BENCH.parent / "crates" / "hh_settle" / "out" / "hh_settle"))
    parser.add_argument("--rounds", type=int, default=7)
    parser.add_argument("--days", default="10,30")
    parser.add_argument("--day-rounds", type=int, default=3)
    words = parser.parse_args()
    words.program = str(pathlib.Path(words.program).resolve())
    words.days = [int(day) for day in words.days.split(",") if day]
    if not pathlib.Path(words.program).is_file():
        sys.exit(f"no program at {words.program}: build it by ./settle")
    if min(words.rounds, words.day_rounds) < 1 or min(words.days, default=2) < 2:
        sys.exit("--rounds and --day-rounds are at least 1, and each of --days at least 2")
    return words


def lines_of_day(folder, number, *sizes):
    """The lines that load the day with this number, in the order of its files. The first day is 1. The sizes are words of gen_day.py."""
    date = FIRST + datetime.timedelta(number - 1)
    day = folder / str(date)
    subprocess.run([sys.executable, str(BENCH / "gen_day.py"), str(day), "--date", str(date), *sizes], check=True)
    files = [line.split() for line in (day / "order").read_text().splitlines()]
    return "".join(f"load {MOMENT} {KEY} {kind} {day}/{name}\n" for kind, name in files)


def script_of(folder, name, parts):
    """The path of a script of these lines."""
    path = folder / f"{name}.script"
    path.write_text("".join(parts))
    return str(path)


def run_once(name, commands):
    """What commands print, one after the other, and the milliseconds that they took."""
    begin = time.perf_counter()
    done = [subprocess.run(command, stdout=subprocess.PIPE, check=False) for command in commands]
    taken = (time.perf_counter() - begin) * 1000
    for one in done:
        if one.returncode != 0:
            sys.exit(f"{name} ended with status {one.returncode}")
    return b"".join(one.stdout for one in done), taken


def office_commands(folder, lines):
    """The calls of the Python peer that load the files of these lines into a new database."""
    database = folder / "office.db"
    peer = [sys.executable, str(BENCH / "peer_office.py")]
    files = [line.split()[3:] for line in lines.splitlines()]
    begin = f"rm -f {database} {database}-*; exec \"$0\" \"$@\" > {os.devnull}"
    first = ["sh", "-c", begin, *peer, "init", str(database)]
    return [first, *([*peer, "load", str(database), kind, path] for kind, path in files)]


def applied_rows(output):
    """How many rows were applied. All must have been."""
    rows = 0
    for line in output.decode().splitlines():
        applied, _, late = line.removeprefix("applied=").partition(" late=")
        if not line.startswith("applied=") or late != "0":
            sys.exit(f"not all is applied: {line}")
        rows += int(applied)
    return rows


def in_turn(commands, rounds):
    """The milliseconds of each command, one round after the other. Their outputs must be the same."""
    outputs = {name: run_once(name, command)[0] for name, command in commands.items()}
    first_name, first = next(iter(outputs.items()))
    for name, output in outputs.items():
        if output != first:
            sys.exit(f"the outputs of {first_name} and {name} differ")
    rows, files = applied_rows(first), len(first.splitlines())
    print(f"All outputs are the same {len(first)} bytes: {rows} rows of {files} files.")
    times = {name: [] for name in commands}
    for _ in range(rounds):
        for name, command in commands.items():
            times[name].append(run_once(name, command)[1])
    return times


def print_ratios(times):
    median = {name: statistics.median(taken) for name, taken in times.items()}
    ours = median["settle script"]
    print()
    print(f"settle script / Rust peer: {ours / median['Rust peer']:.2f}")
    print(f"Python peer / settle script: {median['Python peer'] / ours:.2f}")


def pass_mark(pipe, process, data=NO_READINGS):
    """Waits until the program opens this pipe, and returns when that was and when it had these bytes."""
    while True:
        try:
            end = os.open(pipe, os.O_WRONLY | os.O_NONBLOCK)
            break
        except OSError:
            if process.poll() is not None:
                sys.exit(f"the program ended with status {process.returncode} before {pipe}")
            time.sleep(0.0002)
    reached = time.perf_counter()
    os.write(end, data)
    os.close(end)
    return reached, time.perf_counter()


def marks_of(folder, count):
    """The pipes before the days and after each of them."""
    pipes = [str(folder / f"mark-{number}.csv") for number in range(count + 1)]
    for pipe in pipes:
        os.mkfifo(pipe)
    return pipes


def milliseconds_of_marks(command, pipes, data=NO_READINGS):
    """What a script with marks writes, and the milliseconds from each mark to the next. Each mark gives these bytes."""
    with tempfile.TemporaryFile() as out:
        process = subprocess.Popen(command, stdout=out)
        passed = [pass_mark(pipe, process, data) for pipe in pipes]
        if process.wait() != 0:
            sys.exit(f"{command[0]} ended with status {process.returncode}")
        out.seek(0)
        output = out.read().decode()
    return output, [(reached - left) * 1000 for (_, left), (reached, _) in zip(passed, passed[1:])]


def milliseconds_of_days(command, pipes):
    """What each day of a script with marks took."""
    output, taken = milliseconds_of_marks(command, pipes)
    applied_rows(output.encode())
    return taken


def print_days(costs):
    first = statistics.median(costs[1])
    print()
    print("| Day | Median, ms | Least, ms | Most, ms | To the first day |")
    print("|---:|---:|---:|---:|---:|")
    for day, taken in costs.items():
        median = statistics.median(taken)
        print(f"| {day} | {median:.1f} | {min(taken):.1f} | {max(taken):.1f} | {median / first:.2f} |")


def measure_days(settle, folder, lines, arguments):
    pipes = marks_of(folder, len(lines))
    marks = [f"load {MOMENT} {KEY} meters {pipe}\n" for pipe in pipes]
    script = script_of(folder, "days", [marks[0], *(part for pair in zip(lines, marks[1:]) for part in pair)])
    rounds = [milliseconds_of_days(settle(script), pipes) for _ in range(arguments.day_rounds)]
    print_days({day: [taken[day - 1] for taken in rounds] for day in [1, *arguments.days]})


def main():
    arguments = read_arguments()
    with tempfile.TemporaryDirectory() as name:
        folder = pathlib.Path(name)
        lines = [lines_of_day(folder, number) for number in range(1, max(arguments.days, default=1) + 1)]
        first = script_of(folder, "first", lines[:1])

        def settle(script):
            return [arguments.program, "script", "--operator-key", KEY, script]

        commands = {
            "settle script": [settle(first)],
            "Rust peer": [[build_rust_peer("peer_day", folder, *ONE_UNIT), first]],
            "Python peer": office_commands(folder, lines[0]),
        }
        times = in_turn(commands, arguments.rounds)
        print_table(times, 1)
        print_ratios(times)
        if arguments.days:
            measure_days(settle, folder, lines, arguments)


if __name__ == "__main__":
    main()
