#!/usr/bin/env python3
"""Measures the reading of a file, `read_file` of hh_texts, beside a Rust and a Python peer, and the
judging and applying of a day's rows, `apply_row` of hh_rules.

usage: measure_read.py [PROGRAM] [--rounds 7] [--times 20]
PROGRAM is the built program hh_bench, by default crates/hh_bench/out/hh_bench at the top of this repository.
The day is that of gen_day.py, and the file its largest of meter volumes. Each round starts the three
programs, each of which reads the file so many times and tells the time of each, and then loads the
day's files. The numbers of rows and the checksums are compared. It needs `rustc`."""
import pathlib
import statistics
import subprocess
import sys
import tempfile

from measuring import BENCH, build_rust_peer, print_table, read_words

# Built as one unit. With several, the time changed by a fifth with the name of the built file.
ONE_UNIT = ["-C", "codegen-units=1"]


def generate(folder):
    """The kinds and paths of the files of a day, in the order in which they are loaded."""
    subprocess.run([sys.executable, str(BENCH / "gen_day.py"), str(folder)], check=True)
    lines = (folder / "order").read_text().splitlines()
    return [(kind, str(folder / name)) for kind, name in (line.split() for line in lines)]


def largest_of_meters(files):
    return max((path for kind, path in files if kind == "meters"), key=lambda path: pathlib.Path(path).stat().st_size)


def measured(command):
    """What a command writes, and the milliseconds that it tells."""
    done = subprocess.run(command, capture_output=True, text=True, check=True)
    return done.stdout, [int(line) / 1e6 for line in done.stderr.split()]


def read_in_turn(commands, rounds):
    """The medians of each command's times, one round after the other."""
    outputs = set()
    medians = {name: [] for name in commands}
    for _ in range(rounds):
        for name, command in commands.items():
            output, taken = measured(command)
            outputs.add(output)
            medians[name].append(statistics.median(taken))
    if len(outputs) != 1:
        sys.exit(f"the outputs differ: {sorted(outputs)}")
    print("All rows and checksums are {} and {}.".format(*outputs.pop().split()))
    return medians


def load_once(program, files):
    """What became of the rows of each kind, and the milliseconds that they took."""
    output, taken = measured([program, "load", *(word for file in files for word in file)])
    kinds = {}
    for line, milliseconds in zip(output.splitlines(), taken, strict=True):
        kind, *counts = line.split()
        rows, spent = kinds.get(kind, ([0, 0, 0], 0))
        kinds[kind] = [a + int(b) for a, b in zip(rows, counts[1::2])], spent + milliseconds
    return kinds


def print_loads(loads):
    print()
    print("| Kind | Applied | Late | Refused | Median, ms | Least, ms | Most, ms | Median, ns a row |")
    print("|---|---:|---:|---:|---:|---:|---:|---:|")
    for kind, (counts, _) in loads[0].items():
        taken = [load[kind][1] for load in loads]
        median = statistics.median(taken)
        applied, late, refused = counts
        print(
            f"| {kind} | {applied} | {late} | {refused} | {median:.2f} | {min(taken):.2f} | {max(taken):.2f} "
            f"| {median * 1e6 / sum(counts):.0f} |"
        )


def main():
    arguments = read_words(__doc__, "hh_bench", times=20)
    program = arguments.program
    with tempfile.TemporaryDirectory() as name:
        folder = pathlib.Path(name)
        files = generate(folder / "day")
        words = [largest_of_meters(files), str(arguments.times)]
        commands = {
            "read_file": [program, "read", "meters", *words],
            "Rust peer": [build_rust_peer("peer_read", folder, *ONE_UNIT), *words],
            "Python peer": [sys.executable, str(BENCH / "peer_read.py"), *words],
        }
        print_table(read_in_turn(commands, arguments.rounds), 2)
        print_loads([load_once(program, files) for _ in range(arguments.rounds)])


if __name__ == "__main__":
    main()
