#!/usr/bin/env python3
"""Measures `settle period` beside the Python peer and the Rust peer on the generated period.

usage: measure.py [PROGRAM] [--rounds 7]
PROGRAM is the built program, by default crates/hh_settle/out/hh_settle at the top of this repository.
The three outputs are compared byte for byte before anything is measured."""
import pathlib
import subprocess
import sys
import tempfile
import time

from measuring import BENCH, build_rust_peer, print_table, read_words

PRICE = "73.45678"


def generate(folder):
    subprocess.run([sys.executable, str(BENCH / "gen_period.py"), str(folder)], check=True)
    return [str(folder / "meter.csv"), str(folder / "contracts.csv"), PRICE]


def output_of(name, command):
    done = subprocess.run(command, stdout=subprocess.PIPE, check=False)
    if done.returncode != 0:
        sys.exit(f"{name} ended with status {done.returncode}")
    return done.stdout


def milliseconds(command):
    begin = time.perf_counter()
    subprocess.run(command, stdout=subprocess.DEVNULL, check=True)
    return (time.perf_counter() - begin) * 1000


def compare_outputs(commands):
    outputs = {name: output_of(name, command) for name, command in commands.items()}
    first_name, first = next(iter(outputs.items()))
    for name, output in outputs.items():
        if output != first:
            sys.exit(f"the outputs of {first_name} and {name} differ")
    print(f"All outputs are the same {len(first)} bytes.")


def main():
    arguments = read_words(__doc__, "hh_settle")
    with tempfile.TemporaryDirectory() as name:
        folder = pathlib.Path(name)
        words = generate(folder)
        commands = {
            "settle period": [arguments.program, "period", *words],
            "Rust peer": [build_rust_peer("peer_period", folder), *words],
            "Python peer": [sys.executable, str(BENCH / "peer_period.py"), *words],
        }
        compare_outputs(commands)
        times = {name: [] for name in commands}
        for _ in range(arguments.rounds):
            for name, command in commands.items():
                times[name].append(milliseconds(command))
        print_table(times, 1)


if __name__ == "__main__":
    main()
