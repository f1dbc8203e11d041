#!/usr/bin/env python3
"""Measures the settlement of one period, `settle_period` of hh_calc, beside a Rust peer.

usage: measure_calc.py [PROGRAM] [--rounds 7] [--times 50]
PROGRAM is the built program hh_bench, by default crates/hh_bench/out/hh_bench at the top of this repository.
Each round starts both programs, and each program settles its period so many times and tells the time of each.
The checksums of what they settled are compared. It needs `rustc`."""
import pathlib
import statistics
import subprocess
import sys
import tempfile

from measuring import build_rust_peer, print_table, read_words


def settled(command, times):
    """The checksum that a command prints, and the median of its times in milliseconds."""
    done = subprocess.run([*command, str(times)], capture_output=True, text=True, check=True)
    return done.stdout.strip(), statistics.median(int(line) for line in done.stderr.split()) / 1e6


def main():
    arguments = read_words(__doc__, "hh_bench", times=50)
    with tempfile.TemporaryDirectory() as name:
        peer = build_rust_peer("peer_calc", pathlib.Path(name))
        commands = {"settle_period": [arguments.program, "settle"], "Rust peer": [peer]}
        medians = {name: [] for name in commands}
        checksums = set()
        for _ in range(arguments.rounds):
            for name, command in commands.items():
                checksum, median = settled(command, arguments.times)
                checksums.add(checksum)
                medians[name].append(median)
    if len(checksums) != 1:
        sys.exit(f"the checksums differ: {sorted(checksums)}")
    print(f"All checksums are {checksums.pop()}.")
    print_table(medians, 2)


if __name__ == "__main__":
    main()
