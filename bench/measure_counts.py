#!/usr/bin/env python3
"""Counts what `settle` and `hh_bench` take beside the Rust peers: instructions, page faults, memory and processor time.

usage: measure_counts.py [--settle PROGRAM] [--bench PROGRAM] [--rounds 5] [--only WORK,..]
The programs are by default crates/hh_settle/out/hh_settle and crates/hh_bench/out/hh_bench at the top of this
repository; each may be a command of several words. There are these kinds of work:

    day          the files of the day of gen_day.py loaded, SF, the prices again, R1 and three reports, by one script
    loads        the files of that day alone
    parties, prices, contracts, meters    its parties and units alone, and these with the files of one kind
    period       `settle period` of the period of gen_period.py
    read_file    one reading of the day's largest file of meter volumes, by `hh_bench read`
    settle_period    one settlement of the period of hh_bench, by `hh_bench settle`

The outputs of a program and its peer are compared. Instructions are those of the whole process as `valgrind
--tool=callgrind` counts them, of one run: the same program and files give the same number on any machine, but for
what the C library chooses by the processor. Where valgrind isn't installed, a line says so and none are counted.
Page faults, memory and processor time are what the system tells of a process, the median of the rounds: faults that
needed no disk, the greatest memory that was in use at once, and the time of the program and of the system on its behalf.
All have the environment that `./settle` gives the program: with pages of 2 MB, unless GLIBC_TUNABLES says otherwise.
Of read_file and settle_period the script measures runs of one call and of eleven, and tells a tenth of the
difference; memory is that of the longer run. It needs `rustc`."""
import argparse
import collections
import json
import pathlib
import re
import shlex
import shutil
import statistics
import subprocess
import sys
import tempfile

from measure import generate as generate_period
from measure_day import KEY, ONE_UNIT, lines_of_day, script_of
from measure_read import generate as generate_day, largest_of_meters
from measure_reports import script_of_whole
from measuring import BENCH, build_rust_peer

# Work that is measured for one call, and the two numbers of calls that are run.
CALLS = (1, 11)
# Runs a command in a process whose own memory is small, because the system counts the memory of a process's parent for it, too.
SMALL_PARENT = """
import json, os, sys
null, told = os.open(os.devnull, os.O_RDWR), int(sys.argv[1])
moved = [(os.POSIX_SPAWN_DUP2, null, stream) for stream in (0, 1, 2)]
process = os.posix_spawn(sys.argv[2], sys.argv[2:], os.environ, file_actions=moved)
_, status, usage = os.wait4(process, 0)
os.write(told, json.dumps([status, usage.ru_minflt, usage.ru_maxrss, usage.ru_utime + usage.ru_stime]).encode())
"""

Work = collections.namedtuple("Work", "ours peer is_per_call")
Counts = collections.namedtuple("Counts", "instructions faults kilobytes seconds")


def read_arguments():
    parser = argparse.ArgumentParser(description=__doc__, formatter_class=argparse.RawDescriptionHelpFormatter)
    for crate in ("settle", "bench"):
        built = BENCH.parent / "crates" / f"hh_{crate}" / "out" / f"hh_{crate}"
        parser.add_argument(f"--{crate}", type=shlex.split, default=[str(built)])
    parser.add_argument("--rounds", type=int, default=5)
    parser.add_argument("--only", type=lambda names: names.split(","), default=list(KINDS))
    words = parser.parse_args()
    if words.rounds < 1 or not set(words.only) <= set(KINDS):
        sys.exit(f"--rounds is at least 1, and --only has words of {','.join(KINDS)}")
    return words


# ---- the kinds of work, each with the peer that does the same


def script_work(settle, script, peer):
    return Work([*settle, "script", "--operator-key", KEY, script], [*peer, script], False)


def day_work(settle, folder):
    """A day from its files to its reports."""
    script = script_of_whole(folder, lines_of_day(folder, 1))
    return script_work(settle, script, [build_rust_peer("peer_office", folder, *ONE_UNIT), "--whole"])


def loads_work(settle, folder):
    script = script_of(folder, "loads", [lines_of_day(folder, 1)])
    return script_work(settle, script, [build_rust_peer("peer_day", folder, *ONE_UNIT)])


def kind_work(kind):
    """The work of the files of a kind behind those of parties and units. Of parties it is that of the latter alone."""

    def work(settle, folder):
        wanted = {"parties", "units", kind}
        lines = [line for line in lines_of_day(folder, 1).splitlines(keepends=True) if line.split()[3] in wanted]
        return script_work(settle, script_of(folder, kind, lines), [build_rust_peer("peer_day", folder, *ONE_UNIT)])

    return work


def period_work(settle, folder):
    files = generate_period(folder)
    return Work([*settle, "period", *files], [build_rust_peer("peer_period", folder), *files], False)


def read_work(bench, folder):
    path = largest_of_meters(generate_day(folder / "files"))
    return Work([*bench, "read", "meters", path], [build_rust_peer("peer_read", folder, *ONE_UNIT), path], True)


def settle_work(bench, folder):
    return Work([*bench, "settle"], [build_rust_peer("peer_calc", folder)], True)


# Each kind of work, with the program that does it.
KINDS = {
    "day": ("settle", day_work),
    "loads": ("settle", loads_work),
    **{kind: ("settle", kind_work(kind)) for kind in ("parties", "prices", "contracts", "meters")},
    "period": ("settle", period_work),
    "read_file": ("bench", read_work),
    "settle_period": ("bench", settle_work),
}


def all_work(words, folder):
    """The kinds of work that were asked for and whose programs are there."""
    programs = {"settle": words.settle, "bench": words.bench}
    for name in words.only:
        which, kind = KINDS[name]
        if pathlib.Path(programs[which][-1]).is_file():
            yield name, kind(programs[which], folder)
        else:
            print(f"No program at {programs[which][-1]}: {name} is left out.")


def commands_of(command, is_per_call):
    """The command, or the commands for one call and for more calls."""
    return [[*command, str(calls)] for calls in CALLS] if is_per_call else [command]


# ---- what a process takes


def output_of(command):
    return subprocess.run(command, stdout=subprocess.PIPE, stderr=subprocess.DEVNULL, check=True).stdout


def instructions_of(command):
    """The instructions of a process, or None without valgrind."""
    if shutil.which("valgrind") is None:
        return None
    with tempfile.TemporaryDirectory() as name:
        counting = ["valgrind", "--tool=callgrind", f"--callgrind-out-file={name}/out", f"--log-file={name}/log"]
        output_of([*counting, *command])
        return int(re.search(r"Collected : ([0-9]+)", pathlib.Path(name, "log").read_text())[1])


def usage_of(command):
    """The page faults, the most memory in kilobytes and the seconds of the processor that a process took."""
    with tempfile.TemporaryFile() as told:
        number = told.fileno()
        words = [sys.executable, "-I", "-S", "-c", SMALL_PARENT, str(number), *command]
        subprocess.run(words, pass_fds=[number], check=True)
        told.seek(0)
        status, *usage = json.loads(told.read())
    if status != 0:
        sys.exit(f"{command[0]} ended with status {status}")
    return usage


def counts_of(command, rounds):
    usages = [usage_of(command) for _ in range(rounds)]
    return Counts(instructions_of(command), *(statistics.median(figures) for figures in zip(*usages)))


def counts_of_work(command, is_per_call, rounds):
    """What the work takes. For calls it is what one call takes, except for the memory."""
    counts = [counts_of(command, rounds) for command in commands_of(command, is_per_call)]
    if not is_per_call:
        return counts[0]
    calls = CALLS[1] - CALLS[0]
    taken = [None if None in pair else (pair[1] - pair[0]) / calls for pair in zip(*counts)]
    return Counts(*taken)._replace(kilobytes=counts[1].kilobytes)


def compare(name, work):
    """The program and the peer write the same."""
    for ours, peer in zip(commands_of(work.ours, work.is_per_call), commands_of(work.peer, work.is_per_call)):
        if output_of(ours) != output_of(peer):
            sys.exit(f"the outputs of {name} and of its Rust peer differ")


# ---- the tables


def figures_of(ours, peer, unit, decimals):
    """The cells for a figure: its own, its peer's, and the ratio."""
    if ours is None or peer is None:
        return ["", "", ""]
    ratio = f"{ours / peer:.2f}" if peer else ""
    return [f"{ours / unit:.{decimals}f}", f"{peer / unit:.{decimals}f}", ratio]


def print_counts(counted):
    columns = {"Instructions, millions": (1e6, 2), "Page faults": (1, 0), "Memory, MB": (1024, 1), "Processor time, ms": (1e-3, 2)}
    for (title, (unit, decimals)), field in zip(columns.items(), Counts._fields):
        print(f"\n| Work | {title} | Rust peer | Ratio |")
        print("|---|---:|---:|---:|")
        for name, (ours, peer) in counted.items():
            cells = figures_of(getattr(ours, field), getattr(peer, field), unit, decimals)
            print(f"| {' | '.join([name, *cells])} |")


def main():
    words = read_arguments()
    if shutil.which("valgrind") is None:
        print("valgrind is not installed: no instructions are counted.")
    with tempfile.TemporaryDirectory() as name:
        counted = {}
        for work_name, work in all_work(words, pathlib.Path(name)):
            compare(work_name, work)
            sides = [counts_of_work(command, work.is_per_call, words.rounds) for command in (work.ours, work.peer)]
            counted[work_name] = sides
    print_counts(counted)


if __name__ == "__main__":
    main()
