#!/usr/bin/env python3
"""Measures the gate: how many seconds of the processor `rt ci` takes for each crate, and for what.

usage: measure_gate.py [--times] [COMMAND ..]
COMMAND is `rt ci` at the top of this repository unless another is given, as `./check` or `rt must-fail hh_share`. Twice a second the
script looks at what the prover's processes have used so far, so each process counts for up to half a second too little.
It prints a table by crate and phase, with the whole command's seconds below. With --times it writes the seconds of the proofs of
the program's crates into tools/times.csv, by which `./settle` reckons how long a build will take. It needs Linux."""
import argparse
import collections
import os
import pathlib
import resource
import subprocess
import sys
import time

BENCH = pathlib.Path(__file__).resolve().parent
sys.path.insert(0, str(BENCH.parent / "tools"))

from estimates import TIMES  # noqa: E402
from sources import crates_below, uses_of_crates  # noqa: E402

PHASES = "proof", "tests", "wrong bodies", "builds"
EVERY = 0.5  # seconds
TICKS = os.sysconf("SC_CLK_TCK")


def process(number):
    """A process's parent, the ticks that it has used by itself, those of its ended children, when it began, and its words. None once it
    is gone."""
    try:
        with open(f"/proc/{number}/stat", encoding="utf-8") as file:
            fields = file.read().rpartition(")")[2].split()
        with open(f"/proc/{number}/cmdline", encoding="utf-8", errors="replace") as file:
            words = file.read().split("\0")
        return int(fields[1]), sum(map(int, fields[11:13])), sum(map(int, fields[13:15])), fields[19], words
    except (OSError, IndexError):
        return None


def processes():
    """All processes, by their numbers."""
    found = {int(name): process(name) for name in os.listdir("/proc") if name.isdigit()}
    return {number: told for number, told in found.items() if told}


def is_below(number, ancestor, all_of_them):
    """Whether a process was begun by another, directly or not."""
    while number in all_of_them and number != ancestor:
        number = all_of_them[number][0]
    return number == ancestor


def work_of(number, words):
    """The crate that a process of the prover works on, and for what. None for another process."""
    if os.path.basename(words[0]) != "rattle" or "--crate-name" not in words:
        return None
    crate = words[words.index("--crate-name") + 1]
    if "--test" in words:
        return crate, "tests"
    if "--crate-checked" in words:
        return crate, "builds"
    try:
        is_edit = words[1] == "check" and "/rt-edit-" in os.readlink(f"/proc/{number}/cwd")
    except OSError:
        is_edit = False
    return crate, "wrong bodies" if is_edit else "proof"


def watch(command):
    """Runs a command at the top of the repository. What the prover's processes below it used: ticks by crate and phase."""
    used, parts, kinds = {}, collections.defaultdict(dict), {}
    begun = subprocess.Popen(command, cwd=BENCH.parent)
    while begun.poll() is None:
        there = processes()
        for number, (parent, own, of_ended, began, words) in there.items():
            work = work_of(number, words)
            if not work or not is_below(number, begun.pid, there):
                continue
            if parent in there and work_of(parent, there[parent][-1]):
                parts[parent, there[parent][3]][number, began] = own + of_ended
            else:
                used[number, began], kinds[number, began] = (own, of_ended), work
        time.sleep(EVERY)
    sums = collections.Counter()
    for process_, (own, of_ended) in used.items():
        # (among its ended children are the processes among which it divided its work, unless it ended right after them)
        sums[kinds[process_]] += (own + max(of_ended, sum(parts[process_].values()))) / TICKS
    return sums, begun.returncode


def print_table(sums):
    crates = sorted({crate for crate, _ in sums}, key=lambda crate: -sum(sums[crate, phase] for phase in PHASES))
    print(f"| Crate | {' | '.join(PHASES)} | All |\n|---|{'---:|' * (len(PHASES) + 1)}")
    for crate in [*crates, None]:
        row = [sum(seconds for (of, to), seconds in sums.items() if to == phase and crate in (of, None)) for phase in PHASES]
        print(f"| {f'`{crate}`' if crate else 'all crates'} | {' | '.join(f'{seconds:,.0f}' if seconds else '' for seconds in row)} | {sum(row):,.0f} |")


def write_times(sums):
    """The seconds of the proofs of the program's crates, for tools/times.csv."""
    crates = crates_below("hh_settle", uses_of_crates())
    rows = [f"{crate},{sums[crate, 'proof'] + sums[crate, 'builds']:.0f}\n" for crate in crates]
    pathlib.Path(TIMES).write_text("crate,seconds\n" + "".join(rows), encoding="utf-8")


def main():
    parser = argparse.ArgumentParser(description=__doc__, formatter_class=argparse.RawDescriptionHelpFormatter)
    parser.add_argument("--times", action="store_true")
    parser.add_argument("command", nargs=argparse.REMAINDER, default=[])
    asked = parser.parse_args()
    began, before = time.monotonic(), resource.getrusage(resource.RUSAGE_CHILDREN)
    sums, status = watch(asked.command or ["rt", "ci"])
    used = resource.getrusage(resource.RUSAGE_CHILDREN)
    seconds = used.ru_utime + used.ru_stime - before.ru_utime - before.ru_stime
    print_table(sums)
    print(f"\nThe command took {seconds:,.0f} s of the processor and {(time.monotonic() - began) / 60:.0f} minutes, and ended with status {status}.")
    if asked.times and status == 0:
        write_times(sums)
    return status


if __name__ == "__main__":
    sys.exit(main())
