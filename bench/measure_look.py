#!/usr/bin/env python3
"""Measures the commands of `./look` at the market's size, beside `cp` and `sqlite3`.

usage: measure_look.py [PROGRAM] [--rounds 5] [--only WORD,..] [--processor]
PROGRAM makes the office, and is asked by `check` and `preview`; by default it is crates/hh_settle/out/hh_settle at the top of this
repository. It loads the day of gen_day.py, makes SF, loads the prices again with the first raised by 10 pounds, and makes R1. In each
round each command of `look` is called once. Beside it `cp` copies the office's two files, and `sqlite3` writes all rows that the
command reads: those of the copy, and for `check` those of the file. What is written goes to /dev/null. `check` is asked about the prices
that are there, and about files of the day under new names. It and `preview` ask the program over an office in memory. Beside them the
program is called with the same words over a copy of the office's file. --only names the commands that are measured. With --processor the
milliseconds are those of the processor, which other work on the machine changes less: of `look` those of the process for which a user
waits, and in brackets those of all its processes. It needs Python 3, `sqlite3` and Linux."""
import argparse
import collections
import os
import pathlib
import resource
import shutil
import statistics
import subprocess
import sys
import tempfile
import time

from measure_day import FIRST, KEY, MOMENT, lines_of_day, script_of
from measure_run import LATER, dearer_prices, run_line
from measuring import BENCH

LOOK = [sys.executable, "-IS", str(BENCH.parent / "look")]
ACCOUNT, PERIOD = "PARTY0007-P", "23"
DATE = str(FIRST)
OF_DAY = ("meters", "prices", "contracts", "reallocations")
MOST = 3.0


def rows(*tables, where=""):
    """A question for all columns of these tables' rows."""
    return [f"SELECT * FROM {table}{where};" for table in tables]


def read_by(kinds, period=None):
    """What a command reads that shows runs of these kinds."""
    some = f" AND period = {period}" if period else ""
    of_runs = [f" WHERE day = (SELECT max(day) FROM runs) AND kind = {kind}{some}" for kind in kinds]
    of_day = rows(*OF_DAY, where=f" WHERE day = (SELECT max(day) FROM runs){some}")
    return [*of_day, *rows("files", "parties", "units", "refs", "runs"), *(line for where in of_runs for line in rows("results", "credits", where=where))]


# The words of each command, and what `sqlite3` reads beside it.
COMMANDS = {
    "status": ([], rows("prices", "meters", "contracts", "reallocations", "touched", "runs", "parties", "units")),
    "missing": ([DATE], rows("prices", "meters", "units")),
    "why, a period": ([ACCOUNT, DATE, "R1", PERIOD], read_by([1], PERIOD)),
    "why, a day": ([ACCOUNT, DATE], read_by([1])),
    "statement": ([ACCOUNT, DATE], read_by([1])),
    "compare": ([DATE, "SF", "R1"], [*read_by([0, 1]), *rows("postings")]),
    "postings": ([DATE, "R1"], [*read_by([0, 1]), *rows("postings")]),
    "page": ([DATE, "R1"], [*read_by([0, 1]), *rows("postings")]),
    "snapshot": (["OUT"], ["PRAGMA integrity_check;"]),
    "check, prices sent again": ([f"--at={LATER}", "prices", "AGAIN"], rows("files", where=" WHERE kind = 'prices'")),
    "check, new readings": ([f"--at={LATER}", "meters", "NEW"], rows("parties", "units")),
    "check, new contracts": ([f"--at={MOMENT}", "contracts", "NEW"], rows("parties", "refs")),
    "check, new reallocations": ([f"--at={MOMENT}", "reallocations", "NEW"], rows("parties", "units", "reallocations")),
    "preview": ([f"--at={LATER}", DATE, "R2"], read_by([1])),
}


def read_words():
    parser = argparse.ArgumentParser(description=__doc__, formatter_class=argparse.RawDescriptionHelpFormatter)
    parser.add_argument("program", nargs="?", default=str(BENCH.parent / "crates" / "hh_settle" / "out" / "hh_settle"))
    parser.add_argument("--rounds", type=int, default=5)
    parser.add_argument("--only", default="")
    parser.add_argument("--processor", action="store_true")
    words = parser.parse_args()
    words.program = str(pathlib.Path(words.program).resolve())
    if not pathlib.Path(words.program).is_file():
        sys.exit(f"no program at {words.program}: build it by ./settle")
    return words


def new_office(program, folder):
    """The path of an office with the day and both runs."""
    database = folder / "office.db"
    day, again = lines_of_day(folder, 1), dearer_prices(folder)
    lines = [day, run_line("SF"), f"load {LATER} {KEY} prices {again}\n", run_line("R1")]
    for words in ("init", "--operator-key", KEY), ("script", "--strict", script_of(folder, "day", lines)):
        subprocess.run([program, words[0], "--db", str(database), *words[1:]], stdout=subprocess.DEVNULL, check=True)
    return database


# The milliseconds of a call: for which its caller waits, of its process, and of that with those that it has begun.
Taken = collections.namedtuple("Taken", "waited own all")


def taken(*commands):
    """What commands take, one after the other. What they write is gone."""
    each = [taken_by(command) for command in commands]
    return Taken(*map(sum, zip(*each)))


def taken_by(command):
    begin = time.perf_counter()
    with subprocess.Popen(command, stdout=subprocess.DEVNULL, stderr=subprocess.DEVNULL) as process:
        os.waitid(os.P_PID, process.pid, os.WEXITED | os.WNOWAIT)
        waited = time.perf_counter() - begin
        own = int(pathlib.Path(f"/proc/{process.pid}/schedstat").read_text().split()[0])
        before = resource.getrusage(resource.RUSAGE_CHILDREN)
        status = process.wait()
    after = resource.getrusage(resource.RUSAGE_CHILDREN)
    if status:
        sys.exit(f"{' '.join(command)}: exit status {status}")
    used = after.ru_utime + after.ru_stime - before.ru_utime - before.ru_stime
    return Taken(1000 * waited, own / 1e6, 1000 * used)


def gone(path):
    """A path at which there is nothing, nor a log beside it."""
    for left in path.parent.glob(f"{path.name}*"):
        left.unlink()
    return path


def of_look(database, folder, name):
    """The milliseconds of a command of `look`."""
    return taken([*LOOK, name.partition(",")[0], "--db", str(database), *words_of(folder, name)])


def words_of(folder, name):
    """The words of a command, with paths. A new file has the rows of one of the day under another name."""
    words = COMMANDS[name][0]
    places = {"OUT": str(gone(folder / "out.db")), "AGAIN": str(folder / f"again-prices-{DATE}-1.csv")}
    if "NEW" in words:
        file = folder / DATE / f"{words[1]}-{DATE}-1.csv"
        places["NEW"] = str(shutil.copy(file, folder / f"new-{file.name}"))
    return [places.get(word, word) for word in words]


def of_both(database, folder, name):
    """Those of `cp` and `sqlite3`."""
    copy = gone(folder / "copy.db")
    files = [path for path in (database, database.with_name(f"{database.name}-wal")) if path.exists()]
    copies = [["cp", str(path), str(copy) + path.name.removeprefix(database.name)] for path in files]
    reads = [["sqlite3", "-readonly", str(copy), " ".join(COMMANDS[name][1])]]
    if name.startswith("check"):
        reads.append(["sqlite3", "-csv", ":memory:", f".import {words_of(folder, name)[-1]} rows", "SELECT * FROM rows;"])
    return taken(*copies, *reads)


def of_program(program, database, folder, name):
    """Those of the program with the same words over a copy."""
    copy = gone(folder / "copy.db")
    subprocess.run(["cp", str(database), str(copy)], check=True)
    command = "run" if name == "preview" else "load"
    return taken([program, command, "--db", str(copy), "--key", KEY, *words_of(folder, name)])


def main():
    words = read_words()
    os.environ["SETTLE_PROGRAM"] = words.program
    names = [name for name in COMMANDS if not words.only or name.partition(",")[0] in words.only.split(",")]
    times = {name: ([], [], []) for name in names}
    with tempfile.TemporaryDirectory() as room:
        folder = pathlib.Path(room)
        database = new_office(words.program, folder)
        for _ in range(words.rounds):
            for name in names:
                times[name][0].append(of_look(database, folder, name))
                times[name][1].append(of_both(database, folder, name))
                if name.startswith(("check", "preview")):
                    times[name][2].append(of_program(words.program, database, folder, name))
    print("| Command | `look`, ms | `cp` and `sqlite3`, ms | Ratio | The program alone, ms |\n|---|---:|---:|---:|---:|")
    high = []
    for name, found in times.items():
        look, both, alone = (Taken(*map(statistics.median, zip(*each))) if each else None for each in found)
        one, other, program = (each and (each.own if words.processor else each.waited) for each in (look, both, alone))
        beside = f" ({look.all:.0f})" if words.processor else ""
        print(f"| `{name}` | {one:.0f}{beside} | {other:.0f} | {one / other:.2f} | {'' if alone is None else f'{program:.0f}'} |")
        high += [name] * (one > MOST * other)
    print(f"\nThe aim is a ratio of at most {MOST}: {'not met by ' + ', '.join(high) if high else 'met'}.")


if __name__ == "__main__":
    main()
