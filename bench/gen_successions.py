#!/usr/bin/env python3
"""Writes a file of units in which each unit of a generated market changes its lead account, again and again.

usage: gen_successions.py FOLDER OUT [--each 10] [--first 2024-07-01] [--step 3]
FOLDER has one or more days of gen_day.py, each in a folder of its own, of the same parties and units. From the date --first on each
unit gets --each lead accounts, --step days after one another, and keeps the last. No account to which the days' reallocations give a
part of the unit is among them, and neither is the account that leads the unit in FOLDER. So no row of OUT is refused, and a further
file may begin on a later date. OUT keeps within 20,000 rows and 1,048,576 bytes. The same arguments always give the same bytes."""
import argparse
import csv
import datetime
import pathlib
import sys

HEADER = "unit,party,side,interconnector,from,to"


def read_arguments():
    parser = argparse.ArgumentParser(description=__doc__, formatter_class=argparse.RawDescriptionHelpFormatter)
    parser.add_argument("folder", type=pathlib.Path)
    parser.add_argument("out", type=pathlib.Path)
    parser.add_argument("--each", type=int, default=10)
    parser.add_argument("--first", type=datetime.date.fromisoformat, default=datetime.date(2024, 7, 1))
    parser.add_argument("--step", type=int, default=3)
    words = parser.parse_args()
    if min(words.each, words.step) < 1:
        parser.error("--each and --step are at least 1")
    return words


def rows_of(folder, kind):
    """The rows of all files of a kind, day after day."""
    for path in sorted(folder.glob(f"*/{kind}-*.csv")):
        with open(path, newline="", encoding="utf-8") as file:
            yield from csv.DictReader(file)


def taken_of(folder):
    """The accounts that a unit doesn't get, by unit: its lead account, and those to which it gives a part."""
    taken = {row["unit"]: {f"{row['party']}-{row['side']}"} for row in rows_of(folder, "units")}
    for row in rows_of(folder, "reallocations"):
        taken[row["unit"]].add(row["account"])
    return taken


def successions(folder, each, first, step):
    """The rows, date by date. On each date a unit gets the account after the one that it got before."""
    accounts = [f"{row}-{side}" for row in dict.fromkeys(row["party"] for row in rows_of(folder, "parties")) for side in "PC"]
    marks = {row["unit"]: row["interconnector"] for row in rows_of(folder, "units")}
    free = {unit: [account for account in accounts if account not in taken] for unit, taken in taken_of(folder).items()}
    for number in range(each):
        date = first + datetime.timedelta(number * step)
        for at, (unit, mark) in enumerate(marks.items()):
            party, _, side = free[unit][(at + date.toordinal() // step) % len(free[unit])].rpartition("-")
            yield f"{unit},{party},{side},{mark},{date},"


def main():
    words = read_arguments()
    rows = list(successions(words.folder, words.each, words.first, words.step))
    text = "".join(f"{line}\n" for line in [HEADER, *rows])
    if len(rows) > 20_000 or len(text) > 1_048_576:
        sys.exit(f"{len(rows)} rows of {len(text)} bytes are more than a file may have")
    words.out.write_text(text, encoding="utf-8")


if __name__ == "__main__":
    main()
