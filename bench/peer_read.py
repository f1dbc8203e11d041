#!/usr/bin/env python3
"""Reads a file of meter volumes again and again: the tests of the fields and the checksum of
`hh_bench read meters`, over Python's csv. If there is a fault, it tells neither its row nor
its column.

usage: peer_read.py FILE TIMES"""
import csv
import datetime
import io
import re
import sys
import time

HEADER = ["unit", "date", "period", "metered_mwh", "tlm", "balancing_mwh"]
MOST_BYTES = 1_048_576
MOST_ROWS = 20_000
MOST_VOLUME = 10_000_000
MOST_TLM = 20_000_000
BYTE_ORDER_MARK = b"\xef\xbb\xbf"
EPOCH = datetime.date(1970, 1, 1).toordinal()
UNIT = re.compile(r"[A-Z0-9_-]{1,16}")
DATE = re.compile(r"([0-9]{4})-([0-9]{2})-([0-9]{2})")
DECIMAL = re.compile(r"(-?)([0-9]+)(?:\.([0-9]+))?")


class Refused(Exception):
    pass


def unit_of(text):
    if not UNIT.fullmatch(text):
        raise Refused("14 BadField")
    return text


def days_of(text):
    """Days since 1970-01-01."""
    found = DATE.fullmatch(text)
    if not found or not 2001 <= int(found[1]) <= 2099:
        raise Refused("14 BadField")
    try:
        return datetime.date(int(found[1]), int(found[2]), int(found[3])).toordinal() - EPOCH
    except ValueError:
        raise Refused("14 BadField") from None


def units_of(text, decimals, least, most):
    """The units of 10^-decimals that a text writes."""
    found = DECIMAL.fullmatch(text)
    if not found:
        raise Refused("14 BadField")
    sign, whole, fraction = found.groups(default="")
    units = int(sign + whole + fraction.ljust(decimals, "0"))
    if len(fraction) > decimals or not least <= units <= most:
        raise Refused("14 BadField")
    return units


def row_of(record):
    if len(record) != len(HEADER):
        raise Refused("13 BadRecord")
    unit, date, period, metered, tlm, balancing = record
    return (
        unit_of(unit),
        days_of(date),
        units_of(period, 0, 1, 50),
        units_of(metered, 3, -MOST_VOLUME, MOST_VOLUME),
        units_of(tlm, 7, 0, MOST_TLM),
        units_of(balancing, 3, -MOST_VOLUME, MOST_VOLUME),
    )


def rows_of(data):
    if len(data) > MOST_BYTES:
        raise Refused("10 FileTooLarge")
    text = data.removeprefix(BYTE_ORDER_MARK).decode("latin-1")
    records = (record for record in csv.reader(io.StringIO(text, newline="")) if record)
    if next(records, None) != HEADER:
        raise Refused("12 BadHeader")
    rows = []
    for record in records:
        if len(rows) == MOST_ROWS:
            raise Refused("11 TooManyRows")
        rows.append(row_of(record))
    return rows


def mixed(checksum, number):
    return ((checksum * 1_099_511_628_211 + abs(number)) * 2 + (number < 0)) % 2**64


def checksum_of(rows):
    checksum = 0
    for unit, *numbers in rows:
        for number in [*unit.encode(), *numbers]:
            checksum = mixed(checksum, number)
    return checksum


def read_once(data):
    begin = time.perf_counter_ns()
    try:
        rows = rows_of(data)
    except Refused as refused:
        print(time.perf_counter_ns() - begin, file=sys.stderr)
        return f"refused {refused}"
    print(time.perf_counter_ns() - begin, file=sys.stderr)
    return f"{len(rows)} {checksum_of(rows)}"


def main():
    csv.field_size_limit(MOST_BYTES)
    path, times = sys.argv[1:]
    with open(path, "rb") as file:
        data = file.read()
    told = "0 0"
    for _ in range(int(times)):
        told = read_once(data)
    print(told)


if __name__ == "__main__":
    main()
