#!/usr/bin/env python3
"""Checks what a party can check of its bill: the figures of one of its accounts in the latest run of a date, beside its own readings,
its own book of contracts and the prices.

usage: bill.py ACCOUNT DATE --office URL --key-file PATH --units FILE --readings FILE.. --contracts FILE.. --prices FILE..
               [--reallocations FILE..] [--statement FILE] [--keep FOLDER]
       bill.py ACCOUNT DATE --reply FILE --units FILE ..

The files have the forms of the kinds `units`, `meters`, `contracts`, `prices` and `reallocations` of docs/formats.md. Of several rows of
one key the last counts. Rows of other dates, units and accounts may be there, and aren't used.

A statement is the agent's, as `./look statement ACCOUNT DATE KIND --csv` writes it. With it the shares are checked, too.

With --keep the office's reply is kept in a folder under the name ACCOUNT-DATE-KIND.json, and --reply checks such a file without asking
the office: once a later run is made, the office doesn't answer the earlier one any more.

The figures are computed from docs/market.md in whole numbers: kWh, multipliers of 10^-7, ticks of 10^-10 MWh, prices of 10^-5 pounds,
and pence. Status 0: all that could be checked agrees. 1: something doesn't, or a file or the office failed. 2: wrong words."""

import argparse
import collections
import csv
import datetime
import decimal
import json
import pathlib
import re
import sys

import gaugepoppy

HEADERS = {
    "units": "unit,party,side,interconnector,from,to",
    "readings": "unit,date,period,metered_mwh,tlm,balancing_mwh",
    "contracts": "reference,seller,buyer,date,period,mwh",
    "prices": "date,period,price",
    "reallocations": "unit,account,date,period,percent,fixed_mwh",
}
STATEMENT = (
    "date,kind,account,period,from,credited,balancing,contracts,imbalance,price,charge_pence,residual_pence,weight,weights,"
    "share_pence,pays_pence"
)
# How many digits behind the point a column has at most. A period has digits alone, and pence may have a minus.
PLACES = {"metered_mwh": 3, "balancing_mwh": 3, "mwh": 3, "fixed_mwh": 3, "tlm": 7, "percent": 5, "price": 5, "period": 0}
PLACES |= {"residual_pence": -1, "weight": 10, "weights": 10}
EXPECTED = {-1: "a whole number", 0: "digits"}
ENERGIES = "credited", "balancing", "contracts", "imbalance"
CALLED = {"credited": "Credited energy", "balancing": "Balancing volume", "contracts": "Contracts", "imbalance": "Imbalance"}
SHARE = """\
Not checked: the shares, {shares} in all.
A share is a part of the period's residual by weight. The residual is made of all accounts' charges, and the weights of all accounts'
credits, which no party can see. Ask the agent for ./look statement {account} {date} {kind} --csv, and give it by --statement."""
PENNIES = """\
Not checked: the residual of each period and the sum of all weights, which are the agent's statement's, and who got the pennies that
were left over. They are made of all accounts' charges and credits, which no party can see."""
CREDIT = """\
A reallocation that the files don't have counts in the credited energy, too. No party can ask for those that others have made."""

Own = collections.namedtuple("Own", "units readings contracts prices reallocations")


class Fault(Exception):
    """A fault of a file or of a word. Its text is one line."""


# The files


def whole(text, places):
    """A decimal as a whole number of its smallest unit."""
    form = {-1: "-?[0-9]+", 0: "[0-9]+"}.get(places, rf"-?[0-9]+(\.[0-9]{{1,{places}}})?")
    if not re.fullmatch(form, text):
        raise ValueError
    before, _, after = text.partition(".")
    return int(before + after.ljust(places, "0"))


def rows_of(names, path):
    """Each row of a file, by the names of its columns. Numbers are whole."""
    header = names.split(",")
    try:
        with open(path, encoding="utf-8-sig", newline="") as file:
            first, *rows = [row for row in csv.reader(file) if row] or [None]
    except (OSError, ValueError, csv.Error) as cause:
        raise Fault(f"{path}: {getattr(cause, 'strerror', None) or cause}") from None
    if first != header:
        raise Fault(f"{path}: its header isn't {names}")
    for number, row in enumerate(rows, 1):
        if len(row) != len(header):
            raise Fault(f"{path}: row {number} has {len(row)} fields, expected {len(header)}")
        yield {name: value_of(path, number, name, text) for name, text in zip(header, row)}


def value_of(path, number, name, text):
    try:
        return whole(text, PLACES[name]) if name in PLACES else text
    except ValueError:
        expected = EXPECTED.get(PLACES[name], f"a decimal with at most {PLACES[name]} digits behind the point")
        raise Fault(f'{path}: row {number}: {name} is "{text}", expected {expected}') from None


def last_rows(kind, paths, date, *names):
    """The last row of each key among those of a date."""
    rows = (row for path in paths for row in rows_of(HEADERS[kind], path))
    return {tuple(row[name] for name in names): row for row in rows if row.get("date", date) == date}


def holds(row, date):
    """Whether a unit's row is about a date."""
    return row["from"] <= date <= (row["to"] or "2099-12-31")


def units_of(paths, date):
    """The last row of each unit that is about a date. It names the unit's lead account on the date. If a unit has no such row, its last
    row tells whether it is an interconnector's."""
    rows = [row for path in paths for row in rows_of(HEADERS["units"], path)]
    return {row["unit"]: row for row in [*rows, *(row for row in rows if holds(row, date))]}


def own_files(asked):
    """What the party's files say about a date."""
    return Own(
        units_of(asked.units, asked.date),
        last_rows("readings", asked.readings, asked.date, "unit", "period"),
        last_rows("contracts", asked.contracts, asked.date, "reference", "period"),
        last_rows("prices", asked.prices, asked.date, "period"),
        last_rows("reallocations", asked.reallocations, asked.date, "unit", "period", "account"),
    )


# The rules of docs/market.md


def near(number, by):
    """The whole number nearest to a quotient. Of two that are equally near it is the one farther from zero."""
    size = (2 * abs(number) + by) // (2 * by)
    return size if number >= 0 else -size


def periods_of(date):
    """How many Settlement Periods a date has: clocks change on the last Sundays of March and October."""
    day = datetime.date.fromisoformat(date)
    is_last_sunday = day.weekday() == 6 and day.day > 24
    return {3: 46, 10: 50}.get(day.month, 48) if is_last_sunday else 48


def part_of(reading, given):
    """What a reallocation gives of a reading, in ticks."""
    rest = reading["metered_mwh"] - reading["balancing_mwh"]
    return near((rest * given["percent"] + given["fixed_mwh"] * 10**7) * reading["tlm"], 10**7)


def charge_of(imbalance, price):
    """The pence for an imbalance in ticks."""
    return near(-imbalance * price, 10**13)


class Period:
    """What a party's files give for an account in a Settlement Period, in ticks. Where a row is missing, `lacks` says it."""

    def __init__(self, own, account, date, period):
        self.own, self.account, self.date, self.period, self.lacks = own, account, date, period, []
        led = [unit for unit, row in own.units.items() if self.leads(row)]
        given = [row for (_, number, _), row in own.reallocations.items() if number == period]
        readings = {unit: self.reading(unit) for unit in led}
        others = {row["unit"]: self.reading(row["unit"]) for row in given if row["account"] == account}
        self.credited = self.balancing = self.weight = None
        if None not in readings.values():
            self.balancing = sum(reading["balancing_mwh"] * reading["tlm"] for reading in readings.values())
            if None not in others.values():
                self.take_credits(self.credits(readings, others, given))
        self.contracts = sum(sign * row["mwh"] * 10**7 for row, sign in self.sold())
        self.price = own.prices.get((period,), {}).get("price")
        if self.price is None:
            self.lacks.append("no price")

    @property
    def imbalance(self):
        known = self.credited is not None and self.balancing is not None
        return self.credited - self.balancing - self.contracts if known else None

    def leads(self, row):
        """Whether the account is the lead account of a unit's row, on this date."""
        return f"{row['party']}-{row['side']}" == self.account and holds(row, self.date)

    def reading(self, unit):
        found = self.own.readings.get((unit, self.period))
        lack = f"no reading of {unit}"
        if found is None and lack not in self.lacks:
            self.lacks.append(lack)
        return found

    def credits(self, readings, others, given):
        """By unit: the rests of those that the account leads, and its parts of others."""
        found = {unit: reading["metered_mwh"] * reading["tlm"] for unit, reading in readings.items()}
        for row in given:
            if row["unit"] in readings:
                found[row["unit"]] -= part_of(readings[row["unit"]], row)
            elif row["account"] == self.account:
                found[row["unit"]] = part_of(others[row["unit"]], row)
        return found

    def take_credits(self, found):
        """Their sum, and the account's weight, if it is known of each unit whether it is an interconnector's."""
        self.credited = sum(found.values())
        self.lacks += [f"no row of the unit {unit}" for unit in found if unit not in self.own.units]
        if found.keys() <= self.own.units.keys():
            self.weight = sum(abs(credit) for unit, credit in found.items() if self.own.units[unit]["interconnector"] == "no")

    def sold(self):
        """The rows of the account's contracts, with 1 where it sells and -1 where it buys."""
        for (_, period), row in self.own.contracts.items():
            if period == self.period and self.account in (row["seller"], row["buyer"]):
                yield row, 1 if row["seller"] == self.account else -1


# The bill beside the files


def ticks(energy):
    """An energy of a reply in ticks."""
    return int(energy.scaleb(10))


def shown(amount):
    """Ticks in MWh."""
    return f"{'-' if amount < 0 else ''}{abs(amount) // 10**10}.{abs(amount) % 10**10:010} MWh"


def pounds(pence):
    return f"{'-' if pence < 0 else ''}£{abs(pence) // 100:,}.{abs(pence) % 100:02}"


def numbers(found):
    """Periods by their numbers: `1 to 3, 7`."""
    spans = []
    for number in found:
        if spans and spans[-1][1] == number - 1:
            spans[-1][1] = number
        else:
            spans.append([number, number])
    return ", ".join(str(first) if first == last else f"{first} to {last}" for first, last in spans)


class Bill:
    """An office's reply about an account, beside what the party's own files give."""

    def __init__(self, reply, own):
        self.account, self.date, self.reply = reply["account"], reply["date"], reply
        self.rows = [{**row, **{name: ticks(row[name]) for name in ENERGIES}} for row in reply["periods"]]
        self.book = own.contracts
        self.own = {row["period"]: Period(own, self.account, self.date, row["period"]) for row in self.rows}
        self.lines, self.agrees = [], True

    def check(self, contracts, statement):
        """Fills the lines, which tell what was checked and what wasn't. The contracts are the office's, if it was asked for them, and
        the statement is the agent's, if there is one."""
        net = self.reply["net_pence"]
        self.lines.append(f"{self.account}, {self.date}, run {self.reply['kind']}: {'pays' if net >= 0 else 'is paid'} {pounds(abs(net))}")
        self.check_periods()
        for name in ENERGIES[:3]:
            self.check_each(CALLED[name], "as your files give it", lambda row: self.beside(row, name))
        self.check_each("Imbalance", "the credited energy less both", self.imbalance)
        self.check_each("Charge", "the office's imbalance at your price", self.charge)
        if statement is not None:
            self.statement = statement
            self.check_each("Weight", "as your files give it", self.weight)
            self.check_each("Share", "the statement's residual by weight", self.share)
        self.check_net(net)
        if contracts is not None:
            self.check_book(contracts)
        self.worth()
        self.unchecked(PENNIES if statement is not None else SHARE)

    def differs(self, line):
        self.agrees = False
        self.lines.append(f"  {line}")

    def check_periods(self):
        count = periods_of(self.date)
        self.lines.append(f"{'Settlement Periods':<20} {len(self.rows)} of {count}")
        if [row["period"] for row in self.rows] != list(range(1, count + 1)):
            self.differs(f"the office has {numbers(row['period'] for row in self.rows)}")

    def check_each(self, called, how, judge):
        """One figure in each period. The judge gives None where the files lack something, or how the figure differs."""
        judged = [(row["period"], judge(row)) for row in self.rows]
        right = sum(said == "" for _, said in judged)
        self.lines.append(f"{called:<20} {right} of {len(judged)} are {how}")
        for period, said in judged:
            if said:
                self.differs(f"period {period}: {said}")
        lacking = [period for period, said in judged if said is None]
        if lacking:
            lacks = dict.fromkeys(lack for period in lacking for lack in self.own[period].lacks)
            self.lines.append(f"  not checked in periods {numbers(lacking)}: your files have {', '.join(lacks)}")

    def beside(self, row, name):
        mine = getattr(self.own[row["period"]], name)
        if mine is None or mine == row[name]:
            return mine if mine is None else ""
        return f"the office has {shown(row[name])}, your files give {shown(mine)}"

    def imbalance(self, row):
        follows = row["credited"] - row["balancing"] - row["contracts"]
        return "" if follows == row["imbalance"] else f"the office has {shown(row['imbalance'])}, its own figures give {shown(follows)}"

    def charge(self, row):
        price = self.own[row["period"]].price
        if price is None:
            return None
        follows = charge_of(row["imbalance"], price)
        return "" if follows == row["charge_pence"] else f"the office has {pounds(row['charge_pence'])}, your price gives {pounds(follows)}"

    def weight(self, row):
        mine, theirs = self.own[row["period"]].weight, self.statement[row["period"]]["weight"]
        if mine is None or mine == theirs:
            return mine if mine is None else ""
        return f"the statement has {shown(theirs)}, your files give {shown(mine)}"

    def share(self, row):
        """A share is the whole pence of its quota, or one more if there is a remainder. If all weights are 0, any part may be right."""
        line = self.statement[row["period"]]
        residual, sign = line["residual_pence"], 1 if line["residual_pence"] >= 0 else -1
        if line["weights"]:
            least, rest = divmod(abs(residual) * line["weight"], line["weights"])
            most = least + (rest > 0)
        else:
            least, most = 0, abs(residual)
        if least <= sign * row["share_pence"] <= most:
            return ""
        range_of = pounds(sign * least) if least == most else f"{pounds(sign * least)} to {pounds(sign * most)}"
        return f"the office has {pounds(row['share_pence'])}, the residual {pounds(residual)} gives {range_of}"

    def check_net(self, net):
        follows = sum(row["charge_pence"] + row["share_pence"] for row in self.rows)
        which = "the sum of" if net == follows else "but not the sum of"
        self.lines.append(f"{'Day net':<20} {pounds(net)}, {which} the charges and shares")
        if net != follows:
            self.differs(f"they sum to {pounds(follows)}")

    def check_book(self, contracts):
        """Each contract that the office has in force, beside the book."""
        theirs = {(row["reference"], row["period"]): told(row, self.account) for row in contracts["contracts"]}
        mine = {key: parties_of(row) for key, row in self.book.items() if self.account in parties_of(row)}
        self.lines.append(f"{'In force':<20} {len(theirs)} contracts, and {len(mine)} in your book")
        for key in sorted(theirs.keys() | mine.keys(), key=lambda key: key[::-1]):
            if theirs.get(key) != mine.get(key):
                sides = [contract(side.get(key)) for side in (theirs, mine)]
                self.differs(f"period {key[1]}: {key[0]}: the office has {sides[0]}, your book {sides[1]}")

    def worth(self):
        """What the charges would be by the party's own figures, where they are known and other."""
        found = []
        for row in self.rows:
            mine = self.own[row["period"]]
            if mine.imbalance is not None and mine.price is not None:
                found.append((row["period"], row["charge_pence"], charge_of(mine.imbalance, mine.price)))
        other = [(period, has - gives) for period, has, gives in found if has != gives]
        for period, more in other:
            self.lines.append(f"Period {period} charges {pounds(abs(more))} {'more' if more > 0 else 'less'} than your files give")
        if other:
            more = sum(amount for _, amount in other)
            how = "more" if more >= 0 else "less"
            self.lines.append(f"In all that is {pounds(abs(more))} {how}. If it is mended, the shares change, too")

    def unchecked(self, what):
        words = {"account": self.account, "date": self.date, "kind": self.reply["kind"]}
        shares = pounds(sum(row["share_pence"] for row in self.rows))
        self.lines += ["", *what.format(shares=shares, **words).splitlines(), *CREDIT.splitlines()]


def told(row, account):
    """A contract of a reply: its seller, its buyer and its kWh."""
    pair = (account, row["counterparty"]) if row["role"] == "seller" else (row["counterparty"], account)
    return *pair, int(row["mwh"].scaleb(3))


def parties_of(row):
    """The same of a row of the book."""
    return row["seller"], row["buyer"], row["mwh"]


def contract(found):
    if found is None:
        return "none"
    seller, buyer, kwh = found
    return f"{decimal.Decimal(kwh).scaleb(-3):f} MWh from {seller} to {buyer}"


# The command


def read_reply(path):
    """A reply that was kept."""
    try:
        reply = gaugepoppy.parsed(pathlib.Path(path).read_bytes())
    except OSError as cause:
        raise Fault(f"{path}: {cause.strerror}") from None
    if not is_reply(reply):
        raise Fault(f"{path}: it is no reply about an account")
    return reply


def is_reply(reply):
    """Whether something has all that is read of a reply about an account."""
    whole = {**dict.fromkeys(("account", "date", "kind"), str), "net_pence": int, "periods": list}
    part = {**dict.fromkeys(ENERGIES, decimal.Decimal), **dict.fromkeys(("period", "charge_pence", "share_pence"), int)}
    return has_all(reply, whole) and all(has_all(row, part) for row in reply["periods"])


def has_all(found, kinds):
    """Whether something is an object with values of these kinds."""
    return isinstance(found, dict) and all(isinstance(found.get(name), kind) for name, kind in kinds.items())


def read_statement(path, reply):
    """The lines of an agent's statement by their periods. It is one of the reply's run, and has each of its periods."""
    names = "account", "date", "kind"
    rows = {row["period"]: row for row in rows_of(STATEMENT, path) if all(row[name] == reply[name] for name in names)}
    for row in reply["periods"]:
        if row["period"] not in rows:
            raise Fault(f"{path}: it has no line of {reply['account']}, {reply['date']}, {reply['kind']}, period {row['period']}")
    return rows


def office_of(asked):
    try:
        with open(asked.key_file, encoding="utf-8") as file:
            return gaugepoppy.Office(asked.office, file.readline().rstrip("\r\n"))
    except OSError as cause:
        raise Fault(f"{asked.key_file}: {cause.strerror}") from None
    except ValueError as cause:
        raise Fault(str(cause)) from None


def keep(reply, folder):
    """Keeps a reply under its account, date and kind."""
    path = pathlib.Path(folder) / f"{reply['account']}-{reply['date']}-{reply['kind']}.json"
    try:
        path.write_text(json.dumps(reply, default=lambda energy: f"{energy:f}", sort_keys=True) + "\n", encoding="utf-8")
    except OSError as cause:
        raise Fault(f"{path}: {cause.strerror}") from None


def arguments(words):
    usage = __doc__.partition("usage: ")[2].partition("\n\n")[0]
    parser = argparse.ArgumentParser(prog="bill.py", usage=usage, add_help=False, allow_abbrev=False)
    parser.add_argument("account")
    parser.add_argument("date")
    for name in ("--office", "--key-file", "--keep", "--reply", "--statement"):
        parser.add_argument(name)
    for kind in HEADERS:
        parser.add_argument(f"--{kind}", nargs="+", default=[], required=kind != "reallocations")
    asked = parser.parse_args(words)
    if not re.fullmatch("[A-Z0-9]{1,10}-[PC]", asked.account):
        parser.error(f'"{asked.account}" is no account, as CITYSUP-P or CITYSUP-C')
    try:
        if datetime.date.fromisoformat(asked.date).isoformat() != asked.date:
            raise ValueError
    except ValueError:
        parser.error(f'"{asked.date}" is no date')
    if (asked.reply is None) == (asked.office is None) or (asked.office is None) != (asked.key_file is None):
        parser.error("give --office with --key-file, or --reply")
    return asked


def checked(asked):
    """The bill that was asked for."""
    own = own_files(asked)
    office = office_of(asked) if asked.reply is None else None
    if office is not None:
        reply = office.account(asked.account, asked.date)
    else:
        reply = read_reply(asked.reply)
        if (reply["account"], reply["date"]) != (asked.account, asked.date):
            raise Fault(f"{asked.reply}: it is of {reply['account']} on {reply['date']}")
    if asked.keep is not None:
        keep(reply, asked.keep)
    bill = Bill(reply, own)
    contracts = None if office is None else office.contracts(asked.account, asked.date)
    bill.check(contracts, None if asked.statement is None else read_statement(asked.statement, reply))
    return bill


def main(words):
    if "--help" in words:
        print(__doc__)
        return 0
    asked = arguments(words)
    try:
        bill = checked(asked)
    except (Fault, gaugepoppy.Refused, gaugepoppy.NoAnswer, gaugepoppy.NoOffice) as cause:
        print(f"bill: {cause}", file=sys.stderr)
        return 1
    print("\n".join(bill.lines))
    return 0 if bill.agrees else 1


if __name__ == "__main__":
    sys.exit(main(sys.argv[1:]))
