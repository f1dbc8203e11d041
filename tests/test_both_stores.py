"""A random list of requests over both stores. An office in memory settles each Settlement Period of a run again, and one in a
database file settles those that have changed. Each reply is the same, byte by byte, and so are the reports of each run and the
balances. The file is opened again for each part of the list. Between some parts, a second file is turned into one of version 1, in
which no positions are kept, and is migrated; after units have got other lead accounts, only into one without positions. What is kept
beside the tables is computed again here, from the contracts in force and from the rows that were accepted. The registrations of units,
and why rows of parties, units and reallocations are refused, are those of `registering.py`."""
import collections
import datetime
import itertools
import pathlib
import random
import re
import socket
import subprocess
import tempfile
import unittest

import test_week
from programs import IS_LONG, SETTLE, need, settle
from registering import Register, date_of, day_of
from test_commands import day_number
from test_database import KINDS, OF_VERSION_ONE, VERSION, WITHOUT_POSITIONS, changed_by, content_of, rows_of
from test_desk import OPERATOR, text_of
from test_serving import request
from test_week import is_late, periods

SEED = 14
COUNT, PER_CALL = 10_000 if IS_LONG else 2_000, 100
# Among them are days on which clocks change, of 46 and 50 periods.
DATES = ("2024-03-30", "2024-03-31", "2024-04-01", "2024-07-01", "2024-07-02", "2024-10-26", "2024-10-27", "2024-10-28")
EVER = (0, len(DATES) - 1)
# A range goes from one date's place to another's.
FIRST_PARTIES = {"ALFA": EVER, "BETA": EVER, "GAMMA": EVER, "DELTA": (3, 4), "ECHO": (0, 2)}
PARTIES = (*FIRST_PARTIES, "FOXTROT", "GOLF", "HOTEL")
ACCOUNTS = [f"{party}-{side}" for party in PARTIES for side in "PC"]
# A unit has the name of its first lead account.
FIRST_UNITS = {"ALFA-P": EVER, "BETA-C": EVER, "GAMMA-P": EVER, "DELTA-C": (3, 4)}
INTERCONNECTOR = "GAMMA-P"
# Sellers and buyers whose references are fixed from the beginning.
PAIRS = (("ALFA-P", "BETA-C"), ("BETA-P", "GAMMA-C"), ("GAMMA-P", "ALFA-C"), ("ALFA-C", "BETA-P"))
# The column of a row's date, by kind. Its period is in the next column.
PLACES = {"meters": 1, "prices": 0, "contracts": 3, "reallocations": 2}
# Before these parts of the list the second file is turned into one of version 1, without positions, and migrated. No unit has got
# another lead account by then, which begins with this request. Before later parts only the positions are taken out.
TURNED, FIRST_SUCCESSION, EMPTIED = (0, 4, 6), 700, (11, 15)
# How many accepted files of each kind have all their rows in time, at least.
LEAST = {"parties": 20, "units": 20, "meters": 150, "prices": 100, "contracts": 100, "reallocations": 50}
# The kinds of files whose refusals, 30 to 42, are known here.
REGISTERED = ("parties", "units", "reallocations")
KEPT = ("refs", "contracts", "positions", "touched", "marks", "units", "leads")
MIGRATED = (0, f"version {VERSION}\n".encode(), b"")
BEGINS = re.compile(rb"applied=|run |refused |fault |HTTP/1\.1 |DAY REPORT |date,kind,|account,moved_pence\n")


def start(at):
    """The second at which a date begins."""
    return test_week.midnight(datetime.date.fromisoformat(DATES[at]))


def before(at):
    """A moment at which no notification of a date is late."""
    return start(at) - 90_000


def after(at):
    """A moment at which a date is over."""
    return start(at) + 90_000


def all_periods(at):
    return range(1, periods(DATES[at]) + 1)


def may_have_part(unit, account):
    """Whether most reallocations of a unit are to accounts like this. The unit mostly gets others as its lead accounts."""
    return (ACCOUNTS.index(unit) + ACCOUNTS.index(account)) % 2 == 0


def ordered(at, kind, moment):
    """The line that orders a run."""
    return f"run {moment} {OPERATOR} {DATES[at]} {KINDS[kind]}"


class Requests:
    """Draws a list of requests: lines of a script, and what clients send as bytes. It remembers what is registered, read and
    run, so that most requests are in order."""

    def __init__(self, folder, seed):
        self.folder, self.draw = folder, random.Random(seed)
        self.files, self.loads = 0, []
        self.register, self.is_accepted = Register(), False
        self.first_succession, self.may_succeed = FIRST_SUCCESSION, False
        self.read, self.priced = set(), set()
        self.latest = [-1] * len(DATES)
        self.changing = [self.draw.sample(all_periods(at), 6) for at in range(len(DATES))]
        self.rows = {
            "meters": self.meter_rows,
            "prices": self.price_rows,
            "contracts": self.contract_rows,
            "reallocations": self.reallocation_rows,
        }
        self.makers = {
            self.change: 53,
            self.enroll: 7,
            self.succeed: 7,
            self.load_again: 7,
            self.load_another: 4,
            self.load_nothing: 1,
            self.order: 18,
            self.pass_a_limit: 0.7,
            self.report: 7,
            self.visit: 2,
        }

    def draw_all(self, count):
        made = self.first()
        while len(made) < count:
            self.may_succeed = len(made) >= self.first_succession
            (make,) = self.draw.choices(list(self.makers), self.makers.values())
            made += make(self.draw.randrange(len(DATES)))
        return made[:count]

    def chance(self, percent):
        return self.draw.randrange(100) < percent

    def load(self, kind, rows, moment=0, name=None, key=OPERATOR):
        """The line that loads a new file, in a folder of its own. What it registers is remembered."""
        self.files += 1
        path = self.folder / str(self.files) / (name or f"{self.files}.csv")
        path.parent.mkdir(parents=True)
        path.write_bytes(text_of(kind, rows))
        if kind in REGISTERED and name is None and key == OPERATOR:
            self.is_accepted = self.register.load(kind, rows, moment)[0] is None
        return f"load {moment} {key} {kind} {path}"

    def moment(self, at):
        """When a notification comes: mostly before its date, otherwise at the deadline of a period, or after the date."""
        if self.chance(70):
            return before(at)
        return self.draw.choice((start(at) + 1800 * self.draw.randrange(48) - 3600, after(at)))

    # Registrations

    def parties(self, at):
        day = day_of(DATES[at])
        return [party for party, (first, last) in self.register.parties.items() if first <= day <= last]

    def units(self, at):
        day = day_of(DATES[at])
        return [unit for unit, known in self.register.units.items() if known.lead_on(day)]

    def accounts(self, at):
        return [f"{party}-{side}" for party in self.parties(at) for side in "PC"]

    def party_row(self, party, first, last):
        return f"{party},{DATES[first]},{DATES[last]},{party.lower()}0000{self.draw.randint(1, 2)}"

    def unit_row(self, unit, lead, first, last, is_marked=None):
        """The row of a unit."""
        is_marked = unit == INTERCONNECTOR if is_marked is None else is_marked
        return f"{unit},{lead[:-2]},{lead[-1]},{('no', 'yes')[is_marked]},{first},{last}"

    def wider(self, first, last):
        """A range that includes this one, or now and then a smaller one."""
        if self.chance(10) and first < last:
            return first + 1, last
        return max(first - self.draw.choice((0, 0, 1)), EVER[0]), min(last + self.draw.choice((0, 0, 1)), EVER[1])

    def load_rows(self, kind, *rows):
        """The line that loads rows of parties or of units."""
        line = self.load(kind, rows)
        if self.is_accepted:
            self.loads.append(line)
        return line

    def places(self, party, at):
        """The places of a party's first and last date, or that of this date if it isn't registered."""
        days = self.register.parties.get(party)
        return tuple(DATES.index(date_of(day)) for day in days) if days else (at, at)

    def enroll(self, at):
        """A party or a unit that joins, gets a wider range or stays as it was, or a row that is refused."""
        name, place = self.draw.choice((*PARTIES, *ACCOUNTS)), self.draw.randrange(len(DATES))
        if name in PARTIES:
            return [self.load_rows("parties", self.party_row(name, *self.wider(*self.places(name, place))))]
        known = self.register.units.get(name)
        if known is None:
            first, last = self.wider(place, place)
            return [self.load_rows("units", self.unit_row(name, name, DATES[first], DATES[last]))]
        if self.chance(10):
            return [self.load_rows("units", self.unit_row(name, known.latest.lead, date_of(known.latest.first), date_of(known.last), name != INTERCONNECTOR))]
        return [self.load_rows("units", self.widening(name, known))]

    def widening(self, unit, known):
        """A row with the account that leads the unit on its last date. Mostly it has all dates of that registration, and more."""
        last = DATES.index(date_of(known.last))
        last = max(last - 1, 0) if self.chance(10) else min(last + self.draw.choice((0, 1)), EVER[1])
        first = date_of(min(known.latest.first, day_of(DATES[last])))
        if self.chance(15):
            first = self.draw.choice(DATES[: last + 1])
        elif len(known.registrations) == 1 and self.chance(50):
            first = DATES[max(DATES.index(first) - 1, 0)]
        return self.unit_row(unit, known.latest.lead, first, DATES[last])

    def succeed(self, at):
        """A unit that gets another lead account, once that may be; sometimes also a row that makes its last registration longer. Some rows
        are refused. Mostly it is a unit of few dates, since a succession touches all dates to the unit's last."""
        known = self.register.units
        if not self.may_succeed or not known:
            return []
        unit = min(self.draw.choices(list(known), k=2), key=lambda name: known[name].last - known[name].first)
        rows = [self.succession(unit, known[unit])]
        if self.chance(15):
            _, party, side, _, first, _ = rows[0].split(",")
            rows.append(self.unit_row(unit, f"{party}-{side}", first, DATES[EVER[1]]))
        return [self.load_rows("units", *rows)]

    def succession(self, unit, known):
        """Mostly it begins on one of the next dates and ends with the unit, its party is there on all its dates, and its account is one to
        which few parts of the unit go."""
        place = DATES.index(date_of(known.last))
        last = max(place - 1, 0) if self.chance(6) else min(place + self.draw.choice((0, 0, 0, 1)), EVER[1])
        next_dates = [date for date in DATES if known.latest.first < day_of(date) <= known.last + 1]
        first = self.draw.choice(next_dates[:2] or [DATES[-1]])
        if self.chance(20):
            first = self.draw.choice((date_of(known.latest.first + self.draw.randint(0, 9)), self.draw.choice(DATES)))
        first = min(first, DATES[last])
        there = [party for party, (begin, end) in self.register.parties.items() if begin <= day_of(first) and day_of(DATES[last]) <= end]
        others = [account for account in ACCOUNTS if account != known.latest.lead]
        able = [account for account in others if account[:-2] in there] or others
        fit = [account for account in able if not may_have_part(unit, account)] or able
        (among,) = self.draw.choices((fit, able, others), (65, 25, 10))
        return self.unit_row(unit, self.draw.choice(among), first, DATES[last])

    def first(self):
        """The first parties and units, and contracts for each period."""
        made = [
            self.load("parties", [self.party_row(party, *places) for party, places in FIRST_PARTIES.items()]),
            self.load("units", [self.unit_row(unit, unit, DATES[first], DATES[last]) for unit, (first, last) in FIRST_UNITS.items()]),
        ]
        for at in range(len(DATES)):
            rows = [self.contract(at, period, *pair) for pair in PAIRS for period in all_periods(at)]
            made.append(self.load("contracts", rows, before(at)))
        return made

    # Rows

    def energy(self, most):
        kwh = self.draw.randint(-most, most)
        return f"{'-' if kwh < 0 else ''}{abs(kwh) // 1000}.{abs(kwh) % 1000:03}"

    def meter(self, at, period, unit):
        multiplier, balancing = self.draw.choice(("1", "0.9950000", "1.0123457")), self.draw.choice((0, 0, "1.250", "-0.5"))
        return f"{unit},{DATES[at]},{period},{self.energy(90_000)},{multiplier},{balancing}"

    def price(self, at, period):
        return f"{DATES[at]},{period},{self.draw.randint(-20, 200)}.{self.draw.randrange(10**5):05}"

    def contract(self, at, period, seller, buyer):
        return f"{seller}_{buyer},{seller},{buyer},{DATES[at]},{period},{self.energy(50_000)}"

    def reallocation(self, at, period, unit, account):
        percent = self.draw.choice(("0", "2.50000", "12.5", "33.33333", "70"))
        return f"{unit},{account},{DATES[at]},{period},{percent},{self.draw.choice((0, 0, self.energy(2000)))}"

    # Rows that change a date. Between two runs of a date they belong only to some periods.

    def some_periods(self, at):
        """Now and then there is a period that the date doesn't have."""
        count = self.draw.randint(1, 3)
        return [self.draw.choice(self.changing[at]) if self.draw.randrange(60) else periods(DATES[at]) + 1 for _ in range(count)]

    def unit_on(self, at):
        return self.draw.choice(ACCOUNTS if self.chance(3) else self.units(at))

    def account_on(self, at):
        return self.draw.choice(ACCOUNTS if self.chance(2) else self.accounts(at))

    def pair_on(self, at):
        return self.draw.choice(PAIRS) if self.chance(60) else (self.account_on(at), self.account_on(at))

    def meter_rows(self, at):
        return [self.meter(at, period, self.unit_on(at)) for period in self.some_periods(at)]

    def price_rows(self, at):
        return [self.price(at, period) for period in self.some_periods(at)]

    def contract_rows(self, at):
        """In some files a row replaces the first, or sells what its reference buys."""
        sold = [(period, *self.pair_on(at)) for period in self.some_periods(at)]
        rows = [self.contract(at, *words) for words in (*sold, *(sold[:1] if self.chance(25) else ()))]
        if self.chance(3):
            rows.append("{0}_{1},{1},{0},{2},1,5".format(*self.draw.choice(PAIRS), DATES[at]))
        return rows

    def reallocation_rows(self, at):
        """Reallocations, mostly of two units. At times more than everything of a unit is given away."""
        units = [self.draw.choice(("ALFA-P", "BETA-C")) if self.chance(60) else self.unit_on(at) for _ in range(3)]
        return [self.reallocation(at, period, unit, self.part_on(at, unit)) for period, unit in zip(self.some_periods(at), units)]

    def part_on(self, at, unit):
        """An account that a part of a unit may go to."""
        fit = [account for account in self.accounts(at) if may_have_part(unit, account)]
        return self.draw.choice(fit) if fit and self.chance(85) else self.account_on(at)

    # Loads

    def change(self, at):
        (kind,) = self.draw.choices(list(self.rows), (14, 9, 18, 12))
        line = self.load(kind, self.rows[kind](at), self.moment(at), key="alfa00001" if self.chance(2) else OPERATOR)
        self.loads.append(line)
        return [line]

    def load_again(self, at):
        """A load that was asked for before, at another moment."""
        what, _, *words = self.draw.choice(self.loads or self.change(at)).split(" ")
        return [" ".join((what, str(self.moment(at)), *words))]

    def load_another(self, at):
        """Another file under a name that was sent before."""
        *_, kind, path = self.draw.choice(self.loads or self.change(at)).split(" ")
        kind = kind if kind in self.rows else "prices"
        return [self.load(kind, self.rows[kind](at), self.moment(at), pathlib.Path(path).name)]

    def load_nothing(self, _):
        return [f"load 0 {OPERATOR} prices {self.folder}/none.csv"]

    # Runs

    def unread(self, at):
        return [unit for unit in self.units(at) if (unit, at) not in self.read]

    def is_ready(self, at):
        return at in self.priced and not self.unread(at)

    def complete(self, at):
        """What is missing for a run: the prices of the date, or the readings of units."""
        if at not in self.priced:
            self.priced.add(at)
            return [self.load("prices", [self.price(at, period) for period in all_periods(at)])]
        units = self.unread(at)
        self.read |= {(unit, at) for unit in units}
        return [self.load("meters", [self.meter(at, period, unit) for unit in units for period in all_periods(at)])]

    def next_kind(self, at):
        """The next kind of run. After SF one may be left out."""
        return min(self.latest[at] + (2 if self.latest[at] >= 0 and self.chance(15) else 1), len(KINDS) - 1)

    def run(self, at, kind):
        """A run. If it is made, other periods change from now on."""
        latest = self.latest[at]
        if self.is_ready(at) and kind > latest and (kind == 0 or latest >= 0):
            self.latest[at] = kind
            self.changing[at] = self.draw.sample(all_periods(at), self.draw.randint(2, 12))
        return ordered(at, kind, after(at))

    def order(self, at):
        """The next run of a date, or what is missing for it; or one before the day is over; or one that exists or is out of
        order."""
        if self.chance(10):
            return [ordered(at, self.next_kind(at), start(at) + 1800 * periods(DATES[at]) - 1)]
        if self.chance(50):
            return [self.run(at, self.draw.randint(0, max(self.latest[at], 1)))]
        if not self.is_ready(at) and self.chance(70):
            return self.complete(at)
        made = [self.run(at, self.next_kind(at))]
        return [*made, *self.order_behind(at)] if self.chance(20) else made

    def order_behind(self, at):
        """A run immediately after another, perhaps with a party that joins between them, which touches nothing."""
        absent = [party for party in PARTIES if party not in self.parties(at)]
        if not absent or self.chance(40):
            return [self.run(at, self.next_kind(at))]
        party = self.draw.choice(absent)
        first, last = self.places(party, at)
        return [self.load_rows("parties", self.party_row(party, min(first, at), max(last, at))), self.run(at, self.next_kind(at))]

    def pass_a_limit(self, at):
        """If a date can be run: contracts and a price that make a charge too large, a run, and a price that corrects it."""
        if not self.is_ready(at) or self.latest[at] == len(KINDS) - 1:
            return []
        period = self.draw.choice(all_periods(at))
        rows = [f"LARGE-{number},ALFA-P,BETA-P,{DATES[at]},{period},10000.000" for number in range(11)]
        return [
            self.load("contracts", rows, before(at)),
            self.load("prices", [f"{DATES[at]},{period},99999.99999"]),
            ordered(at, self.next_kind(at), after(at)),
            self.load("prices", [self.price(at, period)]),
        ]

    # What is asked for

    def report(self, at):
        key = OPERATOR if self.chance(95) else "alfa00001"
        if self.chance(20):
            return [f"report {key} balances"]
        kind = self.draw.randint(0, max(self.latest[at], 1))
        return [f"report {key} {self.draw.choice(('day', 'csv'))} {DATES[at]} {KINDS[kind]}"]

    def visit(self, at):
        """Some clients, each with an enquiry."""
        return [self.enquiry(self.draw.choice(ACCOUNTS), DATES[at]) for _ in range(5)]

    def enquiry(self, account, date):
        form = self.draw.choice(("/accounts/{0}/{1}", "/balances/{0}", "/contracts/{0}/{1}", "/runs/{1}"))
        key = self.draw.choice((OPERATOR, OPERATOR, f"{account[:-2].lower()}00001", "alfa00001"))
        return request("GET", form.format(account, date), key)


# The reports of each run that there may be, and the balances.
REPORTS = [f"report {OPERATOR} {form} {date} {kind}" for date in DATES for kind in KINDS for form in ("day", "csv")]
REPORTS += [f"report {OPERATOR} balances"]


def replied(port, data):
    """The reply to a client that sends this."""
    with socket.create_connection(("127.0.0.1", port), timeout=30) as client:
        client.sendall(data)
        return b"".join(iter(lambda: client.recv(65_536), b""))


def cut(lines):
    """The replies, each with all its lines."""
    replies = []
    for line in lines:
        if BEGINS.match(line) or not replies:
            replies.append([])
        replies[-1].append(line)
    return [b"".join(reply) for reply in replies]


def told(script, requests, *words):
    """The reply to each of these requests, by one call of `settle script`. Clients are served by lines that serve."""
    groups = [list(group) for _, group in itertools.groupby(requests, type)]
    visits = [group for group in groups if isinstance(group[0], bytes)]
    lines = [line for group in groups for line in (group if isinstance(group[0], str) else [f"serve 0 0 {len(group)}"])]
    script.write_text("".join(f"{line}\n" for line in lines))
    call = [SETTLE, "script", *map(str, words), str(script)]
    with subprocess.Popen(call, stdin=subprocess.DEVNULL, stdout=subprocess.PIPE, stderr=subprocess.PIPE) as program:
        try:
            found = [*heard(program.stdout, iter(visits))]
        except BaseException:
            program.kill()
            raise
        wrong = program.stderr.read()
    if program.returncode or wrong:
        raise AssertionError((program.returncode, wrong))
    return cut(found)


def heard(output, visits):
    """The lines that a script writes. In the place of a line that tells a port are the replies to its clients."""
    for line in output:
        if line.startswith(b"listening "):
            yield from (replied(int(line.rpartition(b":")[2]), data) for data in next(visits))
        else:
            yield line


def lines_of(path):
    """The rows of a file, as they are written."""
    return pathlib.Path(path).read_text(encoding="utf-8").splitlines()[1:]


def first_of(rows):
    """Some of the rows that are wrong, because all of them would be too many to read."""
    return sorted(rows)[:5]


def nets_of(references, contracts):
    """What each account sells minus what it buys in each Settlement Period by these rows, in kWh, if that isn't 0."""
    ends = {reference: (tuple(row[:2]), tuple(row[2:])) for reference, *row in references}
    nets = collections.Counter()
    for reference, day, period, kwh in contracts:
        seller, buyer = ends[reference]
        nets[(day, period, *seller)] += kwh
        nets[(day, period, *buyer)] -= kwh
    return {key: kwh for key, kwh in nets.items() if kwh}


class OfficeInFile:
    """An office in a database file that was asked the list part by part, and what its file had after each part."""

    def __init__(self, room, parts, turned=(), emptied=()):
        self.database = room / "office.db"
        room.mkdir()
        made = settle("init", "--db", str(self.database), "--operator-key", OPERATOR)
        if made != (0, b"ready\n", b""):
            raise AssertionError(made)
        self.replies, self.kept = [], []
        for number, part in enumerate(parts):
            if number in turned:
                changed_by(self.database, *WITHOUT_POSITIONS, *OF_VERSION_ONE)
                if settle("migrate", "--db", str(self.database)) != MIGRATED:
                    raise AssertionError(number)
            if number in emptied:
                changed_by(self.database, *WITHOUT_POSITIONS)
            self.replies += told(room / "script", part, "--db", self.database)
            self.kept.append({table: rows_of(self.database, table) for table in KEPT})


class Outcome:
    """What the replies say about the requests that were asked: what was accepted, refused and run, and which Settlement Periods
    were touched since the latest run of their date."""

    def __init__(self):
        self.files, self.runs, self.touched = set(), collections.defaultdict(dict), set()
        self.register, self.others = Register(), []  # answers that the rows of a file don't have by the register
        self.counts, self.later = collections.Counter(), []

    def take(self, asked, reply):
        """A request and its reply."""
        if isinstance(asked, bytes):
            self.counts["enquiry", int(reply.split()[1])] += 1
            return
        what, *words = asked.split(" ")
        refused = re.match(rb"refused ([0-9]+) |fault ", reply)
        if refused:
            self.counts[what, int(refused[1] or 0)] += 1
            if what == "load" and words[2] in REGISTERED and 30 <= int(refused[1] or 0) <= 42:
                self.judge(asked, re.match(rb"refused (\d+) \w+ row (\d+)", reply))
        elif what == "load":
            self.load(int(words[0]), words[2], pathlib.Path(words[3]), int(reply.rpartition(b"=")[2]))
        elif what == "run":
            self.run(words[2], words[3], int(reply.split()[6]))
        else:
            self.counts["report", "told"] += 1

    def load(self, moment, kind, path, late):
        """A file that was accepted. If it is new, its rows in time count."""
        if (kind, path.name) in self.files:
            self.counts["load", "again"] += 1
            return
        self.files.add((kind, path.name))
        self.counts[kind, "late" if late else "in time"] += 1
        if kind in REGISTERED:
            self.enroll(kind, path, moment)
        for row in test_week.rows_of(path):
            if kind in PLACES and not is_late(kind, row, moment):
                date, period = row[PLACES[kind] :][:2]
                self.touched.add((day_number(date), int(period)))

    def judge(self, asked, refused):
        """A file whose row was refused. The register refuses the same row for the same reason, and doesn't change."""
        _, moment, _, kind, path = asked.split(" ")
        refusal, _ = self.register.load(kind, lines_of(path), int(moment))
        if refusal != (int(refused[1]), int(refused[2])):
            self.others.append((asked, refusal))

    def enroll(self, kind, path, moment):
        """A file that was accepted: parties and units that join, get a wider range or stay as they were, and units that get another lead
        account. These touch each period of those of their dates that have a run."""
        before = self.ranges(kind)
        refusal, successions = self.register.load(kind, lines_of(path), moment)
        if refusal:
            self.others.append((path, refusal))
        for name, days in self.ranges(kind).items():
            if before.get(name) != days:
                self.counts[kind, "widened" if name in before else "joined"] += 1
        for first, last in successions:
            dates = [date for date, runs in self.runs.items() if runs and first <= day_of(date) <= last]
            self.counts[kind, "succeeded"] += 1
            self.counts[kind, "settled before"] += bool(dates)
            self.touched |= {(day_of(date), period) for date in dates for period in range(1, periods(date) + 1)}

    def ranges(self, kind):
        """The first and the last day of each party or unit."""
        if kind == "units":
            return {name: (unit.first, unit.last) for name, unit in self.register.units.items()}
        return dict(self.register.parties) if kind == "parties" else {}

    def run(self, date, kind, accounts):
        """A run that was made, or that existed already."""
        runs = self.runs[date]
        if kind in runs:
            self.counts["run", "again"] += 1
            return
        since = self.touched_on(date)
        if runs:
            self.later.append((date, len(since), accounts - list(runs.values())[-1]))
        self.counts["run", "made"] += 1
        runs[kind] = accounts
        self.touched -= since

    def touched_on(self, *dates):
        days = {day_number(date) for date in dates}
        return {at for at in self.touched if at[0] in days}


class Settled(Outcome):
    """Also what each run settles and posts, from scratch: `bench/peer_office.py` is given the rows in force, and the account that leads each
    unit on the date."""

    def __init__(self):
        super().__init__()
        self.peer, self.references, self.nets = test_week.Peer().calls, {}, {}
        self.in_force = {kind: collections.defaultdict(dict) for kind in PLACES}  # by day and period
        self.rows = {"results": set(), "credits": set(), "postings": set()}

    def load(self, moment, kind, path, late):
        if (kind, path.name) not in self.files and kind in PLACES:
            self.take_rows(kind, test_week.rows_of(path), moment)
        super().load(moment, kind, path, late)

    def take_rows(self, kind, rows, moment):
        """Puts the rows in time in the place of those of their keys."""
        if kind == "contracts":
            for reference, seller, buyer, *_ in rows:
                self.references.setdefault(reference, (self.peer["account"](seller), self.peer["account"](buyer)))
        for row in self.peer["tuples"](kind, [row for row in rows if not is_late(kind, row, moment)]):
            at = {"meters": 1, "prices": 0, "contracts": 1, "reallocations": 3}[kind]
            self.in_force[kind][row[at : at + 2]][row[:at]] = row[at + 2 :]

    def run(self, date, kind, accounts):
        if kind not in self.runs[date]:
            self.settle(day_of(date), KINDS.index(kind), range(1, periods(date) + 1))
        super().run(date, kind, accounts)

    def settle(self, day, kind, numbers):
        parties = sorted(party for party, (first, last) in self.register.parties.items() if first <= day <= last)
        units = [(name, unit.lead_on(day), unit.mark == "yes") for name, unit in sorted(self.register.units.items())]
        units = [(name, self.peer["account"](lead), mark) for name, lead, mark in units if lead]
        net = collections.Counter()
        for period in numbers:
            held = {kind: rows[day, period] for kind, rows in self.in_force.items()}
            given = {}
            for (unit, *to), part in held["reallocations"].items():
                given.setdefault(unit, []).append((tuple(to), *part))
            sold = [(*self.references[reference], kwh) for (reference,), (kwh,) in held["contracts"].items()]
            meters = {unit: row for (unit,), row in held["meters"].items()}
            accounts = [(party, side) for party in parties for side in (0, 1)]
            rows, credits, _ = self.peer["settle"](accounts, units, meters, sold, given, held["prices"][()][0])
            self.rows["results"] |= {(day, kind, period, *account, *figures) for account, *figures in rows}
            self.rows["credits"] |= {(day, kind, period, *credit) for credit in credits}
            for account, *_, charge, share in rows:
                net[account] += charge + share
        old = self.nets.get(day, {})
        posted = {account: net[account] - old.get(account, 0) for account in net.keys() | old.keys()}
        self.rows["postings"] |= {(day, kind, *account, pence) for account, pence in posted.items() if pence}
        self.nets[day] = net


class BothStores(unittest.TestCase):
    """What is told over tables in memory, over a file, and over a file that was turned into one of version 1 and migrated."""

    @classmethod
    def setUpClass(cls):
        need(SETTLE)
        folder = tempfile.TemporaryDirectory()
        cls.addClassCleanup(folder.cleanup)
        room = pathlib.Path(folder.name)
        asked = Requests(room / "files", SEED).draw_all(COUNT)
        cls.parts = [*(asked[place : place + PER_CALL] for place in range(0, COUNT, PER_CALL)), REPORTS]
        cls.requests = [*asked, *REPORTS]
        cls.in_memory = told(room / "script", cls.requests, "--operator-key", OPERATOR)
        cls.in_file = OfficeInFile(room / "new", cls.parts)
        cls.of_before = OfficeInFile(room / "before", cls.parts, TURNED, EMPTIED)

    def outcomes(self, kind=Outcome):
        """What came of the requests, after each part."""
        outcome, pairs = kind(), zip(self.requests, self.in_memory, strict=True)
        for part in self.parts:
            for asked, reply in itertools.islice(pairs, len(part)):
                outcome.take(asked, reply)
            yield outcome

    def outcome(self, kind=Outcome):
        *_, last = self.outcomes(kind)
        return last

    def compare(self, replies):
        """Names the first request with another reply, and the first line of the reply that differs."""
        for number, (asked, wanted, found) in enumerate(zip(self.requests, self.in_memory, replies), 1):
            if found != wanted:
                pairs = itertools.zip_longest(wanted.splitlines(), found.splitlines())
                told = next(pair for pair in pairs if pair[0] != pair[1])
                self.fail(f"request {number}, {asked}: {told[0]} in memory, {told[1]} over the file")
        self.assertEqual(len(replies), len(self.requests))

    def test_replies_over_a_file(self):
        """The replies to the list, and to the reports after it."""
        self.compare(self.in_file.replies)

    def test_replies_over_a_file_of_the_version_before(self):
        self.compare(self.of_before.replies)

    def test_loads_and_enquiries_of_the_list(self):
        """Files of each kind are accepted, in time, late and again. Others are refused for each reason that a row may have,
        except for too many rows."""
        self.assertEqual(len(self.requests) - len(REPORTS), COUNT)
        counts = self.outcome().counts
        for kind, least in LEAST.items():
            self.assertGreaterEqual(counts[kind, "in time"], least, kind)
        for kind in ("contracts", "reallocations"):
            self.assertGreaterEqual(counts[kind, "late"], 30, kind)
        for kind in ("parties", "units"):
            self.assertGreaterEqual(counts[kind, "widened"], 10, kind)
        self.assertGreaterEqual(counts["load", "again"], 50)
        refused = {cause: count for (what, cause), count in counts.items() if what == "load" and cause != "again"}
        self.assertEqual(set(refused), {0, 14, 20, 30, 31, 33, 34, 35, 36, 37, 38, 39, 40, 41, 60})
        self.assertGreaterEqual(min(refused[cause] for cause in (39, 40, 41)), 3)
        self.assertGreaterEqual(sum(refused.values()), 200)
        self.assertGreaterEqual(counts["enquiry", 200], 50)
        self.assertGreaterEqual(counts["enquiry", 403] + counts["enquiry", 404], 20)

    def test_runs_of_the_list(self):
        """On each date some Settlement Periods change between two runs and others don't. Between some runs nothing is touched,
        and between some accounts join. Runs are told again, and refused for each reason."""
        outcome = self.outcome()
        counts, later = outcome.counts, outcome.later
        self.assertEqual({date for date, touched, _ in later if 0 < touched < periods(date)}, set(DATES))
        self.assertGreaterEqual(sum(0 < touched < periods(date) for date, touched, _ in later), 15)
        self.assertGreaterEqual(sum(touched == periods(date) for date, touched, _ in later), 3)
        self.assertGreaterEqual(sum(not touched for _, touched, _ in later), 5)
        self.assertGreaterEqual(sum(joined > 0 for _, _, joined in later), 8)
        self.assertGreaterEqual(sum(joined > 0 and not touched for _, touched, joined in later), 2)
        self.assertGreaterEqual(counts["run", "made"], 40)
        self.assertGreaterEqual(counts["run", "again"], 40)
        for cause in range(50, 56):
            self.assertGreaterEqual(counts["run", cause], 2, cause)
        self.assertGreaterEqual(counts["report", "told"], 2 * counts["run", "made"] + 50)

    def test_units_that_join(self):
        """On some dates a later run has more units than the one before."""
        units = collections.defaultdict(lambda: collections.defaultdict(set))
        for day, kind, _, unit, *_ in rows_of(self.in_file.database, "credits"):
            units[day][kind].add(unit)
        runs = [[units[day][kind] for kind in sorted(units[day])] for day in units]
        self.assertGreaterEqual(sum(one < other for sets in runs for one, other in itertools.pairwise(sets)), 5)

    def test_positions(self):
        """After each part they are what the contracts in force come to, if that isn't 0."""
        for office in (self.in_file, self.of_before):
            for number, kept in enumerate(office.kept):
                wanted = nets_of(kept["refs"], kept["contracts"])
                found = {(tuple(key), kwh) for *key, kwh, lost in kept["positions"] if kwh or lost}
                self.assertEqual(first_of(found ^ set(wanted.items())), [], (office.database, number))
                self.assertEqual({lost for *_, lost in kept["positions"]}, {0})
                self.assertEqual(kept["marks"], [(1, 1)])
            self.assertGreater(len(found), 1000)

    def test_touched_periods(self):
        """For each date that has a run, after each part: over the file, the periods of rows in time since the date's latest
        run, and no others; over the file that had no positions, these and perhaps others, because all periods counted as touched
        once."""
        left = 0
        for number, outcome in enumerate(self.outcomes()):
            dates = [date for date, runs in outcome.runs.items() if runs]
            wanted, days = outcome.touched_on(*dates), {day_number(date) for date in dates}
            found = {at for at in self.in_file.kept[number]["touched"] if at[0] in days}
            self.assertEqual(first_of(found ^ wanted), [], number)
            self.assertEqual(first_of(wanted - set(self.of_before.kept[number]["touched"])), [], number)
            left += sum(map(periods, dates)) - len(wanted)
        self.assertGreater(left, 1000)

    def test_registrations(self):
        """After each part they are those that the accepted rows make, and each unit has its latest lead account and its whole range. Some
        units have been widened to earlier dates, and some to later ones. Some got another lead account for dates that had a run."""
        moved, firsts = collections.Counter(), {}
        for number, outcome in enumerate(self.outcomes()):
            for office in (self.in_file, self.of_before):
                kept = office.kept[number]
                self.assertEqual(kept["leads"], outcome.register.lead_rows(), (office.database, number))
                self.assertEqual(kept["units"], outcome.register.unit_rows(), (office.database, number))
            for name, unit in outcome.register.units.items():
                old = firsts.setdefault(name, (unit.first, unit.last))
                moved.update({"earlier": unit.first < old[0], "later": unit.last > old[1]})
                firsts[name] = unit.first, unit.last
        self.assertGreater(len(firsts), 5)
        self.assertGreaterEqual(min(moved["earlier"], moved["later"]), 2, moved)
        self.assertGreaterEqual(outcome.counts["units", "succeeded"], 12)
        self.assertGreaterEqual(outcome.counts["units", "settled before"], 8)

    def test_rows_that_are_refused(self):
        """Rows of parties, units and reallocations: each that was refused, and no other, is refused by the register, for the same reason."""
        self.assertEqual(self.outcome().others, [])

    def test_what_runs_settle(self):
        """Each run of both files has the figures, the credits and the postings that all its periods come to, settled from scratch."""
        settled = self.outcome(Settled)
        for office in (self.in_file, self.of_before):
            for table, wanted in settled.rows.items():
                self.assertEqual(first_of(wanted ^ set(rows_of(office.database, table))), [], (office.database, table))
                self.assertGreater(len(wanted), 100)

    def test_rows_of_both_files(self):
        """All tables have the same rows, except for what is kept beside them. Each account is credited the sum of its credits."""
        contents = [content_of(office.database) for office in (self.in_file, self.of_before)]
        for table in contents[0]:
            if table not in ("positions", "touched"):
                self.assertEqual(first_of(set(contents[0][table]) ^ set(contents[1][table])), [], table)
        credited = collections.Counter()
        for day, kind, period, _, party, side, ticks in contents[0]["credits"]:
            credited[day, kind, period, party, side] += ticks
        self.assertEqual(first_of(row for row in contents[0]["results"] if row[5] != credited[row[:5]]), [])


if __name__ == "__main__":
    unittest.main()
