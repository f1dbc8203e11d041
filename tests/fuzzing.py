"""Damaged inputs, answered by `hh_bench answer` in chunks: which inputs there are, which answers they may get, and which of
them is to blame if a chunk ends in another way. The module `damaging` makes their bytes."""
import collections
import concurrent.futures
import contextlib
import dataclasses
import functools
import json
import multiprocessing
import os
import pathlib
import random
import re
import shutil
import sqlite3
import subprocess
import tempfile

from damaging import FILE_BYTES, input_of
from programs import BENCH, HOME, SETTLE

CORPUS = HOME / "tests" / "corpus"
FILE_KINDS = "parties", "units", "meters", "prices", "contracts", "reallocations"
TEXT_KINDS = *FILE_KINDS, "request", "script"
# Inputs of `database` are the files of databases. Inputs of `log` are the logs beside such files.
DATABASE_KINDS = "database", "log"
KINDS = *TEXT_KINDS, *DATABASE_KINDS
# How many inputs of text, or of databases, a chunk has. It takes a second or a few if all is well.
CHUNKS = dict.fromkeys(TEXT_KINDS, 5_000) | dict.fromkeys(DATABASE_KINDS, 100)
# How many seconds of a processor a chunk may take, and how many bytes of memory. It is awaited for longer, because a busy
# machine may give it little of its time.
SECONDS = 300
MEMORY = 1_000_000_000
PATIENCE = 3_600
# The status of a chunk that is not awaited any longer.
TOO_LONG = "took too long"
OPERATOR = "op-settle001"
DAY = "2024-07-01"
EARLY = "1719700000"
NEXT_END = "1719961200"
IDLE = range(2, 49)
MARKET = [
    ("parties", "party,from,to,key\nGENCO,2024-01-01,,genco0001\nSUPCO,2024-01-01,,supco0001\n"),
    ("units", "unit,party,side,interconnector,from,to\nG1,GENCO,P,no,2024-01-01,\nS1,SUPCO,C,no,2024-01-01,\n"),
    ("contracts", f"reference,seller,buyer,date,period,mwh\nC1,GENCO-P,SUPCO-C,{DAY},1,99.000\n"),
    ("reallocations", f"unit,account,date,period,percent,fixed_mwh\nG1,SUPCO-P,{DAY},1,25,-0.5\n"),
    (
        "meters",
        f"unit,date,period,metered_mwh,tlm,balancing_mwh\nG1,{DAY},1,100.000,0.9950000,0\nS1,{DAY},1,-98.000,1.0050000,0\n"
        + "".join(f"{unit},{DAY},{period},0,1,0\n" for period in IDLE for unit in ("G1", "S1")),
    ),
    (
        "prices",
        f"date,period,price\n{DAY},1,50.00000\n" + "".join(f"{DAY},{period},0\n" for period in IDLE),
    ),
]
# How many databases are as an office wrote them.
OFFICES = 3
# How many databases have rows that no office writes, with these values.
DAMAGED = 30
VALUES = {
    "INT": [-(2**63), -1, 0, 1, 2, 5, 49, 51, 255, 256, 19_905, 65_536, 10_000_001, 2**31, 2**62, 2**63 - 1],
    "TEXT": ["", "A", "GENCO", "SUPCO", "G1", "S1", "genco0001", "supco0001", "op-settle001", "op-other001", "\u00e9", "A" * 300],
    "BLOB": [b"", b"A"],
}
DEARER = ("prices", f"date,period,price\n{DAY},1,60.00000\n")
# What a file may get: what is counted, the form of its answer, and the least and greatest of the numbers in it.
FILE_ROWS = 20_000
ROW = (1, FILE_ROWS)
COLUMN = (1, 6)
FILE_ANSWERS = [
    ("answered", re.compile(r"answered (\d+)"), [(0, FILE_ROWS)]),
    ("refused 10", re.compile("refused 10 FileTooLarge"), []),
    ("refused 11", re.compile("refused 11 TooManyRows"), []),
    ("refused 12", re.compile("refused 12 BadHeader"), []),
    ("refused 13", re.compile(r"refused 13 BadRecord row (\d+)"), [ROW]),
    ("refused 14", re.compile(r"refused 14 BadField row (\d+) column (\d+)"), [ROW, COLUMN]),
]
REQUEST_REFUSALS = {f"refused {number}" for number in (61, 62, 64, 65, 66)}


def asked(path, key=OPERATOR):
    """The bytes of a client that asks for something."""
    return f"GET {path} HTTP/1.0\r\nx-office-key: {key}\r\n\r\n"


def sent(path, text=None):
    """The bytes of a client that sends a file, or orders a run."""
    length = "" if text is None else f"Content-Length: {len(text)}\r\n"
    return f"POST {path} HTTP/1.0\r\nx-office-key: {OPERATOR}\r\n{length}\r\n{text or ''}"


# What is asked of an office, one after the other: what it is called, its moment, its request or its line of a script, and the
# numbers of the refusals that it may get. An input itself may get 91.
LATER_CONTRACTS = f"reference,seller,buyer,date,period,mwh\nC1,GENCO-P,SUPCO-C,{DAY},1,98.000\nC2,SUPCO-C,GENCO-C,{DAY},48,-1.5\n"
LATER_PRICES = f"date,period,price\n{DAY},1,-60.00000\n"
RUN_REFUSALS = {50, 51, 52, 53, 54, 55, 60, 91}
QUESTIONS = [
    ("runs", EARLY, asked(f"/runs/{DAY}", "genco0001"), {60, 91}),
    ("day", EARLY, f"report {OPERATOR} day {DAY} SF\n", {60, 63, 91}),
    ("results", EARLY, f"report {OPERATOR} csv {DAY} SF\n", {60, 63, 91}),
    ("balances", EARLY, f"report {OPERATOR} balances\n", {60, 91}),
    ("account", EARLY, asked(f"/accounts/GENCO-P/{DAY}", "genco0001"), {60, 63, 91}),
    ("balance", EARLY, asked("/balances/SUPCO-C"), {60, 91}),
    ("contracts", EARLY, asked(f"/contracts/SUPCO-C/{DAY}"), {60, 91}),
    ("load contracts", EARLY, sent("/files/contracts/m1.csv", LATER_CONTRACTS), {20, 30, 33, 34, 35, 36, 60, 91}),
    ("load prices", EARLY, sent("/files/prices/m2.csv", LATER_PRICES), {20, 34, 60, 91}),
    ("first run", NEXT_END, sent(f"/runs/{DAY}/SF"), RUN_REFUSALS),
    ("later run", NEXT_END, sent(f"/runs/{DAY}/R2"), RUN_REFUSALS),
    ("later day", EARLY, f"report {OPERATOR} day {DAY} R2\n", {60, 63, 91}),
    ("later balances", EARLY, f"report {OPERATOR} balances\n", {60, 91}),
]


class Corpus:
    """The files from which the inputs of a kind are made: those of a folder, or databases, which are made in it. Logs are beside
    databases that an office has written."""

    def __init__(self, kind, room):
        self.kind = kind
        self.room = pathlib.Path(room)
        self.questions = []
        self.databases = []
        if kind in DATABASE_KINDS:
            moments = [moment for _, moment, _, _ in QUESTIONS]
            self.questions = [word for pair in zip(moments, questions(self.room)) for word in pair]
            self.databases = [path.read_bytes() for path in databases(self.room)]
        self.files = list(self.seeds())

    def seeds(self):
        if self.kind == "database":
            return self.databases
        if self.kind == "log":
            paths = databases(self.room)[:OFFICES]
            return [bench("log", path, *self.questions) for path in paths]
        return [path.read_bytes() for path in sorted((CORPUS / self.kind).iterdir())]

    def parts(self, number):
        """The bytes of an input and of the log beside it."""
        data = input_of(self.kind, self.files, number)
        return (self.databases[number % OFFICES], data) if self.kind == "log" else (data, b"")

    def words(self):
        """The words of `hh_bench` after which it answers inputs."""
        return ["answer", *(["database", *self.questions] if self.databases else [self.kind])]


@functools.cache
def corpus_of(kind, room):
    return Corpus(kind, room)


@dataclasses.dataclass(frozen=True)
class Chunk:
    """A number of inputs of a kind, from `first` on. Databases are made in a folder if they aren't there."""

    kind: str
    room: str
    first: int
    count: int

    def halves(self):
        """The chunk in two parts."""
        half = self.count // 2
        return [
            dataclasses.replace(self, count=half),
            dataclasses.replace(self, first=self.first + half, count=self.count - half),
        ]


@dataclasses.dataclass
class Found:
    """What came of some inputs: how often each answer came, and which inputs are wrong, with how that shows."""

    answers: collections.Counter
    wrong: dict

    def add(self, other):
        self.answers.update(other.answers)
        self.wrong.update(other.wrong)


def databases(room):
    """Small databases of offices, which are made in the folder if they aren't there: a new one, one that has loaded the market,
    one that has made two runs of it, and copies of this one with rows that no office writes."""
    room = pathlib.Path(room)
    files = [room / "new.db", room / "loaded.db", room / "settled.db"]
    copies = [room / f"damaged-{number:02}.db" for number in range(DAMAGED)]
    if not files[0].exists():
        for depth, file in enumerate(files):
            make_database(room, file, depth)
        for number, file in enumerate(copies):
            shutil.copy(files[-1], file)
            damage(file, random.Random(number))
    assert len(files) == OFFICES
    return files + copies


def make_database(room, path, depth):
    """Makes an office. From depth 1 on it loads the market, and from 2 on it makes two runs."""
    settle("init", "--db", path, "--operator-key", OPERATOR)
    for number, (kind, text) in enumerate(MARKET if depth else [], 1):
        load(room, path, kind, text, f"f{number}.csv")
    if depth > 1:
        run(path, "SF")
        load(room, path, *DEARER, "p2.csv")
        run(path, "R1")


def damage(path, draw):
    """Changes some rows of a database: it changes a value, removes a row, or adds a row that differs from another in one value."""
    with contextlib.closing(sqlite3.connect(path)) as connection:
        for _ in range(draw.randint(1, 5)):
            table = draw.choice([name for (name,) in connection.execute("SELECT name FROM sqlite_schema WHERE type = 'table'")])
            columns = [(name, kind) for _, name, kind, *_ in connection.execute(f"PRAGMA table_info({table})")]
            (count,) = connection.execute(f"SELECT count(*) FROM {table}").fetchone()
            row = f"rowid = (SELECT rowid FROM {table} LIMIT 1 OFFSET {draw.randrange(count or 1)})"
            column, kind = draw.choice(columns)
            value = draw.choice(VALUES[kind])
            others = ", ".join("?" if name == column else name for name, _ in columns)
            statement, values = draw.choice(
                [
                    (f"UPDATE OR IGNORE {table} SET {column} = ? WHERE {row}", [value]),
                    (f"INSERT OR IGNORE INTO {table} SELECT {others} FROM {table} WHERE {row}", [value]),
                    (f"DELETE FROM {table} WHERE {row}", []),
                ]
            )
            connection.execute(statement, values)
        connection.commit()


def load(room, path, kind, text, name):
    file = pathlib.Path(room) / name
    file.write_text(text)
    settle("load", "--db", path, "--key", OPERATOR, "--at", EARLY, kind, file)


def run(path, kind):
    settle("run", "--db", path, "--key", OPERATOR, "--at", NEXT_END, DAY, kind)


def settle(*words):
    subprocess.run([SETTLE, *map(str, words)], check=True, stdin=subprocess.DEVNULL, stdout=subprocess.DEVNULL)


def bench(*words):
    """What `hh_bench` writes."""
    return subprocess.run([BENCH, *map(str, words)], check=True, stdin=subprocess.DEVNULL, stdout=subprocess.PIPE).stdout


def questions(room):
    """The files of the questions to an office, which are made in the folder."""
    paths = [room / f"question-{number:02}" for number in range(len(QUESTIONS))]
    for path, (_, _, text, _) in zip(paths, QUESTIONS):
        path.write_bytes(text.encode())
    return paths


def call(words, inputs, patience=PATIENCE):
    """The status of `hh_bench` with these words and inputs, or `TOO_LONG`, and what it wrote. Its memory and its time are limited."""
    limits = f'ulimit -c 0; ulimit -t {SECONDS}; ulimit -v {MEMORY // 1024}; exec "$@"'
    limited = ["sh", "-c", limits, "sh", BENCH, *map(str, words)]
    try:
        done = subprocess.run(limited, stdin=inputs, capture_output=True, timeout=patience)
    except subprocess.TimeoutExpired:
        return TOO_LONG, b"", b""
    return done.returncode, done.stdout, done.stderr


def answers_to(kind, data, line):
    """What is counted of the line that answers an input, or None if it may not get this answer. It may never get `differs`."""
    if kind in FILE_KINDS:
        return file_answers(data, line)
    if kind in DATABASE_KINDS:
        return database_answers(line)
    if kind == "script":
        return script_answers(data, line)
    return [line] if line in REQUEST_REFUSALS or line == ("answered" if data else "closed") else None


def file_answers(data, line):
    """A file is read, or refused with the places that the refusal has. It has too many bytes if that is the refusal."""
    for counted, form, most in FILE_ANSWERS:
        told = form.fullmatch(line)
        if told and all(least <= int(place) <= limit for place, (least, limit) in zip(told.groups(), most)):
            return [counted] if (len(data) > FILE_BYTES) == (counted == "refused 10") else None
    return None


def script_answers(data, line):
    """A script is read, or one of its lines is off its form."""
    told = re.fullmatch(r"(answered|off) (\d+)", line)
    return [told[1]] if told and (told[1] == "off") <= int(told[2]) <= data.count(b"\n") + 1 else None


def database_answers(line):
    """A database is refused, or taken over. Then each question is answered, or refused by a number that it may get."""
    if line == "[91]":
        return ["refused 91"]
    taken_over, *refusals = json.loads(line) if line.startswith("[") else [-1]
    if taken_over or len(refusals) != len(QUESTIONS):
        return None
    answers = ["answered"]
    for (name, _, _, allowed), refusal in zip(QUESTIONS, refusals):
        if refusal and refusal not in allowed:
            return None
        answers.append(f"{name} refused {refusal}" if refusal else f"{name} answered")
    return answers


def attempt(chunk, patience=PATIENCE):
    """What came of a chunk, or how it ended if it wasn't tried to its end."""
    corpus = corpus_of(chunk.kind, chunk.room)
    numbers = range(chunk.first, chunk.first + chunk.count)
    with tempfile.TemporaryFile() as inputs:
        tried = [put(inputs, *corpus.parts(number)) for number in numbers]
        inputs.seek(0)
        status, written, told = call(corpus.words(), inputs, patience)
    lines = written.decode(errors="replace").splitlines()
    if (status, told, len(lines)) != (0, b"", chunk.count):
        return None, f"{told.decode(errors='replace').strip()} (status {status})".strip()
    found = Found(collections.Counter(), {})
    for number, data, line in zip(numbers, tried, lines):
        answers = answers_to(chunk.kind, data, line)
        if answers is None:
            found.wrong[number] = f"answered {line!r}"
        else:
            found.answers.update(answers)
    return found, None


def put(inputs, data, log):
    """Writes an input to those that `hh_bench answer` reads. Returns its bytes."""
    for part in (data, log):
        inputs.write(len(part).to_bytes(4, "big"))
        inputs.write(part)
    return data


def tried(chunk, patience=PATIENCE):
    """What came of a chunk. If it wasn't tried to its end, it is divided until the input to blame is found."""
    found, ended = attempt(chunk, patience)
    if found is not None:
        return found
    if chunk.count == 1:
        return Found(collections.Counter(), {chunk.first: ended})
    found = Found(collections.Counter(), {})
    for half in chunk.halves():
        found.add(tried(half, patience))
    return found


def chunks_of(kind, room, first, count):
    """The inputs of a kind in chunks."""
    size = CHUNKS[kind]
    for start in range(first, first + count, size):
        yield Chunk(kind, room, start, min(size, first + count - start))


def try_all(chunks, patience=PATIENCE):
    """What came of each of these chunks, as they end. As many are made and tried at a time as there are processors."""
    chunks = list(chunks)
    for kind, room in {(chunk.kind, chunk.room) for chunk in chunks}:
        corpus_of(kind, room)  # which the processes of the workers have then
    context = multiprocessing.get_context("fork")
    with concurrent.futures.ProcessPoolExecutor(os.cpu_count(), context) as workers:
        attempts = {workers.submit(tried, chunk, patience): chunk for chunk in chunks}
        for done in concurrent.futures.as_completed(attempts):
            yield attempts[done], done.result()
