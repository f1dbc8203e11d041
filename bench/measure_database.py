#!/usr/bin/env python3
"""Measures a Settlement Day of an office in a database file by its commands, beside the Python peer.

usage: measure_database.py [PROGRAM] [--rounds 3] [--times 2000]
                           [--parties 400] [--units 2000] [--contracts 400] [--reallocations 200]
PROGRAM is the built program, by default crates/hh_settle/out/hh_settle at the top of this repository. The last four options
are those of gen_day.py, for a smaller market.
The day of gen_day.py is loaded, SF is made, the prices are loaded again with the first raised by 10 pounds, R1 is made, and
its results are asked for, each time in a new file. `settle` does that in three ways:
- by one call of `settle script --db`,
- by `settle serve --db`, to which the files and runs come over HTTP, without the results, for which no path asks. There are
  two services, since contracts come before the day and runs after it: one for the files and one for the rest,
- by a call for each step. Before each comes one that only opens the file: a report that is refused for its key.
`peer_office.py` does the same in as many calls over a file of its own, in one process for the first two ways. A new office is
made before the time begins. The answers and the results are compared.
Then balances are asked of `settle serve --db` over such a file, and of the same office in memory, by a line `serve` of
`settle script`. The client of both is client_serve.rs, so this needs `rustc`."""
import argparse
import collections
import contextlib
import itertools
import json
import pathlib
import runpy
import socket
import sqlite3
import statistics
import subprocess
import sys
import tempfile
import time
import unittest.mock

from measure_day import FIRST, KEY, MOMENT, script_of
from measure_reports import whole_of
from measure_run import LATER, dearer_prices
from measure_serve import milliseconds_of, port_of, print_rates, request, start
from measuring import BENCH, build_rust_peer, print_table

MARKET = {"parties": 400, "units": 2000, "contracts": 400, "reallocations": 200}
PEER = [sys.executable, str(BENCH / "peer_office.py")]
ACCOUNT = "PARTY0000-P"
NO_KEY = "op-nobody001"
# The most of the Python peer's time that each way may take, and the least part of the rate in memory.
MOST_BY_SCRIPT, MOST_BY_SERVICE, MOST_BY_COMMANDS, LEAST_BALANCES = 0.6, 0.6, 2.0, 0.6

# A step of the day: its name, the command that asks for it, and the moment at which it comes.
Step = collections.namedtuple("Step", "title command asked moment")


def read_arguments():
    parser = argparse.ArgumentParser(description=__doc__, formatter_class=argparse.RawDescriptionHelpFormatter)
    parser.add_argument("program", nargs="?", default=str(BENCH.parent / "crates" / "hh_settle" / "out" / "hh_settle"))
    parser.add_argument("--rounds", type=int, default=3)
    parser.add_argument("--times", type=int, default=2000)
    for name, count in MARKET.items():
        parser.add_argument(f"--{name}", type=int, default=count)
    parser.add_argument("--peer", nargs=2, help=argparse.SUPPRESS)
    words = parser.parse_args()
    words.program = str(pathlib.Path(words.program).resolve())
    if not words.peer and not pathlib.Path(words.program).is_file():
        sys.exit(f"no program at {words.program}: build it by ./settle")
    if min(words.rounds, words.times) < 1:
        sys.exit("--rounds and --times are at least 1")
    return words


# ---- the day


def steps_of_day(words, folder):
    """The steps of the day, whose files are written."""
    day, date = folder / str(FIRST), str(FIRST)
    sizes = [f"--{name}={getattr(words, name)}" for name in MARKET]
    subprocess.run([sys.executable, str(BENCH / "gen_day.py"), str(day), "--date", date, *sizes], check=True)
    files = [line.split() for line in (day / "order").read_text().splitlines()]
    again = str(dearer_prices(folder))
    return [
        *(Step(kind, "load", [kind, f"{day}/{name}"], MOMENT) for kind, name in files),
        Step("SF", "run", [date, "SF"], LATER),
        Step("prices again", "load", ["prices", again], LATER),
        Step("R1", "run", [date, "R1"], LATER),
        Step("results", "report", [date, "R1"], None),
    ]


def line_of(step):
    """The line of a script that asks for a step."""
    moment = [] if step.moment is None else [str(step.moment)]
    return " ".join([step.command, *moment, KEY, *asked_of(step)]) + "\n"


def asked_of(step):
    return ["csv", *step.asked] if step.command == "report" else step.asked


def command_of(words, database, step):
    """The call of `settle` that asks for a step."""
    moment = [] if step.moment is None else [f"--at={step.moment}"]
    return [words.program, step.command, "--db", str(database), "--key", KEY, *moment, *asked_of(step)]


def new_office(words, database):
    """Makes a new office, and removes what was at its path."""
    for left in database.parent.glob(f"{database.name}*"):
        left.unlink()
    whole_of([words.program, "init", "--db", str(database), "--operator-key", KEY])


def new_peer(database):
    for left in database.parent.glob(f"{database.name}*"):
        left.unlink()
    whole_of([*PEER, "init", str(database)])


def same(what, found, wanted):
    """Stops if two texts differ."""
    if found == wanted:
        return
    pairs = itertools.zip_longest(found.split("\n"), wanted.split("\n"), fillvalue="no line")
    number, lines = next(place for place in enumerate(pairs, 1) if len(set(place[1])) > 1)
    sys.exit(f"{what} and the Python peer differ in line {number}: {' / '.join(lines)}")


# ---- the peer, as one process


def peer_steps(database, listed):
    """Makes all steps by the peer, and tells the milliseconds of the last on standard error. The first is made where the peer
    is loaded."""
    first, *rest = json.loads(pathlib.Path(listed).read_text())
    path = str(BENCH / "peer_office.py")
    with unittest.mock.patch("sys.argv", [path, first[0], database, *first[1]]):
        peer = runpy.run_path(path)
    for command, asked in rest:
        begin = time.perf_counter()
        with peer["connection"]:
            peer[command](peer["connection"], *asked)
    print((time.perf_counter() - begin) * 1000, file=sys.stderr)


def of_peer(folder, steps):
    """What the peer prints as one process, its milliseconds, and the milliseconds without the results."""
    database, listed = folder / "theirs.db", folder / "steps"
    new_peer(database)
    listed.write_text(json.dumps([[step.command, step.asked] for step in steps]))
    with tempfile.TemporaryFile() as out:
        begin = time.perf_counter()
        command = [sys.executable, __file__, "--peer", str(database), str(listed)]
        done = subprocess.run(command, stdout=out, stderr=subprocess.PIPE, text=True, check=True)
        taken = (time.perf_counter() - begin) * 1000
        out.seek(0)
        return out.read().decode(), taken, taken - float(done.stderr)


# ---- the three ways


def by_script(words, folder, steps):
    """What one call of `settle script --db` prints, and its milliseconds."""
    database = folder / "script.db"
    new_office(words, database)
    script = script_of(folder, "database", map(line_of, steps))
    return whole_of([words.program, "script", "--db", str(database), script])


def ask(port, step):
    """The line that tells a step that is asked for over HTTP."""
    if step.command == "load":
        kind, path = step.asked
        sent = request(f"POST /files/{kind}/{pathlib.Path(path).name}", pathlib.Path(path).read_bytes())
    else:
        sent = request(f"POST /runs/{'/'.join(step.asked)}")
    with socket.create_connection(("127.0.0.1", port)) as client:
        client.sendall(sent)
        head, _, body = b"".join(iter(lambda: client.recv(65_536), b"")).partition(b"\r\n\r\n")
    if not head.startswith(b"HTTP/1.1 200 "):
        sys.exit(f"{step.title} is refused: {body.decode()}")
    told = json.loads(body)
    if step.command == "load":
        return f"applied={told['applied']} late={told['late']}\n"
    counts = "periods {periods} accounts {accounts} residual {residual_pence} postings {postings}".format(**told)
    return f"run {told['date']} {told['kind']} {counts}\n"


def serve(words, database, steps):
    """The lines that tell these steps, the milliseconds of a service for them, and the milliseconds of its requests."""
    begin = time.perf_counter()
    count = ["--count", str(len(steps)), f"--at={steps[0].moment}"]
    server = start([words.program, "serve", "--db", str(database), "--port", "0", *count])
    try:
        port = port_of(server)
        listening = time.perf_counter()
        text = "".join(ask(port, step) for step in steps)
        served = time.perf_counter()
        server.wait(timeout=600)
    finally:
        server.kill()
        server.wait()
    return text, (time.perf_counter() - begin) * 1000, (served - listening) * 1000


def by_services(words, folder, steps):
    """The answers to the day over HTTP, the milliseconds of both services, and the milliseconds of the requests. The results
    are asked for after that."""
    database = folder / "service.db"
    new_office(words, database)
    *served, results = steps
    parts = [serve(words, database, [step for step in served if step.moment == moment]) for moment in (MOMENT, LATER)]
    text = "".join(part[0] for part in parts) + whole_of(command_of(words, database, results))[0]
    return text, sum(part[1] for part in parts), sum(part[2] for part in parts)


def opened(words, database):
    """The milliseconds of a call that only opens the file."""
    command = [words.program, "report", "--db", str(database), "--key", NO_KEY, "balances"]
    begin = time.perf_counter()
    done = subprocess.run(command, capture_output=True, text=True)
    taken = (time.perf_counter() - begin) * 1000
    if done.stderr != "refused 60 Forbidden\n":
        sys.exit(f"the file isn't opened: {done.stderr}")
    return taken


def by_commands(words, folder, steps):
    """What a call for each step prints, by `settle` and by the peer. For each step it gives the milliseconds of both, and
    between them those of a call that only opens the file."""
    ours, theirs = folder / "commands.db", folder / "calls.db"
    new_office(words, ours)
    new_peer(theirs)
    texts, taken = [[], []], []
    for step in steps:
        opening = opened(words, ours)
        mine, milliseconds = whole_of(command_of(words, ours, step))
        other, peers = whole_of([*PEER, step.command, str(theirs), *step.asked])
        texts[0].append(mine)
        texts[1].append(other)
        taken.append((milliseconds, opening, peers))
    return "".join(texts[0]), "".join(texts[1]), taken


# ---- tables


def rows_in(database):
    """How many rows the tables of a file have."""
    with contextlib.closing(sqlite3.connect(database)) as connection:
        tables = [name for (name,) in connection.execute("SELECT name FROM sqlite_schema WHERE type = 'table'")]
        return sum(connection.execute(f"SELECT count(*) FROM {table}").fetchone()[0] for table in tables)


def print_way(title, times, most):
    """Prints the times of a way, and whether its aim is met. The first of the times are its own."""
    print(f"\n{title}:")
    print_table(times, 1)
    ours, peer = (statistics.median(times[name]) for name in (next(iter(times)), "Python peer"))
    told = "met" if ours <= most * peer else "not met"
    print(f"\nIt takes {ours / peer:.2f} of the Python peer's time. The aim is at most {most}: {told}.")


def print_steps(steps, rounds):
    """What each kind of step took by calls of their own, and how much of that was opening the file."""
    print("\n| Step | Calls | settle, ms | Opening alone, ms | Opening in % | Python peer, ms | To the Python peer |")
    print("|---|---:|---:|---:|---:|---:|---:|")
    places = {}
    for place, step in enumerate(steps):
        places.setdefault(step.title, []).append(place)
    for title, these in [*places.items(), ("all", range(len(steps)))]:
        sums = [[sum(taken[place][part] for place in these) for taken in rounds] for part in range(3)]
        ours, opening, peer = map(statistics.median, sums)
        figures = f"{ours:.1f} | {opening:.1f} | {100 * opening / ours:.0f} | {peer:.1f} | {ours / peer:.2f}"
        print(f"| {title} | {len(these)} | {figures} |")


def measure_day(words, folder, steps):
    """Measures the three ways in turn, and returns the file that one of them leaves."""
    script = {"settle script --db": [], "Python peer": []}
    service = {"settle serve --db": [], "Its requests alone": [], "Python peer": []}
    calls = []
    for _ in range(words.rounds):
        wanted, whole, without = of_peer(folder, steps)
        text, taken = by_script(words, folder, steps)
        same("settle script --db", text, wanted)
        script["settle script --db"].append(taken)
        script["Python peer"].append(whole)
        text, taken, requests = by_services(words, folder, steps)
        same("settle serve --db", text, wanted)
        for name, figure in zip(service, (taken, requests, without)):
            service[name].append(figure)
        text, theirs, taken = by_commands(words, folder, steps)
        same("the commands", text, wanted)
        same("the commands", text, theirs)
        calls.append(taken)
    database = folder / "commands.db"
    sizes = f"{rows_in(database)} rows and {database.stat().st_size} bytes, the peer's {(folder / 'calls.db').stat().st_size}"
    print(f"{len(steps)} steps. All answers are the same {len(wanted)} bytes. The file has {sizes}.")
    print_way("The day by one script", script, MOST_BY_SCRIPT)
    print_way("The day over HTTP, by two services, without the results", service, MOST_BY_SERVICE)
    totals = [[sum(step[part] for step in taken) for taken in calls] for part in (0, 2)]
    calls_of = dict(zip(("settle, single commands", "Python peer"), totals))
    print_way("The day by a call for each step", calls_of, MOST_BY_COMMANDS)
    print_steps(steps, calls)
    return database


# ---- balances


def measure_balances(words, folder, steps, database):
    """Measures enquiries for the balance of an account, at the office in a file and at the same office in memory."""
    served = words.rounds * words.times
    script = script_of(folder, "memory", [*map(line_of, steps[:-1]), f"serve {LATER} 0 {served}\n"])
    options = ["--db", str(database), "--port", "0", "--count", str(served), f"--at={LATER}"]
    servers = {
        "settle serve --db": start([words.program, "serve", *options]),
        "In memory": start([words.program, "script", "--operator-key", KEY, script]),
    }
    try:
        client, ports = build_rust_peer("client_serve", folder), [port_of(server) for server in servers.values()]
        sent = folder / "request"
        sent.write_bytes(request(f"GET /balances/{ACCOUNT}"))
        rounds = [milliseconds_of(client, ports, sent, words.times) for _ in range(words.rounds)]
        for server in servers.values():
            server.wait(timeout=600)
    finally:
        for server in servers.values():
            server.kill()
            server.wait()
    print_rates(f"{words.times} balances", words.times, servers, rounds)
    file, memory = (statistics.median(taken) for taken in zip(*rounds))
    told = "met" if memory >= LEAST_BALANCES * file else "not met"
    print(f"\nThat is {memory / file:.2f} of the rate in memory. The aim is at least {LEAST_BALANCES}: {told}.")


def main():
    words = read_arguments()
    if words.peer:
        peer_steps(*words.peer)
        return
    with tempfile.TemporaryDirectory() as name:
        folder = pathlib.Path(name)
        steps = steps_of_day(words, folder)
        database = measure_day(words, folder, steps)
        measure_balances(words, folder, steps, database)


if __name__ == "__main__":
    main()
