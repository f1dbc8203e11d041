#!/usr/bin/env python3
"""Measures the office over HTTP by `settle script` beside Python's http.server.

usage: measure_serve.py [PROGRAM] [--rounds 7] [--times 2000]
PROGRAM is the built program, by default crates/hh_settle/out/hh_settle at the top of this repository.
A script loads a party with 416 units and serves connections. A client, client_serve.rs, asks for a balance so many
times, a new connection each time and one after the other; then it sends a file of 19,968 readings and one megabyte, in
each round under another name. peer_serve.py answers the same. floor_serve.rs answers each balance by the same bytes, so
that it is seen what a connection costs whoever serves it. The bodies of the replies are compared. Of each server the
processor time of a balance is told, its own and the system's. It needs `rustc`."""
import os
import pathlib
import statistics
import subprocess
import sys
import tempfile

from measuring import BENCH, build_rust_peer, print_table, read_words

KEY = "op-settle001"
MOMENT = 1_719_961_200
DATE = "2024-07-01"
UNITS = [f"UNIT_{number:011d}" for number in range(416)]


def files():
    """The party and its units, and a file of their readings for all periods of a date."""
    yield "parties", "party,from,to,key\nGENCO,2024-01-01,,genco0001\n"
    yield "units", "unit,party,side,interconnector,from,to\n" + "".join(f"{unit},GENCO,P,no,2024-01-01,\n" for unit in UNITS)
    rows = (f"{unit},{DATE},{period},100.000,0.9950000,0\n" for unit in UNITS for period in range(1, 49))
    yield "meters", "unit,date,period,metered_mwh,tlm,balancing_mwh\n" + "".join(rows)


def request(start, body=b""):
    lines = [f"{start} HTTP/1.1", "Host: localhost", f"x-office-key: {KEY}"]
    lines += [f"Content-Length: {len(body)}"] if body else []
    return "".join(f"{line}\r\n" for line in [*lines, ""]).encode() + body


def port_of(server):
    """The port of a server that was started, after it begins to listen."""
    for line in server.stdout:
        if line.startswith("listening "):
            return int(line.rsplit(":", 1)[1])
    sys.exit("it does not listen")


def start(command):
    return subprocess.Popen(command, stdout=subprocess.PIPE, text=True)


def script_of(folder, served):
    """A script that loads the party and its units, and serves this many connections."""
    lines = []
    for kind, text in files():
        (folder / f"{kind}.csv").write_text(text)
        lines.append(f"load {MOMENT} {KEY} {kind} {folder}/{kind}.csv\n")
    path = folder / "script"
    path.write_text("".join(lines[:2]) + f"serve {MOMENT} 0 {served}\n")
    return str(path)


def milliseconds_of(client, ports, sent, times):
    """The milliseconds of all of these requests, for each server. The bodies of their last replies must be the same."""
    bodies, taken = [], []
    for port in ports:
        done = subprocess.run([client, str(port), str(times), str(sent)], capture_output=True, text=True, check=True)
        bodies.append(done.stdout)
        taken.append(float(done.stderr))
    if len(set(bodies)) != 1:
        sys.exit(f"the replies differ: {bodies}")
    return taken


def processor_time_of(server):
    """The processor time of a server so far, in seconds: its own, and the system's for it."""
    words = pathlib.Path(f"/proc/{server.pid}/stat").read_text().rpartition(")")[2].split()
    return [int(word) / os.sysconf("SC_CLK_TCK") for word in words[11:13]]


def main():
    arguments = read_words(__doc__, "hh_settle", times=2000)
    with tempfile.TemporaryDirectory() as name:
        folder = pathlib.Path(name)
        served = arguments.rounds * (arguments.times + 1)
        floor = build_rust_peer("floor_serve", folder)
        servers = {
            "settle script": start([arguments.program, "script", "--operator-key", KEY, script_of(folder, served)]),
            "Python peer": start([sys.executable, str(BENCH / "peer_serve.py"), "0"]),
            "Constant reply": start([floor, "0"]),
        }
        try:
            measure(arguments, folder, servers)
            servers["settle script"].wait(timeout=60)
        finally:
            for server in servers.values():
                server.kill()
                server.wait()


def measure(arguments, folder, servers):
    client, ports = build_rust_peer("client_serve", folder), [port_of(server) for server in servers.values()]
    meters, sent = (folder / "meters.csv").read_bytes(), folder / "request"
    balances, loads, had = [], [], dict.fromkeys(servers, (0, 0))
    for number in range(arguments.rounds):
        sent.write_bytes(request("GET /balances/GENCO-P"))
        began = {name: processor_time_of(server) for name, server in servers.items()}
        balances.append(milliseconds_of(client, ports, sent, arguments.times))
        for name, server in servers.items():
            had[name] = [sum(parts) for parts in zip(had[name], processor_time_of(server), (-time for time in began[name]))]
        sent.write_bytes(request(f"POST /files/meters/{number}.csv", meters))
        loads.append(milliseconds_of(client, ports[:2], sent, 1))
    print_rates(f"{arguments.times} balances", arguments.times, servers, balances)
    for name, (own, system) in had.items():
        each = 1e6 / (arguments.rounds * arguments.times)
        print(f"{name}: {own * each:.0f} us of processor for a balance, and {system * each:.0f} us of the system's")
    print_rates(f"A file of {len(meters)} bytes", 1, [*servers][:2], loads)


def print_rates(title, times, names, rounds):
    taken = {name: [row[place] for row in rounds] for place, name in enumerate(names)}
    rates = ", ".join(f"{name} {1000 * times / statistics.median(row):.0f} a second" for name, row in taken.items())
    print(f"\n{title}: {rates}")
    print_table(taken, 1)


if __name__ == "__main__":
    main()
