"""A stand-in for `settle` on a file, in tests of what is told about services that are killed. It keeps the files and the runs
that clients bring, and a row for each line of a file. If STAND_IN_FAULT names a fault, a kill may find it:

    early   a load is answered before it is committed
    half    a load is committed in two parts
"""
import os
import re
import socket
import sqlite3
import sys
import time

FAULT = os.environ.get("STAND_IN_FAULT")
# How long a kill may find the fault.
MEANWHILE = 0.02


def make(connection):
    """Makes the tables of an office."""
    from test_database import TABLES

    connection.execute("PRAGMA journal_mode = WAL")
    for table, (_, columns) in TABLES.items():
        connection.execute(f"CREATE TABLE {table} ({columns.replace(' ', ', ').replace(':', ' ')})")


def found(connection, statement, *values):
    """The first value of the first row, or None if there is no row."""
    row = connection.execute(statement, values).fetchone()
    return row and row[0]


def load(connection, kind, name, body):
    """A file is accepted once."""
    if found(connection, "SELECT 1 FROM files WHERE kind = ? AND name = ?", kind, name):
        return
    number = found(connection, "SELECT count(*) FROM files")
    connection.execute("INSERT INTO files VALUES (?, ?, ?, ?, 0)", (kind, name, body, body.count(b"\n")))
    if FAULT == "half":
        commit(connection)
        time.sleep(MEANWHILE)
    connection.executemany("INSERT INTO prices VALUES (?, ?, 0)", [(number, line) for line in range(body.count(b"\n"))])


def run(connection, date, kind):
    """A run is made once."""
    day = int(date.replace("-", ""))
    if not found(connection, "SELECT 1 FROM runs WHERE day = ? AND kind = ?", day, kind):
        connection.execute("INSERT INTO runs VALUES (?, ?, 0, 0, 0, 0)", (day, kind))


def commit(connection):
    if connection.in_transaction:
        connection.execute("COMMIT")
    connection.execute("BEGIN IMMEDIATE")


def read(client):
    """The method and path of a request, and its body."""
    got = b""
    while not (head := re.match(rb"(\w+) /(\S+) .*?\r\n\r\n", got, re.DOTALL)):
        got += client.recv(65_536)
    size = re.search(rb"\r\nContent-Length: ([0-9]+)", head[0])
    while len(got) < head.end() + int(size[1] if size else 0):
        got += client.recv(65_536)
    return head[1].decode(), head[2].decode().split("/"), got[head.end() :]


def answer(connection, client):
    """Does what a client asks for, and replies. An enquiry tells how many files and runs there are."""
    method, (what, *names), body = read(client)
    told = b"done"
    if method == "GET":
        told = str([found(connection, f"SELECT count(*) FROM {table}") for table in ("files", "runs")]).encode()
    elif what == "files":
        load(connection, *names, body)
    else:
        run(connection, *names)
    if FAULT != "early":
        commit(connection)
    client.sendall(b"HTTP/1.1 200 OK\r\nContent-Length: %d\r\n\r\n%b" % (len(told), told))


def serve(connection, count):
    """Serves this many clients, one after the other."""
    listener = socket.create_server(("127.0.0.1", 0))
    print(f"listening 127.0.0.1:{listener.getsockname()[1]}", flush=True)
    for _ in range(count):
        commit(connection)
        client, _ = listener.accept()
        with client:
            answer(connection, client)
        time.sleep(MEANWHILE if FAULT == "early" else 0)
    connection.execute("COMMIT")


def main(name, _, database, *words):
    connection = sqlite3.connect(database, isolation_level=None)
    if name == "init":
        make(connection)
    elif name == "serve":
        counts = [int(word.removeprefix("--count=")) for word in words if word.startswith("--count=")]
        serve(connection, *(counts or [sys.maxsize]))
    else:
        print(name, found(connection, "SELECT count(*) FROM files"))
    connection.close()


if __name__ == "__main__":
    main(*sys.argv[1:])
