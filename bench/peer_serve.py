#!/usr/bin/env python3
"""The office over HTTP as a script over Python's http.server would be.

usage: peer_serve.py PORT
It prints `listening 127.0.0.1:PORT` and answers `GET /balances/{account}` and `POST /files/{kind}/{name}` for good
input: a balance is looked up, and the rows of a file are read, by `csv`, into a dictionary by the file's key. It
tests nothing beside the key, and refuses nothing but another one."""
import csv
import http.server
import json
import sys

KEY = "op-settle001"
# How many fields at the beginning are the key of a row.
KEYS = {"parties": 1, "units": 1, "meters": 3, "prices": 2, "contracts": 1, "reallocations": 4}


class Office(http.server.BaseHTTPRequestHandler):
    protocol_version = "HTTP/1.1"
    moved = {}
    tables = {kind: {} for kind in KEYS}

    def do_GET(self):
        account = self.path.removeprefix("/balances/")
        self.answer({"account": account, "moved_pence": self.moved.get(account, 0)})

    def do_POST(self):
        _, _, kind, _ = self.path.split("/")
        body = self.rfile.read(int(self.headers["Content-Length"]))
        rows = list(csv.reader(body.decode().splitlines()))[1:]
        self.tables[kind].update((tuple(row[: KEYS[kind]]), row) for row in rows)
        self.answer({"applied": len(rows), "late": 0})

    def answer(self, data):
        allowed = self.headers["x-office-key"] == KEY
        data = data if allowed else {"name": "Forbidden", "refused": 60}
        body = json.dumps(data, sort_keys=True, separators=(",", ":")).encode()
        self.send_response(200 if allowed else 403)
        self.send_header("Content-Type", "application/json")
        self.send_header("Content-Length", str(len(body)))
        self.send_header("Connection", "close")
        self.end_headers()
        self.wfile.write(body)

    def log_message(self, *words):
        pass


if __name__ == "__main__":
    server = http.server.HTTPServer(("127.0.0.1", int(sys.argv[1])), Office)
    print(f"listening 127.0.0.1:{server.server_address[1]}", flush=True)
    server.serve_forever()
