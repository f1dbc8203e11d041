"""What a client of the office meets over the loopback interface. A script serves connections, and each request is answered by
one reply, whose bytes are known."""
import concurrent.futures
import contextlib
import json
import socket
import subprocess
import threading
import time
import unittest

from programs import SETTLE
from test_desk import APPLIED, DAY, EARLY, END, IDLE, MARKET, NEXT_END, OPERATOR, SETTLED, Desk, text_of

GENCO = "genco0001"
SUPCO = "supco0001"
PHRASES = {
    200: "OK",
    400: "Bad Request",
    403: "Forbidden",
    404: "Not Found",
    405: "Method Not Allowed",
    409: "Conflict",
    411: "Length Required",
    413: "Content Too Large",
    422: "Unprocessable Content",
    503: "Service Unavailable",
}
MOVED = '{"account":"SUPCO-C","moved_pence":-45}'
RUNS = f'{{"date":"{DAY}","runs":["SF","R1"]}}'


def request(method, path, key=None, body=None, headers=()):
    """The bytes of a request."""
    lines = [f"{method} {path} HTTP/1.1", "Host: localhost"]
    lines += [f"x-office-key: {key}"] if key is not None else []
    lines += [f"Content-Length: {len(body)}"] if body is not None else []
    return "".join(f"{line}\r\n" for line in [*lines, *headers, ""]).encode() + (body or b"")


def reply(status, body, line=""):
    """The bytes of a reply."""
    head = f"HTTP/1.1 {status} {PHRASES[status]}\r\nContent-Type: application/json\r\nContent-Length: {len(body)}\r\nConnection: close\r\n"
    return (head + line + "\r\n" + body).encode()


def refusal(number, name, ahead="", behind=""):
    """The body of a refusal, with the text before its name and after its number."""
    return f'{{{ahead}"name":"{name}","refused":{number}{behind}}}'


BAD = reply(400, refusal(65, "BadRequest"))
NO_ROUTE = reply(404, refusal(61, "NoRoute"))
TOO_LARGE = reply(413, refusal(66, "BodyTooLarge"))


class Served(Desk):
    """An office that has loaded the market, made both runs, and serves."""

    def setUp(self):
        super().setUp()
        self.program = None
        self.addCleanup(self.stop)

    def stop(self):
        """Ends a script that still awaits connections."""
        if self.program is not None and self.program.poll() is None:
            self.program.kill()
        if self.program is not None:
            self.program.communicate()

    def serve(self, count, *lines, moment=NEXT_END, before=None, operator=OPERATOR):
        """Begins a script that serves this many connections and then runs these lines, and reads where it listens."""
        before = [*self.market(), self.order("SF", END), self.dearer(), self.order("R1")] if before is None else before
        script = "".join(f"{line}\n" for line in [*before, f"serve {moment} 0 {count}", *lines])
        words = [SETTLE, "script", "--operator-key", operator, self.file("served.script", script)]
        # Without a buffer, because a buffer would keep lines from `rest` that were written early.
        self.program = subprocess.Popen(words, bufsize=0, stdout=subprocess.PIPE, stderr=subprocess.PIPE)
        for _ in before:
            self.program.stdout.readline()
        told = self.program.stdout.readline().decode()
        self.assertRegex(told, r"\Alistening 127\.0\.0\.1:[1-9][0-9]*\n\Z")
        self.port = int(told.strip().rpartition(":")[2])

    def rest(self):
        """What the script prints after it has served, if it ends with status 0."""
        written, told = self.program.communicate(timeout=60)
        self.assertEqual((self.program.returncode, told), (0, b""))
        return written.decode().splitlines()

    def connect(self):
        return socket.create_connection(("127.0.0.1", self.port), timeout=30)

    def ask(self, *pieces, end=False):
        """The reply to a request that is sent in these pieces. The end of the input is sent unless that is not wanted."""
        with self.connect() as client:
            for piece in pieces:
                client.sendall(piece)
            if end:
                client.shutdown(socket.SHUT_WR)
            return self.read(client)

    def read(self, client):
        got = b""
        while piece := client.recv(65_536):
            got += piece
        return got


class Replies(Served):
    """One request, one reply."""

    def test_a_balance(self):
        wanted = reply(200, MOVED)
        asked = request("GET", "/balances/SUPCO-C", SUPCO)
        self.assertEqual((len(asked), len(wanted), len(MOVED)), (76, 129, 39))
        forbidden = refusal(60, "Forbidden")
        self.assertEqual(len(forbidden), 33)
        self.serve(4)
        self.assertEqual(self.ask(asked), wanted)
        self.assertEqual(self.ask(request("GET", "/balances/SUPCO-C", GENCO)), reply(403, forbidden))
        self.assertEqual(self.ask(request("GET", "/balances/SUPCO-C", OPERATOR)), wanted)
        self.assertEqual(self.ask(request("GET", "/balances/SUPCO-C")), reply(403, forbidden))
        self.assertEqual(self.rest(), [])

    def test_the_runs_of_a_date(self):
        self.serve(3)
        for key in (GENCO, SUPCO):
            self.assertEqual(self.ask(request("GET", f"/runs/{DAY}", key)), reply(200, RUNS))
        none = '{"date":"2024-07-02","runs":[]}'
        self.assertEqual(self.ask(request("GET", "/runs/2024-07-02", GENCO)), reply(200, none))

    def test_the_contracts_of_an_account(self):
        def body(account, other, role):
            row = f'{{"counterparty":"{other}","mwh":"99.000","period":1,"reference":"C1","role":"{role}"}}'
            return f'{{"account":"{account}","contracts":[{row}],"date":"{DAY}"}}'

        self.serve(3)
        seller = body("GENCO-P", "SUPCO-C", "seller")
        self.assertEqual(self.ask(request("GET", f"/contracts/GENCO-P/{DAY}", GENCO)), reply(200, seller))
        buyer = body("SUPCO-C", "GENCO-P", "buyer")
        self.assertEqual(self.ask(request("GET", f"/contracts/SUPCO-C/{DAY}", SUPCO)), reply(200, buyer))
        none = f'{{"account":"GENCO-C","contracts":[],"date":"{DAY}"}}'
        self.assertEqual(self.ask(request("GET", f"/contracts/GENCO-C/{DAY}", GENCO)), reply(200, none))

    def test_contracts_stand_in_order(self):
        """By period, then by the bytes of the reference, each in the sign of its row."""
        rows = [
            f"c1,GENCO-P,SUPCO-C,{DAY},1,1",
            f"C2,SUPCO-P,GENCO-P,{DAY},48,-2",
            f"C4,SUPCO-P,GENCO-P,{DAY},48,-0.001",
            f"C5,SUPCO-P,GENCO-P,{DAY},48,12.5",
            f"C6,SUPCO-P,GENCO-P,{DAY},48,0",
            f"C2,SUPCO-P,GENCO-P,{DAY},2,3",
            f"C10,GENCO-P,GENCO-C,{DAY},2,4",
            f"C3,SUPCO-P,SUPCO-C,{DAY},2,5",
            "C10,GENCO-P,GENCO-C,2024-07-02,2,6",
        ]
        wanted = {
            "GENCO-P": [
                ("SUPCO-C", "99.000", 1, "C1", "seller"),
                ("SUPCO-C", "1.000", 1, "c1", "seller"),
                ("GENCO-C", "4.000", 2, "C10", "seller"),
                ("SUPCO-P", "3.000", 2, "C2", "buyer"),
                ("SUPCO-P", "-2.000", 48, "C2", "buyer"),
                ("SUPCO-P", "-0.001", 48, "C4", "buyer"),
                ("SUPCO-P", "12.500", 48, "C5", "buyer"),
                ("SUPCO-P", "0.000", 48, "C6", "buyer"),
            ],
            "GENCO-C": [("GENCO-P", "4.000", 2, "C10", "buyer")],
            "NOONE-C": [],
        }
        self.serve(3, before=[*self.market(), self.load("contracts", rows, "more.csv")])
        for account, found in wanted.items():
            got = self.ask(request("GET", f"/contracts/{account}/{DAY}", OPERATOR))
            body = json.loads(got.partition(b"\r\n\r\n")[2])
            names = ("counterparty", "mwh", "period", "reference", "role")
            self.assertEqual(body["contracts"], [dict(zip(names, row)) for row in found], account)

    def test_keys(self):
        """The operator asks about any account, and a party about its own two. Other enquiries are all refused in the same way."""
        cases = [
            (OPERATOR, "GENCO-P", True),
            (OPERATOR, "NOONE-P", True),
            (GENCO, "GENCO-P", True),
            (GENCO, "GENCO-C", True),
            (SUPCO, "SUPCO-C", True),
            (GENCO, "SUPCO-C", False),
            (SUPCO, "GENCO-P", False),
            ("newco0001", "GENCO-P", False),
            (GENCO, "NOONE-P", False),
            ("op-nobody001", "GENCO-P", False),
            ("", "NOONE-P", False),
        ]
        forms = ("/balances/{}", f"/contracts/{{}}/{DAY}", f"/accounts/{{}}/{DAY}")
        forbidden = reply(403, refusal(60, "Forbidden"))
        self.serve(len(cases) * len(forms) + 2)
        for key, account, allowed in cases:
            for form in forms:
                got = self.ask(request("GET", form.format(account), key))
                self.assertEqual(got != forbidden, allowed, (key, account, form))
        self.assertEqual(self.ask(request("GET", f"/runs/{DAY}", "newco0001")), forbidden)
        self.assertEqual(self.ask(request("GET", f"/runs/{DAY}", OPERATOR)), reply(200, RUNS))

    def test_the_longest_keys(self):
        """A key of 64 bytes opens an account, whether it is a party's or the operator's. With one byte more or one fewer it
        opens none."""
        longest, operator = "k" * 64, "op-" + "K" * 61
        before = [self.load("parties", f"GENCO,2024-01-01,,{longest}", key=operator)]
        opened, closed = reply(200, '{"account":"GENCO-P","moved_pence":0}'), reply(403, refusal(60, "Forbidden"))
        self.serve(6, before=before, operator=operator)
        for key, more in ((longest, "k"), (operator, "K")):
            self.assertEqual(len(key), 64)
            for shown, wanted in ((key, opened), (key + more, closed), (key[:-1], closed)):
                self.assertEqual(self.ask(request("GET", "/balances/GENCO-P", shown)), wanted, shown)
        self.assertEqual(self.rest(), [])

    def test_a_key_of_two_parties(self):
        """It opens the accounts of both, and no other's."""
        rows = [f"{party},2024-01-01,,{key}" for party, key in (("ONE", "shared001"), ("OTHER", "shared001"), ("THIRD", "third0001"))]
        accounts = [f"{party}-{side}" for party in ("ONE", "OTHER", "THIRD") for side in "PC"]
        forbidden = reply(403, refusal(60, "Forbidden"))
        self.serve(2 * len(accounts), before=[self.load("parties", rows)])
        for key, opened in (("shared001", accounts[:4]), ("third0001", accounts[4:])):
            for account in accounts:
                wanted = reply(200, f'{{"account":"{account}","moved_pence":0}}') if account in opened else forbidden
                self.assertEqual(self.ask(request("GET", f"/balances/{account}", key)), wanted, (key, account))
        self.assertEqual(self.rest(), [])

    def test_a_party_that_has_joined(self):
        """Its own account by the run after it joined, and 63 by the run before."""
        readings = [f"N1,{DAY},1,10.000,1.0000000,0"] + [f"N1,{DAY},{period},0,1,0" for period in IDLE]
        joins = [
            self.load("parties", "NEWCO,2024-01-01,,newco0001"),
            self.load("units", "N1,NEWCO,P,no,2024-01-01,"),
            self.load("meters", readings),
        ]
        self.serve(3, before=[*self.market(), self.order("SF"), *joins])
        asked = request("GET", f"/accounts/NEWCO-P/{DAY}", "newco0001")
        self.assertEqual(self.ask(asked), reply(404, refusal(63, "NoRun")))
        self.ask(request("POST", f"/runs/{DAY}/R1", OPERATOR))
        body = json.loads(self.ask(asked).partition(b"\r\n\r\n")[2])
        first = body["periods"][0]
        self.assertEqual((body["kind"], body["net_pence"], len(body["periods"])), ("R1", -47_353, 48))
        self.assertEqual((first["credited"], first["charge_pence"], first["share_pence"]), ("10.0000000000", -50_000, 2_647))

    def test_a_unit_that_changes_its_lead_account(self):
        """Each refusal with its row, and what R1 posts and settles for the account that takes the unit over."""
        joins = self.load("parties", "NEWCO,2024-01-01,,newco0001", "n.csv")
        self.serve(8, before=[*self.market(), self.order("SF", END), joins])

        def sends(row, name):
            return self.ask(request("POST", f"/files/units/{name}", OPERATOR, text_of("units", [row])))

        for row, number, name in (
            (f"S1,NEWCO,C,no,{DAY},2024-12-31", 39, "ShrinksRange"),
            ("S1,NEWCO,C,no,2024-01-01,", 40, "UnitMoved"),
            (f"S1,NEWCO,C,yes,{DAY},", 40, "UnitMoved"),
        ):
            self.assertEqual(sends(row, "s.csv"), reply(422, refusal(number, name, behind=',"row":1')))
        self.assertEqual(sends(f"S1,NEWCO,C,no,{DAY},", "s.csv"), reply(200, '{"applied":1,"late":0}'))
        self.assertEqual(sends("S1,SUPCO,C,no,2024-01-01,", "t.csv"), reply(422, refusal(40, "UnitMoved", behind=',"row":1')))
        made = f'{{"accounts":6,"date":"{DAY}","kind":"R1","periods":48,"postings":2,"residual_pence":5050}}'
        self.assertEqual(self.ask(request("POST", f"/runs/{DAY}/R1", OPERATOR)), reply(200, made))
        body = json.loads(self.ask(request("GET", f"/accounts/NEWCO-C/{DAY}", "newco0001")).partition(b"\r\n\r\n")[2])
        first = body["periods"][0]
        self.assertEqual((body["kind"], body["net_pence"]), ("R1", 494_962))
        self.assertEqual((first["credited"], first["imbalance"], first["charge_pence"], first["share_pence"]), ("-98.4900000000", "-98.4900000000", 492_450, 2512))
        moved = '{"account":"SUPCO-C","moved_pence":-495000}'
        self.assertEqual(self.ask(request("GET", "/balances/SUPCO-C", SUPCO)), reply(200, moved))
        self.assertEqual(self.rest(), [])

    def test_a_lead_account_that_has_a_part(self):
        before = [self.load("parties", "NEWCO,2024-01-01,,newco0001", "n.csv"), self.load("reallocations", f"S1,NEWCO-C,{DAY},1,10,0", "r.csv")]
        self.serve(1, before=[*self.market(), *before])
        sent = request("POST", "/files/units/s.csv", OPERATOR, text_of("units", [f"S1,NEWCO,C,no,{DAY},"]))
        self.assertEqual(self.ask(sent), reply(422, refusal(41, "LeadIsSubsidiary", behind=',"row":1')))

    def test_an_account(self):
        """By the latest run of the date, R1: figures in period 1 at 60 pounds, and nothing in the others."""

        def period(number, credited, contracts, imbalance, charge, share):
            return (
                f'{{"balancing":"0.0000000000","charge_pence":{charge},"contracts":"{contracts}","credited":"{credited}",'
                f'"imbalance":"{imbalance}","period":{number},"share_pence":{share}}}'
            )

        still = [period(number, *["0.0000000000"] * 3, 0, 0) for number in range(2, 49)]
        rows = [period(1, "99.5000000000", "99.0000000000", "0.5000000000", -3000, 3045), *still]
        body = f'{{"account":"GENCO-P","date":"{DAY}","kind":"R1","net_pence":45,"periods":[{",".join(rows)}]}}'
        self.serve(3)
        self.assertEqual(self.ask(request("GET", f"/accounts/GENCO-P/{DAY}", GENCO)), reply(200, body))
        none = reply(404, refusal(63, "NoRun"))
        self.assertEqual(self.ask(request("GET", "/accounts/GENCO-P/2024-07-02", GENCO)), none)
        self.assertEqual(self.ask(request("GET", "/accounts/NOBODY-P/2024-07-01", OPERATOR)), none)

    def test_large_nets(self):
        """GENCO-P sells SUPCO-C 100,000 MWh in each period by ten contracts, and nobody meters any. At 99,999.99999 pounds that
        costs 9,999,999,999 pounds, which is 999,999,999,900 pence, in each of 48 periods. R1 changes the sign of the price, so
        that it posts twice the net."""
        charge, net = 999_999_999_900, 47_999_999_995_200
        self.assertEqual((100_000 * 9_999_999_999 * 100, 48 * charge), (charge * 100_000, net))
        numbers = range(1, 49)
        sold = [f"L{number},GENCO-P,SUPCO-C,{DAY},{period},10000" for number in range(10) for period in numbers]
        turned = self.load("prices", [f"{DAY},{period},-99999.99999" for period in numbers], "low.csv")
        before = [
            self.load(*MARKET[0], "parties.csv"),
            self.load("contracts", sold),
            self.load("prices", [f"{DAY},{period},99999.99999" for period in numbers]),
            self.order("SF"),
        ]
        day, balances = f"report {OPERATOR} day {DAY} SF", f"report {OPERATOR} balances"
        self.serve(3, day, balances, turned, self.order("R1"), balances, before=before)
        for account, key, sign, mwh in (("GENCO-P", GENCO, 1, "100000.0000000000"), ("SUPCO-C", SUPCO, -1, "-100000.0000000000")):
            body = json.loads(self.ask(request("GET", f"/accounts/{account}/{DAY}", key)).partition(b"\r\n\r\n")[2])
            self.assertEqual((body["kind"], body["net_pence"], len(body["periods"])), ("SF", sign * net, 48))
            for row in body["periods"]:
                self.assertEqual((row["contracts"], row["charge_pence"], row["share_pence"]), (mwh, sign * charge, 0))
        moved = '{"account":"SUPCO-C","moved_pence":-47999999995200}'
        self.assertEqual(self.ask(request("GET", "/balances/SUPCO-C", SUPCO)), reply(200, moved))
        printed = self.rest()
        energies = "0.0000000000", "0.0000000000", "100000.0000000000", "-100000.0000000000"
        first = f"{1:3} {'GENCO-P':12} {' '.join(f'{energy:>20}' for energy in energies)} {charge:14} {0:14}"
        self.assertEqual(printed[2], first)
        nets = {"GENCO-P": net, "GENCO-C": 0, "SUPCO-P": 0, "SUPCO-C": -net}
        wanted = [f"NET {account:12} {moved:16}" for account, moved in nets.items()]
        wanted += ["END", "account,moved_pence", *(f"{account},{moved}" for account, moved in nets.items())]
        wanted += ["applied=48 late=0", f"run {DAY} R1 periods 48 accounts 4 residual 0 postings 2"]
        wanted += ["account,moved_pence", *(f"{account},{-moved}" for account, moved in nets.items())]
        self.assertEqual(printed[2 + 48 * 5 :], wanted)

    def test_a_large_balance(self):
        """GENCO-P sells as much on three dates, which sums to 143,999,999,985,600 pence: more than one date may have."""
        net = 47_999_999_995_200
        self.assertGreater(3 * net, 10**14)
        numbers, before, over = range(1, 49), [self.load(*MARKET[0], "parties.csv")], NEXT_END + 86_400
        for date in (DAY, "2024-07-02", "2024-07-03"):
            sold = [f"L{number},GENCO-P,SUPCO-C,{date},{period},10000" for number in range(10) for period in numbers]
            prices = [f"{date},{period},99999.99999" for period in numbers]
            before += [self.load("contracts", sold, f"{date}.csv"), self.load("prices", prices, f"{date}.csv")]
            before.append(self.order("SF", over, date))
        self.serve(2, f"report {OPERATOR} balances", moment=over, before=before)
        for account, key, moved in (("GENCO-P", GENCO, 3 * net), ("SUPCO-C", SUPCO, -3 * net)):
            wanted = f'{{"account":"{account}","moved_pence":{moved}}}'
            self.assertEqual(self.ask(request("GET", f"/balances/{account}", key)), reply(200, wanted))
        balances = {"GENCO-P": 3 * net, "GENCO-C": 0, "SUPCO-P": 0, "SUPCO-C": -3 * net}
        self.assertEqual(self.rest(), ["account,moved_pence", *(f"{account},{moved}" for account, moved in balances.items())])

    def test_files_are_loaded(self):
        """Files from clients and files that the script's lines load go into the same office."""
        rows = text_of("contracts", [f"C2,GENCO-P,SUPCO-C,{DAY},2,1.000"])
        changed = rows.replace(b"1.000", b"2.000")
        bad = text_of("contracts", [f"C3,GENCO-P,SUPCO-C,{DAY},2,1.000", f"C4,GENCO-P,GENCO-P,{DAY},2,1.000"])
        field = text_of("contracts", [f"C5,GENCO-P,SUPCO-C,{DAY},2,1.0000"])
        self.serve(8, f"load 0 {OPERATOR} contracts {self.path('c2.csv', rows)}", moment=EARLY)
        loaded = reply(200, '{"applied":1,"late":0}')
        self.assertEqual(len(loaded), 112)
        path = "/files/contracts/c2.csv"
        self.assertEqual(self.ask(request("POST", path, OPERATOR, rows)), loaded)
        self.assertEqual(self.ask(request("POST", path, OPERATOR, rows)), loaded)
        self.assertEqual(self.ask(request("POST", path, OPERATOR, rows, headers=["Expect: 100-continue"])), loaded)
        self.assertEqual(self.ask(request("POST", path, OPERATOR, changed)), reply(409, refusal(20, "FileChanged")))
        self.assertEqual(self.ask(request("POST", path, GENCO, rows)), reply(403, refusal(60, "Forbidden")))
        same = refusal(35, "SameAccount", behind=',"row":2')
        self.assertEqual(self.ask(request("POST", "/files/contracts/c3.csv", OPERATOR, bad)), reply(422, same))
        off = refusal(14, "BadField", ahead='"column":6,', behind=',"row":1')
        self.assertEqual(self.ask(request("POST", "/files/contracts/c5.csv", OPERATOR, field)), reply(400, off))
        self.assertEqual(self.ask(request("POST", path, OPERATOR)), reply(411, refusal(64, "LengthRequired")))
        self.assertEqual(self.rest(), [APPLIED])

    def test_runs_are_made(self):
        body = f'{{"accounts":4,"date":"{DAY}","kind":"SF","periods":48,"postings":2,"residual_pence":5050}}'
        self.assertEqual(len(body), 94)
        self.serve(4, self.order("SF"), moment=END, before=self.market())
        self.assertEqual(self.ask(request("POST", f"/runs/{DAY}/R1", OPERATOR)), reply(409, refusal(51, "NoInitialRun")))
        self.assertEqual(self.ask(request("POST", f"/runs/{DAY}/SF", OPERATOR)), reply(200, body))
        self.assertEqual(self.ask(request("POST", f"/runs/{DAY}/SF", OPERATOR, b"ignored")), reply(200, body))
        later = reply(409, refusal(52, "DayNotOver"))
        self.assertEqual(self.ask(request("POST", "/runs/2024-07-02/SF", OPERATOR)), later)
        self.assertEqual(self.rest(), [SETTLED])

    def test_a_reading_is_missing(self):
        """The unit and the period are told. The first unit by the bytes of the names is told."""
        prices = [f"2024-07-02,{period},0" for period in range(1, 49)]
        self.serve(1, before=[*self.market(), self.load("prices", prices, "later.csv")])
        body = '{"name":"MissingMeter","period":1,"refused":54,"unit":"G1"}'
        self.assertEqual(self.ask(request("POST", "/runs/2024-07-02/SF", OPERATOR)), reply(409, body))

    def test_paths_and_methods(self):
        route = refusal(61, "NoRoute")
        method = refusal(62, "BadMethod")
        self.assertEqual((len(route), len(method)), (31, 33))
        self.serve(8)
        for path in ("/nowhere", "/balances/SUPCO-X", "/balances/SUPCO-C?", "/"):
            self.assertEqual(self.ask(request("GET", path, SUPCO)), NO_ROUTE)
        self.assertEqual(self.ask(request("POST", f"/runs/{DAY}/XX", OPERATOR)), NO_ROUTE)
        get, post = "Allow: GET\r\n", "Allow: POST\r\n"
        self.assertEqual(self.ask(request("DELETE", "/balances/SUPCO-C", SUPCO)), reply(405, method, get))
        self.assertEqual(self.ask(request("GET", f"/runs/{DAY}/SF", OPERATOR)), reply(405, method, post))
        whole = reply(405, method, get)
        self.assertEqual(self.ask(request("HEAD", f"/runs/{DAY}", SUPCO)), whole[: -len(method)])


class Refusals(Served):
    """Which refusal is the reply, if several apply. No key is sent, so what is asked of the office is forbidden."""

    ASKED = reply(403, refusal(60, "Forbidden"))
    LENGTH = reply(411, refusal(64, "LengthRequired"))
    HOST = b"Host: a\r\n"

    def method(self, allowed):
        return reply(405, refusal(62, "BadMethod"), f"Allow: {allowed}\r\n")

    def compare(self, cases):
        """Each of these requests has this reply."""
        self.serve(len(cases))
        for asked, wanted in cases:
            with self.subTest(asked):
                self.assertEqual(self.ask(asked, end=True), wanted)
        self.assertEqual(self.rest(), [])

    def sent(self, start, lines=b""):
        return start + b" HTTP/1.1\r\n" + self.HOST + lines + b"\r\n"

    def test_other_paths(self):
        starts = (
            b"GET /",
            b"GET *",
            b"GET /nowhere",
            b"GET /runs",
            b"GET /runs/",
            b"GET //2024-07-01",
            b"GET /runs//2024-07-01",
            b"GET /runs/2024-07-01/",
            b"GET /runs/2024-07-01?x",
            b"GET /runs/%32024-07-01",
            b"GET /runs/2024-02-30",
            b"GET /Runs/2024-07-01",
            b"GET runs/2024-07-01",
            b"GET http://a/runs/2024-07-01",
            b"GET /runs/2024-07-01/SF/x",
            b"GET /accounts/GENCO/2024-07-01",
            b"POST /runs/2024-07-01/XX",
            b"POST /files/meter/a.csv",
            b"DELETE /files/meters/a,csv",
        )
        self.compare([(self.sent(start), NO_ROUTE) for start in starts])

    def test_other_methods(self):
        """Each path is told with the only method that it has."""
        starts = (
            (b"DELETE /balances/SUPCO-C", "GET"),
            (b"get /balances/SUPCO-C", "GET"),
            (b"POST /accounts/GENCO-P/2024-07-01", "GET"),
            (b"PUT /contracts/GENCO-P/2024-07-01", "GET"),
            (b"POST /runs/2024-07-01", "GET"),
            (b"GET /runs/2024-07-01/SF", "POST"),
            (b"GETTING-ON-WITH-THINGS /files/meters/a.csv", "POST"),
        )
        self.compare([(self.sent(start), self.method(allowed)) for start, allowed in starts])

    def test_a_head_alone(self):
        """HEAD gets only the head of the reply, once it is known that the method is HEAD."""
        cases = (
            (b"HEAD /runs/2024-07-01", b"", self.method("GET"), True),
            (b"HEAD /nowhere", b"", NO_ROUTE, True),
            (b"HEAD /nowhere", b"Content-Length: 1048577\r\n", TOO_LARGE, True),
            (b"HEAD /nowhere", b"Content-Length: 1\r\n", BAD, True),
            (b"HEAD /nowhere", b"Host: b\r\n", BAD, True),
            (b"head /nowhere", b"", NO_ROUTE, False),
            (b"HEAD /nowhere", b"Host b\r\n", BAD, False),
        )
        head = lambda whole: whole.partition(b"\r\n\r\n")[0] + b"\r\n\r\n"
        self.compare([(self.sent(start, lines), head(wanted) if alone else wanted) for start, lines, wanted, alone in cases])

    def test_heads(self):
        runs, host = b"GET /runs/2024-07-01 HTTP/1.1\r\n", self.HOST
        self.compare(
            [
                (runs + b"\r\n", BAD),
                (runs.replace(b"1.1", b"1.0") + b"\r\n", self.ASKED),
                (b"\r\n\nGET /runs/2024-07-01 HTTP/1.1\nHOST:\n\n", self.ASKED),
                (runs.replace(b"1.1", b"2.0") + host + b"\r\n", BAD),
                (b"GET /runs/2024-07-01\r\n" + host + b"\r\n", BAD),
                (runs.replace(b"GET", b"GET ") + host + b"\r\n", BAD),
                (b"GET /runs/\xff HTTP/1.1\r\n" + host + b"\r\n", BAD),
                (runs + b"Host : a\r\n\r\n", BAD),
                (runs + host + b"host: a\r\n\r\n", BAD),
                (runs.replace(b"1.1", b"1.0") + host + b"host: a\r\n\r\n", BAD),
            ]
        )

    def test_headers(self):
        lines = (
            (b"x-office-key: b\r\nX-Office-Key: b\r\n", b"", BAD),
            (b"Content-Length: 0\r\nContent-Length: 0\r\n", b"", BAD),
            (b"Content-Length: +5\r\n", b"abcde", BAD),
            (b"Content-Length: -0\r\n", b"", BAD),
            (b"Content-Length:\r\n", b"", BAD),
            (b"Content-Length: 0,0\r\n", b"", BAD),
            (b"Transfer-Encoding: identity\r\n", b"", BAD),
            (b"Content-Length: \t5 \r\n", b"abcde", NO_ROUTE),
            (b"Content-Length: " + b"0" * 40 + b"6\r\n", b"abcde", BAD),
        )
        self.compare([(self.sent(b"GET /", text) + body, wanted) for text, body, wanted in lines])

    def test_the_first_cause(self):
        cases = (
            (b"GET /nowhere", b"Content-Length: 2000000\r\nTransfer-Encoding: gzip\r\n", BAD),
            (b"GET /nowhere", b"Content-Length: 2000000\r\n", TOO_LARGE),
            (b"GET /nowhere", b"Content-Length: 1\r\n", BAD),
            (b"GET /files/meters/a,csv", b"", NO_ROUTE),
            (b"GET /files/meters/a.csv", b"", self.method("POST")),
            (b"POST /files/meters/a.csv", b"", self.LENGTH),
            (b"POST /files/meters/a.csv", b"Expect: 100-continue\r\n", self.LENGTH),
            (b"POST /files/meters/a.csv", b"Content-Length: 0\r\n", self.ASKED),
            (b"POST /files/meters/a.csv", b"Content-Length: 0\r\nExpect: 100-continue\r\n", self.ASKED),
        )
        self.compare([(self.sent(start, lines), wanted) for start, lines, wanted in cases])


class Bytes(Served):
    """However a request is divided, and whatever is wrong with it."""

    ASKED = request("GET", "/balances/SUPCO-C", SUPCO)

    def test_cut_after_each_byte(self):
        """Bad, once its end is seen. Nothing is replied if nothing came."""
        self.serve(len(self.ASKED))
        self.assertEqual(self.ask(b"", end=True), b"")
        for size in range(1, len(self.ASKED)):
            self.assertEqual(self.ask(self.ASKED[:size], end=True), BAD, size)
        self.assertEqual(self.rest(), [])

    def test_in_pieces(self):
        self.serve(4)
        for size in (1, 7, 40, 75):
            self.assertEqual(self.ask_in(size, self.ASKED), reply(200, MOVED), size)

    def ask_in(self, size, asked):
        """The reply to a request that is sent in pieces of this size."""
        return self.ask(*(asked[start : start + size] for start in range(0, len(asked), size)))

    def test_refused_in_pieces(self):
        cases = (
            (b"GET /nowhere HTTP/1.0\r\n\r\n", NO_ROUTE),
            (b"DELETE /balances/SUPCO-C HTTP/1.0\r\n\r\n", reply(405, refusal(62, "BadMethod"), "Allow: GET\r\n")),
            (b"POST /files/meters/a.csv HTTP/1.0\r\n\r\n", reply(411, refusal(64, "LengthRequired"))),
            (b"GET /nowhere HTTP/1.0\r\nTransfer-Encoding: chunked\r\n\r\n", BAD),
            (b"GET /nowhere HTTP/1.0\r\nContent-Length: 1048577\r\n\r\n", TOO_LARGE),
            # A header without a name, up to the byte that shows this.
            (b"GET / HTTP/1.1\n:", BAD),
        )
        self.serve(3 * len(cases))
        for asked, wanted in cases:
            for size in (1, 7, len(asked)):
                self.assertEqual(self.ask_in(size, asked), wanted, (asked, size))
        self.assertEqual(self.rest(), [])

    def test_files_that_are_cut_after_each_byte(self):
        """They are bad, and nothing is loaded of them. When the whole file has come in pieces, it is answered."""
        parties, contract = text_of(*MARKET[0]), text_of("contracts", [f"C1,GENCO-P,SUPCO-C,{DAY},1,98.000"])
        row = '{"counterparty":"SUPCO-C","mwh":"98.000","period":1,"reference":"C1","role":"seller"}'
        held = '{{"account":"GENCO-P","contracts":[{}],"date":"%s"}}' % DAY
        balance, contracts = request("GET", "/balances/SUPCO-C", SUPCO), request("GET", f"/contracts/GENCO-P/{DAY}", GENCO)
        unknown, moved = reply(403, refusal(60, "Forbidden")), reply(200, '{"account":"SUPCO-C","moved_pence":0}')
        scenes = [
            ("parties", parties, 2, balance, unknown, moved),
            ("contracts", contract, 1, contracts, reply(200, held.format("")), reply(200, held.format(row))),
        ]
        files = [request("POST", f"/files/{kind}/cut.csv", OPERATOR, rows) for kind, rows, *_ in scenes]
        self.serve(sum(map(len, files)) + 4 * len(files), moment=EARLY, before=[])
        for (kind, _, count, enquiry, left, done), asked in zip(scenes, files):
            for size in range(len(asked)):
                self.assertEqual(self.ask(asked[:size], end=True), BAD if size else b"", (kind, size))
            self.assertEqual(self.ask(enquiry), left, kind)
            for size in (1, 7):
                self.assertEqual(self.ask_in(size, asked), reply(200, f'{{"applied":{count},"late":0}}'), kind)
            self.assertEqual(self.ask(enquiry), done, kind)
        self.assertEqual(self.rest(), [])

    def test_a_body_that_is_cut(self):
        rows = text_of("prices", [f"{DAY},1,5"])
        asked = request("POST", "/files/prices/cut.csv", OPERATOR, rows)
        self.serve(len(rows) + 1)
        for size in range(len(rows)):
            self.assertEqual(self.ask(asked[: len(asked) - len(rows) + size], end=True), BAD, size)
        self.assertEqual(self.ask(asked + b"what comes behind it"), reply(200, '{"applied":1,"late":0}'))

    def test_lengths(self):
        """One byte too many is told before the body is read. A length may have any number of digits."""

        def ask(length, body=b""):
            return self.ask(request("POST", "/files/meters/a.csv", OPERATOR, headers=[f"Content-Length: {length}"]) + body)

        self.assertEqual(len(refusal(66, "BodyTooLarge")), 36)
        empty = reply(400, refusal(12, "BadHeader"))
        self.serve(7)
        self.assertEqual(ask(1_048_577), TOO_LARGE)
        self.assertEqual(ask("9" * 40), TOO_LARGE)
        self.assertEqual(ask("0" * 40), empty)
        self.assertEqual(ask("0" * 40 + "5", b"empty"), empty)
        self.assertEqual(ask("+5"), BAD)
        self.assertEqual(ask(2_000_000, b"x" * 2_000_000), TOO_LARGE)
        self.assertEqual(ask(1_048_576, b"x" * 1_048_576), empty)

    def test_the_limits_of_heads(self):
        def padded(size):
            bare = request("GET", "/balances/SUPCO-C", SUPCO, headers=["x: "])
            return bare.replace(b"x: \r\n", b"x: " + b"a" * (size - len(bare)) + b"\r\n")

        def many(count):
            return request("GET", "/balances/SUPCO-C", SUPCO, headers=[f"x{number}: 1" for number in range(count - 2)])

        self.assertEqual((len(padded(8192)), len(padded(8193))), (8192, 8193))
        self.serve(5)
        self.assertEqual(self.ask(padded(8192)), reply(200, MOVED))
        self.assertEqual(self.ask(padded(8193)), BAD)
        self.assertEqual(self.ask(many(32)), reply(200, MOVED))
        self.assertEqual(self.ask(many(33)), BAD)
        self.assertEqual(self.ask(b"\x00\x01\x02\r\n\r\n"), BAD)

    def test_rules_of_heads(self):
        asked = "GET /balances/SUPCO-C HTTP/1.1\r\n"
        key = f"x-office-key: {SUPCO}\r\n"
        self.serve(5)
        for head in (
            asked + key,
            asked + "Host: a\r\nhost: b\r\n" + key,
            asked + "Host: a\r\n" + key * 2,
            asked + "Host: a\r\nTransfer-Encoding: chunked\r\n" + key,
        ):
            self.assertEqual(self.ask(f"{head}\r\n".encode()), BAD, head)
        older = asked.replace("1.1", "1.0") + f"X-OFFICE-KEY:   {SUPCO} \r\n\r\n"
        self.assertEqual(self.ask(older.encode()), reply(200, MOVED))


class Clients(Served):
    """A connection that fails ends only itself."""

    def test_one_that_resets(self):
        self.serve(3)
        for sent in (b"", b"GET /balances"):
            client = self.connect()
            client.sendall(sent)
            client.setsockopt(socket.SOL_SOCKET, socket.SO_LINGER, b"\x01\x00\x00\x00\x00\x00\x00\x00")
            client.close()
        self.assertEqual(self.ask(request("GET", "/balances/SUPCO-C", SUPCO)), reply(200, MOVED))
        self.assertEqual(self.rest(), [])

    def test_one_that_only_connects(self):
        """It counts as one of those that are served, and gets no reply."""
        self.serve(3)
        for _ in range(2):
            self.assertEqual(self.ask(end=True), b"")
        self.assertEqual(self.ask(request("GET", "/balances/SUPCO-C", SUPCO)), reply(200, MOVED))
        self.assertEqual(self.rest(), [])

    def test_one_that_never_reads_nor_closes(self):
        """The next is still answered."""
        self.serve(2)
        with self.connect() as silent:
            silent.sendall(request("GET", f"/accounts/GENCO-P/{DAY}", GENCO))
            self.assertEqual(self.ask(request("GET", "/balances/SUPCO-C", SUPCO)), reply(200, MOVED))
            self.assertEqual(self.rest(), [])

    def test_one_that_sends_on(self):
        """It has its reply before it has sent everything."""
        self.serve(1)
        with self.connect() as client:
            client.sendall(request("GET", "/balances/SUPCO-C", SUPCO))
            self.assertEqual(client.recv(65_536), reply(200, MOVED))
            for _ in range(20):
                try:
                    client.sendall(b"x" * 1000)
                except OSError:
                    break
        self.assertEqual(self.rest(), [])

    def test_one_that_sends_more_than_its_request(self):
        """It gets its reply, although most of what it sends is never read as a request."""
        self.serve(20)
        for size in (1, 8_192, 100_000, 1_000_000):
            for _ in range(5):
                self.assertEqual(self.ask(request("GET", "/balances/SUPCO-C", SUPCO) + b"x" * size), reply(200, MOVED), size)
        self.assertEqual(self.rest(), [])

    def test_one_that_stalls(self):
        """It sends half a head and then nothing. After ten seconds it is dropped without a reply, and the next is answered."""
        self.serve(2)
        with self.connect() as stalled:
            stalled.sendall(b"GET /balances/SUPCO-C HTTP/1.1\r\nHost: lo")
            began = time.monotonic()
            self.assertEqual(self.ask(request("GET", "/balances/SUPCO-C", SUPCO)), reply(200, MOVED))
            waited = time.monotonic() - began
            self.assertTrue(9 < waited < 15, waited)
            self.assertEqual(self.read(stalled), b"")
        self.assertEqual(self.rest(), [])

    def send_on(self, client, piece, count):
        """Sends a piece over and over, each by itself, up to a number of times or until no more is taken. Returns how often it
        was sent."""
        client.setsockopt(socket.IPPROTO_TCP, socket.TCP_NODELAY, 1)
        for sent in range(count):
            try:
                client.sendall(piece)
            except OSError:
                return sent
            time.sleep(0.0003)
        return count

    def test_one_that_sends_byte_by_byte(self):
        """A client is read at most 4,096 times. If its body comes one byte at a time, it is dropped then, without a reply, and
        isn't read further. The next is answered."""
        self.serve(2)
        with self.connect() as slow:
            slow.sendall(request("POST", "/files/prices/slow.csv", OPERATOR, headers=["Content-Length: 1048576"]))
            sent = self.send_on(slow, b"x", 100_000)
            self.assertTrue(4_095 <= sent < 8_000, sent)
            try:
                self.assertEqual(self.read(slow), b"")
            except ConnectionResetError:
                pass
        self.assertEqual(self.ask(request("GET", "/balances/SUPCO-C", SUPCO)), reply(200, MOVED))
        self.assertEqual(self.rest(), [])

    def test_one_that_sends_on_byte_by_byte(self):
        """What is read from it after its reply counts among the 4,096 reads."""
        self.serve(2)
        with self.connect() as client:
            client.sendall(request("POST", "/files/prices/slow.csv", OPERATOR, headers=["Content-Length: 1048577"]))
            self.assertEqual(self.read(client), TOO_LARGE)
            sent = self.send_on(client, b"x", 100_000)
            self.assertTrue(4_095 <= sent < 8_000, sent)
        self.assertEqual(self.ask(request("GET", "/balances/SUPCO-C", SUPCO)), reply(200, MOVED))
        self.assertEqual(self.rest(), [])

    def test_a_file_in_little_pieces(self):
        """The largest file comes in 3,496 pieces of 300 bytes. Each of its rows is loaded. They are all over the file, with
        empty lines after each."""
        rows = [f"C{number},GENCO-P,SUPCO-C,{DAY},1,0" for number in range(1_000)]
        body = b"".join(line.ljust(1_000, b"\n") for line in text_of("contracts", rows).splitlines())
        body = body.ljust(1_048_576, b"\n")
        asked = request("POST", "/files/contracts/little.csv", OPERATOR, body)
        self.serve(1, moment=EARLY, before=self.market())
        with self.connect() as client:
            client.setsockopt(socket.IPPROTO_TCP, socket.TCP_NODELAY, 1)
            for start in range(0, len(asked), 300):
                client.sendall(asked[start : start + 300])
                time.sleep(0.0001)
            self.assertEqual(self.read(client), reply(200, '{"applied":1000,"late":0}'))
        self.assertEqual(self.rest(), [])

    def test_closing_is_quick(self):
        """If a client closes when it has its reply, the next is answered at once: no silence is awaited."""
        self.serve(20)
        began = time.monotonic()
        for _ in range(20):
            self.assertEqual(self.ask(request("GET", f"/runs/{DAY}", GENCO)), reply(200, RUNS))
        self.assertLess(time.monotonic() - began, 5)

    def test_three_hundred(self):
        """One line serves them all, and no more."""
        self.serve(300)
        for number in range(300):
            self.assertEqual(self.ask(request("GET", f"/runs/{DAY}", GENCO)), reply(200, RUNS), number)
        self.assertEqual(self.rest(), [])
        with self.assertRaises(ConnectionRefusedError):
            self.connect()

    def test_several_that_wait(self):
        """They are answered one after the other."""
        self.serve(8)
        got = []
        threads = [threading.Thread(target=lambda: got.append(self.ask(request("GET", f"/runs/{DAY}", GENCO)))) for _ in range(8)]
        for thread in threads:
            thread.start()
        for thread in threads:
            thread.join()
        self.assertEqual(got, [reply(200, RUNS)] * 8)

    def test_no_more_than_the_count(self):
        self.serve(1, f"report {OPERATOR} balances")
        self.assertEqual(self.ask(request("GET", f"/runs/{DAY}", GENCO)), reply(200, RUNS))
        self.assertEqual(self.rest()[0], "account,moved_pence")
        with self.assertRaises(OSError):
            self.connect()


class Waits(Served):
    """How long one client delays the next. Each kind is tried on a service of its own, and all at the same time."""

    def begin_service(self, before=None):
        """Begins a service that ends with the test. Returns its port."""
        self.serve(1_000, before=before)
        self.addCleanup(self.program.communicate)
        self.addCleanup(self.program.kill)
        port, self.program = self.port, None
        return port

    def many_contracts(self):
        """Lines that load enough contracts for a reply of five megabytes."""
        rows = [f"C{number},GENCO-P,SUPCO-C,{DAY},1,0" for number in range(60_000)]
        return [*self.market(), *(self.load("contracts", rows[at : at + 20_000], f"c{at}.csv") for at in range(0, 60_000, 20_000))]

    def waited(self, port, hold, count=1):
        """How many seconds a client waits for its reply after this many clients that hold the service, each in its way. Each of
        them gets no more than what it has read itself."""
        clients = []
        for _ in range(count):
            clients.append(socket.socket())
            clients[-1].settimeout(60)
            # Little room, so that a long reply isn't sent at once.
            clients[-1].setsockopt(socket.SOL_SOCKET, socket.SO_RCVBUF, 4_096)
            clients[-1].connect(("127.0.0.1", port))
        began = time.monotonic()
        with concurrent.futures.ThreadPoolExecutor(count) as pool:
            held = [pool.submit(hold, client) for client in clients]
            with socket.create_connection(("127.0.0.1", port), timeout=120) as client:
                client.sendall(request("GET", "/nowhere"))
                self.assertEqual(self.read(client), NO_ROUTE)
            waited = time.monotonic() - began
            for holder, client in zip(held, clients):
                holder.result()
                client.close()
        return waited

    def waits_of(self, services):
        """How long the next client waits at each of these services, at the same time."""
        with concurrent.futures.ThreadPoolExecutor(len(services)) as pool:
            return list(pool.map(lambda service: self.waited(*service), services))

    def says_nothing(self, client):
        """It is dropped without a reply."""
        self.assertEqual(self.read(client), b"")

    def sends_now_and_then(self, client, pause=2):
        """It sends a byte every two seconds, until it is dropped without a reply."""
        client.sendall(b"GET /balances/SUPCO-C HTTP/1.1\r\nHost: localhost\r\nx: ")
        self.goes_on(client, pause)
        with contextlib.suppress(ConnectionError):
            self.assertEqual(self.read(client), b"")

    def goes_on(self, client, pause):
        began = time.monotonic()
        with contextlib.suppress(ConnectionError):
            while time.monotonic() - began < 60:
                client.sendall(b"x")
                time.sleep(pause)
            self.fail("it may send on for a minute")

    def sends_on(self, client):
        """It has its refusal, and continues to send."""
        client.sendall(request("POST", "/files/prices/slow.csv", OPERATOR, headers=["Content-Length: 1048577"]))
        self.assertEqual(self.read(client), TOO_LARGE)
        self.goes_on(client, 0.3)

    def reads_slowly(self, client):
        """It reads its reply in little pieces, and is dropped before it has all of it."""
        client.sendall(request("GET", f"/contracts/GENCO-P/{DAY}", GENCO))
        begun = self.read_slowly(client)
        head, _, body = begun.partition(b"\r\n\r\n")
        self.assertTrue(head.startswith(b"HTTP/1.1 200 OK\r\n"))
        self.assertLess(len(body), int(head.partition(b"Content-Length: ")[2].split()[0]))

    def read_slowly(self, client):
        got, began = b"", time.monotonic()
        with contextlib.suppress(ConnectionError):
            while piece := client.recv(4_096):
                got += piece
                # (what was sent before it was dropped comes all at once)
                time.sleep(0.15 if time.monotonic() - began < 33 else 0)
        return got

    def test_how_long_others_wait(self):
        services = [(self.begin_service(), hold, count) for hold, count in ((self.says_nothing, 3), (self.sends_now_and_then, 1), (self.sends_on, 1))]
        services.append((self.begin_service(self.many_contracts()), self.reads_slowly, 1))
        waits = self.waits_of(services)
        # Three silent clients are awaited for ten seconds each.
        for wait in waits:
            self.assertTrue(29 < wait < 40, waits)

    def test_a_hundred_that_say_nothing_and_close(self):
        """Nobody waits for them, and each counts as a connection."""
        self.serve(101)
        for client in [self.connect() for _ in range(100)]:
            client.close()
        began = time.monotonic()
        self.assertEqual(self.ask(request("GET", "/balances/SUPCO-C", SUPCO)), reply(200, MOVED))
        self.assertLess(time.monotonic() - began, 5)
        self.assertEqual(self.rest(), [])


class Ports(Served):
    """Which port is listened on."""

    def test_none_is_served(self):
        """A line that serves no connection listens and goes on."""
        self.serve(0, self.order("SF"))
        self.assertEqual(self.rest(), [SETTLED])

    def test_one_address_alone(self):
        """The office listens on 127.0.0.1, and not on every address of this machine."""
        self.serve(1)
        with self.assertRaises(ConnectionRefusedError):
            socket.create_connection(("127.0.0.2", self.port), timeout=10)
        self.assertEqual(self.ask(request("GET", f"/runs/{DAY}", GENCO)), reply(200, RUNS))
        self.assertEqual(self.rest(), [])

    def test_a_port_that_is_taken(self):
        """The script goes on without it."""
        self.serve(1)
        taken = self.replies(f"serve 5 {self.port} 1", f"load 5 {OPERATOR} prices /nowhere/p.csv")
        self.assertEqual(taken, ["fault socket", "fault file"])
        self.ask(request("GET", f"/runs/{DAY}", GENCO))
        self.assertEqual(self.rest(), [])

    def test_a_port_that_is_asked_for(self):
        self.serve(1)
        self.ask(request("GET", f"/runs/{DAY}", GENCO))
        self.rest()
        for _ in range(20):
            told = self.replies(f"serve 5 {self.port} 0")
            if told != ["fault socket"]:
                break
            time.sleep(0.1)
        self.assertEqual(told, [f"listening 127.0.0.1:{self.port}"])

    def test_a_moment_of_its_own(self):
        """A request counts at the moment of the line that serves."""
        late = text_of("contracts", [f"C1,GENCO-P,SUPCO-C,{DAY},1,1.000"])
        self.serve(1, moment=END, before=self.market())
        body = '{"applied":0,"late":1}'
        self.assertEqual(self.ask(request("POST", "/files/contracts/late.csv", OPERATOR, late)), reply(200, body))

    def test_lines_off_their_form(self):
        ports = "65536 1", "80", "-1 1", "-0 0", "+80 1", "80.0 0", "80 1 1"
        counts = "80 1000001", "80 -1", "80 -0", "80 1.0"
        for words in (*ports, *counts):
            with self.subTest(words):
                self.is_wrong(self.run_script(f"serve 5 {words}\n"), 1)
        self.is_wrong(self.run_script("serve now 80 1\n"), 1)


if __name__ == "__main__":
    unittest.main()
