"""The client of `examples/client` and the check of a bill, `bill.py`. What a client does when an answer is cut or lost is asked of a
stand-in, and the check is tried on the worked periods of docs/market.md, without the program. Then both ask the example market,
which the program serves."""
import contextlib
import csv
import io
import itertools
import json
import pathlib
import re
import shlex
import socket
import sys
import tempfile
import threading
import unittest

from openapi import Description, shows
from programs import HOME, SETTLE, need
from test_documents import BLOCK
from test_http import Served

sys.path.append(str(HOME / "examples" / "client"))

import bill
import gaugepoppy
from look import statement

MARKET = HOME / "examples" / "market"
DATE, OPERATOR = "2024-07-01", "op-market001"
LOADED = b'{"applied":2,"late":0}'


def answer(body, status=200):
    """The bytes of a reply of an office."""
    head = f"HTTP/1.1 {status} Phrase\r\nContent-Type: application/json\r\nContent-Length: {len(body)}\r\nConnection: close\r\n\r\n"
    return head.encode() + body


def head_of(client):
    """The bytes of a request up to the end of its head, and perhaps more."""
    got = b""
    while b"\r\n\r\n" not in got:
        got += client.recv(65_536)
    return got


def whole_request(client):
    """The bytes of a request that comes whole."""
    got = head_of(client)
    length = re.search(rb"(?i)content-length: ([0-9]+)", got)
    while len(got.partition(b"\r\n\r\n")[2]) < (int(length[1]) if length else 0):
        got += client.recv(65_536)
    return got


class StandIn:
    """Answers one connection after the other with what `reply` gives for the request and its number, and keeps the requests."""

    def __init__(self, test, reply, read=whole_request):
        self.reply, self.read, self.asked = reply, read, []
        self.listener = socket.create_server(("127.0.0.1", 0))
        self.address = f"http://127.0.0.1:{self.listener.getsockname()[1]}"
        self.thread = threading.Thread(target=self.serve, daemon=True)
        self.thread.start()
        test.addCleanup(self.stop)

    def serve(self):
        while True:
            try:
                client, _ = self.listener.accept()
            except OSError:
                return
            with client, contextlib.suppress(OSError):
                self.asked.append(self.read(client))
                client.sendall(self.reply(self.asked[-1], len(self.asked) - 1))

    def stop(self):
        self.listener.shutdown(socket.SHUT_RDWR)
        self.listener.close()
        self.thread.join()


class Answers(unittest.TestCase):
    """The client beside a stand-in."""

    needs_programs = False

    def office(self, reply, pauses=(0,)):
        self.stand_in = StandIn(self, reply)
        return gaugepoppy.Office(self.stand_in.address, OPERATOR, pauses=pauses)

    def test_an_answer_that_is_cut_after_each_byte(self):
        """The same request is sent again, and its answer is returned."""
        whole = answer(LOADED)
        office = self.office(lambda _, number: whole if number % 2 else whole[: number // 2])
        for length in range(len(whole)):
            with self.subTest(length):
                self.assertEqual(office.load("meters", "july.csv", b"rows\n"), {"applied": 2, "late": 0})
        self.assertEqual(len(self.stand_in.asked), 2 * len(whole))
        (sent,) = set(self.stand_in.asked)
        head, _, body = sent.partition(b"\r\n\r\n")
        self.assertTrue(head.startswith(b"POST /files/meters/july.csv HTTP/1.1\r\n"), head)
        self.assertIn(b"\r\nx-office-key: op-market001", head)
        self.assertEqual(body, b"rows\n")

    def test_what_is_sent_again(self):
        """What has no answer, 503, and a proxy that doesn't reach the office. What lasts is raised after the last try."""
        memory, page = answer(b'{"name":"Memory","refused":90}', 503), b"<html></html>"
        for first in (b"", memory, answer(page, 502), answer(page, 504)):
            with self.subTest(first):
                office = self.office(lambda _, number: (first, first, answer(LOADED))[number], pauses=(0, 0, 0))
                self.assertEqual(office.run(DATE, "SF")["applied"], 2)
                self.assertEqual(len(self.stand_in.asked), 3)
                lasting = self.office(lambda *_: first, pauses=(0, 0))
                with self.assertRaises(gaugepoppy.Refused if first == memory else gaugepoppy.NoAnswer):
                    lasting.runs(DATE)
                self.assertEqual(len(self.stand_in.asked), 3)

    def test_each_refusal_of_openapi(self):
        """It is raised with all that it has. Only 503 is asked again."""
        description, seen = Description(), set()
        for _, _, operation in description.operations():
            for status, response in operation["responses"].items():
                body = description.example_reply(response)
                if status == "200" or (status, body["refused"]) in seen:
                    continue
                seen.add((status, body["refused"]))
                with self.subTest(body["name"]):
                    office = self.office(lambda *_: answer(json.dumps(body).encode(), int(status)))
                    with self.assertRaises(gaugepoppy.Refused) as raised:
                        office.balance("CITYSUP-C")
                    found = raised.exception
                    self.assertEqual((found.status, found.number, found.name), (int(status), body["refused"], body["name"]))
                    for place in ("row", "column", "unit", "period"):
                        self.assertEqual(getattr(found, place), body.get(place))
                    self.assertEqual(len(self.stand_in.asked), 2 if status == "503" else 1)
        self.assertGreater(len(seen), 8)

    def test_answers_of_no_office(self):
        """They are not asked again."""
        for reply in (answer(b"<html></html>", 413), answer(b"[1]"), answer(b"", 301), answer(b'{"refused":60}', 403)):
            with self.subTest(reply):
                with self.assertRaises(gaugepoppy.NoOffice):
                    self.office(lambda *_: reply).runs(DATE)
                self.assertEqual(len(self.stand_in.asked), 1)

    def test_an_answer_before_the_whole_body(self):
        """It is read, though the connection is reset while the body is sent."""
        refused = answer(b'{"name":"BodyTooLarge","refused":66}', 413)
        stand_in = StandIn(self, lambda *_: refused, head_of)
        with self.assertRaises(gaugepoppy.Refused) as raised:
            gaugepoppy.Office(stand_in.address, OPERATOR, pauses=()).load("meters", "large.csv", bytes(32_000_000))
        self.assertEqual((raised.exception.number, len(stand_in.asked)), (66, 1))

    def test_an_office_that_isnt_there(self):
        with socket.create_server(("127.0.0.1", 0)) as free:
            port = free.getsockname()[1]
        with self.assertRaises(gaugepoppy.NoAnswer) as raised:
            gaugepoppy.Office(f"http://127.0.0.1:{port}", OPERATOR, pauses=()).runs(DATE)
        self.assertNotIn(OPERATOR, str(raised.exception))

    def test_addresses_and_keys_that_are_none(self):
        for address, key in (
            ("127.0.0.1:8080", ""),
            ("ftp://a", ""),
            ("http://a/b", ""),
            ("http://a:1", "hidden key"),
            ("http://a:1", "hidden\n"),
        ):
            with self.subTest(address), self.assertRaises(ValueError) as raised:
                gaugepoppy.Office(address, key)
            self.assertNotIn("hidden", str(raised.exception))


# The second worked period of docs/market.md: its files, and each account's figures in ticks and pence. The price and the readings of
# the other periods are 0.
FILES = {
    "units": ["G1,GENCO,P,no,2024-01-01,", "I1,LINKCO,P,yes,2024-01-01,", "S1,SUPCO,C,no,2024-01-01,"],
    "readings": [f"G1,{DATE},1,100.000,0.9912000,4.000", f"I1,{DATE},1,20.000,1.0000000,0", f"S1,{DATE},1,-130.000,1.0050000,1.500"],
    "contracts": [f"C1,GENCO-P,SUPCO-C,{DATE},1,60.000", f"C2,LINKCO-P,SUPCO-C,{DATE},1,19.750"],
    "prices": [f"{DATE},1,62.50000"],
    "reallocations": [f"G1,SUPCO-C,{DATE},1,33.33333,0.500"],
}
FIGURES = {
    "GENCO-P": (669_060_031_718, 39_648_000_000, 600_000_000_000, 29_412_031_718, -18_383, -30_942),
    "LINKCO-P": (200_000_000_000, 0, 197_500_000_000, 2_500_000_000, -1563, 0),
    "SUPCO-C": (-984_360_031_718, 15_075_000_000, -797_500_000_000, -201_935_031_718, 126_209, -75_321),
}
NAMES = "credited", "balancing", "contracts", "imbalance", "charge_pence", "share_pence"


def reply_of(account, changed=(), count=48):
    """A reply as the office gives it. The figures of period 1 are those of the page, and all others are 0. What is changed is added to
    the figure of a period and name. The day net stays."""
    figures = {1: FIGURES[account]}
    rows = [dict(zip(NAMES, figures.get(period, [0] * 6)), period=period) for period in range(1, count + 1)]
    for (period, name), by in dict(changed).items():
        rows[period - 1][name] += by
    for row in rows:
        row.update({name: energy(row[name]) for name in NAMES[:4]})
    return {"account": account, "date": DATE, "kind": "SF", "net_pence": sum(FIGURES[account][4:]), "periods": rows}


def energy(ticks):
    return f"{'-' if ticks < 0 else ''}{abs(ticks) // 10**10}.{abs(ticks) % 10**10:010}"


class Checking(unittest.TestCase):
    """A folder with files, and how `bill.py` is called."""

    def setUp(self):
        room = tempfile.TemporaryDirectory()
        self.addCleanup(room.cleanup)
        self.room = pathlib.Path(room.name)

    def file(self, name, text):
        (self.room / name).write_text(text, encoding="utf-8")
        return str(self.room / name)

    def bill(self, *words):
        """Its status, what it printed, and what it said on standard error."""
        out, err = io.StringIO(), io.StringIO()
        with contextlib.redirect_stdout(out), contextlib.redirect_stderr(err):
            try:
                status = bill.main([str(word) for word in words])
            except SystemExit as end:
                status = end.code
        return status, out.getvalue(), err.getvalue()


class WorkedPeriod(Checking):
    """The check beside the figures of docs/market.md, by kept replies."""

    needs_programs = False

    def setUp(self):
        super().setUp()
        idle = [f"{unit},{DATE},{number},0,1,0" for number in range(2, 49) for unit in ("G1", "I1", "S1")]
        free = [f"{DATE},{number},0" for number in range(2, 49)]
        # (rows of another date, which don't count)
        other = {
            "readings": ["G1,2024-07-02,1,7,1,3", "S1,2024-07-02,1,7,1,3"],
            "contracts": ["C1,GENCO-P,SUPCO-C,2024-07-02,1,7"],
            "prices": ["2024-07-02,1,7"],
            "reallocations": ["G1,SUPCO-C,2024-07-02,1,7,7", "S1,GENCO-P,2024-07-02,1,7,7"],
        }
        files = {**FILES, "readings": FILES["readings"] + idle, "prices": FILES["prices"] + free}
        self.files = {kind: rows + other.get(kind, []) for kind, rows in files.items()}

    def check(self, account, reply=None, statement=None, **changed):
        """What is said of an account, if its reply or files are these."""
        words = ["--reply", self.file("reply.json", json.dumps(reply or reply_of(account)))]
        words += ["--statement", statement] if statement else []
        for kind, rows in {**self.files, **changed}.items():
            words += [f"--{kind}", self.file(f"{kind}.csv", "\n".join([bill.HEADERS[kind], *rows]) + "\n")]
        status, told, error = self.bill(account, DATE, *words)
        self.assertEqual(error, "")
        return status, told

    def test_each_account_agrees(self):
        for account in FIGURES:
            with self.subTest(account):
                status, told = self.check(account)
                self.assertEqual((status, told.count("48 of 48")), (0, 6), told)
                self.assertIn("Not checked: the shares", told)

    def test_each_figure_that_is_changed_is_found(self):
        """By one in its smallest unit. A share that is changed is found by the day net alone."""
        for account, period, name, by in itertools.product(FIGURES, (1, 2), NAMES, (1, -1)):
            with self.subTest(f"{account} {period} {name}"):
                status, told = self.check(account, reply_of(account, {(period, name): by}))
                self.assertEqual(status, 1, told)
                self.assertIn("but not the sum" if name == "share_pence" else f"period {period}: the office has", told)

    def test_periods_that_the_reply_lacks(self):
        status, told = self.check("SUPCO-C", reply_of("SUPCO-C", count=46))
        self.assertEqual(status, 1)
        self.assertIn("Settlement Periods   46 of 48\n  the office has 1 to 46\n", told)

    def test_files_that_lack_something(self):
        """What can't be computed is said, and is no difference."""
        own = [row for row in self.files["readings"] if row.startswith("S1")]
        status, told = self.check("SUPCO-C", readings=own)
        self.assertIn("\nCredited energy      47 of 48 are as your files give it\n", told)
        self.assertIn("\n  not checked in periods 1: your files have no reading of G1\n", told)
        self.assertEqual(status, 0)
        status, told = self.check("SUPCO-C", prices=FILES["prices"] + [f"{DATE},{number},0" for number in range(2, 11)])
        self.assertIn("\nCharge               10 of 48 are the office's imbalance at your price\n", told)
        self.assertIn("\n  not checked in periods 11 to 48: your files have no price\n", told)
        self.assertEqual(status, 0)

    def test_a_reallocation_that_the_party_does_not_know(self):
        """Its credit, 32.2139968282 MWh, is what the office has more."""
        status, told = self.check("SUPCO-C", reallocations=[])
        self.assertEqual(status, 1)
        self.assertIn("period 1: the office has -98.4360031718 MWh, your files give -130.6500000000 MWh\n", told)

    # Of period 1, on the page: the residual, each account's weight and the sum of all. The residuals of the other periods are 0.
    RESIDUAL, WEIGHTS = -106_263, {"GENCO-P": 669_060_031_718, "LINKCO-P": 0, "SUPCO-C": 1_628_639_968_282}

    def with_statement(self, account, changed=(), weight=0, residual=RESIDUAL, **files):
        """What is said with a statement of the agent, if this is added to the account's weight."""
        lines = []
        for period in range(1, 49):
            known = residual, energy(self.WEIGHTS[account] + weight), energy(2_297_700_000_000)
            known = known if period == 1 else (0, energy(0), energy(0))
            lines.append(f"{DATE},SF,{account},{period},,,,,,0,,{','.join(map(str, known))},,")
        path = self.file("statement.csv", "\n".join([bill.STATEMENT, f"{DATE},R1,{account},1,,,,,,0,,0,0,0,,", *lines]))
        return self.check(account, reply_of(account, changed), statement=path, **files)

    def test_shares_beside_a_statement(self):
        """Each quota has a remainder, except for that of LINKCO-P. So one penny more or less in size may be right, by who got it."""
        for account in FIGURES:
            status, told = self.with_statement(account)
            self.assertEqual((status, told.count("48 of 48")), (0, 8), told)
            self.assertNotIn("Not checked: the shares", told)
        for account, by, is_right in (
            ("GENCO-P", -1, True),
            ("GENCO-P", 1, False),
            ("GENCO-P", -2, False),
            ("SUPCO-C", 1, True),
            ("SUPCO-C", -1, False),
            ("LINKCO-P", 1, False),
            ("LINKCO-P", -1, False),
        ):
            with self.subTest(f"{account} {by}"):
                _, told = self.with_statement(account, {(1, "share_pence"): by})
                self.assertEqual("the statement's residual by weight\n  period 1: the office has" not in told, is_right, told)
        self.assertIn("Share                47 of 48", self.with_statement("GENCO-P", {(2, "share_pence"): 1})[1])
        self.assertIn("gives £309.42 to £309.43\n", self.with_statement("GENCO-P", residual=106_263)[1])
        self.assertIn("Weight               47 of 48", self.with_statement("GENCO-P", weight=1)[1])
        status, told = self.with_statement("SUPCO-C", units=[row for row in FILES["units"] if not row.startswith("G1")])
        self.assertIn("  not checked in periods 1: your files have no row of the unit G1\n", told)
        self.assertEqual(status, 0)

    def test_units_that_change_their_lead_account(self):
        """The last row that is about the date counts. A unit that the party leads on other dates alone isn't one of the bill."""
        own = [row for row in FILES["units"] if not row.startswith("S1")]
        day_before, day_after = "2024-06-30", "2024-07-02"
        for rows, status in (
            (["S1,GENCO,C,no,2024-01-01,", f"S1,SUPCO,C,no,{DATE},"], 0),
            (["S1,SUPCO,C,no,2024-01-01,", f"S1,GENCO,C,no,{day_after},"], 0),
            (["S1,SUPCO,C,no,2024-01-01,", f"S1,GENCO,C,no,{DATE},"], 1),
            (["S1,GENCO,C,no,2024-01-01,", f"S1,SUPCO,C,no,{day_before},", f"S1,SUPCO,P,no,{DATE},"], 1),
        ):
            with self.subTest(rows):
                self.assertEqual(self.with_statement("SUPCO-C", units=[*own, *rows])[0], status)

    def test_the_statement_is_the_one_of_look(self):
        self.assertEqual(bill.STATEMENT, statement.CSV)

    def test_days_and_roundings(self):
        self.assertEqual([bill.near(number, 10) for number in (5, -5, 4, -4, 0, 15)], [1, -1, 0, 0, 0, 2])
        dates = "2024-03-31", DATE, "2024-10-27", "2024-10-20", "2024-03-30"
        self.assertEqual([bill.periods_of(date) for date in dates], [46, 48, 50, 48, 48])

    def test_wrong_words_and_files(self):
        """One line names what and where."""
        good = {kind: self.file(f"{kind}.csv", "\n".join([bill.HEADERS[kind], *rows]) + "\n") for kind, rows in self.files.items()}
        reply = self.file("reply.json", json.dumps(reply_of("SUPCO-C")))

        def told(account="SUPCO-C", date=DATE, **other):
            words = [word for name, path in {"reply": reply, **good, **other}.items() for word in (f"--{name}", path)]
            status, out, error = self.bill(account, date, *words)
            self.assertEqual(out, "")
            return status, error.splitlines()[-1].replace(str(self.room), "")

        wrong = self.file("wrong.csv", f"{bill.HEADERS['prices']}\n{DATE},1,5.123456\n")
        price = 'price is "5.123456", expected a decimal with at most 5 digits behind the point'
        self.assertEqual(told(prices=wrong), (1, f"bill: /wrong.csv: row 1: {price}"))
        self.assertEqual(told(units=wrong), (1, f"bill: /wrong.csv: its header isn't {bill.HEADERS['units']}"))
        short = self.file("short.csv", f"{bill.HEADERS['prices']}\n\n{DATE},1\n")
        self.assertEqual(told(prices=short), (1, "bill: /short.csv: row 1 has 2 fields, expected 3"))
        self.assertEqual(told(prices=str(self.room / "none")), (1, "bill: /none: No such file or directory"))
        self.assertEqual(told(reply=short), (1, "bill: /short.csv: it is no reply about an account"))
        for name, value in (("net_pence", "1"), ("periods", {}), ("periods", [{}]), ("kind", None)):
            other = self.file("other.json", json.dumps({**reply_of("SUPCO-C"), name: value}))
            self.assertEqual(told(reply=other), (1, "bill: /other.json: it is no reply about an account"))
        other = self.file("statement.csv", f"{bill.STATEMENT}\n{DATE},R1,SUPCO-C,1,,,,,,0,,0,0,0,,\n")
        self.assertEqual(told(statement=other), (1, f"bill: /statement.csv: it has no line of SUPCO-C, {DATE}, SF, period 1"))
        self.assertEqual(told(account="GENCO-P"), (1, f"bill: /reply.json: it is of SUPCO-C on {DATE}"))
        self.assertEqual(told(account="GENCO"), (2, f'bill.py: error: "GENCO" is no account, as CITYSUP-P or CITYSUP-C'))
        for date in ("2024-02-30", "20240701", "2024-7-1"):
            self.assertEqual(told(date=date), (2, f'bill.py: error: "{date}" is no date'))
        self.assertEqual(told(office="http://a"), (2, f"bill.py: error: give --office with --key-file, or --reply"))


def market_rows(name):
    """The rows of a file of the example market."""
    return list(csv.DictReader((MARKET / f"{name}.csv").read_text(encoding="utf-8").splitlines()))


class TheMarket(Checking):
    """The example market, which the program serves."""

    def setUp(self):
        super().setUp()
        need(SETTLE)
        script = (MARKET / "serve.script").read_text(encoding="utf-8").replace(" 8080 ", " 0 ")
        counts = (4, 5, 126, 56, 48, 240)
        self.served = Served(self, self.file("script", script), OPERATOR, [f"applied={count} late=0" for count in counts])
        self.address = f"http://127.0.0.1:{self.served.port}"
        self.office = gaugepoppy.Office(self.address, OPERATOR, pauses=())

    def files(self, **changed):
        """The words for all files of the market, as the party has them."""
        kinds = {"units": "units", "readings": "meters", "contracts": "contracts", "prices": "prices", "reallocations": "reallocations"}
        return [word for kind, name in kinds.items() for word in (f"--{kind}", MARKET / f"{name}.csv", *changed.get(kind, ()))]

    def test_the_six_calls(self):
        """Each has the reply that docs/openapi.yaml shows."""
        file = (MARKET / "meters-2.csv").read_bytes()
        self.assertEqual(self.office.run(DATE, "SF")["postings"], 5)
        found = {
            "loadFile": self.office.load("meters", "meters-2.csv", file),
            "makeRun": self.office.run(DATE, "SF"),
            "R1": self.office.run(DATE, "R1"),
            "getAccount": self.office.account("CITYSUP-C", DATE),
            "getBalance": self.office.balance("CITYSUP-C"),
            "getContracts": self.office.contracts("TRADECO-C", DATE),
            "getRuns": self.office.runs(DATE),
        }
        description = Description()
        for _, _, operation in description.operations():
            reply = json.loads(json.dumps(found[operation["operationId"]], default=lambda number: f"{number:f}"))
            with self.subTest(operation["operationId"]):
                self.assertTrue(shows(description.example_reply(operation["responses"]["200"]), reply), reply)

    def test_refusals(self):
        """Each with its places: they are those of docs/http.md."""
        office, rows = self.office, b"date,period,price\n2024-07-02,1,50\n2024-07-02,2,5.1234567\n"
        party = gaugepoppy.Office(self.address, "citysupkey1", pauses=())
        nobody = gaugepoppy.Office(self.address, "", pauses=())
        prices = "\n".join(["date,period,price", *(f"2024-07-02,{number},50" for number in range(1, 49))]).encode()
        office.load("prices", "july-2.csv", prices)
        for ask, status, places in (
            (lambda: office.load("prices", "july.csv", rows), 400, (14, 2, 3, None, None)),
            (lambda: office.load("prices", "july.csv", b"date,period,price\n2024-07-02,49,5\n"), 422, (34, 1, None, None, None)),
            (lambda: office.run("2024-07-02", "SF"), 409, (54, None, None, "2__HOMES", 1)),
            (lambda: party.balance("TRADECO-C"), 403, (60, None, None, None, None)),
            (lambda: nobody.balance("CITYSUP-C"), 403, (60, None, None, None, None)),
            (lambda: party.account("CITYSUP-C", "2024-07-02"), 404, (63, None, None, None, None)),
            (lambda: office.load("prices", "a/b ?%\n", rows), 404, (61, None, None, None, None)),
            (lambda: office.load("meters", "large.csv", bytes(1_048_577)), 413, (66, None, None, None, None)),
        ):
            with self.assertRaises(gaugepoppy.Refused) as raised:
                ask()
            found = raised.exception
            self.assertEqual((found.status, (found.number, found.row, found.column, found.unit, found.period)), (status, places))

    def test_an_answer_that_is_lost_on_its_way(self):
        """A run and a file are asked for again. They count once, and get their first replies."""
        def passed_on(request, number):
            reply = self.served.ask(request)
            return reply if number % 3 == 2 else reply[: len(reply) * (number % 3) // 2]

        office = gaugepoppy.Office(StandIn(self, passed_on).address, OPERATOR, pauses=(0, 0))
        self.assertEqual(office.run(DATE, "SF")["postings"], 5)
        self.assertEqual(office.load("meters", "meters-2.csv", (MARKET / "meters-2.csv").read_bytes()), {"applied": 2, "late": 0})
        self.assertEqual(office.run(DATE, "R1")["postings"], 3)
        self.assertEqual(self.office.runs(DATE)["runs"], ["SF", "R1"])
        self.assertEqual(self.office.balance("CITYSUP-C")["moved_pence"], 3_136_106)

    def test_each_account_of_the_market_agrees(self):
        """With all files. So does a reply that is kept, once a later run is made."""
        self.office.run(DATE, "SF")
        key = self.file("key", f"{OPERATOR}\n")
        accounts = [f"{row['party']}-{side}" for row in market_rows("parties") for side in "PC"]
        self.assertEqual(len(accounts), 8)
        for account in accounts:
            with self.subTest(account):
                words = "--office", self.address, "--key-file", key, *self.files(), "--keep", self.room
                status, told, error = self.bill(account, DATE, *words)
                self.assertEqual((status, error, told.count("48 of 48")), (0, "", 6), told)
        self.office.load("meters", "meters-2.csv", (MARKET / "meters-2.csv").read_bytes())
        self.office.run(DATE, "R1")
        status, told, _ = self.bill("CITYSUP-C", DATE, "--reply", self.room / f"CITYSUP-C-{DATE}-SF.json", *self.files())
        self.assertEqual((status, told.partition("\n")[0]), (0, f"CITYSUP-C, {DATE}, run SF: pays £31,722.23"))

    def test_a_row_that_is_other_than_the_office_s(self):
        """It is found in its period, in the check that it belongs to."""
        self.office.run(DATE, "SF")
        key = self.file("key", "citysupkey1\n")
        for kind, row, called, amount in (
            ("readings", f"2__SHOPS,{DATE},7,-50.000,1.0108000,0", "Credited energy", 1),
            ("readings", f"2__SHOPS,{DATE},7,-50.000,1.0108000,1.000", "Balancing volume", 1),
            ("contracts", f"NEW,TRADECO-P,CITYSUP-C,{DATE},7,1.5", "Contracts", 1),
            ("contracts", f"NEW,TRADECO-P,CITYSUP-C,{DATE},7,1.5", "In force", 1),
            ("contracts", f"NEW,TRADECO-P,CITYSUP-P,{DATE},7,1.5", "Contracts", 0),
            ("prices", f"{DATE},7,51.00000", "Charge", 1),
        ):
            with self.subTest(f"{kind} {called}"):
                other = self.file("other.csv", f"{bill.HEADERS[kind]}\n{row}\n")
                words = "--office", self.address, "--key-file", key, *self.files(**{kind: (other,)})
                status, told, error = self.bill("CITYSUP-C", DATE, *words)
                self.assertEqual((status, error), (amount, ""))
                behind = told.partition(f"\n{called} ")[2].split("\n", 1)[1]
                self.assertEqual(behind.startswith("  period 7: "), bool(amount), told)

    def test_what_the_office_refuses(self):
        key = self.file("key", "tradecokey1\n")
        words = "--office", self.address, "--key-file", key, *self.files()
        self.assertEqual(self.bill("CITYSUP-C", DATE, *words), (1, "", "bill: refused 60 Forbidden\n"))
        self.assertEqual(self.bill("TRADECO-C", DATE, *words), (1, "", "bill: refused 63 NoRun\n"))

    def test_the_page(self):
        """The commands of examples/README.md print what stands there. The party's files have the market's rows."""
        text = (HOME / "examples/README.md").read_text(encoding="utf-8").partition("\n## A client\n")[2]
        blocks = BLOCK.findall(text)
        lines, shown_run, command, printed = blocks[:4]
        kept = io.StringIO()
        with contextlib.redirect_stdout(kept), contextlib.chdir(HOME):
            exec(lines.replace("http://127.0.0.1:8080", self.address), {})
        self.assertEqual(kept.getvalue(), shown_run)
        key = self.file("city.key", "citysupkey1\n")
        words = shlex.split(command.replace("\\\n", " ").replace("http://127.0.0.1:8080", self.address).replace("city.key", key))
        self.assertEqual(words[:2], ["python3", "examples/client/bill.py"])
        with contextlib.chdir(HOME):
            self.assertEqual(self.bill(*words[2:]), (1, printed, ""))

    def test_the_charge_of_the_page_by_hand(self):
        """The worth of the two corrected readings: the difference of the energies at the price, each rounded to a penny."""
        rows = {name: market_rows(name) for name in ("meters", "meters-2", "prices")}
        printed = (HOME / "examples/README.md").read_text(encoding="utf-8")
        for row in rows["meters-2"]:
            (first,) = [one for one in rows["meters"] if all(one[name] == row[name] for name in ("unit", "date", "period"))]
            (price,) = [one["price"] for one in rows["prices"] if one["period"] == row["period"]]
            pounds = (float(row["metered_mwh"]) - float(first["metered_mwh"])) * float(row["tlm"]) * float(price)
            self.assertIn(f"Period {row['period']} charges £{pounds:.2f} more than your files give\n", printed)


class PartyFiles(unittest.TestCase):
    needs_programs = False

    def test_they_have_the_market_s_rows(self):
        """Readings as they are corrected, and the contracts of CITYSUP."""
        lines = [line for name in ("meters", "meters-2") for line in (MARKET / f"{name}.csv").read_text().splitlines()]
        last = {line.rsplit(",", 3)[0]: line for line in lines if line.startswith("2__")}
        own = (HOME / "examples/client/readings.csv").read_text().splitlines()
        self.assertEqual(own, [bill.HEADERS["readings"], *last.values()])
        lines = (MARKET / "contracts.csv").read_text().splitlines()
        own = (HOME / "examples/client/book.csv").read_text().splitlines()
        self.assertEqual(own, [lines[0], *(line for line in lines if "CITYSUP-" in line)])


if __name__ == "__main__":
    unittest.main()
