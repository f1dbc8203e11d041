"""Connections that `settle serve --db` serves: clients of an office in a database file get the same answers as clients of one
in memory, and what they bring is kept in the file."""
import json
import subprocess
import time
import unittest

import test_serving
from programs import SETTLE
from test_commands import FIRST, AtAFile, date_in, midnight, results_of
from test_database import changed_by, content_of, rows_of
from test_desk import DAY, END, MARKET, NEXT_END, OPERATOR, text_of
from test_reports import RESULTS, report
from test_serving import refusal, reply, request


class Serving(AtAFile):
    """Connections are served by `serve --db`, over an office to which a script has been run."""

    def serve(self, count, *lines, moment=NEXT_END, before=None, operator=OPERATOR):
        """Serves this many connections over an office after these lines were run. After it has ended, `rest` asks what these
        lines ask."""
        self.init(operator=operator)
        before = [*self.market(), self.order("SF", END), self.dearer(), self.order("R1")] if before is None else before
        self.assertEqual(self.run_script_at("".join(f"{line}\n" for line in before))[::2], (0, b""))
        self.lines = lines
        self.begin(f"--count={count}", f"--at={moment}")

    def begin(self, *options):
        """Begins to serve, and reads on which port."""
        words = [SETTLE, "serve", "--db", str(self.database), "--port", "0", *options]
        self.program = subprocess.Popen(words, bufsize=0, stdout=subprocess.PIPE, stderr=subprocess.PIPE)
        told = self.program.stdout.readline().decode()
        self.assertRegex(told, r"\Alistening 127\.0\.0\.1:[1-9][0-9]*\n\Z")
        self.port = int(told.strip().rpartition(":")[2])

    def rest(self):
        """What the further lines tell after all connections were served."""
        written, told = self.program.communicate(timeout=60)
        self.assertEqual((self.program.returncode, written, told), (0, b"", b""))
        self.is_sound()
        made = [self.asks(line) for line in self.lines]
        return b"".join(written + told for _, written, told in made).decode().splitlines()

    def tearDown(self):
        self.stop()
        self.is_sound()


# Clients of an office in a file get the same answers as clients of one in memory, byte by byte.
class Replies(Serving, test_serving.Replies):
    pass


class Bytes(Serving, test_serving.Bytes):
    pass


class Waits(Serving, test_serving.Waits):
    """How long clients delay the next one, measured: no longer than docs/http.md says."""

    # By how much this machine may be late when it is busy.
    LATE = 4

    def tearDown(self):
        """The services are still running, each with its file."""

    def begin_service(self, before=None):
        self.offices = getattr(self, "offices", 0) + 1
        self.database = self.room / f"office{self.offices}.db"
        return super().begin_service(before)

    def stalls(self, client):
        """It sends half a head and then nothing, and is dropped without a reply."""
        client.sendall(b"GET /balances/SUPCO-C HTTP/1.1\r\nHost: lo")
        self.assertEqual(self.read(client), b"")

    def stays_for_a_while(self, client):
        """It is silent for three seconds, and closes."""
        time.sleep(3)
        client.close()

    def test_how_long_others_wait(self):
        """A client that stalls delays them for ten seconds, and eleven at most. One that sends a byte now and then delays them
        for thirty, and 31 at most. A hundred that connect are all served, and delay them for as long as they stay."""
        holds = (self.stalls, 1), (self.sends_now_and_then, 1), (self.stays_for_a_while, 100)
        waits = self.waits_of([(self.begin_service(before=[]), hold, count) for hold, count in holds])
        for wait, least, most in zip(waits, (9, 29, 2), (11, 31, 4)):
            self.assertTrue(least < wait < most + self.LATE, waits)


class Kept(Serving, test_serving.Served):
    """What is served is kept."""

    def test_the_rows(self):
        self.serve(3, report("csv"), moment=END, before=self.market())
        rows = text_of("contracts", [f"C2,GENCO-P,SUPCO-C,{DAY},2,0.000"])
        loaded = reply(200, '{"applied":0,"late":1}')
        self.assertEqual(self.ask(request("POST", "/files/contracts/c2.csv", OPERATOR, rows)), loaded)
        body = f'{{"accounts":4,"date":"{DAY}","kind":"SF","periods":48,"postings":2,"residual_pence":5050}}'
        self.assertEqual(self.ask(request("POST", f"/runs/{DAY}/SF", OPERATOR)), reply(200, body))
        self.assertEqual(self.ask(request("GET", "/balances/SUPCO-C", "supco0001")), reply(200, '{"account":"SUPCO-C","moved_pence":-38}'))
        self.assertEqual(self.rest(), RESULTS.splitlines())
        self.assertEqual(rows_of(self.database, "results"), results_of(0, FIRST, 5_000_000))
        self.assertIn(("contracts", "c2.csv", rows, 0, 1), rows_of(self.database, "files"))

    def test_a_row_off_its_range(self):
        """What needs it is answered with 91, and everything else as usual."""
        self.init()
        self.run_script_at("".join(f"{line}\n" for line in self.market()))
        changed_by(self.database, "UPDATE contracts SET kwh = 10000001")
        self.lines = ()
        self.begin("--count=2", f"--at={NEXT_END}")
        body = refusal(91, "Store")
        self.assertEqual(len(body), 29)
        self.assertEqual(self.ask(request("GET", f"/contracts/GENCO-P/{DAY}", OPERATOR)), reply(503, body))
        moved = '{"account":"GENCO-P","moved_pence":0}'
        self.assertEqual(self.ask(request("GET", "/balances/GENCO-P", OPERATOR)), reply(200, moved))
        self.assertEqual(self.rest(), [])

    def test_balances_before_and_after_each_run(self):
        """What was posted is read once, and again after a run or a file has come."""
        balances = []

        def ask_balances():
            balances.append([self.ask(request("GET", f"/balances/{account}", OPERATOR)) for account in ("SUPCO-C", "GENCO-P")])

        self.serve(11, before=self.market())
        ask_balances()
        self.ask(request("POST", f"/runs/{DAY}/SF", OPERATOR))
        ask_balances()
        self.ask(request("POST", "/files/prices/p2.csv", OPERATOR, text_of("prices", [f"{DAY},1,60.00000"])))
        ask_balances()
        self.ask(request("POST", f"/runs/{DAY}/R1", OPERATOR))
        ask_balances()
        moved = [[reply(200, f'{{"account":"{account}","moved_pence":{sign * pence}}}') for account, sign in (("SUPCO-C", -1), ("GENCO-P", 1))] for pence in (0, 38, 38, 45)]
        self.assertEqual(balances, moved)
        self.assertEqual(self.rest(), [])

    def test_none_is_served(self):
        self.init_market()
        before = content_of(self.database)
        status, written, told = self.command("serve", "--port", "0", "--count", "0", timeout=60)
        self.assertEqual((status, told), (0, b""))
        self.assertRegex(written, rb"\Alistening 127\.0\.0\.1:[1-9][0-9]*\n\Z")
        self.assertEqual(content_of(self.database), before)

    def test_without_a_count(self):
        """It continues to serve."""
        self.init_market()
        self.begin("--at=5")
        for _ in range(20):
            self.assertEqual(self.ask(request("GET", f"/runs/{DAY}", OPERATOR)), reply(200, f'{{"date":"{DAY}","runs":[]}}'))
        self.assertIsNone(self.program.poll())

    def test_a_port_that_is_asked_for(self):
        self.init_market()
        self.begin("--count=0")
        self.program.communicate(timeout=60)
        for _ in range(20):
            made = self.command("serve", f"--port={self.port}", "--count=0", timeout=60)
            if made[0] == 0:
                break
            time.sleep(0.1)
        self.assertEqual(made, (0, f"listening 127.0.0.1:{self.port}\n".encode(), b""))

    def test_the_clock(self):
        """A request counts at the moment when it comes: what is for two days before is late, and what is for two days ahead is
        not."""
        self.init_market()
        self.begin("--count=3")
        for days, body in ((-2, '{"applied":0,"late":1}'), (2, '{"applied":1,"late":0}')):
            rows = text_of("contracts", [f"C1,GENCO-P,SUPCO-C,{date_in(days)},1,1.000"])
            self.assertEqual(self.ask(request("POST", f"/files/contracts/{days}.csv", OPERATOR, rows)), reply(200, body))
        got = self.ask(request("POST", f"/runs/{date_in(2)}/SF", OPERATOR)).partition(b"\r\n\r\n")[2]
        self.assertEqual(json.loads(got), {"name": "DayNotOver", "refused": 52})

    def test_the_moment_of_a_turn(self):
        """Two clients connect before a deadline. The first has its turn at once, sends its contract after the deadline has
        passed, and is in time. The other sends its contract at once, and is late, because its turn comes after the deadline."""
        start, lead, deadline = deadline_ahead()
        date, period = next((date, 1 + (start - midnight(date)) // 1800) for date in map(date_in, (1, 0, -1)) if midnight(date) <= start)
        self.init("--lead-minutes", lead)
        self.answers(self.load(*MARKET[0]), "applied=2 late=0")
        self.begin("--count=2")
        first, second = (
            request("POST", f"/files/contracts/{name}", OPERATOR, text_of("contracts", [f"{name},GENCO-P,SUPCO-C,{date},{period},1.000"]))
            for name in ("FIRST", "SECOND")
        )
        time.sleep(max(0, deadline - 4 - time.time()))
        with self.connect() as early, self.connect() as waits:
            early.sendall(first[:20])
            waits.sendall(second)
            self.assertLess(time.time(), deadline - 1, "this machine was too slow for the test")
            time.sleep(deadline + 1 - time.time())
            early.sendall(first[20:])
            self.assertEqual(self.read(early), reply(200, '{"applied":1,"late":0}'))
            self.assertEqual(self.read(waits), reply(200, '{"applied":0,"late":1}'))
        self.assertEqual(self.program.communicate(timeout=60), (b"", b""))


def deadline_ahead():
    """When a Settlement Period begins, a lead in minutes by which its deadline is between seven seconds and a minute ahead, and
    this deadline."""
    now = time.time()
    start = (int(now) // 1800 + 1) * 1800
    if start - now < 7:
        start += 1800
    lead = int(start - now - 7) // 60
    return start, lead, start - 60 * lead


if __name__ == "__main__":
    unittest.main()
