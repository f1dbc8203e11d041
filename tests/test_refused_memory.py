"""Calls that are refused memory, in one process each. The first growth of memory that a call makes is refused, then the second,
and so on until none is refused. After the first 300, only every 61st is. `hh_bench refuse` does this from inside, by the office's
own calls, over tables in memory and in a database file. It checks everything that the tables tell before and after each try, and
whether a growth was refused at all. The built `settle` is tried by lines of scripts, also over both kinds of tables.

Each try must get its right answer, or the answer that memory was refused, and then nothing may have changed. The right answers
are the market's worked figures. The library that refuses memory, `failing_malloc.c`, is built by a C compiler."""
import os
import pathlib
import re
import shutil
import socket
import subprocess
import tempfile
import unittest

from programs import BENCH, SETTLE, need, refusing_library
from test_desk import DAY, DEADLINE, EARLY, LEADS_CHANGE, MARKET, NEXT_END, OPERATOR, text_of
from test_reports import BALANCES, DAY_REPORT, RESULTS
from test_serving import BAD, GENCO, MOVED, NO_ROUTE, RUNS, SUPCO, refusal, reply, request

PATIENCE = 600
EACH, STEP = 300, 61
HEAD = re.compile(rb"call ([0-9]+) refused ([0-9]+) done-without ([0-9]+) moved ([0-9]+) bytes ([0-9]+)\n")
NO_MEMORY = reply(503, refusal(90, "Memory"))
FORBIDDEN = reply(403, refusal(60, "Forbidden"))


def head_of(answer):
    """A reply without its body, as HEAD gets it."""
    return answer.partition(b"\r\n\r\n")[0] + b"\r\n\r\n"


def loaded(kind, name, rows, moment=EARLY, key=OPERATOR):
    """A file that is sent: its moment and the request."""
    return moment, request("POST", f"/files/{kind}/{name}", key, text_of(kind, rows))


def applied(count):
    return reply(200, f'{{"applied":{count},"late":0}}')


def ordered(kind, residual):
    """A run that is ordered, and the reply to it."""
    body = f'{{"accounts":4,"date":"{DAY}","kind":"{kind}","periods":48,"postings":2,"residual_pence":{residual}}}'
    return (NEXT_END, request("POST", f"/runs/{DAY}/{kind}", OPERATOR)), reply(200, body)


def asked(path, key, wanted):
    """An enquiry, and the reply to it."""
    return (EARLY, request("GET", path, key)), wanted


def account_body():
    """What GENCO-P has in R1: at 60 pounds it is paid 3,000 pence for half a megawatt hour, and bears 3,045."""

    def period(number, credited="0", contracts="0", imbalance="0.0", charge=0, share=0):
        energy = lambda text: text + "." * ("." not in text) + "0" * (10 - len(text.partition(".")[2]))
        return (
            f'{{"balancing":"0.0000000000","charge_pence":{charge},"contracts":"{energy(contracts)}","credited":"{energy(credited)}",'
            f'"imbalance":"{energy(imbalance)}","period":{number},"share_pence":{share}}}'
        )

    rows = [period(1, "99.5", "99", "0.5", -3000, 3045), *(period(number) for number in range(2, 49))]
    return f'{{"account":"GENCO-P","date":"{DAY}","kind":"R1","net_pence":45,"periods":[{",".join(rows)}]}}'


CONTRACT = '{"counterparty":"SUPCO-C","mwh":"99.000","period":1,"reference":"C1","role":"seller"}'
# What is asked of an office, one after the other: each with its moment and its reply. A contract of 98 MWh replaces the
# market's 99 a second before its deadline, and then one of 99 replaces it. After the runs a unit gets a wider range, and two get other
# lead accounts.
CHANGES = [
    *(
        (loaded(kind, f"f{number}.csv", rows), applied(len(rows)))
        for number, (kind, rows) in enumerate(MARKET, 1)
    ),
    (loaded("contracts", "c11.csv", [f"C1,GENCO-P,SUPCO-C,{DAY},1,98.000"], DEADLINE - 1), applied(1)),
    (loaded("contracts", "c12.csv", [f"C1,GENCO-P,SUPCO-C,{DAY},1,99.000"]), applied(1)),
    ordered("SF", 5050),
    (loaded("prices", "p2.csv", [f"{DAY},1,60.00000"]), applied(1)),
    ordered("R1", 6060),
    (loaded("units", "u2.csv", LEADS_CHANGE), applied(len(LEADS_CHANGE))),
]
ENQUIRIES = [
    asked(f"/accounts/GENCO-P/{DAY}", GENCO, reply(200, account_body())),
    asked("/balances/SUPCO-C", SUPCO, reply(200, MOVED)),
    asked(f"/contracts/GENCO-P/{DAY}", GENCO, reply(200, f'{{"account":"GENCO-P","contracts":[{CONTRACT}],"date":"{DAY}"}}')),
    asked(f"/runs/{DAY}", SUPCO, reply(200, RUNS)),
    asked("/balances/SUPCO-C", GENCO, FORBIDDEN),
    (
        loaded("contracts", "c13.csv", [f"C1,GENCO-P,SUPCO-C,{DAY},1,1", f"C2,GENCO-P,GENCO-P,{DAY},1,1"]),
        reply(422, refusal(35, "SameAccount", behind=',"row":2')),
    ),
]
REPORTS = [
    ((0, f"report {OPERATOR} day {DAY} SF\n".encode()), DAY_REPORT.encode()),
    ((0, f"report {OPERATOR} csv {DAY} SF\n".encode()), RESULTS.encode()),
    ((0, f"report {OPERATOR} balances\n".encode()), BALANCES.replace("38", "45").encode()),
    *(((0, f"report {OPERATOR} {form} {DAY} R3\n".encode()), reply(404, refusal(63, "NoRun"))) for form in ("day", "csv")),
]
# Bytes that are no request, or a request that no office has.
REFUSED = [
    ((0, request("GET", "/nowhere", OPERATOR)), NO_ROUTE),
    ((0, request("DELETE", "/balances/SUPCO-C", OPERATOR)), reply(405, refusal(62, "BadMethod"), "Allow: GET\r\n")),
    ((0, request("POST", "/files/meters/a.csv", OPERATOR)), reply(411, refusal(64, "LengthRequired"))),
    ((0, b"GET /"), BAD),
]
# What can be answered without memory: a balance, and what is forbidden, for tables in memory; and bytes that are no head.
TAKE_NONE = [ENQUIRIES[1], ENQUIRIES[4], REFUSED[-1]]
# The calls by which these are asked, and what is asked by each.
WAYS = {
    "handle": [*CHANGES, *ENQUIRIES, *REPORTS],
    "serve": [*CHANGES, *ENQUIRIES, *REFUSED],
    "together": [*CHANGES, *ENQUIRIES],
}
# If two requests are run together, one may be handled and the other refused. Then the tables are made again, which takes long
# in a file. So over a file only a file is loaded, and an office without runs is asked.
TOGETHER_IN_A_FILE = [
    CHANGES[0],
    asked(f"/runs/{DAY}", SUPCO, reply(200, f'{{"date":"{DAY}","runs":[]}}')),
    asked("/balances/SUPCO-C", SUPCO, reply(200, MOVED.replace("-45", "0"))),
    asked("/balances/SUPCO-C", GENCO, FORBIDDEN),
]


def asked_of(way, store):
    """What is asked by a way of an office whose tables are kept there."""
    return TOGETHER_IN_A_FILE if way == "together" and store != "memory" else WAYS[way]


class WithRefusals(unittest.TestCase):
    """A test with a folder of its own and the library that refuses memory."""

    def setUp(self):
        if shutil.which("cc") is None:
            self.skipTest("no C compiler `cc` is on the path, so memory was not refused")
        room = tempfile.TemporaryDirectory()
        self.addCleanup(room.cleanup)
        self.room = pathlib.Path(room.name)
        self.library = refusing_library(self.room)

    def environment(self, log):
        return dict(os.environ, LD_PRELOAD=self.library, FAIL_LOG=str(log))


class FromInside(WithRefusals):
    """The office's own calls, by `hh_bench refuse`."""

    def setUp(self):
        super().setUp()
        need(BENCH)

    def words(self, way, how, store):
        """The words of the command, with a file for each thing that is asked."""
        words = ["refuse", way, how, store]
        for number, ((moment, sent), _) in enumerate(asked_of(way, store)):
            path = self.room / f"{way}{number}"
            path.write_bytes(sent)
            words += [str(moment), str(path)]
        return words

    def run_bench(self, words, library=True):
        how = {"env": self.environment(self.room / "log")} if library else {}
        made = subprocess.run([BENCH, *words], stdin=subprocess.DEVNULL, capture_output=True, timeout=PATIENCE, **how)
        return made.returncode, made.stdout, made.stderr

    def told(self, way, how, store, library=True):
        """For each answer the number of its call, what came of the tries of that call, and its bytes."""
        status, written, told = self.run_bench(self.words(way, how, store), library)
        self.assertEqual((status, told), (0, b""), (way, how, store, written[-200:]))
        found = []
        while written:
            head = HEAD.match(written)
            self.assertIsNotNone(head, written[:80])
            call, refused, done_without, moved, size = (int(number) for number in head.groups())
            written = written[head.end() :]
            found.append((call, {"refused": refused, "done_without": done_without, "moved": moved}, written[:size]))
            written = written[size:]
        return found

    def tried(self, way, how, store, library=True):
        """What came of the tries of each call. Each answer must be the right one."""
        found = self.told(way, how, store, library)
        times = 2 if way == "together" else 1
        wanted = [(call, answer) for call, (_, answer) in enumerate(asked_of(way, store), 1) for _ in range(times)]
        self.assertEqual([(call, answer) for call, _, answer in found], wanted)
        return {call: tries for call, tries, _ in found}

    def stores(self):
        return "memory", str(self.room / "office.db")

    def sweep(self, way):
        """Each call by a way, over both kinds of tables, with one growth refused and with all later ones refused as well."""
        for store in self.stores():
            for how in ("once", "on"):
                with self.subTest(way, store=store, how=how):
                    for call, tries in self.tried(way, how, store).items():
                        if asked_of(way, store)[call - 1] not in TAKE_NONE:
                            self.assertGreater(tries["refused"], 0, call)
                        if how == "on":
                            self.assertEqual(tries["done_without"], 0, (call, tries))

    def test_requests_that_are_handled(self):
        self.sweep("handle")

    def test_clients_that_are_served(self):
        self.sweep("serve")

    def test_requests_that_are_run_together(self):
        self.sweep("together")

    def test_ample_memory(self):
        """No call tells that memory was refused if it was not, and none needs the library that refuses memory."""
        for way in WAYS:
            for store in self.stores():
                with self.subTest(way, store=store):
                    for call, tries in self.tried(way, "once", store, library=False).items():
                        self.assertEqual(tries, {"refused": 0, "done_without": 0, "moved": 0}, call)

    def test_words(self):
        for words in (["refuse"], ["refuse", "handle", "once"], ["refuse", "x", "once", "memory"], ["refuse", "handle", "x", "memory"]):
            self.assertEqual(self.run_bench(words, library=False)[0], 2, words)
        self.assertEqual(self.run_bench(["refuse", "handle", "once", "memory", "0"], library=False)[0], 2)
        self.assertEqual(self.run_bench(["refuse", "handle", "once", "memory", "now", "/nowhere"], library=False)[0], 2)
        self.assertEqual(self.run_bench(["refuse", "handle", "once", "memory", "0", "/nowhere"], library=False)[0], 1)


class FromOutside(WithRefusals):
    """Clients of the built `settle`. The lines of its script say which growth is refused while it serves each of them. A line
    that loads a file whose path tells that to the library is answered `fault file`."""

    MOST = [*range(1, EACH), *range(EACH, 3_000, STEP)]
    LISTENING = re.compile(r"listening 127\.0\.0\.1:([0-9]+)\n")

    def setUp(self):
        super().setUp()
        need(SETTLE)
        self.log = self.room / "log"

    def path(self, name, data):
        (self.room / name).write_bytes(data)
        return self.room / name

    def lines(self, how):
        """The market is loaded and settled. Then a client is served for each growth that is refused."""
        for number, (kind, rows) in enumerate(MARKET, 1):
            yield f"load {EARLY} {OPERATOR} {kind} {self.path(f'f{number}.csv', text_of(kind, rows))}"
        yield f"run {NEXT_END} {OPERATOR} {DAY} SF"
        for number in self.MOST:
            yield f"load 0 {OPERATOR} meters /refused-memory/{how}/{number}"
            yield f"serve {EARLY} 0 1"
            yield f"load 0 {OPERATOR} meters /refused-memory/asked"

    def options(self, store):
        """How a script is given an office in memory, or one in a new database file."""
        if store == "memory":
            return ["--operator-key", OPERATOR]
        database = str(self.room / f"{store}.db")
        subprocess.run([SETTLE, "init", "--db", database, "--operator-key", OPERATOR], check=True, capture_output=True)
        return ["--db", database]

    def start(self, store, how):
        """A script that waits for the first of its clients."""
        self.log.unlink(missing_ok=True)
        script = self.path("script", "".join(f"{line}\n" for line in self.lines(how)).encode())
        words = [SETTLE, "script", *self.options(store), str(script)]
        program = subprocess.Popen(
            words, bufsize=0, stdin=subprocess.DEVNULL, stdout=subprocess.PIPE, env=self.environment(self.log)
        )
        for clean in (program.stdout.close, program.wait, program.kill):
            self.addCleanup(clean)
        for _ in range(len(MARKET) + 1):
            program.stdout.readline()
        return program

    def served(self, program, place, sent):
        """The reply to the client at this place, and how many growths were refused for it. Each client has two lines in the
        log, and its own is the second. By then the program may have come to the next."""
        self.assertEqual(program.stdout.readline(), b"fault file\n")
        told = self.LISTENING.fullmatch(program.stdout.readline().decode())
        with socket.create_connection(("127.0.0.1", int(told[1])), timeout=60) as client:
            client.sendall(sent)
            got = b"".join(iter(lambda: client.recv(65_536), b""))
        self.assertEqual(program.stdout.readline(), b"fault file\n")
        return got, int(self.log.read_text().splitlines()[2 * place + 1].split()[1])

    def sweep(self, store, how, sent, wanted):
        """Each reply is the right one; or it tells that memory was refused, if it was; or there is none, because memory for it
        was refused. HEAD gets the head alone of either."""
        program, shown = self.start(store, how), 0
        no_memory = head_of(NO_MEMORY) if sent.startswith(b"HEAD ") else NO_MEMORY
        for place, number in enumerate(self.MOST):
            got, refusals = self.served(program, place, sent)
            if refusals == 0:
                self.assertEqual(got, wanted, number)
                self.assertGreater(shown, 0)
                program.kill()
                return
            self.assertIn(got, (wanted, no_memory, b""), number)
            shown += got == no_memory
        self.fail("memory was always refused")

    def test_clients(self):
        price = request("POST", "/files/prices/p2.csv", OPERATOR, text_of("prices", [f"{DAY},1,60.00000"]))
        cases = [
            (request("GET", "/balances/SUPCO-C", SUPCO), reply(200, MOVED.replace("45", "38"))),
            (price, applied(1)),
            (request("POST", f"/runs/{DAY}/R1", OPERATOR), reply(409, refusal(52, "DayNotOver"))),
            (request("HEAD", f"/runs/{DAY}", SUPCO), head_of(reply(405, refusal(62, "BadMethod"), "Allow: GET\r\n"))),
        ]
        for place, (sent, wanted) in enumerate(cases):
            for how in ("once", "on"):
                for store in ("memory", f"office{place}{how}"):
                    with self.subTest(sent, store=store, how=how):
                        self.sweep(store, how, sent, wanted)


if __name__ == "__main__":
    unittest.main()
