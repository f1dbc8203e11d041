"""Runs the built programs once for each allocation that they make, and refuses that one.

A run in which memory is refused ends with status 1, says `refused 90 Memory` and writes nothing. Or it can do without that
memory and ends as it does with it. `hh_bench load` may have written about the files before. The nanoseconds that `hh_bench`
tells are not compared. A script goes on after a line or a request that was refused memory. A client whose request is refused
gets its reply, or the reply that memory was refused, and never nothing. The series ends with the first run in which nothing
was refused. The library that refuses memory, `failing_malloc.c`, is built by a C compiler.
"""
import itertools
import os
import pathlib
import re
import shutil
import socket
import subprocess
import sys
import tempfile
import unittest

from openapi import Description
from programs import BENCH, CONTRACTS, HOME, METER, SETTLE, need, refusing_library
from test_http import LISTENING, PATIENCE, parts_of
from test_serving import refusal, reply, request

SMALL_DAY = "--periods 1 --parties 3 --units 4 --contracts 2 --reallocations 1".split()
MOST_RUNS = 100_000
REFUSED = [b"refused 90 Memory"]
OPERATOR = "op-settle001"
NO_PARTY, NO_UNIT = b"refused 30 UnknownParty row 1", b"refused 31 UnknownUnit row 1"
NO_RUN = b"refused 51 NoInitialRun"
DAY = "2024-07-01"
# Files of a script: the kind, the text, the reply, what is told if a file before it was not applied, and what is registered
# after it.
SCRIPT = [
    (
        "parties",
        "party,from,to,key\nA,2024-01-01,,aaaa0001\nB,2024-01-01,,bbbb0001\n",
        b"applied=2 late=0",
        {},
        "parties",
    ),
    (
        "units",
        "unit,party,side,interconnector,from,to\nU,A,P,no,2024-01-01,\n",
        b"applied=1 late=0",
        {"parties": NO_PARTY},
        "units",
    ),
    (
        "contracts",
        "reference,seller,buyer,date,period,mwh\nC,A-P,B-C,2024-07-01,1,1\nC,A-P,B-C,2024-07-01,2,1\n",
        b"applied=2 late=0",
        {"parties": NO_PARTY},
        None,
    ),
    (
        "contracts",
        "reference,seller,buyer,date,period,mwh\nD,A-P,B-C,2024-07-01,1,1\nD,A-P,A-P,2024-07-01,2,1\n",
        b"refused 35 SameAccount row 2",
        {"parties": NO_PARTY},
        None,
    ),
    (
        "reallocations",
        "unit,account,date,period,percent,fixed_mwh\nU,B-P,2024-07-01,1,10,0\n",
        b"applied=1 late=0",
        {"parties": NO_PARTY, "units": NO_UNIT},
        None,
    ),
    ("prices", "date,period,price\n2024-07-01,1,50\n", b"applied=1 late=0", {}, None),
    (
        "meters",
        "unit,date,period,metered_mwh,tlm,balancing_mwh\nU,2024-07-01,1,1,1,0\n",
        b"applied=1 late=0",
        {"units": NO_UNIT},
        None,
    ),
    ("prices", "date,period\n", b"refused 12 BadHeader", {}, None),
]


def ran(kind, accounts, residual, postings):
    """The line that tells a run of the day."""
    return f"run {DAY} {kind} periods 48 accounts {accounts} residual {residual} postings {postings}".encode()


# A day on which A exports 1 MWh in period 1 and has sold it to B, which uses none and is paid 1,000 pence for it. Only A has
# credited energy, and so it bears all of the residual.
SETTLED_DAY = [
    *SCRIPT[:2],
    (
        "contracts",
        f"reference,seller,buyer,date,period,mwh\nC,A-P,B-C,{DAY},1,1\n",
        b"applied=1 late=0",
        {"parties": NO_PARTY},
        "contracts",
    ),
    (
        "meters",
        "unit,date,period,metered_mwh,tlm,balancing_mwh\n"
        + "".join(f"U,{DAY},{period},{int(period == 1)},1,0\n" for period in range(1, 49)),
        b"applied=48 late=0",
        {"units": NO_UNIT},
        "meters",
    ),
    (
        "prices",
        "date,period,price\n" + "".join(f"{DAY},{period},10\n" for period in range(1, 49)),
        b"applied=48 late=0",
        {},
        "prices",
    ),
]
# The runs of that day, as the files of a script. Without the units A has sold what it lacks, and pays 1,000 pence itself, which
# B is paid. Without the contract A is paid them, and bears them as its share.
RUNS = [
    (
        "SF",
        ran("SF", 4, 1000, 2),
        {
            "prices": b"refused 53 MissingPrice period 1",
            "parties": ran("SF", 0, 0, 0),
            "units": ran("SF", 4, 0, 2),
            "meters": b"refused 54 MissingMeter unit U period 1",
            "contracts": ran("SF", 4, 1000, 0),
        },
        "SF",
    ),
    (
        "R1",
        ran("R1", 4, 1000, 0),
        {
            "prices": NO_RUN,
            "parties": ran("R1", 0, 0, 0),
            "units": ran("R1", 4, 0, 0),
            "meters": NO_RUN,
            "contracts": ran("R1", 4, 1000, 0),
            "SF": NO_RUN,
        },
        None,
    ),
]


# What each account has in period 1 of that day's run: credited energy, contracts and imbalance in MWh, charge and share in
# pence. In the other periods nobody has anything.
NOTHING = (0, 0, 0, 0, 0)
IN_PERIOD_1 = {"A-P": (1, 1, 0, 0, 1000), "A-C": NOTHING, "B-P": NOTHING, "B-C": (0, -1, 1, -1000, 0)}
WITHOUT_UNITS = {**IN_PERIOD_1, "A-P": (0, 1, -1, 1000, 0)}
WITHOUT_CONTRACT = {**dict.fromkeys(IN_PERIOD_1, NOTHING), "A-P": (1, 0, 1, -1000, 1000)}
HEADS = ["PER", "ACCOUNT", "CREDITED", "BALANCING", "CONTRACTS", "IMBALANCE", "CHARGE", "SHARE"]
COLUMNS = "date,kind,account,period,credited,balancing,contracts,imbalance,charge,share"


def rows_of(accounts):
    """The period, the account and the figures of each row, if accounts have these in period 1."""
    for period in range(1, 49):
        for account, figures in accounts.items():
            credited, contracts, imbalance, charge, share = figures if period == 1 else NOTHING
            energies = [f"{energy}.0000000000" for energy in (credited, 0, contracts, imbalance)]
            yield period, account, [*energies, charge, share]


def account_line(fields):
    return f"{fields[0]:>3} {fields[1]:<12} " + " ".join(f"{field:>20}" for field in fields[2:6]) + f" {fields[6]:>14} {fields[7]:>14}"


def day_report(accounts):
    """The day report of SF, if accounts have these figures in period 1."""
    lines = [f"DAY REPORT {DAY} SF", account_line(HEADS)]
    for period in range(1, 49):
        rows = [(account, figures) for at, account, figures in rows_of(accounts) if at == period]
        lines += [account_line([period, account, *figures]) for account, figures in rows]
        lines.append(f"{period:>3} {'RESIDUAL':<12} {-sum(figures[4] for _, figures in rows):>14}")
    lines += [f"NET {account:<12} {figures[3] + figures[4]:>16}" for account, figures in accounts.items()]
    return "\n".join([*lines, "END"]).encode()


def results(accounts):
    """The results of SF, if accounts have these figures in period 1."""
    rows = (f"{DAY},SF,{account},{period},{','.join(map(str, figures))}" for period, account, figures in rows_of(accounts))
    return "\n".join([COLUMNS, *rows]).encode()


def balances(accounts):
    """The balances after SF, if accounts have these figures in period 1."""
    return "\n".join(["account,moved_pence", *(f"{account},{row[3] + row[4]}" for account, row in accounts.items())]).encode()


def reported(form, text, without_run):
    """A report of that day's run as the files of a script. The text is made from what accounts have in period 1."""
    otherwise = {
        "prices": without_run,
        "parties": text({}),
        "units": text(WITHOUT_UNITS),
        "meters": without_run,
        "contracts": text(WITHOUT_CONTRACT),
        "SF": without_run,
    }
    return form, text(IN_PERIOD_1), otherwise, None


REPORTS = [
    reported(f"day {DAY} SF", day_report, b"refused 63 NoRun"),
    reported(f"csv {DAY} SF", results, b"refused 63 NoRun"),
    reported("balances", balances, balances(dict.fromkeys(IN_PERIOD_1, NOTHING))),
]


def head_of(answer):
    """A reply without its body."""
    return answer.partition(b"\r\n\r\n")[0] + b"\r\n\r\n"


# The reply that tells that memory was refused.
NO_MEMORY = reply(503, refusal(90, "Memory"))
# A file of a unit that no line of a script loads, under the name of a file that a line loads.
OTHER_UNITS = SCRIPT[1][1].replace("\nU,", "\nV,").encode()
UNITS_PATH = "/files/units/2.csv"
BAD_METHOD = reply(405, refusal(62, "BadMethod"), "Allow: POST\r\n")
# Requests that are refused before the office is asked, each with its reply and with what is told instead if memory is refused.
# Each of the first five is refused by another number, and each would otherwise load that file.
REFUSED_REQUESTS = [
    (request("POST", f"{UNITS_PATH}?", OPERATOR, OTHER_UNITS), reply(404, refusal(61, "NoRoute")), NO_MEMORY),
    (request("PUT", UNITS_PATH, OPERATOR, OTHER_UNITS), BAD_METHOD, NO_MEMORY),
    (request("POST", UNITS_PATH, OPERATOR) + OTHER_UNITS, reply(411, refusal(64, "LengthRequired")), NO_MEMORY),
    (request("POST", UNITS_PATH, OPERATOR, OTHER_UNITS, ["Host: b"]), reply(400, refusal(65, "BadRequest")), NO_MEMORY),
    (
        request("POST", UNITS_PATH, OPERATOR, headers=["Content-Length: 1048577"]) + OTHER_UNITS,
        reply(413, refusal(66, "BodyTooLarge")),
        NO_MEMORY,
    ),
    (request("HEAD", f"/runs/{DAY}/SF", OPERATOR), head_of(BAD_METHOD), head_of(NO_MEMORY)),
]
# What is asked for at each path of docs/openapi.yaml. No reply depends on what another request has done.
ASKED = [
    ("POST", "/files/prices/p.csv", b"date,period,price\n", reply(200, '{"applied":0,"late":0}')),
    ("POST", f"/runs/{DAY}/SF", None, reply(409, refusal(52, "DayNotOver"))),
    ("GET", f"/accounts/A-P/{DAY}", None, reply(404, refusal(63, "NoRun"))),
    ("GET", "/balances/A-P", None, reply(200, '{"account":"A-P","moved_pence":0}')),
    ("GET", f"/contracts/A-P/{DAY}", None, reply(200, f'{{"account":"A-P","contracts":[],"date":"{DAY}"}}')),
    ("GET", f"/runs/{DAY}", None, reply(200, f'{{"date":"{DAY}","runs":[]}}')),
]


@unittest.skipUnless(shutil.which("cc"), "no C compiler `cc` is on the path, so memory was not refused")
class Refused(unittest.TestCase):
    @classmethod
    def setUpClass(cls):
        room = tempfile.TemporaryDirectory()
        cls.addClassCleanup(room.cleanup)
        cls.room = pathlib.Path(room.name)
        cls.preloaded, cls.note = refusing_library(cls.room), cls.room / "refused"

    def run_once(self, call, fail_at):
        """The status of a call, what it wrote, and the lines that it told, without nanoseconds."""
        made = subprocess.run(call, stdin=subprocess.DEVNULL, capture_output=True, env=self.environment(fail_at))
        told = [line for line in made.stderr.splitlines() if not line.isdigit()]
        return made.returncode, made.stdout, told

    def environment(self, fail_at):
        """The environment of a program whose allocation with this number is refused."""
        return dict(os.environ, FAIL_AT=str(fail_at), FAIL_NOTE=str(self.note), LD_PRELOAD=self.preloaded)

    def serve_once(self, call, requests, fail_at):
        """What comes of a run in which a line serves these requests, one after the other, and the reply to each. The port is
        removed from what it wrote."""
        how = {"stdin": subprocess.DEVNULL, "stdout": subprocess.PIPE, "stderr": subprocess.PIPE}
        with subprocess.Popen(call, env=self.environment(fail_at), **how) as made:
            try:
                written, replies = self.written_and_replied(made.stdout, requests)
                told = made.stderr.read().splitlines()
            except BaseException:
                made.kill()
                raise
        return (made.returncode, written, told), replies

    def written_and_replied(self, lines, requests):
        """The lines of a run's output, in which it tells where it listens for these requests, and the replies to them."""
        written, replies = b"", []
        for line in lines:
            if port := LISTENING.match(line):
                replies = [self.ask(int(port[1]), sent) for sent in requests]
                line = b"listening\n"
            written += line
        return written, replies

    def ask(self, port, sent):
        """The reply to these bytes."""
        with socket.create_connection(("127.0.0.1", port), timeout=PATIENCE) as client:
            client.sendall(sent)
            return b"".join(iter(lambda: client.recv(65_536), b""))

    def is_refusal(self, got, most):
        """Whether a run ended with refusal 90, and wrote no more than a beginning of `most`."""
        status, written, told = got
        return status == 1 and told == REFUSED and most.startswith(written)

    def is_script_answered(self, got, replies):
        """Whether a script's run answered each line as it must, except for at most one line that was refused memory. For that
        line the text of the refusal replaces the reply, or follows the first lines of a report. Or the run ended with refusal
        90 after a beginning of its lines."""
        status, written, told = got
        ended = (status, told) == (1, REFUSED)
        if (status, told) != (0, []) and not ended or written[-1:] not in (b"", b"\n"):
            return False
        lines, registered, refused = written.splitlines(), set(), status
        for reply, otherwise, registers in replies:
            if ended and not lines:
                break
            text = next((other for what, other in otherwise.items() if what not in registered), reply)
            wanted = text.splitlines()
            same = sum(1 for _ in itertools.takewhile(lambda pair: pair[0] == pair[1], zip(lines, wanted)))
            if same == len(wanted):
                registered |= {registers} if text == reply else set()
            elif lines[same : same + 1] == REFUSED:
                refused, same = refused + 1, same + 1
            else:
                return False
            lines = lines[same:]
        return not lines and refused <= 1

    def refuse_each(self, call, status, writes_by_file=False, replies=None, beside=None):
        """Refuses each allocation of a call in turn. With ample memory it has this status, and a script these replies. Lines on
        standard error that match `beside` are left out if memory is refused for them."""
        need(call[0])
        wanted = self.run_once(call, 0)
        self.assertEqual(wanted[0], status, call)
        plain = self.without(wanted, beside)
        self.assertTrue(beside is None or plain != wanted, wanted)
        if replies is not None:
            self.assertEqual(plain[1:], (b"".join(reply + b"\n" for reply, _, _ in replies), []))
        most = wanted[1] if writes_by_file else b""

        def is_right(made):
            got = self.without(made, beside)
            return got == plain or (self.is_refusal(got, most) if replies is None else self.is_script_answered(got, replies))

        self.refuse_in_turn(lambda fail_at: self.run_once(call, fail_at), wanted, is_right)

    def without(self, made, beside):
        """What came of a run, without the lines on standard error that match this."""
        status, written, told = made
        return status, written, [line for line in told if beside is None or not re.match(beside, line)]

    def refuse_in_turn(self, run, wanted, is_right):
        """Runs with each allocation refused in turn. What comes of a run must be what is wanted, or right if memory was
        refused. At least one refusal must occur, because otherwise a program that takes no memory by `malloc` would pass.
        Returns what came of the runs with a refusal."""
        shown = []
        for fail_at in range(1, MOST_RUNS):
            got = run(fail_at)
            self.assertTrue(got == wanted or is_right(got), f"allocation {fail_at} refused: {got}")
            if not self.note.exists():
                self.assertEqual(got, wanted, "refused, though no allocation was")
                self.assertTrue(shown, "no refusal was ever told")
                return shown
            self.note.unlink()
            shown += [got] if got != wanted else []
        self.fail("no run was without a refusal")

    def test_a_settled_period(self):
        self.refuse_each([SETTLE, "period", METER, CONTRACTS, "50.00000"], 0)

    def test_a_refused_file(self):
        self.refuse_each([SETTLE, "period", CONTRACTS, METER, "50.00000"], 1)

    def test_a_refused_price(self):
        self.refuse_each([SETTLE, "period", METER, CONTRACTS, "x"], 1)

    def test_no_such_file(self):
        self.refuse_each([SETTLE, "period", "/nowhere", CONTRACTS, "50"], 1)

    def test_wrong_words(self):
        self.refuse_each([SETTLE, "period", METER], 2)

    def test_files_read_and_loaded(self):
        """`hh_bench` reads each file of a small day, and loads them all."""
        day = self.room / "day"
        subprocess.run([sys.executable, str(HOME / "bench" / "gen_day.py"), str(day), *SMALL_DAY], check=True)
        files = [line.split() for line in (day / "order").read_text().splitlines()]
        files = [(kind, str(day / name)) for kind, name in files]
        self.assertEqual(len({kind for kind, _ in files}), 6)
        for kind, path in files:
            with self.subTest(kind):
                self.refuse_each([BENCH, "read", kind, path, "1"], 0)
        with self.subTest("load"):
            self.refuse_each([BENCH, "load", *(word for file in files for word in file)], 0, writes_by_file=True)

    def loads(self, files):
        """The lines of a script that load files, and how they are answered."""
        lines, replies = [], []
        for number, (kind, text, *answers) in enumerate(files, 1):
            path = self.room / f"{number}.csv"
            path.write_text(text)
            lines.append(f"load 0 {OPERATOR} {kind} {path}\n")
            replies.append(answers)
        return lines, replies

    def refuse_each_of_script(self, lines, replies, *options, beside=None):
        """Refuses each allocation of a script in turn."""
        script = self.room / "script"
        script.write_text("".join(lines))
        self.refuse_each([SETTLE, "script", "--operator-key", OPERATOR, *options, str(script)], 0, replies=replies, beside=beside)

    def test_a_script(self):
        """Files of each kind, two that are refused, the first file once more, and one that isn't there."""
        lines, replies = self.loads(SCRIPT)
        lines += [lines[0], f"load 0 {OPERATOR} units {self.room}/none.csv\n"]
        replies += [replies[0], [b"fault file", {}, None]]
        self.refuse_each_of_script(lines, replies)

    def test_explanations(self):
        """Explanations of refused files and runs, of a file that isn't there, and of late rows. No answer depends on whether
        there is memory for them."""
        lines, replies = self.loads(SCRIPT[:4])
        lines += [lines[2].replace(" 0 ", " 1719874800 ").replace("3.csv", "late.csv"), f"run 0 {OPERATOR} {DAY} SF\n", f"load 0 {OPERATOR} units {self.room}/none.csv\n"]
        (self.room / "late.csv").write_text(SCRIPT[2][1])
        replies += [[b"applied=0 late=2", {"parties": NO_PARTY}, None], [b"refused 52 DayNotOver", {}, None], [b"fault file", {}, None]]
        self.refuse_each_of_script(lines, replies, "--explain", beside=rb"line [1-7]: |.*: the system refused memory\Z")

    def test_explanations_of_a_period(self):
        self.refuse_each([SETTLE, "period", "--explain", CONTRACTS, METER, "50.00000"], 1, beside=re.escape(CONTRACTS.encode()) + b"|the system refused memory\\Z|.*; a file can't be read a second time\\Z")
        self.refuse_each([SETTLE, "period", "--explain", METER, CONTRACTS, "x"], 1, beside=b"price |the system refused memory\\Z")

    def test_runs_of_a_script(self):
        """A first run, and another one, whose reply tells whether the first was made."""
        lines, replies = self.loads(SETTLED_DAY)
        lines += [f"run 1719874800 {OPERATOR} {DAY} {kind}\n" for kind, *_ in RUNS]
        replies += [answers for _, *answers in RUNS]
        self.refuse_each_of_script(lines, replies)

    def test_reports_of_a_script(self):
        """The three reports after a run. If one is given up, whole lines of it are left, and the next report is whole."""
        lines, replies = self.loads(SETTLED_DAY)
        lines += [f"run 1719874800 {OPERATOR} {DAY} SF\n", *(f"report {OPERATOR} {form}\n" for form, *_ in REPORTS)]
        replies += [RUNS[0][1:], *(answers for _, *answers in REPORTS)]
        self.refuse_each_of_script(lines, replies)

    def serving(self, count):
        """The call of a script that loads parties, serves this many connections and then loads units, and how it answers."""
        lines, replies = self.loads(SCRIPT[:2])
        script = self.room / "script"
        script.write_text("".join([lines[0], f"serve 0 0 {count}\n", lines[1]]))
        call = [SETTLE, "script", "--operator-key", OPERATOR, str(script)]
        need(call[0])
        return call, [replies[0], [b"listening", {}, None], replies[1]]

    def refuse_each_served(self, requests, answers, is_told):
        """Refuses each allocation of a script in turn, while it serves these requests. With ample memory they have these
        answers. `is_told` says, for a request's place and what came for it, whether that is right if memory was refused. That
        is the case for at most one of the lines and requests. Returns what came in each run with a refusal."""
        call, lines = self.serving(len(requests))
        wanted = self.serve_once(call, requests, 0)
        self.assertEqual(wanted, ((0, b"".join(line + b"\n" for line, _, _ in lines), []), answers))

        def is_right(got):
            ran, replies = got
            other = [place for place, pair in enumerate(zip(replies, answers)) if pair[0] != pair[1]]
            if not other:
                return self.is_script_answered(ran, lines)
            return len(other) == 1 and is_told(other[0], replies[other[0]]) and ran == wanted[0]

        return [replies for _, replies in self.refuse_in_turn(lambda at: self.serve_once(call, requests, at), wanted, is_right)]

    def test_requests_that_are_refused(self):
        """Each gets its own reply, or the one that tells that memory was refused, and leaves the office as it is: the file that
        they would otherwise have loaded is loaded as new afterwards."""
        requests, answers, told = (list(column) for column in zip(*REFUSED_REQUESTS))
        shown = self.refuse_each_served(requests, answers, lambda place, got: got == told[place])
        for place, sent in enumerate(requests):
            with self.subTest(sent):
                self.assertIn(told[place], [replies[place] for replies in shown if replies])

    def test_requests_that_are_handled(self):
        """At each path of docs/openapi.yaml the reply may tell that memory was refused, as that page says. A request that was
        handled may get no reply, because memory for it was refused."""
        description = Description()
        paths = [(method, path) for method, path, _ in description.operations()]
        self.assertEqual([(method, description.path_of(target)) for method, target, *_ in ASKED], paths)
        requests = [request(method, target, OPERATOR, body) for method, target, body, _ in ASKED]
        answers = [answer for *_, answer in ASKED]
        shown = self.refuse_each_served(requests, answers, lambda _, got: got in (NO_MEMORY, b""))
        for place, (method, target, *_) in enumerate(ASKED):
            with self.subTest(target):
                self.assertIn(NO_MEMORY, [replies[place] for replies in shown if replies])
                self.assertEqual(description.faults(method, target, *parts_of(NO_MEMORY)), [])

    def test_a_script_that_is_not_run(self):
        script = self.room / "wrong"
        script.write_text(f"load 0 {OPERATOR} units u.csv\n\n")
        self.refuse_each([SETTLE, "script", "--operator-key", OPERATOR, str(script)], 2, beside=b"line 2 is empty: ")
        self.refuse_each([SETTLE, "script", "--operator-key", OPERATOR, str(self.room / "missing")], 1)


if __name__ == "__main__":
    unittest.main()
