"""docs/http.md and docs/openapi.yaml. A script serves the example market. Each command of the page is sent as bytes and by
`curl`, and what comes is compared with both documents. What neither shows is in test_serving.py."""
import csv
import io
import json
import re
import shlex
import shutil
import socket
import subprocess
import sys
import unittest

from openapi import Description, shows
from programs import HOME, SETTLE, need
from test_desk import DAY, HEADERS, Desk

PATIENCE = 60
PAGE = HOME / "docs" / "http.md"
ADDRESS = "127.0.0.1:8080"
BLOCK = re.compile(r"^```[^\n`]*\n(.*?)^```[ \t]*$", re.MULTILINE | re.DOTALL)
LISTENING = re.compile(rb"\Alistening 127\.0\.0\.1:([0-9]+)\n\Z")


class Served:
    """A script that serves connections while a test runs. It must end by itself."""

    def __init__(self, test, script, operator, before):
        words = [SETTLE, "script", "--operator-key", operator, script]
        how = {"stdin": subprocess.DEVNULL, "stdout": subprocess.PIPE, "stderr": subprocess.PIPE}
        self.made = subprocess.Popen(words, cwd=HOME, **how)
        test.addCleanup(self.stop)
        self.test = test
        for line in before:
            test.assertEqual(self.made.stdout.readline().decode(), f"{line}\n")
        line = self.made.stdout.readline()
        test.assertRegex(line, LISTENING)
        self.port = int(LISTENING.match(line)[1])

    def stop(self):
        self.made.kill()
        self.made.wait()
        self.made.stdout.close()
        self.made.stderr.close()

    def ask(self, sent):
        """The reply to these bytes."""
        with socket.create_connection(("127.0.0.1", self.port), timeout=PATIENCE) as client:
            client.sendall(sent)
            return b"".join(iter(lambda: client.recv(65_536), b""))

    def end(self):
        """The script ends, and prints nothing more."""
        written, told = self.made.communicate(timeout=PATIENCE)
        self.test.assertEqual((self.made.returncode, written, told), (0, b"", b""))


class Exchange:
    """A command of the page, and what it prints."""

    def __init__(self, command, printed):
        self.command, self.printed = command, printed
        self.before, _, words = command.rpartition(" | ")
        self.method, self.target, self.data, self.shown, self.headers = "GET", None, None, "body", {}
        words = iter(shlex.split(words)[1:])
        for word in words:
            self.take(word, words)

    def take(self, word, words):
        """An option, or the address."""
        if word == "-X":
            self.method = next(words)
        elif word == "-H":
            name, _, value = next(words).partition(":")
            self.headers[name] = value.strip()
        elif word == "--data-binary":
            self.method, self.data = "POST", next(words)
        elif word in ("-si", "-sI"):
            self.shown = "whole"
            self.method = "HEAD" if word == "-sI" else self.method
        elif word == "-sw":
            assert next(words) == r" %{http_code}\n", self.command
        else:
            assert word.startswith(f"http://{ADDRESS}/"), self.command
            self.target = word.removeprefix(f"http://{ADDRESS}")

    def body(self):
        """The bytes that are sent after the head."""
        if self.data is None:
            return b""
        if self.data == "@-":
            return subprocess.run(["sh", "-c", self.before], cwd=HOME, check=True, capture_output=True).stdout
        return (HOME / self.data.removeprefix("@")).read_bytes()

    def sent(self):
        """The bytes of the request. A header without a value is left out, as `curl` does."""
        body = self.body()
        headers = {"Host": "localhost", **self.headers}
        if self.data is not None and "Transfer-Encoding" not in headers:
            headers["Content-Length"] = str(len(body))
        lines = [f"{name}: {value}" for name, value in headers.items() if value]
        return "".join(f"{line}\r\n" for line in [f"{self.method} {self.target} HTTP/1.1", *lines, ""]).encode() + body

    def as_printed(self, answer):
        """What `curl` prints of a reply."""
        if self.shown == "whole":
            return answer
        head, _, body = answer.partition(b"\r\n\r\n")
        return body + b" " + head.split(b" ")[1] + b"\n"

    def status(self):
        """The status that the page shows."""
        return self.printed.split()[1 if self.shown == "whole" else -1]

    def differs(self, printed):
        """Whether something else is printed than the page shows. `..` on the page means what is left out."""
        printed = printed.decode().replace("\r\n", "\n").rstrip("\n")
        first, dots, last = self.printed.rstrip("\n").partition("..")
        if not dots:
            return printed != first
        return not (printed.startswith(first) and printed.endswith(last) and len(printed) > len(first) + len(last))


def body_on_page(exchange):
    """The body of a reply that the page shows."""
    printed = exchange.printed.rstrip("\n")
    return printed.rpartition("\n\n")[2] if exchange.shown == "whole" else printed.rpartition(" ")[0]


def blocks_of_page():
    return BLOCK.findall(PAGE.read_text(encoding="utf-8"))


def exchanges():
    """The commands of the page in order."""
    blocks = blocks_of_page()
    found = [Exchange(one.strip(), two) for one, two in zip(blocks, blocks[1:]) if re.search(r"(^|\| )curl ", one)]
    assert len(found) > 40, "the page has lost its commands"
    return found


def parts_of(answer):
    """The status, the headers and the body of a reply."""
    head, _, body = answer.decode().partition("\r\n\r\n")
    first, *lines = head.split("\r\n")
    return int(first.split(" ")[1]), dict(line.split(": ", 1) for line in lines), body


class Examples(unittest.TestCase):
    """The examples of docs/openapi.yaml, compared with its schemas and with docs/http.md. No program is run."""

    needs_programs = False

    def setUp(self):
        self.description = Description()

    def test_each_operation_has_an_identifier(self):
        found = [operation["operationId"] for _, _, operation in self.description.operations()]
        self.assertEqual(len(found), len(set(found)))
        for name in found:
            self.assertRegex(name, r"\A[a-z]+[A-Z][a-z]+\Z")

    def test_they_are_of_their_schemas(self):
        for at, schema, example in self.description.examples():
            with self.subTest(at):
                self.assertEqual(self.description.differences(schema, example, at), [])

    def test_requests_and_replies_stand_on_the_page(self):
        """Each operation's request and reply are those of a command on the page. Of a list, as many items are shown as there."""
        for method, path, operation in self.description.operations():
            with self.subTest(path):
                target, sent = self.description.example_request(path, operation)
                wanted = self.as_shown(self.description.example_reply(operation["responses"]["200"]))
                found = [exchange for exchange in exchanges() if (exchange.method, exchange.target) == (method, target)]
                self.assertIn(wanted, [body_on_page(exchange) for exchange in found])
                if sent is not None:
                    self.assertEqual(sent.encode(), found[0].body())

    def as_shown(self, example):
        """An example as a body on the page. `,..` means the items of a list that are left out."""
        return json.dumps(example, sort_keys=True, separators=(",", ":")).replace("}]", "},..]")

    def test_refusals_stand_on_the_page(self):
        """Except for 503, which no command there causes."""
        shown = {(exchange.status(), body_on_page(exchange)) for exchange in exchanges()}
        for _, path, operation in self.description.operations():
            for status, response in operation["responses"].items():
                with self.subTest(f"{path} {status}"):
                    example = self.description.example_reply(response)
                    if status == "503":
                        self.assertEqual(example, {"name": "Memory", "refused": 90})
                    elif status != "200":
                        self.assertIn((status, self.as_shown(example)), shown)

    def test_what_an_example_shows(self):
        self.assertTrue(shows({"a": [1, {"b": "x"}]}, {"a": [1, {"b": "x"}, 3]}))
        for whole in ({"a": [1]}, {"a": [1, {"b": "y"}]}, {"a": [1, {"b": "x"}], "c": 1}, {"a": ["1", {"b": "x"}]}):
            self.assertFalse(shows({"a": [1, {"b": "x"}]}, whole))


class ThePage(Desk):
    """docs/http.md, over the example market."""

    def setUp(self):
        super().setUp()
        need(SETTLE)
        self.exchanges = exchanges()

    def start(self):
        """Serves the market as the page says, on a free port, for as many connections as it has commands."""
        command, printed = next((one, two) for one, two in zip(blocks_of_page(), blocks_of_page()[1:]) if "./settle" in one)
        words = command.split()
        *files, line = (HOME / words[-1]).read_text().splitlines()
        self.assertRegex(line, r"\Aserve [0-9]+ 8080 1000000\Z")
        line = line.replace(" 8080 1000000", f" 0 {len(self.exchanges)}")
        *before, listening = printed.splitlines()
        self.assertEqual(listening, f"listening {ADDRESS}")
        return Served(self, self.file("served", "\n".join([*files, line])), words[words.index("--operator-key") + 1], before)

    def replies_to_bytes(self):
        """Each exchange with the reply to it."""
        office = self.start()
        found = [(exchange, office.ask(exchange.sent())) for exchange in self.exchanges]
        office.end()
        return found

    def test_as_bytes(self):
        for exchange, answer in self.replies_to_bytes():
            with self.subTest(exchange.command):
                printed = exchange.as_printed(answer)
                self.assertFalse(exchange.differs(printed), printed)

    @unittest.skipUnless(shutil.which("curl"), "no `curl` is on the path, so the page's commands were sent as bytes alone")
    def test_by_curl(self):
        """Each command as it is on the page, except for the port."""
        office = self.start()
        for exchange in self.exchanges:
            with self.subTest(exchange.command):
                command = exchange.command.replace(ADDRESS, f"127.0.0.1:{office.port}")
                how = {"cwd": HOME, "capture_output": True, "timeout": PATIENCE, "stdin": subprocess.DEVNULL}
                made = subprocess.run(["sh", "-c", command], **how)
                self.assertEqual((made.returncode, made.stderr), (0, b""))
                self.assertFalse(exchange.differs(made.stdout), made.stdout)
        office.end()

    def test_the_replies_are_as_openapi_says(self):
        description = Description()
        shown, answers = set(), self.replies_to_bytes()
        for exchange, answer in answers:
            with self.subTest(exchange.command):
                status, headers, body = parts_of(answer)
                self.assertEqual(description.faults(exchange.method, exchange.target, status, headers, body), [])
                shown.add((exchange.method, description.path_of(exchange.target), status))
                if exchange.method != "HEAD":
                    self.assertEqual(int(headers["Content-Length"]), len(body))
        self.every_refusal_is_shown(description)
        self.examples_are_replies(description, answers)
        for method, path, operation in description.operations():
            self.assertIn((method, path, 200), shown)

    def examples_are_replies(self, description, answers):
        """Each operation's example is the first reply with status 200 to its request, except for the rest of a list."""
        for method, path, operation in description.operations():
            target, _ = description.example_request(path, operation)
            asked = [parts_of(answer) for exchange, answer in answers if (exchange.method, exchange.target) == (method, target)]
            bodies = [json.loads(body) for status, _, body in asked if status == 200]
            with self.subTest(target):
                self.assertTrue(shows(description.example_reply(operation["responses"]["200"]), bodies[0]), bodies[0])

    def every_refusal_is_shown(self, description):
        """Except for 90 and 91, which no command causes."""
        named = {}
        for name, schema in description.parts["schemas"].items():
            if name.startswith("Refusal"):
                properties = schema["properties"]
                named.update(zip(properties["refused"]["enum"], properties["name"]["enum"], strict=True))
        text = "".join(exchange.printed for exchange in self.exchanges)
        shown = {int(number): name for name, number in re.findall(r'"name":"(\w+)",(?:"period":\d+,)?"refused":(\d+)', text)}
        self.assertEqual({**shown, 90: "Memory", 91: "Store"}, named)

    def test_an_account_as_another_program_settles_it(self):
        """The whole reply about an account. Its figures are those of bench/peer_office.py."""
        wanted = [e for e in self.exchanges if e.target.startswith("/accounts/CITYSUP-C/2024-07-01")]
        answers = {e.command: parts_of(answer)[2] for e, answer in self.replies_to_bytes()}
        self.assertEqual(answers[wanted[0].command], self.account_of_peer("CITYSUP-C"))

    def account_of_peer(self, account):
        """The body for an account in run R1 of the page."""
        market = HOME / "examples" / "market"
        steps = [["init"]]
        steps += [["load", kind, str(market / f"{kind}.csv")] for kind in HEADERS]
        steps += [["run", DAY, "SF"], ["load", "meters", str(market / "meters-2.csv")], ["run", DAY, "R1"]]
        for step in steps:
            self.peer(*step)
        rows = csv.DictReader(io.StringIO(self.peer("report", DAY, "R1")))
        energies, pence = ("balancing", "contracts", "credited", "imbalance"), ("charge", "share")
        periods = [
            {name: row[name] for name in energies}
            | {f"{name}_pence": int(row[name]) for name in pence}
            | {"period": int(row["period"])}
            for row in rows
            if row["account"] == account
        ]
        net = sum(row["charge_pence"] + row["share_pence"] for row in periods)
        whole = {"account": account, "date": DAY, "kind": "R1", "net_pence": net, "periods": periods}
        return json.dumps(whole, sort_keys=True, separators=(",", ":"))

    def peer(self, command, *words):
        call = [sys.executable, str(HOME / "bench" / "peer_office.py"), command, str(self.room / "peer.db"), *words]
        return subprocess.run(call, check=True, capture_output=True, text=True).stdout


class EachRouteAndStatus(Desk):
    """docs/openapi.yaml, read by a client. It asks for each path by its method, with values that the page allows in the path,
    so that each status comes that the page has there. The exception is 503, which refused memory causes: that is tested in
    test_memory.py."""

    # What a path may have in the place of its parts, and what is sent to it if it is a file.
    VALUES = {"kind": "prices", "name": "new.csv", "date": DAY, "runKind": "SF", "account": "CITYSUP-C"}
    OFF = {"kind": "price", "name": "new,csv", "date": "2024-7-1", "runKind": "RX", "account": "CITYSUP"}
    FILE, OTHER_FILE = (f"{HEADERS['prices']}\n{DAY},1,{price}\n".encode() for price in (50, 51))
    NO_SUCH_PERIOD = f"{HEADERS['prices']}\n{DAY},49,50\n".encode()
    OPERATOR = "op-market001"

    def setUp(self):
        super().setUp()
        need(SETTLE)
        self.description = Description()

    def start(self, count):
        """Serves the market for this many connections."""
        *files, line = (HOME / "examples" / "market" / "serve.script").read_text().splitlines()
        script = "\n".join([*files, line.replace(" 8080 1000000", f" 0 {count}")])
        loaded = [f"applied={len((HOME / file.split()[4]).read_text().splitlines()) - 1} late=0" for file in files]
        return Served(self, self.file("served", script), self.OPERATOR, loaded)

    def sent(self, method, path, body, *lines, key=True, length=True, **values):
        """A request by a method to a path, with some values in the place of the usual ones and with more lines in its head; and
        its target."""
        target = path.format(**{**self.VALUES, **values})
        head = [f"{method} {target} HTTP/1.1", "Host: localhost", *lines]
        head += [f"{self.description.key_header()}: {self.OPERATOR}"] if key else []
        head += [f"Content-Length: {len(body)}"] if body and length else []
        return target, "".join(f"{line}\r\n" for line in [*head, ""]).encode() + body

    def requests(self, method, path, operation):
        """A request for each status of an operation."""
        is_file = "requestBody" in operation
        body = self.FILE if is_file else b""
        last = list(self.description.parameters(operation))[-1]

        def sent(*lines, body=body, **how):
            return self.sent(method, path, body, *lines, **how)

        return {
            "200": lambda: sent(),
            "400": lambda: sent("Host: again"),
            "403": lambda: sent(key=False),
            "404": lambda: sent(**{last: self.OFF[last]}),
            "405": lambda: self.sent("PATCH", path, body),
            "409": lambda: sent(body=self.OTHER_FILE) if is_file else sent(date="2024-07-05"),
            "411": lambda: sent(length=False),
            "413": lambda: sent("Content-Length: 1048577", length=False),
            "422": lambda: sent(body=self.NO_SUCH_PERIOD, name="no-such-period.csv"),
        }

    def test_each_status_of_each_operation(self):
        """Each comes where the page has it, with a reply as the page says. What would cause another status elsewhere causes
        none that the page lacks there."""
        asked = []
        for method, path, operation in self.description.operations():
            requests = self.requests(method, path, operation)
            self.assertEqual(operation["responses"].keys() - requests.keys(), {"503"})
            asked += [(path, status if status in operation["responses"] else None, *sent()) for status, sent in requests.items()]
        office = self.start(len(asked))
        for path, wanted, target, sent in asked:
            with self.subTest(f"{path} {wanted} {sent}"):
                status, headers, body = parts_of(office.ask(sent))
                self.assertIn(wanted, (None, str(status)))
                method = sent.split(b" ")[0].decode()
                self.assertEqual(self.description.faults(method, target, status, headers, body), [])
                self.assertEqual(int(headers["Content-Length"]), len(body))
        office.end()

    def test_what_may_stand_in_a_path(self):
        """The schema of each part allows what the office reads there. What it doesn't allow is no path of the office."""
        asked = []
        for method, path, operation in self.description.operations():
            for name, schema in self.description.parameters(operation).items():
                self.assertEqual(self.description.differences(schema, self.VALUES[name], name), [])
                self.assertNotEqual(self.description.differences(schema, self.OFF[name], name), [])
                asked += [(self.sent(method, path, b"", key=False, **{name: self.OFF[name]}), 404)]
                for value in schema.get("enum", [self.VALUES[name]]):
                    asked += [(self.sent(method, path, b"", "Content-Length: 0", key=False, **{name: value}), 403)]
        office = self.start(len(asked))
        for (target, sent), wanted in asked:
            with self.subTest(target):
                self.assertEqual(parts_of(office.ask(sent))[0], wanted)
        office.end()

    def test_each_status_of_the_page_of_http(self):
        """docs/http.md has the same statuses with the same refusals."""
        table = re.findall(r"(?m)^\| ([0-9]{3}) \| [^|]+ \| ([^|]+) \|$", PAGE.read_text(encoding="utf-8"))
        told = {}
        for status, refusals in table:
            pairs = re.findall(r"([0-9]+)(?: to ([0-9]+))?", refusals)
            told[status] = {number for first, last in pairs for number in range(int(first), int(last or first) + 1)}
        found = {}
        for _, _, operation in self.description.operations():
            for status, response in operation["responses"].items():
                (content,) = self.description.resolved(response)["content"].values()
                schema = self.description.resolved(content["schema"])
                numbers = schema["properties"].get("refused", {}).get("enum", [])
                found.setdefault(status, set()).update(numbers)
        self.assertEqual(found.pop("200"), set())
        self.assertEqual(found.keys(), told.keys())
        for status, numbers in found.items():
            self.assertLessEqual(numbers, told[status], status)


if __name__ == "__main__":
    unittest.main()
