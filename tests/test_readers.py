"""docs/start.md, docs/cheat-sheet.md and docs/glossary.md, the pages for those who are new here, and docs/party.md, the one for
parties."""
import os
import re
import socket
import subprocess
import unittest

from openapi import Description
from programs import HOME, SETTLE
from test_documents import BLOCK, is_as_printed
from test_http import Served, parts_of
from test_program import OfTheProgram

from look import commands

START = (HOME / "docs/start.md").read_text(encoding="utf-8")
CHEAT_SHEET = (HOME / "docs/cheat-sheet.md").read_text(encoding="utf-8")
PARTY = (HOME / "docs/party.md").read_text(encoding="utf-8")
DAY = "2024-07-01"
PATIENCE = 120


def steps():
    """Each block of the first page that is typed, with the next if that says what it prints, or None."""
    blocks = BLOCK.findall(START)
    for block, after in zip(blocks, [*blocks[1:], "./"]):
        if block.startswith("./"):
            yield block, None if after.startswith("./") else after


class TenMinutes(OfTheProgram):
    """docs/start.md"""

    def test_each_line(self):
        """All are typed one after the other in a folder with the examples, except for the port. Where the page sleeps until the office
        listens, the test waits for that."""
        for name, target in ("settle", SETTLE), ("look", HOME / "look"), ("examples", HOME / "examples"):
            (self.room / name).symlink_to(target)
        with socket.create_server(("127.0.0.1", 0)) as free:
            port = str(free.getsockname()[1])
        listening = f"until grep -q ':{int(port):04X} 00000000:0000 0A ' /proc/net/tcp; do sleep 0.1; done"
        how = {"cwd": self.room, "stdin": subprocess.DEVNULL, "capture_output": True, "text": True, "timeout": PATIENCE}
        shown = []
        for lines, printed in steps():
            with self.subTest(lines):
                made = subprocess.run(["sh", "-c", lines.replace("8080", port).replace("sleep 2", listening) + "wait\n"], env={**os.environ, "SETTLE_PROGRAM": SETTLE}, **how)
                told = (made.stdout + made.stderr).replace(port, "8080")
                if printed is None:
                    self.assertEqual(told, "")
                else:
                    is_as_printed(self, told if told.endswith("\n") else f"{told}\n", printed)
                shown.append(printed)
        self.assertEqual((len(shown), shown.count(None)), (15, 1))
        page = (self.room / "start.html").read_text(encoding="utf-8")
        self.assertTrue(page.startswith("<!DOCTYPE html>") and "NORTHGEN-P" in page, page[:200])


class CheatSheet(OfTheProgram):
    """docs/cheat-sheet.md"""

    def test_each_line(self):
        """All are typed, with words of the example market in the place of their own. Each does what it says: its status is 0. Those that
        serve and ask are in docs/start.md."""
        typed = [line.split("`")[1] for line in CHEAT_SHEET.splitlines() if re.match(r"\| [^|]* \| `(\./|curl)", line)]
        named = {name: {words.split()[1] for words in typed if words.startswith(f"./{name} ")} for name in ("settle", "look")}
        self.assertEqual(named, {"settle": {"init", "migrate", "load", "run", "report", "script", "serve"}, "look": {*commands.COMMANDS}})
        for name, target in ("settle", SETTLE), ("look", HOME / "look"), ("examples", HOME / "examples"):
            (self.room / name).symlink_to(target)
        (self.room / "op.key").write_text("op-market001\n")
        lines = [words for words in typed if not re.search(r" serve |^curl|--help", words)]
        self.assertEqual(len(lines), 21)
        for words in sorted(lines, key=lambda words: (" init " not in words, " script " not in words)):
            self.ends(words)
        self.assertTrue((self.room / "run.html").stat().st_size > 10_000 and (self.room / "copy.db").exists())

    def ends(self, words):
        """A line that is typed ends with 0."""
        file = "plain.script" if " script " in words else "parties.csv"
        places = {"SECONDS": "1717405200", "KIND": "parties", "FILE": f"examples/market/{file}", "DATE": DAY, "ACCOUNT": "CITYSUP-C", "PERIOD": "1"}
        words = re.sub("[A-Z]{4,}", lambda place: places[place[0]], words)
        how = {"cwd": self.room, "stdin": subprocess.DEVNULL, "capture_output": True, "text": True, "timeout": PATIENCE}
        made = subprocess.run(["sh", "-c", words], env={**os.environ, "SETTLE_PROGRAM": SETTLE}, **how)
        self.assertEqual((made.returncode, made.stderr), (0, ""), words)


class Glossary(unittest.TestCase):
    """docs/glossary.md"""

    needs_programs = False

    def test_its_words_are_in_order(self):
        """Each is there once."""
        words = re.findall(r"(?m)^\| ([^|]+) \| [^|]+ \|$", (HOME / "docs/glossary.md").read_text(encoding="utf-8"))[1:]
        self.assertEqual(words, sorted({*words}, key=str.lower))
        self.assertGreater(len(words), 25)


class Party(unittest.TestCase):
    """docs/party.md, without a program."""

    needs_programs = False

    def test_each_request_that_asks(self):
        """The page leads to all requests of docs/openapi.yaml by which a party may ask, and to no other."""
        asking = {(method, path) for method, path, _ in Description().operations() if method == "GET"}
        named = set(re.findall(r"\[`([A-Z]+) (/[^`]*)`\]\(http\.md#", PARTY))
        self.assertEqual(named, asking)

    def test_each_command_of_look(self):
        named = set(re.findall(r"`(?:\./)?look ([a-z]+)`", PARTY))
        self.assertLess(named, set(commands.COMMANDS))
        self.assertGreater(len(named), 3)


class Key(OfTheProgram):
    """What a party's key shows and what it doesn't, asked of the example market after R1."""

    def test_what_is_answered(self):
        market = HOME / "examples/market"
        *files, _ = (market / "serve.script").read_text(encoding="utf-8").splitlines()
        runs = [f"run 1721379600 op-market001 {DAY} {kind}" for kind in ("SF", "R1")]
        asked = {
            200: ["GET /balances/CITYSUP-C", f"GET /accounts/CITYSUP-P/{DAY}", f"GET /contracts/CITYSUP-C/{DAY}", f"GET /runs/{DAY}"],
            403: ["GET /balances/NORTHGEN-P", f"GET /accounts/NORTHGEN-P/{DAY}", f"GET /contracts/TRADECO-C/{DAY}", f"POST /runs/{DAY}/R2", "POST /files/prices/a.csv"],
        }
        count = sum(map(len, asked.values()))
        script = self.file("served", "\n".join([*files, *runs, f"serve 1721379600 0 {count}"]))
        loaded = [f"applied={len((HOME / line.split()[4]).read_text().splitlines()) - 1} late=0" for line in files]
        totals = [f"run {DAY} {kind} periods 48 accounts 8 residual -565755 postings {posted}" for kind, posted in (("SF", 5), ("R1", 0))]
        office = Served(self, script, "op-market001", [*loaded, *totals])
        for status, requests in asked.items():
            for request in requests:
                with self.subTest(request):
                    head = f"{request} HTTP/1.1\r\nHost: localhost\r\nContent-Length: 0\r\nx-office-key: citysupkey1\r\n\r\n"
                    found, _, body = parts_of(office.ask(head.encode()))
                    self.assertEqual(found, status, body)
                    if "/accounts/CITYSUP" in request:
                        self.assertIn('"kind":"R1"', body)
                        for word in "residual", "weight", "metered", "price":
                            self.assertNotIn(word, body)
        office.end()


if __name__ == "__main__":
    unittest.main()
