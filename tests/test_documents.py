"""Runs the commands of the README, of `examples/` and of the guide, and those of `./look` in the README, those of each page one after
the other in a folder with the examples, and compares what they print, word for word. A line of three points means lines that a document leaves out. And each
link from page to page leads to a file and a heading."""
import contextlib
import csv
import pathlib
import re
import shlex
import shutil
import socket
import sqlite3
import subprocess
import tempfile
import unittest

from programs import HOME, SETTLE, need
from test_index import slug_of

DOCUMENTS = "README.md", "examples/README.md", "docs/guide.md"
BLOCK = re.compile(r"^```[^\n`]*\n(.*?)^```[ \t]*$", re.MULTILINE | re.DOTALL)
LINK = re.compile(r"\]\(([^)\s#]*)(?:#([^)\s]*))?\)")
COMMAND = re.compile(r"\A(?:\./)?settle ([^\n]*)\n\Z")
LOOK = re.compile(r"\A\./look ([^\n]*)\n\Z")


def commands_of(text):
    """Each command of a document with what it must print: a block of one line that begins with `settle` or `./settle`, and the
    next block, or None if there is none. The form of the command, with the words METER and CONTRACTS, is not called."""
    blocks = BLOCK.findall(text)
    for block, after in zip(blocks, [*blocks[1:], None]):
        words = COMMAND.match(block)
        if words and "METER" not in words[1]:
            yield words[1], after


def is_as_printed(test, told, printed):
    """Compares what a command told with what a document shows of it."""
    if "\n...\n" not in f"\n{printed}":
        test.assertEqual(told, printed)
        return
    parts = [re.escape(part) for part in re.split(r"^\.\.\.\n", printed, flags=re.MULTILINE)]
    test.assertRegex(told, r"\A" + r"(?:.*\n)+?".join(parts) + r"\Z")


class Documents(unittest.TestCase):
    def setUp(self):
        """A folder with the examples, in which commands leave their files."""
        need(SETTLE)
        folder = tempfile.TemporaryDirectory()
        self.addCleanup(folder.cleanup)
        self.room = pathlib.Path(folder.name)
        (self.room / "settle").symlink_to(SETTLE)
        (self.room / "examples").symlink_to(HOME / "examples")

    def test_the_commands_print_what_stands_behind_them(self):
        for name in DOCUMENTS:
            found = list(commands_of((HOME / name).read_text(encoding="utf-8")))
            self.assertTrue(found, f"{name} has no command of settle")
            for words, printed in found:
                with self.subTest(f"{name}: settle {words}"):
                    self.compare(words, printed)
            for left in self.room.glob("*.db*"):
                left.unlink()

    def compare(self, words, printed):
        """Runs a command. Standard error is appended to standard output."""
        made = subprocess.run([SETTLE, *shlex.split(words)], cwd=self.room, capture_output=True, text=True)
        is_as_printed(self, made.stdout + made.stderr, printed)

    def test_what_look_shows_in_the_readme(self):
        """After the commands before it."""
        text = (HOME / "README.md").read_text(encoding="utf-8")
        blocks = BLOCK.findall(text)
        (at,) = (place for place, block in enumerate(blocks) if LOOK.match(block))
        for words, _ in commands_of(text[: text.index(blocks[at])]):
            subprocess.run([SETTLE, *shlex.split(words)], cwd=self.room, capture_output=True, check=True)
        words = shlex.split(LOOK.match(blocks[at])[1])
        made = subprocess.run([HOME / "look", *words], cwd=self.room, capture_output=True, text=True)
        self.assertEqual((made.stdout, made.stderr), (blocks[at + 1], ""))

    def test_the_office_that_the_readme_serves(self):
        """The shell lines that serve the office and ask it, after the commands before them."""
        if shutil.which("curl") is None:
            self.skipTest("there is no curl")
        text = (HOME / "README.md").read_text(encoding="utf-8")
        blocks = BLOCK.findall(text)
        at = next(place for place, block in enumerate(blocks) if "settle serve" in block)
        for words, _ in commands_of(text[: text.index(blocks[at])]):
            subprocess.run([SETTLE, *shlex.split(words)], cwd=self.room, capture_output=True, check=True)
        with socket.create_server(("127.0.0.1", 0)) as free:
            port = str(free.getsockname()[1])
        made = subprocess.run(["sh", "-c", blocks[at].replace("8080", port) + "wait\n"], cwd=self.room, capture_output=True, text=True, timeout=60)
        self.assertEqual((made.stdout.rstrip("\n"), made.stderr), (blocks[at + 1].replace("8080", port).rstrip("\n"), ""))

    def test_the_tables_that_the_readme_shows(self):
        """Its questions to the file, after the commands before them. Each party's postings sum to the balances that it shows,
        and `results` has a row for each account."""
        text = (HOME / "README.md").read_text(encoding="utf-8")
        blocks = BLOCK.findall(text)
        at = next(place for place, block in enumerate(blocks) if block.startswith("sqlite3 "))
        for words, _ in commands_of(text[: text.index(blocks[at])]):
            subprocess.run([SETTLE, *shlex.split(words)], cwd=self.room, capture_output=True, check=True)
        accounts = [line.split(",") for line in next(block for block in blocks if "account,moved_pence" in block).splitlines()[1:]]
        sums = {}
        for account, pence in accounts:
            party = account.partition("-")[0]
            sums[party] = sums.get(party, 0) + int(pence)
        self.assertEqual(blocks[at + 1], "".join(f"{party}|{pence}\n" for party, pence in sorted(sums.items())))
        with contextlib.closing(sqlite3.connect(self.room / "office.db")) as office:
            posted = office.execute(shlex.split(blocks[at])[-1]).fetchall()
            results = office.execute(re.search(r'read_sql\("([^"]*)"', text)[1]).fetchall()
        self.assertEqual(posted, sorted(sums.items()))
        self.assertEqual(len(results), len(accounts))

    def test_results_in_a_spreadsheet(self):
        """The guide's shell lines leave a file that begins as the guide says, and columns I and J sum to zero in each period."""
        blocks = BLOCK.findall((HOME / "docs/guide.md").read_text(encoding="utf-8"))
        lines, begins = next((one, two) for one, two in zip(blocks, blocks[1:]) if "> results.csv" in one)
        made = subprocess.run(["sh", "-e", "-c", lines], cwd=self.room, capture_output=True)
        self.assertEqual((made.returncode, made.stdout, made.stderr), (0, b"", b""))
        text = (self.room / "results.csv").read_text(encoding="utf-8")
        self.assertTrue(text.startswith(begins), text[:400])
        sums = {}
        for _, _, _, period, _, _, _, _, *cash in list(csv.reader(text.splitlines()))[1:]:
            sums[period] = sums.get(period, 0) + sum(map(int, cash))
        self.assertEqual(sums, {str(period): 0 for period in range(1, 49)})


    def test_the_lines_of_a_script_that_were_refused(self):
        """The guide's shell lines find them among what is printed."""
        blocks = BLOCK.findall((HOME / "docs/guide.md").read_text(encoding="utf-8"))
        lines, printed = next((one, two) for one, two in zip(blocks, blocks[1:]) if "| grep " in one)
        made = subprocess.run(["sh", "-e", "-c", lines], cwd=self.room, capture_output=True, text=True)
        self.assertEqual((made.returncode, made.stdout, made.stderr), (0, printed, ""))
        day = next(after for words, after in commands_of((HOME / "docs/guide.md").read_text(encoding="utf-8")) if words.endswith("day.script"))
        self.assertEqual(printed, "".join(line for line in day.splitlines(True) if line.startswith(("refused ", "fault "))))


class Links(unittest.TestCase):
    needs_programs = False

    def test_the_index_has_each_page_once(self):
        """docs/README.md names each page of its folder, on a line of its own."""
        pages = {page.name for ending in ("md", "yaml") for page in (HOME / "docs").glob(f"*.{ending}")} - {"README.md"}
        lines = re.findall(r"(?m)^- \[[^\]]+\]\(([^)]+)\): .", (HOME / "docs/README.md").read_text(encoding="utf-8"))
        self.assertEqual(sorted(line for line in lines if not line.startswith("../")), sorted(pages))
        self.assertEqual(len(lines), len(set(lines)))

    def test_each_link_leads_somewhere(self):
        pages = [page for folder in (".", "docs", "tests", "tests/versions", "crates", "bench", "examples") for page in (HOME / folder).glob("*.md")]
        found = [(page, *link) for page in pages for link in LINK.findall(BLOCK.sub("", page.read_text(encoding="utf-8")))]
        self.assertGreater(len(found), 300)
        for page, file, anchor in found:
            if "://" not in file:
                with self.subTest(f"{page.relative_to(HOME)}: {file}#{anchor}"):
                    self.check(page.parent / file if file else page, anchor)

    def check(self, target, anchor):
        self.assertTrue(target.exists())
        if anchor:
            text = BLOCK.sub("", target.read_text(encoding="utf-8"))
            self.assertIn(anchor, map(slug_of, re.findall(r"(?m)^#+ (.*)$", text)))


class Found(unittest.TestCase):
    needs_programs = False

    def test_how_commands_are_found(self):
        text = "a\n```\nsettle period a 'b c' 1\n```\nb\n```sh\nx\ny\n```\n```\n./settle period METER\n```\n```\nrt ci\n```\n"
        self.assertEqual(list(commands_of(text)), [("period a 'b c' 1", "x\ny\n")])
        self.assertEqual(list(commands_of("```\n./settle --help\n```\n")), [("--help", None)])


if __name__ == "__main__":
    unittest.main()
