"""docs/refusals.md: each refusal of the program has a section, with a meaning, a cure and an example, whose answer is the program's."""
import re
import subprocess
import unittest

from programs import HOME, SETTLE, settle
from test_desk import HEADERS
from test_documents import BLOCK
from test_http import Served, parts_of
from test_index import slug_of
from test_program import OfTheProgram

PAGE = (HOME / "docs/refusals.md").read_text(encoding="utf-8")
BEFORE, *PARTS = re.split(r"(?m)^### ", PAGE)
OPERATOR = "op-market001"
KINDS = {header: kind for kind, header in HEADERS.items()}
CALLS = re.compile(r"\A(?:GET|POST|DELETE) ")


def sections():
    """The number, the name and the text of each section, up to the next heading."""
    for part in PARTS:
        heading, _, text = part.partition("\n")
        number, name = heading.split(" ")
        yield int(number), name, re.split(r"(?m)^## ", text)[0]


def refusals():
    """The number and the name of each refusal in the code."""
    text = (HOME / "crates/hh_names/specs/Faults.antt").read_text(encoding="utf-8")
    numbers = dict(re.findall(r"(?m)^refusal_number refusal\.(\w+) = (\d+)$", text))
    names = dict(re.findall(r'(?m)^refusal_name refusal\.(\w+) = codes "(\w+)"$', text))
    return sorted((int(numbers[variant]), name) for variant, name in names.items())


class ThePage(unittest.TestCase):
    needs_programs = False

    def test_each_refusal_has_a_section(self):
        """The sections of each part of the page are in the order of their numbers."""
        found = [(number, name) for number, name, _ in sections()]
        self.assertEqual(sorted(found), refusals())
        for part in re.split(r"(?m)^## ", PAGE)[1:]:
            numbers = [int(number) for number in re.findall(r"(?m)^### (\d+) ", part)]
            self.assertEqual(numbers, sorted(numbers))

    def test_each_section_has_a_meaning_a_cure_and_an_example(self):
        """At least two sentences stand before the example, and the answer has the section's number and name."""
        for number, name, text in sections():
            with self.subTest(f"{number} {name}"):
                words, *_ = text.split("```")
                self.assertIn(len(re.findall(r"\.\s", words)), (2, 3), words)
                _, answer = BLOCK.findall(text)
                last = answer.splitlines()[-1]
                self.assertTrue(last.startswith(f"refused {number} {name}") or last.endswith(f'{{"name":"{name}","refused":{number}}}'), last)

    def test_the_page_of_http_leads_to_each(self):
        """Each refusal that docs/http.md shows leads to its section here."""
        page = (HOME / "docs/http.md").read_text(encoding="utf-8")
        shown = {(int(number), name) for name, number in re.findall(r'"name":"(\w+)",(?:"period":\d+,)?"refused":(\d+)', page)}
        for number, name in shown:
            heading = f"{number} {name}"
            self.assertTrue(f"**[{heading}](refusals.md#{slug_of(heading)})**" in page, heading)


class Examples(OfTheProgram):
    """The examples of the page, one after the other, over the office that the page makes."""

    def setUp(self):
        super().setUp()
        (self.room / "settle").symlink_to(SETTLE)
        (self.room / "examples").symlink_to(HOME / "examples")
        built = self.room / "crates/hh_settle/out/hh_settle"
        built.parent.mkdir(parents=True)
        built.symlink_to(SETTLE)

    def by_shell(self, lines):
        """What these lines print, and the status of the last."""
        made = subprocess.run(["sh", "-c", lines], cwd=self.room, stdin=subprocess.DEVNULL, stdout=subprocess.PIPE, stderr=subprocess.STDOUT)
        return made.returncode, made.stdout.decode()

    def loaded(self, text, name):
        """How loading this file ends: its kind is that of its header."""
        self.file(name, text)
        (moment,) = re.findall(r"`--at (\d+)`", BEFORE)
        kind = KINDS[text.partition("\n")[0]]
        status, out, err = settle("load", "--db", "refusals.db", "--key", OPERATOR, f"--at={moment}", kind, name, cwd=self.room)
        return status, (out + err).decode()

    def begin(self):
        """Makes the office that the page asks."""
        (made,) = BLOCK.findall(BEFORE)
        for line in made.splitlines():
            status, told = self.by_shell(line)
            self.assertEqual(status, 0, told)

    def test_each_example(self):
        self.begin()
        asked = set()
        for number, name, text in sections():
            example, answer = BLOCK.findall(text)
            if CALLS.match(example):
                continue
            with self.subTest(f"{number} {name}"):
                asked.add(number)
                is_file = example.partition("\n")[0] in KINDS
                self.assertEqual(self.loaded(example, f"{number}.csv") if is_file else self.by_shell(example), (1, answer))
        self.assertEqual(len(asked), len(PARTS) - 5)

    def test_each_request(self):
        """They are refused before the office is asked, so it may be any."""
        calls = [(text, *BLOCK.findall(text)) for _, _, text in sections() if CALLS.match(BLOCK.findall(text)[0])]
        served = Served(self, self.file("serve.script", f"serve 0 0 {len(calls)}\n"), OPERATOR, [])
        for _, head, answer in calls:
            with self.subTest(head):
                sent = f"{head}\n".replace("\n", "\r\n").encode()
                status, headers, body = parts_of(served.ask(sent))
                self.assertEqual(f"{status} {body}\n", answer)
                self.assertEqual("Allow" in headers, status == 405)
        served.end()


if __name__ == "__main__":
    unittest.main()
