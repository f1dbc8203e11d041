"""The rows of docs/rules.md: each definition, function, wrong body, test and heading that a row names exists. In
docs/architecture.md each crate has its row in the table of layers, below the crates that it uses. Each function in the picture of
the way of a file and of a run exists, and the one rule that is followed from end to end has what its row says."""
import functools
import itertools
import re
import unittest

from programs import HOME
from test_promises import clauses_at

PAGE = HOME / "docs" / "architecture.md"
RULES = HOME / "docs" / "rules.md"
LAYERS = "| Layer | Crate | Its question |"
HEAD = "| Rule | Definition | Code | Wrong body | Test | Stated in |"
NAME = re.compile(r"`([^`]+)`")
PATH = re.compile(r"\bhh_\w+(?:::\w+)+")
LINK = re.compile(r"\]\(([\w.]+)#([\w-]+)\)")
ROOT = re.compile(r"\[(hh_\w+)\]\(\.\./(crates/(hh_\w+)/src/lib\.rt)\)")


def rows_of(text, head=HEAD):
    """The cells of each row of the tables with this head, by default those of the rules."""
    for table in text.split(head)[1:]:
        for line in itertools.takewhile(lambda line: line.startswith("|"), table.split("\n")[2:]):
            yield [cell.strip() for cell in line.strip("|").split(" | ")]


@functools.cache
def text_of(folder, ending):
    return "\n".join(file.read_text(encoding="utf-8") for file in sorted(HOME.glob(f"{folder}/*{ending}")))


@functools.cache
def names_of_tests():
    tests = text_of("crates/*/src/**", ".rt") + text_of("tests", ".py")
    return set(re.findall(r"(?:#\[test\]\n\s*fn|\bdef) (\w+)\(", tests))


def slug_of(heading):
    """The anchor of a heading."""
    return re.sub(r"[^\w\- ]", "", heading.lower()).replace(" ", "-")


class Index(unittest.TestCase):
    needs_programs = False

    def test_each_row_names_what_is_there(self):
        rows = list(rows_of(RULES.read_text(encoding="utf-8")))
        self.assertGreater(len(rows), 150)
        for rule, definition, code, wrong_body, test, page in rows:
            with self.subTest(rule):
                crate = self.check_definition(definition)
                self.check_code(crate, code)
                self.check_wrong_body(wrong_body)
                self.check_test(test)
                self.check_page(page)

    def test_each_crate_has_its_row(self):
        """Each crate has one row, below the crates on which it depends by crates.txt."""
        depends = dict(re.findall(r"(?m)^(hh_\w+):(.*)$", (HOME / "crates.txt").read_text(encoding="utf-8")))
        self.assertEqual(sorted(depends), sorted(path.parent.name for path in HOME.glob("crates/*/src")))
        rows = list(rows_of(PAGE.read_text(encoding="utf-8"), LAYERS))
        crates = [crate.strip("`") for _, crate, _ in rows]
        self.assertEqual(sorted(depends), sorted(crates))
        for at, (crate, (_, _, question)) in enumerate(zip(crates, rows)):
            with self.subTest(crate):
                self.assertEqual(set(), set(depends[crate].split()) & set(crates[at:]))
                self.assertRegex(question, r"\?$")

    def test_the_way_of_a_file_and_of_a_run(self):
        """Each function is where its path says, and the picture is short."""
        picture = self.section("The way of a file and of a run").split("```")[1]
        paths = PATH.findall(picture)
        self.assertGreater(len(paths), 40)
        self.assertEqual([], [path for path in paths if clauses_at(path) is None])
        lines = picture.strip().split("\n")
        self.assertLessEqual(len(lines), 60)
        self.assertLessEqual(max(map(len, lines)), 100)

    def test_the_rule_that_is_followed(self):
        """The section names all that the rule's row names. The files and the other rules that it names are there."""
        section = self.section("One rule from end to end")
        rules = RULES.read_text(encoding="utf-8")
        (row,) = [cells for cells in rows_of(rules) if cells[0] == "A late row"]
        for name in NAME.findall(" ".join(row)):
            self.assertIn(name, section)
        for place in re.findall(r"`((?:crates|tests)/[^` ]*\.\w+)`", section):
            self.assertTrue((HOME / place).is_file(), place)
        for name in re.findall(r'"([A-Z][^".]*)"', section):
            self.assertIn(f"| {name} |", rules)

    def section(self, heading):
        """The text of a section of the page."""
        return PAGE.read_text(encoding="utf-8").split(f"\n## {heading}\n")[1].split("\n## ")[0]

    def check_definition(self, cell):
        """A definition is in the file that the cell names before it. Returns the crate of the last file."""
        for part in cell.split(";"):
            place, *names = NAME.findall(part)
            crate, _, file = place.partition("/")
            text = (HOME / "crates" / crate / "specs" / f"{file}.antt").read_text(encoding="utf-8")
            for name in names:
                self.assertTrue(re.search(rf"(?m)^\s*(?:(?:abbrev|unfoldable) )?pub (?:record )?{re.escape(name)}\b", text), name)
        return crate

    def check_code(self, crate, cell):
        """The functions are in the definition's crate, or in the crate with which their part of the cell begins."""
        for part in cell.split("; "):
            elsewhere, names = re.fullmatch(r"(?:`(hh_\w+)`: )?(.*)", part).groups()
            text = text_of(f"crates/{elsewhere or crate}/src/**", ".rt")
            self.assertTrue(NAME.findall(names), cell)
            for name in NAME.findall(names):
                self.assertTrue(re.search(rf"\bfn {re.escape(name.split('::')[-1])}\b", text), name)

    def check_wrong_body(self, cell):
        for name in NAME.findall(cell):
            found = [*HOME.glob(f"crates/*/must-fail/{name}.edit"), *HOME.glob(f"crates/*/must-fail-by-hand/{name}.edit")]
            self.assertTrue(found, f"no wrong body {name}")

    def check_test(self, cell):
        names = NAME.findall(cell)
        self.assertTrue(names)
        for name in names:
            self.assertIn(name, names_of_tests())

    def check_page(self, cell):
        """A page is named with one of its headings, and a crate with the file whose head is meant."""
        self.assertTrue(LINK.findall(cell) or ROOT.findall(cell), "no page is named")
        for file, anchor in LINK.findall(cell):
            headings = re.findall(r"(?m)^#+ (.*)$", (HOME / "docs" / file).read_text(encoding="utf-8"))
            self.assertIn(anchor, map(slug_of, headings))
        for name, file, crate in ROOT.findall(cell):
            self.assertEqual(name, crate)
            self.assertTrue((HOME / file).is_file(), file)


if __name__ == "__main__":
    unittest.main()
