"""docs/promises.md: each function that it names by its path exists, each clause that a table names behind a function is in the
contract of that function, and each other name on the page is in the code or in the documents. Each public function has a
clause, or the page lists it among those about which no clause says anything."""
import functools
import re
import unittest

from programs import HOME

PAGE = HOME / "docs" / "promises.md"
NAME = re.compile(r"`([^`]+)`")
CONTRACT = re.compile(r"\bfn (\w+)\b(.*?)(?:\{\}?$|;$)", re.MULTILINE | re.DOTALL)
CLAUSE = re.compile(r"\bensures (\w+) \{")
BLOCK = re.compile(r"^(?:pub )?(?:impl\b(?:<[^>]*>)? (?:[\w<>', ]+ for )?|trait )(\w+)[^\n]*\{\n(.*?)^\}", re.MULTILINE | re.DOTALL)
PUBLIC = re.compile(r"(\s*)pub (?:const )?fn (\w+)")
DEFINED = re.compile(r"^\s*(?:(?:abbrev|unfoldable|opaque) )?pub (?:record |data )?([\w']+)", re.MULTILINE)
DECLARED = re.compile(r"\b(?:fn|struct|enum|trait|type|const|ghost) (\w+)")
VARIANT = re.compile(r"^ {4}([A-Z]\w+)(?:[,(]| \{)", re.MULTILINE)
USED = re.compile(r"^\s*(?:ghost |pub )?use (.*);$", re.MULTILINE)


@functools.cache
def texts_of(crate):
    """The texts of a crate's code, without its tests."""
    files = sorted((HOME / "crates" / crate / "src").glob("**/*.rt"))
    return [file.read_text(encoding="utf-8") for file in files if "tests" not in file.name]


def clauses_in(text):
    """The clauses of the functions of each name."""
    found = {}
    for name, contract in CONTRACT.findall(text):
        found.setdefault(name, set()).update(CLAUSE.findall(contract))
    return found


@functools.cache
def clauses_at(path):
    """The clauses of the function at a path `crate::function` or `crate::Type::function`, or None if there is none."""
    crate, *kind, name = path.split("::")
    text = "\n".join(texts_of(crate))
    if kind:
        text = "\n".join(block for of, block in BLOCK.findall(text) if of == kind[0])
    return clauses_in(text).get(name)


def paths_in(cell):
    """The paths of functions in a cell, each with the clauses behind it."""
    for part in cell.split(";"):
        path, *clauses = [name for name in NAME.findall(part)] or [None]
        if path is not None and "::" in path:
            yield path, clauses if f"`{path}`: " in part else []


def tables_of(text):
    """The heads of each table, and the cells of each row under them."""
    heads = None
    for line in text.split("\n"):
        cells = [cell.strip() for cell in line.strip("|").split(" | ")]
        if not line.startswith("|"):
            heads = None
        elif heads is None:
            heads = cells
        elif not line.startswith("|-"):
            yield heads, cells


@functools.cache
def names_in_code():
    """Each name of a function, a clause, a type, a variant or a definition."""
    found = set()
    for crate in (path.parent.name for path in HOME.glob("crates/*/src")):
        for text in texts_of(crate):
            found.update(CLAUSE.findall(text), DECLARED.findall(text), VARIANT.findall(text))
            found.update(word for used in USED.findall(text) for word in re.findall(r"\w+", used))
    for file in HOME.glob("crates/*/specs/**/*.antt"):
        found.update(DEFINED.findall(file.read_text(encoding="utf-8")))
    return found


@functools.cache
def other_pages():
    """What the page's other names may be: words of a command line, or of another crate's or the toolchain's documents."""
    pages = [HOME / "README.md", HOME / "CONTRIBUTING.md", HOME / "tests" / "README.md", *(HOME / "docs").glob("*.md")]
    return "\n".join(page.read_text(encoding="utf-8") for page in pages if page != PAGE)


def is_there(name):
    """Whether a name on the page names something."""
    if name.startswith("hh_") and "::" not in name:
        return (HOME / "crates" / name).is_dir()
    if name.startswith("hh_"):
        return clauses_at(name) is not None
    if "::" in name:
        crates = sorted(path.parent.name for path in HOME.glob("crates/*/src"))
        return any(clauses_at(f"{crate}::{name}") is not None for crate in crates)
    if "/" in name:
        return "NAME" in name or (HOME / name).exists()
    return name in names_in_code() or f"`{name}" in other_pages()


def public_without_clause():
    """Each public function without a clause in its contract, by its crate. Crates of tests have none, nor have programs."""
    found = {}
    for crate in sorted(path.parent.name for path in HOME.glob("crates/*/src")):
        if crate.startswith("hh_tests_"):
            continue
        for text in texts_of(crate):
            lines = text.split("\n")
            for at, line in enumerate(lines):
                begins = PUBLIC.match(line)
                if begins and not has_clause(lines, at, begins[1]):
                    found.setdefault(crate, set()).add(begins[2])
    return found


def has_clause(lines, at, indent):
    """Whether the function that begins at a line has a clause between this line and its body."""
    for line in lines[at:]:
        if re.match(r"\s+ensures\b", line):
            return True
        if line in (indent + "{", indent + "{}") or re.search(r"(?<!ensures) \{\}?$", line):
            return False
    return False


class Promises(unittest.TestCase):
    needs_programs = False

    def test_each_clause_is_in_a_contract(self):
        asked = 0
        for heads, cells in tables_of(PAGE.read_text(encoding="utf-8")):
            if "Proved by" in heads:
                with self.subTest(cells[0]):
                    asked += self.check_cell(cells[heads.index("Proved by")])
        self.assertGreater(asked, 60)

    def check_cell(self, cell):
        """Checks the functions and clauses of a cell, and returns how many clauses there are."""
        paths = list(paths_in(cell))
        self.assertTrue(paths, "no function is named")
        for path, clauses in paths:
            known = clauses_at(path)
            self.assertIsNotNone(known, path)
            for clause in clauses:
                self.assertIn(clause, known, path)
        return sum(len(clauses) for _, clauses in paths)

    def test_misspelt_functions_and_clauses(self):
        self.assertEqual(self.check_cell("for one `hh_rules::Register::check_row`: `answer`, `least`; by `hh_desk::serve_each`: `serves`"), 3)
        for cell in (
            "`hh_rules::Register::chekc_row`: `answer`",
            "`hh_rules::Register::check_row`: `anwser`",
            "`hh_calc::Register::check_row`: `answer`",
            "`hh_rules::FileRows::check_row`: `answer`",
            "`hh_rules::Register::check_row`: `answer`; `hh_desk::serve_each`: `least`",
            "`answer`",
        ):
            with self.subTest(cell), self.assertRaises(AssertionError):
                self.check_cell(cell)

    def test_each_name_is_there(self):
        names = set(NAME.findall(PAGE.read_text(encoding="utf-8")))
        self.assertGreater(len(names), 100)
        self.assertEqual([], sorted(name for name in names if not is_there(name)))

    def test_misspelt_names(self):
        for name in "hh_rule", "hh_rules::Register::chekc_row", "Register::chekc_row", "ServesFro", "judge_fiel", "tests/test_promise.py":
            with self.subTest(name):
                self.assertFalse(is_there(name))

    def test_functions_about_which_no_clause_says_anything(self):
        listed = {}
        for heads, cells in tables_of(PAGE.read_text(encoding="utf-8")):
            if heads[:2] == ["Crate", "Functions"]:
                for crate in NAME.findall(cells[0]):
                    listed[crate] = set(NAME.findall(cells[1]))
        self.assertEqual(public_without_clause(), listed)

    def test_where_a_clause_is_looked_for(self):
        for text, found in (
            ("pub fn a()\n    ensures { x }\n{}", True),
            ("pub fn a() -> u8 {\n    ensures { x }", False),
            ("pub fn a(\n    b: u8,\n)\n    requires { x }\n{\n}\npub fn c()\n    ensures { x }\n{}", False),
            ("pub fn a(\n    b: u8,\n) -> u8\n    requires { x }\n    ensures y { z }\n{", True),
        ):
            with self.subTest(text):
                self.assertEqual(has_clause(text.split("\n"), 0, ""), found)


if __name__ == "__main__":
    unittest.main()
