"""The head of each crate: the `//!` lines with which its `src/lib.rt` or `src/main.rt` begins. It has a few words on what the crate is
for, and a paragraph of two to six sentences on what its contracts promise and what is only tested. Each call, type, clause and
definition that these name is there, and each call is offered by the crate or by one that it uses."""
import functools
import re
import unittest

from programs import HOME
from sources import crates_below, uses_of_crates
from test_promises import CLAUSE, DEFINED, NAME, VARIANT, texts_of

OFFERED = re.compile(r"^pub use (?:\w+::)*(?:\{([^}]*)\}|(\w+));|^pub fn (\w+)", re.MULTILINE)
BLOCK = re.compile(
    r"^(?:pub )?(?P<head>trait|impl\b(?:<[^>]*>)?) (?P<of>[\w<>', ]+ for )?(?P<kind>\w+)[^\n]*\{\n(?P<body>.*?)^\}",
    re.MULTILINE | re.DOTALL,
)
FUNCTION = re.compile(r"^(?:pub(?:\(crate\))? )?fn (\w+)", re.MULTILINE)
METHOD = re.compile(r"^    (pub )?(?:const )?fn (\w+)", re.MULTILINE)
OTHER = re.compile(r"\b(?:struct|enum|trait|type|ghost) (\w+)")
SENTENCE = re.compile(r"[.?!](?=\s+[^a-z\s]|\s*$)")
WIDTH = 100


@functools.cache
def root_of(crate):
    """The text of a crate's root file, and whether that is a library."""
    library = HOME / "crates" / crate / "src" / "lib.rt"
    file = library if library.is_file() else library.with_name("main.rt")
    return file.read_text(encoding="utf-8"), file == library


def paragraphs_of(text):
    """The paragraphs of the head with which a root file begins, each as its lines. A list is none."""
    head = re.match(r"(?://!.*\n)*", text)[0]
    blocks = [block.split("\n") for block in re.sub(r"(?m)^//! ?", "", head).strip("\n").split("\n\n")]
    return [lines for lines in blocks if not lines[0].startswith("- ")]


def sentences_in(lines):
    """How many sentences the lines of a paragraph have."""
    return len(SENTENCE.findall(" ".join(lines)))


def offered_by(crate):
    """The names that a library offers by `pub use`, or as functions of its root file."""
    return {name for parts in OFFERED.findall(root_of(crate)[0]) for part in parts for name in re.findall(r"\w+", part)}


def methods_in(text):
    """Each method of a text behind its type or trait, without those that only its crate may call."""
    for block in BLOCK.finditer(text):
        for public, name in METHOD.findall(block["body"]):
            if public or block["of"] or block["head"] == "trait":
                yield f"{block['kind']}::{name}"


@functools.cache
def calls_of(crate):
    """The functions that a crate offers. Those of a program are all that it has outside of its types."""
    texts = texts_of(crate)
    functions = {name for text in texts for name in FUNCTION.findall(text)}
    if not root_of(crate)[1]:
        return functions
    offered = offered_by(crate)
    return (functions & offered) | {name for text in texts for name in methods_in(text) if name.split("::")[0] in offered}


@functools.cache
def other_names_of(crate):
    """The types, traits, clauses and definitions of a crate, with their variants and fields."""
    found = set()
    for text in texts_of(crate):
        found.update(OTHER.findall(text), CLAUSE.findall(text), VARIANT.findall(text))
    for file in (HOME / "crates" / crate / "specs").glob("**/*.antt"):
        found.update(DEFINED.findall(file.read_text(encoding="utf-8")))
    return found


def is_call(crate, name):
    """Whether a name is that of a function that a crate offers, or one that it uses. Behind the name of any crate it is of that one."""
    of, _, path = name.partition("::")
    if of in uses_of_crates():
        return path in calls_of(of)
    return any(name in calls_of(one) for one in crates_below(crate, uses_of_crates()))


def is_named(crate, name):
    """Whether a name is that of such a function, of something else that these crates have, of a crate, or of a file."""
    uses = uses_of_crates()
    if is_call(crate, name) or name in uses or any(name in used for used in uses.values()):
        return True
    return any(name in other_names_of(one) for one in crates_below(crate, uses)) or (HOME / name).exists()


class Heads(unittest.TestCase):
    needs_programs = False

    def test_each_crate_has_its_paragraph(self):
        for crate in uses_of_crates():
            with self.subTest(crate):
                text, _ = root_of(crate)
                said, paragraph = paragraphs_of(text)[:2]
                self.assertRegex(said[-1], r"\.$")
                self.assertIn(sentences_in(paragraph), range(2, 7))
                self.assertLessEqual(max(len(f"//! {line}") for line in paragraph), WIDTH)

    def test_each_name_is_there(self):
        """And each paragraph names a call, except those of tests."""
        for crate in uses_of_crates():
            with self.subTest(crate):
                names = NAME.findall(" ".join(line for lines in paragraphs_of(root_of(crate)[0])[:2] for line in lines))
                self.assertEqual([], [name for name in names if not is_named(crate, name)])
                if not crate.startswith("hh_tests_"):
                    self.assertTrue([name for name in names if is_call(crate, name)], "no call is named")

    def test_names_that_are_not_there(self):
        for crate, name in (
            ("hh_rules", "Register::judge_fiel"),
            ("hh_rules", "judge_file"),  # of `Register`
            ("hh_rules", "Register::timing_of"),  # which only the crate itself calls
            ("hh_calc", "hh_rules::Register::chekc_row"),
            ("hh_calc", "ledger_of"),
            ("hh_num", "Register::judge_file"),  # of a crate above
            ("hh_num", "hh_rule"),
        ):
            with self.subTest(crate=crate, name=name):
                self.assertFalse(is_named(crate, name))

    def test_names_that_are_there(self):
        for crate, name in (
            ("hh_rules", "Register::judge_file"),
            ("hh_calc", "settle_period"),
            ("hh_calc", "too_large"),
            ("hh_calc", "hh_state_laws::nets_settle_alike"),
            ("hh_http_serve", "Office::handle"),
            ("hh_settle", "command_on"),
            ("hh_words", "clap"),
            ("hh_settle", "settle"),
        ):
            with self.subTest(crate=crate, name=name):
                self.assertTrue(is_named(crate, name))

    def test_what_a_paragraph_is(self):
        text = "//! For this.\n//!\n//! - a list\n//!\n//! It gives 3.7, as `a::b` says. `c` gives\n//! nothing. No more?\n#![tactic(auto)]\n//! Not this.\n"
        said, paragraph = paragraphs_of(text)
        self.assertEqual(said, ["For this."])
        self.assertEqual(paragraph, ["It gives 3.7, as `a::b` says. `c` gives", "nothing. No more?"])
        self.assertEqual(sentences_in(paragraph), 3)


if __name__ == "__main__":
    unittest.main()
