"""docs/rules.md is what tools/rules.py prints. Its list says only what the script doesn't find, and a wrong list is told. What is found
in the code is shown on crates that are made here."""
import pathlib
import subprocess
import sys
import tempfile
import unittest
from unittest import mock

from programs import HOME  # which has the modules of tools/ found
import rules
import wrong_bodies

PAGE = HOME / "docs" / "rules.md"
SPECS = """\
-- Rates.

-- what two rates have
pub record Rates : Type 0 where
  pub first : ℕ
  pub second : ℕ

-- a number, added to itself
abbrev pub doubled : ℕ → ℕ
doubled n = n + n

-- nobody's
abbrev pub alone : ℕ
alone = 0
"""
CODE = """\
//! Rates.

ghost use Rattle.hh_low.specs.Rates.{Rates, doubled as twice};

/// A rate.
pub struct Rate {
    units: u32,
}

impl Rate {
    /// The rate, added to itself.
    pub fn twofold(&self) -> u32
        ensures { result ≡ twice self.units }
    {
        add(self.units, self.units)
    }

    /// The rate.
    pub fn units(&self) -> u32
        ensures { result ≡ self.units }
    {
        self.units
    }
}

/// A sum. It is not alone.
fn add(a: u32, b: u32) -> u32
    ensures { result ≡ a + b }
{
    a.wrapping_add(b)
}

/// Nothing: a law.
pub fn adds()
    ensures law { forall n. twice n ≡ n + n }
{}
"""
OVER = """\
ghost use Rattle.hh_low.specs.Rates.{doubled};

/// The units of a rate, added to themselves.
pub fn twofold(rate: &Rate) -> u32
    ensures { result ≡ doubled rate.units }
{
    rate.twofold()
}
"""
EDITS = {
    "hh_low/must-fail/rate_once.edit": "file: src/rate.rt\nold: add(self.units, self.units)\nnew: self.units\n",
    "hh_low/must-fail-by-hand/sum_of_one.edit": "file: src/rate.rt\nold: a.wrapping_add(b)\nnew: a\n",
    "hh_high/must-fail/rate_untouched.edit": "file: src/lib.rt\nold: rate.twofold()\nnew: rate.units()\n",
}
FILES = {
    "hh_low/specs/Lib.antt": "pub mod Rates\n",
    "hh_low/specs/Rates.antt": SPECS,
    "hh_low/src/rate.rt": CODE,
    "hh_high/src/lib.rt": OVER,
    **EDITS,
}
DOUBLED = ": Twice\n  defined hh_low/Rates doubled\n  stated market.md#rounding\n"


class Page(unittest.TestCase):
    needs_programs = False

    def test_the_page_is_what_the_script_prints(self):
        made = subprocess.run([sys.executable, "-B", HOME / "tools" / "rules.py"], capture_output=True, text=True)
        self.assertEqual((made.returncode, made.stderr), (0, ""))
        self.assertEqual(PAGE.read_text(encoding="utf-8"), made.stdout, "tools/rules.py > docs/rules.md")

    def test_the_list_says_only_what_is_not_found(self):
        code, asked = rules.Code(rules.CRATES), 0
        for rule in rules.parts_of(rules.LIST.read_text(encoding="utf-8")):
            if isinstance(rule, rules.Rule):
                with self.subTest(rule.words):
                    crate = rule.defined[-1][0].partition("/")[0]
                    naming, turns, bodies = rules.found_code(code, rule)
                    listed = [code.function(of or crate, name) for of, names in rule.code for name in names]
                    self.assertEqual([], [one for one in listed if one in [*naming, *turns]])
                    self.assertEqual([], [name for name in rule.wrong if name in bodies])
                    self.assertTrue(rule.wrong or bodies, "no wrong body")
                asked += 1
        self.assertGreater(asked, 150)


class Found(unittest.TestCase):
    needs_programs = False

    def setUp(self):
        room = tempfile.TemporaryDirectory()
        self.addCleanup(room.cleanup)
        self.crates = pathlib.Path(room.name) / "crates"
        at_home = mock.patch.object(wrong_bodies, "HOME", self.crates.parent)
        at_home.start()
        self.addCleanup(at_home.stop)
        for place, text in FILES.items():
            (self.crates / place).parent.mkdir(parents=True, exist_ok=True)
            (self.crates / place).write_text(text, encoding="utf-8")

    def found(self, text):
        """The functions and the wrong bodies that are found for the rule of a list."""
        (rule,) = rules.parts_of(text)
        naming, turns, bodies = rules.found_code(rules.Code(self.crates), rule)
        return [f"{one.crate}: {one.shown()}" for one in [*naming, *turns]], bodies

    def test_what_names_a_definition(self):
        """The contracts of the definition's crate, a law's too. Their wrong bodies."""
        self.assertEqual((["hh_low: `Rate::twofold`", "hh_low: `adds`"], ["rate_once"]), self.found(f"{DOUBLED}  test a"))

    def test_what_a_wrong_body_turns(self):
        functions, bodies = self.found(f"{DOUBLED}  test a\n  wrong sum_of_one")
        self.assertEqual((["hh_low: `Rate::twofold`", "hh_low: `adds`", "hh_low: `add`"], ["rate_once"]), (functions, bodies))

    def test_what_is_named_by_other_crates_alone(self):
        (self.crates / "hh_low/src/rate.rt").write_text(CODE.replace("twice", "Rates"), encoding="utf-8")
        self.assertEqual((["hh_high: `twofold`"], ["rate_untouched"]), self.found(f"{DOUBLED}  test a"))

    def test_what_nothing_names(self):
        self.assertEqual(([], []), self.found(DOUBLED.replace("doubled", "alone") + "  test a"))
        self.assertEqual(([], []), self.found(DOUBLED.replace("doubled", "first") + "  test a"))

    def test_definitions_that_many_name(self):
        """Their wrong bodies are of many rules."""
        more = "".join(f"\npub fn more_{n}()\n    ensures {{ twice {n} ≡ 2 * {n} }}\n{{}}\n" for n in range(rules.MOST))
        (self.crates / "hh_low/src/rate.rt").write_text(CODE + more, encoding="utf-8")
        functions, bodies = self.found(f"{DOUBLED}  test a")
        self.assertEqual((2 + rules.MOST, []), (len(functions), bodies))


class Lists(unittest.TestCase):
    needs_programs = False

    def test_where_a_rule_is_stated(self):
        """A heading of a page, or the head of a crate."""
        self.assertEqual("[market](market.md#rounding)", rules.link_to("market.md#rounding"))
        self.assertEqual("[hh_day](../crates/hh_day/src/lib.rt)", rules.link_to("hh_day"))

    def test_lists_that_are_wrong(self):
        code = rules.Code(rules.CRATES)
        late = ": A late row\n  defined hh_rules/Lateness is_in_time\n  stated market.md#rounding\n  test a\n"
        self.assertEqual(1, len(list(rules.page(code, late.rstrip("\n")))))
        for wrong, told in (
            (late.replace("is_in_time", "is_on_time"), "rules.txt: hh_rules/Lateness has no is_on_time"),
            (late.replace("Lateness", "Late"), "rules.txt: hh_rules/Late has no is_in_time"),
            (f"{late}  wrong row_at_no_deadline", "rules.txt: there is no wrong body row_at_no_deadline"),
            (f"{late}  code take_no_row", "rules.txt: hh_rules has 0 functions take_no_row, and not one"),
            (f"{late}  code hh_names read", "rules.txt: hh_names has 5 functions read, and not one"),
            (f"{late}  coded take_row", "rules.txt: A late row: what is 'coded take_row'?"),
            (f"{late}  code", "rules.txt: A late row: what is 'code'?"),
            (f"{late}  defined hh_rules/Lateness", "rules.txt: A late row: what is 'defined hh_rules/Lateness'?"),
            (late.replace("  test a\n", ""), "rules.txt: A late row: there is no line 'test'"),
        ):
            with self.subTest(told), self.assertRaises(rules.Unknown) as fault:
                list(rules.page(code, wrong.rstrip("\n")))
            self.assertEqual(told, str(fault.exception))


if __name__ == "__main__":
    unittest.main()
