"""docs/machine.md: it is what tools/machine.py prints, and has each definition that the machine's `step` reaches. The imports that
this is found by are followed through what crates offer on. The page tells each clause of the contracts that say what the program
does."""
import contextlib
import io
import pathlib
import re
import tempfile
import unittest

from programs import HOME  # which has the modules of tools/ found
from specs import Definition, Module, Specs, Type, Unresolved, name_of
from test_promises import clauses_at, is_there, paths_in, tables_of
import machine

PAGE = HOME / "docs" / "machine.md"
STEP = "hh_office.specs.Machine.step"
# The comment that names the file of what stands under it.
PLACE = re.compile(r" *(?:--|///) (\w+/[\w/]+): ")
# The functions whose contracts say what the program does.
TOLD = "hh_office::Office::handle", "hh_session::run_script", "hh_kept_office::run_errand_in_database"


class OnPage:
    """What a page has: lines in blocks, each with the file that the block names for it, and the names in the table of the rest."""

    def __init__(self, text):
        self.lines, self.named = set(), set()
        for block in text.split("```")[1::2]:
            place = None
            for line in block.split("\n"):
                at = PLACE.match(line)
                place = at[1] if at else place
                self.lines.add((place, line))
        for heads, cells in tables_of(text):
            if heads[0] == "Crate":
                for part in cells[1].split("; "):
                    file, names = re.fullmatch(r"\*([\w/]+)\*: (.*)", part).groups()
                    self.named.update(f"{cells[0].strip('`')}/{file} {name}" for name in re.findall(r"`([^`]+)`", names))

    def has(self, one):
        """Whether the page has a definition or a type, or names it with its crate and its file. Of a type the first line will do."""
        lines = one.lines[:1] if isinstance(one, Type) else machine.body_of(one)
        return name_of(one) in self.named or all((f"{one.crate}/{one.module}", line) in self.lines for line in lines)


def modules(specs):
    """Each file of specs/ of each crate."""
    for path in sorted(specs.crates.glob("*/specs/**/*.antt")):
        parts = path.relative_to(specs.crates).with_suffix("").parts
        yield Module(parts[0], () if parts[2:] == ("Lib",) else parts[2:], False)


class Page(unittest.TestCase):
    needs_programs = False

    def setUp(self):
        self.text = PAGE.read_text(encoding="utf-8")
        self.specs = Specs(HOME / "crates")

    def test_the_page_is_what_the_script_prints(self):
        said = io.StringIO()
        with contextlib.redirect_stdout(said):
            self.assertEqual(0, machine.main())
        self.assertTrue(said.getvalue() == self.text, "tools/machine.py > docs/machine.md")

    def test_one_sitting(self):
        self.assertLessEqual(self.text.count("\n"), 400)
        notation = self.text.split("\n## Notation\n\n")[1].split("\n\n## ")[0]
        self.assertLessEqual(notation.count("\n") + 1, 10)

    def test_what_step_reaches_is_on_the_page(self):
        page, reached = OnPage(self.text), self.specs.reached([self.specs.place(STEP)])
        self.assertGreater(len(reached), 300)
        self.assertEqual([], sorted(name_of(one) for one in reached if not page.has(one)))

    def test_what_is_left_out_is_missed(self):
        for left_out, name in (
            ("\n  | row.Reallocation r ↦ is_before_deadline", "hh_rules.specs.Lateness.is_in_time"),
            ("-- hh_rules/Lateness: ", "hh_rules.specs.Lateness.is_in_time"),
            ("\npub enum Action {", "hh_requests.specs.declared.request.Action"),
            (" `latest`", "hh_tables.specs.Tables.latest"),
        ):
            with self.subTest(left_out):
                self.assertIn(left_out, self.text)
                self.assertFalse(OnPage(self.text.replace(left_out, "")).has(self.specs.place(name)))

    def test_each_import_leads_somewhere(self):
        asked = 0
        for module in modules(self.specs):
            for _, _, path in self.specs.imports(module):
                self.specs.place(path)
                asked += 1
        self.assertGreater(asked, 3000)

    def test_each_clause_is_told(self):
        told = {}
        for heads, cells in tables_of(self.text):
            if "Proved by" in heads:
                for path, clauses in paths_in(cells[heads.index("Proved by")]):
                    told.setdefault(path, []).extend(clauses)
        self.assertEqual(sorted(TOLD), sorted(told))
        for path, clauses in told.items():
            with self.subTest(path):
                self.assertEqual(sorted(clauses_at(path)), sorted(clauses))

    def test_each_name_in_words_is_there(self):
        words = "".join(self.text.split("\n## Notation\n")[0] + self.text.split("\n## What is kept")[1].split("\n## The other")[0])
        names = set(re.findall(r"`([a-zA-Z_]+)`", "".join(words.split("```")[::2])))
        self.assertGreater(len(names), 20)
        self.assertEqual([], sorted(name for name in names if not is_there(name)))

    def test_the_code_of_each_section_is_there(self):
        sections = self.text.split("\n## What is kept")[1].split("\n## What is proved")[0].split("\n## ")[1:]
        for section in sections:
            paths = re.findall(r"`(hh_\w+::[\w:]+)`", section)
            with self.subTest(section.split("\n")[0]):
                self.assertTrue(paths)
                self.assertEqual([], [path for path in paths if clauses_at(path) is None])

    def test_a_name_that_is_not_there(self):
        for line in ": hh_office/Machine stepp", ": hh_office/Machin step", ": hh_offic/Machine step":
            with self.subTest(line), self.assertRaises(machine.Unknown):
                list(machine.page(self.specs, line))


class Imports(unittest.TestCase):
    needs_programs = False

    def setUp(self):
        folder = tempfile.TemporaryDirectory()
        self.addCleanup(folder.cleanup)
        self.crates = pathlib.Path(folder.name)
        self.put("low/specs/Lib.antt", "pub mod Rates\n")
        self.put("low/specs/Rates.antt", RATES)
        self.put("low/src/lib.rt", "mod rate;\npub use rate::{Band, Rate};\n")
        self.put("low/src/rate.rt", RATE)
        self.put("middle/specs/Lib.antt", "pub mod Own\npub use Rattle.low.specs.Rates\npub use Rattle.low.specs.declared.rate\n")
        self.put("middle/specs/Own.antt", "-- another of the same name\nabbrev pub doubled : ℕ → ℕ\ndoubled n = n\n")
        self.put("high/specs/Lib.antt", "pub mod Uses\npub use Rattle.middle.specs.Rates as Prices\npub use Rattle.middle.specs.rate\n")
        self.put("high/specs/Uses.antt", "")
        self.put("middle/src/lib.rt", "pub use low::{Band as Range};\n")
        self.put("high/src/bill.rt", "use middle::Range;\n\n/// A bill.\npub struct Bill {\n    pub range: Range,\n}\n")
        self.specs = Specs(self.crates)

    def put(self, place, text):
        path = self.crates / place
        path.parent.mkdir(parents=True, exist_ok=True)
        path.write_text(text, encoding="utf-8")

    def named(self, text):
        """What a definition names whose file in the crate `high` has this text."""
        self.put("high/specs/Uses.antt", text)
        specs = Specs(self.crates)
        return sorted(name_of(one) for one in specs.names(specs.place("high.specs.Uses.asked")))

    def test_ways_to_one_definition(self):
        place = self.specs.place("low.specs.Rates.doubled")
        self.assertIsInstance(place, Definition)
        for path in "middle.specs.Rates.doubled", "high.specs.Prices.doubled":
            self.assertIs(place, self.specs.place(path))
        self.assertIsNot(place, self.specs.place("middle.specs.Own.doubled"))

    def test_ways_to_one_type(self):
        place = self.specs.place("low.specs.declared.rate.Band.Band")
        self.assertIsInstance(place, Type)
        for path in "middle.specs.rate.Band.Band", "high.specs.rate.Band.TheVariants.Low", "high.specs.rate.Band.TheVariants":
            self.assertIs(place, self.specs.place(path))

    def test_ways_that_lead_nowhere(self):
        self.put("round/specs/Lib.antt", "pub use Rattle.round.specs.Turn\n")
        self.put("hides/specs/Lib.antt", "use Rattle.low.specs.Rates\n")
        for path in "low.specs.Rates.halved", "high.specs.Rates", "middle.specs.declared.rate", "round.specs.Turn", "hides.specs.Rates":
            with self.subTest(path), self.assertRaises(Unresolved):
                self.specs.place(path)
        self.assertIsNone(self.specs.place("std.specs.Prelude.map"))

    def test_what_a_definition_names(self):
        uses = "use Rattle.high.specs.Prices.{doubled as twice, Rates}\nuse Rattle.high.specs.rate.Band.TheVariants as band\n"
        asked = "abbrev pub asked : Rates → ℕ\nasked rates = twice rates.first -- band\n"
        self.assertEqual(["low/Rates Rates", "low/Rates doubled"], self.named(uses + asked))
        self.assertEqual(["low/rate Band"], self.named(uses + "abbrev pub asked : ℕ → ℕ\nasked band.Low = 1\n"))
        # neither a label of a record nor a field that is taken is the definition of that name
        self.assertEqual([], self.named(uses + "abbrev pub asked : ℕ → ℕ\nasked n = (record { first = n; twice = n }).twice\n"))
        self.assertEqual(["low/Rates Rates"], self.named(f"{uses}module _ (rates : Rates) where\n  abbrev pub asked : ℕ\n  asked = 1\n"))

    def test_what_is_reached(self):
        reached = self.specs.reached([self.specs.place("high.specs.Prices.doubled"), self.specs.place("high.specs.rate.Rate")])
        self.assertEqual(
            ["low/Rates Rates", "low/Rates doubled", "low/Rates sum_of", "low/rate Band", "low/rate Rate"], sorted(map(name_of, reached))
        )

    def test_what_a_type_has(self):
        bill = self.specs.place("high.specs.declared.bill.Bill")
        self.assertEqual(["high/bill Bill", "low/rate Band"], sorted(map(name_of, self.specs.reached([bill]))))

    def test_how_a_block_is_printed(self):
        self.assertEqual(PRINTED.split("\n"), list(machine.page(self.specs, "Words.\n\n: low/rate Change\n: low/Rates Rates shared doubled")))


RATES = """\
-- Rates.

-- two rates
pub record Rates : Type 0 where
  pub first : ℕ
  pub second : ℕ

-- their sum
abbrev pub sum_of : Rates → ℕ
sum_of rates = rates.first + rates.second

-- a number, added to itself
unfoldable pub doubled : ℕ → ℕ
doubled n = sum_of (record { first = n; second = n })

-- for how many
module _ (count : ℕ) where
  -- what each gets,
  -- rounded down
  abbrev pub shared : ℕ → ℕ
  shared n = n / count

-- nothing names this
abbrev pub alone : ℕ
alone = 0
"""
RATE = """\
//! Rates.

/// Low or high.
pub enum Band {
    Low,
    High,
}

/// A rate.
pub struct Rate {
    pub band: Band,
    pub pence: u32,
}

/// What becomes of a rate.
pub enum Change {
    /// It is another.
    Changed {
        from: Band,
        to: Band,
    },
    Kept,
}
"""
# Without the types of functions, with a variant on one line, and with the file where another begins.
PRINTED = """\
Words.

```
/// low/rate: What becomes of a rate.
pub enum Change {
    Changed { from: Band, to: Band },
    Kept,
}
-- low/Rates: two rates
pub record Rates : Type 0 where
  pub first : ℕ
  pub second : ℕ
module _ (count : ℕ) where
  -- what each gets,
  -- rounded down
  shared n = n / count
-- a number, added to itself
doubled n = sum_of (record { first = n; second = n })
```"""


if __name__ == "__main__":
    unittest.main()
