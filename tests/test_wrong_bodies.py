"""Each wrong body that the gate doesn't try still changes the body of a function, has a name of its own, and was refused by the
contract that is there now. Also what the script that tries them counts as refused, and when its record no longer fits. The
wrong bodies of the gate and these change what `settle` runs, except for calls that are offered besides. The gate tries one of
each layer at least."""
import contextlib
import importlib
import io
import pathlib
import re
import shutil
import subprocess
import tempfile
import threading
import unittest
from unittest import mock

from programs import HOME
from test_index import LAYERS, rows_of

TRY = HOME / "tools" / "wrong_bodies.py"
BY_HAND = sorted(HOME.glob("crates/*/must-fail-by-hand/*.edit"))
# Calls that `settle` doesn't make: those for a single row, for a list of requests, for a date, for devices in memory, for a
# script over a new office in a database, and for commands over files of the disk model, with the parts of these. And the one for
# the account that leads a unit on a date, which no command asks for yet.
OFFERED = {
    "check_row", "apply_row", "run_all", "day_of", "day_number", "date_at", "in_pieces", "run_in_new_database",
    "answer", "answer_over",
}
# What the language calls without naming it.
UNNAMED = {"main", "fmt", "cmp", "partial_cmp", "eq", "from", "next", "clone", "drop", "default"}


def script():
    """The script that tries wrong bodies, as a module."""
    return importlib.import_module("wrong_bodies")


def by_hand(crate):
    """How many wrong bodies of a crate the gate doesn't try."""
    return sum(edit.parent.parent.name == crate for edit in BY_HAND)


def crates_of_settle():
    """The crate of `settle`, and all crates on which it depends."""
    lines = re.findall(r"(?m)^(\w+):(.*)$", (HOME / "crates.txt").read_text(encoding="utf-8"))
    depends, found, left = {name: words.split() for name, words in lines}, set(), ["hh_settle"]
    while left:
        crate = left.pop()
        if crate not in found:
            found.add(crate)
            left += depends.get(crate, [])
    return found


def names_in_bodies():
    """The names in the bodies of the functions of each name, in the crates of `settle`, without tests."""
    found, crates = {}, crates_of_settle()
    for file in HOME.glob("crates/*/src/**/*.rt"):
        if file.relative_to(HOME).parts[1] not in crates or "tests" in file.name:
            continue
        text = re.sub(r"//.*", "", file.read_text(encoding="utf-8"))
        starts = list(script().FUNCTION.finditer(text))
        for start, end in zip(starts, [*(other.start() for other in starts[1:]), len(text)]):
            body = re.compile(rf"(?m)^{start[1]}\{{|\{{$").search(text, start.end(), end)
            if body:
                found.setdefault(start[3], set()).update(re.findall(r"\w+", text[body.end() : end]))
    return found


def run_by_settle():
    """The names of the functions that `settle` may run, given the names in the bodies of those that it runs."""
    bodies, found, left = names_in_bodies(), set(), sorted(UNNAMED)
    while left:
        name = left.pop()
        if name in bodies and name not in found:
            found.add(name)
            left += bodies[name]
    return found


class WrongBodies(unittest.TestCase):
    needs_programs = False

    def test_each_turns_a_function(self):
        turned = script().turned
        self.assertTrue(BY_HAND)
        for edit in BY_HAND:
            crate = edit.parent.parent.name
            with self.subTest(edit=f"{crate}/{edit.name}"):
                self.assertTrue(turned(crate, edit))

    def test_each_turns_what_settle_runs(self):
        """Only names are compared, so a call with the name of another counts as one that `settle` makes."""
        turned, run = script().turned, run_by_settle()
        for crate in (HOME / "crates").iterdir():
            for edit in crate.glob("must-fail*/*.edit"):
                with self.subTest(edit=f"{crate.name}/{edit.name}"):
                    self.assertIn(turned(crate.name, edit)[-1][2], run | OFFERED)
        for name in OFFERED:
            self.assertNotIn(name, run)

    def test_each_has_a_name_of_its_own(self):
        """Also among those that the gate tries, because pages name them without their crates."""
        names = [edit.name for edit in HOME.glob("crates/*/must-fail*/*.edit")]
        self.assertEqual(sorted(names), sorted(set(names)))

    def tried(self, check):
        """How many wrong bodies of hh_rows are refused, and how many are not, if this function takes the place of the check. It
        is given the sources with those bodies in place, and returns what the check says."""
        own = HOME / "crates" / "hh_rows" / "src"
        told = lambda words, **how: subprocess.CompletedProcess(words, 1, check({file.name: file.read_text() for file in (how["cwd"] / "src").iterdir()}))
        with tempfile.TemporaryDirectory() as room:
            left = pathlib.Path(room) / "crates" / "hh_rows" / "src"
            shutil.copytree(own, left)
            names = {edit.stem for edit in BY_HAND if edit.parent.parent.name == "hh_rows"}
            with mock.patch("subprocess.run", told), contextlib.redirect_stdout(io.StringIO()):
                passed, failed = script().try_crate(pathlib.Path(room), "hh_rows", names)
            self.assertEqual({file.name: file.read_text() for file in left.iterdir()}, {file.name: file.read_text() for file in own.iterdir()})
        self.assertEqual(passed | failed, names)
        return len(passed), len(failed)

    def test_a_crate_has_its_own_bodies_again(self):
        """The crates above depend on it when theirs are tried. `tried` checks it."""
        seen = []
        self.tried(lambda files: seen.append(files["date_range.rt"]) or "")
        self.assertTrue(set(seen) - {(HOME / "crates" / "hh_rows" / "src" / "date_range.rt").read_text()})

    def test_what_the_compiler_refuses_is_not_refused(self):
        """No contract was tried then. All bodies are told as errors, but no line says that the crate is not proved."""
        said = "".join(f"src/{file}.rt:{line}:1: error[E0308]: mismatched types\n" for file, line in self.lines())
        edits = by_hand("hh_rows")
        self.assertEqual(self.tried(lambda files: said), (0, edits))
        self.assertEqual(self.tried(lambda files: f"{said}logic=not-proved functions=1\n"), (edits, 0))

    def test_what_tells_of_a_body(self):
        """A body is not refused if its proof only waits for another, names what is no longer there, or proves what the body no
        longer owes."""
        said = """\
./proofs/keys/idle/Answers.antt:6:32: error: `returns-clause`: expected type `Unit {0}`, but this has type `c.in-Some.y ≡ c.args.x`
  computed as far as they go, the two types are `Unit {0}` (expected) and `Path Prim.Native.Nat.ℕ c.in-Some.y c.args.x` (found)
./proofs/keys/long/Answers.antt:8:1: error: in `returns-clause`:
  computed as far as they go, the two types are `Unit {0}` (expected) and `Path Prim.Native.Nat.ℕ c.in-Some.y c.args.x` (found)
./proofs/keys/both/Answers.antt:6:32: error: `returns-clause`: expected type `Unit {0}`, but this has type `c.in-Some.y ≡ c.args.x`
./proofs/keys/both/Answers.antt:9:12: error: `returns`: expected type `result ≡ 1`, but this has type `Unit {0}`
./proofs/keys/named/Answers.antt:3:5: error: `returns`: `goal.returns`: module `Goals` has no `returns` that can be named from here
./proofs/keys/far/Answers.antt:4:9: error: `returns`: record `Lts.Past-After-found` (nearest: .found-2)
  has no field `found`
  the fields that can be named here are `before`, `found-2`
./proofs/keys/open/Answers.antt:3:5: error: `returns`: `search`: no proof of `result ≡ 1`
./proofs/keys/open/Answers.antt:9:1: error: 1 declaration that depends on `returns`, which was rejected, was not checked: clause
fn hh_rows::keys::named: not proved
fn hh_rows::keys::far: not proved
fn hh_rows::keys::open: not proved
fn hh_rows::keys::idle: not proved
fn hh_rows::keys::long: not proved
fn hh_rows::keys::both: not proved
fn hh_rows::keys::waits: not proved; it calls `hh_rows::keys::open`, which is not proved
fn hh_rows::keys::Key::bare: no proof: expected answers in ./proofs/keys/Key/bare/Answers.antt; `search` did not prove `returns`
fn hh_rows::keys::right: proved
"""
        told = set(script().told_of(HOME / "crates" / "hh_rows", said))
        self.assertEqual({name for _, name in told}, {"open", "bare", "both"})
        self.assertLessEqual({("keys", "open"), ("keys", "bare"), ("Key", "bare")}, told)

    def test_a_constant_belongs_to_the_function_that_gives_it(self):
        """It is refused where the fact about it, by which that function is proved, computes to something else."""
        module, tables = script(), "tables::contracts"
        folder = HOME / "crates" / "hh_sqlrows"
        text = (folder / "src" / "tables" / "contracts.rt").read_text(encoding="utf-8")
        for name, function in (("PUT", "put"), ("GROUP", "group"), ("ONE", "one"), ("ALL", "all"), ("UNDER", "under")):
            place = module.giver_of(text, text.index(f"const {name}"))
            self.assertEqual(module.function_at(text, place), ("Contracts", function))
        self.assertIsNone(module.giver_of(text, text.index("const CREATION")))
        self.assertIsNone(module.giver_of(text, text.index("impl OfficeTable")))
        said = """\
./proofs/StatementFacts.antt:233:62: error: `contracts_under`: as printed, the two types differ only where one has `Eq`
  (expected), and the other has `Ge` (found)
./proofs/StatementFacts.antt:240:5: error: `contracts_all`: 1 declaration that depends on `contracts_by`, which was rejected
./proofs/OrderFacts.antt:12:5: error: `contracts_one`: as printed, the two types differ only where one has `Eq`
fn hh_sqlrows::tables::contracts::ContractsUnderSettlementDate::under: no proof: expected answers in ./proofs
"""
        self.assertEqual(set(module.told_of(folder, said)), {(tables, "under")})

    def test_one_that_waits_is_tried_by_itself(self):
        """A body among others may only wait for the proof of what it calls. By itself it is refused."""
        own = {file.name: file.read_text() for file in (HOME / "crates" / "hh_rows" / "src").iterdir()}
        alone = "".join(f"src/{file}.rt:{line}:1: error: it is not proved that a clause holds\n" for file, line in self.lines())
        waits = "fn hh_rows::date_range::DateRange::new: not proved; it calls hh_rows::date_range::inside\nlogic=not-proved functions=1\n"
        edits = by_hand("hh_rows")
        seen = []

        def check(files):
            turned = [name for name in own if files[name] != own[name]]
            seen.append(len(turned))
            return waits if len(turned) > 1 else f"{alone}logic=not-proved functions=1\n"

        self.assertEqual(self.tried(check), (edits, 0))
        self.assertGreater(max(seen), 1)

    def test_bodies_that_do_not_fit_together(self):
        """Each is in one batch, with no text that another has put there. If the compiler refuses a batch, its halves are tried."""
        module, tables = script(), [edit for edit in BY_HAND if edit.parent.parent.name == "hh_tables"]
        batches = module.batches_of("hh_tables", tables)
        self.assertEqual(sorted(edit.name for batch in batches for edit in batch.edits.values()), sorted(edit.name for edit in tables))
        apart = {"rising_rows_turned_round.edit", "rows_in_place_of_the_table.edit"}
        self.assertEqual([], [batch for batch in batches if apart <= {edit.name for edit in batch.edits.values()}])
        seen, own = [], {file.name: file.read_text() for file in (HOME / "crates" / "hh_rows" / "src").iterdir()}

        def check(files):
            seen.append(sum(files[name] != own[name] for name in own))
            return "".join(f"src/{file}.rt:{line}:1: error: it is not proved\n" for file, line in self.lines()) + "logic=not-proved\n" * (seen[-1] < 3)

        self.assertEqual(self.tried(check), (by_hand("hh_rows"), 0))
        self.assertGreater(max(seen), 2)
        self.assertLess(len(seen), by_hand("hh_rows"))

    def test_crates_are_tried_side_by_side(self):
        """Each lane works in a copy of its own. The checks wait for each other, so both are there at the same time. A body that is not
        refused loses its record, and the others keep theirs."""
        module, both, folders, records = script(), threading.Barrier(2, timeout=60), set(), {}

        def copy_into(room):
            copy = pathlib.Path(tempfile.mkdtemp(dir=room))
            for crate in ("hh_http_heads", "hh_http_serve"):
                shutil.copytree(HOME / "crates" / crate / "src", copy / "crates" / crate / "src")
            return copy

        def check(words, **how):
            if how["cwd"] not in folders:
                folders.add(how["cwd"])
                both.wait()
            return subprocess.CompletedProcess(words, 1, "")

        names = {"hh_http_serve": {"reply_is_not_written"}, "hh_http_heads": module.sums_of("hh_http_heads").keys()}
        mocks = {
            "copy_into": copy_into,
            "noted": lambda folder: dict.fromkeys(module.sums_of(folder.parent.name), "a sum"),
            "note": lambda folder, sums: records.update({folder.parent.name: sums}),
        }
        with contextlib.ExitStack() as held:
            for name, stand_in in mocks.items():
                held.enter_context(mock.patch.object(module, name, stand_in))
            held.enter_context(mock.patch("subprocess.run", check))
            held.enter_context(contextlib.redirect_stdout(io.StringIO()))
            counts = module.try_all(names, held.enter_context(tempfile.TemporaryDirectory()), 2)
        self.assertEqual(counts, [(0, by_hand("hh_http_heads")), (0, 1)])
        left = module.sums_of("hh_http_serve").keys() - {"reply_is_not_written"}
        self.assertEqual(records, {"hh_http_heads": {}, "hh_http_serve": dict.fromkeys(left, "a sum")})
        self.assertEqual({folder.name for folder in folders}, {"hh_http_heads", "hh_http_serve"})
        self.assertEqual(len({folder.parent for folder in folders}), 2)

    def test_a_crate_without_wrong_bodies(self):
        said = subprocess.run([TRY, "hh_rows", "hh_nothing"], capture_output=True, text=True)
        self.assertEqual((said.returncode, said.stdout), (2, ""))
        self.assertEqual(said.stderr, "tools/wrong_bodies.py: hh_nothing has no folder must-fail-by-hand\n")

    def test_each_was_refused_by_its_contract(self):
        """The record of each fits: neither it nor its contract has changed since it was refused."""
        module = script()
        for crate in sorted({edit.parent.parent.name for edit in BY_HAND}):
            kept = module.noted(HOME / "crates" / crate / "must-fail-by-hand")
            wrong = module.changed(crate) | kept.keys() - module.sums_of(crate).keys()
            self.assertEqual([], sorted(wrong), f"not tried since they changed: tools/wrong_bodies.py --changed {crate}")

    def test_the_gate_tries_one_of_each_layer(self):
        """And those of the way of a file and of a run over a database."""
        tried = {edit.parent.parent.name: {other.stem for other in edit.parent.iterdir()} for edit in HOME.glob("crates/*/must-fail/*.edit")}
        layer, layers = None, {}
        for named, crate, _ in rows_of((HOME / "docs" / "architecture.md").read_text(encoding="utf-8"), LAYERS):
            layer = named or layer
            layers.setdefault(layer, []).append(crate.strip("`"))
        self.assertGreater(len(layers), 10)
        self.assertEqual([], [layer for layer, crates in layers.items() if tried.keys().isdisjoint(crates)])
        self.assertLessEqual({"run_not_committed", "load_answered_and_not_made", "begins_with_a_party"}, tried["hh_sqlstore"])
        self.assertIn("joined_account_not_seen", tried["hh_settled_periods"])

    def lines(self):
        """Each line of the sources of hh_rows, by its file."""
        for file in sorted((HOME / "crates" / "hh_rows" / "src").iterdir()):
            for line in range(1, len(file.read_text().splitlines()) + 1):
                yield file.stem, line



CODE = """\
//! A market's prices.

use lower::Price;
ghost use Rattle.lower.specs.Prices.{is_price};

/// A price that was read.
pub struct Read {
    units: i64,
}

impl Read {
    /// The price of a text.
    pub fn read(text: &[u8]) -> Option<Read>
        ensures value { result ≡ value_of text.now }
    {
        lower::read(text)
    }
}

pub fn idle() {}
"""
SPECS = """\
-- Prices, as they are read.
use Rattle.std.specs.Prelude.{List, Option}

-- the value of a text
abbrev pub value_of : List ℕ → Option ℤ
value_of text = is_price (digits_in text)

-- the digits of a text
abbrev pub digits_in : List ℕ → List ℕ
digits_in text = filter is_digit text

abbrev pub unrelated : ℕ
unrelated = 0
"""
EDIT = "file: src/read.rt\nold: lower::read(text)\nnew: None\n"


class Records(unittest.TestCase):
    """When the record of a wrong body fits, over a crate of its own."""

    needs_programs = False

    def sum(self, code=CODE, specs=SPECS, edit=EDIT, renamed=()):
        """The sum of the wrong body over these files."""
        with tempfile.TemporaryDirectory() as room:
            folder = pathlib.Path(room) / "prices"
            for name, text in (("src/read.rt", code), ("specs/Prices.antt", specs), ("must-fail-by-hand/none.edit", edit)):
                (folder / name).parent.mkdir(parents=True)
                (folder / name).write_text(text, encoding="utf-8")
            edit = folder / "must-fail-by-hand" / "none.edit"
            return script().Sums(room, renamed).of("prices", ("read", "Read", "read"), edit)

    def changed(self, text, old, new):
        self.assertEqual(text.count(old), 1, old)
        return text.replace(old, new)

    def test_what_it_is_over(self):
        own = self.sum()
        others = [
            self.sum(code=self.changed(CODE, "value_of text.now }", "value_of (rest text.now) }")),
            self.sum(code=self.changed(CODE, "result ≡", "OnOk result")),
            self.sum(code=self.changed(CODE, "text: &[u8]", "text: &[u16]")),
            self.sum(code=self.changed(CODE, "        ensures value { result ≡ value_of text.now }\n", "")),
            self.sum(code=self.changed(CODE, "units: i64", "units: i32")),
            self.sum(specs=self.changed(SPECS, "is_price (digits_in text)", "is_price text")),
            self.sum(specs=self.changed(SPECS, "filter is_digit text", "text")),
            self.sum(edit=self.changed(EDIT, "new: None", "new: Some(Read { units: 0 })")),
        ]
        self.assertEqual(len({own, *others}), 9)

    def test_what_does_not_count(self):
        own = self.sum()
        for code, specs in [
            (self.changed(CODE, "/// The price of a text.", "/// Another comment."), SPECS),
            (self.changed(CODE, "{is_price}", "{is_price, more}"), self.changed(SPECS, "{List, Option}", "{List}")),
            (self.changed(CODE, "pub fn idle() {}", "pub fn idle() -> u8 {\n    0\n}"), self.changed(SPECS, "unrelated = 0", "unrelated = 1")),
            (self.changed(CODE, "        ensures value { ", "        ensures value {\n          "), self.changed(SPECS, "= is_price", "=\n    is_price")),
            (CODE, self.changed(SPECS, "= is_price", "= Rattle.lower.specs.Prices.is_price")),
            (CODE, self.changed(SPECS, "-- the digits of a text", "-- what it has of digits")),
        ]:
            self.assertEqual(self.sum(code, specs), own)

    def test_a_new_name_is_followed(self):
        """Where nothing but a name has changed, and the old name is gone."""
        own, new = self.sum(), SPECS.replace("digits_in", "digits_of")
        self.assertNotEqual(self.sum(specs=new), own)
        self.assertEqual(self.sum(specs=new, renamed=[("digits_of", "digits_in")]), own)
        more = self.changed(new, "filter is_digit text", "text")
        left = new + "\nabbrev pub digits_in : ℕ\ndigits_in = 0\n"
        both = self.changed(left, "is_price (digits_of text)", "is_price (digits_of digits_in text)")
        for specs in (more, both):
            self.assertNotEqual(self.sum(specs=specs, renamed=[("digits_of", "digits_in")]), own)

    def test_records_follow_a_new_name(self):
        """Those of this repository do, and only those whose contracts have it."""
        module, written = script(), {}
        with mock.patch.object(module, "note", lambda folder, sums: written.update(sums)):
            self.assertEqual(module.rename("hh_rows", [("no_such_name", "another")]), 0)
            self.assertEqual(written, {})
            kept, old = module.sums_of("hh_rows"), module.sums_of("hh_rows", [("range_to_value", "former_name")])
            differ = [name for name in kept if kept[name] != old[name]]
            self.assertTrue(0 < len(differ) < len(kept))
            with mock.patch.object(module, "noted", lambda folder: old):
                self.assertEqual(module.rename("hh_rows", [("range_to_value", "former_name")]), len(differ))
        self.assertEqual(written, kept)


if __name__ == "__main__":
    unittest.main()
