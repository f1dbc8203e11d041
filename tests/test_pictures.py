"""docs/pictures/: each picture is what tools/pictures.py draws, says what it shows in words, and can be read on a light and on a
dark ground. The names in it are those of the crates, the definitions and the functions, and belong together as it shows."""
import re
import unittest
import xml.etree.ElementTree

from programs import HOME  # which has the modules of tools/ found
from sources import crates_below, uses_of_crates
from specs import Module, Specs
from test_promises import clauses_at
import pictures

SVG = "{http://www.w3.org/2000/svg}"
SHOWN = re.compile(r"!\[([^\]]+)\]\(pictures/(\w+)\.svg\)")
CLASS = re.compile(r"\.(\w+) \{")


def words_in(picture):
    """The words that a picture shows, each line of them."""
    return [text.text for text in xml.etree.ElementTree.fromstring(picture.svg()).iter(f"{SVG}text")]


class Pictures(unittest.TestCase):
    needs_programs = False

    def setUp(self):
        self.specs = Specs(HOME / "crates")

    def definition(self, path):
        """The lines of a definition, without its comment."""
        return "\n".join(self.specs.place(path).lines)

    def fields(self, path):
        """The names of the fields of a record."""
        return re.findall(r"(?m)^ +pub (\w+) : ", self.definition(path))

    def test_each_is_what_is_drawn(self):
        for name, draw in pictures.PICTURES.items():
            with self.subTest(name):
                kept = (HOME / "docs" / "pictures" / f"{name}.svg").read_text(encoding="utf-8")
                self.assertTrue(kept == draw().svg(), "tools/pictures.py")

    def test_each_is_on_one_page_with_words_for_it(self):
        shown = [found for page in (HOME / "docs").glob("*.md") for found in SHOWN.findall(page.read_text(encoding="utf-8"))]
        self.assertEqual(sorted(pictures.PICTURES), sorted(name for _, name in shown))
        for words, name in shown:
            self.assertGreater(len(words), 60, name)

    def test_each_is_read_on_both_grounds(self):
        light, dark = (set(CLASS.findall(part)) for part in pictures.STYLE.split("@media"))
        for name, draw in pictures.PICTURES.items():
            with self.subTest(name):
                root = xml.etree.ElementTree.fromstring(draw().svg())
                used = {part.get("class") for part in root.iter() if part.get("class")}
                self.assertIn("ground", used)
                self.assertLessEqual(used, light)
                self.assertLessEqual(used, dark)
                for part in "title", "desc":
                    self.assertGreater(len(root.findtext(f"{SVG}{part}")), 10)

    def test_no_words_leave_the_picture(self):
        """A letter is about 0.62 of its size wide."""
        for name, draw in pictures.PICTURES.items():
            root = xml.etree.ElementTree.fromstring(draw().svg())
            for text in root.iter(f"{SVG}text"):
                with self.subTest(name, text=text.text):
                    wide = 0.62 * float(text.get("font-size")) * len(text.text)
                    left = float(text.get("x")) - {"start": 0, "middle": wide / 2, "end": wide}[text.get("text-anchor")]
                    self.assertGreaterEqual(left, 0)
                    self.assertLessEqual(left + wide, float(root.get("width")))

    def test_layers(self):
        uses, drawn = uses_of_crates(), []
        for crates in pictures.layers_of((HOME / "docs" / "architecture.md").read_text(encoding="utf-8")).values():
            for crate in crates:
                self.assertEqual(set(), set(uses[crate]) & set(uses) - set(drawn), crate)
                drawn.append(crate)
        self.assertEqual(sorted(uses), sorted(drawn))
        self.assertLess(set(drawn), set(words_in(pictures.layers())))
        boxes = pictures.layers().svg().count('<rect class="box"')
        self.assertEqual(len(crates_below("hh_settle", uses)), boxes)

    def test_levels(self):
        for place in [place for _, place, _ in pictures.LEVELS] + [place for place, _ in pictures.RELATIONS]:
            crate, file, name = re.fullmatch(r"(\w+)/(\w+) (\w+)", place).groups()
            self.assertIn(name, self.specs.scope(Module(crate, (file,), False)))
        for relation, above, below in (
            ("hh_states.specs.Changes.TablesRepresent", "State", "tables_of"),
            ("hh_sqlrows.specs.Holds.Holds", "Content", "IsOfficeOf"),
        ):
            self.assertLessEqual({above, below}, {one.name for one in self.specs.names(self.specs.place(relation))})
        self.assertRegex(self.definition("hh_file_life.specs.Life.ReadAs"), r"HoldsDatabase .* × TreesHold .*\(tables_of ")
        said = " ".join(words_in(pictures.levels()))
        for count, number in (14, "fourteen tables"), (17, "seventeen tables"):
            self.assertIn(number, said)
            self.assertEqual(count, len(self.tables()) + (len(pictures.BESIDE) if count == 17 else 0))

    def tables(self):
        """The tables that an office contains."""
        content = [field for field in self.fields("hh_states.specs.Content.Content") if field not in ("registered", "is_in_step")]
        return [*content, *self.fields("hh_rules.specs.History.Registered")]

    def test_each_table_is_drawn(self):
        shown = words_in(pictures.tables())
        self.assertEqual([], [table for table in self.tables() if table not in shown])
        schema = " ".join(self.definition(f"hh_sqlrows.specs.OfficeSchema.{tables}") for tables in ("tables_of_one", "office_tables"))
        in_database = re.findall(r"(\w+)_table\b", schema)
        drawn = [*self.tables(), *pictures.BESIDE]
        self.assertEqual(sorted(drawn), sorted("references" if table == "refs" else table for table in in_database))

    def test_which_tables_a_file_is_put_into(self):
        """By the entries that rows of each kind put into each table, or by what they make of it, row after row."""
        kinds = dict(re.findall(r"row_kind \(row\.(\w+) r\) = kind\.(\w+)", self.definition("hh_rows.specs.RowKinds.row_kind")))
        registered, put = self.definition("hh_rules.specs.History.registered_in"), {}
        for table, entry in re.findall(r"(\w+) = table_of_\w+ \w+ \(entries_of (\w+) ", registered):
            for row in re.findall(r"\(row\.(\w+) r\) = Some", self.definition(f"hh_rules.specs.Entries.{entry}")):
                put.setdefault(kinds[row].lower(), []).append(table)
        for table in re.findall(r"(\w+) = \w+_from \[\] history", registered):
            for row in re.findall(rf"{table}_with_row \(row\.(\w+) r\)", self.definition(f"hh_registrations.specs.Registrations.{table}_with_row")):
                put.setdefault(kinds[row].lower(), []).append(table)
        self.assertEqual(put, pictures.KINDS)

    def test_what_a_run_writes_and_a_report_reads(self):
        written = re.findall(r"(?m)^  (\w+) = put", self.definition("hh_states.specs.Changes.effect_of_run"))
        self.assertEqual(written, pictures.WRITTEN)
        for report, name in ("day", "day_report_in"), ("results", "export_in"), ("balances", "balances_in"):
            with self.subTest(report):
                reached = self.specs.reached([self.specs.place(f"hh_store.specs.Outputs.{name}")])
                text = "\n".join(line for one in reached for line in one.lines)
                self.assertEqual(set(pictures.REPORTS[report]), set(re.findall(r"\bcontent\.(?:registered\.)?(\w+)", text)))

    def test_runs(self):
        kinds = self.definition("hh_runs.specs.RunKinds.all_run_kinds").split(" = ")[1]
        self.assertEqual(kinds.split(" ∷ "), [*pictures.RUNS, "[]"])
        shown = words_in(pictures.runs())
        self.assertEqual(pictures.RUNS, [words for words in shown if words in pictures.RUNS])
        numbers = self.definition("hh_names.specs.Faults.refusal_number")
        refused = re.findall(r"\b\d+", next(words for words in shown if words.startswith("Refused")))
        for name, number in zip(("RunOrder", "NoInitialRun", "DayNotOver", "MissingPrice", "MissingMeter"), refused, strict=True):
            self.assertIn(f"refusal.{name} = {number}\n", f"{numbers}\n")

    def test_request(self):
        for path in [path for path, _ in pictures.STEPS] + [*pictures.OF_A_RUN.values()]:
            self.assertIsNotNone(clauses_at(path), path)
        shown = words_in(pictures.request())
        names = [path.split("::")[-1] for path, _ in pictures.STEPS]
        self.assertLess(set(pictures.OF_A_RUN), set(names))
        self.assertEqual(names, [words for words in shown if words in names])
        code = (HOME / "crates" / "hh_sqlstore" / "src" / "changing.rt").read_text(encoding="utf-8")
        for change in "load", "run":
            body = code.split(f"fn commit_{change}<")[1]
            self.assertLess(body.index(f"write_{change}(&mut tx"), body.index("tx.commit()"))


if __name__ == "__main__":
    unittest.main()
