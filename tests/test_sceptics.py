"""Each wrong body that docs/sceptics.md names exists, and changes the function that the page names."""
import re
import unittest

from programs import HOME

PAGE = HOME / "docs" / "sceptics.md"
NAMED = re.compile(r"`(hh_\w+)/must-fail/(\w+\.edit)`, in `(\w+)`")
FUNCTION = re.compile(r"\bfn (\w+)")


def turned_by(edit):
    """The name of the last function that begins before the text that an edit changes."""
    fields = dict(line.split(": ", 1) for line in edit.read_text(encoding="utf-8").splitlines())
    source = (edit.parent.parent / fields["file"]).read_text(encoding="utf-8")
    return FUNCTION.findall(source[: source.index(fields["old"])])[-1]


class Sceptics(unittest.TestCase):
    needs_programs = False

    def test_each_edit_is_there(self):
        named = NAMED.findall(PAGE.read_text(encoding="utf-8"))
        self.assertEqual(len(named), 5)
        for crate, name, function in named:
            with self.subTest(name):
                self.assertEqual(turned_by(HOME / "crates" / crate / "must-fail" / name), function)


if __name__ == "__main__":
    unittest.main()
