"""The record of the wrong bodies that were refused: crates/CRATE/must-fail-by-hand/TRIED, with a line for each, its name and a sum.

The sum is over the wrong body, the clauses of its function, and the definitions of its crate that these reach. Comments, `use`
lines, paths and spaces don't count, and definitions of other crates count by their names. So a record fits until the body or
its contract changes. Then the body has to be tried again. If only a name changed, the record can follow it.
"""

import hashlib

from contracts import Contracts, tokens

RECORD = "TRIED"


def pairs_of(edit):
    """What an edit turns: the file, the text that is there and the text that takes its place."""
    file = old = None
    for line in edit.read_text(encoding="utf-8").splitlines():
        word, _, text = line.partition(":")
        text = text.removeprefix(" ")
        if word == "file":
            file = text
        elif word == "old":
            old = text
        elif word == "new":
            yield file, old, text


class Sums:
    """The sums of wrong bodies over the crates in a folder. `renamed` gives new names their old ones, as which they count."""

    def __init__(self, crates, renamed=()):
        self.contracts, self.renamed = Contracts(crates), dict(renamed)

    def formerly(self, words):
        """These words and signs with the old names for the new. An old name that is still there was not renamed."""
        return [f"{word} still" if word in self.renamed.values() else self.renamed.get(word, word) for word in words]

    def of(self, crate, function, edit):
        """The sum of a wrong body of a function, which is given by its module, its type and its name."""
        clauses = self.contracts.clauses(crate, function)
        if not clauses:
            raise ValueError(f"{edit.name}: no function {function[2]} was found")
        body = [self.formerly(tokens([old, new])) for _, old, new in pairs_of(edit)]
        reached = {self.formerly([name])[0]: self.formerly(words) for name, words in self.contracts.reached(crate, clauses).items()}
        said = repr((body, self.formerly(clauses), sorted(reached.items())))
        return hashlib.sha256(said.encode()).hexdigest()[:16]


def noted(folder):
    """The sums in the record of a folder of wrong bodies, by the names of the bodies."""
    record = folder / RECORD
    lines = record.read_text(encoding="utf-8").splitlines() if record.is_file() else []
    return dict(line.split() for line in lines)


def note(folder, sums):
    """Makes these the sums in the record of a folder."""
    text = "".join(f"{name} {sums[name]}\n" for name in sorted(sums))
    (folder / RECORD).write_text(text, encoding="utf-8")
