"""The definitions that must be believed: each of them, unless it is in specs/steps/, is reached from a contract that a crate
offers, or is named by another crate."""
import collections
import re
import unittest

from programs import HOME  # which has the modules of tools/ found
from contracts import FUNCTION, NAME, definitions_of, header

TYPE = re.compile(r"^pub (?:struct|enum|trait|type) (\w+)", re.M)
BLOCK = re.compile(r"(?:pub )?(impl|trait)\b(?:<.*?>)? (\w+)")
FOR = re.compile(r" for (\w+)")
# The crate from whose definitions a file takes names, and these.
TAKEN = re.compile(r"(?m)^(?:pub |ghost )*use Rattle\.(\w+)\.specs\.[\w.]*\{([^}]*)\}")
# Operators that `do` reaches without naming them.
UNNAMED = {"◌>>=◌"}


def names_by_definition(text):
    """What each definition of a file of specs/ names."""
    found = collections.defaultdict(set)
    for name, lines in definitions_of(text):
        found[name].update(NAME.findall("\n".join(lines)))
    return found


def offered_names(text, types):
    """What the contracts name that a file offers: those of public functions, and of traits and models of public types."""
    names, block, lines, at = set(), None, text.split("\n"), 0
    while at < len(lines):
        line = lines[at]
        begins = BLOCK.match(line)
        if begins:
            of = FOR.search(line)
            # An impl of a trait is offered as well if the type that the trait is given is offered: `impl From<Ours> for
            # Theirs`.
            given = set(NAME.findall(line)) if of else {begins[2]}
            block = (begins[1] == "trait" or of is not None, bool(given & types))
        elif line == "}":
            block = None
        function = FUNCTION.match(line)
        if function:
            said = header(lines, at, function.group(1))
            of_trait, is_offered = block or (False, True)
            if is_offered and (of_trait or function.group(2)):
                names.update(NAME.findall("\n".join(said)))
            at += len(said)
            continue
        if not line.lstrip().startswith(("ghost use", "//", "use ", "pub use", "mod ")) and (not block or block[1]):
            names.update(NAME.findall(line))
        at += 1
    return names


def names_from_other_crates(crate, text):
    """What a file of a crate takes by name from the definitions of other crates."""
    return {name for of, names in TAKEN.findall(text) if of != crate for name in NAME.findall(names)}


class Definitions(unittest.TestCase):
    needs_programs = False

    def test_steps_are_of_private_contracts(self):
        defined, places, todo = {}, {}, []
        for file in sorted(HOME.glob("crates/*/specs/**/*.antt")):
            if "declared" not in file.parts:
                for name, names in names_by_definition(file.read_text(encoding="utf-8")).items():
                    defined.setdefault(name, set()).update(names)
                    places.setdefault(name, file)
        for folder in sorted(HOME.glob("crates/*/src")):
            texts = [file.read_text(encoding="utf-8") for file in folder.rglob("*.rt") if "tests" not in file.name]
            types = {name for text in texts for name in TYPE.findall(text)}
            todo += [name for text in texts for name in offered_names(text, types)]
        # What another crate names is offered to it, also where only its private contracts need it.
        for file in [*HOME.glob("crates/*/src/**/*.rt"), *HOME.glob("crates/*/specs/**/*.antt")]:
            todo += names_from_other_crates(file.relative_to(HOME).parts[1], file.read_text(encoding="utf-8"))
        reached = set()
        while todo:
            name = todo.pop()
            if name in defined and name not in reached:
                reached.add(name)
                todo += defined[name]
        self.assertGreater(len(reached), 700)
        apart = {name for name, file in places.items() if file.parent.name == "steps"}
        out_of_reach = set(defined) - reached - apart - UNNAMED
        self.assertEqual([], sorted(f"{name}: {places[name].relative_to(HOME)}" for name in out_of_reach))


if __name__ == "__main__":
    unittest.main()
