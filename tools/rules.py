#!/usr/bin/env python3
"""Prints docs/rules.md: the words of rules.txt, with a row for each of its rules.

usage: tools/rules.py > docs/rules.md

A line `: A rule` of rules.txt begins a rule. The lines under it, behind blanks, say of it what can't be found:

    defined CRATE/FILE NAME ..   definitions of crates/CRATE/specs/FILE.antt, or fields of records there; the line may come again
    stated PAGE#HEADING          a page of docs/ that states the rule, or CRATE, if the head of its lib.rt does; the line may come again
    wrong NAME ..                wrong bodies; `exact` or `law` in their place says why none is needed
    test NAME ..                 tests
    code [CRATE] NAME ..         functions; without CRATE of the crate of the last definitions

Found are the functions whose contracts name one of the definitions, the functions that the wrong bodies turn, and the wrong bodies
that turn functions whose contracts name a definition. All other lines are printed as they are.
"""

import pathlib
import re
import sys
from typing import NamedTuple

from contracts import BLOCK, COMMENT, functions_of, items_of
from sources import HOME, uses_of_crates
from specs import GHOST_USE, Definition, Module, Specs, Unresolved, names_in
from wrong_bodies import IMPL, turned

CRATES = pathlib.Path(HOME) / "crates"
LIST = pathlib.Path(__file__).resolve().with_suffix(".txt")
# A definition that the contracts of more functions name is of many rules. The wrong bodies of all these functions aren't shown.
MOST = 6
# What the list says of a rule.
LINE = re.compile(r" +(?P<kind>defined|stated|wrong|test|code)(?: (?P<place>hh_[\w/]+))? (?P<names>\S.*)")
# The body of a law.
EMPTY = re.compile(r"(?m)^\{\}$")
# What stands in the place of a wrong body where none is needed.
NO_BODY = {"exact": "*exact*", "law": "*a law*"}


class Unknown(Exception):
    """A name or a line of the list that stands for nothing."""


class Function(NamedTuple):
    """A function: its crate, the file of src/ that has it, the type or trait that it is of, or nothing, and its name."""

    crate: str
    module: str
    kind: str
    name: str

    def shown(self):
        return f"`{self.kind}::{self.name}`" if self.kind else f"`{self.name}`"


class Rule(NamedTuple):
    """A rule of the list: its words, and what the list says of it. Definitions and functions are pairs of a place and names."""

    words: str
    defined: list
    stated: list
    wrong: list
    test: list
    code: list


def rule_of(words, lines):
    """The rule that a block of the list gives."""
    rule = Rule(words, [], [], [], [], [])
    for line in lines:
        found = LINE.fullmatch(line)
        if not found or (found["kind"] == "defined" and not found["place"]):
            raise Unknown(f"{LIST.name}: {words}: what is '{line.strip()}'?")
        names = found["names"].split()
        getattr(rule, found["kind"]).extend([(found["place"], names)] if found["kind"] in ("defined", "code") else names)
    for kind in "defined", "stated", "test":
        if not getattr(rule, kind):
            raise Unknown(f"{LIST.name}: {words}: there is no line '{kind}'")
    return rule


def parts_of(text):
    """The lines of the list: each that is printed as it is, and each rule."""
    words, lines = None, []
    for line in text.split("\n"):
        if words and not line.startswith(" "):
            yield rule_of(words, lines)
            words, lines = None, []
        if line.startswith(": "):
            words = line[2:]
        elif words:
            lines.append(line)
        else:
            yield line
    if words:
        yield rule_of(words, lines)


class Code:
    """The functions of the crates, what their contracts name, and the wrong bodies."""

    def __init__(self, crates):
        self.crates, self.specs = crates, Specs(crates)
        self.functions, self.naming, self.bodies, self.turned = {}, {}, {}, {}
        for path in sorted(crates.glob("*/src/**/*.rt")):
            if "tests" not in path.name:
                self.read(path)
        for edit in sorted(crates.glob("*/must-fail*/*.edit")):
            crate = edit.parent.parent.name
            function = Function(crate, *turned(crate, edit)[-1])
            self.turned[edit.stem] = function
            self.bodies.setdefault(function, []).append(edit.stem)

    def read(self, path):
        """Takes the functions of a file up."""
        crate, _, *parts = path.relative_to(self.crates).with_suffix("").parts
        text = path.read_text(encoding="utf-8")
        scope = self.scope(text)
        for item in items_of(EMPTY.sub("{\n}", text)):
            block, impl = BLOCK.match(item[0]), IMPL.match(item[0])
            kind = impl[1] if impl else block[3] if block else ""
            for name, lines in functions_of(item):
                function = Function(crate, "::".join(parts), kind, name)
                self.functions.setdefault(crate, []).append(function)
                clauses = "\n".join(COMMENT.sub("", line) for line in lines)
                for one in self.specs.named(scope, clauses):
                    if isinstance(one, Definition) and function not in self.naming.setdefault(one, []):
                        self.naming[one].append(function)

    def scope(self, text):
        """What the names of definitions in a file of code lead to. Laws are none."""
        found = {}
        for path, listed, alias in GHOST_USE.findall(text):
            for was, now in names_in(listed) if listed else [("", alias or path.rpartition(".")[2])]:
                try:
                    found.setdefault(now, self.specs.place(f"{path}.{was}".rstrip(".")))
                except Unresolved:
                    pass
        return found

    def that_name(self, place, name):
        """The functions whose contracts name a definition: those of its crate, or, where none does, of other crates. Of a field nothing
        is found."""
        crate, _, file = place.partition("/")
        module = Module(crate, tuple(file.split("/")), False)
        defined = self.specs.definitions(module)
        if name in defined:
            functions = self.naming.get(defined[name], [])
            return [one for one in functions if one.crate == crate] or functions
        if not re.search(rf"(?m)^ +pub {re.escape(name)} : ", self.specs.text(module) or ""):
            raise Unknown(f"{LIST.name}: {place} has no {name}")
        return []

    def body(self, name):
        """The function that a wrong body turns."""
        if name not in self.turned:
            raise Unknown(f"{LIST.name}: there is no wrong body {name}")
        return self.turned[name]

    def function(self, crate, name):
        """The function that the list names: by its name, or behind its type where others have the name too."""
        found = [one for one in self.functions.get(crate, []) if name in (one.name, f"{one.kind}::{one.name}")]
        if len(found) != 1:
            raise Unknown(f"{LIST.name}: {crate} has {len(found)} functions {name}, and not one")
        return found[0]


def unique(ones):
    return list(dict.fromkeys(ones))


def found_code(code, rule):
    """The functions whose contracts name a definition of a rule, and those that its wrong bodies turn. Then the wrong bodies that turn
    the former."""
    naming = unique(one for place, names in rule.defined for name in names for one in code.that_name(place, name))
    turns = [code.body(name) for name in rule.wrong if name not in NO_BODY]
    bodies = [name for one in naming for name in code.bodies.get(one, [])] if len(naming) <= MOST else []
    return naming, turns, bodies


def link_to(place):
    """The link to a heading of a page, or to the head of a crate."""
    return f"[{place}](../crates/{place}/src/lib.rt)" if "#" not in place else f"[{place.partition('.')[0]}]({place})"


def row_of(code, rule):
    """The row of a rule."""
    crate = rule.defined[-1][0].partition("/")[0]
    naming, turns, bodies = found_code(code, rule)
    listed = [code.function(of or crate, name) for of, names in rule.code for name in names]
    functions = unique([*naming, *turns, *listed])
    by_crate = {one: unique(function.shown() for function in functions if function.crate == one) for one in [crate, *uses_of_crates()]}
    cells = (
        rule.words,
        "; ".join(f"`{place}`: {' '.join(f'`{name}`' for name in names)}" for place, names in rule.defined),
        "; ".join(" ".join(shown) if of == crate else f"`{of}`: {' '.join(shown)}" for of, shown in by_crate.items() if shown),
        " ".join(NO_BODY.get(name) or f"`{name}`" for name in unique([*rule.wrong, *bodies])),
        " ".join(f"`{name}`" for name in rule.test),
        ", ".join(map(link_to, rule.stated)),
    )
    return f"| {' | '.join(cells)} |"


def page(code, text):
    """The page that a list makes, as lines."""
    for part in parts_of(text):
        yield row_of(code, part) if isinstance(part, Rule) else part


def main():
    try:
        sys.stdout.write("\n".join(page(Code(CRATES), LIST.read_text(encoding="utf-8"))))
    except (Unknown, Unresolved, ValueError) as fault:
        print(fault, file=sys.stderr)
        return 1
    return 0


if __name__ == "__main__":
    sys.exit(main())
