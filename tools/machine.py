#!/usr/bin/env python3
"""Prints docs/machine.md: the words of machine.txt, with the definitions that it names.

usage: tools/machine.py > docs/machine.md

A line `: CRATE/FILE NAME ..` of machine.txt stands for definitions of crates/CRATE/specs/FILE.antt, or for types of
crates/CRATE/src/FILE.rt. Such lines that follow each other make one block. The line `:rest` stands for a table of all
other definitions and types that the machine's `step` reaches, or one that is printed above it. All other lines are printed as they are.
"""

import itertools
import os
import pathlib
import re
import sys

from contracts import margin
from sources import HOME, uses_of_crates
from specs import Module, Specs, Type, Unresolved

LIST = pathlib.Path(__file__).resolve().with_suffix(".txt")
# The definition of the machine: the reply to a request, and the state after it.
STEP = "hh_office.specs.Machine.step"


class Unknown(Exception):
    """A name of the list that no definition or type has."""


def listed(specs, line):
    """The definitions or types that a line of the list names."""
    place, *names = line[1:].split()
    crate, _, file = place.partition("/")
    parts = tuple(file.split("/"))
    found = {**specs.definitions(Module(crate, parts, False)), **specs.types(Module(crate, parts, True))}
    for name in names:
        if name not in found:
            raise Unknown(f"{LIST.name}: {place} has no {name}")
        yield found[name]


def body_of(definition):
    """The lines of a definition without its type. A record or a `data` is printed whole."""
    lines = definition.lines
    if lines[0].split()[0] == "pub":
        return lines
    begins = f"{' ' * margin(lines[0])}{definition.name} "
    return list(itertools.dropwhile(lambda line: not line.startswith(begins), lines)) or lines


def variants(lines):
    """The lines of a type, each variant on a line of its own."""
    joined = re.sub(r"(?m)^(    \w+ \{)$((?:\n {8}.*)+)\n    \},$", lambda found: f"{found[1]} {fields_of(found[2])} }},", "\n".join(lines))
    return joined.split("\n")


def fields_of(lines):
    """The fields of a variant, beside each other."""
    return " ".join(lines.split()).rstrip(",")


def shown(one, before):
    """The lines that show a definition or a type, behind the one before it in its block. The file is named where another begins."""
    comment = list(one.comment)
    if before is None or (before.crate, before.module) != (one.crate, one.module):
        sign, _, said = comment[0].lstrip().partition(" ") if comment else ("--", "", one.name)
        comment[:1] = [f"{' ' * margin(one.lines[0])}{sign} {one.crate}/{one.module}: {said}"]
    if isinstance(one, Type):
        return [*comment, *variants(line for line in one.lines if not line.lstrip().startswith("///"))]
    heads = [line for head in one.heads if head not in getattr(before, "heads", ()) for line in head]
    return [*heads, *comment, *body_of(one)]


def block(ones):
    """A block of definitions and types."""
    yield "```"
    for before, one in zip([None, *ones], ones):
        yield from shown(one, before)
    yield "```"


def rest(reached, printed):
    """The rows of the table of what is reached and isn't printed: the crate, and the names by their files."""
    left = [one for one in reached if one not in printed]
    for crate in uses_of_crates():
        files = {}
        for one in sorted(left, key=lambda one: (isinstance(one, Type), one.module, one.name)):
            if one.crate == crate:
                files.setdefault(one.module, []).append(one.name)
        told = [f"*{file}*: {' '.join(f'`{name}`' for name in names)}" for file, names in files.items()]
        if told:
            yield f"| `{crate}` | {'; '.join(told)} |"


def page(specs, text):
    """The page that a list makes, as lines."""
    printed, lines = set(), text.split("\n")
    for is_list, group in itertools.groupby(lines, lambda line: line.startswith(": ")):
        if is_list:
            ones = [one for line in group for one in listed(specs, line)]
            printed.update(ones)
            yield from block(ones)
        else:
            for line in group:
                yield from rest(specs.reached([specs.place(STEP), *printed]), printed) if line == ":rest" else [line]


def main():
    specs = Specs(os.path.join(HOME, "crates"))
    try:
        sys.stdout.write("\n".join(page(specs, LIST.read_text(encoding="utf-8"))))
    except (Unknown, Unresolved) as fault:
        print(fault, file=sys.stderr)
        return 1
    return 0


if __name__ == "__main__":
    sys.exit(main())
