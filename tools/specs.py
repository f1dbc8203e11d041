"""What the definitions of crates/*/specs name, over the imports of the crates.

A definition is found by the file that has it, and not by its name alone: several crates have a `run`. An import may go through
others: `pub use Rattle.low.specs.Rates` in specs/Lib.antt of the crate `middle` makes `Rattle.middle.specs.Rates` the same module, and
`pub use Rattle.low.specs.declared.rate` makes `Rattle.middle.specs.rate` the module of a file of code. `specs.declared.rate.Rate` is the
type `Rate` of src/rate.rt, as definitions see it.
"""

import functools
import pathlib
import re
from typing import NamedTuple

from contracts import BLOCK, DEFINES, ENDS_OF_ITEMS, MODULE, TYPE, ghosts_of, margin

USE = re.compile(r"^ *(pub )?use Rattle\.([\w.']+?)(?:\.\{(.*)\}| as (\w+))?$")
CHILD = re.compile(r"^pub mod (\w+)$")
# A name with what is taken from it, behind no point: `row.Contract`, `a.moment`, `λ a. a.row`.
NAMED = re.compile(r"(?<![\w.')])[^\W\d][\w']*(?:\.[\w']+)*")
# A label of a record that is written out, or the name of a record's field.
LABEL = re.compile(r"(?<=[{;] )[a-z]\w* = |^ +[a-z]\w* = |^ +pub [a-z]\w* : ", re.M)
# A constructor of a `data`.
CONSTRUCTOR = re.compile(r"^ +(\w+) : ", re.M)
COMMENT = re.compile(r"(?m)(?:^| )--(?: .*)?$")
# Uses in a file of code: `use crate::keys::{A, B};`, `use hh_names::A;`.
CODE_USE = re.compile(r"(?m)^(pub )?use (crate|\w+)((?:::\w+)*)(?:::\{([^}]*)\})?;")
GHOST_USE = re.compile(r"(?m)^ *ghost use Rattle\.([\w.']+?)(?:\.\{(.*)\}| as (\w+))?;$")
ATTRIBUTE = re.compile(r"^(?:///|#\[)")
# Behind the last line of a file.
END = "--"
VALUE = re.compile(r"\s+ghost Value\b")


class Definition(NamedTuple):
    """A definition: its crate, the file of specs/ that has it, and its name. The heads of the modules in which it stands, the comment
    above it, and its lines."""

    crate: str
    module: str
    name: str
    heads: tuple
    comment: tuple
    lines: tuple


class Type(NamedTuple):
    """A type of a crate's code: the file of src/ that has it, its name, the comment above it, and its lines. `value` has the lines that
    say what contracts see of it, if that is not its fields."""

    crate: str
    module: str
    name: str
    comment: tuple
    lines: tuple
    value: tuple


class Module(NamedTuple):
    """A module of a crate's specs/, or of its src/ as definitions see it: the parts of its path."""

    crate: str
    parts: tuple
    declared: bool


class Unresolved(Exception):
    """An import that leads nowhere."""


def name_of(place):
    """The name of a definition or type with the file that has it: `hh_rules/Lateness is_in_time`."""
    return f"{place.crate}/{place.module} {place.name}"


def definitions_in(crate, module, text):
    """The definitions of a file of specs/, in their order."""
    heads, comment, begun = [], [], None
    for line in [*text.split("\n"), END]:
        defines, opens, is_comment = DEFINES.match(line), MODULE.match(line), line.lstrip().startswith("--")
        if begun and (defines or opens or (is_comment and margin(line) <= margin(begun.lines[0]))):
            yield begun._replace(lines=tuple(begun.lines))
            begun = None
        if defines or opens:
            heads = [head for head in heads if margin(head[0]) < margin(line)]
        if opens:
            heads.append((line,))
        elif heads and not heads[-1][-1].endswith("where"):
            heads[-1] += (line,)
        elif defines:
            begun = Definition(crate, module, defines[1], tuple(heads), tuple(comment), [line])
        elif begun and line.strip():
            begun.lines.append(line)
        comment = [*comment, line] if is_comment and not begun else []


def block_at(lines, at):
    """The lines of an item of a file of code, from its first line to the one that ends it."""
    end = next(end for end in range(at, len(lines)) if lines[end].endswith(";") or lines[end] in ENDS_OF_ITEMS or lines[at].endswith("{}"))
    return lines[at : end + 1]


def types_in(crate, module, text):
    """The types of a file of code."""
    lines, values = text.split("\n"), {}
    for at, line in enumerate(lines):
        block = BLOCK.match(line)
        if block and block[2] == "Model":
            values[block[3]] = [line for line in ghosts_of(lines[at : lines.index("}", at)]) if VALUE.match(line)]
    for at, line in enumerate(lines):
        if TYPE.match(line):
            above = at
            while above and ATTRIBUTE.match(lines[above - 1]):
                above -= 1
            comment = [line for line in lines[above:at] if line.startswith("///")]
            name = TYPE.match(line)[1]
            yield Type(crate, module, name, tuple(comment), tuple(block_at(lines, at)), tuple(values.get(name, ())))


def names_in(listed):
    """The names between the braces of an import, each with the name that it gets here."""
    for name in filter(None, (part.strip() for part in listed.split(","))):
        was, _, now = name.partition(" as ")
        yield was, now or was


@functools.cache
def children_of(text):
    """The modules that a file says it has."""
    return {found[1] for found in map(CHILD.match, text.split("\n")) if found}


class Constants(NamedTuple):
    """The constants of a file of code, as definitions see them. They are values, and reach no definition."""

    module: Module


class Specs:
    """The definitions of the crates in a folder, as they are when they are asked for."""

    def __init__(self, crates):
        self.crates = pathlib.Path(crates)

    def path(self, module):
        """The file of a module."""
        folder, ending = ("src", "rt") if module.declared else ("specs", "antt")
        parts = module.parts or ("lib" if module.declared else "Lib",)
        return self.crates.joinpath(module.crate, folder, *parts).with_suffix(f".{ending}")

    @functools.cache
    def text(self, module):
        """The text of a module's file, or None where there is none."""
        path = self.path(module)
        return path.read_text(encoding="utf-8") if path.is_file() else None

    @functools.cache
    def definitions(self, module):
        """The definitions that a module has, by their names. A constructor is its `data`."""
        found = {}
        for one in definitions_in(module.crate, "/".join(module.parts), self.text(module) or ""):
            found[one.name] = one
            if one.lines[0].lstrip().startswith("pub data "):
                found.update(dict.fromkeys(CONSTRUCTOR.findall("\n".join(one.lines[1:])), one))
        return found

    @functools.cache
    def types(self, module):
        """The types that a file of code has, by their names."""
        return {one.name: one for one in types_in(module.crate, "/".join(module.parts), self.text(module) or "")}

    @functools.cache
    def imports(self, module):
        """What a module imports: each name that is used in it, whether it is offered on, and the path that it stands for."""
        found = []
        for line in (self.text(module) or "").split("\n"):
            use = USE.match(line)
            if use and use[3] is not None:
                found += [(now, bool(use[1]), f"{use[2]}.{was}") for was, now in names_in(use[3])]
            elif use:
                found.append((use[4] or use[2].rpartition(".")[2], bool(use[1]), use[2]))
        return found

    def place(self, path, through=()):
        """What a path leads to: a definition, a type or a module. None where it leads out of these crates, or to constants."""
        crate, _, rest = path.partition(".")
        if not (self.crates / crate).is_dir() or rest.partition(".")[0] != "specs":
            return None
        if path in through:
            raise Unresolved(f"{path} leads to itself")
        here = Module(crate, (), False)
        for part in rest.split(".")[1:]:
            here = self.part(here, part, (*through, path))
        return None if isinstance(here, Constants) else here

    def part(self, here, part, through):
        """What a name leads to in a module or a type."""
        if isinstance(here, Type):
            return here  # the type itself, `TheVariants`, or one of these
        if isinstance(here, Definition):
            return here  # a field of a record
        if here is None:
            return None
        if isinstance(here, Constants):
            if re.search(rf"(?m)^(?:pub(?:\(\w+\))? )?const {part}:", self.text(here.module)):
                return here
            raise Unresolved(f"no constant {part} in {self.path(here.module)}")
        inside = Module(here.crate, (*here.parts, part), here.declared)
        if here.declared:
            if part in self.types(here):
                return self.types(here)[part]
            if self.text(inside) is not None:
                return inside
            if part == "TheConstants":
                return Constants(here)
        elif not here.parts and part == "declared":
            return Module(here.crate, (), True)
        elif part in self.definitions(here):
            return self.definitions(here)[part]
        elif part in children_of(self.text(here) or ""):
            return inside
        else:
            for name, offered, path in self.imports(here):
                if offered and name == part:
                    return self.place(path, through)
        raise Unresolved(f"no {part} in {self.path(here)}")

    @functools.cache
    def scope(self, module):
        """What the names in a module lead to: its definitions, and what it imports."""
        found = {}
        for name, _, path in self.imports(module):
            found[name] = self.place(path)
        found.update(self.definitions(module))
        return found

    def names(self, definition):
        """What a definition names, over its imports, besides itself."""
        module = Module(definition.crate, tuple(definition.module.split("/")), False)
        lines = [*(line for head in definition.heads for line in head), *definition.lines]
        return {one for one in self.named(self.scope(module), "\n".join(lines)) if one is not definition}

    def named(self, scope, text):
        """The definitions and types that a text names."""
        words = NAMED.findall(LABEL.sub(lambda label: " " * len(label[0]), COMMENT.sub("", text)))
        if "do" in words:
            words.append("◌>>=◌")
        for word in words:
            first, *parts = word.split(".")
            here = scope.get(first)
            for part in parts if isinstance(here, Module) else ():
                here = self.part(here, part, ()) if isinstance(here, Module) else here
            if here is not None and not isinstance(here, Module):
                yield here

    @functools.cache
    def code_scope(self, module):
        """What the names of types in a file of code lead to, and those of definitions in its ghost members."""
        found, text = dict(self.types(module)), self.text(module)
        for _, crate, path, listed in CODE_USE.findall(text):
            crate = module.crate if crate == "crate" else crate
            for name in [was for was, _ in names_in(listed)] or [path.rpartition("::")[2]]:
                found.setdefault(name, self.type_of(crate, name))
        for path, listed, alias in GHOST_USE.findall(text):
            for was, now in names_in(listed) if listed else [("", alias or path.rpartition(".")[2])]:
                found.setdefault(now, self.place(f"{path}.{was}".rstrip(".")))
        return found

    def type_of(self, crate, name):
        """The type of a name that a crate has, in whichever file, or that it offers on. None if it is of no crate here."""
        for path in sorted((self.crates / crate / "src").glob("**/*.rt")):
            parts = path.relative_to(self.crates / crate / "src").with_suffix("").parts
            found = self.types(Module(crate, parts, True)).get(name)
            if found:
                return found
        for offered, other, _, listed in CODE_USE.findall(self.text(Module(crate, (), True)) or ""):
            for was, now in names_in(listed):
                if offered and now == name and other != crate:
                    return self.type_of(other, was)
        return None

    def parts_of(self, kind):
        """What the type of a value is made of, as contracts see it."""
        module = Module(kind.crate, tuple(kind.module.split("/")), True)
        text = "\n".join(kind.value or (line for line in kind.lines if not line.lstrip().startswith("//")))
        return self.named(self.code_scope(module), text)

    def reached(self, roots):
        """The definitions and types that these reach, themselves among them."""
        found, left = {}, list(roots)
        while left:
            one = left.pop()
            if one not in found:
                found[one] = None
                left += self.parts_of(one) if isinstance(one, Type) else self.names(one)
        return list(found)
