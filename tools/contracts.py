"""What the contracts of a crate say: the clauses of its functions, and the definitions that these reach.

It reads the files as they are laid out by `rt fmt`, and by this repository's own habits in specs/: an item begins
at the left margin, and a member of a block behind four blanks.
"""

import collections
import itertools
import pathlib
import re

NAME = re.compile(r"[A-Za-z_][\w']*")
# The line with which a definition begins, in a file of specs/.
DEFINES = re.compile(r"^(?:\s*(?:abbrev|unfoldable|opaque) pub|\s*pub record|\s*pub data|pub) (?!mod |use |record |data |module )(\S+)")
# The line with which a module of such a file begins.
MODULE = re.compile(r" *module ")
# The line with which a function begins: its margin, whether it is offered to other crates, and its name.
FUNCTION = re.compile(r"(?m)^( *)(pub )?(?:pub\(\w+\) )?(?:const )?fn (\w+)")
TYPE = re.compile(r"(?:pub(?:\(\w+\))? )?(?:struct|enum|type) (\w+)")
# An `impl` or a trait: the trait that an `impl` is of, if it is of one, and the type, or the trait itself.
BLOCK = re.compile(r"(?:pub(?:\(\w+\))? )?(impl|trait)\b(?:<[^{]*?>)? (?:(\w+)(?:<[^{]*?>)? for )?&?(\w+)")
COMMENT = re.compile(r"^\s*--.*|\s--\s.*|//.*")
USE = re.compile(r"\s*(?:ghost |pub )?use ")
PATH = re.compile(r"\b(?:\w+::)+(?=\w)|\bRattle\.(?:\w+\.)*(?=\w)")
TOKEN = re.compile(r"[\w']+|[^\w\s]")
ENDS_OF_ITEMS = "}", "};", ");"


def header(lines, at, indent):
    """The lines of a function from its first to the brace of its body, or to the end of its declaration."""
    for end in range(at, len(lines)):
        line = lines[end]
        if line == indent + "{" or line.endswith(";") or (line.endswith(" {") and "ensures" not in line):
            return lines[at : end + 1]
    return lines[at:]


def margin(line):
    return len(line) - len(line.lstrip(" "))


def definitions_of(text):
    """The definitions of a file of specs/, each with its lines. A definition in a module has the head of the module too, and of those
    around it, which have their parameters."""
    heads, name, said = [], None, []
    for line in text.split("\n"):
        defines, opens = DEFINES.match(line), MODULE.match(line)
        if name and (defines or opens):
            yield name, said
            name = None
        if defines or opens:
            heads = [head for head in heads if margin(head[0]) < margin(line)]
        if opens:
            heads.append([line])
        elif heads and not heads[-1][-1].endswith("where"):
            heads[-1].append(line)
        elif defines:
            name, said = defines[1], [*itertools.chain(*heads), line]
        elif name and not line.startswith(("use ", "--")):
            said.append(line)
    if name:
        yield name, said


def items_of(text):
    """The lines of each item of a file of code."""
    item = []
    for line in text.split("\n"):
        if not item and (not line or line[0] in " }#/"):
            continue
        item.append(line)
        if line in ENDS_OF_ITEMS or (len(item) == 1 and line.endswith((";", "}"))):
            yield item
            item = []


def ghosts_of(item):
    """The lines of the ghost members of a block, which say what its type or its trait means."""
    depth, inside = 0, False
    for line in item[1:]:
        inside = inside or bool(re.match(r"\s+(?:pub )?ghost (?!use )", line))
        if inside:
            yield line
            depth += line.count("{") - line.count("}")
            inside = depth > 0 or not line.endswith((";", ","))


def functions_of(item):
    """The functions of an item, each by its name, with the lines of its signature and its clauses."""
    for at, line in enumerate(item):
        begins = FUNCTION.match(line)
        if begins and len(begins[1]) in (0, 4):
            yield begins[3], header(item, at, begins[1])


def tokens(lines):
    """The words and signs of these lines, without comments, `use` lines and paths."""
    text = "\n".join(COMMENT.sub("", line) for line in lines if not USE.match(line))
    return TOKEN.findall(PATH.sub("", text))


def meaning_of(item):
    """What an item says of the meaning of a type or a trait: the name, and the lines. None if it says nothing of one."""
    block, declares = BLOCK.match(item[0]), TYPE.match(item[0])
    if block:
        return block[3], list(ghosts_of(item))
    return (declares[1], item) if declares else None


class Contracts:
    """The contracts of the crates in a folder, as they are when they are asked for."""

    def __init__(self, crates):
        self.crates = pathlib.Path(crates)
        self.of_crate, self.of_traits = {}, None

    def items(self, crate, file="**/*.rt"):
        """The items of a crate's code, without its tests."""
        for path in sorted((self.crates / crate / "src").glob(file)):
            if "tests" not in path.name:
                yield from items_of(path.read_text(encoding="utf-8"))

    def definitions(self, crate):
        """What each name means that a crate defines, in words and signs: definitions of specs/, types and traits."""
        if crate not in self.of_crate:
            found = self.of_crate[crate] = collections.defaultdict(list)
            for path in sorted((self.crates / crate / "specs").rglob("*.antt")):
                for name, lines in definitions_of(path.read_text(encoding="utf-8")):
                    found[name] += tokens(lines)
            for said in filter(None, map(meaning_of, self.items(crate))):
                found[said[0]] += tokens(said[1])
        return self.of_crate[crate]

    def traits(self):
        """The methods that each trait of any crate declares, with their clauses."""
        if self.of_traits is None:
            self.of_traits = collections.defaultdict(list)
            for folder in sorted(self.crates.glob("*/src")):
                for item in self.items(folder.parent.name):
                    block = BLOCK.match(item[0])
                    if block and block[1] == "trait":
                        for name, lines in functions_of(item):
                            self.of_traits[block[3], name] += lines
        return self.of_traits

    def clauses(self, crate, function):
        """The words and signs of the signature and the clauses of a function, which is given by its module, its type and its
        name. A method of a trait has those that the trait declares, and each method the name of its type."""
        module, kind, name = function
        found = {}
        for item in self.items(crate, f"{module.replace('::', '/')}.rt"):
            block = BLOCK.match(item[0])
            of = block[3] if block else ""
            for found_name, lines in functions_of(item):
                if found_name == name:
                    declared = self.traits().get((block[2], name), []) if block and block[2] else []
                    found.setdefault(of, [of, block[2] or ""] if block else []).extend(tokens([*lines, *declared]))
        return found[kind] if kind in found else [token for each in found.values() for token in each]

    def reached(self, crate, words):
        """The definitions of a crate that these words reach, directly or through others, each with its words and signs."""
        defined, found, left = self.definitions(crate), {}, list(words)
        while left:
            name = left.pop()
            if name in defined and name not in found:
                found[name] = defined[name]
                left += defined[name]
        return found
