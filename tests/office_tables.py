"""The tables of an office's database, as the code and the definitions say them: each by its name, its columns with their kinds, and
the columns of its key."""
import re

from programs import HOME

ROWS = HOME / "crates" / "hh_sqlrows"
KINDS = {"INT": "Integer", "TEXT": "Text", "BLOB": "Blob"}
CREATION = re.compile(r'const CREATION: &str =\s*"([^"]*)"')
MADE = re.compile(r"CREATE TABLE (\w+) \((.*), PRIMARY KEY \(([\w, ]*)\)\) STRICT")
DEFINED = re.compile(r'(?s)keyed \(codes "(\w+)"\) (\d+)\s+\(((?:present \(codes "\w+"\) \w+ ∷\s+)*)\[\]\)\s+\(((?:\d+ ∷ )*)\[\]\)')
KNOWN = re.compile(r'(?s)let columns = \[(.*?)\];\s+is_keyed\(table, b"(\w+)", (\d+), &columns, &\[([\d, ]*)\]\)')


def creations():
    """The statements that make the tables, in their order."""
    modules = re.findall(r"(\w+)::CREATION", (ROWS / "src" / "make.rt").read_text(encoding="utf-8"))
    return [CREATION.search((ROWS / "src" / "tables" / f"{module}.rt").read_text(encoding="utf-8"))[1] for module in modules]


def made():
    """Those that these statements make. Each column is NOT NULL."""
    for statement in creations():
        name, columns, key = MADE.fullmatch(statement).groups()
        words = [column.split(" ", 2) for column in columns.split(", ")]
        assert all(rest == "NOT NULL" for _, _, rest in words), statement
        yield name, [(column, KINDS[kind]) for column, kind, _ in words], key.split(", ")


def keyed(name, tree, columns, places):
    """A table, and the tree that it is kept in. The places of its key's columns begin with 1."""
    return int(tree), (name, columns, [columns[int(place) - 1][0] for place in re.findall(r"\d+", places)])


def defined():
    """Those of the definitions, each with its tree."""
    for name, tree, columns, places in DEFINED.findall((ROWS / "specs" / "OfficeSchema.antt").read_text(encoding="utf-8")):
        yield keyed(name, tree, re.findall(r'present \(codes "(\w+)"\) (\w+)', columns), places)


def known():
    """Those that the program takes for an office's, each with its tree."""
    code = HOME / "crates" / "hh_sqlschema" / "src" / "office_tables.rt"
    for columns, name, tree, places in KNOWN.findall(code.read_text(encoding="utf-8")):
        yield keyed(name, tree, re.findall(r'\(b"(\w+)"\.as_slice\(\), Kind::(\w+)\)', columns), places)
