#!/usr/bin/env python3
"""Draws the pictures of docs/pictures/.

usage: tools/pictures.py

Each is an SVG file with a ground of its own, light or dark as the reader has set it. The same sources give the same bytes. The names in
the pictures are the lists below; a test compares them with the code and the definitions.
"""

import os
import re
from xml.sax.saxutils import escape

from sources import HOME, crates_below, uses_of_crates

FOLDER = os.path.join(HOME, "docs", "pictures")
ROW = re.compile(r"(?m)^\| ([A-Z][^|]*?)? ?\| `(hh_\w+)` \|")
STYLE = """\
<style>
.ground { fill: #ffffff } .words { fill: #1a1a1a } .faint { fill: #5a5a5a } .stop { fill: #b3400b }
.box { fill: #e8f1fb; stroke: #1f6fb4 } .side { fill: #f4f4f4; stroke: #8a8a8a; stroke-dasharray: 4 3 } .band { fill: #f4f4f4 }
.line { fill: none; stroke: #4d4d4d } .cut { fill: none; stroke: #b3400b; stroke-dasharray: 5 4 } .head { fill: #4d4d4d }
@media (prefers-color-scheme: dark) {
.ground { fill: #0f151c } .words { fill: #ececec } .faint { fill: #b0b0b0 } .stop { fill: #ff9a5c }
.box { fill: #15293d; stroke: #6fb3ef } .side { fill: #1b2129; stroke: #8a8a8a } .band { fill: #1b2129 }
.line { stroke: #b8b8b8 } .cut { stroke: #ff9a5c } .head { fill: #b8b8b8 }
}
</style>
<marker id="head" viewBox="0 0 8 8" refX="7" refY="4" markerWidth="8" markerHeight="8" orient="auto">
<path class="head" d="M0 0L8 4L0 8Z"/>
</marker>"""

# Each level with what it has. Between each two a relation. Behind a name is the file that defines or cites it, and what it says.
LEVELS = [
    ("Machine", "hh_states/States State", "all that was accepted, with its moments, and the runs"),
    ("Tables", "hh_states/Content Content", "fourteen tables: what is registered, in force, settled and posted"),
    ("Database", "hh_sqlrows/OfficeSchema office", "seventeen tables of SQLite, as the last commit left them"),
    ("Files", "hh_file_life/Life ReadAs", "the bytes of the database and of its log, as a crash may leave them"),
]
RELATIONS = [
    ("hh_states/Changes TablesRepresent", "the machine reaches the state, and the tables are those that tables_of finds from it"),
    ("hh_sqlrows/Holds Holds", "the rows of each table are those that the database has under its keys"),
    ("hh_file_life/Life HoldsDatabase", "the toolchain's crate sqlite reads the files as that database"),
]
# Which tables the rows of each kind of file are put into. Each file is also kept in `files`.
KINDS = {
    "parties": ["parties"],
    "units": ["units", "leads"],
    "meters": ["meters"],
    "prices": ["prices"],
    "contracts": ["references", "contracts"],
    "reallocations": ["reallocations"],
}
# Which tables a run writes, which a database has beside the others, and which a report reads.
WRITTEN = ["runs", "results", "credits", "postings"]
BESIDE = ["positions", "touched", "marks"]
REPORTS = {"day": ["runs", "results"], "results": ["runs", "results"], "balances": ["parties", "postings"]}
RUNS = ["SF", "R1", "R2", "R3", "RF", "DF"]
# What is done for a file that is sent to an office on a file: by which function, and what it does.
STEPS = [
    ("hh_office::Office::handle", "the request comes, with its moment"),
    ("hh_office::Office::may", "60 if the key may not ask for this"),
    ("hh_office::Office::judge", "10 to 42 if the file or a row is refused"),
    ("hh_sqlchanges::write_load", "writes the rows and the file in one transaction"),
    ("hh_sqlstore::commit_load", "commits the transaction"),
    ("hh_desk::tell_reply", "writes the answer"),
]
# What a run does in the place of the step of this name.
OF_A_RUN = {"judge": "hh_office::Office::settle", "write_load": "hh_sqlchanges::write_run", "commit_load": "hh_sqlstore::commit_run"}


class Picture:
    """A picture of a width and a height, with what it shows in words."""

    def __init__(self, width, height, title, told):
        self.size, self.title, self.told, self.parts = (width, height), title, told, []

    def words(self, x, y, said, look="words", size=13, anchor="start", weight="normal"):
        place = f'x="{x:g}" y="{y:g}" text-anchor="{anchor}" font-size="{size}" font-weight="{weight}"'
        self.parts.append(f'<text class="{look}" {place}>{escape(said)}</text>')

    def box(self, x, y, width, height, said="", look="box", size=13, weight="normal"):
        self.parts.append(f'<rect class="{look}" x="{x:g}" y="{y:g}" width="{width:g}" height="{height:g}" rx="4"/>')
        if said:
            self.words(x + width / 2, y + height / 2 + size * 0.36, said, size=size, anchor="middle", weight=weight)

    def line(self, path, look="line", head=True):
        end = ' marker-end="url(#head)"' if head else ""
        self.parts.append(f'<path class="{look}" d="{path}"{end}/>')

    def svg(self):
        width, height = self.size
        look = f'width="{width}" height="{height}" viewBox="0 0 {width} {height}" font-family="Verdana, DejaVu Sans, sans-serif"'
        top = [f'<svg xmlns="http://www.w3.org/2000/svg" role="img" {look}>', f"<title>{escape(self.title)}</title>"]
        ground = '<rect class="ground" width="100%" height="100%"/>'
        return "\n".join([*top, f"<desc>{escape(self.told)}</desc>", STYLE, ground, *self.parts, "</svg>\n"])


def layers_of(page):
    """The layers of a page's table of crates, each with its crates, from the lowest up."""
    found = {}
    for layer, crate in ROW.findall(page):
        found.setdefault(layer or list(found)[-1], []).append(crate)
    return found


def layers():
    """The layers with their crates."""
    with open(os.path.join(HOME, "docs", "architecture.md"), encoding="utf-8") as page:
        rows = layers_of(page.read())
    below = set(crates_below("hh_settle", uses_of_crates()))
    left, right, lines = 200, 960, []
    for layer, crates in reversed(rows.items()):
        x, placed = left, [[]]
        for crate in crates:
            width = 20 + 7.4 * len(crate)
            if x + width > right:
                x, placed = left, [*placed, []]
            placed[-1].append((x, width, crate))
            x += width + 8
        lines.append((layer, placed))
    height = 96 + sum(30 * len(placed) + 14 for _, placed in lines)
    told = "; ".join(f"{layer}: {', '.join(crates)}" for layer, crates in rows.items())
    picture = Picture(980, height, "The layers, with their crates", f"From the lowest layer up. {told}.")
    picture.words(20, 30, "The layers, with their crates", size=16, weight="bold")
    said = "A crate uses crates before it in its layer, and crates of the layers below. Dashed: no part of the program settle."
    picture.words(20, 52, said, "faint", 12)
    y = 70
    for layer, placed in lines:
        picture.box(12, y, 956, 30 * len(placed) + 8, look="band")
        picture.words(22, y + 23, layer, weight="bold")
        for row in placed:
            for x, width, crate in row:
                picture.box(x, y + 6, width, 24, crate, "box" if crate in below else "side", 12)
            y += 30
        y += 14
    return picture


def levels():
    """The four levels, with the relation between each two."""
    relations = "; ".join(f"{name.split()[1]}: {said}" for name, said in RELATIONS)
    told = f"From top to bottom: {', '.join(name for name, _, _ in LEVELS)}. Between each two a relation. {relations}."
    picture = Picture(980, 470, "The four levels of an office", told)
    picture.words(20, 30, "The four levels of an office", size=16, weight="bold")
    said = "The machine computes by the definitions. The program keeps tables, in memory or in a database, and a disk keeps its files."
    picture.words(20, 52, said, "faint", 12)
    for at, (name, place, said) in enumerate(LEVELS):
        y = 70 + 104 * at
        picture.box(20, y, 940, 52)
        picture.words(40, y + 32, name, size=15, weight="bold")
        picture.words(160, y + 22, said)
        picture.words(160, y + 41, place, "faint", 12)
        if at < len(RELATIONS):
            relation, means = RELATIONS[at]
            picture.line(f"M90 {y + 104}V{y + 54}")
            picture.words(160, y + 74, relation.split()[1], weight="bold")
            picture.words(160, y + 92, f"{means} ({relation.split()[0]})", "faint", 12)
    return picture


def tables():
    """From a file to the tables, and from the tables to the reports."""
    kept = [table for of_kind in KINDS.values() for table in of_kind]
    told = "; ".join(f"a file of {kind} is put into {' and '.join(into)}" for kind, into in KINDS.items())
    read = "; ".join(f"the report {report} reads {' and '.join(of)}" for report, of in REPORTS.items())
    told = f"{told}. Each accepted file is kept in files, and what init is given in settings. A run reads the tables of rows,"
    told = f"{told} and the results of the run before. It writes {', '.join(WRITTEN)}; {read}. A database also has {', '.join(BESIDE)}."
    picture = Picture(980, 608, "From files to tables to reports", told)
    picture.words(20, 30, "From files to tables to reports", size=16, weight="bold")
    for x, said in (30, "kind of file"), (250, "tables of what is registered and in force"), (560, "tables of runs"), (800, "report"):
        picture.words(x, 62, said, "faint", 12)
    places = {table: 80 + 48 * at for at, table in enumerate([*kept, "files", "settings"])}
    for at, (kind, into) in enumerate(KINDS.items()):
        y = sum(places[table] for table in into) / len(into)
        picture.box(30, y, 130, 32, kind, "side")
        for table in into:
            picture.line(f"M160 {y + 16:g}L248 {places[table] + 16}")
    for table in kept:
        picture.box(250, places[table], 150, 32, table)
        picture.line(f"M400 {places[table] + 16}H430", head=False)
    for table, said in ("files", "each accepted file, whole"), ("settings", "what init is given"):
        picture.box(250, places[table], 150, 32, table)
        picture.words(30, places[table] + 20, said, "faint", 12)
        picture.line(f"M205 {places[table] + 16}H248")
    said = f"A database calls references refs. It also has {', '.join(BESIDE)}, so that a run settles again only what has changed."
    picture.words(30, 594, said, "faint", 12)
    top, bottom = places[kept[0]] + 16, places[kept[-1]] + 16
    middle = (top + bottom) / 2
    picture.line(f"M430 {top}V{bottom}", head=False)
    picture.box(450, middle - 24, 70, 48, "a run", "side", weight="bold")
    picture.line(f"M430 {middle}H448")
    for row, said in enumerate(("with the results", "of the run before")):
        picture.words(480, middle + 42 + 14 * row, said, "faint", 11, "middle")
    runs = {table: middle - 24 + 72 * (at - 1) for at, table in enumerate(WRITTEN)}
    for table, y in runs.items():
        picture.box(560, y + 8, 130, 32, table)
        picture.line(f"M520 {middle}L558 {y + 24}")
    picture.words(560, runs["credits"] + 56, "shown by questions in SQL alone", "faint", 11)
    shown = {"day": runs["runs"], "results": runs["results"], "balances": runs["postings"]}
    for report, y in shown.items():
        picture.box(800, y + 8, 130, 32, report, "side")
        for table in REPORTS[report]:
            if table in runs:
                picture.line(f"M690 {runs[table] + 24}L798 {y + 24}")
    picture.line(f"M400 {places['parties'] + 8}H950V{shown['balances'] + 24 - 64}H865V{shown['balances'] + 6}")
    return picture


def runs():
    """The life of a date, from its notifications to its last run."""
    told = "A row of a contract or a reallocation counts if it comes before the deadline of its period. When the day is over the date"
    told = f"{told} may be settled, by the kinds of run in this order: {', '.join(RUNS)}. SF is the first. The others may be skipped."
    picture = Picture(980, 300, "The life of a date", told)
    picture.words(20, 30, "The life of a date", size=16, weight="bold")
    picture.line("M20 150H960")
    for x, said, more in (150, "deadline of period 1", "later rows are late"), (420, "midnight", "the day is over"):
        picture.line(f"M{x} 92V208", "cut", head=False)
        picture.words(x, 84, said, anchor="middle", weight="bold", size=12)
        picture.words(x, 226, more, "faint", 12, "middle")
    picture.box(190, 134, 230, 32, "Settlement Day, 46 to 50 periods", size=11)
    picture.words(30, 172, "notifications", "faint", 12)
    picture.words(190, 190, "readings and prices: at any time", "faint", 11)
    picture.words(480, 118, "first", "faint", 12, "middle")
    picture.words(732, 118, "later: each may be skipped", "faint", 12, "middle")
    for at, kind in enumerate(RUNS):
        picture.box(450 + 84 * at, 130, 60, 40, kind, weight="bold")
        picture.words(480 + 84 * at, 188, "day nets" if at == 0 else "differences", "words", 11, "middle")
    said = "posted: by SF the day nets, later what differs from the date's run before"
    picture.words(450, 210, said, "faint", 11)
    said = "Each run settles the date by all rows that had been accepted when it was ordered, and keeps its rows for good."
    picture.words(20, 262, said, size=12)
    said = "Refused: 50 after a later kind, 51 before SF, 52 until the day is over, 53 and 54 without a price or a reading."
    picture.words(20, 282, said, "stop", 12)
    return picture


def halves(said):
    """These words on two lines, neither longer than it has to be."""
    words = said.split()
    return min(((" ".join(words[:at]), " ".join(words[at:])) for at in range(1, len(words))), key=lambda lines: max(map(len, lines)))


def request():
    """The time line of a request that changes the office, with its commit."""
    told = "; ".join(f"{name.split('::')[-1]}: {said}" for name, said in STEPS)
    told = f"In this order. {told}. A crash before the commit leaves the tables before the file, and one after it the tables after it."
    picture = Picture(980, 330, "The time line of settle load, with its commit", told)
    picture.words(20, 30, "The time line of settle load, with its commit", size=16, weight="bold")
    picture.line("M20 130H960")
    for at, (name, said) in enumerate(STEPS):
        x = 30 + 158 * at
        picture.box(x, 112, 130, 36, name.split("::")[-1], "box", weight="bold")
        for row, half in enumerate(halves(said)):
            picture.words(x + 65, 168 + 15 * row, half, "faint", 11, "middle")
    commit = 30 + 158 * 4 + 130
    picture.line(f"M{commit + 14} 60V290", "cut", head=False)
    picture.words(commit + 4, 72, "a crash until here leaves the tables before the file", "stop", 12, "end")
    picture.words(commit + 22, 72, "the tables after it", "stop", 12)
    picture.words(20, 236, "A refusal ends the request there: nothing was written, and nothing is changed.", size=12)
    picture.words(20, 256, "A crash during the commit leaves the tables before the file or after it, and nothing in between.", size=12)
    picture.words(20, 276, "Whoever got the answer finds the file in the tables, unless the answer is 90 or 91.", size=12)
    instead = ", ".join(f"{path.split('::')[-1]} for {name}" for name, path in OF_A_RUN.items())
    picture.words(20, 312, f"A run takes the same way, with other functions: {instead}.", "faint", 12)
    return picture


PICTURES = {"layers": layers, "levels": levels, "tables": tables, "runs": runs, "request": request}


def main():
    os.makedirs(FOLDER, exist_ok=True)
    for name, draw in PICTURES.items():
        with open(os.path.join(FOLDER, f"{name}.svg"), "w", encoding="utf-8") as file:
            file.write(draw().svg())


if __name__ == "__main__":
    main()
