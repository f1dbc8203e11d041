"""What `--explain` adds: a line on standard error for each refusal, each fault and each file with late rows, and nothing else.
It is tested by commands on a database file, by lines of scripts, and by `settle period`. What is told about a script's line
that is off its form is tested as well. The texts are composed here, from what a test has written and from what docs/formats.md
says about each column."""
import os
import re
import shutil
import subprocess
import sys
import unittest

from programs import HOME, SETTLE, settle
from test_command_faults import Faults
from test_commands import answer, midnight, words_of
from test_desk import APPLIED, DAY, DEADLINE, EARLY, END, HEADERS, LATE, MARKET, NEXT_END, OPERATOR, SETTLED, Desk, realloc, text_of
from test_documents import BLOCK
from test_program import CONTRACTS_HEADER, METER_HEADER, OfTheProgram
from test_reports import balances, report

ESCAPES = {ord('"'): '\\"', ord("\\"): "\\\\", ord("\t"): "\\t", ord("\n"): "\\n", ord("\r"): "\\r"}
PATIENCE = 30
# How many bytes of a text are shown.
SHOWN = 40
DATE = "a date YYYY-MM-DD from 2001-01-01 to 2099-12-31"
ACCOUNT = "an account: a party's id, then -P or -C"
VOLUME = "a decimal number with at most 3 digits behind the point, from -10000.000 to 10000.000"
PRICE = "a decimal number with at most 5 digits behind the point, from -99999.99999 to 99999.99999"
# What a field of each column looks like.
FORMS = {
    "party": "a party's id: 1 to 10 capital letters or digits",
    "account": ACCOUNT,
    "seller": ACCOUNT,
    "buyer": ACCOUNT,
    "unit": "a unit's id: 1 to 16 capital letters, digits, _ or -",
    "reference": "a reference: 1 to 20 letters, digits, _ or -",
    "key": "a key: 8 to 64 letters or digits",
    "side": "P (Production) or C (Consumption)",
    "interconnector": "yes or no",
    "date": DATE,
    "from": DATE,
    "to": "a date YYYY-MM-DD up to 2099-12-31 that isn't before from, or nothing",
    "period": "a whole number from 1 to 50",
    "metered_mwh": VOLUME,
    "balancing_mwh": VOLUME,
    "mwh": VOLUME,
    "fixed_mwh": VOLUME,
    "tlm": "a decimal number with at most 7 digits behind the point, from 0 to 2.0000000",
    "percent": "a decimal number with at most 5 digits behind the point, from 0 to 100.00000",
    "price": PRICE,
}
# A row of each kind that the market takes.
GOOD = {
    "parties": "GENCO,2024-01-01,,genco0001",
    "units": "G1,GENCO,P,no,2024-01-01,",
    "meters": f"G1,{DAY},1,100.000,0.9950000,0",
    "prices": f"{DAY},1,50.00000",
    "contracts": f"C1,GENCO-P,SUPCO-C,{DAY},1,99.000",
    "reallocations": realloc("SUPCO-P", 60),
}
MISSING = "No such file or directory (os error 2)"
IS_FOLDER = "Is a directory (os error 21)"
NO_FOLDER = "Not a directory (os error 20)"
PORT_TAKEN = "Address already in use (os error 98)"
NOT_OPERATORS = "the key that is shown isn't the operator's"
NOT_AGAIN = "it can't be read a second time"
NO_OUTPUT = "standard output takes nothing"
NO_OFFICE = "the database can't be used, as when another program has it open, an earlier version made it (settle migrate makes it usable), or it is no office's"


def shown(text):
    """A text as it is, in double quotes, cut after 40 bytes, and with escapes for bytes that aren't printable."""
    data = text if isinstance(text, bytes) else text.encode()
    letters = (ESCAPES.get(byte) or (chr(byte) if 32 <= byte < 127 else f"\\x{byte:02X}") for byte in data[:SHOWN])
    return '"' + "".join(letters) + ('.."' if len(data) > SHOWN else '"')


def row_shown(kind, row):
    """A row as it is. A party's row is cut before the key."""
    return shown(row) if kind != "parties" else shown(row.rpartition(",")[0] + ",").removesuffix('"') + '.."'


def at_line(path, row, line):
    return f"{path}: row {row} is line {line} of the file"


def path_in(line):
    """The path that a line of a script loads."""
    return line.split(" ")[-1]


class Explained(Faults):
    """A test that asks the same without `--explain` and with it. What is written and the status are the same, and lines are
    added on standard error."""

    def added(self, plain, explained):
        """The lines that are added after what was told without the option."""
        self.assertEqual(explained[:2], plain[:2])
        self.assertTrue(explained[2].startswith(plain[2]), explained)
        more = explained[2][len(plain[2]) :].decode()
        self.assertTrue(more.endswith("\n") or not more, more)
        return more.split("\n")[:-1]

    def files_of_the_office(self):
        return {path: path.read_bytes() for path in self.room.glob(f"{self.database.name}*") if path.is_file()}

    def put_back(self, files):
        """Makes the office's files what they were."""
        for path in self.files_of_the_office():
            path.unlink()
        for path, data in files.items():
            path.write_bytes(data)

    def by_command(self, name, *words, **how):
        """How a command on the file ends, and what is added. The file is the same before both calls."""
        before = self.files_of_the_office()
        plain = self.command(name, *words, **how)
        self.put_back(before)
        return plain, self.added(plain, self.command(name, "--explain", *words, **how))

    def check_commands(self, *asked):
        """Commands ask what these lines of a script do. Each ends as given, and is explained by a line or isn't."""
        for line, text, explanation in asked:
            name, _, _, *words = words_of(line, self.database)
            found = self.by_command(name, *words)
            self.assertEqual(found, (answer(text), [explanation] if explanation else []), line)
            self.is_sound()

    def check_script(self, *asked, options=(), before=None):
        """The same by a script over a new office that has loaded the market. All lines that are explained are told with their
        numbers."""
        before = self.market() if before is None else before
        script = "".join(f"{line}\n" for line in [*before, *(line for line, _, _ in asked)])
        plain = self.run_script(script, *options)
        explained = self.run_script(script, *options, "--explain")
        self.assertEqual((plain[0], plain[2]), (0, b""))
        self.assertEqual(plain[1].decode().splitlines()[len(before) :], [text for _, text, _ in asked])
        wanted = [f"line {number}: {told}" for number, (_, _, told) in enumerate(asked, len(before) + 1) if told]
        self.assertEqual(self.added(plain, explained), wanted)

    def check(self, *asked):
        """By commands and by a script."""
        self.check_commands(*asked)
        self.check_script(*asked)

    def explained_row(self, kind, row, refusal, what, before=(), number=None):
        """A file whose last row is refused, with what is told about it and how that is explained."""
        line = self.load(kind, [*before, row], "refused.csv")
        number = len(before) + 1
        place = at_line(path_in(line), number, number + 1)
        return line, f"refused {refusal} row {number}", f"{place}, {row_shown(kind, row)}; {what}"


class Rows(Explained):
    """Each refusal of a row, 30 to 42, for each kind of file that can get it."""

    def test_parties(self):
        shrinks = "the dates from {} to {} don't hold all for which party GENCO is registered"
        self.check(
            self.explained_row("parties", "GENCO,2024-02-01,,genco0001", "39 ShrinksRange", shrinks.format("2024-02-01", "2099-12-31")),
            self.explained_row("parties", "GENCO,2024-01-01,2098-12-31,genco0002", "39 ShrinksRange", shrinks.format("2024-01-01", "2098-12-31")),
        )

    def test_units(self):
        moved = (
            "unit {} has another interconnector mark, or {} can't lead it from {} on: a lead account begins later than the one before it, "
            "and leaves out no day"
        )
        shrinks = "the dates from {} to {} leave out the last ones of unit {}, or the first ones of its last lead account"
        part = self.load("reallocations", realloc("SUPCO-C", 10), "part.csv"), APPLIED, None
        is_part = "a reallocation in force gives a part of unit G1 to SUPCO-C on a date from 2024-06-01 to 2099-12-31"
        self.check(
            self.explained_row("units", "U1,NEWCO,P,no,2024-01-01,", "30 UnknownParty", "party NEWCO isn't registered"),
            self.explained_row("units", "U1,GENCO,P,no,2023-12-31,", "33 NotEffective", "party GENCO isn't registered for all dates from 2023-12-31 to 2099-12-31"),
            self.explained_row("units", "G1,GENCO,P,no,2024-01-02,", "39 ShrinksRange", shrinks.format("2024-01-02", "2099-12-31", "G1")),
            self.explained_row("units", "G1,SUPCO,P,no,2024-02-01,2024-02-29", "39 ShrinksRange", shrinks.format("2024-02-01", "2024-02-29", "G1")),
            *(
                self.explained_row("units", f"G1,{party},{side},{mark},2024-01-01,", "40 UnitMoved", moved.format("G1", f"{party}-{side}", "2024-01-01"))
                for party, side, mark in (("SUPCO", "P", "no"), ("GENCO", "C", "no"), ("GENCO", "P", "yes"))
            ),
            part,
            self.explained_row("units", "G1,SUPCO,C,no,2024-06-01,", "41 LeadIsSubsidiary", is_part),
        )

    def test_readings(self):
        self.check(
            self.explained_row("meters", f"U1,{DAY},1,1,1,0", "31 UnknownUnit", "unit U1 isn't registered"),
            self.explained_row("meters", "G1,2023-12-31,1,1,1,0", "33 NotEffective", "unit G1 isn't registered for 2023-12-31"),
            self.explained_row("meters", f"G1,{DAY},49,1,1,0", "34 NoSuchPeriod", f"{DAY} has no period 49: its last is 48"),
        )

    def test_prices(self):
        """Clocks go forward on 2024-03-31, which has 46 periods."""
        self.check(
            self.explained_row("prices", f"{DAY},50,1", "34 NoSuchPeriod", f"{DAY} has no period 50: its last is 48"),
            self.explained_row("prices", "2024-03-31,47,1", "34 NoSuchPeriod", "2024-03-31 has no period 47: its last is 46"),
        )

    def test_contracts(self):
        self.check(
            self.explained_row("contracts", f"C9,NEWCO-P,SUPCO-C,{DAY},1,1", "30 UnknownParty", "party NEWCO or party SUPCO isn't registered"),
            self.explained_row("contracts", f"C9,GENCO-P,NEWCO-C,{DAY},1,1", "30 UnknownParty", "party GENCO or party NEWCO isn't registered"),
            self.explained_row("contracts", "C9,GENCO-P,SUPCO-C,2023-12-31,1,1", "33 NotEffective", "party GENCO or party SUPCO isn't registered for 2023-12-31"),
            self.explained_row("contracts", f"C9,GENCO-P,SUPCO-C,{DAY},49,1", "34 NoSuchPeriod", f"{DAY} has no period 49: its last is 48"),
            self.explained_row("contracts", f"C9,GENCO-P,GENCO-P,{DAY},1,1", "35 SameAccount", "GENCO-P is both seller and buyer"),
            self.explained_row("contracts", f"C1,SUPCO-C,GENCO-P,{DAY},1,1", "36 ReferenceMoved", "the first row of reference C1 has another seller or buyer"),
        )

    def test_reallocations(self):
        over = f"with this row more than 100 percent of unit G1 would be reallocated in period 1 of {DAY}"
        self.check(
            self.explained_row("reallocations", f"G1,NEWCO-P,{DAY},1,1,0", "30 UnknownParty", "party NEWCO isn't registered"),
            self.explained_row("reallocations", f"U1,SUPCO-P,{DAY},1,1,0", "31 UnknownUnit", "unit U1 isn't registered"),
            self.explained_row("reallocations", "G1,SUPCO-P,2023-12-31,1,1,0", "33 NotEffective", "unit G1 or party SUPCO isn't registered for 2023-12-31"),
            self.explained_row("reallocations", f"G1,SUPCO-P,{DAY},49,1,0", "34 NoSuchPeriod", f"{DAY} has no period 49: its last is 48"),
            self.explained_row("reallocations", f"G1,GENCO-P,{DAY},1,1,0", "37 OwnLead", "GENCO-P is the lead account of unit G1"),
            self.explained_row("reallocations", realloc("SUPCO-C", "40.00001"), "38 OverHundred", over, [realloc("SUPCO-P", 60)]),
        )

    def test_as_many_as_may_be(self):
        """Two parties and two units are registered."""
        parties = [f"P{number},2024-01-01,,party{number:03}" for number in range(399)]
        units = [f"U{number},GENCO,P,no,2024-01-01," for number in range(1999)]
        self.check(
            self.explained_row("parties", parties[-1], "42 TooMany", "party P398 is new, and there are 400 parties already", parties[:-1]),
            self.explained_row("units", units[-1], "42 TooMany", "unit U1998 is new, and there are 2000 units already", units[:-1]),
        )

    def test_a_row_is_cut_behind_40_bytes(self):
        """The first of these rows has 40."""
        rows = [f"{'R' * 9},GENCO-P,GENCO-P,{DAY},1,1", f"{'R' * 10},GENCO-P,GENCO-P,{DAY},1,1"]
        self.assertEqual([len(row) for row in rows], [40, 41])
        asked = [self.explained_row("contracts", row, "35 SameAccount", "GENCO-P is both seller and buyer") for row in rows]
        self.assertEqual([told.count('.."') for _, _, told in asked], [0, 1])
        self.check(*asked)


class Texts(Explained):
    """What is wrong with a file's text, 10 to 14, and with its name, 20."""

    def bad_field(self, kind, data, row, line, column, field):
        """A file with a field that is off its form, what is told about it, and how that is explained. A party's key isn't
        shown."""
        asked = self.load(kind, data, "refused.csv")
        name = HEADERS[kind].split(",")[column - 1]
        found = f"has the length {len(field)}" if name == "key" else f"is {shown(field)}"
        explanation = f"{at_line(path_in(asked), row, line)}; column {column}, {name}, {found}; expected {FORMS[name]}"
        return asked, f"refused 14 BadField row {row} column {column}", explanation

    def test_each_column(self):
        """A question mark is off the form of each column of each kind of file."""
        asked = []
        for kind, row in GOOD.items():
            fields = row.split(",")
            for place in range(len(fields)):
                bad = ",".join([*fields[:place], "?", *fields[place + 1 :]])
                asked.append(self.bad_field(kind, [row, bad], 2, 3, place + 1, "?"))
        self.assertEqual(len(asked), 4 + 6 + 6 + 3 + 6 + 6)
        self.check(*asked)

    def test_fields_near_their_form(self):
        """Each is shown as it is; one in quotes is shown as it reads."""
        self.check(
            self.bad_field("prices", [f'{DAY},1,"50,5"'], 1, 2, 3, "50,5"),
            self.bad_field("prices", [f'{DAY},1,"a ""b"" \\"'], 1, 2, 3, 'a "b" \\'),
            self.bad_field("prices", [f"{DAY},51,50"], 1, 2, 2, "51"),
            self.bad_field("prices", ["01/07/2024,1,50"], 1, 2, 1, "01/07/2024"),
            self.bad_field("prices", [f"{DAY},1,"], 1, 2, 3, ""),
            self.bad_field("parties", ["NEWCO,2024-02-01,2024-01-31,newco0001"], 1, 2, 3, "2024-01-31"),
            self.bad_field("parties", ["NEWCO,2024-02-01,,newco01"], 1, 2, 4, "newco01"),
            self.bad_field("contracts", [f"C9,GENCO-P,SUPCO-C,{DAY},1,10000.001"], 1, 2, 6, "10000.001"),
        )

    def test_fields_of_40_bytes_and_more(self):
        sizes = SHOWN - 1, SHOWN, SHOWN + 1, 100_000
        asked = [self.bad_field("prices", [f"{DAY},1,{'9' * size}"], 1, 2, 3, "9" * size) for size in sizes]
        self.assertEqual(['.."' in told for _, _, told in asked], [False, False, True, True])
        self.check(*asked)

    def test_bytes_that_are_not_printable(self):
        """Bytes are cut off, but never a part of an escape."""
        header = f"{HEADERS['prices']}\n".encode()
        fields = b"\0\x1f\x7f\x80\xff", "50\u20ac\u2028".encode(), b"\t5\x1b[2J", b"\xfe" * 41, b" 50", b"50\x0b", b"!#~50~"
        self.check(*(self.bad_field("prices", header + f"{DAY},1,".encode() + field + b"\n", 1, 2, 3, field) for field in fields))

    def test_lines_of_the_file(self):
        """A row's line is where the row begins. Empty lines count. LF, CRLF and a lone CR end a line. Line ends in quotes are
        shown."""
        header = HEADERS["prices"]
        cases = [
            (f"{header}\n{DAY},1,1\n{DAY},2,x\n", 2, 3, "x"),
            (f"{header}\n\n\n{DAY},1,1\n\n{DAY},2,x\n", 2, 6, "x"),
            (f"{header}\r\n{DAY},1,1\r\n{DAY},2,x\r\n", 2, 3, "x"),
            (f"{header}\r\n\r\n{DAY},1,1\r\n\r\n{DAY},2,x\r\n", 2, 5, "x"),
            (f"{header}\r{DAY},1,1\r{DAY},2,x\r", 2, 3, "x"),
            (f"\n\r\n\r{header}\n{DAY},2,x", 1, 5, "x"),
            (f"\ufeff{header}\n{DAY},2,x\n", 1, 2, "x"),
            (f"\ufeff\n{header}\n{DAY},2,x\n", 1, 3, "x"),
            (f'{header}\n\n{DAY},1,"1\n2"\n', 1, 3, "1\n2"),
            (f'{header}\n{DAY},1,1\n{DAY},2,"1\r\n\r2"\n', 2, 3, "1\r\n\r2"),
            (f'{header}\n{DAY},1,1\n"{DAY}",2,"\n\n', 2, 3, "\n\n"),
        ]
        self.check(*(self.bad_field("prices", data.encode(), row, line, 3, field) for data, row, line, field in cases))

    def test_rows_as_they_stand(self):
        """A row that is refused is shown with its quotes and without its line end."""
        header, what = HEADERS["prices"], f"{DAY} has no period 49: its last is 48"
        asked = []
        for data, row, line, text in (
            (f"{header}\r\n\r\n{DAY},49,1\r\n", 1, 3, f"{DAY},49,1"),
            (f"{header}\n\n{DAY},1,1\n\n{DAY},49,1", 2, 5, f"{DAY},49,1"),
            (f'{header}\r"{DAY}",49,"1"\r\r', 1, 2, f'"{DAY}",49,"1"'),
            (f'{header}\n{DAY},49,"1"', 1, 2, f'{DAY},49,"1"'),
        ):
            loads = self.load("prices", data.encode(), "refused.csv")
            asked.append((loads, f"refused 34 NoSuchPeriod row {row}", f"{at_line(path_in(loads), row, line)}, {shown(text)}; {what}"))
        self.check(*asked)

    def test_records(self):
        """A row with one field too few or too many, and a row that a quote makes one field to the end of the file."""
        asked = []
        for rows, row, count in (
            ([f"{DAY},1"], 1, "2 fields"),
            ([f"{DAY},1,1", f"{DAY},2,50,5"], 2, "4 fields"),
            (["x"], 1, "1 field"),
            (["", ",,,,"], 1, "5 fields"),
            ([f"{DAY},1,1", f'"{DAY},2,1', f"{DAY},3,1"], 2, "1 field"),
        ):
            line = self.load("prices", rows, "refused.csv")
            place = at_line(path_in(line), row, row + 1 + rows.count(""))
            asked.append((line, f"refused 13 BadRecord row {row}", f"{place}; it has {count}, expected 3"))
        self.check(*asked)

    def test_headers(self):
        asked = []
        for data, line, text in (
            (HEADERS["units"], 1, HEADERS["units"]),
            (f"\n\r\n{HEADERS['prices']},\n", 3, f"{HEADERS['prices']},"),
            (f"{DAY},1,50\n", 1, f"{DAY},1,50"),
            (HEADERS["prices"].replace(",", ";"), 1, HEADERS["prices"].replace(",", ";")),
            ("\ufeff\ufeff" + HEADERS["prices"], 1, "\ufeff" + HEADERS["prices"]),
            ('"date",period,"price "\r\n', 1, '"date",period,"price "'),
            ('date,period,"\n"', 1, 'date,period,"\n"'),
        ):
            loads = self.load("prices", data.encode(), "refused.csv")
            told = f"{path_in(loads)}: line {line}, the header, is {shown(text)}; expected {HEADERS['prices']}"
            asked.append((loads, "refused 12 BadHeader", told))
        for kind, header in HEADERS.items():
            for data in (b"", b"\n\r\n\n", b"\xef\xbb\xbf"):
                loads = self.load(kind, data, "refused.csv")
                asked.append((loads, "refused 12 BadHeader", f"{path_in(loads)}: it has no header; expected {header}"))
        self.check(*asked)

    def test_headers_of_parties(self):
        """They are shown whole if no key is in the place of the keys."""
        asked = []
        for header in ("party,from,to", "party;from;to;key", "party,from,to,Key", f"{HEADERS['parties']},"):
            loads = self.load("parties", f"{header}\n{GOOD['parties']}\n".encode(), "refused.csv")
            told = f"{path_in(loads)}: line 1, the header, is {shown(header)}; expected {HEADERS['parties']}"
            asked.append((loads, "refused 12 BadHeader", told))
        self.check(*asked)

    def test_keys_of_parties_are_not_shown(self):
        """They are not shown in the place of a header either, nor if they are off their form."""
        for rows in ([HEADERS["parties"], GOOD["parties"], "GENCO,2024-02-01,,secret0001"], ["NEWCO,2024-01-01,,secret0001"], [HEADERS["parties"], "NEWCO,2024-01-01,,secret_001"]):
            line = self.load("parties", "".join(f"{row}\n" for row in rows).encode(), "secret.csv")
            name, _, _, *words = words_of(line, self.database)
            plain, added = self.by_command(name, *words)
            self.assertEqual((plain[0], len(added)), (1, 1))
            self.assertNotIn("secret0", added[0])
            self.assertNotIn("secret_", added[0])

    def test_the_most_bytes(self):
        line = self.load("meters", text_of("meters", []).ljust(1_048_577, b"\n"), "refused.csv")
        self.check((line, "refused 10 FileTooLarge", f"{path_in(line)}: it has more than 1048576 bytes"))

    def test_the_most_rows(self):
        for empty in (0, 3):
            rows = [""] * empty + [f"G1,{DAY},1,0,1,0"] * 20_001
            line = self.load("meters", rows, "refused.csv")
            place = at_line(path_in(line), 20_001, 20_002 + empty)
            self.check((line, "refused 11 TooManyRows", f"{place}; a file has at most 20000 rows"))

    def test_a_name_that_is_taken(self):
        """The name must be used by a file of the same kind. The market's prices are `f5.csv`."""
        line = self.load("prices", [], "f5.csv")
        told = f"{path_in(line)}: a file of prices named f5.csv was accepted with other bytes; give this one another name"
        self.check((line, "refused 20 FileChanged", told))

    def test_paths_that_are_not_ascii(self):
        """A path is told as it was given."""
        folder = self.room / "Zähler"
        folder.mkdir()
        (folder / "p.csv").write_bytes(b"x")
        path = f"{folder}/p.csv"
        told = f'{path}: line 1, the header, is "x"; expected {HEADERS["prices"]}'
        self.check((f"load {EARLY} {OPERATOR} prices {path}", "refused 12 BadHeader", told))


    def test_a_path_with_a_line_end(self):
        """An explanation is still one line: characters that control a terminal are shown by escapes."""
        folder = self.room / "two\nlines\x1b\t\r"
        folder.mkdir()
        (folder / "p.csv").write_bytes(b"x")
        path = f"{self.room}/two\\nlines\\x1B\\t\\r"
        for (name, *words), told in (
            (("load", "--key", OPERATOR, "prices", folder / "p.csv"), f'{path}/p.csv: line 1, the header, is "x"; expected {HEADERS["prices"]}'),
            (("load", "--key", OPERATOR, "prices", folder / "q.csv"), f"{path}/q.csv: {MISSING}"),
            (("script", folder / "no"), f"{path}/no: {MISSING}"),
        ):
            self.assertEqual(self.by_command(name, *words)[1], [told])
        self.database = folder / "office.db"
        found = self.added(*(self.command("report", *option, "--key", OPERATOR, "balances") for option in ((), ("--explain",))))
        self.assertEqual(found, [f"{path}/office.db: there is nothing"])


class Runs(Explained):
    """Why a run isn't made or a report isn't written, 50 to 55, 60 and 63."""

    def test_moments_and_kinds(self):
        ends = f"SF of {DAY}: the date isn't over at the moment of the run; it ends at the moment {END}"
        later = f"R1 of {DAY}: the date has a later kind of run already"
        self.check(
            (self.order("SF", END - 1), "refused 52 DayNotOver", ends),
            (self.order("R1"), "refused 51 NoInitialRun", f"R1 of {DAY}: the date has no run, and its first is SF"),
            (self.order("SF"), SETTLED, None),
            (self.order("RF"), f"run {DAY} RF periods 48 accounts 4 residual 5050 postings 0", None),
            (self.order("R1"), "refused 50 RunOrder", later),
        )

    def test_the_end_of_days_on_which_clocks_change(self):
        """A day is over when the next one begins."""
        asked = []
        for date, end in (("2024-03-31", midnight("2024-04-01")), ("2024-10-27", midnight("2024-10-28"))):
            told = f"SF of {date}: the date isn't over at the moment of the run; it ends at the moment {end}"
            asked.append((self.order("SF", end - 1, date), "refused 52 DayNotOver", told))
            asked.append((self.order("SF", end, date), "refused 53 MissingPrice period 1", f"SF of {date}: period 1 has no price"))
        self.check(*asked)

    def test_what_is_missing(self):
        """The next day: 47 prices, all 48 prices, and readings of G1, all readings of S1 but one, and the last one."""
        date = "2024-07-02"
        prices = [f"{date},{period},1" for period in range(1, 49)]
        readings = {unit: [f"{unit},{date},{period},0,1,0" for period in range(1, 49)] for unit in ("G1", "S1")}
        order = self.order("SF", NEXT_END, date)

        def missing(unit, period, count):
            verb = "reading is" if count == 1 else "readings are"
            text = f"unit {unit} has no reading for period {period}; {count} {verb} missing for {date}"
            return order, f"refused 54 MissingMeter unit {unit} period {period}", f"SF of {date}: {text}"

        self.check(
            (order, "refused 53 MissingPrice period 1", f"SF of {date}: period 1 has no price"),
            (self.load("prices", prices[:20] + prices[21:], "a.csv"), "applied=47 late=0", None),
            (order, "refused 53 MissingPrice period 21", f"SF of {date}: period 21 has no price"),
            (self.load("prices", prices[20], "b.csv"), APPLIED, None),
            missing("G1", 1, 96),
            (self.load("meters", readings["G1"], "c.csv"), "applied=48 late=0", None),
            missing("S1", 1, 48),
            (self.load("meters", readings["S1"][:6] + readings["S1"][7:], "d.csv"), "applied=47 late=0", None),
            missing("S1", 7, 1),
            (self.load("meters", readings["S1"][6], "e.csv"), APPLIED, None),
            (order, f"run {date} SF periods 48 accounts 4 residual 0 postings 0", None),
        )

    def test_a_period_past_a_limit(self):
        """Six units of 20,000 MWh each exceed the limit of a charge at the greatest price."""
        units = [f"U{number}" for number in range(6)]
        readings = [f"{unit},{DAY},{period},{10000 if period == 20 else 0},2,0" for period in range(1, 49) for unit in units]
        self.check(
            (self.load("units", [f"{unit},GENCO,P,no,2024-01-01," for unit in units]), "applied=6 late=0", None),
            (self.load("meters", readings), "applied=288 late=0", None),
            (self.load("prices", f"{DAY},20,99999.99999", "dear.csv"), APPLIED, None),
            (self.order("SF"), "refused 55 TooLarge period 20", f"SF of {DAY}: a figure of period 20 passes a limit of settlement"),
        )

    def test_keys(self):
        """A party's key, and a key that nobody has. No key is shown."""
        for key in ("genco0001", "op-settle002"):
            line = self.load("prices", f"{DAY},1,1", "key.csv", key=key)
            asked = [
                (line, f"{path_in(line)}"),
                (self.order("SF", key=key), f"SF of {DAY}"),
                (report("day", "R1", key), f"R1 of {DAY}"),
                (report("csv", "DF", key), f"DF of {DAY}"),
                (balances(key), "balances"),
            ]
            self.check(*((line, "refused 60 Forbidden", f"{of}: {NOT_OPERATORS}") for line, of in asked))

    def test_reports_of_no_run(self):
        told = "the date has no such run"
        self.check(
            (report("day"), "refused 63 NoRun", f"SF of {DAY}: {told}"),
            (report("csv", "R2", date="2099-12-31"), "refused 63 NoRun", f"R2 of 2099-12-31: {told}"),
        )


class LateRows(Explained):
    """Which rows of an accepted file were late."""

    # At the deadline of period 3 the rows of periods 1, 2 and 3 are late.
    THIRD = DEADLINE + 2 * 1800
    PERIODS = 4, 1, 10, 11, 2, 3, 1, 40

    def contracts(self, periods, date=DAY):
        return [f"C{number},GENCO-P,SUPCO-C,{date},{period},1.000" for number, period in enumerate(periods, 1)]

    def late(self, kind, rows, name, moment, late, told):
        line = self.load(kind, rows, name, moment)
        count = len(rows)
        return line, f"applied={count - late} late={late}", told and f"{path_in(line)}: late: {told}"

    def test_some_rows(self):
        """Two files of one name, each under its kind."""
        reallocations = [f"G1,SUPCO-P,{DAY},{period},1,0" for period in self.PERIODS[:6]]
        self.check(
            self.late("contracts", self.contracts(self.PERIODS), "some.csv", self.THIRD, 4, "rows 2, 5 to 7"),
            self.late("reallocations", reallocations, "some.csv", self.THIRD, 3, "rows 2, 5 to 6"),
        )

    def test_one_all_and_none(self):
        self.check(
            self.late("contracts", self.contracts([48, 47, 1, 2]), "one.csv", DEADLINE, 1, "row 3"),
            self.late("contracts", self.contracts([1]), "only.csv", DEADLINE, 1, "row 1"),
            self.late("contracts", self.contracts([1, 48]), "all.csv", END, 2, "rows 1 to 2"),
            self.late("contracts", self.contracts([1, 48]), "none.csv", DEADLINE - 1, 0, None),
            self.late("contracts", [], "empty.csv", END, 0, None),
            (self.load("prices", f"{DAY},1,1", "price.csv", END), APPLIED, None),
        )

    def test_rows_of_several_dates(self):
        """All periods of 2024-03-31, which has 46, are late; those of 2024-07-01 up to period 3; and none of 2024-10-27."""
        rows = [*self.contracts([46, 1], "2024-10-27"), *self.contracts([4, 3]), *self.contracts([46], "2024-03-31"), *self.contracts([1])]
        rows = [row.replace(row.partition(",")[0], f"D{number}", 1) for number, row in enumerate(rows)]
        self.check(self.late("contracts", rows, "dates.csv", self.THIRD, 3, "rows 4 to 6"))

    def test_each_second_row(self):
        periods = [1, 48] * 10_000
        told = "rows " + ", ".join(str(row) for row in range(1, 20_000, 2))
        rows = [f"C1,GENCO-P,SUPCO-C,{DAY},{period},0" for period in periods]
        self.check(self.late("contracts", rows, "second.csv", END - 7200, 10_000, told))

    def test_empty_lines_have_no_number(self):
        rows = self.contracts([4, 1, 2])
        data = "\r\n\r\n".join([HEADERS["contracts"], *rows]).encode()
        line = self.load("contracts", data, "apart.csv", self.THIRD)
        self.check((line, "applied=1 late=2", f"{path_in(line)}: late: rows 2 to 3"))

    def test_other_leads(self):
        """With a lead of 0 a period's start is the deadline; with a lead of a day the deadline is a day before."""
        rows = self.contracts([1, 2, 3])
        for minutes, late, told in ((0, 1, "row 1"), (29, 1, "row 1"), (30, 2, "rows 1 to 2"), (1440, 3, "rows 1 to 3")):
            asked = self.late("contracts", rows, "lead.csv", DEADLINE + 3600, late, told)
            self.check_script(asked, options=("--lead-minutes", str(minutes)))
            self.database = self.room / f"lead{minutes}.db"
            self.init(f"--lead-minutes={minutes}")
            self.answers(self.load(*MARKET[0]), "applied=2 late=0")
            self.check_commands(asked)

    def test_a_repeat(self):
        """A file that comes again is told as it was when it was accepted, whatever the moment: the same rows were late."""
        rows = self.contracts(self.PERIODS)
        moments = self.THIRD, END + 365 * 86_400, EARLY, -1
        self.check(*(self.late("contracts", rows, "again.csv", moment, 4, "rows 2, 5 to 7") for moment in moments))


class Unread(Explained):
    """Files that can't be read, ports that can't be listened on, paths at which there is nothing or something, and outputs."""

    def test_files(self):
        (self.room / "folder.csv").mkdir()
        asked = []
        for path, why in (("missing.csv", MISSING), ("no/folder.csv", MISSING), ("folder.csv", IS_FOLDER), ("balances/x.csv", NO_FOLDER)):
            path = f"{self.room}/{path}"
            asked.append((f"load {EARLY} {OPERATOR} prices {path}", "fault file", f"{path}: {why}"))
        self.check(*asked)

    def test_a_relative_path(self):
        """It is told as it was given."""
        found = self.by_command("load", "--key", OPERATOR, "prices", "p.csv", cwd=self.room)
        self.assertEqual(found, (answer("fault file"), [f"p.csv: {MISSING}"]))

    def test_ports(self):
        port = self.taken_port()
        told = f"port {port}: {PORT_TAKEN}"
        self.assertEqual(self.by_command("serve", f"--port={port}", "--count=1"), (answer("fault socket"), [told]))
        self.check_script((f"serve 5 {port} 1", "fault socket", told))

    def test_paths(self):
        there = f"{self.database}: there is something already"
        self.assertEqual(self.by_command("init", "--operator-key", OPERATOR), (answer("fault exists"), [there]))
        self.database = self.room / "missing.db"
        for name, words in self.commands.items():
            self.assertEqual(self.by_command(name, *words), (answer("fault nofile"), [f"{self.database}: there is nothing"]), name)

    def test_files_that_hold_no_office(self):
        self.database = self.room / "other.db"
        self.database.write_bytes(b"no database")
        told = answer("refused 91 Store"), [f"{self.database}: {NO_OFFICE}"]
        for name, words in self.commands.items():
            self.assertEqual(self.by_command(name, *words), told, name)
        self.database = self.room / "missing" / "office.db"
        told = answer("refused 91 Store"), [f"{self.database}: {NO_OFFICE}"]
        self.assertEqual(self.by_command("init", "--operator-key", OPERATOR), told)

    def test_a_reader_that_does_nothing(self):
        """Each command is refused while another process has the file open, as a prompt of `sqlite3` does when it has answered. Once that
        has ended, commands are answered again."""
        asks = "import sqlite3, sys; office = sqlite3.connect(f'file:{sys.argv[1]}?mode=ro', uri=True); "
        asks += "print(office.execute('SELECT count(*) FROM settings').fetchall(), flush=True); sys.stdin.read()"
        words = [sys.executable, "-c", asks, str(self.database)]
        with subprocess.Popen(words, stdin=subprocess.PIPE, stdout=subprocess.PIPE) as reader:
            self.assertEqual(reader.stdout.readline(), b"[(1,)]\n")
            told = f"refused 91 Store\n{self.database}: {NO_OFFICE}\n".encode()
            for name, words in self.commands.items():
                self.assertEqual(self.command(name, "--explain", *words), (1, b"", told), name)
            reader.stdin.close()
            reader.wait()
        self.assertEqual(self.command("report", *self.commands["report"])[0], 0)

    def test_scripts(self):
        """The file of a script itself, over a new office and over a database."""
        missing, large = self.room / "missing", self.room / "large"
        large.write_bytes(b"\n" * 16_777_217)
        for path, text, why in ((missing, "fault file", MISSING), (self.room, "fault file", IS_FOLDER), (large, "refused 10 FileTooLarge", "it has more than 16777216 bytes")):
            told = answer(text), [f"{path}: {why}"]
            self.assertEqual(self.by_command("script", path), told)
            plain = settle("script", "--operator-key", OPERATOR, str(path))
            explained = settle("script", "--explain", "--operator-key", OPERATOR, str(path))
            self.assertEqual((plain, self.added(plain, explained)), told)

    @unittest.skipUnless(shutil.which("cc"), "no C compiler `cc` is on the path, so the clock was not set back")
    def test_a_clock_that_tells_no_moment(self):
        """It is set before 1970. With --at it isn't asked."""
        library, source = str(self.room / "clock.so"), HOME / "tests" / "early_clock.c"
        subprocess.run(["cc", "-shared", "-fPIC", "-O1", "-o", library, str(source)], check=True)
        environment = {**os.environ, "LD_PRELOAD": library}
        for name in ("load", "run"):
            key, moment, words = self.commands[name][:2], self.commands[name][2], self.commands[name][3:]
            found = self.by_command(name, *key, *words, env=environment)
            self.assertEqual(found, (answer("fault clock"), ["the clock tells no moment; give one with --at"]), name)
            plain, added = self.by_command(name, *key, moment, *words, env=environment)
            self.assertEqual((plain[0], added), (0, []), name)

    def test_outputs(self):
        """A full one and a closed one."""
        for streams in (">/dev/full", ">&-"):
            for name, words in (*self.commands.items(), ("load", ("--key", OPERATOR, f"--at={END}", "contracts", self.late_contract()))):
                kept = self.files_of_the_office()
                plain = self.by_shell(streams, name, *words)
                self.put_back(kept)
                explained = self.by_shell(streams, name, *words, "--explain")
                self.assertEqual((plain, self.added(plain, explained)), (answer("fault output"), [NO_OUTPUT]), (name, streams))

    def late_contract(self):
        return self.path("late.csv", text_of("contracts", [f"C1,GENCO-P,SUPCO-C,{DAY},1,1.000"]))

    def test_a_script_whose_output_fails(self):
        """If the answer to a line was not written, the line isn't explained."""
        lines = [f"load {EARLY} {OPERATOR} prices /missing.csv", balances()]
        path = self.file("cut", "".join(f"{line}\n" for line in lines))
        plain = self.by_shell(">/dev/full", "script", path)
        self.assertEqual((plain, self.added(plain, self.by_shell(">/dev/full", "script", "--explain", path))), (answer("fault output"), [NO_OUTPUT]))

    def test_a_standard_error_that_takes_nothing(self):
        for streams in ("2>/dev/full", "2>&-"):
            for words in (("report", "--key", "genco0001", "balances"), ("script", self.script), ("load", "--key", OPERATOR, "prices", "/missing.csv")):
                self.assertEqual(self.by_shell(streams, *words, "--explain"), self.by_shell(streams, *words), words)


class Scripts(Explained):
    """Where the explanations of a script's lines are written."""

    def test_behind_the_answers(self):
        """If a script writes to both streams, which are one here, the explanations come after the answers to all lines."""
        missing = f"load {EARLY} {OPERATOR} prices {self.room}/missing.csv"
        late = self.load("contracts", f"C1,GENCO-P,SUPCO-C,{DAY},1,1.000", "late.csv", DEADLINE)
        lines = [missing, *self.market(), late, self.order("R1"), self.order("SF"), report("day", "R1")]
        script = self.file("script", "".join(f"{line}\n" for line in lines))
        wanted = [
            "fault file",
            *("applied=2 late=0", "applied=2 late=0", "applied=1 late=0", "applied=96 late=0", "applied=48 late=0"),
            *(LATE, "refused 51 NoInitialRun", SETTLED, "refused 63 NoRun"),
            f"line 1: {self.room}/missing.csv: {MISSING}",
            f"line 7: {path_in(late)}: late: row 1",
            f"line 8: R1 of {DAY}: the date has no run, and its first is SF",
            f"line 10: R1 of {DAY}: the date has no such run",
        ]
        self.database = self.room / "streams.db"
        self.init()
        for office in (("--operator-key", OPERATOR), ("--db", str(self.database))):
            words = [SETTLE, "script", "--explain", *office, script]
            made = subprocess.run(words, stdin=subprocess.DEVNULL, stdout=subprocess.PIPE, stderr=subprocess.STDOUT)
            self.assertEqual((made.returncode, made.stdout.decode().splitlines()), (0, wanted))

    def test_over_a_database(self):
        """The same lines are added as over a new office."""
        lines = [
            (self.load("prices", [f"{DAY},49,1"], "a.csv"), "refused 34 NoSuchPeriod row 1"),
            (self.load("contracts", [f"C1,GENCO-P,SUPCO-C,{DAY},{period},1.000" for period in (9, 1)], "b.csv", DEADLINE), "applied=1 late=1"),
            (self.order("SF", NEXT_END, "2024-07-02"), "refused 53 MissingPrice period 1"),
            (balances("genco0001"), "refused 60 Forbidden"),
        ]
        script = self.file("over", "".join(f"{line}\n" for line, _ in lines))
        plain, added = self.by_command("script", script)
        self.assertEqual(plain, (0, "".join(f"{text}\n" for _, text in lines).encode(), b""))
        bad, late = path_in(lines[0][0]), path_in(lines[1][0])
        wanted = [
            f"line 1: {at_line(bad, 1, 2)}, {shown(f'{DAY},49,1')}; {DAY} has no period 49: its last is 48",
            f"line 2: {late}: late: row 2",
            "line 3: SF of 2024-07-02: period 1 has no price",
            f"line 4: balances: {NOT_OPERATORS}",
        ]
        self.assertEqual(added, wanted)

    def test_a_path_with_control_characters(self):
        """An explanation of a line is still one line."""
        path, told = f"{self.room}/a\tb\rc\x1b[2J/p.csv", f"{self.room}/a\\tb\\rc\\x1B[2J/p.csv"
        plain, added = self.by_command("script", self.file("control", f"load {EARLY} {OPERATOR} prices {path}\n"))
        self.assertEqual((plain, added), ((0, b"fault file\n", b""), [f"line 1: {told}: {MISSING}"]))

    def test_nothing_is_added_where_all_is_done(self):
        asked = [(line, text, None) for line, text in ((self.order("SF"), SETTLED), (self.dearer(), APPLIED))]
        self.check(*asked)
        plain, added = self.by_command("report", "--key", OPERATOR, "balances")
        self.assertEqual((plain[0], added), (0, []))


class Pipes(Explained):
    """A file from a pipe can't be read a second time. What is written and the status are the same. The explanation tells what
    the refusal means, and that the file can't be read again."""

    def twice(self, data, *words, moment=END, key=OPERATOR):
        made = []
        for more in ((), ("--explain",)):
            call = [SETTLE, "load", "--db", str(self.database), "--key", key, f"--at={moment}", *more, *words, "/dev/stdin"]
            done = subprocess.run(call, input=data, capture_output=True)
            made.append((done.returncode, done.stdout, done.stderr))
        return made[0], self.added(*made)

    def test_refusals(self):
        """What the refusal says by itself."""
        for data, text, told in (
            (b"date\n", "refused 12 BadHeader", "the file has another header, or none"),
            (text_of("prices", [f"{DAY},1"]), "refused 13 BadRecord row 1", "a row has more or fewer fields than the header"),
            (text_of("prices", [f"{DAY},1,x"]), "refused 14 BadField row 1 column 3", "a field is off its grammar or range"),
            (text_of("prices", [f"{DAY},49,1"]), "refused 34 NoSuchPeriod row 1", "the date has no such period"),
            (b"\n" * 1_048_577, "refused 10 FileTooLarge", "the file has too many bytes"),
        ):
            self.assertEqual(self.twice(data, "prices"), (answer(text), [f"/dev/stdin: {told}; {NOT_AGAIN}"]))

    def test_what_each_refusal_means(self):
        """In words that name no row."""
        parties = [f"P{number},2024-01-01,,party{number:03}" for number in range(399)]
        for kind, rows, text, told in (
            ("prices", [f"{DAY},1,1"] * 20_001, "11 TooManyRows", "the file has too many rows"),
            ("units", ["U1,NEWCO,P,no,2024-01-01,"], "30 UnknownParty row 1", "a party isn't registered"),
            ("meters", [f"U1,{DAY},1,1,1,0"], "31 UnknownUnit row 1", "the unit isn't registered"),
            ("meters", ["G1,2023-12-31,1,1,1,0"], "33 NotEffective row 1", "the date is outside a registered range of dates"),
            ("contracts", [f"C9,GENCO-P,GENCO-P,{DAY},1,1"], "35 SameAccount row 1", "the seller is the buyer"),
            ("contracts", [f"C1,SUPCO-C,GENCO-P,{DAY},1,1"], "36 ReferenceMoved row 1", "the first row of the reference has another seller or buyer"),
            ("reallocations", [f"G1,GENCO-P,{DAY},1,1,0"], "37 OwnLead row 1", "the account is the unit's lead account"),
            ("reallocations", [realloc("SUPCO-P", 60), realloc("SUPCO-C", 41)], "38 OverHundred row 2", "more than 100 percent of the unit would be reallocated"),
            ("parties", ["GENCO,2024-02-01,,genco0001"], "39 ShrinksRange row 1", "the registered range of dates would shrink"),
            ("units", ["G1,SUPCO,P,no,2024-01-01,"], "40 UnitMoved row 1", "the unit has another mark, or the row's account can't lead it from that date on"),
            ("parties", parties, "42 TooMany row 399", "as many are registered as may be"),
        ):
            found = self.twice(text_of(kind, rows), kind, moment=EARLY)
            self.assertEqual(found, (answer(f"refused {text}"), [f"/dev/stdin: {told}; {NOT_AGAIN}"]))

    def test_a_name_that_is_taken_and_a_wrong_key(self):
        """The name of the file is `stdin`."""
        self.assertEqual(self.twice(text_of("prices", [f"{DAY},1,60"]), "prices"), (answer(APPLIED), []))
        told = f"/dev/stdin: a file of this kind and name was accepted with other bytes; {NOT_AGAIN}"
        self.assertEqual(self.twice(text_of("prices", [f"{DAY},1,61"]), "prices"), (answer("refused 20 FileChanged"), [told]))
        told = f"/dev/stdin: {NOT_OPERATORS}; {NOT_AGAIN}"
        self.assertEqual(self.twice(text_of("prices", [f"{DAY},1,61"]), "prices", key="genco0001"), (answer("refused 60 Forbidden"), [told]))

    def test_late_rows(self):
        """How many they are."""
        for count, rows in ((1, "1 row"), (2, "2 rows")):
            data = text_of("contracts", [f"C1,GENCO-P,SUPCO-C,{DAY},{period},1.000" for period in range(1, count + 1)])
            self.database = self.room / f"late{count}.db"
            self.init()
            self.answers(self.load(*MARKET[0]), "applied=2 late=0")
            told = f"/dev/stdin: late: {rows}; {NOT_AGAIN}"
            self.assertEqual(self.twice(data, "contracts"), (answer(f"applied=0 late={count}"), [told]))

    def test_a_pipe_with_a_name(self):
        """Nobody writes into it a second time, and the command still ends."""
        pipe = self.room / "pipe.csv"
        os.mkfifo(pipe)
        data = self.file("data", text_of("prices", [f"{DAY},1,x"]))
        writer = subprocess.Popen(["sh", "-c", 'exec cat "$0" >"$1"', data, str(pipe)])
        self.addCleanup(writer.wait)
        self.addCleanup(writer.kill)
        made = self.command("load", "--explain", "--key", OPERATOR, "prices", pipe, timeout=PATIENCE)
        told = f"refused 14 BadField row 1 column 3\n{pipe}: a field is off its grammar or range; {NOT_AGAIN}\n"
        self.assertEqual(made, (1, b"", told.encode()))

    def test_a_file_behind_standard_input(self):
        """A file that is given as standard input is opened again by this path, and explained like any other."""
        path = self.path("p.csv", text_of("prices", [f"{DAY},1,x"]))
        with open(path, "rb") as file:
            call = [SETTLE, "load", "--db", str(self.database), "--key", OPERATOR, "--explain", "prices", "/dev/stdin"]
            made = subprocess.run(call, stdin=file, capture_output=True)
        told = f'{at_line("/dev/stdin", 1, 2)}; column 3, price, is "x"; expected {PRICE}\n'
        self.assertEqual((made.returncode, made.stdout, made.stderr.decode()), (1, b"", f"refused 14 BadField row 1 column 3\n{told}"))


class Period(OfTheProgram):
    """`settle period --explain`."""

    def explained(self, *words):
        plain = settle("period", *words)
        made = [settle("period", "--explain", *words)]
        made += [settle("period", *words[:2], "--explain", *words[2:])] if "--" not in words[:2] else []
        for status, written, told in made:
            self.assertEqual((status, written), plain[:2])
            self.assertTrue(told.startswith(plain[2]))
        self.assertEqual(len(set(made)), 1)
        return plain, made[0][2][len(plain[2]) :].decode()

    def is_explained(self, meter, contracts, price, text, told):
        """A period of these files is refused with this, and explained by this text, with the paths for `{meter}` and
        `{contracts}`."""
        paths = {"meter": self.file("meter.csv", meter), "contracts": self.file("contracts.csv", contracts)}
        found = self.explained(*paths.values(), "--", price)
        self.assertEqual(found, (answer(text), f"{told.format(**paths)}\n"))

    def test_each_column(self):
        for name, header, row in (("meter", METER_HEADER, "U,A-P,1,1,0"), ("contracts", CONTRACTS_HEADER, "C,A-P,B-P,1")):
            fields = row.split(",")
            for place, column in enumerate(header.strip().split(",")):
                bad = ",".join([*fields[:place], "?", *fields[place + 1 :]])
                files = {"meter": METER_HEADER, "contracts": CONTRACTS_HEADER, name: f"{header}{row}\n\n{bad}\n"}
                told = f'{{{name}}}: row 2 is line 4 of the file; column {place + 1}, {column}, is "?"; expected {FORMS[column]}'
                self.is_explained(files["meter"], files["contracts"], "1", f"refused 14 BadField row 2 column {place + 1} in {name}", told)

    def test_texts(self):
        header = METER_HEADER.strip()
        for meter, text, told in (
            ("", "12 BadHeader", f"{{meter}}: it has no header; expected {header}"),
            ("\n", "12 BadHeader", f"{{meter}}: it has no header; expected {header}"),
            ("\nunit\n", "12 BadHeader", f'{{meter}}: line 2, the header, is "unit"; expected {header}'),
            (METER_HEADER + "U,A-P,1,1\n", "13 BadRecord row 1", "{meter}: row 1 is line 2 of the file; it has 4 fields, expected 5"),
            (METER_HEADER + "U,A-P,1,1,0\n" * 20_001, "11 TooManyRows", "{meter}: row 20001 is line 20002 of the file; a file has at most 20000 rows"),
            (METER_HEADER.ljust(1_048_577, "\n"), "10 FileTooLarge", "{meter}: it has more than 1048576 bytes"),
        ):
            self.is_explained(meter, CONTRACTS_HEADER, "1", f"refused {text} in meter", told)
        self.is_explained(METER_HEADER, "x\n", "1", "refused 12 BadHeader in contracts", f'{{contracts}}: line 1, the header, is "x"; expected {CONTRACTS_HEADER.strip()}')

    def test_contracts(self):
        same = "C,A-P,A-P,1"
        self.is_explained(METER_HEADER, f"{CONTRACTS_HEADER}{same}\n", "1", "refused 35 SameAccount row 1 in contracts", f"{{contracts}}: row 1 is line 2 of the file, {shown(same)}; the seller is the buyer")
        rows = "C,A-P,B-P,1\r\n\r\nC,A-P,B-C,1\r\n"
        moved = "the first row of the reference has another seller or buyer"
        self.is_explained(METER_HEADER, CONTRACTS_HEADER + rows, "1", "refused 36 ReferenceMoved row 2 in contracts", f"{{contracts}}: row 2 is line 4 of the file, {shown('C,A-P,B-C,1')}; {moved}")

    def test_prices(self):
        for price in ("x", "50,5", "", "50.000001", "-100000", "9" * 41, "50€", "--explain"):
            self.is_explained(METER_HEADER, CONTRACTS_HEADER, price, "refused 14 BadField in price", f"price {shown(price)}; expected {PRICE}")

    def test_a_charge_past_its_limit(self):
        rows = "".join(f"U{unit},A-P,10000,2,0\n" for unit in range(6))
        told = "a figure of a period passes a limit of settlement"
        self.is_explained(METER_HEADER + rows, CONTRACTS_HEADER, "99999.99999", "refused 55 TooLarge", told)

    def test_files_that_cannot_be_read(self):
        """METER is read first."""
        meter, missing = self.file("meter.csv", METER_HEADER), f"{self.room}/missing.csv"
        for paths, path, why in (((missing, meter), missing, MISSING), ((meter, missing), missing, MISSING), ((str(self.room), missing), str(self.room), IS_FOLDER)):
            self.assertEqual(self.explained(*paths, "1"), (answer("fault file"), f"{path}: {why}\n"))

    def from_pipe(self, data, *words):
        """A period whose METER is a named pipe into which a writer writes once."""
        pipe = self.room / "meter.pipe"
        os.mkfifo(pipe)
        writer = subprocess.Popen(["sh", "-c", 'exec cat "$0" >"$1"', self.file("data", data), str(pipe)])
        self.addCleanup(writer.wait)
        self.addCleanup(writer.kill)
        return settle("period", "--explain", str(pipe), *words, timeout=PATIENCE)

    def test_a_pipe_beside_a_file_that_is_not_there(self):
        """It isn't asked why the pipe can't be read, into which nobody writes a second time."""
        missing = f"{self.room}/missing.csv"
        self.assertEqual(self.from_pipe(METER_HEADER, missing, "1"), (1, b"", f"fault file\n{missing}: {MISSING}\n".encode()))

    def test_a_pipe(self):
        """It can't be read a second time."""
        told = "refused 12 BadHeader in meter\nthe file has another header, or none; a file can't be read a second time\n"
        self.assertEqual(self.from_pipe("x\n", self.file("c", CONTRACTS_HEADER), "1"), (1, b"", told.encode()))

    def test_a_pipe_beside_a_wrong_price(self):
        """A price needs no file."""
        told = f"refused 14 BadField in price\nprice {shown('x')}; expected {PRICE}\n"
        self.assertEqual(self.from_pipe(METER_HEADER, self.file("c", CONTRACTS_HEADER), "x"), (1, b"", told.encode()))

    def test_an_output_that_takes_nothing(self):
        meter, contracts = self.file("m", METER_HEADER), self.file("c", CONTRACTS_HEADER)
        for streams in (">/dev/full", ">&-"):
            made = subprocess.run(["sh", "-c", f'"$@" {streams}', "sh", SETTLE, "period", "--explain", meter, contracts, "1"], capture_output=True)
            self.assertEqual((made.returncode, made.stderr.decode()), (1, f"fault output\n{NO_OUTPUT}\n"))

    def test_what_is_settled(self):
        meter, contracts = self.file("m", METER_HEADER), self.file("c", CONTRACTS_HEADER)
        self.assertEqual(self.explained(meter, contracts, "1"), ((0, b"residual 0\n", b""), ""))


class Documented(Explained):
    """The examples of docs/formats.md, made with files of the names that are there."""

    def setUp(self):
        super().setUp()
        self.page = (HOME / "docs" / "formats.md").read_text(encoding="utf-8")

    def told(self, *words, folder=None):
        """The last line that a command in a folder tells."""
        told = settle(*map(str, words), cwd=folder or self.room)[2].decode().splitlines()
        return told[-1] if told else ""

    def put(self, name, data):
        path = self.room / name
        path.parent.mkdir(exist_ok=True)
        path.write_bytes(data)

    def loading(self, kind, name, data, *options, key=OPERATOR, moment=EARLY):
        """What is told about a file with these rows or bytes."""
        self.put(name, data if isinstance(data, bytes) else text_of(kind, data))
        return self.told("load", "--explain", "--db", self.database, "--key", key, f"--at={moment}", *options, kind, name)

    def running(self, kind, moment=NEXT_END):
        return self.told("run", "--explain", "--db", self.database, "--key", OPERATOR, f"--at={moment}", DAY, kind)

    def missing_things(self):
        """What is told about a run for which a price and twelve readings are missing, and about it after the price is there."""
        office, self.database = self.database, self.room / "missing.db"
        self.init()
        for kind, rows in MARKET:
            gone = [f"{DAY},7,"] if kind == "prices" else [f"S1,{DAY},{period}," for period in range(7, 19)] if kind == "meters" else []
            self.loading(kind, f"rows/{kind}.csv", [row for row in rows if not row.startswith(tuple(gone))])
        price = self.running("SF")
        self.loading("prices", "rows/seventh.csv", [f"{DAY},7,1"])
        readings = self.running("SF")
        self.database = office
        return price, readings

    def too_large(self):
        """What is told about a run with a period that exceeds a limit."""
        units = [f"U{number}" for number in range(6)]
        self.loading("units", "rows/units.csv", [f"{unit},GENCO,P,no,2024-01-01," for unit in units])
        self.loading("meters", "rows/meters.csv", [f"{unit},{DAY},{period},{10000 if period == 20 else 0},2,0" for period in range(1, 49) for unit in units])
        self.loading("prices", "rows/dear.csv", [f"{DAY},20,99999.99999"])
        return self.running("SF")

    def changed(self):
        """What is told about a file whose name is used."""
        self.loading("prices", "rows/p.csv", [f"{DAY},1,50.00000"])
        return self.loading("prices", "new/p.csv", [f"{DAY},1,51.00000"])

    def elsewhere(self):
        """What is told about a file that is no office's, and about files and an office that aren't there."""
        empty = self.room / "empty"
        empty.mkdir()
        report = "report", "--explain", "--db", "office.db", "--key", OPERATOR, "balances"
        load = "load", "--explain", "--db", self.database, "--key", OPERATOR, "prices", "rows/p.csv"
        missing, nothing = self.told(*load, folder=empty), self.told(*report, folder=empty)
        (empty / "office.db").write_bytes(b"no office")
        return missing, nothing, self.told(*report, folder=empty)

    def made(self):
        """Each of these examples, by what is told without an explanation."""
        row = f"{DAY},1,50"
        contracts = [f"C1,GENCO-P,SUPCO-C,{DAY},{period},99.000" for period in LateRows.PERIODS]
        missing, nothing, none = self.elsewhere()
        price, readings = self.missing_things()
        meter, contract = self.file("m", METER_HEADER), self.file("c", CONTRACTS_HEADER)
        port = self.taken_port()
        return {
            "10": [self.loading("prices", "rows/p.csv", b"\n" * 1_048_577)],
            "11": [self.loading("prices", "rows/p.csv", [row] * 20_001)],
            "12": [self.loading("prices", "rows/p.csv", data) for data in (b"date;period;price\n", b"")],
            "13": [self.loading("prices", "rows/p.csv", [row, f"{DAY},2,50,5"])],
            "14": [self.loading("prices", "rows/p.csv", [row, f'{DAY},2,"50,5"'])],
            "14 of PRICE": [self.told("period", "--explain", meter, contract, "50,5")],
            "20": [self.changed()],
            "30 to 42": [self.loading("contracts", "rows/c.csv", [*contracts[:2], f"C1,SUPCO-C,GENCO-P,{DAY},1,99.000"])],
            "50, 51": [self.running("R1")],
            "52": [self.running("SF", END - 1)],
            "53": [price],
            "54": [readings],
            "60": [self.loading("prices", "rows/p.csv", [row], key="genco0001")],
            "63": [self.told("report", "--explain", "--db", self.database, "--key", OPERATOR, "day", DAY, "R2")],
            "91": [none],
            "`fault file`": [missing],
            "`fault socket`": [self.told("serve", "--explain", "--db", self.database, f"--port={port}").replace(str(port), "8080")],
            "`fault nofile`": [nothing],
            "`fault exists`": [self.told("init", "--explain", "--db", "office.db", "--operator-key", OPERATOR)],
            "`fault output`": [self.by_shell(">/dev/full", "report", "--key", OPERATOR, "balances", "--explain")[2].decode().splitlines()[-1]],
            "`applied=N late=M`": [self.loading("contracts", "rows/c.csv", contracts, moment=LateRows.THIRD)],
            "55": [self.too_large()],
        }

    def test_explanations(self):
        """All of them, except those for a clock that tells no moment and for refused memory."""
        section = self.page.split("\n## Explanations\n")[1].split("\n## ")[0]
        rows = dict(re.findall(r"(?m)^\| (.+?) \| (`.+) \|$", section))
        examples = {told: [text for text in re.findall(r"`([^`]+)`", cell) if " " in text] for told, cell in rows.items()}
        for told in ("90", "`fault clock`"):
            self.assertEqual(len(examples.pop(told)), 1)
        self.assertEqual(self.made(), examples)

    def test_a_line_off_its_form(self):
        """The page's example, after five lines that have their form."""
        example = next(block for block in BLOCK.findall(self.page) if block.startswith("line 6 is off its form\n"))
        script = self.file("script", f"{balances()}\n" * 5 + f"load {EARLY} {OPERATOR} party p.csv\n")
        self.assertEqual(settle("script", "--operator-key", OPERATOR, script), (2, b"", example.encode()))

    def test_wrong_words(self):
        examples = next(block for block in BLOCK.findall(self.page) if block.startswith("error: ")).splitlines()
        words = ["--db=office.db", f"--key={OPERATOR}"]
        for call, example in zip((["load", *words, "party", "p.csv"], ["run", words[0], "--key=genco01", DAY, "SF"], ["report", *words, "balances", DAY]), examples, strict=True):
            told = settle(*call)
            self.assertEqual((told[:2], told[2].decode().split("\n")[0]), ((2, b""), example))

    def test_the_line_that_stopped_a_script(self):
        self.assertIn("line 7 stopped the script\n", BLOCK.findall(self.page))
        lines = [*self.market(), self.order("SF"), self.order("SF", key="genco0001"), balances()]
        told = self.run_script("".join(f"{line}\n" for line in lines), "--strict")
        self.assertEqual((told[0], told[2]), (1, b"line 7 stopped the script\n"))


COMMAND = "load, run, report or serve"
MOMENT = "seconds since 1970-01-01T00:00:00Z, a whole number"
KEY = "a key: op- and 8 to 61 letters or digits, or a party's of 8 to 64"
KIND = "one of parties, units, meters, prices, contracts, reallocations"
PATH = "a path whose last part is a name of 1 to 64 letters, digits, ., _ or -"
RUN_KIND = "SF, R1, R2, R3, RF or DF"
FORM = "day, csv or balances"
PORT = "a port, 0 to 65535"
COUNT = "a count of connections, 0 to 1000000"
BLANKS = "words are parted by single blanks"
# The words of each line, and what each must be.
LINES = {
    "load": ([f"{EARLY}", OPERATOR, "prices", "p.csv"], [MOMENT, KEY, KIND, PATH]),
    "run": ([f"{END}", OPERATOR, DAY, "SF"], [MOMENT, KEY, DATE, RUN_KIND]),
    "report": ([OPERATOR, "day", DAY, "SF"], [KEY, FORM, DATE, RUN_KIND]),
    "serve": (["5", "0", "0"], [MOMENT, PORT, COUNT]),
}


class OffTheirForm(Desk):
    """A script's line that is off its form is told by its number, and on a second line by its word and what was expected."""

    def is_told(self, line, told):
        """It comes after a good line and before another bad one. Nothing is run. `--explain` and `--strict` change nothing."""
        data = line if isinstance(line, bytes) else line.encode()
        script = self.file("script", balances().encode() + b"\n" + data + b"\nx\n")
        wanted = (2, b"", f"line 2 is off its form\nline 2 {told}\n".encode())
        for options in ((), ("--explain",), ("--strict",)):
            self.assertEqual(settle("script", "--operator-key", OPERATOR, *options, script), wanted, line)

    def test_each_word(self):
        """It is off its grammar, missing, or one too many. If it is a key, only its length is told."""
        for name, (words, expected) in LINES.items():
            for place, what in enumerate(expected):
                self.is_told(" ".join([name, *words[:place]]), f"word {place + 2} is missing: expected {what}")
                bad = [*words[:place], "?", *words[place + 1 :]]
                how = "of 1 bytes" if what == KEY else '"?"'
                self.is_told(" ".join([name, *bad]), f"word {place + 2} {how}: expected {what}")
            self.is_told(" ".join([name, *words, "more"]), f'word {len(words) + 2} "more" is one too many')

    def test_balances(self):
        """They have neither a date nor a kind."""
        self.is_told(f"{balances()} {DAY} SF", f'word 4 "{DAY}" is one too many')

    def test_commands(self):
        for word in ("LOAD", "stop", "#", "loads", "?"):
            self.is_told(f"{word} {EARLY} {OPERATOR} prices p.csv", f"word 1 {shown(word)}: expected {COMMAND}")

    def test_an_empty_line(self):
        self.is_told("", f"is empty: a line has a command, {COMMAND}")

    def test_words_near_their_grammar(self):
        for words, place, word, what in (
            ("load 1.5 {key} prices p.csv", 2, "1.5", MOMENT),
            (f"load {2**63} {{key}} prices p.csv", 2, f"{2**63}", MOMENT),
            ("load 5 {key} party p.csv", 4, "party", KIND),
            ("load 5 {key} prices data/", 5, "data/", PATH),
            ("load 5 {key} prices a,b.csv", 5, "a,b.csv", PATH),
            ("run 5 {key} 2024-02-30 SF", 4, "2024-02-30", DATE),
            ("run 5 {key} SF 2024-07-01", 4, "SF", DATE),
            ("run 5 {key} 2024-07-01 sf", 5, "sf", RUN_KIND),
            ("report {key} html 2024-07-01 SF", 3, "html", FORM),
            ("serve 5 65536 1", 3, "65536", PORT),
            ("serve 5 80 -0", 4, "-0", COUNT),
        ):
            self.is_told(words.format(key=OPERATOR), f"word {place} {shown(word)}: expected {what}")

    def test_each_report_of_a_run(self):
        """In both forms a date and a kind follow."""
        for form in ("day", "csv"):
            self.is_told(f"report {OPERATOR} {form}", f"word 4 is missing: expected {DATE}")
            self.is_told(f"report {OPERATOR} {form} {DAY}", f"word 5 is missing: expected {RUN_KIND}")
            self.is_told(f"report {OPERATOR} {form} 2024-02-30 SF", f'word 4 "2024-02-30": expected {DATE}')
            self.is_told(f"report {OPERATOR} {form} {DAY} XX", f'word 5 "XX": expected {RUN_KIND}')
            self.is_told(f"report {OPERATOR} {form} {DAY} SF SF", 'word 6 "SF" is one too many')

    def test_keys_are_not_shown(self):
        for key in ("op-short", "genco_0001", "op-" + "k" * 62, "k" * 65, "parties", "schlüssel1"):
            self.is_told(f"load 5 {key} prices p.csv", f"word 3 of {len(key.encode())} bytes: expected {KEY}")
        self.is_told(f"load 5  {OPERATOR} prices p.csv", f"word 3 of 0 bytes: expected {KEY}; {BLANKS}")
        self.is_told(f"report {OPERATOR}\tbalances", f"word 2 of {len(OPERATOR) + 9} bytes: expected {KEY}; it has a tab: {BLANKS}")

    def test_the_first_word_that_is_wrong(self):
        self.is_told("load x y z", f'word 2 "x": expected {MOMENT}')

    def test_long_words_and_other_bytes(self):
        for word in (b"9" * 40, b"9" * 41, b"\xff\xfe", "ä€".encode(), b'"\\', b"\x00\x7f", b"!#~5~"):
            self.is_told(b"load " + word + b" " + f"{OPERATOR} prices p.csv".encode(), f"word 2 {shown(word)}: expected {MOMENT}")

    def test_what_is_not_seen(self):
        """Line ends of other systems, a byte order mark, a tab, and blanks side by side or at an end."""
        good = f"load {EARLY} {OPERATOR} prices p.csv"
        ends = "the word ends with a carriage return: lines end with LF alone"
        self.is_told(f"{good}\r", f'word 5 "p.csv\\r": expected {PATH}; {ends}')
        self.is_told(f"run {END} {OPERATOR} {DAY} SF\r", f'word 5 "SF\\r": expected {RUN_KIND}; {ends}')
        self.is_told(f"{balances()}\r", f'word 3 "balances\\r": expected {FORM}; {ends}')
        mark = "the line begins with a byte order mark"
        self.is_told(f"\ufeff{good}", f'word 1 "\\xEF\\xBB\\xBFload": expected {COMMAND}; {mark}')
        tab = f"it has a tab: {BLANKS}"
        self.is_told(good.replace(" ", "\t", 1), f'word 1 "load\\t..": expected {COMMAND}; {tab}')
        self.is_told(good.replace(" prices ", " prices\t"), f'word 4 "prices\\t..": expected {KIND}; {tab}')
        self.is_told(good.replace(" ", "  ", 1), f'word 2 "": expected {MOMENT}; {BLANKS}')
        self.is_told(f" {good}", f'word 1 "": expected {COMMAND}; {BLANKS}')
        self.is_told(f"{good} ", f'word 6 "" is one too many; {BLANKS}')

    def test_marks_in_other_places(self):
        """A byte order mark that doesn't begin the line, and a carriage return that doesn't end it, are shown, and nothing more
        is said about them."""
        self.is_told(f"load \ufeff{EARLY} {OPERATOR} prices p.csv", f'word 2 "\\xEF\\xBB\\xBF{EARLY}": expected {MOMENT}')
        self.is_told(f"load {EARLY}\r {OPERATOR} prices p.csv", f'word 2 "{EARLY}\\r": expected {MOMENT}')
        self.is_told(f"run {END} {OPERATOR} {DAY}\r SF", f'word 4 "{DAY}\\r": expected {DATE}')

    def test_a_script_of_another_system(self):
        """Each of its lines ends with CRLF, and the first is told."""
        script = self.file("script", f"{balances()}\r\n{balances()}\r\n")
        told = 'line 1 word 3 "balances\\r": expected day, csv or balances; the word ends with a carriage return: lines end with LF alone'
        self.assertEqual(settle("script", "--operator-key", OPERATOR, script), (2, b"", f"line 1 is off its form\n{told}\n".encode()))

    def test_a_standard_error_that_takes_nothing(self):
        script = self.file("script", "x\n")
        made = subprocess.run(["sh", "-c", '"$@" 2>/dev/full', "sh", SETTLE, "script", "--operator-key", OPERATOR, script], capture_output=True)
        self.assertEqual((made.returncode, made.stdout, made.stderr), (2, b"", b""))


if __name__ == "__main__":
    unittest.main()
