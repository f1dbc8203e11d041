"""What a field, a record and a header may be, through the built `settle`: in the six kinds of file that a script loads, and in
the two that `settle period` reads. Each bad field is told by its number, and each good one is accepted."""
from programs import settle
from test_desk import APPLIED, DAY, HEADERS, Desk, text_of
from test_program import CONTRACTS_HEADER, METER_HEADER, OfTheProgram

# A row of each kind that the market takes.
ROWS = {
    "parties": "NEWCO,2024-01-01,,newco0001",
    "units": "G2,GENCO,P,no,2024-01-01,",
    "meters": f"G1,{DAY},1,100.000,0.9950000,0",
    "prices": f"{DAY},1,50.00000",
    "contracts": f"C9,GENCO-P,SUPCO-C,{DAY},1,99.000",
    "reallocations": f"G1,SUPCO-P,{DAY},1,1,0",
}
PARTIES = ["", "genco", "GENCo", "GEN_CO", "GEN-CO", "ABCDEFGHI90"]
UNITS = ["", "g1", "t_GEN-1", "T GEN", "T.GEN", "G1 ", "ABCDEFGH_-1234567"]
REFERENCES = ["", "c 1", "C 1", '"c,1"', "c.1", "abcdefghijABCDEFGH-_1"]
ACCOUNTS = ["", "P", "-P", "SUPCO", "SUPCOP", "SUPCO-", "SUPCO-X", "SUP-CO-P", "ABCDEFGHI90-P"]
DATES = [
    "", "2024-02-30", "2023-02-29", "2024-07-32", "2024-7-1", "2024-2-29", "01-01-2024", f"{DAY} ", f" {DAY}", "2024-07-0",
    "2024/07/01", "20240701", "2024-00-10", "2024-13-01", "2024-04-31", "2024-04-00", "-024-04-01", "2024-O7-01",
    "1999-07-01", "2000-12-31", "2100-01-01",
]
PERIODS = ["", "0", "-0", "51", "-1", "256", "257", "1.0", " 1", "+1"]
# The digits of the last three, taken modulo 2^64 as they are or times a thousand, would be good volumes: 1.000, 0.001 and
# 0.384.
VOLUMES = [
    "", "-", "--1", "1.", ".5", ".", "-.5", "1.0000", "0.0001", "+1", "10000.001", "-10000.001", " 1", "1 ", "1e3", '"1,5"',
    "1.2.3", "x",
    "18446744073709551617", "18446744073709551.617", "18446744073709552",
]
MULTIPLIERS = ["", "2.0000001", "-0.1", "-0.0000001", "1.00000000"]
# What no field of a column may be.
BAD = {
    "parties": [PARTIES, DATES, [*DATES[1:], "2023-12-31", " "], ["", "genco01", "k" * 65, "genco_0001", "op-settle001"]],
    "units": [
        UNITS,
        PARTIES,
        ["", "p", "X", "PC"],
        ["", "y", "Yes", "No", "no ", "yesno"],
        DATES,
        [*DATES[1:], "2023-12-31", " "],
    ],
    "meters": [UNITS, DATES, PERIODS, VOLUMES, MULTIPLIERS, VOLUMES],
    "prices": [DATES, PERIODS, ["", "+1", "100000", "-100000", "5.000001"]],
    "contracts": [REFERENCES, ACCOUNTS, ACCOUNTS, DATES, PERIODS, VOLUMES],
    "reallocations": [UNITS, ACCOUNTS, DATES, PERIODS, ["", "100.00001", "-0.00001", "1.000000"], VOLUMES],
}
# Rows that are accepted, with fields that are as short, as long or as great as they may be, or spelled in another way.
GOOD = {
    "parties": [
        "A,2024-01-01,,genco000",
        "0,2024-01-01,2099-12-31,Genco0001",
        f"ABCDEFGHI9,2001-01-01,2024-07-01,{'k' * 64}",
        '"NEWER","2024-02-29","",newer0001',
    ],
    "units": ["T_GEN-1,GENCO,P,no,2024-01-01,", "ABCDEFGH_-123456,SUPCO,C,yes,2024-01-01,2099-12-31"],
    "meters": [
        f'"G1",{DAY},07,10000.000,2.0000000,-10000.000',
        f"G1,{DAY},1,-0,0,0010",
        f"G1,{DAY},1,{'0' * 20}10.500,{'0' * 19}1.0000000,-{'0' * 20}",
        "G1,2024-10-27,50,1.5,1,0",
    ],
    "prices": [f"{DAY},1,-0.00001", f"{DAY},48,99999.99999", "2024-10-27,50,-99999.99999"],
    "contracts": [
        f"c-1_Z,GENCO-P,SUPCO-C,{DAY},1,10000.000",
        f"abcdefghijABCDEFGH-_,GENCO-P,SUPCO-C,{DAY},1,-10000.000",
    ],
    "reallocations": [f"G1,SUPCO-P,{DAY},1,100.00000,-0.5", f"G1,SUPCO-C,{DAY},2,0,799.999"],
}
PERIOD_METER = "G1,A-P,1,1,0"
PERIOD_CONTRACT = "R,A-P,B-C,1"
BAD_OF_PERIODS = {
    "meter": (PERIOD_METER, [UNITS, ACCOUNTS, VOLUMES, MULTIPLIERS, VOLUMES]),
    "contracts": (PERIOD_CONTRACT, [REFERENCES, ACCOUNTS, ACCOUNTS, VOLUMES]),
}


def with_field(row, column, text):
    """The row with this text in the place of a field. The first field is 1."""
    fields = row.split(",")
    fields[column - 1] = text
    return ",".join(fields)


def bad_rows(row, columns):
    """Each row with one bad field, and the field's column."""
    for column, texts in enumerate(columns, 1):
        for text in texts:
            yield with_field(row, column, text), column


class OfOffices(Desk):
    """Files of the office. What becomes of a file of a kind is told line by line."""

    def loads(self, cases):
        """Loads these files, each given by its kind and its rows or bytes, over the market, and compares the answers."""
        lines = [self.load(kind, rows, f"{number}.csv") for number, (kind, rows, _) in enumerate(cases)]
        found = self.after_market(*lines)
        self.assertEqual(len(found), len(cases))
        for reply, (kind, rows, wanted) in zip(found, cases):
            with self.subTest(f"{kind} {rows}"):
                self.assertEqual(reply, wanted)

    def test_no_other_fields_are_taken(self):
        for kind, columns in BAD.items():
            bad = bad_rows(ROWS[kind], columns)
            self.loads([(kind, row, f"refused 14 BadField row 1 column {column}") for row, column in bad])

    def test_fields_of_each_spelling_are_taken(self):
        self.loads([(kind, row, APPLIED) for kind, rows in GOOD.items() for row in [ROWS[kind], *rows]])

    def test_a_header_of_each_kind(self):
        """A header without rows is accepted for its own kind, and is a wrong header for each other kind."""
        for kind in HEADERS:
            wanted = {other: "refused 12 BadHeader" for other in HEADERS} | {kind: "applied=0 late=0"}
            self.loads([(other, text_of(kind, []), wanted[other]) for other in HEADERS])

    def test_the_first_fault(self):
        """The first record or field that is wrong, row by row and from left to right."""
        self.loads(
            [
                ("prices", [f"{DAY},1", f"{DAY},x,1"], "refused 13 BadRecord row 1"),
                ("prices", [f"{DAY},1,1", f"{DAY},1,1,1", "x,1,1"], "refused 13 BadRecord row 2"),
                ("prices", [f"{DAY},x,x", f"{DAY},1"], "refused 14 BadField row 1 column 2"),
                ("prices", [f"{DAY},1,1", f"{DAY},1,"], "refused 14 BadField row 2 column 3"),
                ("parties", "GENCO,2024-01-01,2023-12-31,short", "refused 14 BadField row 1 column 3"),
            ]
        )


class OfPeriods(OfTheProgram):
    """Files of `settle period`."""

    def refused(self, meter, contracts, line):
        meter, contracts = self.file("meter.csv", meter), self.file("contracts.csv", contracts)
        self.assertEqual(settle("period", meter, contracts, "1"), (1, b"", f"refused {line}\n".encode()))

    def settled(self, contracts, accounts):
        """A file of contracts is read, and its rows give this many accounts."""
        meter, contracts = self.file("meter.csv", METER_HEADER), self.file("contracts.csv", contracts)
        status, written, told = settle("period", meter, contracts, "1")
        self.assertEqual((status, told), (0, b""))
        self.assertEqual(len(written.splitlines()), accounts + 1)

    def test_no_other_fields_are_taken(self):
        for name, (row, columns) in BAD_OF_PERIODS.items():
            for bad, column in bad_rows(row, columns):
                texts = {"meter": METER_HEADER, "contracts": CONTRACTS_HEADER}
                texts[name] += bad + "\n"
                with self.subTest(f"{name} {bad}"):
                    self.refused(*texts.values(), f"14 BadField row 1 column {column} in {name}")

    def test_fields_of_each_spelling_are_taken(self):
        for row in ('"G1",A-P,1,2,0', "T_G-1,A-P,1,2.0000000,0"):
            self.assertEqual(self.period(row + "\n", "", "1")[0], 0, row)
        for mwh in ("10000.000", "-10000.000", "-0", "0010", "1.5"):
            with self.subTest(mwh):
                self.settled(f"{CONTRACTS_HEADER}R,A-P,B-C,{mwh}", 2)

    def test_spellings_of_a_file(self):
        mark = "\ufeff"
        for text, accounts in (
            ("reference,seller,buyer,mwh", 0),
            ('reference,"seller",buyer,mwh\r', 0),
            (mark + "reference,seller,buyer,mwh\n\r\n\r\rR1,A-P,B-C,1\r\n\n\nR2,A-P,B-C,1", 2),
            ("\r\nreference,seller,buyer,mwh\rR1,A-P,B-C,1", 2),
        ):
            with self.subTest(text):
                self.settled(text, accounts)
        for text in (
            "",
            "\n\r\n",
            mark * 2 + CONTRACTS_HEADER,
            METER_HEADER,
            "reference,seller,buyer\n",
            "reference,seller,buyer,mwh,\n",
            "reference,buyer,seller,mwh\n",
            "R1,A-P,B-C,1\n",
        ):
            with self.subTest(text):
                self.refused(METER_HEADER, text, "12 BadHeader in contracts")

    def test_the_first_fault(self):
        for rows, fault in (
            ('"R1,A-P,B-C,1\nR2,A-P,B-C,1\n', "13 BadRecord row 1"),
            ("R1,A-P,B-C,1,\n", "13 BadRecord row 1"),
            ("R1,A-P\nR2,A-P,B-C,x\n", "13 BadRecord row 1"),
            ("R1,A-P,B-C,1\n\n?,A-P,B-C\n", "13 BadRecord row 2"),
            ("\n\nR1,A-P,B-C,x\nR2,A-P\n", "14 BadField row 1 column 4"),
            ("R1,A-P,B-C,1\n?,-,B-C,x\n", "14 BadField row 2 column 1"),
            ("R1,A-P,-,x\nR2,-,B-C,1\n", "14 BadField row 1 column 3"),
        ):
            with self.subTest(rows):
                self.refused(METER_HEADER, CONTRACTS_HEADER + rows, f"{fault} in contracts")

    def test_the_most_rows(self):
        """20,000 rows are read. If there are more, that is told before what is wrong in them."""
        rows = CONTRACTS_HEADER + "R,A-P,B-C,1\n" * 19_999
        self.settled(rows + "R,A-P,B-C,1\n\n", 2)
        self.refused(METER_HEADER, rows + "R,A-P,B-C,x\nR,A-P,B-C,1\n", "14 BadField row 20000 column 4 in contracts")
        for last in ("R,A-P,B-C,1\n", "x"):
            self.refused(METER_HEADER, f"{rows}R,A-P,B-C,1\n{last}", "11 TooManyRows in contracts")

    def test_the_most_bytes(self):
        """1,048,576 bytes are read, and one more is refused before they are looked at."""
        rows = CONTRACTS_HEADER + "R,A-P,B-C,1\n"
        self.settled(rows + "\n" * (1_048_576 - len(rows)), 2)
        self.refused(METER_HEADER, rows + "\n" * (1_048_577 - len(rows)), "10 FileTooLarge in contracts")
        self.refused("a" * 1_048_576, CONTRACTS_HEADER, "12 BadHeader in meter")
        self.refused("a" * 1_048_577, CONTRACTS_HEADER, "10 FileTooLarge in meter")
