"""docs/sql.md: the tables that it lists are those with which an office's database is made, those of the definitions, and those that
the program takes for an office's; and what its questions find in rows that are written into such tables."""
import datetime
import re
import sqlite3
import unittest

import office_tables
from programs import HOME
from test_database import TABLES_OF_ONE

PAGE = (HOME / "docs" / "sql.md").read_text(encoding="utf-8")
TABLE = re.compile(r"(?m)^\| `(\w+)` \| ([^|]*) \| ([^|]*) \|$")
NAME = re.compile(r"`(\w+)`")
DAY = (datetime.date(2024, 7, 1) - datetime.date(1970, 1, 1)).days
MWH = 10**10
P, C = 0, 1
SF, R1 = 0, 1


def question(heading):
    """The query under a heading."""
    return re.search(rf"(?s)^## {heading}\n.*?```sql\n(.*?)```", PAGE[PAGE.index(f"## {heading}\n") :])[1]


class Tables(unittest.TestCase):
    """Each column and each key is the same in the code, in the definitions and on the page."""

    needs_programs = False

    def test_of_the_definitions(self):
        """Each is kept in the tree after that of the key of the table before it."""
        self.assertEqual(list(office_tables.defined()), [(2 * at, table) for at, table in enumerate(office_tables.made())])

    def test_of_an_office(self):
        self.assertEqual(list(office_tables.known()), list(office_tables.defined()))

    def test_of_the_page(self):
        listed = [(table, NAME.findall(key), NAME.findall(others)) for table, key, others in TABLE.findall(PAGE)]
        self.assertEqual(len(listed), 17)
        made = ((table, key, [column for column, _ in columns if column not in key]) for table, columns, key in office_tables.made())
        self.assertEqual(listed, list(made))

    def test_the_table_that_came_last(self):
        """Those of version 1 are the same tables without it, in the same order."""
        *of_one, (leads, columns, key) = office_tables.made()
        self.assertEqual((leads, key), ("leads", ["unit", "day_from"]))
        self.assertEqual([column for column, _ in columns], ["unit", "day_from", "party", "side", "day_to"])
        self.assertEqual([table for table, *_ in of_one], TABLES_OF_ONE)

    def test_as_sqlite_reads_them(self):
        connection = sqlite3.connect(":memory:")
        self.addCleanup(connection.close)
        for statement, (table, columns, key) in zip(office_tables.creations(), office_tables.made(), strict=True):
            with self.subTest(table):
                connection.execute(statement)
                read = connection.execute(f"PRAGMA table_info({table})").fetchall()
                self.assertEqual([(column[1], office_tables.KINDS[column[2]]) for column in read], columns)
                self.assertEqual([column[1] for column in sorted(read, key=lambda column: column[5]) if column[5]], key)


class Questions(unittest.TestCase):
    needs_programs = False

    def setUp(self):
        """The tables as the program makes them."""
        self.connection = sqlite3.connect(":memory:")
        self.addCleanup(self.connection.close)
        for statement in office_tables.creations():
            self.connection.execute(statement)

    def put(self, table, *rows):
        for row in rows:
            self.connection.execute(f"INSERT INTO {table} VALUES ({','.join('?' * len(row))})", row)

    def finds(self, heading, *rows):
        self.assertEqual(self.connection.execute(question(heading)).fetchall(), list(rows))

    def test_credits(self):
        """Those of two periods are one row. Another run and another date are not included."""
        self.put("credits", (DAY, SF, 1, "G1", "GENCO", P, 3 * MWH), (DAY, SF, 2, "G1", "GENCO", P, -MWH // 2), (DAY, SF, 1, "G1", "SUPCO", C, 7))
        self.put("credits", (DAY, R1, 1, "G1", "GENCO", P, 1), (DAY + 1, SF, 1, "G1", "GENCO", P, 1))
        self.finds("Each unit's credits of a run", ("G1", "GENCO-P", 5 * MWH // 2, 2.5), ("G1", "SUPCO-C", 7, 0.0))

    def test_who_led_a_unit(self):
        """The first and the last date of its registrations count, too. Another unit isn't included."""
        for first, last, found in (
            (DAY - 9, DAY, ("CITYSUP-C", "2024-06-22", "2024-07-01")),
            (DAY, DAY, ("CITYSUP-C", "2024-07-01", "2024-07-01")),
            (DAY, 47_481, ("CITYSUP-C", "2024-07-01", "2099-12-31")),
            (DAY + 1, DAY + 2, None),
        ):
            self.connection.execute("DELETE FROM leads")
            self.put("leads", ("2__SHOPS", first, "CITYSUP", C, last), ("2__HOMES", DAY, "GENCO", P, DAY))
            self.put("leads", ("2__SHOPS", first - 9, "GENCO", P, first - 1), ("2__SHOPS", last + 1, "GENCO", P, last + 9))
            self.finds("Who led a unit on a date", *([found] if found else [("GENCO-P", "2024-06-23", "2024-07-01")]))

    def test_postings(self):
        self.put("postings", (DAY, SF, "GENCO", P, 38), (DAY, R1, "SUPCO", C, -7), (DAY, R1, "GENCO", P, 7), (DAY + 1, R1, "GENCO", P, 1))
        self.finds("What R1 posted to whom", ("GENCO-P", 7), ("SUPCO-C", -7))

    def test_who_was_long(self):
        """In period 1 of SF, 0.5 MWh too much at 50 pounds are 2,500 pence, which the account is paid. Another period, run and
        date are not included."""
        self.put("prices", (DAY, 1, 50 * 10**5), (DAY, 2, 7), (DAY + 1, 1, 7))
        self.put("results", (DAY, SF, 1, "GENCO", P, 0, 0, 0, MWH // 2, -2500, 0), (DAY, SF, 1, "GENCO", C, 0, 0, 0, 0, 0, 0))
        self.put("results", (DAY, SF, 1, "SUPCO", C, 0, 0, 0, -MWH, 5000, 0), (DAY, SF, 2, "SUPCO", P, 0, 0, 0, MWH, 0, 0))
        self.put("results", (DAY, R1, 1, "SUPCO", P, 0, 0, 0, MWH, 0, 0), (DAY + 1, SF, 1, "SUPCO", P, 0, 0, 0, MWH, 0, 0))
        self.finds(
            "A period's price, and who was long",
            ("GENCO-P", "long", 0.5, 50.0, -2500),
            ("GENCO-C", "balanced", 0.0, 50.0, 0),
            ("SUPCO-C", "short", -1.0, 50.0, 5000),
        )

    def test_missing_readings(self):
        """For a unit that belongs to the date, and for no other."""
        self.put("units", ("G1", "GENCO", P, 0, DAY, DAY), ("G2", "GENCO", P, 0, DAY + 1, DAY + 9), ("S1", "SUPCO", C, 0, DAY - 9, DAY + 9))
        self.put("meters", *(("G1", DAY, period, 0, 0, 0) for period in range(1, 49) if period not in (3, 48)))
        self.put("meters", *(("S1", day, period, 0, 0, 0) for day in (DAY, DAY + 1) for period in range(1, 49) if (day, period) != (DAY, 3)))
        self.finds("Readings that are missing for a date", ("G1", 3), ("S1", 3), ("G1", 48))

    def test_late_files(self):
        self.put("files", ("meters", "a.csv", b"", 5, 0), ("contracts", "b.csv", b"", 3, 3), ("contracts", "a.csv", b"", 0, 1))
        self.finds("Files with rows that came too late", ("contracts", "a.csv", 0, 1), ("contracts", "b.csv", 3, 3))

    def test_postings_and_nets(self):
        """By the latest run of each of two dates. If a posting is a penny too much, that is shown."""
        heading = "Whether the postings come to the nets"
        self.put("runs", (DAY, SF, 48, 1, 0, 1), (DAY, R1, 48, 1, 0, 1), (DAY + 1, SF, 48, 1, 0, 1))
        for day, kind, charge in ((DAY, SF, 38), (DAY, R1, 45), (DAY + 1, SF, -5)):
            self.put("results", (day, kind, 1, "GENCO", P, 0, 0, 0, 0, charge - 2, 1), (day, kind, 2, "GENCO", P, 0, 0, 0, 0, 0, 1))
        self.put("postings", (DAY, SF, "GENCO", P, 38), (DAY, R1, "GENCO", P, 7), (DAY + 1, SF, "GENCO", P, -5))
        self.finds(heading)
        self.connection.execute("UPDATE postings SET pence = 8 WHERE kind = 1")
        self.finds(heading, ("GENCO", P, 40, 41))


if __name__ == "__main__":
    unittest.main()
