"""Words that are no command on an office in a database file: this is told before anything is looked for."""
import os
import subprocess
import unittest

from programs import SETTLE, settle
from test_command_faults import PATIENCE, Faults
from test_commands import answer
from test_database import VERSION, rows_of
from test_desk import APPLIED, DAY, END, OPERATOR

# Each command, in short.
FORMS = (
    "settle period METER CONTRACTS PRICE",
    "settle script --operator-key KEY [--lead-minutes N] [--strict] FILE",
    "settle script --db PATH [--strict] FILE",
    "settle init --db PATH --operator-key KEY [--lead-minutes N]",
    "settle migrate --db PATH",
    "settle load --db PATH --key KEY [--at SECONDS] KIND FILE",
    "settle run --db PATH --key KEY [--at SECONDS] DATE KIND",
    "settle report --db PATH --key KEY FORM [DATE KIND]",
    "settle serve --db PATH --port N [--count N] [--at SECONDS]",
    "settle --version",
)
KEYS = "", "op-short", "genco01", "genco_0001", "genco0001 ", "k" * 65, "op-" + "k" * 62
DATES = "", "2024-02-30", "2024-7-1", "2000-12-31", "2100-01-01", "24-07-01"
KINDS = "", "XX", "sf", "RA", "SF "
MOMENTS = "", "x", "+5", "5.0", "1e3", " 5", str(2**63), str(-(2**63) - 1)


class WrongWords(Faults):
    """Status 2, before anything is looked for. If a value is off its grammar, the text lists the forms of all commands."""

    def is_told(self, made, *forms):
        self.is_wrong(made)
        for form in forms:
            self.assertIn(f" {form}\n", made[2].decode())

    def off(self, name, *words):
        """A value is off its grammar, whatever is at the path."""
        with self.subTest((name, *words)):
            before = self.database.read_bytes()
            self.is_told(self.command(name, *words), *FORMS)
            self.assertEqual(self.database.read_bytes(), before)
            missing = str(self.room / "missing.db")
            self.is_told(settle(name, "--db", missing, *map(str, words)), *FORMS)
            self.assertFalse(os.path.exists(missing))

    def no_command(self, *calls):
        """The words don't have the form of a command."""
        for words in calls:
            with self.subTest(words):
                self.is_wrong(settle(*words))

    def test_init(self):
        for key in ("", "genco0001", "op-short01", "op-" + "k" * 62, "OP-settle001", "op-settle_01", "op-settle001 "):
            self.off("init", "--operator-key", key)
        for minutes in ("", "1441", "-1", "-0", "+5", "60.0", "x", "18446744073709551617"):
            self.off("init", "--operator-key", OPERATOR, f"--lead-minutes={minutes}")
        path, key = ("--db", str(self.room / "new.db")), ("--operator-key", OPERATOR)
        self.no_command(
            ("init",),
            ("init", *path),
            ("init", *key),
            ("init", "--db", *key),
            ("init", *path, *key, "more"),
            ("init", *path, *key, "--lead-minutes"),
            ("init", *path, *key, "--lead-minutes", "-1"),
            ("init", *path, *key, "--at=5"),
            ("init", *path, "--key", OPERATOR),
            ("init", *path, *key, "--help"),
        )
        self.assertFalse((self.room / "new.db").exists())

    def test_migrate(self):
        """It takes the path alone."""
        path = "--db", str(self.database)
        self.no_command(
            ("migrate",),
            ("migrate", "--db"),
            ("migrate", path[1]),
            ("migrate", *path, *path),
            ("migrate", *path, "more"),
            ("migrate", *path, "2"),
            ("migrate", *path, "--key", OPERATOR),
            ("migrate", *path, "--operator-key", OPERATOR),
            ("migrate", *path, "--at=5"),
            ("migrate", *path, "--version"),
            ("migrate", *path, "--help"),
            ("migrates", *path),
        )
        self.assertEqual(self.command("migrate", "--"), answer("version 2"))

    def test_load(self):
        good, file = ("--key", OPERATOR), ("prices", self.prices)
        for key in KEYS:
            self.off("load", "--key", key, *file)
        for moment in MOMENTS:
            self.off("load", *good, f"--at={moment}", *file)
        for kind in ("", "price", "Prices", "prices "):
            self.off("load", *good, kind, self.prices)
        for name in ("", "a,b.csv", "a b.csv", "ä.csv", "n" * 65):
            self.off("load", *good, "prices", f"{self.room}/{name}")
        self.off("load", *good, "prices", "")
        path = ("--db", str(self.database))
        self.no_command(
            ("load",),
            ("load", *good, *file),
            ("load", *path, *file),
            ("load", *path, *good),
            ("load", *path, *good, "prices"),
            ("load", *path, *good, *file, "more"),
            ("load", *path, *good, "--at", "-5", *file),
            ("load", *path, *good, "--lead-minutes=5", *file),
            ("load", *path, *good, *file, "-h"),
        )

    def test_run(self):
        good, run = ("--key", OPERATOR), (DAY, "SF")
        for key in KEYS:
            self.off("run", "--key", key, *run)
        for moment in MOMENTS:
            self.off("run", *good, f"--at={moment}", *run)
        for date in DATES:
            self.off("run", *good, date, "SF")
        for kind in KINDS:
            self.off("run", *good, DAY, kind)
        self.off("run", *good, "SF", DAY)
        path = ("--db", str(self.database))
        self.no_command(
            ("run", *good, *run),
            ("run", *path, *run),
            ("run", *path, *good, DAY),
            ("run", *path, *good, *run, "R1"),
            ("run", *path, *good, "--at", *run),
            ("run", *path, *good, "--at", "-5", *run),
            ("run", *path, *good, "--count=5", *run),
        )

    def test_report(self):
        good = ("--key", OPERATOR)
        for key in KEYS:
            self.off("report", "--key", key, "balances")
        for form in ("", "html", "CSV", "Day", "balance", "results"):
            self.off("report", *good, form, DAY, "SF")
            self.off("report", *good, form)
        for form in ("day", "csv"):
            self.off("report", *good, form)
            self.off("report", *good, form, DAY)
            for date in DATES:
                self.off("report", *good, form, date, "SF")
            for kind in KINDS:
                self.off("report", *good, form, DAY, kind)
        self.off("report", *good, "balances", DAY)
        self.off("report", *good, "balances", DAY, "SF")
        path = ("--db", str(self.database))
        self.no_command(
            ("report", *good, "balances"),
            ("report", *path, "balances"),
            ("report", *path, *good),
            ("report", *path, *good, "day", DAY, "SF", "R1"),
            ("report", *path, *good, "--at=5", "balances"),
        )

    def test_serve(self):
        for port in ("", "65536", "-1", "-0", "+80", "80.0", "http", "0x50"):
            self.off("serve", f"--port={port}", "--count=0")
        for count in ("", "1000001", "-1", "-0", "+1", "1.0", "all"):
            self.off("serve", "--port=0", f"--count={count}")
        for moment in MOMENTS:
            self.off("serve", "--port=0", "--count=0", f"--at={moment}")
        path = ("--db", str(self.database))
        self.no_command(
            ("serve", *path),
            ("serve", "--port=0", "--count=0"),
            ("serve", *path, "--port=0", "--count=0", "more"),
            ("serve", *path, "--port=0", "--count=0", "--key", OPERATOR),
            ("serve", *path, "--port", "-1", "--count=0"),
        )

    def test_script(self):
        """Either the office is in a file, with its key and minutes, or the words have what a new one needs."""
        path, key = ("--db", str(self.database)), ("--operator-key", OPERATOR)
        self.off("script", *key, self.script)
        self.off("script", "--lead-minutes=60", self.script)
        self.off("script", *key, "--lead-minutes=60", self.script)
        for words in ((self.script,), ("--lead-minutes=60", self.script), (str(self.room / "missing"),)):
            self.is_told(settle("script", *words), *FORMS)
        self.no_command(
            ("script", *path),
            ("script", *path, self.script, self.script),
            ("script", *path, "--key", OPERATOR, self.script),
            ("script", *path, "--at=5", self.script),
        )

    def test_paths_that_are_no_text(self):
        for name, words in self.commands.items():
            call = [name, "--db", os.fsencode(self.room) + b"/\xff.db", *words]
            made = subprocess.run([SETTLE, *call], stdin=subprocess.DEVNULL, capture_output=True)
            self.is_wrong((made.returncode, made.stdout, made.stderr))
            self.assertIn(b"not text (UTF-8)", made.stderr)

    def test_numbers_with_zeros_in_front(self):
        """They are accepted, and so is a moment of -0."""
        self.assertEqual(self.command("serve", "--port=000", "--count=00", "--at=-0", timeout=PATIENCE)[::2], (0, b""))
        self.assertEqual(self.command("load", "--key", OPERATOR, "--at=-0005", "prices", self.prices), answer(APPLIED))
        self.database = self.room / "zeros.db"
        self.init("--lead-minutes=0090")
        self.assertEqual(rows_of(self.database, "settings"), [(1, VERSION, 90, OPERATOR)])

    def test_words_in_another_order(self):
        """Options may come before or after the words that have a place, and with `=` or separately."""
        file = f"--db={self.database}"
        self.assertEqual(settle("load", "prices", self.prices, "--at", "5", f"--key={OPERATOR}", file), answer(APPLIED))
        self.assertEqual(settle("run", DAY, f"--key={OPERATOR}", "SF", file, "--at", str(END))[::2], (0, b""))
        self.assertEqual(settle("report", file, "--key", OPERATOR, "--", "balances")[::2], (0, b""))
        self.assertEqual(settle("script", self.script, file)[::2], (0, b""))


if __name__ == "__main__":
    unittest.main()
