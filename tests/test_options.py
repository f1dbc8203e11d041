"""Options and words beside a command's own: `--version`, keys in files, `--explain` in each place, `--` that ends options, what
help says, and what is told about a word that is off its grammar."""
import os
import re
import subprocess
import time
import unittest

from programs import SETTLE, settle
from test_command_faults import Faults
from test_commands import answer
from test_database import VERSION, content_of, rows_of
from test_desk import APPLIED, DAY, EARLY, OPERATOR, SETTLED, text_of
from test_explain import MISSING, shown
from test_program import CONTRACTS_HEADER, METER_HEADER, OfTheProgram

PATIENCE = 30
WIDTH = 100
KEY_FILE, OPERATOR_KEY_FILE, EXPLAIN, STRICT = "--key-file", "--operator-key-file", "--explain", "--strict"
# The words of each command, and its options besides, as docs/formats.md has them.
COMMANDS = {
    "period": (["METER", "CONTRACTS", "PRICE"], [EXPLAIN]),
    "init": (["--db", "--operator-key", "--lead-minutes"], [OPERATOR_KEY_FILE, EXPLAIN]),
    "migrate": (["--db"], [EXPLAIN]),
    "load": (["--db", "--key", "--at", "KIND", "FILE"], [KEY_FILE, EXPLAIN]),
    "run": (["--db", "--key", "--at", "DATE", "KIND"], [KEY_FILE, EXPLAIN]),
    "report": (["--db", "--key", "FORM", "DATE", "KIND"], [KEY_FILE, EXPLAIN]),
    "serve": (["--db", "--port", "--count", "--at"], [EXPLAIN]),
    "script": (["--db", "--operator-key", "--lead-minutes", "FILE"], [OPERATOR_KEY_FILE, STRICT, EXPLAIN]),
}
SECRET = "op-secret0001"


class Version(OfTheProgram):
    """`settle --version` tells the program's version and that of the tables that it makes."""

    def test_what_is_told(self):
        status, written, told = settle("--version")
        self.assertEqual((status, told), (0, b""))
        found = re.fullmatch(rb"settle (\d+\.\d+\.\d+), tables of version (\d+)\n", written)
        self.assertEqual(found[1], b"2.0.0")
        self.assertEqual(int(found[2]), VERSION)
        office = str(self.room / "office.db")
        self.assertEqual(settle("init", "--db", office, "--operator-key", OPERATOR), answer("ready"))
        self.assertEqual(rows_of(office, "settings"), [(1, VERSION, 60, OPERATOR)])

    def test_other_words_beside_it(self):
        for words in (("--version", "x"), ("x", "--version"), ("--version", "--version"), ("--version=1",), ("period", "--version"), ("-V",), ("version",), ("--", "--version")):
            status, written, told = settle(*words)
            self.assertEqual((status, written), (2, b""), words)
            self.assertTrue(told.endswith(b"\n"), words)

    def test_an_output_that_takes_nothing(self):
        for streams in (">/dev/full", ">&-"):
            made = subprocess.run(["sh", "-c", f'"$@" {streams}', "sh", SETTLE, "--version"], capture_output=True)
            self.assertEqual((made.returncode, made.stdout, made.stderr), (1, b"", b"fault output\n"))


class Explain(Faults):
    """`--explain` counts at each place after the program's name."""

    def test_each_place(self):
        words = ["load", "--db", str(self.database), "--key", OPERATOR, "prices", str(self.room / "missing.csv")]
        wanted = 1, b"", f"fault file\n{words[-1]}: {MISSING}\n".encode()
        for place in (0, 1, 3, 5, 6, 7):
            self.assertEqual(settle(*words[:place], "--explain", *words[place:]), wanted, place)
        self.assertEqual(settle("--explain", *words, "--explain"), wanted)
        self.assertEqual(settle(*words), answer("fault file"))

    def test_before_other_options(self):
        """Options that count after the name of their command also count if `--explain` comes before it."""
        script = self.file("refused", "report genco0001 balances\n")
        made = settle("--explain", "script", "--strict", "--db", str(self.database), script)
        self.assertEqual(made[0], 1)
        self.assertTrue(made[2].endswith(b"line 1 stopped the script\n"))
        key = self.file("key", f"{OPERATOR}\n")
        self.assertEqual(settle("--explain", "report", "--key-file", key, "--db", str(self.database), "balances")[::2], (0, b""))

    def test_wrong_words(self):
        """What is told is the same as without it."""
        for words in ((), ("load",), ("x",), ("load", "--db", "x", "--key", "short", "prices", "p.csv"), ("load", "--help"), ("--help",)):
            plain = settle(*words)
            self.assertEqual(plain[:2], (2, b""))
            self.assertEqual(settle(*words, "--explain"), plain, words)

    def test_words_that_are_near_it(self):
        for word in ("--explains", "--explain=yes", "-explain", "--Explain", "explain"):
            self.is_wrong(self.command("report", "--key", OPERATOR, "balances", word))

    def test_beside_the_version(self):
        """`--version` counts only if it is the only word."""
        for words in (("--version", "--explain"), ("--explain", "--version")):
            self.is_wrong(settle(*words))


class Dashes(Faults):
    """After a word `--` no word is an option."""

    def test_explain(self):
        """After that it is the path of a file."""
        (self.room / "--explain").write_bytes(b"date\n")
        words = "load", "--db", str(self.database), "--key", OPERATOR
        self.assertEqual(settle(*words, "--", "prices", "--explain", cwd=self.room), answer("refused 12 BadHeader"))
        status, _, told = settle(*words, "--explain", "--", "prices", "--explain", cwd=self.room)
        self.assertEqual((status, told), (1, b'refused 12 BadHeader\n--explain: line 1, the header, is "date"; expected date,period,price\n'))

    def test_a_price(self):
        meter, contracts = self.file("m", METER_HEADER), self.file("c", CONTRACTS_HEADER)
        self.assertEqual(settle("period", "--", meter, contracts, "--explain"), answer("refused 14 BadField in price"))

    def test_key_files(self):
        """A file of this name is loaded. As an option, there is no such word."""
        (self.room / "--key-file=x").write_bytes(text_of("prices", [f"{DAY},1,60.00000"]))
        words = "load", "--db", str(self.database), "--key", OPERATOR, f"--at={EARLY}", "--", "prices"
        self.is_wrong(settle(*words, "--key-file=x", cwd=self.room))
        (self.room / "--key-file").write_bytes(text_of("prices", [f"{DAY},1,60.00000"]))
        self.assertEqual(settle(*words, "--key-file", cwd=self.room), answer(APPLIED))
        self.is_wrong(settle("load", "--db", str(self.database), "--", "--key-file", self.file("key", OPERATOR), "prices", self.prices))


class KeyFiles(Faults):
    """A file whose first line is the key, instead of the key."""

    def key_file(self, data=f"{OPERATOR}\n", name="key"):
        return self.file(name, data)

    def balances(self, *words, **how):
        return self.command("report", *words, "balances", **how)

    def test_each_command_that_shows_a_key(self):
        """It ends as with the key itself."""
        path = self.key_file()
        for name in ("load", "run", "report"):
            _, key, *words = self.commands[name]
            self.assertEqual(key, OPERATOR)
            wanted = self.command(name, "--key", key, *words)
            self.assertEqual(wanted[::2], (0, b""))
            for option in (("--key-file", path), (f"--key-file={path}",)):
                self.assertEqual(self.command(name, *option, *words), wanted)
                self.assertEqual(self.command(name, *words, *option), wanted)
        self.assertEqual(self.command("run", "--key-file", path, DAY, "SF"), answer(SETTLED.replace("5050", "6060")))

    def test_the_key_of_a_new_office(self):
        path = self.key_file(f"{SECRET}\n")
        for number, option in enumerate((("--operator-key-file", path), (f"--operator-key-file={path}",))):
            self.database = self.room / f"new{number}.db"
            self.assertEqual(self.command("init", *option, "--lead-minutes=5"), answer("ready"))
            self.assertEqual(rows_of(self.database, "settings"), [(1, VERSION, 5, SECRET)])
            script = self.file("secret", f"report {SECRET} balances\n")
            self.assertEqual(settle("script", *option, script), (0, b"account,moved_pence\n", b""))
            self.assertEqual(settle("script", script, *option), (0, b"account,moved_pence\n", b""))

    def test_the_first_line(self):
        """It ends with LF, with CRLF, or with the file. What follows it isn't looked at."""
        wanted = self.balances("--key", OPERATOR)
        self.assertEqual(wanted[0], 0)
        for data in (OPERATOR, f"{OPERATOR}\n", f"{OPERATOR}\r\n", f"{OPERATOR}\nmore\n", f"{OPERATOR}\n\xff".encode("latin-1"), f"{OPERATOR}\n{'x' * 100_000}"):
            self.assertEqual(self.balances("--key-file", self.key_file(data)), wanted, data[:40])

    def test_lines_that_are_no_key(self):
        """They are wrong words, like a key that is off its grammar. Only the length of each is told."""
        for data in ("", "\n", f"\n{OPERATOR}\n", f" {OPERATOR}\n", f"{OPERATOR} \n", f"{OPERATOR}\r\r\n", f"\ufeff{OPERATOR}\n", "secret!\n", "x" * 65, f"{OPERATOR}\0\n"):
            line = data.encode().split(b"\n")[0].removesuffix(b"\r")
            made = self.balances("--key-file", self.key_file(data))
            self.is_wrong(made)
            self.assertTrue(made[2].startswith(f"error: --key of {len(line)} bytes: ".encode()), (data, made[2]))
            self.assertNotIn(OPERATOR.encode(), made[2])
            self.assertNotIn(b"secret!", made[2])

    def test_a_key_that_is_no_text(self):
        self.is_wrong(self.balances("--key-file", self.key_file(b"\xff\xfe\n")))

    def test_a_large_file_without_an_end(self):
        self.is_wrong(self.balances("--key-file", "/dev/zero", timeout=PATIENCE))

    def test_the_wrong_key(self):
        """A party's key, and a key that nobody has."""
        for key in ("genco0001", "op-settle002"):
            self.assertEqual(self.balances("--key-file", self.key_file(f"{key}\n")), answer("refused 60 Forbidden"))

    def test_files_that_cannot_be_read(self):
        """Before anything else, also before what is wrong with the other words."""
        missing = str(self.room / "missing.key")
        before = content_of(self.database)
        for path in (missing, str(self.room)):
            for name in ("load", "run", "report"):
                words = self.commands[name][2:]
                self.assertEqual(self.command(name, "--key-file", path, *words), answer("fault file"))
        new = self.room / "new.db"
        self.assertEqual(settle("init", "--db", str(new), "--operator-key-file", missing), answer("fault file"))
        self.assertEqual(settle("script", "--operator-key-file", missing, self.script), answer("fault file"))
        self.assertEqual((content_of(self.database), new.exists()), (before, False))

    def test_a_missing_file_is_explained(self):
        missing = str(self.room / "missing.key")
        made = self.balances("--explain", "--key-file", missing)
        self.assertEqual(made, (1, b"", f"fault file\n{missing}: {MISSING}\n".encode()))

    def test_a_relative_path(self):
        self.key_file()
        self.assertEqual(self.balances("--key-file", "key", cwd=self.room)[::2], (0, b""))

    def test_two_keys(self):
        """Two files, or a file and a key, are wrong words."""
        path = self.key_file()
        for words in (
            ("--key-file", path, "--key-file", path),
            (f"--key-file={path}", "--key-file", path),
            ("--key-file", path, "--key", OPERATOR),
            (f"--key={OPERATOR}", f"--key-file={path}"),
        ):
            made = self.balances(*words)
            self.is_wrong(made)
            self.assertNotIn(OPERATOR.encode(), made[2])
        self.is_wrong(settle("script", "--operator-key-file", path, "--operator-key", OPERATOR, self.script))

    def test_an_option_without_a_path(self):
        """The next word is the path, and it is read before the other words are judged."""
        self.is_wrong(self.command("report", "balances", "--key-file"))
        self.is_wrong(self.command("init", "--operator-key-file"))
        self.is_wrong(self.balances("--key-file", "--", "x"))
        self.assertEqual(self.command("report", "--key-file", "balances", cwd="/"), answer("fault file"))

    def test_commands_without_such_a_key(self):
        """Each of the two options belongs only to its own commands, and `serve`, `migrate` and `period` have neither."""
        path = self.key_file()
        self.is_wrong(self.command("migrate", "--key-file", path))
        self.is_wrong(self.command("migrate", "--operator-key-file", path))
        self.is_wrong(self.command("serve", "--port=0", "--count=0", "--key-file", path))
        self.is_wrong(self.command("serve", "--port=0", "--count=0", "--operator-key-file", path))
        self.is_wrong(settle("period", "--key-file", path, self.prices, self.prices, "1"))
        self.is_wrong(self.balances("--operator-key-file", path))
        self.is_wrong(settle("init", "--db", str(self.room / "new.db"), "--key-file", path))
        self.is_wrong(settle("script", "--key-file", path, self.script))
        self.is_wrong(settle("--key-file", path, "report", "--db", str(self.database), "balances"))

    def test_an_office_has_its_own_key(self):
        """So a script over a database is given no key, not even from a file."""
        self.is_wrong(self.command("script", "--operator-key-file", self.key_file(), self.script))

    def test_the_key_is_no_argument(self):
        """While a command waits for its input, its arguments and its environment don't contain the key."""
        pipe = self.room / "p3.csv"
        os.mkfifo(pipe)
        key, secret = self.key_file(), self.key_file(f"{SECRET}\n", "secret")
        calls = {
            OPERATOR: ["load", "--db", str(self.database), "--key-file", key, "prices", str(pipe)],
            SECRET: ["script", f"--operator-key-file={secret}", str(pipe)],
        }
        for shown_key, words in calls.items():
            with subprocess.Popen([SETTLE, *words], stdout=subprocess.PIPE, stderr=subprocess.PIPE) as begun:
                self.addCleanup(begun.kill)
                with self.writing_end(pipe) as end:
                    for name in ("cmdline", "environ"):
                        with open(f"/proc/{begun.pid}/{name}", "rb") as file:
                            found = file.read()
                        self.assertNotIn(shown_key.encode(), found)
                    with open(f"/proc/{begun.pid}/cmdline", "rb") as file:
                        self.assertEqual(file.read().split(b"\0")[1:-1], [word.encode() for word in words])
                    end.write(text_of("prices", [f"{DAY},1,60.00000"]) if shown_key == OPERATOR else f"report {SECRET} balances\n".encode())
                written, told = begun.communicate(timeout=PATIENCE)
            self.assertEqual((begun.returncode, told), (0, b""))
            self.assertEqual(written, f"{APPLIED}\n".encode() if shown_key == OPERATOR else b"account,moved_pence\n")

    def writing_end(self, pipe):
        """A pipe that is opened for writing once a command reads it."""
        until = time.monotonic() + PATIENCE
        while True:
            try:
                return open(os.open(pipe, os.O_WRONLY | os.O_NONBLOCK), "wb")
            except OSError:
                self.assertLess(time.monotonic(), until, "nobody reads the pipe")
                time.sleep(0.01)

    def test_a_key_from_a_pipe(self):
        """As from a program that keeps keys."""
        call = [SETTLE, "report", "--db", str(self.database), "--key-file", "/dev/stdin", "balances"]
        made = subprocess.run(call, input=f"{OPERATOR}\n".encode(), capture_output=True)
        self.assertEqual((made.returncode, made.stderr), (0, b""))


def help_of(*words):
    """What help says, line by line."""
    status, written, told = settle(*words)
    assert (status, written) == (2, b"") and told.endswith(b"\n"), (words, told)
    return told.decode().split("\n")[:-1]


def described(lines):
    """What help says about each word and option, in a line of its own: `--at <at>  Moment ..`, `<KIND>  Kind ..`, `[DATE]  ..`."""
    found = {}
    for line in lines:
        if head := re.match(r" +(?:-\w, )?(?:(--[\w-]+)(?: <[\w-]+>)?|[<\[](\w+)[>\]]) {2,}(\S.*)\Z", line):
            found.setdefault(head[1] or head[2], []).append(head[3])
    return found


class Help(OfTheProgram):
    """What help says about each command: one line for each word, none longer than a terminal of 100 columns."""

    def test_the_widths(self):
        for words in ((), ("--help",), ("help",), *((name, "--help") for name in COMMANDS), *((name,) for name in COMMANDS)):
            for line in help_of(*words):
                self.assertLessEqual(len(line), WIDTH, words)
                self.assertEqual(line, line.rstrip(), words)

    def test_each_word_has_a_line(self):
        for name, (words, options) in COMMANDS.items():
            lines = help_of(name, "--help")
            found = described(lines)
            self.assertEqual({word: len(found.get(word, [])) for word in (*words, *options)}, dict.fromkeys((*words, *options), 1), name)
            self.assertEqual(set(found), {*words, *options, "--help"}, name)
            # Each line below a heading is about one word. None continues on the next line.
            below = [line for line in lines if line.startswith(" ")]
            self.assertEqual(len(below), len(words) + len(options) + 1, name)

    def test_the_commands(self):
        lines = help_of("--help")
        for name in COMMANDS:
            self.assertEqual(len([line for line in lines if line.startswith(f"  {name} ")]), 1, name)
        self.assertTrue({"--version", "--explain"} <= set(described(lines)))

    def test_no_words(self):
        """The same is told if there is no word, and if the first word is a command that doesn't exist."""
        for words in ((), ("loads",)):
            self.assertIn("load", "\n".join(help_of(*words)))


# Values off the grammar of each word of each command, beside words that are right, and what the word's description must say.
VALUES = {
    "--operator-key": (["", "genco0001", "op-short01", "op-" + "k" * 62, "op-settle_1"], ["op-", "8 to 61 letters or digits"]),
    "--lead-minutes": (["", "1441", "-1", "60.0", "x"], ["Minutes from deadline to period", "0 to 1440", "60 if none given"]),
    "--key": (["", "short", "genco_0001", "k" * 65], ["operator's", "party's of 8 to 64 letters or digits"]),
    "--at": (["", "x", "5.0", "+5", str(2**63)], ["whole seconds since 1970-01-01T00:00:00Z", "clock's"]),
    "load KIND": (["", "party", "Prices", "prices "], ["parties, units, meters, prices, contracts or reallocations"]),
    "FILE": (["", "data/", "a,b.csv", "a b.csv", "ä.csv", "n" * 65], ["behind the last /", "1 to 64 letters, digits, . _ -"]),
    "DATE": (["", "2024-02-30", "01/07/2024", "2100-01-01"], ["2001-01-01 to 2099-12-31"]),
    "KIND": (["", "XX", "sf", "R4"], ["SF, R1, R2, R3, RF or DF"]),
    "FORM": (["", "html", "Day", "balance"], ["day or csv of a run, or balances"]),
    "--port": (["", "65536", "-1", "http"], ["0 to 65535", "with 0 the machine chooses"]),
    "--count": (["", "1000001", "-1", "all"], ["0 to 1000000;", "1000000 where none is given"]),
}


class WrongValues(Faults):
    """What is told about a word that is off its grammar: which word it is, its value, what the value should look like, and how
    the program is used. The same line describes it in help."""

    GOOD = {
        "init": ["--db=new.db", f"--operator-key={OPERATOR}"],
        "migrate": ["--db=new.db"],
        "load": ["--db=new.db", f"--key={OPERATOR}", "prices", "p.csv"],
        "run": ["--db=new.db", f"--key={OPERATOR}", DAY, "SF"],
        "report": ["--db=new.db", f"--key={OPERATOR}", "day", DAY, "SF"],
        "serve": ["--db=new.db", "--port=0"],
        "script": [f"--operator-key={OPERATOR}", "x.script"],
    }
    PLACES = {("load", "KIND"): 2, ("load", "FILE"): 3, ("run", "DATE"): 2, ("run", "KIND"): 3, ("report", "FORM"): 2, ("report", "DATE"): 3, ("report", "KIND"): 4}

    def with_value(self, name, word, value):
        """The words of a command with this value for one of them."""
        good = self.GOOD[name]
        if word.startswith("--"):
            return [name, *(given for given in good if not given.startswith(f"{word}=")), f"{word}={value}"]
        place = self.PLACES[name, word]
        return [name, *good[:place], value, *good[place + 1 :]]

    def is_told(self, words, first):
        """Status 2, this line and an empty one, and then how the program is used. Nothing is made."""
        made = settle(*words, cwd=self.room)
        self.is_wrong(made)
        lines = made[2].decode().split("\n")
        self.assertEqual(lines[:2], [first, ""], words)
        self.assertTrue(lines[2].startswith("usage: settle period METER CONTRACTS PRICE"), words)
        self.assertFalse((self.room / "new.db").exists())

    def test_each_word_of_each_command(self):
        asked = set()
        for name, (words, _) in COMMANDS.items():
            found = described(help_of(name, "--help"))
            for word in words if name != "period" else []:
                if word == "--db" or (name, word) == ("script", "FILE"):
                    continue  # (any text is a path)
                values, says = VALUES.get(f"{name} {word}") or VALUES[word]
                described_so = found[word][0]
                for part in says:
                    self.assertIn(part, described_so, (name, word))
                for value in values:
                    how = f"of {len(value)} bytes" if word.endswith("key") else shown(value)
                    self.is_told(self.with_value(name, word, value), f"error: {word} {how}: {described_so}")
                asked.add(f"{name} {word}")
        self.assertEqual(len(asked), 2 + 4 + 4 + 4 + 3 + 2)

    def test_the_first_word_that_is_wrong(self):
        """In the order of help."""
        line = described(help_of("run", "--help"))["--key"][0]
        self.is_told(["run", "--db=new.db", "--key=short", "XX", "XX"], f"error: --key of 5 bytes: {line}")

    def test_long_values_and_other_bytes(self):
        line = described(help_of("load", "--help"))["KIND"][0]
        for value in ("k" * 40, "k" * 41, "é" * 30, "a\nb\tc\r", 'a"b\\'):
            self.is_told(self.with_value("load", "KIND", value), f"error: KIND {shown(value)}: {line}")

    def test_words_that_do_not_go_together(self):
        for words, told in (
            (["script", "x.script"], "script needs --operator-key KEY for a new office, or --db PATH"),
            (["script", "--lead-minutes=5", "x.script"], "script needs --operator-key KEY for a new office, or --db PATH"),
            (["script", "--db=new.db", f"--operator-key={OPERATOR}", "x.script"], "--operator-key can't be given with --db: that office has its own"),
            (["script", "--db=new.db", "--lead-minutes=5", "x.script"], "--lead-minutes can't be given with --db: that office has its own"),
            (["report", "--db=new.db", f"--key={OPERATOR}", "day"], "day and csv need DATE and KIND"),
            (["report", "--db=new.db", f"--key={OPERATOR}", "csv", DAY], "day and csv need DATE and KIND"),
            (["report", "--db=new.db", f"--key={OPERATOR}", "balances", DAY], "balances takes neither DATE nor KIND"),
            (["report", "--db=new.db", f"--key={OPERATOR}", "balances", DAY, "SF"], "balances takes neither DATE nor KIND"),
        ):
            self.is_told(words, f"error: {told}")

    def test_no_key_is_shown(self):
        for words in (self.with_value("run", "--key", "secret!!"), self.with_value("init", "--operator-key", "secret!!"), self.with_value("script", "--operator-key", "op-secret!")):
            self.assertNotIn(b"secret", settle(*words, cwd=self.room)[2])


if __name__ == "__main__":
    unittest.main()
