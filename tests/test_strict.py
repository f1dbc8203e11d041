"""`settle script --strict` stops after the first line that is refused or meets a fault. It tells that line and ends with status
1. What was done before is kept, and nothing of the later lines is done. It is tested over a new office and over a database."""
import socket
import subprocess
import unittest

from programs import SETTLE, settle
from test_command_faults import Faults
from test_database import TODAY, content_of, rows_of
from test_desk import APPLIED, DAY, DEADLINE, EARLY, END, LATE, LOADED, MARKET, NEXT_END, OPERATOR, SETTLED, text_of
from test_explain import at_line, path_in, shown
from test_reports import BALANCES, balances, report
from test_serving import BAD, refusal, reply, request


def stopped(number, *written):
    """How a strict script ends if a line stops it, and what was written until then."""
    return 1, "".join(f"{line}\n" for line in written).encode(), f"line {number} stopped the script\n".encode()


class Strict(Faults):
    """A test with scripts. Some of them have lines that stop them."""

    def stops(self):
        """A line of each kind that stops a strict script after the market, with what it writes."""
        taken = self.taken_port()
        folder = self.room / "folder.csv"
        folder.mkdir(exist_ok=True)
        return [
            (self.load("prices", f"{DAY},49,1", "bad.csv"), "refused 34 NoSuchPeriod row 1"),
            (self.load("prices", f"{DAY},1,x", "bad.csv"), "refused 14 BadField row 1 column 3"),
            (self.load("prices", [], "f5.csv"), "refused 20 FileChanged"),
            (self.load("prices", f"{DAY},1,1", "key.csv", key="genco0001"), "refused 60 Forbidden"),
            (f"load {EARLY} {OPERATOR} prices {self.room}/missing.csv", "fault file"),
            (f"load {EARLY} {OPERATOR} prices {folder}", "fault file"),
            (self.order("R1"), "refused 51 NoInitialRun"),
            (self.order("SF", END - 1), "refused 52 DayNotOver"),
            (self.order("SF", NEXT_END, "2024-07-02"), "refused 53 MissingPrice period 1"),
            (report("day"), "refused 63 NoRun"),
            (balances("genco0001"), "refused 60 Forbidden"),
            (f"serve 5 {taken} 1", "fault socket"),
        ]

    def strictly(self, *lines, options=()):
        """A strict script of these lines over a new office."""
        return self.run_script("".join(f"{line}\n" for line in lines), "--strict", *options)

    def strictly_at(self, *lines, options=()):
        """And over the office in the file."""
        made = self.command("script", "--strict", *options, self.file("script", "".join(f"{line}\n" for line in lines)))
        self.is_sound()
        return made


class NewOffice(Strict):
    """Over tables in memory."""

    def test_each_stop(self):
        """The first line after the market, one in the middle, and the last."""
        market = self.market()
        for line, text in self.stops():
            with self.subTest(line):
                self.assertEqual(self.strictly(*market, line, balances()), stopped(6, *LOADED, text))
                self.assertEqual(self.strictly(*market, balances(), line), stopped(7, *LOADED, *BALANCES_OF_NOTHING, text))

    def test_the_first_line(self):
        self.assertEqual(self.strictly(self.load(*MARKET[1]), *self.market()), stopped(1, "refused 30 UnknownParty row 1"))

    def test_the_first_of_several(self):
        lines = [line for line, _ in self.stops()]
        self.assertEqual(self.strictly(*self.market(), *lines), stopped(6, *LOADED, self.stops()[0][1]))

    def test_none(self):
        """Late rows, repeats and runs that exist already stop nothing: the script ends as without the option."""
        late = self.load("contracts", f"C1,GENCO-P,SUPCO-C,{DAY},1,1.000", "late.csv", DEADLINE)
        lines = [*self.market(), late, late, self.order("SF"), self.order("SF"), report("day"), balances(), "serve 5 0 0"]
        text = "".join(f"{line}\n" for line in lines)
        plain, strict = self.run_script(text), self.run_script(text, "--strict")
        for status, written, told in (plain, strict):
            self.assertEqual((status, told), (0, b""))
            *first, port = written.decode().splitlines()
            self.assertEqual(first[5:9], [LATE, LATE, SETTLED, SETTLED])
            self.assertTrue(port.startswith("listening 127.0.0.1:"))
        self.assertEqual(plain[1].rpartition(b":")[0], strict[1].rpartition(b":")[0])

    def test_no_lines(self):
        self.assertEqual(self.strictly(), (0, b"", b""))

    def test_what_has_no_status_of_its_own(self):
        """A script that isn't there, one that is too large, and one with a line off its form end as without the option."""
        missing, large = str(self.room / "missing"), self.file("large", b"\n" * 16_777_217)
        off = self.file("off", f"{self.order('R1')}\nx\n")
        for path in (missing, large, off):
            words = "script", "--operator-key", OPERATOR, path
            plain = settle(*words)
            self.assertEqual(settle(*words, "--strict"), plain)
            self.assertNotEqual(plain[0], 0)
            self.assertNotIn(b"stopped", plain[2])

    def test_an_output_that_takes_nothing(self):
        """That comes first."""
        script = self.file("script", f"{self.order('R1')}\n")
        call = ["sh", "-c", '"$@" >/dev/full', "sh", SETTLE, "script", "--strict", "--operator-key", OPERATOR, script]
        made = subprocess.run(call, capture_output=True)
        self.assertEqual((made.returncode, made.stdout, made.stderr), (1, b"", b"fault output\n"))

    def test_explained(self):
        """The explanation comes before the line that stopped the script. Without a refusal nothing stops it."""
        bad = self.load("prices", f"{DAY},49,1", "bad.csv")
        late = self.load("contracts", f"C1,GENCO-P,SUPCO-C,{DAY},1,1.000", "late.csv", DEADLINE)
        status, written, told = self.strictly(*self.market(), late, bad, self.order("SF"), options=("--explain",))
        self.assertEqual((status, written), stopped(7, *LOADED, LATE, "refused 34 NoSuchPeriod row 1")[:2])
        wanted = [
            f"line 6: {path_in(late)}: late: row 1",
            f"line 7: {at_line(path_in(bad), 1, 2)}, {shown(f'{DAY},49,1')}; {DAY} has no period 49: its last is 48",
            "line 7 stopped the script",
        ]
        self.assertEqual(told.decode().splitlines(), wanted)

    def test_what_clients_are_refused(self):
        """It is no refusal of the line: the script goes on, and nothing is told or explained."""
        lines = [*self.market(), f"serve {NEXT_END} 0 2", balances()]
        words = [SETTLE, "script", "--strict", "--explain", "--operator-key", OPERATOR, self.file("served", "".join(f"{line}\n" for line in lines))]
        with subprocess.Popen(words, bufsize=0, stdout=subprocess.PIPE, stderr=subprocess.PIPE) as begun:
            self.addCleanup(begun.kill)
            told = [begun.stdout.readline().decode() for _ in range(6)]
            port = int(told[-1].rpartition(":")[2])
            for sent, got in ((b"\r\n\r\nx", BAD), (request("POST", f"/runs/{DAY}/R1", OPERATOR), reply(409, refusal(51, "NoInitialRun")))):
                with socket.create_connection(("127.0.0.1", port), timeout=30) as client:
                    client.sendall(sent)
                    client.shutdown(socket.SHUT_WR)
                    self.assertEqual(b"".join(iter(lambda: client.recv(65_536), b"")), got)
            written, told = begun.communicate(timeout=60)
        self.assertEqual((begun.returncode, written.decode().splitlines(), told), (0, BALANCES_OF_NOTHING, b""))


class Database(Strict):
    """Over an office in a file: the lines before the one that stops the script are kept, and those after it aren't run."""

    def test_each_stop(self):
        """With one price before it, and one after it."""
        for number, (line, text) in enumerate(self.stops()):
            before = self.load("prices", f"{DAY},2,{number + 1}.00000", f"before{number}.csv")
            behind = self.load("prices", f"{DAY},2,99.00000", f"behind{number}.csv")
            with self.subTest(line):
                self.assertEqual(self.strictly_at(before, line, behind, self.order("SF")), stopped(2, APPLIED, text))
                self.assertIn((TODAY, 2, (number + 1) * 100_000), rows_of(self.database, "prices"))
                self.assertEqual(rows_of(self.database, "runs"), [])

    def test_the_first_line(self):
        """Nothing is changed."""
        before = content_of(self.database)
        self.assertEqual(self.strictly_at(self.order("R1"), self.order("SF"), self.dearer()), stopped(1, "refused 51 NoInitialRun"))
        self.assertEqual(content_of(self.database), before)

    def test_again_once_it_is_mended(self):
        """The same script after its bad line is mended: what was done before is told as it was, and the rest is done."""
        bad = self.load("prices", f"{DAY},49,60.00000", "p2.csv")
        lines = [self.order("SF"), bad, self.order("R1")]
        self.assertEqual(self.strictly_at(*lines), stopped(2, SETTLED, "refused 34 NoSuchPeriod row 1"))
        with open(path_in(bad), "wb") as file:
            file.write(text_of("prices", [f"{DAY},1,60.00000"]))
        done = [SETTLED, APPLIED, f"run {DAY} R1 periods 48 accounts 4 residual 6060 postings 2"]
        self.assertEqual(self.strictly_at(*lines), (0, "".join(f"{line}\n" for line in done).encode(), b""))

    def test_none(self):
        lines = [self.order("SF"), balances()]
        plain = self.run_script_at("".join(f"{line}\n" for line in lines))
        self.assertEqual(plain, (0, f"{SETTLED}\n{BALANCES}".encode(), b""))
        self.assertEqual(self.strictly_at(*lines), plain)

    def test_what_stops_before_the_lines(self):
        """That comes first, and the option makes no difference."""
        missing = self.room / "missing.db"
        other = self.room / "other.db"
        other.write_bytes(b"no database")
        script = self.file("script", f"{self.order('R1')}\n")
        for path in (missing, other):
            words = "script", "--db", str(path), script
            self.assertEqual(settle(*words, "--strict"), settle(*words))

    def test_without_the_option_the_script_goes_on(self):
        lines = [self.order("R1"), self.order("SF")]
        found = self.run_script_at("".join(f"{line}\n" for line in lines))
        self.assertEqual(found, (0, f"refused 51 NoInitialRun\n{SETTLED}\n".encode(), b""))


class WrongWords(Strict):
    """`--strict` is an option of `script` only, and comes after that word."""

    def test_other_commands(self):
        before = content_of(self.database)
        for name, words in self.commands.items():
            if name != "script":
                self.is_wrong(self.command(name, *words, "--strict"))
        new = self.room / "new.db"
        self.is_wrong(settle("init", "--strict", "--db", str(new), "--operator-key", OPERATOR))
        self.assertEqual((new.exists(), content_of(self.database)), (False, before))
        self.is_wrong(settle("period", "--strict", self.prices, self.prices, "1"))
        self.is_wrong(settle("--strict"))
        self.is_wrong(settle("--version", "--strict"))

    def test_before_the_name_of_the_command(self):
        self.is_wrong(settle("--strict", "script", "--operator-key", OPERATOR, self.script))

    def test_a_value(self):
        self.is_wrong(settle("script", "--strict=yes", "--operator-key", OPERATOR, self.script))
        self.is_wrong(settle("script", "--strict", "yes", "--operator-key", OPERATOR, self.script))

    def test_each_place(self):
        """Before, between and after the other words, and twice."""
        script = self.file("strict", f"{self.order('R1')}\n{balances()}\n")
        words = ["--operator-key", OPERATOR, "--lead-minutes=5", script]
        wanted = stopped(1, "refused 51 NoInitialRun")
        for place in (0, 2, 3, 4):
            self.assertEqual(settle("script", *words[:place], "--strict", *words[place:]), wanted)
        self.assertEqual(settle("script", "--strict", *words, "--strict"), wanted)

    def test_behind_two_dashes(self):
        """There it is a path."""
        (self.room / "--strict").write_text(f"{self.order('R1')}\n{balances()}\n")
        made = settle("script", "--operator-key", OPERATOR, "--", "--strict", cwd=self.room)
        self.assertEqual(made, (0, "refused 51 NoInitialRun\naccount,moved_pence\n".encode(), b""))
        made = settle("script", "--operator-key", OPERATOR, "--strict", "--", "--strict", cwd=self.room)
        self.assertEqual(made, stopped(1, "refused 51 NoInitialRun"))


# The balances of the market before any run.
BALANCES_OF_NOTHING = ["account,moved_pence", "GENCO-P,0", "GENCO-C,0", "SUPCO-P,0", "SUPCO-C,0"]


if __name__ == "__main__":
    unittest.main()
