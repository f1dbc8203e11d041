"""What only the built program can show: its exit statuses, its streams, and the system's files."""
import os
import pathlib
import resource
import shutil
import signal
import subprocess
import tempfile
import unittest

from programs import CONTRACTS, EXAMPLE, METER, SETTLE, as_nobody, need, settle

METER_HEADER = "unit,account,metered_mwh,tlm,balancing_mwh\n"
CONTRACTS_HEADER = "reference,seller,buyer,mwh\n"


def period_of(count):
    """The meter rows of this many accounts, and the text of their period at 50 pounds per MWh.

    Account number k exports k kWh with no loss, and sells nothing. So it is k kWh long, and is paid 5 pence for each. The
    residual is the sum of what they are paid."""
    rows = [f"U{k:05},A{k:05}-P,{k // 1000}.{k % 1000:03},1,0\n" for k in range(1, count + 1)]
    energies = [f"{k // 1000}.{k % 1000:03}0000000" for k in range(1, count + 1)]
    lines = [
        f"account A{k:05}-P credited {energy} imbalance {energy} charge -{5 * k}\n" for k, energy in enumerate(energies, 1)
    ]
    residual = 5 * count * (count + 1) // 2
    return "".join(rows), "".join(lines) + f"residual {residual}\n"


class OfTheProgram(unittest.TestCase):
    """A test with a folder of its own for the program's files."""

    def setUp(self):
        need(SETTLE)
        room = tempfile.TemporaryDirectory()
        self.addCleanup(room.cleanup)
        self.room = pathlib.Path(room.name)

    def file(self, name, text):
        path = self.room / name
        path.write_bytes(text if isinstance(text, bytes) else text.encode())
        return str(path)

    def period(self, meter, contracts, *price):
        """Settles a period of these rows."""
        meter = self.file("meter.csv", METER_HEADER + meter)
        contracts = self.file("contracts.csv", CONTRACTS_HEADER + contracts)
        return settle("period", meter, contracts, *price)

    def is_settled(self, made, text):
        """Compares line by line, because finding the differences within a long text takes too long."""
        status, written, told = made
        self.assertEqual((status, told), (0, b""))
        for number, (line, wanted) in enumerate(zip(written.splitlines(), text.encode().splitlines()), 1):
            self.assertEqual(line, wanted, f"line {number}")
        self.assertEqual(len(written), len(text))


class Settled(OfTheProgram):
    """Status 0: the whole text, and nothing on standard error."""

    def test_the_example(self):
        self.assertEqual(settle("period", METER, CONTRACTS, "50.00000"), (0, EXAMPLE, b""))

    def test_no_rows(self):
        self.assertEqual(self.period("", "", "1"), (0, b"residual 0\n", b""))

    def test_a_negative_price(self):
        # 2 MWh long at -5 pounds: 1,000 pence to pay
        text = b"account A-P credited 2.0000000000 imbalance 2.0000000000 charge 1000\nresidual -1000\n"
        self.assertEqual(self.period("U,A-P,2,1,0\n", "", "--", "-5"), (0, text, b""))
        meter, contracts = str(self.room / "meter.csv"), str(self.room / "contracts.csv")
        self.assertEqual(settle("period", "--", meter, contracts, "-5"), (0, text, b""))

    def test_the_last_rows_count(self):
        """The last row of a unit, and of a reference. The accounts that only earlier rows name are settled too."""
        # A-C has 10 MWh, 1 of them for the system, and buys 2 of A-P. So there are 11 MWh too much and 2 too little, at 10
        # pounds.
        meter, contracts = "U1,A0-P,7,1,0\nU1,A-C,10,1,1\n", "C1,A-P,A-C,5\nC1,A-P,A-C,2\n"
        text = (
            b"account A-P credited 0.0000000000 imbalance -2.0000000000 charge 2000\n"
            b"account A-C credited 10.0000000000 imbalance 11.0000000000 charge -11000\n"
            b"account A0-P credited 0.0000000000 imbalance 0.0000000000 charge 0\nresidual 9000\n"
        )
        self.assertEqual(self.period(meter, contracts, "10"), (0, text, b""))

    def test_the_order_of_accounts(self):
        """By the bytes of the party, a shorter one first, and then P before C."""
        accounts = ["0-C", "A-P", "A-C", "A0-P", "AA-C", "B-P"]
        pairs = ("B-P", "0-C"), ("A-C", "AA-C"), ("A0-P", "A-P")
        rows = "".join(f"R{seller}{buyer},{seller},{buyer},0\n" for seller, buyer in pairs)
        none = "credited 0.0000000000 imbalance 0.0000000000 charge 0\n"
        text = "".join(f"account {account} {none}" for account in accounts) + "residual 0\n"
        self.assertEqual(self.period("", rows, "1"), (0, text.encode(), b""))

    def test_a_write_of_more_than_4096_bytes(self):
        rows, text = period_of(100)
        self.assertGreaterEqual(len(text), 5000)
        self.is_settled(self.period(rows, "", "50"), text)

    def test_a_text_that_no_pipe_holds(self):
        rows, text = period_of(3000)
        self.assertGreater(len(text), 2 * 65536)
        self.is_settled(self.period(rows, "", "50"), text)

    def test_a_file_as_standard_output(self):
        rows, text = period_of(100)
        meter, contracts = self.file("m", METER_HEADER + rows), self.file("c", CONTRACTS_HEADER)
        with open(self.room / "out", "wb") as out:
            made = subprocess.run([SETTLE, "period", meter, contracts, "50"], stdout=out, stderr=subprocess.PIPE)
        self.is_settled((made.returncode, (self.room / "out").read_bytes(), made.stderr), text)


class Refused(OfTheProgram):
    """Status 1: a line on standard error tells why, and nothing is written to standard output."""

    def refused(self, made, line):
        self.assertEqual(made, (1, b"", line.encode() + b"\n"))

    def test_a_price(self):
        self.refused(self.period("", "", "x"), "refused 14 BadField in price")

    def test_a_field(self):
        self.refused(self.period("U,A-P,1,1,0\nV,A-P,1.,1,0\n", "", "1"), "refused 14 BadField row 2 column 3 in meter")

    def test_a_record(self):
        self.refused(self.period("", "C,A-P,B-P\n", "1"), "refused 13 BadRecord row 1 in contracts")

    def test_a_header(self):
        self.refused(settle("period", CONTRACTS, METER, "1"), "refused 12 BadHeader in meter")
        self.refused(settle("period", METER, METER, "1"), "refused 12 BadHeader in contracts")
        self.refused(settle("period", "/dev/null", CONTRACTS, "1"), "refused 12 BadHeader in meter")

    def test_a_contract_with_itself(self):
        self.refused(self.period("", "C,A-P,A-P,1\n", "1"), "refused 35 SameAccount row 1 in contracts")

    def test_a_reference_that_moved(self):
        rows = "C,A-P,B-P,1\nD,A-P,B-P,1\nC,A-P,B-C,1\n"
        self.refused(self.period("", rows, "1"), "refused 36 ReferenceMoved row 3 in contracts")

    def test_what_is_read_first(self):
        """METER is read first, then all of CONTRACTS, then its counterparties, then PRICE."""
        self.refused(self.period("U1,A-P,1,1\n", "C1,A-P,A-P,1\n", "x"), "refused 13 BadRecord row 1 in meter")
        rows = "C1,A-P,A-P,1\nC2,A-P,B-P,1.0001\n"
        self.refused(self.period("", rows, "x"), "refused 14 BadField row 2 column 4 in contracts")
        self.refused(self.period("", "C1,A-P,A-P,1\n", "x"), "refused 35 SameAccount row 1 in contracts")

    def test_a_charge_past_its_limit(self):
        # Each unit gives 20,000 MWh. Five at 99,999.99999 pounds are 10^12 - 100 pence, and 10^12 are allowed.
        rows = [f"U{unit},A-P,10000,2,0\n" for unit in range(6)]
        energy, pence = "100000.0000000000", 10**12 - 100
        text = f"account A-P credited {energy} imbalance {energy} charge -{pence}\nresidual {pence}\n"
        self.assertEqual(self.period("".join(rows[:5]), "", "99999.99999"), (0, text.encode(), b""))
        self.refused(self.period("".join(rows), "", "99999.99999"), "refused 55 TooLarge")

    def test_the_greatest_file(self):
        """1,048,576 bytes are read, and one more is refused."""
        header = METER_HEADER.encode()
        whole = header + b"\n" * (1_048_576 - len(header))
        contracts = self.file("c", CONTRACTS_HEADER)
        self.assertEqual(settle("period", self.file("m", whole), contracts, "1"), (0, b"residual 0\n", b""))
        self.refused(settle("period", self.file("m", whole + b"\n"), contracts, "1"), "refused 10 FileTooLarge in meter")

    def test_the_most_rows(self):
        """20,000 rows are read, and one more is refused."""
        row = "C,A-P,B-P,0\n"
        text = b"".join(
            b"account %s-P credited 0.0000000000 imbalance 0.0000000000 charge 0\n" % party for party in (b"A", b"B")
        )
        self.assertEqual(self.period("", row * 20_000, "1"), (0, text + b"residual 0\n", b""))
        self.refused(self.period("", row * 20_001, "1"), "refused 11 TooManyRows in contracts")

    def test_a_file_without_end(self):
        self.refused(settle("period", "/dev/zero", CONTRACTS, "1"), "refused 10 FileTooLarge in meter")


class Unreadable(OfTheProgram):
    """Status 1 with `fault file`, before anything in the other file is judged."""

    def unreadable(self, path):
        for meter, contracts in ((path, CONTRACTS), (path, METER), (METER, path), (CONTRACTS, path)):
            self.assertEqual(settle("period", meter, contracts, "x"), (1, b"", b"fault file\n"))

    def test_no_file(self):
        self.unreadable(str(self.room / "missing.csv"))
        self.unreadable("")

    def test_a_folder(self):
        self.unreadable(str(self.room))

    def test_a_link_to_nowhere(self):
        os.symlink("missing.csv", self.room / "link.csv")
        self.unreadable(str(self.room / "link.csv"))

    def test_a_file_of_others(self):
        """Root may read every file, so this calls a copy of the program as nobody."""
        nobody = as_nobody()
        if nobody is None:
            self.skipTest("root may read every file, and setpriv doesn't give up its rights here")
        os.chmod(self.room, 0o755)
        program = shutil.copy(SETTLE, self.room / "settle")
        os.chmod(program, 0o755)
        contracts, closed = self.file("contracts.csv", CONTRACTS_HEADER), self.file("closed.csv", METER_HEADER)
        for mode, ended in ((0o644, (0, b"residual 0\n", b"")), (0, (1, b"", b"fault file\n"))):
            os.chmod(closed, mode)
            made = subprocess.run([*nobody, program, "period", closed, contracts, "1"], capture_output=True)
            self.assertEqual((made.returncode, made.stdout, made.stderr), ended)


class WrongWords(OfTheProgram):
    """Status 2: a text on standard error, and nothing on standard output."""

    def wrong(self, *words):
        status, written, told = settle(*words)
        self.assertEqual((status, written), (2, b""), words)
        self.assertTrue(told.endswith(b"\n"), words)

    def test_words_that_are_no_command(self):
        self.wrong()
        self.wrong("")
        self.wrong("periods", METER, CONTRACTS, "50")
        self.wrong("period")
        self.wrong("period", METER, CONTRACTS)
        self.wrong("period", METER, CONTRACTS, "50", "50")
        self.wrong("period", METER, CONTRACTS, "-5")
        self.wrong("period", METER, CONTRACTS, "50", "--at=1")
        self.wrong("period", "-x", METER, CONTRACTS, "50")
        self.wrong("version")

    def test_calls_for_help(self):
        for words in (("--help",), ("-h",), ("help",), ("period", METER, CONTRACTS, "--help")):
            self.wrong(*words)
        self.wrong("period", "--help")
        self.assertIn(b"settle period <METER> <CONTRACTS> <PRICE>", settle("period", "--help")[2])

    def test_words_that_are_not_utf8(self):
        for words in ((b"period", b"\xff.csv", CONTRACTS, "50"), (b"\xff",)):
            self.wrong(*words)
            self.assertIn(b"not text (UTF-8)", settle(*words)[2])


class Streams(OfTheProgram):
    """What the program does if a stream takes nothing, or isn't there."""

    SETTLED = "period", METER, CONTRACTS, "50"
    WRONG = "period", METER, CONTRACTS, "x"

    def by_shell(self, streams, *words):
        """Calls `settle` from a shell that sets its streams so."""
        made = subprocess.run(["sh", "-c", f'"$@" {streams}', "sh", SETTLE, *words], capture_output=True)
        return made.returncode, made.stdout, made.stderr

    def test_a_full_device(self):
        self.assertEqual(self.by_shell(">/dev/full", *self.SETTLED), (1, b"", b"fault output\n"))

    def test_a_file_that_takes_five_bytes(self):
        """If the output takes a beginning and then fails, the status tells it."""

        def limit():
            signal.signal(signal.SIGXFSZ, signal.SIG_IGN)
            resource.setrlimit(resource.RLIMIT_FSIZE, (5, 5))

        with open(self.room / "out", "wb") as out:
            made = subprocess.run([SETTLE, *self.SETTLED], stdout=out, stderr=subprocess.PIPE, preexec_fn=limit)
        self.assertEqual((made.returncode, made.stderr), (1, b"fault output\n"))
        self.assertEqual((self.room / "out").read_bytes(), EXAMPLE[:5])

    def test_a_full_device_that_is_not_written_to(self):
        self.assertEqual(self.by_shell(">/dev/full", *self.WRONG), (1, b"", b"refused 14 BadField in price\n"))

    def test_a_full_device_for_errors(self):
        self.assertEqual(self.by_shell("2>/dev/full", *self.SETTLED), (0, EXAMPLE, b""))
        self.assertEqual(self.by_shell("2>/dev/full", *self.WRONG), (1, b"", b""))
        self.assertEqual(self.by_shell("2>/dev/full", "period"), (2, b"", b""))

    def test_a_pipe_that_nobody_reads(self):
        reads, writes = os.pipe()
        os.close(reads)
        made = subprocess.run([SETTLE, *self.SETTLED], stdout=writes, stderr=subprocess.PIPE)
        os.close(writes)
        self.assertEqual((made.returncode, made.stderr), (1, b"fault output\n"))

    def test_no_standard_output(self):
        self.assertEqual(self.by_shell(">&-", *self.SETTLED), (1, b"", b"fault output\n"))
        self.assertEqual(self.by_shell(">&-", *self.WRONG), (1, b"", b"refused 14 BadField in price\n"))

    def test_no_standard_error(self):
        self.assertEqual(self.by_shell("2>&-", *self.SETTLED), (0, EXAMPLE, b""))
        self.assertEqual(self.by_shell("2>&-", *self.WRONG), (1, b"", b""))
        self.assertEqual(self.by_shell("2>&-", "period"), (2, b"", b""))

    def test_no_standard_input(self):
        self.assertEqual(self.by_shell("<&-", *self.SETTLED), (0, EXAMPLE, b""))

    def test_no_stream_at_all(self):
        self.assertEqual(self.by_shell("<&- >&- 2>&-", *self.SETTLED), (1, b"", b""))
        self.assertEqual(self.by_shell("<&- >&- 2>&-", "period"), (2, b"", b""))

    def test_files_are_left_as_they_were(self):
        """Without standard streams the files get their descriptors, and nothing is written to them."""
        meter, contracts = self.file("m", METER_HEADER), self.file("c", CONTRACTS_HEADER + "x\n")
        self.by_shell("<&- >&- 2>&-", "period", meter, contracts, "1")
        self.assertEqual(pathlib.Path(meter).read_text(), METER_HEADER)
        self.assertEqual(pathlib.Path(contracts).read_text(), CONTRACTS_HEADER + "x\n")


if __name__ == "__main__":
    unittest.main()
