"""Usual mistakes of people who begin to use the program. Each is mended with what `--explain` has printed. A small function
reads the line, knows nothing else, and changes the file or the command accordingly. Then it is accepted. The office and the
files are those of the example market."""
import pathlib
import re
import shutil
import unittest

from programs import HOME, settle
from test_program import CONTRACTS_HEADER, METER_HEADER, OfTheProgram

KEY = "op-market001"
DAY = "2024-07-01"
MOMENTS = {"parties": 1717405200, "units": 1717405500, "contracts": 1719568800, "reallocations": 1719569700, "prices": 1719907200, "meters": 1720166700}
COUNTS = {"parties": 4, "units": 5, "contracts": 126, "reallocations": 56, "prices": 48, "meters": 240}
# A row of a file about which a line tells something.
AT_LINE = r"(?P<path>.+): row \d+ is line (?P<line>\d+) of the file"


def of(pattern, told):
    """What a line has at the named places of a pattern."""
    found = re.fullmatch(pattern, told)
    assert found, f"{told!r} isn't like {pattern!r}"
    return found.groupdict()


def changed(path, change):
    """Changes the lines of a file."""
    lines = pathlib.Path(path).read_text().split("\n")
    change(lines)
    pathlib.Path(path).write_text("\n".join(lines))


# How a line is mended. Each function takes what was told last and the words of the command, and returns the words to be given
# next.
def mend_header(told, words):
    """The header replaces what is there."""
    found = of(r"(?P<path>.+): line (?P<line>\d+), the header, is \".*\"; expected (?P<header>\S+)", told)
    changed(found["path"], lambda lines: lines.__setitem__(int(found["line"]) - 1, found["header"]))
    return words


def in_form(field, form):
    """A field in the form that was expected, if it has another usual form."""
    if form.startswith("a date YYYY-MM-DD"):
        day, month, year = field.split("/")
        return f"{year}-{month:0>2}-{day:0>2}"
    assert form.startswith("a decimal number") and "," in field, (field, form)
    return field.replace(",", ".")


def mend_field(told, words):
    """The field is brought into its form, in the line that is named."""
    found = of(AT_LINE + r"; column (?P<column>\d+), \w+, is \"(?P<field>.*)\"; expected (?P<form>.+)", told)
    field, form = found["field"], in_form(found["field"], found["form"])
    place = int(found["column"]) - 1

    def change(lines):
        at = int(found["line"]) - 1
        fields = re.findall(r"\"[^\"]*\"|[^,]+|(?<=,)(?=,|$)", lines[at])
        assert fields[place].strip('"') == field, (fields, told)
        lines[at] = ",".join([*fields[:place], form, *fields[place + 1 :]])

    changed(found["path"], change)
    return words


def mend_empty_row(told, words):
    """A line that has only commas is removed."""
    found = of(AT_LINE + r"; (it has \d+ fields, expected \d+|column 1, \w+, is \"\"; expected .+)", told)

    def change(lines):
        assert set(lines[int(found["line"]) - 1]) == {","}
        del lines[int(found["line"]) - 1]

    changed(found["path"], change)
    return words


def mend_reference(told, words):
    """Seller and buyer are exchanged, in the row that is named."""
    found = of(AT_LINE + r", \"(?P<row>[^\"]*)\"; the first row of reference (?P<reference>\S+) has another seller or buyer", told)

    def change(lines):
        at = int(found["line"]) - 1
        reference, seller, buyer, *rest = lines[at].split(",")
        assert reference == found["reference"] and lines[at].startswith(found["row"].removesuffix("..")), told
        lines[at] = ",".join([reference, buyer, seller, *rest])

    changed(found["path"], change)
    return words


def mend_name(told, words):
    """The file gets another name, and the command names it."""
    found = of(r"(?P<path>.+): a file of \w+ named (?P<name>\S+) was accepted with other bytes; give this one another name", told)
    path = pathlib.Path(found["path"])
    other = path.with_name(f"new-{found['name']}")
    path.rename(other)
    return [str(other) if word == found["path"] else word for word in words]


def mend_path(told, words):
    """The path becomes that of the only file with this name below the folder."""
    found = of(r"(?P<path>.+): No such file or directory \(os error 2\)", told)
    files = list(pathlib.Path(words[words.index("--db") + 1]).parent.rglob(pathlib.Path(found["path"]).name))
    assert len(files) == 1, files
    return [str(files[0]) if word == found["path"] else word for word in words]


def mend_office(told, words):
    """The same for the path of a database."""
    found = of(r"(?P<path>.+): there is nothing", told)
    files = list(pathlib.Path(found["path"]).parent.parent.rglob(pathlib.Path(found["path"]).name))
    assert len(files) == 1, files
    return [str(files[0]) if word == found["path"] else word for word in words]


def mend_key(told, words):
    """The key that is shown must be the operator's."""
    of(r"(?P<of>.+): the key that is shown isn't the operator's", told)
    place = words.index("--key") + 1
    return [*words[:place], KEY, *words[place + 1 :]]


def mend_late_rows(told, words):
    """The rows that were late are removed from the file, which gets another name. They can't get into force any more."""
    found = of(r"(?P<path>.+): late: rows? (?P<rows>.+)", told)
    late = set()
    for part in found["rows"].split(", "):
        first, _, last = part.partition(" to ")
        late.update(range(int(first), int(last or first) + 1))
    header, *rows = pathlib.Path(found["path"]).read_text().splitlines(keepends=True)
    other = pathlib.Path(found["path"]).with_name("in-time.csv")
    other.write_text(header + "".join(row for number, row in enumerate(rows, 1) if number not in late))
    return [str(other) if word == found["path"] else word for word in words]


def mend_price(told, words):
    """The price is brought into its form."""
    found = of(r"price \"(?P<price>.*)\"; expected (?P<form>.+)", told)
    return [in_form(word, found["form"]) if word == found["price"] else word for word in words]


def mend_word(told, words):
    """A word of a command line becomes the one of the allowed words that begins like it."""
    found = of(r"error: (?P<name>[A-Z]+) \"(?P<word>.*)\": [^:]*: (?P<those>.+)", told)
    those = re.split(r", | or ", found["those"])
    like = [word for word in those if word.startswith(found["word"].lower()[:4])]
    assert len(like) == 1, like
    return [like[0] if word == found["word"] else word for word in words]


def mend_line(told, words):
    """A line of a script gets the word that is allowed there, or all lines get the right line end."""
    script = pathlib.Path(words[-1])
    if told.endswith("; the word ends with a carriage return: lines end with LF alone"):
        script.write_bytes(script.read_bytes().replace(b"\r\n", b"\n"))
        return words
    found = of(r"line (?P<line>\d+) word (?P<place>\d+) \"(?P<word>.*)\": expected one of (?P<those>.+)", told)
    like = [word for word in found["those"].split(", ") if word.startswith(found["word"][:4])]
    assert len(like) == 1, like

    def change(lines):
        parts = lines[int(found["line"]) - 1].split(" ")
        parts[int(found["place"]) - 1] = like[0]
        lines[int(found["line"]) - 1] = " ".join(parts)

    changed(script, change)
    return words


class Mistakes(OfTheProgram):
    """A test with an office in a file, and with the market's files in a folder beside it."""

    def setUp(self):
        super().setUp()
        self.folder = self.room / "market"
        shutil.copytree(HOME / "examples" / "market", self.folder)
        self.office = str(self.room / "office.db")
        self.assertEqual(settle("init", "--db", self.office, "--operator-key", KEY), (0, b"ready\n", b""))

    def words(self, kind, path, key=KEY, moment=None):
        return ["load", "--db", self.office, "--key", key, f"--at={moment or MOMENTS[kind]}", kind, str(path)]

    def loaded(self, *kinds):
        """Loads the market's files of these kinds."""
        for kind in kinds:
            wanted = 0, f"applied={COUNTS[kind]} late=0\n".encode(), b""
            self.assertEqual(settle(*self.words(kind, self.folder / f"{kind}.csv")), wanted)

    def change(self, name, old, new, count=-1):
        """A mistake in a file of the market."""
        path = self.folder / name
        text = path.read_text()
        self.assertIn(old, text)
        path.write_text(text.replace(old, new, count))
        return path

    def mended(self, words, refused, mend, most=1):
        """Gives a command that stops like this, mends what is wrong by the line that was told last, and gives it again, up to a
        number of times. Returns what is written when it is done, and how often it was mended."""
        for times in range(most + 1):
            status, written, told = settle(words[0], "--explain", *words[1:])
            if status == 0 and not told:
                return written.decode(), times
            first, *_, last = told.decode().splitlines() if told.count(b"\n") > 1 else ["", told.decode().strip("\n")]
            if not times:
                self.assertEqual(first, refused)
            words = mend(last, words)
        self.fail(f"it was mended {most} times, and still is told {told!r}")

    def is_mended(self, kind, path, refused, mend, most=1, key=KEY, times=1):
        """The file is loaded whole in the end."""
        written, found = self.mended(self.words(kind, path, key), refused, mend, most)
        self.assertEqual((written, found), (f"applied={COUNTS[kind]} late=0\n", times))


class TenMistakes(Mistakes):
    def test_a_wrong_header(self):
        self.loaded("parties", "units")
        path = self.change("meters.csv", "metered_mwh", "MeteredMWh")
        self.is_mended("meters", path, "refused 12 BadHeader", mend_header)

    def test_decimal_commas(self):
        """In the readings of a whole period, as another program has exported them: nine numbers in five rows."""
        self.loaded("parties", "units")
        path = self.folder / "meters.csv"

        def export(lines):
            for at in range(1, 6):
                fields = lines[at].split(",")
                lines[at] = ",".join(f'"{field.replace(".", ",")}"' if "." in field else field for field in fields)

        changed(path, export)
        self.is_mended("meters", path, "refused 14 BadField row 1 column 4", mend_field, 20, times=9)

    def test_dates_of_another_order(self):
        """They are in six rows."""
        path = self.change("prices.csv", DAY, "01/07/2024", 6)
        self.is_mended("prices", path, "refused 14 BadField row 1 column 1", mend_field, 20, times=6)

    def test_a_missing_reading(self):
        """One reading of one unit is missing, and then three readings of another. What is told has all that a file of readings
        needs except for what was metered."""
        self.loaded("parties", "units", "contracts", "reallocations", "prices")
        path = self.folder / "meters.csv"
        gone = []

        def lose(lines):
            gone.extend(line for line in lines if re.match(r"2__SHOPS,.*,7,|I_SEALINK,.*,(8|9|10),", line))
            lines[:] = [line for line in lines if line not in gone]

        changed(path, lose)
        self.assertEqual(settle(*self.words("meters", path))[1], b"applied=236 late=0\n")
        counts = []

        def mend(told, words):
            found = of(r"SF of (?P<date>\S+): unit (?P<unit>\S+) has no reading for period (?P<period>\d+); (?P<count>\d+) readings? (is|are) missing for \S+", told)
            counts.append(int(found["count"]))
            begins = f"{found['unit']},{found['date']},{found['period']},"
            row = next(line for line in gone if line.startswith(begins))
            more = self.folder / f"more{len(counts)}.csv"
            more.write_text(f"unit,date,period,metered_mwh,tlm,balancing_mwh\n{row}\n")
            self.assertEqual(settle(*self.words("meters", more)), (0, b"applied=1 late=0\n", b""))
            return words

        run = ["run", "--db", self.office, "--key", KEY, DAY, "SF"]
        written, times = self.mended(run, "refused 54 MissingMeter unit 2__SHOPS period 7", mend, 10)
        self.assertEqual((times, counts), (4, [4, 3, 2, 1]))
        # What the guide shows of the whole day.
        self.assertEqual(written, f"run {DAY} SF periods 48 accounts 8 residual -565755 postings 5\n")

    def test_a_wrong_key(self):
        self.is_mended("parties", self.folder / "parties.csv", "refused 60 Forbidden", mend_key, key="citysupkey1")

    def test_a_changed_file(self):
        """The contracts were corrected in the file that was sent already, so they are sent as a file with another name."""
        self.loaded("parties", "contracts")
        path = self.change("contracts.csv", ",33,100.000", ",33,110.000")
        self.is_mended("contracts", path, "refused 20 FileChanged", mend_name)
        self.assertTrue((self.folder / "new-contracts.csv").exists())

    def test_a_late_contract(self):
        """It was sent on the day itself. Those volumes for periods 21 to 26 that are still in time are sent again."""
        self.loaded("parties", "contracts")
        path = self.folder / "contracts-3.csv"
        words = self.words("contracts", path, moment=1719824400)
        self.assertEqual(settle(*words), (0, b"applied=3 late=3\n", b""))
        written, times = self.mended(words, "", mend_late_rows)
        self.assertEqual((written, times), ("applied=3 late=0\n", 1))

    def test_an_empty_row_at_the_end(self):
        """As spreadsheets leave it: with as many commas as the header has, and with one fewer."""
        for kind, row, refused in (("parties", ",,,", "refused 14 BadField row 5 column 1"), ("units", ",,,,", "refused 13 BadRecord row 6")):
            path = self.folder / f"{kind}.csv"
            path.write_text(path.read_text().rstrip("\n") + f"\n{row}\n")
            self.is_mended(kind, path, refused, mend_empty_row)

    def test_seller_and_buyer_exchanged(self):
        """The first row of the reference has them the other way round."""
        self.loaded("parties")
        path = self.folder / "contracts.csv"

        def exchange(lines):
            reference, seller, buyer, *rest = lines[3].split(",")
            lines[3] = ",".join([reference, buyer, seller, *rest])

        changed(path, exchange)
        self.is_mended("contracts", path, "refused 36 ReferenceMoved row 3", mend_reference)

    def test_a_path_off_by_a_folder(self):
        self.is_mended("parties", self.room / "parties.csv", "fault file", mend_path)


class MoreMistakes(Mistakes):
    """Words, scripts, and a single period."""

    def test_an_office_in_another_folder(self):
        words = self.words("parties", self.folder / "parties.csv")
        words[2] = str(self.folder / "office.db")
        written, times = self.mended(words, "fault nofile", mend_office)
        self.assertEqual((written, times), ("applied=4 late=0\n", 1))

    def test_a_word_of_a_command(self):
        words = self.words("parties", self.folder / "parties.csv")
        words[-2] = "Party"
        status, written, told = settle(*words)
        self.assertEqual((status, written), (2, b""))
        self.assertEqual(settle(*mend_word(told.decode().split("\n")[0], words)), (0, b"applied=4 late=0\n", b""))

    def test_a_word_of_a_script(self):
        """A word is wrong, and then its line ends, which are those of another system."""
        lines = [f"load {MOMENTS[kind]} {KEY} {kind} {self.folder}/{kind}.csv" for kind in ("parties", "units")]
        lines[1] = lines[1].replace(" units ", " unit ")
        script = self.file("day.script", "".join(f"{line}\r\n" for line in lines))
        words = ["script", "--db", self.office, script]
        written, times = self.mended(words, "line 1 is off its form", mend_line, 2)
        self.assertEqual((written, times), ("applied=4 late=0\napplied=5 late=0\n", 2))

    def test_a_price(self):
        words = ["period", self.file("meter.csv", METER_HEADER), self.file("contracts.csv", CONTRACTS_HEADER), "50,5"]
        self.assertEqual(self.mended(words, "refused 14 BadField in price", mend_price), ("residual 0\n", 1))

    def test_meter_and_contracts_exchanged(self):
        """Each has the other's header: the line names the file, and what it should be."""
        meter, contracts = self.file("meter.csv", METER_HEADER), self.file("contracts.csv", CONTRACTS_HEADER)

        def mend(told, words):
            found = of(r"(?P<path>.+): line 1, the header, is \"(?P<header>.*)\"; expected (?P<expected>\S+)", told)
            self.assertEqual((found["path"], found["header"], found["expected"]), (contracts, CONTRACTS_HEADER.strip(), METER_HEADER.strip()))
            return [words[0], words[2], words[1], words[3]]

        self.assertEqual(self.mended(["period", contracts, meter, "1"], "refused 12 BadHeader in meter", mend), ("residual 0\n", 1))


if __name__ == "__main__":
    unittest.main()
