"""Damaged inputs: how the input of a number is made from files of the corpus, by changes that are drawn from the number. Each
change inverts a bit; sets a byte; puts in, takes out or doubles some bytes, a field, a line, a page or a piece of another file;
or cuts off the end. Few changes are more frequent than many. Now and then an input is made about as long as it may be. The sums
of some logs are made right again, so that what follows them is read."""
import random
import re
import struct

# At most this many changes make an input, and at most this many bytes are put in or doubled.
MOST_CHANGES = 8
MOST_BYTES = 4_096
# The greatest number of bytes of a file, and a little less than that of its rows, of the bytes of a head and of its headers.
FILE_BYTES = 1_048_576
FILE_ROWS = 19_985
HEAD_BYTES = 8_100
HEADERS = 28
# The bytes of a page of a new database, of the head of a log, and of the head of each page in it. Of a log's head the bytes from
# SALT on, up to its sums, are in the head of each page too.
PAGE = 4_096
LOG_HEAD = 32
FRAME_HEAD = 24
SALT = slice(16, 24)
# What separates fields of a row, a line or a path.
SEPARATORS = b", /:\r\n"
SEPARATOR = re.compile(rb"[, /:\r\n]")
# Bytes that have a meaning somewhere, and numbers that occur in the pages of a database or are at a limit there.
BYTES = b"\0\xff\x7f\x80\xef\xbb\xbf\",\r\n\t :/?0159-+.APz"
NUMBERS = [
    *(0, 1, 2, 5, 10, 13, 33, 100, 4_096, 65_535, 65_536, 0x0D000000, 0x05000000, 0x0A000000, 0x00FFFFFF, 0x01000000),
    *(0x7FFFFFFF, 0x80000000, 0x81818181, 0xFFFFFFFF),
]
# Fields of files, their headers, and what quotes and ends them; parts of requests; and words of scripts.
FILE_WORDS = [
    "", "0", "-0", "00", "1", "07", "48", "49", "50", "51", "-1", "+1", "1.", ".5", "1e3", "1.0", "10000.000", "10000.001",
    "-10000.000", "-10000.001", "0.0001", "2.0000000", "2.0000001", "100.00000", "100.00001", "99999.99999", "-99999.99999",
    "100000", "9223372036854775807", "9223372036854775808", "-9223372036854775808", "18446744073709551616",
    "0000000000000000000000000000000000000001", "2001-01-01", "2000-12-31", "2099-12-31", "2100-01-01", "2024-02-29",
    "2023-02-29", "2024-03-31", "2024-10-27", "2024-07-01", "0000-00-00", "9999-99-99", "2024-7-1", "A", "ABCDEFGHIJ",
    "ABCDEFGHIJK", "GENCO", "GENCO-P", "GENCO-C", "SUPCO-P", "SUPCO-C", "genco0001", "P", "C", "yes", "no", "G1", "S1",
    "ABCDEFGH_-123456", "ABCDEFGH_-1234567", "abcdefghijABCDEFGH-_", "abcdefghijABCDEFGH-_1",
    "abcdefghijabcdefghijabcdefghijabcdefghijabcdefghijabcdefghijabcd",
    "abcdefghijabcdefghijabcdefghijabcdefghijabcdefghijabcdefghijabcde", '"', '""', '"0"', '"a""b"', '"a,b"', '"a\nb"', ",",
    ",,", "\n", "\r", "\r\n", "\n\n", "\ufeff", "party,from,to,key\n", "unit,party,side,interconnector,from,to\n",
    "unit,date,period,metered_mwh,tlm,balancing_mwh\n", "date,period,price\n", "reference,seller,buyer,date,period,mwh\n",
    "unit,account,date,period,percent,fixed_mwh\n",
]
REQUEST_WORDS = [
    "", "GET", "POST", "HEAD", "PUT", "get", "HTTP/1.1", "HTTP/1.0", "HTTP/2.0", "HTTP/1.1\r\n",
    "GET /runs/2024-07-01 HTTP/1.1\r\n", "Host: a\r\n", "host:\r\n", "HOST : a\r\n", "Transfer-Encoding: chunked\r\n",
    "transfer-encoding:identity\r\n", "Content-Length: 0\r\n", "Content-Length: 5\r\n", "Content-Length: 1048576\r\n",
    "Content-Length: 1048577\r\n", "Content-Length: 99999999999999999999999999\r\n", "Content-Length: +5\r\n",
    "Content-Length: \r\n", "content-length: 00005\r\n", "x-office-key: op-settle001\r\n", "X-OFFICE-KEY:\tgenco0001 \r\n",
    "x-office-key:\r\n", " folded: a\r\n", ":\r\n", "a\r\n", "a: b\r\n", "\r\n", "\n", "\r", "\r\n\r\n", "\n\n", "\r\n\n", " ",
    "  ", "\t", "/", "//", "?", "%2F", "#", "*", ".", "..", "files", "runs", "accounts", "balances", "contracts", "parties",
    "units", "meters", "prices", "reallocations", "f1.csv", "2024-07-01", "2100-01-01", "SF", "R1", "DF", "XX", "GENCO-P",
    "GENCO", "SUPCO-C", "a b", "\xe9", "\x7f", "\x00", "0", "1", "/files/parties/f1.csv", "/runs/2024-07-01/SF",
    "/accounts/GENCO-P/2024-07-01", "/balances/SUPCO-C", "/contracts/SUPCO-C/2024-07-01", "/runs/2024-07-01", "http://a/b",
    "abcdefghijabcdefghijabcdefghijabcdefghijabcdefghijabcdefghijabcd",
    "abcdefghijabcdefghijabcdefghijabcdefghijabcdefghijabcdefghijabcde",
]
SCRIPT_WORDS = [
    "", "load", "run", "report", "serve", "LOAD", "day", "csv", "balances", "parties", "units", "meters", "prices", "contracts",
    "reallocations", "SF", "R1", "R2", "R3", "RF", "DF", "XX", "0", "-0", "1", "-1", "+1", "007", "1.0", "65535", "65536",
    "1000000", "1000001", "9223372036854775807", "9223372036854775808", "-9223372036854775808", "-9223372036854775809",
    "18446744073709551616", "00000000000000000000000000000000001", "op-settle001", "op-1234567", "op-", "genco0001", "genco01",
    "op-abcdefghijabcdefghijabcdefghijabcdefghijabcdefghijabcdefghija",
    "op-abcdefghijabcdefghijabcdefghijabcdefghijabcdefghijabcdefghijab",
    "abcdefghijabcdefghijabcdefghijabcdefghijabcdefghijabcdefghijabcd",
    "abcdefghijabcdefghijabcdefghijabcdefghijabcdefghijabcdefghijabcde", "2024-07-01", "2001-01-01", "2000-12-31", "2099-12-31",
    "2100-01-01", "2024-02-30", "a.csv", "a/b.csv", "a/", "/", "//", "../a", "\xe9.csv", "\xe9/a.csv", "\x00", " ", "  ", "\n",
    "\n\n", "\r\n", "\t", "load 0 op-settle001 parties a.csv\n", "run 0 op-settle001 2024-07-01 SF\n",
    "report op-settle001 balances\n", "serve 0 0 0\n",
]
WORDS = {"request": REQUEST_WORDS, "script": SCRIPT_WORDS}
# One in how many inputs is made longer than a limit, or a little shorter. That is rare where reading takes long.
LENGTHENED = {"request": 50, "script": None, "database": None, "log": None}
LENGTHENED_FILE = 250


def input_of(kind, files, number):
    """The bytes of the input of a number. It is made from one of the files, which are taken in turn."""
    changer = Changer(kind, files, number)
    data = bytearray(files[number % len(files)])
    times = LENGTHENED.get(kind, LENGTHENED_FILE)
    if times and changer.below(times) == 0:
        changer.change(data, 1)
        changer.lengthen(data)
    else:
        changer.change(data, MOST_CHANGES)
        if kind == "log" and changer.below(2) == 0:
            make_right(data)
    return data


class Changer:
    """The changes of one input."""

    def __init__(self, kind, files, number):
        self.kind = kind
        self.files = files
        self.random = random.Random(number).random
        self.words = WORDS.get(kind, FILE_WORDS)
        self.changes = DATABASE_CHANGES if kind in ("database", "log") else TEXT_CHANGES

    def below(self, limit):
        """The next number, below a limit. It is 0 if the limit is 0."""
        return int(self.random() * limit)

    def one_of(self, choices):
        return choices[self.below(len(choices))]

    def change(self, data, most):
        """Makes some changes, at most this many, or none."""
        for _ in range(self.below(self.below(most + 1) + 1)):
            self.one_of(self.changes)(self, data)

    def bit(self, data):
        at, bit = self.place(data), 1 << self.below(8)
        if at < len(data):
            data[at] ^= bit

    def byte(self, data):
        at, byte = self.place(data), self.one_of(BYTES)
        if at < len(data):
            data[at] = byte

    def put_in_bytes(self, data):
        """Puts in some bytes that have a meaning, or one that may be any byte and some of these."""
        at = self.place(data)
        drawn = bytes([self.below(256), *(self.one_of(BYTES) for _ in range(7))])
        data[at:at] = drawn[: self.below(8)]

    def put_in_piece(self, data):
        at, other = self.place(data), self.one_of(self.files)
        data[at:at] = other[self.range_in(other)]

    def put_in_word(self, data):
        at = self.place(data)
        data[at:at] = self.word()

    def take_out(self, data):
        del data[self.range_in(data)]

    def double(self, data):
        taken = self.range_in(data)
        data[taken.start : taken.start] = data[taken]

    def cut_off(self, data):
        del data[self.place(data) :]

    def other_word(self, data):
        data[self.field(data)] = self.word()

    def other_field(self, data):
        other = self.one_of(self.files)
        data[self.field(data)] = other[self.field(other)]

    def take_out_line(self, data):
        del data[self.line(data)]

    def double_line(self, data):
        line = self.line(data)
        data[line.start : line.start] = data[line]

    def put_in_line(self, data):
        line, other = self.line(data), self.one_of(self.files)
        data[line.start : line.start] = other[self.line(other)]

    def number(self, data):
        """Writes a number of four bytes over some bytes."""
        at = self.place(data)
        data[at : at + 4] = self.one_of(NUMBERS).to_bytes(4, "big")

    def overwrite(self, data):
        """Writes a piece of another file over some bytes."""
        at, other = self.place(data), self.one_of(self.files)
        piece = other[self.range_in(other)]
        data[at : at + len(piece)] = piece

    def other_page(self, data):
        """Writes a page over another."""
        data[self.page(data)] = data[self.page(data)]

    def page_of_other(self, data):
        """Writes a page of another file over the page at the same place."""
        page = self.page(data)
        data[page] = self.one_of(self.files)[page]

    def word(self):
        return self.one_of(self.words).encode()

    def range_in(self, data):
        """A range, mostly of a few bytes, and of no more bytes than may be put in."""
        start = self.place(data)
        most = MOST_BYTES if self.below(4) == 0 else 16
        return slice(start, start + self.below(min(len(data) - start, most) + 1))

    def field(self, data):
        """The field at a place, between the bytes that separate fields."""
        at = self.place(data)
        end = SEPARATOR.search(data, at)
        start = max(data.rfind(separator, 0, at) for separator in SEPARATORS) + 1
        return slice(start, end.start() if end else len(data))

    def line(self, data):
        """The line at a place, with its line end."""
        at = self.place(data)
        return slice(data.rfind(b"\n", 0, at) + 1, data.find(b"\n", at) + 1 or len(data))

    def page(self, data):
        """A page of a database, or of its log with its head."""
        head, size = (LOG_HEAD, FRAME_HEAD + PAGE) if self.kind == "log" else (0, PAGE)
        start = head + size * self.below((len(data) - head) // size)
        return slice(start, start + size)

    def place(self, data):
        """The place of a change. Late places in a text are more frequent than early ones, because a mistake at the beginning hides
        the rest. In a database or a log it is in a head, or at a byte that isn't 0."""
        if self.changes is TEXT_CHANGES:
            place = self.below(len(data) + 1)
            return place if self.below(4) == 0 else max(place, self.below(len(data) + 1))
        head, page_head = (LOG_HEAD, FRAME_HEAD) if self.kind == "log" else (100, 12)
        turn = self.below(8)
        if turn == 0:
            return min(self.below(head), len(data))
        if turn < 3:
            return min(self.page(data).start + self.below(page_head), len(data))
        for _ in range(64):
            place = self.below(len(data))
            if data[place : place + 1] != b"\0":
                break
        return place

    def lengthen(self, data):
        """Makes a file or a request about as long as it may be."""
        if self.kind != "request":
            if self.below(2) == 0:
                length = FILE_BYTES + self.below(2)
                data[:] = data.ljust(length, b"\n")[:length]
            else:
                self.repeat_row(data)
        else:
            end = data.find(b"\n") + 1 or len(data)
            if self.below(2) == 0:
                data[end:end] = b"a: " + b"a" * (HEAD_BYTES - 3 - self.below(200)) + b"\r\n"
            else:
                data[end:end] = b"a: b\r\n" * (HEADERS + self.below(6))

    def repeat_row(self, data):
        """Repeats the first row about as often as a file may have rows."""
        header, row, _ = (data + b"\n\n").split(b"\n", 2)
        start = len(header) + 1
        data += data[start : start + len(row) + 1] * (FILE_ROWS + self.below(20))


# The changes of texts, and those of databases and logs. Each is as frequent as it stands here.
TEXT_CHANGES = [
    *(Changer.bit, Changer.byte, Changer.put_in_bytes, Changer.put_in_piece, Changer.put_in_word, Changer.take_out, Changer.double),
    *[Changer.other_word] * 3,
    *[Changer.other_field] * 2,
    *(Changer.take_out_line, Changer.double_line, Changer.put_in_line, Changer.cut_off),
]
DATABASE_CHANGES = [
    *[Changer.bit, Changer.byte, Changer.number] * 3,
    *(Changer.overwrite, Changer.other_page, Changer.page_of_other, Changer.take_out, Changer.cut_off),
]


def make_right(log):
    """Makes the sums of a log right, and makes each of its pages one of this log."""
    order = ">" if log[3:4] == b"\x83" else "<"
    page = max(int.from_bytes(log[10:12], "big"), 512) if log[8:10] == b"\0\0" else PAGE
    sums = sums_over(order, log[:FRAME_HEAD], (0, 0))
    salt = log[SALT]
    if len(log) >= LOG_HEAD:
        log[FRAME_HEAD:LOG_HEAD] = struct.pack(">II", *sums)
    for at in range(LOG_HEAD, len(log) - FRAME_HEAD - page + 1, FRAME_HEAD + page):
        log[at + 8 : at + 16] = salt
        sums = sums_over(order, log[at : at + 8] + log[at + FRAME_HEAD : at + FRAME_HEAD + page], sums)
        log[at + 16 : at + FRAME_HEAD] = struct.pack(">II", *sums)


def sums_over(order, data, sums):
    """The two sums of a log after some more bytes."""
    first, second = sums
    words = iter(struct.unpack(f"{order}{len(data) // 8 * 2}I", data[: len(data) // 8 * 8]))
    for word, other in zip(words, words):
        first = (first + word + second) & 0xFFFFFFFF
        second = (second + other + first) & 0xFFFFFFFF
    return first, second
