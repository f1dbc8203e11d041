"""Damaged inputs through the built `hh_bench`: the short run of `tests/fuzz`; that each answer comes that can come; that inputs
are the same each time, and how they are made; and that what goes wrong is told by its number."""
import collections
import contextlib
import importlib.machinery
import importlib.util
import io
import pathlib
import random
import signal
import sqlite3
import subprocess
import sys
import tempfile
import unittest
import unittest.mock

import damaging
import fuzzing
from programs import BENCH, HOME, SETTLE, need

# How many inputs of a kind.
SHORT = dict.fromkeys(fuzzing.TEXT_KINDS, 3_000) | {"database": 132, "log": 40}
# The answers that come, for each kind of file and for the other inputs.
OF_EACH_FILE = {"answered", "refused 12", "refused 13", "refused 14"}
OF_SOME_FILE = {"refused 10", "refused 11"}
OF = {
    "request": {"answered", "closed", "refused 61", "refused 62", "refused 64", "refused 65", "refused 66"},
    "script": {"answered", "off"},
}

# A stand-in for `hh_bench`, whose inputs are their numbers: one input ends it, one takes too much processor time, one takes too
# long, one is answered wrongly, and one is answered otherwise the second time.
STAND_IN = """\
#!{python}
import os, sys, time
while head := sys.stdin.buffer.read(4):
    number = int(sys.stdin.buffer.read(int.from_bytes(head, "big")))
    sys.stdin.buffer.read(4)
    if number == 2:
        os.abort()
    while number == 4:
        pass
    if number == 20:
        time.sleep(60)
    print("refused 90 Memory" if number == 5 else "differs" if number == 6 else "answered 1", flush=True)
"""


def bench(*words, inputs=b""):
    """The status of `hh_bench` with these words, and what it wrote on standard output and on standard error."""
    done = subprocess.run([BENCH, *map(str, words)], input=inputs, capture_output=True)
    return done.returncode, done.stdout, done.stderr


def framed(*parts):
    """Inputs as `hh_bench answer` reads them."""
    return b"".join(len(part).to_bytes(4, "big") + part for part in parts)


def command():
    """The command `tests/fuzz`, as a module."""
    loader = importlib.machinery.SourceFileLoader("fuzz", str(HOME / "tests" / "fuzz"))
    module = importlib.util.module_from_spec(importlib.util.spec_from_loader("fuzz", loader))
    loader.exec_module(module)
    return module


class Fuzz(unittest.TestCase):
    @classmethod
    def setUpClass(cls):
        need(BENCH)
        need(SETTLE)
        room = tempfile.TemporaryDirectory()
        cls.addClassCleanup(room.cleanup)
        cls.room = room.name
        cls.found = {kind: fuzzing.Found(collections.Counter(), {}) for kind in fuzzing.KINDS}
        chunks = [chunk for kind, count in SHORT.items() for chunk in cls.chunks(kind, count)]
        for chunk, found in fuzzing.try_all(chunks):
            cls.found[chunk.kind].add(found)

    @classmethod
    def chunks(cls, kind, count):
        """The inputs of the short run, in a few more chunks than there are processors."""
        size = -(-count // 8)
        return [fuzzing.Chunk(kind, cls.room, first, min(size, count - first)) for first in range(0, count, size)]

    def test_each_promise_holds(self):
        for kind, found in self.found.items():
            with self.subTest(kind):
                self.assertEqual(found.wrong, {})

    def test_each_input_is_counted(self):
        for kind, count in SHORT.items():
            with self.subTest(kind):
                named = [number for answer, number in self.found[kind].answers.items() if len(answer.split()) <= 1 + answer.startswith("refused")]
                self.assertEqual(sum(named), count)

    def test_each_answer_comes(self):
        files = [set(self.found[kind].answers) for kind in fuzzing.FILE_KINDS]
        for kind, answers in zip(fuzzing.FILE_KINDS, files):
            with self.subTest(kind):
                self.assertLessEqual(OF_EACH_FILE, answers)
                self.assertLessEqual(answers, OF_EACH_FILE | OF_SOME_FILE)
        self.assertEqual(set().union(*files), OF_EACH_FILE | OF_SOME_FILE)
        for kind, answers in OF.items():
            with self.subTest(kind):
                self.assertEqual(set(self.found[kind].answers), answers)

    def test_databases_are_taken_over_and_refused(self):
        answers = set(self.found["database"].answers)
        self.assertLessEqual({"answered", "refused 91", "day answered", "day refused 63", "first run answered"}, answers)
        self.assertLessEqual({"later run answered", "later run refused 51", "load contracts refused 30"}, answers)

    def test_inputs_are_the_same_each_time(self):
        """Also if the databases are made again."""
        with tempfile.TemporaryDirectory() as other:
            for kind in fuzzing.KINDS:
                with self.subTest(kind):
                    first, again = (fuzzing.Corpus(kind, room) for room in (self.room, other))
                    for number in range(40):
                        self.assertEqual(first.parts(number), again.parts(number))

    def test_what_is_counted_is_what_the_program_reads(self):
        """`hh_bench read` tells about the bytes of an input what was counted."""
        damaged = pathlib.Path(self.room) / "damaged"
        for kind in fuzzing.FILE_KINDS:
            for number in range(16):
                with self.subTest(f"{kind} {number}"):
                    found = fuzzing.tried(fuzzing.Chunk(kind, self.room, number, 1))
                    damaged.write_bytes(fuzzing.corpus_of(kind, self.room).parts(number)[0])
                    read = bench("read", kind, damaged, 1)[1].split()
                    self.assertEqual(found.answers, {f"refused {read[1].decode()}" if read[0] == b"refused" else "answered": 1})

    def test_an_input_that_is_written_is_the_one_that_is_tried(self):
        for kind, part in ("prices", 0), ("database", 0), ("log", 1):
            with self.subTest(kind):
                words = [sys.executable, "-B", str(HOME / "tests" / "fuzz"), "--input", kind, "7"]
                written = subprocess.run(words, check=True, stdout=subprocess.PIPE).stdout
                self.assertEqual(written, fuzzing.corpus_of(kind, self.room).parts(7)[part])

    def test_what_is_answered(self):
        """Inputs without faults, as they come on standard input, and a last one that is cut."""
        prices = b"date,period,price\n2024-07-01,1,50\n"
        for words, inputs, answers in (
            (["prices"], framed(prices, b"", prices + b"x\n", b"", b"", b""), b"answered 1\nrefused 13 BadRecord row 2\nrefused 12 BadHeader\n"),
            (["request"], framed(b"", b"", b"GET / HTTP/1.0\r\n\r\n", b""), b"closed\nrefused 61\n"),
            (["script"], framed(b"serve 0 0 0\n\n", b"", b"", b"") + framed(b"serve")[:6], b"off 2\nanswered 0\n"),
            (["database"], b"", b""),
        ):
            with self.subTest(words):
                given = [*words, "0", pathlib.Path(self.room) / "question-00"] if words == ["database"] else words
                status, written, told = bench("answer", *given, inputs=inputs)
                self.assertEqual(written, answers)
                self.assertEqual((status, told), (1, b"fault input\n") if inputs[-2:] == b"se" else (0, b""))

    def test_wrong_words(self):
        for words in (["answer"], ["answer", "price"], ["answer", "prices", "0"], ["answer", "database"], ["answer", "database", "0"], ["log"], ["log", "a.db", "0"]):
            with self.subTest(words):
                status, written, told = bench(*words)
                self.assertEqual((status, written, told[:6]), (2, b"", b"usage:"))
        none = pathlib.Path(self.room) / "none"
        self.assertEqual(bench("answer", "database", 0, none), (1, b"", b"fault input\n"))
        self.assertEqual(bench("log", none), (1, b"", b"fault input\n"))


class Making(unittest.TestCase):
    """How inputs are made."""

    needs_programs = False

    def test_each_change(self):
        """Each leaves something else than there was, in more than one way."""
        texts = [b"a,b\nc,d\ne,f\n", b"GET /g HTTP/1.0\r\nh: i\r\n"]
        pages = [random.Random(number).randbytes(4 * (damaging.FRAME_HEAD + damaging.PAGE)) for number in range(2)]
        for kind, files, changes in (
            ("prices", texts, damaging.TEXT_CHANGES),
            ("database", pages, damaging.DATABASE_CHANGES),
            ("log", pages, damaging.DATABASE_CHANGES),
        ):
            for change in set(changes):
                with self.subTest(f"{kind} {change.__name__}"):
                    left = {bytes(self.changed(kind, files, change, number)) for number in range(100)}
                    self.assertGreater(len(left - set(files)), 2)

    def changed(self, kind, files, change, number):
        data = bytearray(files[number % 2])
        change(damaging.Changer(kind, files, number), data)
        return data

    def test_of_nothing(self):
        for kind in fuzzing.KINDS:
            for number in range(400):
                damaging.input_of(kind, [b""], number)

    def test_lengths(self):
        """An input is at most a little longer than it may be, and now and then it is about as long."""
        for kind, file in (("prices", b"date,period,price\n2024-07-01,1,50\n"), ("request", b"GET / HTTP/1.0\r\n\r\n")):
            lengths = [len(damaging.input_of(kind, [file], number)) for number in range(3_000)]
            with self.subTest(kind):
                self.assertTrue(any(length > {"prices": damaging.FILE_BYTES, "request": damaging.HEAD_BYTES}[kind] for length in lengths))

    def test_sums_of_a_log(self):
        """Those of a log that `sqlite3` has written are right. If the salt is changed, they are made right for it."""
        with tempfile.TemporaryDirectory() as room:
            path = pathlib.Path(room) / "a.db"
            with contextlib.closing(sqlite3.connect(path)) as connection:
                connection.execute("PRAGMA journal_mode = WAL")
                connection.execute("CREATE TABLE a (b INT)")
                log = pathlib.Path(f"{path}-wal").read_bytes()
                self.assertGreater(len(log), damaging.LOG_HEAD + damaging.FRAME_HEAD + damaging.PAGE)
                made = bytearray(log)
                damaging.make_right(made)
                self.assertEqual(made, log)
                made[16] ^= 1
                damaging.make_right(made)
                self.assertNotEqual(made[damaging.FRAME_HEAD : damaging.LOG_HEAD], log[damaging.FRAME_HEAD : damaging.LOG_HEAD])
                copy = pathlib.Path(room) / "copy.db"
                copy.write_bytes(path.read_bytes())
                pathlib.Path(f"{copy}-wal").write_bytes(made)
                with contextlib.closing(sqlite3.connect(copy)) as other:
                    self.assertEqual(other.execute("SELECT name FROM sqlite_schema").fetchall(), [("a",)])


class Answers(unittest.TestCase):
    """Which answers are wrong."""

    needs_programs = False

    def test_answers(self):
        rows = fuzzing.FILE_ROWS
        taken_over = [0] * (1 + len(fuzzing.QUESTIONS))
        for kind, data, line, counted in (
            ("prices", b"x", f"answered {rows}", ["answered"]),
            ("prices", b"x", f"answered {rows + 1}", None),
            ("prices", b"x", "refused 14 BadField row 1 column 6", ["refused 14"]),
            ("prices", b"x", "refused 14 BadField row 1 column 7", None),
            ("prices", b"x", "refused 14 BadField row 0 column 1", None),
            ("prices", b"x", "refused 14 BadField row 1", None),
            ("prices", b"x", "refused 14 BadField row 1 column 1 unit G1", None),
            ("prices", b"x", "refused 13 BadRecord row 1", ["refused 13"]),
            ("prices", b"x", f"refused 13 BadRecord row {rows + 1}", None),
            ("prices", b"x", "refused 12 BadHeader", ["refused 12"]),
            ("prices", b"x", "refused 12 BadHeader row 1", None),
            ("prices", b"x", "refused 10 FileTooLarge", None),
            ("prices", bytes(fuzzing.FILE_BYTES + 1), "refused 10 FileTooLarge", ["refused 10"]),
            ("prices", bytes(fuzzing.FILE_BYTES + 1), "refused 12 BadHeader", None),
            ("prices", b"x", "refused 90 Memory", None),
            ("request", b"", "closed", ["closed"]),
            ("request", b"x", "closed", None),
            ("request", b"x", "answered", ["answered"]),
            ("request", b"", "answered", None),
            ("request", b"x", "refused 66", ["refused 66"]),
            ("request", b"x", "refused 90", None),
            ("request", b"x", "unread", None),
            ("script", b"a\n", "answered 2", ["answered"]),
            ("script", b"a\n", "answered 3", None),
            ("script", b"a\n", "off 2", ["off"]),
            ("script", b"a\n", "off 0", None),
            ("database", b"", "[91]", ["refused 91"]),
            ("database", b"", "[90]", None),
            ("database", b"", str(taken_over[1:]), None),
            ("log", b"", str([0, 63, *taken_over[2:]]), None),
            *((kind, b"x", "differs", None) for kind in fuzzing.KINDS),
        ):
            with self.subTest(f"{kind} {line}"):
                self.assertEqual(fuzzing.answers_to(kind, data, line), counted)
        answers = fuzzing.answers_to("log", b"", str([0, 60, 63, *taken_over[3:]]))
        self.assertEqual(answers[:4], ["answered", "runs refused 60", "day refused 63", "results answered"])


class Blame(unittest.TestCase):
    """What `tests/fuzz` tells if a promise doesn't hold."""

    needs_programs = False

    def setUp(self):
        room = tempfile.TemporaryDirectory()
        self.addCleanup(room.cleanup)
        self.stand_in = pathlib.Path(room.name) / "stand_in"
        self.stand_in.write_text(STAND_IN.format(python=sys.executable))
        self.stand_in.chmod(0o755)
        self.enterContext(unittest.mock.patch.object(fuzzing, "BENCH", str(self.stand_in)))
        self.enterContext(unittest.mock.patch.object(fuzzing, "input_of", lambda kind, files, number: str(number).encode()))
        self.enterContext(unittest.mock.patch.object(fuzzing, "SECONDS", 1))

    def test_inputs_are_found_by_their_numbers(self):
        found = fuzzing.tried(fuzzing.Chunk("prices", "", 0, 8))
        self.assertEqual(found.answers, {"answered": 4})
        self.assertEqual(sorted(found.wrong), [2, 4, 5, 6])
        self.assertIn(f"status -{int(signal.SIGABRT)}", found.wrong[2])
        self.assertRegex(found.wrong[4], rf"status -({int(signal.SIGXCPU)}|{int(signal.SIGKILL)})")
        self.assertEqual(found.wrong[5], "answered 'refused 90 Memory'")
        self.assertEqual(found.wrong[6], "answered 'differs'")

    def test_an_input_that_is_awaited_no_longer(self):
        found = fuzzing.tried(fuzzing.Chunk("prices", "", 20, 1), patience=2)
        self.assertEqual((found.answers, list(found.wrong)), ({}, [20]))
        self.assertIn(fuzzing.TOO_LONG, found.wrong[20])

    def told(self, *words):
        """The status of the command, and its lines."""
        written = io.StringIO()
        with contextlib.redirect_stdout(written), unittest.mock.patch("programs.need"):
            status = command().main(words)
        return status, written.getvalue().splitlines()

    def test_what_the_command_tells(self):
        status, lines = self.told("prices", "--from", "5", "--count", "4")
        self.assertEqual(status, 1)
        self.assertRegex(lines[0], r"\Aprices +answered +2\Z")
        self.assertRegex(lines[1], r"\Aprices +input 5: answered 'refused 90 Memory'\Z")
        self.assertEqual(lines[2].split(), ["tests/fuzz", "--input", "prices", "5", ">", "damaged"])
        self.assertRegex(lines[3], r"\Aprices +input 6: answered 'differs'\Z")
        self.assertEqual(lines[5:], ["2 passed, 2 failed"])
        self.assertEqual(self.told("prices", "units", "--from", "7", "--count", "4")[1][-1], "8 passed, 0 failed")


if __name__ == "__main__":
    unittest.main()
