"""What people do with commands on an office in a database file: they call them at a terminal, press Ctrl-C, read only the first
line of a report, and send files by standard input. The terminal is a pseudo-terminal, and the script `settle` is in a small
repository. Its program is a stand-in that does what its words say, or the built one."""
import errno
import fcntl
import itertools
import os
import pty
import re
import select
import shlex
import signal
import subprocess
import sys
import termios
import time
import unittest

from programs import HOME, SETTLE, tool
from test_command_crashes import Ended
from test_commands import AtAFile, answer
from test_database import TODAY, content_of, rows_of
from test_desk import APPLIED, DAY, EARLY, END, LATE, LOADED, MARKET, OPERATOR, SETTLED, Desk, text_of
from test_reports import BALANCES, DAY_REPORT, RESULTS, balances, report
from test_wrapper import INTERRUPTS, OfTheScript, heed_signals

PATIENCE = 120
CTRL_C = b"\x03"
KEPT = "settle: interrupted; what was answered before is kept, and what wasn't may be asked again"
ANEW = "settle: interrupted; where other commands refuse the file by 91, take it away and begin anew"
ECHOED = "^C"
# How many times as fast as for a user the seconds of these tests go by. A wait of 4 takes one second, and the first line is
# shown after half a second.
PACE = 4
DELAYS = ("progress", "SHOWN_AFTER", 2.0), ("watching", "SHOWN_EVERY", 0.5)
# Does what its words say, one after the other. In what is written, `|` means the end of a line.
STAND_IN = """\
import os, signal, sys, time
for number in (signal.SIGINT, signal.SIGPIPE, signal.SIGXFSZ):
    signal.signal(number, signal.SIG_DFL)
for word in sys.argv[1:]:
    what, _, value = word.partition("=")
    if what in ("write", "tell"):
        os.write(1 + (what == "tell"), value.replace("|", os.linesep).encode())
    elif what == "process":
        os.write(1, f"{os.getpid()}.".encode())
    elif what == "wait":
        time.sleep(float(value) / PACE)
    elif what == "await":
        while not os.path.exists(value):
            time.sleep(0.01)
    elif what == "read":
        with open(sys.argv[3], "rb") as file:
            file.read(int(value))
    elif what == "keep":
        with open(os.devnull, "wb") as file:
            file.write(bytes(int(value)))
    elif what == "ignore":
        signal.signal(int(value), signal.SIG_IGN)
    elif what == "kill":
        os.kill(os.getpid(), int(value))
    elif what == "end":
        sys.exit(int(value))
"""


def screen_of(shown):
    """The lines that are on a terminal after it has shown this. A letter replaces the one that was at its place."""
    lines, place = [[]], 0
    for letter in shown.decode():
        if letter == "\r":
            place = 0
        elif letter == "\n":
            lines.append([])
        else:
            lines[-1][place : place + 1] = letter
            place += 1
    return ["".join(line).rstrip() for line in lines]


class AtATerminal(OfTheScript):
    """A test that calls the script at a terminal."""

    needs_programs = True

    def setUp(self):
        super().setUp()
        self.out.mkdir()
        self.office = self.room / "office"
        self.stand_in = self.room / "stand-in"
        self.go_at(PACE)
        self.does()

    def go_at(self, pace):
        """Has the script of this repository, and the stand-in, go at this pace."""
        for module, name, seconds in DELAYS:
            text = (HOME / "tools" / f"{module}.py").read_text(encoding="utf-8")
            self.assertEqual(text.count(f"{name} = {seconds} "), 1)
            (self.home / "tools" / f"{module}.py").write_text(text.replace(f"{name} = {seconds} ", f"{name} = {seconds / pace} "))
        self.stand_in.write_text(STAND_IN.replace("PACE", str(pace)))

    def does(self, *acts):
        """Makes the stand-in the program. It does what its words say, and then this."""
        self.use(f'exec "{sys.executable}" -ISB "{self.stand_in}" "$@" {shlex.join(acts)}')

    def use(self, line):
        """Makes a line of shell the program, as if it had been built from the sources that are there."""
        program = self.out / "hh_settle"
        program.write_text(f"#!/bin/sh\n{line}\n")
        program.chmod(0o755)
        script = tool("sources", self.home)
        script["mark_built"](script["sum_of_sources"]())

    def begin(self, *words, before=(), turned_off=(), **streams):
        """Begins a call at a new terminal. Its streams are the terminal, unless something else is given."""
        terminal, end = pty.openpty()
        self.terminal, self.shown = open(terminal, "r+b", buffering=0), b""

        def take():
            heed_signals()
            for number in turned_off:
                signal.signal(number, signal.SIG_IGN)
            fcntl.ioctl(end, termios.TIOCSCTTY, 0)

        how = {"stdin": end, "stdout": end, "stderr": end, **streams}
        call = [*before, self.home / "settle", *map(str, words)]
        self.begun = subprocess.Popen(call, env=self.environment(), start_new_session=True, preexec_fn=take, **how)
        os.close(end)
        for clean in (self.terminal.close, self.begun.wait, self.begun.kill):
            self.addCleanup(clean)

    def on_office(self, command, *acts, **how):
        """Begins a command on a database file, by the stand-in."""
        self.begin(command, "--db", self.office, *acts, **how)

    def read_until(self, wanted=None, behind=0):
        """Reads what is shown until it contains this, after a number of bytes, or until all processes at the terminal have
        ended."""
        until = time.monotonic() + PATIENCE
        while wanted is None or wanted not in self.shown[behind:]:
            left = until - time.monotonic()
            self.assertGreater(left, 0, self.shown)
            if select.select([self.terminal], [], [], left)[0]:
                try:
                    self.shown += self.terminal.read(65_536)
                except OSError:  # they have ended
                    self.assertIsNone(wanted, self.shown)
                    return

    def ends(self, status, *lines):
        """The call ends with this status, and then these lines are on the terminal."""
        self.read_until()
        self.assertEqual(self.begun.wait(timeout=PATIENCE), status, self.shown)
        self.assertEqual(screen_of(self.shown), [*lines, ""])

    def told(self):
        """The lines that told how far the call was."""
        return re.findall(rb"settle: [^\r]*", self.shown)

    def stages(self):
        """The same without seconds, each once."""
        told = [re.sub(r", [0-9]+ s\Z", "", line.decode().removeprefix("settle: ")) for line in self.told()]
        return [stage for stage, _ in itertools.groupby(told)]


class Shown(AtATerminal):
    """One line of the terminal tells how far a command is while it runs, and is gone in the end."""

    def test_a_short_command(self):
        self.go_at(1)
        for status in (0, 1, 2):
            self.on_office("report", "write=hello|", "tell=there|", f"end={status}")
            self.ends(status, "hello", "there")
            self.assertEqual(self.shown, b"hello\r\nthere\r\n")

    def test_a_long_command(self):
        self.on_office("load", "wait=5", "write=hello|", "end=1")
        self.ends(1, "hello")
        self.assertGreater(len(self.told()), 1)
        for line in self.told():
            self.assertRegex(line, rb"\Asettle: at work, [0-9]+ s\Z")

    def test_a_command_that_stops(self):
        self.on_office("run", "wait=4", "tell=refused 91 Store|", "end=1")
        self.ends(1, "refused 91 Store")
        self.assertTrue(self.told())

    def test_an_output_that_is_another(self):
        with open(self.room / "output", "wb") as output:
            self.on_office("report", "wait=4", "write=hello|", "end=0", stdout=output)
        self.ends(0)
        self.assertTrue(self.told())
        self.assertEqual((self.room / "output").read_bytes(), b"hello\n")

    def test_what_is_read_and_written(self):
        """First a part of the file is read, and then all. A busy machine may show less of the part first."""
        with open(self.office, "wb") as file:
            file.truncate(80_000_000)
        self.on_office("load", "read=40000000", "wait=4", "read=60000000", "wait=2", "keep=7000000", "wait=2", "write=hello|")
        self.ends(0, "hello")
        told = b"|".join(self.told())
        less, reading = (rb"settle: reading the file, [0-9]+ s, %b\.[0-9] MB of 80\.0 MB" % read for read in (b"[0-9]+", b"4[0-9]"))
        working, writing = rb"settle: at work, [0-9]+ s", rb"settle: at work, [0-9]+ s, 7\.0 MB written"
        self.assertRegex(told, rb"\A(%b\|)*%b(\|%b)*(\|%b)+(\|%b)+\Z" % (less, reading, reading, working, writing))

    def test_lines_of_a_script(self):
        acts = "write=one|", "wait=1", "write=two|three|", "wait=3", "write=four|", "wait=1", "tell=five|"
        self.on_office("script", *acts)
        self.ends(0, "one", "two", "three", "four", "five")
        self.assertRegex(self.shown, rb"\Aone\r\ntwo\r\nthree\r\nsettle: at work, [0-9]+ s")

    def test_a_line_that_is_not_ended(self):
        """Nothing is shown in the middle of it."""
        self.on_office("report", "write=half a", "wait=3", "write= line|")
        self.ends(0, "half a line")
        self.assertEqual(self.told(), [])

    def test_a_service(self):
        """Nothing is shown once it listens. Nothing is shown either if that can't be seen."""
        self.on_office("serve", "wait=4", "write=listening 127.0.0.1:8080|", "wait=3", "tell=x|")
        self.ends(0, "listening 127.0.0.1:8080", "x")
        self.assertRegex(self.shown, rb"\A(settle: at work, [0-9]+ s\r *\r)+listening 127\.0\.0\.1:8080\r\nx\r\n\Z")
        self.on_office("serve", "wait=4", "write=listening 127.0.0.1:8080|", stdout=subprocess.DEVNULL)
        self.ends(0)
        self.assertEqual(self.shown, b"")

    def test_what_may_be_typed(self):
        """Nothing is shown between the letters of a file that is typed."""
        self.on_office("script", "/dev/stdin", "wait=4", "write=hello|")
        self.ends(0, "hello")
        self.assertEqual(self.told(), [])

    def test_a_command_in_the_background(self):
        """Nothing is shown for it, because its user is typing."""
        self.on_office("load", "wait=4", "write=hello|", before=["bash", "-c", 'set -m; "$0" "$@" & wait'])
        self.read_until()
        self.assertTrue(self.shown.startswith(b"hello\r\n"), self.shown)  # (bash tells behind it that it was done)

    def test_a_narrow_terminal(self):
        """The line does not take a second one."""
        self.on_office("load", "wait=4", "write=hello|")
        fcntl.ioctl(self.terminal, termios.TIOCSWINSZ, b"\x18\0\x0c\0\0\0\0\0")  # 24 lines of 12 letters
        self.ends(0, "hello")
        self.assertEqual(set(self.told()), {b"settle: at "})


# The lines of a script, which are loads, runs and reports. Some are refused.
LINES = [
    f"load {EARLY} {OPERATOR} parties rows/parties.csv",
    f"load {EARLY} {OPERATOR} meters rows/m2.csv",
    f"run {END} {OPERATOR} {DAY} SF",
    f"run {END} {OPERATOR} {DAY} R1",
    report("day"),
    report("csv"),
    balances(),
    report("day", "R1"),
    f"load {EARLY} {OPERATOR} prices rows/prices.csv",
    balances(),
]
# What is shown while nothing comes, and what comes then.
STAGES = [
    ("line 1 of 10, load parties rows/parties.csv", "applied=2 late=0|"),
    ("line 2 of 10, load meters rows/m2.csv", "refused 14 BadField row 3 column 4|"),
    (f"line 3 of 10, run {DAY} SF", f"{SETTLED}|refused 53 MissingPrice period 1|"),
    (f"line 5 of 10, report day {DAY} SF", f"DAY REPORT {DAY} SF|PER ACCOUNT  CREDITED|  1 GENCO-P  99.5|"),
    (f"line 5 of 10, report day {DAY} SF", "  1 RESIDUAL  0|NET GENCO-P  0|END|"),
    (f"line 6 of 10, report csv {DAY} SF", f"date,kind,account,period|{DAY},SF,GENCO-P,1|"),
    (f"line 6 of 10, report csv {DAY} SF, or the next", f"{DAY},SF,GENCO-P,2|account,moved_pence|GENCO-P,0|"),
    ("line 7 of 10, report balances, or the next", "refused 63 NoRun|"),
    ("line 9 of 10, load prices rows/prices.csv", "fault file|"),
    ("line 10 of 10, report balances", "account,moved_pence|GENCO-P,-38|"),
    ("line 10 of 10, report balances", "GENCO-C,0|"),
]
FIRST, SECOND = STAGES[:2]


class ShownOfAScript(AtATerminal):
    """For a script, the terminal shows which line is at work, given what the program has answered."""

    def setUp(self):
        super().setUp()
        self.script = self.room / "script"
        self.in_memory = "script", "--operator-key", OPERATOR, self.script
        self.at_a_file = "script", "--db", self.office, self.script
        self.give(*LINES)

    def give(self, *lines):
        """Gives the script these lines."""
        self.script.write_text("".join(f"{line}\n" for line in lines))

    def goes_through(self, words, *stages, **streams):
        """Begins a call whose program writes the text of each stage after the stage was shown. Nothing else is shown, and no
        key."""
        steps = [self.room / f"step{number}" for number, _ in enumerate(stages)]
        acts = [(f"await={step}", f"write={text}") for step, (_, text) in zip(steps, stages)]
        self.does(*itertools.chain(*acts))
        self.begin(*words, **streams)
        place = 0
        for step, (stage, _) in zip(steps, stages):
            self.read_until(f"settle: {stage}, ".encode(), place)
            place = len(self.shown)
            step.touch()
        written = "".join(text for _, text in stages).replace("|", "\n")
        self.ends(0, *([] if "stdout" in streams else written.splitlines()))
        self.assertEqual(self.stages(), [stage for stage, _ in itertools.groupby(stage for stage, _ in stages)])
        self.assertNotIn(OPERATOR.encode(), self.shown)
        for step in steps:
            step.unlink()
        return written

    def open_output(self, how):
        """A file that has a line already, and is written after it."""
        path = self.room / "output"
        path.write_text("before\n")
        output = os.open(path, os.O_WRONLY | how)
        self.addCleanup(os.close, output)
        if how != os.O_APPEND:
            os.lseek(output, 0, os.SEEK_END)
        return output

    def test_loads_runs_and_reports(self):
        self.goes_through(self.in_memory, *STAGES)

    def test_a_database_file(self):
        self.goes_through(self.at_a_file, *STAGES[:3])

    def test_answers_that_go_into_a_file(self):
        """They are noticed there, after what the file had."""
        for how in (0, os.O_APPEND):
            written = self.goes_through(self.in_memory, *STAGES[:4], stdout=self.open_output(how))
            self.assertEqual((self.room / "output").read_text(), f"before\n{written}")

    def test_what_goes_beside_a_file(self):
        """It is not an answer."""
        self.does("write=applied=2 late=0|", "tell=hello|", "wait=4")
        self.begin(*self.in_memory, stdout=self.open_output(0))
        self.ends(0, "hello")
        self.assertEqual(self.stages(), [SECOND[0]])

    def test_seconds(self):
        """They count the time of the line."""
        self.go_at(1)
        self.does("wait=5", "write=applied=2 late=0|", "wait=2")
        self.begin(*self.in_memory)
        self.ends(0, "applied=2 late=0")
        first, second = ([line for line in self.told() if b"line %d of 10" % number in line] for number in (1, 2))
        self.assertRegex(first[-1], rb", [45] s\Z")
        self.assertRegex(second[0], rb", [012] s\Z")

    def test_a_short_script(self):
        self.go_at(1)
        self.does("wait=0.7", "write=applied=2 late=0|", "end=1")
        self.begin(*self.in_memory)
        self.ends(1, "applied=2 late=0")
        self.assertEqual(self.told(), [])

    def test_a_file_that_is_read_first(self):
        self.office.write_bytes(bytes(80_000_000))
        self.does("read=40000000", "wait=4", "read=60000000", "wait=2")
        self.begin(*self.at_a_file)
        self.ends(0)
        stages = self.stages()
        self.assertRegex("|".join(stages), r"(\A|\|)reading the file, [0-9]+ s, 4[0-9]\.[0-9] MB of 80\.0 MB\|")
        self.assertEqual(stages[-1], FIRST[0])

    def test_a_file_that_has_grown(self):
        """After a line was answered its file was read, although it may have more bytes by now than were read."""
        self.office.write_bytes(bytes(80_000_000))
        self.does("write=applied=2 late=0|", "wait=4")
        self.begin(*self.at_a_file)
        self.ends(0, "applied=2 late=0")
        self.assertEqual(self.stages(), [SECOND[0]])

    def test_a_line_that_serves(self):
        """Nothing is shown while it awaits connections. The lines after it are counted correctly."""
        self.give(f"serve {EARLY} 0 2", *LINES[2:4])
        listening, served = "listening 127.0.0.1:8080", self.room / "served"
        for streams in ({}, {"stdout": self.open_output(0)}):
            self.does("wait=4", f"write={listening}|", f"await={served}", f"write={SETTLED}|", "wait=2")
            self.begin(*self.in_memory, **streams)
            self.read_until(b"settle: line 1 of 3")
            time.sleep(4 / PACE)
            self.shown += self.terminal.read(65_536)
            self.assertEqual(screen_of(self.shown), [*([] if streams else [listening]), ""])
            served.touch()
            self.ends(0, *([] if streams else [listening, SETTLED]))
            self.assertEqual(self.stages(), ["line 1 of 3, serve 0", f"line 3 of 3, run {DAY} R1"])
            served.unlink()

    def test_explanations(self):
        """What standard error has beside the answers isn't counted."""
        explained = "line 1: rows/parties.csv: late: rows 2"
        self.does("write=applied=1 late=1|", f"tell={explained}|", "wait=4")
        self.begin(*self.in_memory, "--explain")
        self.ends(0, "applied=1 late=1", explained)
        self.assertEqual(self.stages(), [SECOND[0]])

    def test_an_answer_that_is_not_understood(self):
        """After that no line is shown."""
        for words in (self.in_memory, self.at_a_file):
            self.goes_through(words, (FIRST[0], "hello|"), ("at work", "applied=2 late=0|"), ("at work", ""))

    def test_a_line_that_is_off_its_form(self):
        self.give(f"load {OPERATOR} {EARLY} meters rows/m2.csv")
        self.goes_through(self.at_a_file, ("at work", ""))

    def test_paths(self):
        """Only printable letters are shown, and only the end of a long path."""
        for path, shown in (("r\x1b[2Jö.csv", "r?[2J??.csv"), ("a/" * 30 + "b.csv", ".." + "/a" * 11 + "/b.csv")):
            self.give(f"load {EARLY} {OPERATOR} meters {path}")
            self.goes_through(self.in_memory, (f"line 1 of 1, load meters {shown}", ""))

    def test_a_file_that_may_be_typed(self):
        """Nothing is shown if a line of the script reads it."""
        self.give(*LINES, f"load {EARLY} {OPERATOR} prices /dev/stdin")
        for words in (self.in_memory, self.at_a_file):
            self.does("wait=4")
            self.begin(*words)
            self.ends(0)
            self.assertEqual(self.shown, b"")

    def test_a_script_that_is_no_file(self):
        """Only the program reads it, and no line is shown. The stand-in never opens the pipe."""
        pipe = self.room / "pipe"
        os.mkfifo(pipe)
        for path in ("/dev/stdin", pipe):
            with open(self.script, "rb") as file:
                self.goes_through(("script", "--db", self.office, path), ("at work", "hello|"), stdin=file)
            self.is_taken_over("script", "--operator-key", OPERATOR, path)

    def test_a_script_that_is_too_long(self):
        self.give(*LINES[:1] * 320_000)
        self.assertGreater(self.script.stat().st_size, 16_777_216)
        self.is_taken_over(*self.in_memory)

    def is_taken_over(self, *words, **streams):
        """The program replaces the process, and nothing is shown."""
        self.does("wait=4" if "stdout" in streams else "wait=0", "process", "write=ended|")
        self.begin(*words, **streams)
        self.read_until()
        self.assertEqual(self.begun.wait(timeout=PATIENCE), 0)
        self.assertEqual(self.shown, b"" if "stdout" in streams else f"{self.begun.pid}.ended\r\n".encode())

    def test_no_terminal(self):
        """The same if the answers can't be seen."""
        self.is_taken_over(*self.in_memory, stderr=subprocess.DEVNULL)
        self.is_taken_over(*self.in_memory, stdout=subprocess.DEVNULL)
        self.does("wait=4", "write=hello|", "end=1")
        for words in (self.in_memory, self.at_a_file):
            self.assertEqual(self.call(*map(str, words)), (1, b"hello\n", ""))

    def test_ctrl_c(self):
        """The office is in memory, so nothing is told about what is kept."""
        self.does("write=applied=2 late=0|", "wait=60")
        self.begin(*self.in_memory)
        self.read_until(b"settle: line 2 of 10")
        self.terminal.write(CTRL_C)
        self.ends(-signal.SIGINT, "applied=2 late=0")
        self.assertNotIn(b"interrupted", self.shown)


class Counted(unittest.TestCase):
    """How the words of a script are read, and which line is at work, given what the program wrote."""

    def setUp(self):
        self.settle = {**tool("command_words"), **tool("script_lines"), **tool("progress")}

    def count(self, lines, written, size=65_536):
        """Takes in what was written, in pieces of this size. Returns the line that is shown, without seconds."""
        script = self.settle["Script"]("\n".join(lines).encode(), None)
        progress = self.settle["Progress"](os.getpid(), ["script", "x"], script)
        for place in range(0, len(written), size):
            progress.hear(written[place : place + size].encode())
        return script.shown and re.sub(r", [0-9]+ s\Z", "", script.line().removeprefix("settle: "))

    def test_words(self):
        path = "x.script"
        for words in (
            ["script", "--db", "office", path],
            ["script", path, "--db=office"],
            ["script", "--operator-key", OPERATOR, "--lead-minutes", "60", path],
            ["script", f"--operator-key={OPERATOR}", "--lead-minutes=60", "--explain", "--strict", path],
            ["--explain", "script", "--strict", path, "--operator-key-file", "key"],
            ["script", "--operator-key-file=key", "--", path],
        ):
            self.assertEqual(self.settle["placed_words"](words), ["script", path], words)
        self.assertEqual(self.settle["placed_words"](["script", "--", "--db"]), ["script", "--db"])
        for words in (["script"], ["script", "--db"], ["script", HOME / "settle", "x"], ["run", HOME / "settle"]):
            self.assertIsNone(self.settle["script_of"](list(map(str, words))))

    def test_whole_reports(self):
        """A report counts as one answer, however it is cut."""
        lines = [report("day"), report("csv"), balances(), report("day"), report("csv"), report("csv"), balances(), LINES[0]]
        written = DAY_REPORT + RESULTS + BALANCES + DAY_REPORT + RESULTS + RESULTS + BALANCES
        for size in (1, 10, 100, 1000, 65_536):
            self.assertEqual(self.count(lines, written, size), "line 7 of 8, report balances, or the next")
            self.assertEqual(self.count(lines, f"{written}{LATE}\n", size), None)
        self.assertEqual(self.count(lines, DAY_REPORT[:-1]), f"line 1 of 8, report day {DAY} SF")
        self.assertEqual(self.count(lines, DAY_REPORT), f"line 2 of 8, report csv {DAY} SF")
        self.assertEqual(self.count(lines, DAY_REPORT + RESULTS[:-1]), f"line 2 of 8, report csv {DAY} SF, or the next")

    def test_what_ends_a_report_that_has_no_end(self):
        for line, text in (
            (LINES[0], APPLIED),
            (LINES[0], "fault file"),
            (LINES[0], "refused 20 FileChanged"),
            (LINES[2], SETTLED),
            (LINES[2], "refused 51 NoInitialRun"),
            ("serve 0 0 0", "listening 127.0.0.1:1"),
            ("serve 0 0 0", "fault socket"),
            (report("day"), "refused 63 NoRun"),
            (report("day"), DAY_REPORT[:-1]),
        ):
            for first, written in ((report("csv"), RESULTS), (balances(), BALANCES)):
                lines = [first, line, LINES[1]]
                self.assertEqual(self.count(lines, f"{written}{text}\n"), "line 3 of 3, load meters rows/m2.csv", text)

    def test_reports_that_are_given_up(self):
        """They end with the refusal in the middle of a line. After a whole line, the refusal may belong to the next line."""
        told = "refused 91 Store\n"
        for line, written in ((report("day"), DAY_REPORT), (report("csv"), RESULTS), (balances(), BALANCES)):
            lines, whole = [line, LINES[1]], written.index("\n", len(written) // 2) + 1
            self.assertEqual(self.count(lines, told), "line 2 of 2, load meters rows/m2.csv")
            self.assertEqual(self.count(lines, written[: whole + 5] + told), "line 2 of 2, load meters rows/m2.csv")
        self.assertEqual(self.count(lines, BALANCES + told), None)
        self.assertEqual(self.count([report("day"), LINES[1]], f"DAY REPORT {DAY} SF\n{told}"), "line 2 of 2, load meters rows/m2.csv")

    def test_answers_of_other_lines(self):
        """They aren't understood."""
        others = {
            LINES[0]: [SETTLED, "listening 127.0.0.1:1", "account,moved_pence", "", "line 1 is off its form"],
            LINES[2]: [APPLIED, SETTLED.replace("SF", "R1"), f"DAY REPORT {DAY} SF", "run"],
            report("day"): [APPLIED, SETTLED, f"DAY REPORT {DAY} R1", "END", f"DAY REPORT {DAY} SF\n{APPLIED}"],
            balances(): ["date,kind,account,period", "account,moved_pence\nhello", f"account,moved_pence\n{SETTLED}"],
        }
        for line, texts in others.items():
            for text in texts:
                self.assertIsNone(self.count([line, LINES[0]], f"{text}\n"), text)

    def test_explanations(self):
        told = "refused 14 BadField row 1 column 1\nline 1: x.csv: row 1 is line 2 of the file; column 1\n"
        self.assertEqual(self.count(LINES[:3], told + APPLIED + "\n"), f"line 3 of 3, run {DAY} SF")

    def test_lines_that_are_off_their_form(self):
        """If words are in the wrong places, a key might be shown."""
        for line in (
            "",
            "load",
            f"load {EARLY} parties {OPERATOR} x.csv",
            f"load {EARLY} x.csv parties {OPERATOR}",
            f"load {EARLY} {OPERATOR}  parties x.csv",
            f"load {EARLY} {OPERATOR} parties x.csv ",
            f"run {END} {DAY} {OPERATOR} SF",
            f"run {END} {OPERATOR} {DAY} S1",
            f"report {OPERATOR} day {DAY}",
            f"report balances {OPERATOR}",
            f"report {OPERATOR} balances {DAY} SF",
            f"serve {EARLY} {OPERATOR} 1",
        ):
            self.assertIsNone(self.count([line], ""), line)


class CountedOffice(Desk):
    """What the built program writes is understood, line by line."""

    def test_a_script(self):
        wrong = [self.load("prices", ["x"], "wrong.csv"), f"load {EARLY} {OPERATOR} prices {self.room}/missing.csv"]
        reports = [report("day"), report("csv"), report("csv"), balances(), report("day", "R2"), balances()]
        lines = [*self.market(), *wrong, self.order("SF"), self.order("R2", EARLY), *reports, f"serve {END} 0 0", self.dearer()]
        status, written, told = self.run_script("".join(f"{line}\n" for line in lines))
        self.assertEqual((status, told), (0, b""))
        script = tool("script_lines")["Script"]("\n".join(lines).encode(), None)
        for line in written.decode().splitlines():
            self.assertIsNotNone(script.shown, line)
            script.hear(line)
        self.assertEqual(script.number, len(lines) + 1)


class NotShown(AtATerminal):
    """In all other cases the program replaces the process, and nothing is added."""

    def test_no_terminal(self):
        self.assertEqual(self.call("load", "--db", str(self.office), "wait=4", "write=hello|", "end=1"), (1, b"hello\n", ""))

    def is_the_program(self, *words, **streams):
        self.begin(*words, "process", "write=ended|", **streams)
        self.read_until()
        self.assertEqual(self.begun.wait(timeout=PATIENCE), 0)
        return f"{self.begun.pid}.ended".encode()

    def test_the_process_is_the_programs(self):
        """If standard error is no terminal, if no database is named, and if two terminals are written to."""
        on_office = "report", "--db", str(self.office)
        self.assertNotIn(self.is_the_program(*on_office), self.shown)
        self.assertNotIn(self.is_the_program("report", f"--db={self.office}"), self.shown)
        self.assertIn(self.is_the_program(*on_office, stderr=subprocess.DEVNULL), self.shown)
        self.assertIn(self.is_the_program("period", "--dbx", "x"), self.shown)
        other, end = pty.openpty()
        process = self.is_the_program(*on_office, stdout=end)
        os.close(end)
        self.assertIn(process, os.read(other, 4096))
        os.close(other)

    def test_no_terminal_is_interrupted(self):
        begun = self.start("load", "--db", self.office, "write=one|", "wait=60")
        self.assertEqual(begun.stdout.readline(), "one\n")
        begun.send_signal(signal.SIGINT)
        self.assertEqual(begun.communicate(timeout=PATIENCE), ("", ""))
        self.assertEqual(begun.returncode, -signal.SIGINT)


class Interrupted(AtATerminal):
    """At a terminal, a command that is interrupted tells so, once, after the program has ended."""

    def ends_interrupted(self, number, *lines):
        self.ends(-number, *lines)
        self.assertEqual(self.shown.count(b"interrupted"), 1)

    def test_ctrl_c(self):
        self.on_office("load", "process", "write=|", "wait=60")
        self.read_until(b"\n")
        process = int(self.shown.partition(b".")[0])
        self.terminal.write(CTRL_C)
        self.ends_interrupted(signal.SIGINT, f"{process}.", KEPT)
        self.assertRaises(ProcessLookupError, os.kill, process, 0)

    def test_while_it_is_shown_how_far_it_is(self):
        self.on_office("load", "wait=60")
        self.read_until(b"settle: at work, ")
        self.terminal.write(CTRL_C)
        self.ends_interrupted(signal.SIGINT, KEPT)

    def test_in_the_midst_of_a_line(self):
        self.on_office("report", "write=one|half a line", "wait=60")
        self.read_until(b"half a line")
        self.terminal.write(CTRL_C)
        self.ends_interrupted(signal.SIGINT, "one", f"half a line{ECHOED}", KEPT)

    def test_each_signal(self):
        """It is sent only to the script, which passes it on."""
        for number in INTERRUPTS:
            self.on_office("serve", "write=listening 127.0.0.1:1|", "wait=60")
            self.read_until(b":1\r\n")
            self.begun.send_signal(number)
            self.ends_interrupted(number, "listening 127.0.0.1:1", KEPT)

    def test_a_new_office(self):
        self.on_office("init", "write=|", "wait=60")
        self.read_until(b"\n")
        self.terminal.write(CTRL_C)
        self.ends_interrupted(signal.SIGINT, "", ANEW)

    def test_a_command_that_was_done(self):
        """It has answered, so its status is returned and no interrupt is told."""
        for status in (0, 1):
            self.on_office("load", f"ignore={signal.SIGINT:d}", "write=one|", "wait=1", "write=two|", f"end={status}")
            self.read_until(b"one")
            self.terminal.write(CTRL_C)
            self.read_until()
            self.assertEqual(self.begun.wait(timeout=PATIENCE), status)
            self.assertIn(b"two\r\n", self.shown)
            self.assertNotIn(b"interrupted", self.shown)

    def test_signals_that_are_turned_off(self):
        """As nohup does it."""
        self.on_office("load", "write=one|", "wait=1", "write=two|", turned_off=INTERRUPTS)
        self.read_until(b"one")
        for number in INTERRUPTS:
            self.begun.send_signal(number)
        self.ends(0, "one", "two")

    def test_other_signals(self):
        for number in (signal.SIGPIPE, signal.SIGXFSZ, signal.SIGUSR1, signal.SIGKILL):
            self.on_office("load", "write=one|", f"kill={number:d}")
            self.ends(-number, "one")

    def test_signals_are_as_a_shell_leaves_them(self):
        """Python turns off some signals, only for itself."""
        for name in ("PIPE", "XFSZ"):
            self.use(f"kill -{name} $$\necho on")
            self.on_office("load")
            self.ends(-getattr(signal, f"SIG{name}"))

    def test_a_terminal_that_goes_away(self):
        """The program ends, and so does the script."""
        self.on_office("load", "process", "write=|", "wait=60")
        self.read_until(b"\n")
        process = int(self.shown.partition(b".")[0])
        self.terminal.close()
        self.assertEqual(self.begun.wait(timeout=PATIENCE), -signal.SIGHUP)
        self.assertRaises(ProcessLookupError, os.kill, process, 0)


class Awaited(AtAFile):
    """A test whose commands wait for bytes from a file, which is a named pipe."""

    def setUp(self):
        super().setUp()
        self.init_market()
        self.before = content_of(self.database)
        self.rows = text_of("prices", [f"{DAY},1,60.00000"])
        self.awaited = self.room / "p2.csv"
        os.mkfifo(self.awaited)
        self.words = ["load", "--db", str(self.database), "--key", OPERATOR, f"--at={EARLY}", "prices", str(self.awaited)]

    def give_a_part(self, begun):
        """Waits until the command reads the file, and gives it a part of the bytes."""
        while True:
            try:
                self.giving = os.open(self.awaited, os.O_WRONLY | os.O_NONBLOCK)
                break
            except OSError as error:
                self.assertEqual(error.errno, errno.ENXIO)
                self.assertIsNone(begun.poll())
                time.sleep(0.01)
        self.addCleanup(os.close, self.giving)
        os.write(self.giving, self.rows[:20])
        while self.is_unread():
            self.assertIsNone(begun.poll())
            time.sleep(0.01)

    def is_unread(self):
        """Whether bytes are left in the pipe."""
        held = bytearray(4)
        fcntl.ioctl(self.giving, termios.FIONREAD, held)
        return any(held)

    def has(self, content):
        """The file is sound, and has these rows."""
        self.is_sound()
        self.assertEqual(content_of(self.database), content)

    def is_done_again(self):
        """The same command is done, now that the whole file is there."""
        self.awaited.unlink()
        self.awaited.write_bytes(self.rows)
        for _ in range(2):
            self.assertEqual(self.command(self.words[0], *self.words[3:]), answer(APPLIED))
            self.is_sound()
        self.assertIn((TODAY, 1, 6_000_000), rows_of(self.database, "prices"))


class InterruptedOffice(AtATerminal, Awaited):
    """The built program is interrupted, at a terminal under the script."""

    def setUp(self):
        Awaited.setUp(self)
        AtATerminal.setUp(self)
        self.use(f'exec "{SETTLE}" "$@"')

    def test_a_load(self):
        self.begin(*self.words)
        self.give_a_part(self.begun)
        self.read_until(b"settle: at work, ")
        self.terminal.write(CTRL_C)
        self.ends(-signal.SIGINT, KEPT)
        self.assertEqual(self.shown.count(b"interrupted"), 1)
        self.has(self.before)
        self.is_done_again()

    def test_a_script(self):
        """The lines that were answered are kept, and answered as before."""
        kind, rows = "prices", [f"{DAY},2,1.00000"]
        lines = [self.load(kind, rows, "answered.csv"), f"load {EARLY} {OPERATOR} prices {self.awaited}", balances()]
        script = self.file("script", "".join(f"{line}\n" for line in lines))
        self.begin("script", "--db", self.database, script)
        self.give_a_part(self.begun)
        self.read_until(b"settle: line 2 of 3, load prices ")
        self.terminal.write(CTRL_C)
        self.ends(-signal.SIGINT, APPLIED, KEPT)
        self.is_sound()
        self.assertIn((TODAY, 2, 100_000), rows_of(self.database, "prices"))
        self.assertIn((TODAY, 1, 5_000_000), rows_of(self.database, "prices"))
        self.is_done_again()
        written = f"{APPLIED}\n{APPLIED}\naccount,moved_pence\nGENCO-P,0\nGENCO-C,0\nSUPCO-P,0\nSUPCO-C,0\n"
        self.assertEqual(self.command("script", script), (0, written.encode(), b""))

    def test_a_service(self):
        self.begin("serve", "--db", self.database, "--port=0")
        self.read_until(b"\n")
        self.terminal.write(CTRL_C)
        self.read_until()
        self.assertEqual(self.begun.wait(timeout=PATIENCE), -signal.SIGINT)
        listening, *rest = screen_of(self.shown)
        self.assertRegex(listening, r"\Alistening 127\.0\.0\.1:[1-9][0-9]*\Z")
        self.assertEqual(rest, [KEPT, ""])
        self.has(self.before)

    def test_answers_and_statuses(self):
        """They are the program's own, as elsewhere."""
        on_office = "--db", self.database, "--key", OPERATOR
        for status, text, *words in (
            (1, "refused 51 NoInitialRun", "run", *on_office, f"--at={END}", DAY, "R1"),
            (0, SETTLED, "run", *on_office, f"--at={END}", DAY, "SF"),
            (0, BALANCES.removesuffix("\n"), "report", *on_office, "balances"),
            (1, "fault nofile", "report", "--db", self.room / "missing", "--key", OPERATOR, "balances"),
        ):
            self.begin(*words)
            self.ends(status, *text.splitlines())
        self.is_sound()
        self.begin("report", "--db", self.database, "balances")
        self.read_until()
        self.assertEqual(self.begun.wait(timeout=PATIENCE), 2)


class InterruptedProgram(Awaited):
    """The built program is ended by a signal, without the script. It says nothing, and loses nothing."""

    def test_while_it_reads(self):
        for number in INTERRUPTS:
            how = {"stdin": subprocess.DEVNULL, "stdout": subprocess.PIPE, "stderr": subprocess.PIPE}
            begun = subprocess.Popen([SETTLE, *self.words], preexec_fn=heed_signals, **how)
            self.addCleanup(begun.wait)
            self.addCleanup(begun.kill)
            self.give_a_part(begun)
            begun.send_signal(number)
            self.assertEqual(begun.communicate(timeout=PATIENCE), (b"", b""))
            self.assertEqual(begun.returncode, -number)
            self.has(self.before)
        self.is_done_again()


class InterruptedLoads(Ended):
    """A load is interrupted early and late: it was done or it was not, and the file is whole."""

    def test_at_any_time(self):
        days = [f"2024-08-{day:02}" for day in range(1, 21)]
        rows = [f"{unit},{day},{period},1.000,1,0" for unit in ("G1", "S1") for day in days for period in range(1, 49)]
        self.assertEqual(len(rows), 1920)
        words = "load", "--key", OPERATOR, f"--at={EARLY}", "meters", self.path("big.csv", text_of("meters", rows))
        self.fresh("whole")
        contents, began = [content_of(self.database)], time.monotonic()
        self.assertEqual(self.command(*words), answer("applied=1920 late=0"))
        lasted = time.monotonic() - began
        contents.append(content_of(self.database))
        self.assertEqual(len(contents[1]["meters"]), 96 + 1920)
        for number in range(8):
            self.fresh(f"interrupted{number}")
            begun = self.start(*words, preexec_fn=heed_signals)
            time.sleep(lasted * (number + 1) / 8)
            begun.send_signal(signal.SIGINT)
            written, told = begun.communicate(timeout=PATIENCE)
            with self.subTest(f"interrupted after {number + 1} of 8 parts"):
                self.assertIn((begun.returncode, told), [(-signal.SIGINT, b""), (0, b"")])
                self.assertIn(self.read_copy(f"interrupted{number}"), contents[bool(written) :])
                self.assertEqual(self.command(*words), answer("applied=1920 late=0"))
                self.is_sound()
                self.assertEqual(content_of(self.database), contents[1])


class FirstLines(AtATerminal, AtAFile):
    """The reader of a report goes away, as `head` does: `fault output` and status 1, and nothing more."""

    def setUp(self):
        AtAFile.setUp(self)
        AtATerminal.setUp(self)
        self.use(f'exec "{SETTLE}" "$@"')
        self.init_market()
        self.answers(self.order("SF", END), SETTLED)
        self.words = ["report", "--db", str(self.database), "--key", OPERATOR, "csv", DAY, "SF"]

    def small_pipe(self):
        """A pipe that has room for less than the report, and the file that reads from it."""
        reading, writing = os.pipe()
        fcntl.fcntl(writing, fcntl.F_SETPIPE_SZ, 4096)
        return os.fdopen(reading, "rb", buffering=0), writing

    def read_first(self, reader):
        """Reads the first bytes, as a reader that wants one line does, and goes away."""
        with reader:
            self.assertTrue(reader.read(100).startswith(b"date,kind,account,period,credited,"))

    def test_under_the_script(self):
        reader, writing = self.small_pipe()
        self.begin(*self.words, stdout=writing)
        os.close(writing)
        self.read_first(reader)
        self.ends(1, "fault output")

    def test_the_program_alone(self):
        reader, writing = self.small_pipe()
        how = {"stdin": subprocess.DEVNULL, "stdout": writing, "stderr": subprocess.PIPE}
        with subprocess.Popen([SETTLE, *self.words], **how) as begun:
            os.close(writing)
            self.read_first(reader)
            self.assertEqual((begun.stderr.read(), begun.wait(timeout=PATIENCE)), (b"fault output\n", 1))

    def test_a_report_that_is_read_whole(self):
        """A short report is in the pipe before the reader goes away: nothing is told."""
        line = f'"{SETTLE}" report --db "{self.database}" --key {OPERATOR} balances | head -n 1'
        made = subprocess.run(["sh", "-c", line], stdin=subprocess.DEVNULL, capture_output=True, timeout=PATIENCE)
        self.assertEqual((made.returncode, made.stdout, made.stderr), (0, b"account,moved_pence\n", b""))


class StandardInput(AtAFile):
    """/dev/stdin is a path like any other, and so is `-`."""

    def setUp(self):
        super().setUp()
        self.init()

    def given(self, data, name, *words, **how):
        """A command to which this is given through a pipe."""
        call = [SETTLE, name, "--db", str(self.database), *words]
        made = subprocess.run(call, input=data, capture_output=True, timeout=PATIENCE, **how)
        self.is_sound()
        return made.returncode, made.stdout, made.stderr

    def load_given(self, data, kind, path, **how):
        return self.given(data, "load", "--key", OPERATOR, kind, path, **how)

    def files(self):
        return [(kind, name) for kind, name, *_ in rows_of(self.database, "files")]

    def test_files(self):
        """Through a pipe and from a file. The name is what follows the last `/`, so a second file of a kind is another file of
        the same name."""
        (parties, party_rows), (units, unit_rows) = MARKET[:2]
        self.assertEqual(self.load_given(text_of(parties, party_rows), parties, "/dev/stdin"), answer(LOADED[0]))
        with open(self.file("units", text_of(units, unit_rows)), "rb") as file:
            call = [SETTLE, "load", "--db", str(self.database), "--key", OPERATOR, units, "/dev/stdin"]
            made = subprocess.run(call, stdin=file, capture_output=True, timeout=PATIENCE)
        self.assertEqual((made.returncode, made.stdout, made.stderr), answer(LOADED[1]))
        self.assertEqual(self.files(), [("parties", "stdin"), ("units", "stdin")])
        self.assertEqual(self.load_given(text_of(parties, party_rows), parties, "/dev/stdin"), answer(LOADED[0]))
        others = text_of(parties, ["NEWCO,2024-01-01,,newco0001"])
        self.assertEqual(self.load_given(others, parties, "/dev/stdin"), answer("refused 20 FileChanged"))

    def test_no_input(self):
        made = self.command("load", "--key", OPERATOR, "parties", "/dev/stdin")
        self.assertEqual(made, answer("refused 12 BadHeader"))
        call = ["sh", "-c", 'exec "$@" <&-', "sh", SETTLE, "script", "--db", str(self.database), "/dev/stdin/"]
        made = subprocess.run(call, capture_output=True, timeout=PATIENCE)
        self.assertEqual((made.returncode, made.stdout, made.stderr), answer("fault file"))

    def test_a_script(self):
        lines = [self.load(*MARKET[0]), balances()]
        text = "".join(f"{line}\n" for line in lines).encode()
        written = f"{LOADED[0]}\naccount,moved_pence\nGENCO-P,0\nGENCO-C,0\nSUPCO-P,0\nSUPCO-C,0\n".encode()
        self.assertEqual(self.given(text, "script", "/dev/stdin"), (0, written, b""))

    def test_a_dash(self):
        """It names the file `-` in the folder, and standard input is not read."""
        data, folder = text_of(*MARKET[0]), self.room / "folder"
        folder.mkdir()
        self.assertEqual(self.load_given(data, "parties", "-", cwd=folder), answer("fault file"))
        self.assertEqual(self.given(b"", "script", "-", cwd=folder), answer("fault file"))
        (folder / "-").write_bytes(data)
        self.assertEqual(self.load_given(b"", "parties", "-", cwd=folder), answer(LOADED[0]))
        self.assertEqual(self.files(), [("parties", "-")])
        (folder / "-").write_bytes(f"{balances()}\n".encode())
        self.assertEqual(self.given(b"", "script", "-", cwd=folder)[::2], (0, b""))


if __name__ == "__main__":
    unittest.main()
