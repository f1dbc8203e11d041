"""The script `settle`, tried in a small repository of its own with a stand-in for `rt`."""
import os
import pathlib
import pty
import re
import shutil
import signal
import subprocess
import sys
import tempfile
import time
import unittest

from programs import CONTRACTS, EXAMPLE, HOME, METER, as_nobody, copy_settle, link_tools, tool

# hh_settle depends on three crates of the repository, and on one that isn't in it. `other` is beside it.
CRATES = """\
# lowest first
low: itoa
other: low
side:
middle: low side
hh_settle: low middle clap
"""
PROVED = ["low", "side", "middle", "hh_settle"]
# The forms of the commands, as docs/formats.md has them.
USAGE = (
    "period METER CONTRACTS PRICE",
    "period METER CONTRACTS -- -PRICE",
    "script --operator-key KEY [--lead-minutes N] [--strict] FILE",
    "script --db PATH [--strict] FILE",
    "init --db PATH --operator-key KEY [--lead-minutes N]",
    "migrate --db PATH",
    "load --db PATH --key KEY [--at SECONDS] KIND FILE",
    "run --db PATH --key KEY [--at SECONDS] DATE KIND",
    "report --db PATH --key KEY FORM [DATE KIND]",
    "serve --db PATH --port N [--count N] [--at SECONDS]",
    "--version",
)
PATIENCE = 30
INTERRUPTS = signal.SIGINT, signal.SIGTERM, signal.SIGHUP


class OfTheScript(unittest.TestCase):
    """A test with a small repository, whose folder's name has a blank, and a stand-in for `rt`."""

    needs_programs = False

    def setUp(self):
        room = tempfile.TemporaryDirectory()
        self.addCleanup(room.cleanup)
        self.room = pathlib.Path(room.name)
        self.room.chmod(0o755)
        self.home, self.control, self.bin = self.room / "a clone", self.room / "control", self.room / "bin"
        for folder in (self.home, self.control, self.bin):
            folder.mkdir()
        self.tools = self.room / "tools"
        link_tools(self.tools)
        self.write_repository()
        self.write_rt()

    def write_repository(self):
        copy_settle(self.home)
        (self.home / "tools" / "times.csv").write_text("crate,seconds\n")
        shutil.copytree(HOME / "examples", self.home / "examples")
        (self.home / "crates.txt").write_text(CRATES)
        for crate in [*PROVED, "other"]:
            folder = self.home / "crates" / crate
            (folder / "src").mkdir(parents=True)
            (folder / "src" / "lib.rt").write_text(f"// {crate}\n")
        self.source = self.home / "crates" / "hh_settle" / "src" / "main.rt"
        self.source.write_text("first\n")
        self.out = self.home / "crates" / "hh_settle" / "out"
        self.log = self.out / "settle.log"

    def write_rt(self):
        stand_in = HOME / "tests" / "stand_in_rt.py"
        rt = self.bin / "rt"
        rt.write_text(f'#!/bin/sh\nexec "{sys.executable}" -ISB "{stand_in}" "$@"\n')
        rt.chmod(0o755)

    def environment(self, has_rt=True, **more):
        """The environment of a call, whose path includes `rt` or not."""
        path = f"{self.bin}:" * has_rt + str(self.tools)
        return dict(os.environ, PATH=path, RT_STAND_IN=str(self.control), **more)

    def call(self, *words, script=None, cwd=None, has_rt=True, **more):
        """The status of the script, and what it wrote on standard output and error."""
        call = [script or self.home / "settle", *words]
        how = {"stdin": subprocess.DEVNULL, "capture_output": True, "timeout": PATIENCE}
        made = subprocess.run(call, cwd=cwd or self.room, env=self.environment(has_rt, **more), **how)
        return made.returncode, made.stdout, made.stderr.decode()

    def start(self, *words):
        """A call of the script that runs beside the test."""
        how = {"stdin": subprocess.DEVNULL, "stdout": subprocess.PIPE, "stderr": subprocess.PIPE, "text": True}
        call = [self.home / "settle", *words]
        begun = subprocess.Popen(call, cwd=self.room, env=self.environment(), preexec_fn=heed_signals, **how)
        self.addCleanup(begun.stderr.close)
        self.addCleanup(begun.stdout.close)
        self.addCleanup(begun.wait)
        self.addCleanup(begun.kill)
        return begun

    def calls(self):
        """The crates in which `rt` was called since this was last asked."""
        path = self.control / "calls"
        lines = path.read_text().splitlines() if path.exists() else []
        path.unlink(missing_ok=True)
        return [line.split()[0] for line in lines]

    def ask(self, what, crate, text=""):
        path = self.control / f"{what}-{crate}"
        path.write_text(str(text))
        return path

    def wait_for(self, what, crate):
        until = time.monotonic() + PATIENCE
        while not (self.control / f"{what}-{crate}").exists():
            self.assertLess(time.monotonic(), until, f"{crate} was never {what}")
            time.sleep(0.01)

    def build(self):
        self.assertEqual(self.call("word")[:2], (0, b"first|word|"))
        self.calls()

    def put_program(self, commands):
        """These commands of the shell are the program that was built last."""
        program, note = self.out / "hh_settle", self.out / "settle.built"
        program.write_text(f"#!/bin/sh\n{commands}\n")
        sources = note.read_text().split()[0]
        note.write_text(f"{sources}\n{sum_of(program)}\n")

    def is_quiet(self, text, *words, **how):
        """The program is run at once: no crate is proved, and nothing is told."""
        self.assertEqual(self.call(*words, **how), (0, text, ""))
        self.assertEqual(self.calls(), [])


class FirstCall(OfTheScript):
    def test_it_proves_each_crate_once_and_lowest_first(self):
        status, written, told = self.call("word")
        self.assertEqual((status, written), (0, b"first|word|"))
        self.assertEqual(self.calls(), PROVED)

    def test_it_shows_which_crate_it_is_at_and_how_far(self):
        told = self.call("word")[2].splitlines()
        self.assertIn("4 crates", told[0])
        self.assertNotIn("left", " ".join(told), "nothing is known of how long these crates take")
        for number, (crate, how) in enumerate(zip(PROVED, ["proved"] * 3 + ["proved and built"]), 1):
            self.assertRegex(told[number], rf"\Asettle: \[{number}/4\] {crate}: {how}, \d+ s\Z")
        self.assertEqual(len(told), 5)

    def test_how_long_it_will_take(self):
        """By the crates' times elsewhere, times the factor of the first ones here: of those that weren't proved before."""
        (self.home / "tools" / "times.csv").write_text("crate,seconds\nlow,60\nside,30\nmiddle,90\nhh_settle,120\n")
        told = self.call("word")[2].splitlines()
        self.assertIn("; 1 minute left,", told[1])
        self.assertNotIn("left", told[4])
        for proved, minutes in (([("low", 60)], [4]), ([("low", 120), ("side", 60)], [8, 7]), ([("side", 60), ("middle", 180)], [7, 4])):
            estimate = tool("estimates", self.home)["Estimate"](PROVED)
            for (crate, seconds), left in zip(proved, minutes):
                estimate.hear(crate, seconds)
                self.assertTrue(estimate.told().startswith(f"; {left} minutes left,"), (crate, estimate.told()))

    def test_each_crates_time_is_known(self):
        uses = tool("sources")["uses_of_crates"]()
        self.assertEqual(sorted(tool("estimates")["times"]()), sorted(tool("sources")["crates_below"]("hh_settle", uses)))

    def test_it_uses_all_cores(self):
        self.call("word")
        with open("/proc/meminfo") as lines:
            available = next(int(line.split()[1]) * 1024 for line in lines if line.startswith("MemAvailable:"))
        cores = min(len(os.sched_getaffinity(0)), 8)
        if available < (cores + 1) * 2_000_000_000:
            self.skipTest("there is too little memory for a job on each core")
        self.assertEqual(self.rt_words()[:4], ["run", "--jobs", str(cores), "--"])

    def rt_words(self):
        """The words of a call of `rt`, from the log."""
        self.ask("fails", "low", 1)
        self.source.write_text("second\n")
        self.call("word")
        return self.log.read_text().splitlines()[0].partition("rt ")[2].split()

    def test_it_tells_that_another_rt_works_there(self):
        self.ask("tells", "side", "rt: waiting for another rt to finish in /somewhere")
        told = self.call("word")[2].splitlines()
        self.assertEqual(told[2], "settle: another call of `rt` works on these crates; waiting for that")

    def test_it_leaves_no_log(self):
        self.call("word")
        self.assertEqual(sorted(path.name for path in self.out.iterdir()), ["hh_settle", "kept", "settle.built"])


class LaterCalls(OfTheScript):
    def test_nothing_is_built(self):
        self.build()
        self.is_quiet(b"first|word|", "word")

    def test_nothing_is_needed(self):
        """If the program is there, neither `rt` nor permission to write is needed."""
        self.build()
        self.is_quiet(b"first|word|", "word", has_rt=False)

    def test_other_files_do_not_count(self):
        self.build()
        (self.home / "README.md").write_text("changed\n")
        (self.home / "crates" / "low" / "must-fail").mkdir()
        (self.home / "crates" / "low" / "must-fail" / "a.edit").write_text("changed\n")
        (self.home / "crates" / "other" / "src" / "lib.rt").write_text("changed\n")
        (self.home / "crates.txt").write_text(CRATES.replace("other: low", "other: low side"))
        os.utime(self.source)
        self.is_quiet(b"first|word|", "word")

    def rebuilds(self, why):
        status, written, _ = self.call("word")
        self.assertEqual((status, self.calls()), (0, PROVED), why)
        self.is_quiet(written, "word")

    def test_each_change_of_a_source_counts(self):
        self.build()
        proof = self.home / "crates" / "low" / "proofs" / "f" / "Answers.antt"
        proof.parent.mkdir(parents=True)
        proof.write_text("-- new\n")
        self.rebuilds("a new file")
        proof.rename(proof.with_name("Moved.antt"))
        self.rebuilds("another name")
        proof.with_name("Moved.antt").unlink()
        self.rebuilds("a file less")
        (self.home / "crates.txt").write_text(CRATES.replace("itoa", "itoa ryu"))
        self.rebuilds("another library")

    def test_an_edit_counts_though_its_time_is_old(self):
        self.build()
        self.source.write_text("second\n")
        os.utime(self.source, (1, 1))
        self.assertEqual(self.call("word")[:2], (0, b"second|word|"))

    def test_another_program_is_not_run(self):
        self.build()
        (self.out / "hh_settle").write_text("#!/bin/sh\necho other\n")
        self.assertEqual(self.call("word")[:2], (0, b"first|word|"))


class EditsMeanwhile(OfTheScript):
    def test_an_edit_during_the_build_is_built_too(self):
        self.ask("edit", "hh_settle", "second\n")
        status, written, told = self.call("word")
        self.assertEqual((status, written), (0, b"second|word|"))
        self.assertEqual(self.calls(), PROVED * 2)
        self.assertIn("changed meanwhile", told)
        self.is_quiet(b"second|word|", "word")

    def test_an_edit_before_the_program_is_read(self):
        self.ask("edit", "low", "second\n")
        self.assertEqual(self.call("word")[:2], (0, b"second|word|"))
        self.assertEqual(self.calls(), PROVED * 2)
        self.is_quiet(b"second|word|", "word")


class Failures(OfTheScript):
    def fails(self, crate, status):
        asked = self.ask("fails", crate, status)
        status, written, told = self.call("word")
        self.assertEqual((status, written), (70, b""))
        self.assertIn(f"{crate} has an open goal", told)
        self.assertNotIn(f"{crate}: proved", told)
        self.assertIn(str(self.log), told.splitlines()[-1])
        self.assertIn(f"{crate} has an open goal", self.log.read_text())
        asked.unlink()

    def test_a_crate_that_is_not_proved(self):
        self.fails("side", 1)
        self.assertEqual(self.calls(), ["low", "side"])

    def test_each_status_of_rt(self):
        """Also 2, which the program itself uses for help, and with which `rt` ends if it judged nothing."""
        self.build()
        self.source.write_text("second\n")
        for status in (1, 2, 3):
            self.fails("hh_settle", status)

    def test_the_next_call_takes_the_log_away(self):
        self.fails("side", 1)
        self.assertEqual(self.call("word")[:2], (0, b"first|word|"))
        self.assertFalse(self.log.exists())


class Interrupted(OfTheScript):
    def interrupt(self, number):
        """Interrupts a build that is at its third crate."""
        asked = self.ask("waits", "middle")
        begun = self.start("word")
        self.wait_for("begun", "middle")
        until = time.monotonic() + PATIENCE
        while "proving middle" not in self.log.read_text() and time.monotonic() < until:
            time.sleep(0.01)
        begun.send_signal(number)
        written, told = begun.communicate(timeout=PATIENCE)
        self.assertEqual((begun.returncode, written), (130, ""))
        self.assertIn("interrupted", told.splitlines()[-1])
        self.assertIn(str(self.log), told.splitlines()[-1])
        self.assertNotIn("Traceback", told)
        self.assertIn("proving middle", self.log.read_text())
        asked.unlink()
        (self.control / "begun-middle").unlink()

    def test_it_goes_on_and_leaves_no_log(self):
        for number in INTERRUPTS:
            with self.subTest(number):
                self.interrupt(number)
                kept = [crate for crate in PROVED if (self.home / "crates" / crate / "out" / "kept").exists()]
                self.assertEqual(kept[:2], ["low", "side"])
                self.assertEqual(self.call("word")[:2], (0, b"first|word|"))
                self.assertFalse(self.log.exists())
                (self.out / "settle.built").unlink()

    def test_rt_is_ended(self):
        """The stand-in waits for a file that is removed. If it had lived on, it would have gone on then."""
        self.interrupt(signal.SIGTERM)
        time.sleep(0.3)
        self.assertFalse((self.home / "crates" / "middle" / "out" / "kept").exists())


class WhereItCannotBuild(OfTheScript):
    def stops(self, made, status, what):
        """It says one line, and nothing was begun."""
        self.assertEqual(made[:2], (status, b""))
        self.assertEqual(len(made[2].splitlines()), 1, made[2])
        self.assertIn(what, made[2])
        self.assertEqual(self.calls(), [])
        self.assertFalse(self.out.exists())

    def test_no_rt(self):
        self.stops(self.call("word", has_rt=False), 71, "`rt`")

    def test_what_still_runs_without_rt(self):
        self.build()
        self.source.write_text("second\n")
        status, _, told = self.call("word", has_rt=False)
        self.assertEqual((status, len(told.splitlines())), (71, 1))
        self.assertTrue(told.endswith(f"still runs, as {self.out}/hh_settle\n"), told)

    def test_a_folder_that_cannot_be_written_to(self):
        nobody = as_nobody()
        if nobody is None:
            self.skipTest("root may write everywhere, and setpriv doesn't give up its rights here")
        folder = self.home / "crates" / "middle"
        for path in (self.home, *self.home.rglob("*")):
            path.chmod(0o755 if path.is_dir() or path.name == "settle" else 0o644)
        folder.chmod(0o555)
        how = {"cwd": "/", "env": self.environment(), "stdin": subprocess.DEVNULL, "capture_output": True}
        made = subprocess.run([*nobody, self.home / "settle", "word"], timeout=PATIENCE, **how)
        if not nobody:
            folder.chmod(0o755)
        named = self.home / "crates" / ("low" if nobody else "middle")
        self.stops((made.returncode, made.stdout, made.stderr.decode()), 72, str(named))


class Help(OfTheScript):
    def test_it_builds_nothing(self):
        for words in ((), ("--help",), ("-h",)):
            for has_rt in (True, False):
                status, written, told = self.call(*words, has_rt=has_rt)
                self.assertEqual((status, written), (2, b""))
                for form in USAGE:
                    self.assertIn(f" settle {form}\n", told)
                self.assertIn("half an hour or more", told.replace("\n", " "))
        self.assertEqual(self.calls(), [])

    def test_it_says_its_own_statuses(self):
        told = self.call("--help")[2]
        for status in ("70", "71", "72", "130"):
            self.assertIn(status, told)


class Released(OfTheScript):
    """A new clone with a release: the program of these sources, packed."""

    def setUp(self):
        super().setUp()
        self.build()
        self.assertEqual(self.release(), (0, b"", ""))
        self.begin_anew()

    def release(self):
        """What comes of making the release."""
        return self.call(script=self.home / "tools" / "release")

    def begin_anew(self):
        """Takes away all that was built."""
        for folder in (self.home / "crates").glob("*/out"):
            shutil.rmtree(folder)

    def test_it_is_run_at_once(self):
        """Neither `rt` nor a second call needs anything more."""
        for words in ("word", "other"):
            self.is_quiet(f"first|{words}|".encode(), words, has_rt=False)

    def test_it_is_told_once_at_a_terminal(self):
        terminal, end = pty.openpty()
        told = []
        for _ in range(2):
            how = {"stdin": subprocess.DEVNULL, "stdout": subprocess.DEVNULL, "stderr": end, "timeout": PATIENCE}
            self.assertEqual(subprocess.run([self.home / "settle", "word"], env=self.environment(False), **how).returncode, 0)
            os.write(end, b".\n")
            told.append(b"")
            while not told[-1].endswith(b".\r\n"):
                told[-1] += os.read(terminal, 4096)
        os.close(end)
        os.close(terminal)
        self.assertIn(b"built by the gate from these sources; ./settle --prove proves and builds them here", told[0])
        self.assertEqual(told[1], b".\r\n")

    def test_other_sources_are_proved(self):
        self.source.write_text("second\n")
        self.assertEqual(self.call("word", has_rt=False)[0], 71)
        self.assertEqual(self.call("word")[:2], (0, b"second|word|"))
        self.assertEqual(self.calls(), PROVED)

    def test_another_byte_is_not_run(self):
        """One of the packed program, or of its sum. A line says so, and what is there is proved."""
        packed, note = self.home / "release" / "settle.gz", self.home / "release" / "RELEASE"
        data, text = packed.read_bytes(), note.read_text()
        sources, program, kit = text.splitlines()
        for place in (0, 12, len(data) // 2, len(data) - 1):
            packed.write_bytes(data[:place] + bytes([data[place] ^ 1]) + data[place + 1 :])
            self.is_not_run()
        packed.unlink()
        self.is_not_run()
        packed.write_bytes(data)
        note.write_text(f"{sources}\n{program[::-1]}\n{kit}\n")
        self.is_not_run()
        note.write_text(text)
        self.is_quiet(b"first|word|", "word")

    def is_not_run(self):
        status, written, told = self.call("word", has_rt=False)
        self.assertEqual((status, written), (71, b""))
        said, stopped = told.splitlines()
        self.assertEqual(said, f"settle: {self.home}/release/settle.gz isn't the program that {self.home}/release/RELEASE names, so it isn't run")
        self.assertFalse(self.out.exists())
        status, written, told = self.call("word")
        self.assertEqual((status, written, told.splitlines()[0], self.calls()), (0, b"first|word|", said, PROVED))
        self.begin_anew()

    def test_it_is_proved_here_where_that_is_asked_for(self):
        """Once, and nothing is run."""
        self.is_quiet(b"first|word|", "word")
        self.assertEqual(self.call("--prove")[:2], (0, b""))
        self.assertEqual(self.calls(), PROVED)
        self.is_quiet(b"", "--prove")
        self.is_quiet(b"first|word|", "word")

    def test_it_is_there_where_that_is_asked_for(self):
        self.is_quiet(b"", "--build", has_rt=False)
        self.is_quiet(b"first|word|", "word", has_rt=False)
        self.source.write_text("second\n")
        self.assertEqual(self.call("--build")[:2], (0, b""))
        self.assertEqual(self.calls(), PROVED)

    def test_it_is_made_of_what_was_proved_here(self):
        note = (self.home / "release" / "RELEASE").read_text()
        self.assertEqual(note.splitlines()[2], "a stand-in")
        self.call("word")
        status, _, told = self.release()
        self.assertEqual((status, told.count("\n")), (1, 1))
        self.call("--prove")
        self.assertEqual(self.release(), (0, b"", ""))
        self.assertEqual((self.home / "release" / "RELEASE").read_text(), note)

    def test_a_folder_that_cannot_be_written_to(self):
        nobody = as_nobody()
        if nobody is None:
            self.skipTest("root may write everywhere, and setpriv doesn't give up its rights here")
        for path in (self.home, *self.home.rglob("*")):
            path.chmod(0o755 if path.is_dir() or path.name == "settle" else 0o644)
        (self.home / "crates" / "hh_settle").chmod(0o555)
        how = {"cwd": "/", "env": self.environment(), "stdin": subprocess.DEVNULL, "capture_output": True}
        made = subprocess.run([*nobody, self.home / "settle", "word"], timeout=PATIENCE, **how)
        (self.home / "crates" / "hh_settle").chmod(0o755)
        self.assertEqual((made.returncode, made.stdout, self.calls()), (72, b"", []))
        self.assertIn(str(self.out), made.stderr.decode())


class HowItIsCalled(OfTheScript):
    def test_from_any_folder_and_through_links(self):
        link, second = self.room / "link", self.room / "second"
        link.symlink_to(self.home / "settle")
        second.symlink_to("link")
        self.assertEqual(self.call("word", script=second, cwd="/")[:2], (0, b"first|word|"))
        self.calls()
        for script, cwd in ((link, "/"), ("./settle", self.home), ("../settle", self.home / "crates")):
            self.is_quiet(b"first|word|", "word", script=script, cwd=cwd)

    def test_words_and_statuses_go_through(self):
        self.build()
        words = ["", "a b", "--help", "*", "'", b"\xff\xfe"]
        status, written, told = self.call(*words, PROGRAM_STATUS="1")
        self.assertEqual((status, told), (1, ""))
        self.assertEqual(written, b"first||a b|--help|*|'|\xff\xfe|")

    def test_signals_are_as_a_shell_leaves_them(self):
        """A program that is stopped by a closed pipe is stopped under the script too."""
        self.build()
        self.put_program("kill -PIPE $$\necho on")
        self.assertEqual(self.call("word"), (-signal.SIGPIPE, b"", ""))

    def test_the_c_library_uses_large_pages_unless_told_otherwise(self):
        self.build()
        self.put_program('printf %s "$GLIBC_TUNABLES"')
        self.assertEqual(self.call("word"), (0, b"glibc.malloc.hugetlb=1", ""))
        for wanted in ("glibc.malloc.hugetlb=0", "glibc.malloc.arena_max=1", ""):
            self.assertEqual(self.call("word", GLIBC_TUNABLES=wanted), (0, wanted.encode(), ""))

    def test_two_calls_at_once(self):
        asked = self.ask("waits", "low")
        first = self.start("one")
        self.wait_for("begun", "low")
        second = self.start("two")
        self.assertIn("another call", second.stderr.readline())
        asked.unlink()
        self.assertEqual(first.communicate(timeout=PATIENCE)[0], "first|one|")
        self.assertEqual(second.communicate(timeout=PATIENCE), ("first|two|", ""))
        self.assertEqual(self.calls(), PROVED)


class OfThisClone(unittest.TestCase):
    def test_it_runs_the_program_that_the_gate_built(self):
        """The script itself, if it need not build anything."""
        if not tool("sources")["is_built"]():
            self.skipTest("neither ./check nor ./settle has built the program of this clone from its sources as they are")
        room = tempfile.TemporaryDirectory()
        self.addCleanup(room.cleanup)
        tools = pathlib.Path(room.name) / "tools"
        link_tools(tools)
        refused = 1, b"", b"refused 14 BadField in price\n"
        for price, ended in (("50.00000", (0, EXAMPLE, b"")), ("x", refused)):
            call = [HOME / "settle", "period", METER, CONTRACTS, price]
            made = subprocess.run(call, cwd="/", env={"PATH": str(tools)}, capture_output=True)
            self.assertEqual((made.returncode, made.stdout, made.stderr), ended)


def heed_signals():
    """Turns on the signals that the tests send, because a shell turns off Ctrl-C for what it starts in the background."""
    for number in INTERRUPTS:
        signal.signal(number, signal.SIG_DFL)


def sum_of(path):
    made = subprocess.run(["sha256sum", path], check=True, capture_output=True, text=True)
    return made.stdout.split()[0].lstrip("\\")


if __name__ == "__main__":
    unittest.main()
