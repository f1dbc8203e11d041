"""The gate `./check`, tried in a small repository of its own with stand-ins for `rt` and for the tests."""
import os
import pathlib
import runpy
import shutil
import subprocess
import tempfile
import unittest

from programs import HOME, copy_settle, link_tools

# Builds the program, as `rt ci` does, and ends as the test says.
RT = """\
#!/bin/sh
cd {home} && mkdir -p crates/hh_settle/out && printf '#!/bin/sh\\necho built\\n' >crates/hh_settle/out/hh_settle
chmod +x crates/hh_settle/out/hh_settle
echo "rt $*" >>{home}/calls
{more}
"""
TESTS = '#!/bin/sh\necho "tests $*" >>{home}/calls\n{more}\n'
FIRST, LAST = "tests --without-programs", "tests --with-programs"


class Check(unittest.TestCase):
    needs_programs = False

    def setUp(self):
        room = tempfile.TemporaryDirectory()
        self.addCleanup(room.cleanup)
        self.room = pathlib.Path(room.name)
        self.home, self.tools = self.room / "clone", self.room / "tools"
        link_tools(self.tools)
        for folder in ("crates/hh_settle/src", "tests", ".ci"):
            (self.home / folder).mkdir(parents=True)
        copy_settle(self.home)
        for name in ("check", ".ci/run"):
            shutil.copy(HOME / name, self.home / name)
        (self.home / "crates.txt").write_text("hh_settle: clap\n")
        self.source = self.home / "crates" / "hh_settle" / "src" / "main.rt"
        self.source.write_text("first\n")

    def program(self, path, text, more):
        path.parent.mkdir(exist_ok=True)
        path.write_text(text.format(home=self.home, more=more))
        path.chmod(0o755)

    def check(self, of_rt, of_tests, script="check"):
        """The status of the gate, its last line, and what it called."""
        self.program(self.room / "bin" / "rt", RT, of_rt)
        self.program(self.home / "tests" / "run", TESTS, of_tests)
        how = {"cwd": "/", "capture_output": True, "text": True}
        made = subprocess.run([self.home / script], env={"PATH": f"{self.room}/bin:{self.tools}"}, **how)
        called = (self.home / "calls").read_text().splitlines()
        (self.home / "calls").unlink()
        return made.returncode, made.stdout.splitlines()[-1], called

    def test_it_adds_up_what_passed(self):
        for script in ("check", ".ci/run"):
            made = self.check("echo 216 passed, 0 failed", "echo 40 passed, 0 failed", script)
            self.assertEqual(made, (0, "296 passed, 0 failed", [FIRST, "rt ci", LAST]))

    def test_it_tells_how_many_checks_may_run(self):
        """One for each core, at most."""
        called = self.check('echo "$RT_JOBS" >>calls; echo 1 passed, 0 failed', "echo 1 passed, 0 failed")[2]
        self.assertIn(int(called[2]), range(1, os.cpu_count() + 1))

    def test_a_failed_test_fails_it(self):
        """One that needs no program fails it at once."""
        made = self.check("echo 216 passed, 0 failed", "echo 38 passed, 2 failed; exit 1")
        self.assertEqual(made, (1, "38 passed, 2 failed", [FIRST]))
        made = self.check("echo 216 passed, 0 failed", f'[ "$*" = "{LAST[6:]}" ] && echo 38 passed, 2 failed && exit 1; echo 9 passed, 0 failed')
        self.assertEqual(made, (1, "263 passed, 2 failed", [FIRST, "rt ci", LAST]))

    def test_a_failed_proof_fails_it(self):
        made = self.check("echo 215 passed, 1 failed; exit 1", "echo 40 passed, 0 failed")
        self.assertEqual(made, (1, "255 passed, 1 failed", [FIRST, "rt ci"]))

    def test_a_command_that_breaks_off_fails_it(self):
        self.assertEqual(self.check("exit 0", "echo 40 passed, 0 failed")[:2], (1, "40 passed, 1 failed"))
        made = self.check("echo 216 passed, 0 failed", "echo 40 passed, 0 failed; echo broken off")
        self.assertEqual(made, (1, "0 passed, 1 failed", [FIRST]))

    def test_a_status_counts_whatever_the_line_says(self):
        made = self.check("echo 216 passed, 0 failed; exit 2", "echo 40 passed, 0 failed")
        self.assertEqual(made, (1, "256 passed, 1 failed", [FIRST, "rt ci"]))

    def run_settle(self):
        """What `./settle` does without `rt`, so that it can't build."""
        made = subprocess.run([self.home / "settle", "word"], env={"PATH": str(self.tools)}, capture_output=True, text=True)
        return made.returncode, made.stdout

    def test_the_script_takes_the_program_that_the_gate_built(self):
        self.check("echo 1 passed, 0 failed", "echo 1 passed, 0 failed")
        self.assertEqual(self.run_settle(), (0, "built\n"))

    def test_a_program_of_other_sources_is_not_taken(self):
        self.check(f"echo second >{self.source}; echo 1 passed, 0 failed", "echo 1 passed, 0 failed")
        self.assertEqual(self.run_settle(), (71, ""))

    def test_without_rt_it_says_so(self):
        made = subprocess.run([self.home / "check"], env={"PATH": str(self.tools)}, capture_output=True, text=True)
        self.assertEqual((made.returncode, made.stdout), (1, "0 passed, 1 failed\n"))
        self.assertIn("isn't on the path", made.stderr)


FOUR_TESTS = """\
import unittest


class Four(unittest.TestCase):
    def test_passes(self):
        pass

    def test_fails(self):
        self.fail()

    def test_has_parts_that_fail(self):
        for part in range(3):
            with self.subTest(part):
                self.assertEqual(part, 0)

    def test_is_not_asked(self):
        self.skipTest("not here")
"""


class Run(unittest.TestCase):
    """`tests/run`, over tests of its own."""

    needs_programs = False

    def run_tests(self, text, *words):
        with tempfile.TemporaryDirectory() as room:
            shutil.copy(HOME / "tests" / "run", room)
            (pathlib.Path(room) / "test_four.py").write_text(text)
            made = subprocess.run([f"{room}/run", *words], capture_output=True, text=True)
        return made.returncode, made.stdout.splitlines()

    def test_it_counts_tests(self):
        status, lines = self.run_tests(FOUR_TESTS)
        self.assertEqual((status, lines[-1]), (1, "1 passed, 2 failed"))
        self.assertIn("not asked: test_four.Four.test_is_not_asked: not here", lines)

    def test_it_runs_those_that_are_named(self):
        status, lines = self.run_tests(FOUR_TESTS, "passes", "not_asked")
        self.assertEqual((status, lines[-1]), (0, "1 passed, 0 failed"))

    def test_it_runs_those_that_need_no_program(self):
        """A class tells that its tests need none."""
        other = "class Other(unittest.TestCase):\n    needs_programs = False\n\n    def test_passes(self):\n        pass\n"
        four = FOUR_TESTS + "\n\n" + other
        for words, last in (["--without-programs"], "1 passed, 0 failed"), (["--with-programs"], "1 passed, 2 failed"), ([], "2 passed, 2 failed"):
            self.assertEqual(self.run_tests(four, *words)[1][-1], last)

    def test_long_tests_are_told_so(self):
        tells = "import os, unittest\nclass One(unittest.TestCase):\n    def test_is_long(self):\n        self.assertIn('LONG_TESTS', os.environ)\n"
        self.assertEqual(self.run_tests(tells, "--long")[1][-1], "1 passed, 0 failed")
        self.assertEqual(self.run_tests(tells)[1][-1], "0 passed, 1 failed")

    def test_classes_that_are_named_are_there(self):
        """Those that begin first, and those that measure seconds."""
        run = runpy.run_path(str(HOME / "tests" / "run"))
        for name in [*run["LONGEST"], *run["ALONE"]]:
            module, _, kind = name.partition(".")
            self.assertIn(f"\nclass {kind}(", (HOME / "tests" / f"{module}.py").read_text(encoding="utf-8"))

    def test_no_test_is_a_failure(self):
        for text, words in ((FOUR_TESTS, ["nowhere"]), ("", [])):
            self.assertEqual(self.run_tests(text, *words)[0], 1)

    def test_a_class_that_ends_its_process_is_a_failure(self):
        """The tests of other classes are run."""
        ends = "class Ends(unittest.TestCase):\n    def test_ends(self):\n        os._exit(0)\n"
        passes = "class Passes(unittest.TestCase):\n    def test_passes(self):\n        pass\n"
        status, lines = self.run_tests(f"import os, unittest\n{ends}{passes}")
        self.assertEqual((status, lines[-1]), (1, "1 passed, 1 failed"))
        self.assertIn("test_four.Ends: its process ended with status 0", lines)

    def test_a_file_that_cannot_be_read_is_a_failure(self):
        self.assertEqual(self.run_tests("import nowhere\n")[1][-1], "0 passed, 1 failed")


if __name__ == "__main__":
    unittest.main()
