"""Services of the built `settle` that are killed under load: the short run of `tests/kill`. It must also find a service which
loses what it has answered, or which keeps only a part of what it hasn't."""
import collections
import contextlib
import importlib.machinery
import importlib.util
import io
import pathlib
import re
import sys
import tempfile
import unittest
import unittest.mock

import killing
from programs import HOME, SETTLE, need

SHORT = 40
UNDER_WAY = {"in an enquiry", *(f"in a {what} that is {there}" for what in ("load", "run") for there in ("there", "not there"))}
PLACES = {*UNDER_WAY, "before it listened", "between requests"}
STAND_IN = str(HOME / "tests" / "stand_in_settle.py")


def command():
    """The command `tests/kill`, as a module."""
    loader = importlib.machinery.SourceFileLoader("kill", str(HOME / "tests" / "kill"))
    module = importlib.util.module_from_spec(importlib.util.spec_from_loader("kill", loader))
    loader.exec_module(module)
    return module


class Kill(unittest.TestCase):
    def test_what_a_kill_leaves(self):
        need(SETTLE)
        with tempfile.TemporaryDirectory() as room:
            found = list(killing.try_all(0, SHORT, room))
        self.assertEqual({f"seed {one.seed}": one.wrong for one in found if one.wrong}, {})
        self.assertEqual(sum(one.kills for one in found), SHORT)
        met = sum((one.met for one in found), collections.Counter())
        self.assertLessEqual(set(met), PLACES)
        self.assertEqual(met.total(), SHORT)
        self.assertGreater(sum(met[place] for place in UNDER_WAY), 0)


class Told(unittest.TestCase):
    """What `tests/kill` tells about the services of a stand-in."""

    needs_programs = False

    def setUp(self):
        # A stand-in has no answer for a full disk, so each has room.
        changed = {"PROGRAM": [sys.executable, "-S", STAND_IN], "KILLS": 8, "FULL_ONE_OF": sys.maxsize}
        self.enterContext(unittest.mock.patch.multiple(killing, **changed))
        self.room = pathlib.Path(self.enterContext(tempfile.TemporaryDirectory()))

    def told(self, fault, *words):
        """The status of the command, and its lines."""
        written = io.StringIO()
        with (
            contextlib.redirect_stdout(written),
            unittest.mock.patch("programs.need"),
            unittest.mock.patch("tempfile.tempdir", str(self.room)),
            unittest.mock.patch.dict("os.environ", STAND_IN_FAULT=fault),
        ):
            status = command().main(words)
        return status, written.getvalue().splitlines()

    def test_nothing_is_wrong(self):
        status, lines = self.told("", "--rounds", "10", "--seed", "5")
        self.assertEqual((status, lines[-1]), (0, "10 passed, 0 failed"))
        self.assertEqual({re.match(r"seed (\d+): \d+ requests; killed \d ", line)[1] for line in lines[:2]}, {"5", "6"})
        self.assertEqual(list(self.room.iterdir()), [])

    def is_found(self, fault):
        """It is told with the seed, and the files are kept."""
        status, lines = self.told(fault, "--rounds", "32", "--seed", "3")
        self.assertEqual(status, 1)
        self.assertRegex(lines[-1], r"\A\d+ passed, [1-4] failed\Z")
        place = next(place for place, line in enumerate(lines) if ": kill " in line)
        seed = re.match(r"seed (\d+): kill \d+: the rows are not those of the office beside it: ", lines[place])[1]
        (folder,) = self.room.glob(f"*/{seed}")
        self.assertTrue((folder / "killed" / "office.db").exists())
        wanted = [f"    {folder} has the files", f"    tests/kill --seed {seed} --rounds 8"]
        self.assertEqual(lines[place + 1 : place + 3], wanted)

    def test_a_reply_that_is_lost(self):
        self.is_found("early")

    def test_a_load_that_is_there_in_part(self):
        self.is_found("half")


if __name__ == "__main__":
    unittest.main()
