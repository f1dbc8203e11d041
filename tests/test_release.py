"""The released program: that it is the one which the gate builds, and that a new clone settles a day with it at once."""
import pathlib
import shutil
import subprocess
import tempfile
import time
import unittest

from programs import HOME, SETTLE, link_tools, need, tool

RELEASE = tool("released")
SECONDS = 10  # that a first answer may take


def why_not():
    """Why the release says nothing of these sources. None if it does."""
    if RELEASE["noted"]() is None:
        return "there is no release"
    return None if RELEASE["fits"]() else "the release is of other sources"


class Compared(unittest.TestCase):
    def test_it_is_what_the_gate_built(self):
        """Byte by byte, if the kit is the one that is named."""
        kit = subprocess.run(["rt", "version"], capture_output=True, text=True).stdout.strip()
        if why_not() or kit != RELEASE["noted"]()[2]:
            self.skipTest(why_not() or f"the release was built by {RELEASE['noted']()[2]}")
        need(SETTLE)
        self.assertEqual(tool("sources")["sum_of"](RELEASE["unpacked"]()), RELEASE["noted"]()[1])
        self.assertTrue(pathlib.Path(SETTLE).read_bytes() == RELEASE["unpacked"](), "the release isn't what was built from its sources")


class NewClone(unittest.TestCase):
    """A copy of what the repository has, with nothing built and without `rt`."""

    needs_programs = False

    def setUp(self):
        if why_not():
            self.skipTest(why_not())
        room = tempfile.TemporaryDirectory()
        self.addCleanup(room.cleanup)
        self.room = pathlib.Path(room.name)
        self.home = self.room / "clone"
        ignored = shutil.ignore_patterns("out", ".git", "__pycache__")
        self.home.mkdir()
        for name in ("crates", "examples", "release", "tools"):
            shutil.copytree(HOME / name, self.home / name, ignore=ignored)
        for name in ("settle", "crates.txt"):
            shutil.copy(HOME / name, self.home)
        link_tools(self.room / "tools")

    def call(self, *words):
        """The status of a call, and what it wrote on standard output and error."""
        how = {"cwd": self.home, "env": {"PATH": str(self.room / "tools")}, "stdin": subprocess.DEVNULL, "capture_output": True}
        made = subprocess.run(["./settle", *words], **how)
        return made.returncode, made.stdout, made.stderr.decode()

    def test_a_first_answer(self):
        began = time.monotonic()
        made = self.call("init", "--db", "office.db", "--operator-key", "op-market001")
        self.assertEqual(made, (0, b"ready\n", ""))
        self.assertLess(time.monotonic() - began, SECONDS)

    def test_one_line_changed(self):
        """It would be proved, if `rt` were there."""
        source = self.home / "crates" / "hh_num" / "src" / "lib.rt"
        source.write_text(source.read_text(encoding="utf-8") + "// changed\n", encoding="utf-8")
        self.assertEqual(self.call("--version")[:2], (71, b""))

    def test_one_byte_changed(self):
        packed = self.home / "release" / "settle.gz"
        data = bytearray(packed.read_bytes())
        data[len(data) // 2] ^= 1
        packed.write_bytes(data)
        status, written, told = self.call("--version")
        self.assertEqual((status, written), (71, b""))
        self.assertIn("so it isn't run", told.splitlines()[0])


if __name__ == "__main__":
    unittest.main()
