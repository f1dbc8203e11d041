"""Where the tests find the programs that the gate built, and how they call them."""
import os
import pathlib
import runpy
import shutil
import subprocess
import sys

HOME = pathlib.Path(__file__).resolve().parent.parent
sys.path.append(str(HOME / "tools"))  # whose modules use each other
METER = str(HOME / "examples" / "meter.csv")
CONTRACTS = str(HOME / "examples" / "contracts.csv")
# What the market's two accounts settle to. 100 MWh at 0.995 are 99.5, and 99 are sold: 0.5 too much, for which 2,500 pence are
# paid at 50 pounds. -98 MWh at 1.005 are -98.49, and 99 are bought: 0.51 too much, for which 2,550 pence are paid.
EXAMPLE = b"""\
account GENCO-P credited 99.5000000000 imbalance 0.5000000000 charge -2500
account SUPCO-C credited -98.4900000000 imbalance 0.5100000000 charge -2550
residual 5050
"""


def built(crate, variable):
    """The path of a crate's program: that in the variable, or the one that the gate left in `out/`."""
    path = os.environ.get(variable) or HOME / "crates" / crate / "out" / crate
    return str(pathlib.Path(path).resolve())


SETTLE = built("hh_settle", "SETTLE_PROGRAM")
BENCH = built("hh_bench", "BENCH_PROGRAM")


# Whether tests that try one of many in turn try each of them: `tests/run --long`.
IS_LONG = "LONG_TESTS" in os.environ


def tool(name, home=HOME):
    """What a module of `tools/` defines, in this clone or in a copy in another folder."""
    return runpy.run_path(str(home / "tools" / f"{name}.py"))


def copy_settle(home):
    """Copies the script `settle` and what it uses into a folder."""
    shutil.copy(HOME / "settle", home / "settle")
    shutil.copytree(HOME / "tools", home / "tools", ignore=shutil.ignore_patterns("__pycache__"))


def need(program):
    """Fails once if a program isn't there, instead of an error for each call of it."""
    if not os.access(program, os.X_OK):
        raise AssertionError(f"no program at {program}: ./check builds it, and so does ./settle for hh_settle")


def refusing_library(folder):
    """Builds the library that refuses memory, `failing_malloc.c`, in a folder. Returns its path."""
    library = str(pathlib.Path(folder) / "failing_malloc.so")
    source = str(HOME / "tests" / "failing_malloc.c")
    subprocess.run(["cc", "-shared", "-fPIC", "-O1", "-o", library, source], check=True)
    return library


def settle(*words, **how):
    """The status of `settle` with these words, and what it wrote on standard output and error."""
    made = subprocess.run([SETTLE, *words], stdin=subprocess.DEVNULL, capture_output=True, **how)
    return made.returncode, made.stdout, made.stderr


def as_nobody():
    """The words before a call that give up root's rights. There are none if there are no such rights, and None if it can't be
    done."""
    if os.geteuid():
        return []
    words = [shutil.which("setpriv") or "setpriv", "--reuid=65534", "--regid=65534", "--clear-groups"]
    try:
        return words if subprocess.run([*words, "true"], capture_output=True).returncode == 0 else None
    except OSError:
        return None


# What the scripts and the stand-ins call.
COMMANDS = "bash cat chmod dirname mkdir mktemp readlink rm sh tail tee".split()
PYTHONS = "/usr/bin/python3", "/usr/local/bin/python3", sys.executable


def link_tools(folder):
    """Makes a folder of links to the commands that the scripts call. As the path it has all of them but `rt`. (Python is the
    system's, because nobody may run one that is in root's folder.)"""
    folder.mkdir()
    for name in COMMANDS:
        (folder / name).symlink_to(shutil.which(name))
    (folder / "python3").symlink_to(next(path for path in PYTHONS if os.access(path, os.X_OK)))
