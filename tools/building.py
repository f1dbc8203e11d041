"""Proves and builds the program where it isn't built from the sources as they are.

One call of `rt` does all: it proves the crates that the program depends on and that aren't proved, one after the other, each on
all cores, and then builds the program. `rt` of `rattle-kit-13b` sums up the sources of all crates below at each call, so one call
for each crate would take much longer.
"""

import fcntl
import os
import re
import shutil
import signal
import subprocess
import time

from estimates import Estimate
from sources import CRATES, HOME, OUT, PROGRAM, crates_below, is_proved, mark_built, sum_of_sources, uses_of_crates
from telling import INTERRUPTED, INTERRUPTS, NO_TOOLCHAIN, NOT_BUILT, NOT_WRITABLE, Stop, say

LOG = os.path.join(OUT, "settle.log")
EXAMPLE = ["period", f"{HOME}/examples/meter.csv", f"{HOME}/examples/contracts.csv", "50.00000"]
MOST_JOBS = 8  # more seldom help a proof
JOB_MEMORY = 2_000_000_000
LANE_MEMORY = 6_500_000_000  # a check of one of the largest crates, tests and all
# The two lines with which `rt` ends what it says of a crate that it has checked, the second one where the crate is proved.
CHECKED, PROVED = re.compile(rb"crate (\w+): "), b"logic=proved "


def available_memory():
    """How many bytes of memory can be had."""
    with open("/proc/meminfo", encoding="ascii") as lines:
        return next(int(line.split()[1]) * 1024 for line in lines if line.startswith("MemAvailable:"))


def jobs():
    """How many processes a proof may use: one for each core, where memory holds them."""
    return max(1, min(len(os.sched_getaffinity(0)), MOST_JOBS, available_memory() // JOB_MEMORY))


def lanes():
    """How many checks of crates may run side by side: one for each core, where memory holds them."""
    return max(1, min(len(os.sched_getaffinity(0)), available_memory() // LANE_MEMORY))


def stop_where_it_cannot_build(crates):
    """Stops before any work where there is no `rt`, or a folder that it writes can't be written to."""
    if shutil.which("rt") is None:
        runs = f"; what was built before still runs, as {PROGRAM}" if os.access(PROGRAM, os.X_OK) else ""
        raise Stop(NO_TOOLCHAIN, f"the program has to be built first, and `rt`, the command of the Rattle toolchain, isn't on the path{runs}")
    for crate in crates:
        folder = os.path.join(CRATES, crate)
        kept = os.path.join(folder, "out")
        written = kept if os.path.isdir(kept) else folder
        if not os.access(written, os.W_OK | os.X_OK):
            raise Stop(NOT_WRITABLE, f"the program has to be built first, and {written} can't be written to")


def hold():
    """Keeps other calls from building until what it returns is closed, or this call ends. (`rt` holds
    the crates' own folders, so this one is another.)"""
    held = os.open(CRATES, os.O_RDONLY)
    try:
        fcntl.flock(held, fcntl.LOCK_EX | fcntl.LOCK_NB)
    except BlockingIOError:
        say("another call is building the program; waiting for it")
        fcntl.flock(held, fcntl.LOCK_EX)
    except OSError:
        pass  # some file systems have no locks
    return held


def run_rt(words, log, heard):
    """Runs `rt` in the program's folder, with its lines in the log, and gives its status. Each line is heard. Where this call is
    interrupted, so is `rt`, which ends all that it has started."""
    log.write(f"== rt {' '.join(words)}\n".encode(errors="surrogateescape"))
    how = {"cwd": os.path.dirname(OUT), "stdin": subprocess.DEVNULL}
    ran = subprocess.Popen(["rt", *words], stdout=subprocess.PIPE, stderr=subprocess.STDOUT, **how)
    try:
        for line in ran.stdout:
            log.write(line)
            heard(line)
        return ran.wait()
    except BaseException:
        for number in INTERRUPTS:
            signal.signal(number, signal.SIG_IGN)
        ran.terminate()
        ran.wait()
        raise


def last_lines(path):
    with open(path, encoding="utf-8", errors="replace") as file:
        return "".join(file.readlines()[-20:])


class Course:
    """How far a call of `rt` is that proves these crates."""

    def __init__(self, crates):
        self.left, self.count, self.checked = list(crates), len(crates), None
        self.estimate, self.began = Estimate(crates), time.monotonic()

    def heard(self, line):
        """Takes in a line that `rt` has printed."""
        checked = CHECKED.match(line)
        if checked:
            self.checked = checked[1].decode()
        elif line.startswith(PROVED) and self.checked in self.left[:-1]:
            self.done(self.checked, "proved")
        elif line.startswith(b"rt: waiting for another rt"):
            say("another call of `rt` works on these crates; waiting for that")

    def done(self, crate, how):
        """Tells that a crate is done, and so are all before it."""
        now = time.monotonic()
        del self.left[: self.left.index(crate) + 1]
        self.estimate.hear(crate, now - self.began)
        say(f"[{self.count - len(self.left)}/{self.count}] {crate}: {how}, {now - self.began:.0f} s{self.estimate.told()}")
        self.began = now


def prove(crates, log):
    """Proves the crates, the lowest first. The last is the program: it is built too, and has to settle the
    example, since a status of 0 then is none that `rt` gives for a fault of its own."""
    course = Course(crates)
    status = run_rt(["run", "--jobs", str(jobs()), "--", *EXAMPLE], log, course.heard)
    if status != 0 or not os.access(PROGRAM, os.X_OK):
        os.write(2, last_lines(LOG).encode())
        raise Stop(NOT_BUILT, f"the program wasn't proved and built; the whole log is {LOG}")
    course.done(crates[-1], "proved and built")


def build(crates):
    """Builds the program, again where its sources change meanwhile. The log stays only where it fails."""
    while True:
        sources = sum_of_sources()
        os.makedirs(OUT, exist_ok=True)
        say(f"proving and building the program, {len(crates)} crates, once; the first time it takes half an hour or more. The log is {LOG}")
        try:
            with open(LOG, "wb", buffering=0) as log:
                prove(crates, log)
        except KeyboardInterrupt:
            raise Stop(INTERRUPTED, f"interrupted; the next call goes on from here. The log so far is {LOG}") from None
        mark_built(sources)
        os.remove(LOG)
        if sum_of_sources() == sources:
            return
        say("the sources have changed meanwhile, so once more")


def make():
    """Has the program proved and built here where it isn't, by one call at a time."""
    for number in (signal.SIGTERM, signal.SIGHUP):
        if signal.getsignal(number) == signal.SIG_DFL:
            signal.signal(number, signal.default_int_handler)
    crates = crates_below("hh_settle", uses_of_crates())
    stop_where_it_cannot_build(crates)
    held = hold()
    if not is_proved():
        build(crates)
    os.close(held)
