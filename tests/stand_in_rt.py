"""A stand-in for `rt`: notes each crate that a call proves, and builds a program that prints what it was built from. A call proves
all crates below its own, the lowest first, and then its own. Its version is `a stand-in`.

RT_STAND_IN names a folder. Its file `calls` gets a line for each crate. Other files there tell what else
the proof of a crate does:

    tells-CRATE   prints the file's text
    fails-CRATE   ends with the status in the file, and builds nothing
    edit-CRATE    writes the file's text over crates/hh_settle/src/main.rt during the proof
    waits-CRATE   makes begun-CRATE, and waits until the file is gone, or until the call is ended
"""
import os
import pathlib
import shlex
import subprocess
import sys
import time

CONTROL = pathlib.Path(os.environ["RT_STAND_IN"])
CRATES = pathlib.Path.cwd().parent
PROGRAM = '#!/bin/sh\nprintf "%s|" {source} "$@"\nexit "${{PROGRAM_STATUS:-0}}"\n'


def asked(what, crate):
    """The text of the file that asks this for a crate's call, or None if there is none."""
    try:
        return (CONTROL / f"{what}-{crate}").read_text()
    except FileNotFoundError:
        return None


def note(words):
    with open(CONTROL / "calls", "a") as calls:
        calls.write(f"{' '.join(words)}\n")


def prove(crate, words):
    """Proves one crate, and gives the status with which the call then ends, if it ends."""
    note([crate, *words])
    source = CRATES / "hh_settle" / "src" / "main.rt"
    print(f"proving {crate}", flush=True)
    if asked("tells", crate) is not None:
        print(asked("tells", crate), file=sys.stderr, flush=True)
    if asked("waits", crate) is not None:
        (CONTROL / f"begun-{crate}").touch()
        while asked("waits", crate) is not None:
            time.sleep(0.01)
    if asked("edit", crate) is not None:
        source.write_text(asked("edit", crate))
        (CONTROL / f"edit-{crate}").unlink()
    if asked("fails", crate) is not None:
        print(f"{crate} has an open goal\ncrate {crate}: modules loaded=0 checked=1\nlogic=not-proved", flush=True)
        return int(asked("fails", crate))
    (CRATES / crate / "out").mkdir(exist_ok=True)
    (CRATES / crate / "out" / "kept").touch()
    print(f"crate {crate}: modules loaded=0 checked=1\nlogic=proved functions=1", flush=True)
    return 0


def main(words):
    if words == ["version"]:
        print("a stand-in")
        return 0
    crate = pathlib.Path.cwd().name
    text = (CRATES / "hh_settle" / "src" / "main.rt").read_text().strip()
    uses = dict(line.split(":") for line in (CRATES.parent / "crates.txt").read_text().splitlines() if ":" in line)
    for name in below(crate, {name: words.split() for name, words in uses.items()}):
        status = prove(name, words[: words.index("--")])
        if status != 0:
            return status
    program = pathlib.Path("out") / crate
    program.write_text(PROGRAM.format(source=shlex.quote(text)))
    program.chmod(0o755)
    return subprocess.run([program, *words[words.index("--") + 1 :]]).returncode


def below(crate, uses):
    """A crate and those below it, the lowest first."""
    found = []
    for name in uses[crate]:
        found += [lower for lower in below(name, uses) if lower not in found] if name in uses else []
    return [*found, crate]


if __name__ == "__main__":
    sys.exit(main(sys.argv[1:]))
