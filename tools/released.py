"""The released program: release/settle.gz, packed, and release/RELEASE, which says what it is.

RELEASE has three lines: the sum of the sources that the program was built from, the sum of the program, and the kit that
proved and built it. Where the sources are those that are there, it is the program that would be built here. A test of the
gate compares the two byte by byte.
"""

import os
import zlib

from sources import HOME, OUT, PROGRAM, RELEASED, mark_built, put, sum_of, sum_of_sources
from telling import NOT_WRITABLE, Stop, say

PACKED = os.path.join(HOME, "release", "settle.gz")
NOTE = os.path.join(HOME, "release", "RELEASE")
GZIP = 16 + zlib.MAX_WBITS  # for zlib


def noted():
    """What RELEASE says: the sum of the sources, that of the program, and the kit. None where there is no release."""
    try:
        with open(NOTE, encoding="utf-8") as note:
            sources, program, kit = note.read().splitlines()
        return sources, program, kit
    except (OSError, ValueError):
        return None


def unpacked():
    """The program's bytes, None where they can't be read."""
    try:
        with open(PACKED, "rb") as packed:
            return zlib.decompress(packed.read(), GZIP)
    except (OSError, zlib.error):
        return None


def fits():
    """Whether there is a release, built from the sources that are there."""
    release = noted()
    return release is not None and release[0] == sum_of_sources()


def take():
    """Puts the released program in the place of the built one, where it was built from the sources that are there. Whether it
    did. Where the file isn't the program that was released a line says so."""
    if not fits():
        return False
    sources, program, _ = noted()
    data = unpacked()
    if data is None or sum_of(data) != program:
        say(f"{PACKED} isn't the program that {NOTE} names, so it isn't run")
        return False
    try:
        os.makedirs(OUT, exist_ok=True)
        put(PROGRAM, data, 0o755)
        mark_built(sources, RELEASED)
    except OSError:
        raise Stop(NOT_WRITABLE, f"the released program has to be unpacked first, and {OUT} can't be written to") from None
    if os.isatty(2):
        say("this program was built by the gate from these sources; ./settle --prove proves and builds them here")
    return True
