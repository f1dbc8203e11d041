"""`look snapshot`: a copy of an office, also while `settle serve` runs."""

import contextlib
import os

from .copying import LOG, copy_office
from .figures import counted
from .office import opened
from .telling import Fault, Told
from .words import takes_office

OPENS_ITSELF = True


def take_words(command):
    takes_office(command)
    command.add_argument("out", metavar="OUT", help="where there is no file yet")


def tell(_, asked):
    """Copies both files to where there is none, and reads the copy whole."""
    for path in (asked.out, asked.out + LOG):
        if os.path.lexists(path):
            raise Fault(f"{path}: there is something already")
    try:
        copy_office(asked.db, asked.out)
        with opened(asked.out) as office:
            lines = described(office, asked.out)
    except Fault:
        for path in (asked.out, asked.out + LOG):
            with contextlib.suppress(OSError):
                os.unlink(path)
        raise
    return Told(lines)


def described(office, path):
    """What is in the copy, if it is whole."""
    found = office.rows("PRAGMA integrity_check")
    if found != [("ok",)]:
        raise Fault(f"{path}: it isn't whole: {found[0][0]}")
    parties, units, files, runs = (office.one(f"SELECT count(*) FROM {name}") for name in ("parties", "units", "files", "runs"))
    log = f", and {path}{LOG} with {os.path.getsize(path + LOG):,}" if os.path.exists(path + LOG) else ""
    return [
        f"{path} with {os.path.getsize(path):,} bytes{log}",
        f"{counted(parties, 'party', 'parties')}, {counted(units, 'unit')}, {counted(files, 'file')}, {counted(runs, 'run')}; it is whole",
    ]
