"""A copy of an office's two files, the database and its log, made byte by byte while others may use them.

The office is never opened by SQLite, and no lock is asked for: so nothing that `settle` does is held up. Where one of the files moved
while it was copied, both are copied anew. What is committed goes into the log first, and is there until the file has it. So the copy is
an office between two requests if the file is the one that it was, and the log has the header that it had. A log that only got longer
has a beginning of what it has now, and what isn't committed in it doesn't count."""

import collections
import contextlib
import os
import stat
import time

from .telling import Fault

LOG, JOURNAL = "-wal", "-journal"
HEADER = 32  # bytes of a log
MOST = 1 << 30  # bytes that the system copies at once
PATIENCE, PAUSE = 20.0, 0.01  # seconds
OURS_ALONE = 0o600  # since the copy has all keys

# What is seen of a file without copying it: which one it is, its bytes, when it was changed, and how it begins if it is a log.
Seen = collections.namedtuple("Seen", "number size changed header")


@contextlib.contextmanager
def copied(path):
    """The path of a copy in a folder of its own, which is gone at the end."""
    folder = new_folder()
    try:
        copy = os.path.join(folder, "office.db")
        copy_office(path, copy)
        yield copy
    finally:
        for place, _, names in os.walk(folder, topdown=False):
            for name in names:
                os.unlink(os.path.join(place, name))
            os.rmdir(place)


def new_folder():
    """A folder that nobody else may read, where TMPDIR says or in /tmp."""
    folder = os.path.join(os.environ.get("TMPDIR") or "/tmp", f"look-{os.urandom(8).hex()}")
    os.mkdir(folder, 0o700)
    return folder


def copy_office(path, copy):
    """Copies the file at a path, and its log where it is there. The log of a link is beside the file to which the link leads."""
    path = os.path.realpath(path) if os.path.islink(path) else path
    if os.path.exists(path + JOURNAL):
        raise Fault(f"{path}: there is {path}{JOURNAL}, a change that another program has left half done")
    until = time.monotonic() + PATIENCE
    while not copied_once(path, copy):
        if time.monotonic() > until:
            raise Fault(f"{path}: it changed each time that it was copied, for {PATIENCE:.0f} seconds")
        time.sleep(PAUSE)


def copied_once(path, copy):
    """Copies both files, and says whether they stayed."""
    before = seen(path), seen(path + LOG)
    if before[0] is None:
        raise Fault(f"{path}: there is no file")
    copy_file(path, copy)
    copy_file(path + LOG, copy + LOG)
    return stayed(before, (seen(path), seen(path + LOG)))


def stayed(before, after):
    """Whether the file is as it was before, and the log at most longer."""
    (file, log), (file_after, log_after) = before, after
    if file != file_after or (log is None) != (log_after is None):
        return False
    return log is None or (log.number == log_after.number and log.header == log_after.header and log.size <= log_after.size)


def seen(path):
    """What is seen of a file, or None where there is none."""
    try:
        found = os.stat(path)
        if not stat.S_ISREG(found.st_mode):
            raise Fault(f"{path}: it is no file")
        if found.st_nlink > 1:
            raise Fault(f"{path}: the file has another name too, and its log may be beside that one")
        header = b""
        if path.endswith(LOG):
            with open(path, "rb") as log:
                header = log.read(HEADER)
    except FileNotFoundError:
        return None
    except OSError as error:
        raise Fault(f"{path}: {error.strerror}") from None
    return Seen((found.st_dev, found.st_ino), found.st_size, found.st_mtime_ns, header)


def copy_file(path, copy):
    """Copies a file's bytes into one that nobody else may read. Where there is none, none is left."""
    try:
        with contextlib.suppress(FileNotFoundError):
            os.unlink(copy)
        try:
            source = open(path, "rb")
        except FileNotFoundError:
            return
        with source, open(os.open(copy, os.O_WRONLY | os.O_CREAT | os.O_EXCL, OURS_ALONE), "wb") as made:
            while os.sendfile(made.fileno(), source.fileno(), None, MOST):
                pass
    except OSError as error:
        raise Fault(f"{error.filename or copy}: {error.strerror}") from None
