"""The proved program, asked over a copy of an office or over an office in memory. So each answer is its own, and the office stays as it
is."""

import collections
import contextlib
import os
import re
import subprocess
import time

from .copying import copy_office
from .telling import Fault

PATIENCE = 600  # seconds
SCRIPT = "script"  # the name of its file
KEY = re.compile(rb"op-[A-Za-z0-9]{8,61}|[A-Za-z0-9]{8,64}")
KEY_BYTES = 4_096  # of a file of a key are read

# What a script writes, the explanations of its lines by their numbers, and the first line on standard error.
Answered = collections.namedtuple("Answered", "said whys first")


def built_program():
    from sources import PROGRAM  # which is slow to come, and of no use where another program is named

    return PROGRAM


def program():
    """The path of the program: that which SETTLE_PROGRAM names, or the one that `./settle` has built."""
    path = os.environ.get("SETTLE_PROGRAM") or built_program()
    if not os.access(path, os.X_OK):
        raise Fault(f"{path}: there is no program to ask; `./settle --build` makes it, and SETTLE_PROGRAM may name another")
    return os.path.abspath(path)


def key_for(office, path):
    """The key in a file, or the operator's. It isn't shown."""
    if path is None:
        return office.operator_key()
    try:
        with open(path, "rb") as file:
            line = file.read(KEY_BYTES).partition(b"\n")[0].removesuffix(b"\r")
    except OSError as error:
        raise Fault(f"{path}: {error.strerror}") from None
    if not KEY.fullmatch(line):
        raise Fault(f"{path}: its first line, of {len(line)} bytes, is no key")
    return line.decode()


def moment_of(asked):
    return int(time.time()) if asked.at is None else asked.at


def call(folder, *words):
    """Calls the program in a folder. What it wrote on standard output, and on standard error."""
    try:
        made = subprocess.run([program(), *words], cwd=folder, stdin=subprocess.DEVNULL, capture_output=True, timeout=PATIENCE)
    except (OSError, subprocess.TimeoutExpired) as error:
        raise Fault(f"{program()}: it can't be asked: {error}") from None
    return made.stdout.decode(errors="replace"), made.stderr.decode(errors="replace")


def put_aside(path, data):
    """Writes a file that nobody else may read."""
    with open(os.open(path, os.O_WRONLY | os.O_CREAT | os.O_TRUNC, 0o600), "wb") as file:
        file.write(data)
    return path


@contextlib.contextmanager
def listening(folder, *words):
    """A program that is called in a folder. What it writes is read line by line. It is ended."""
    pipe = subprocess.PIPE
    with subprocess.Popen([program(), *words], cwd=folder, stdin=subprocess.DEVNULL, stdout=pipe, stderr=pipe, text=True) as service:
        try:
            yield service
        finally:
            service.terminate()


def port_of(line):
    """The port on which a service says that it listens. None if it says something else."""
    return int(line.rpartition(":")[2]) if line.startswith("listening ") else None


def sent(port, key, kind, name, body):
    """The reply to a file that is sent to a service."""
    import json  # which only files with faults need
    import socket

    head = f"POST /files/{kind}/{name} HTTP/1.0\r\nx-office-key: {key}\r\nContent-Length: {len(body)}\r\n\r\n"
    try:
        with socket.create_connection(("127.0.0.1", port), PATIENCE) as connection:
            connection.sendall(head.encode() + body)
            with connection.makefile("rb") as reply:
                return json.loads(reply.read().partition(b"\r\n\r\n")[2])
    except (OSError, ValueError) as error:
        raise Fault(f"{program()}: a service gave no reply: {error}") from None


class WholeCopy:
    """The way to ask over a copy of the whole office, which the program reads from end to end each time that it opens it."""

    def __init__(self, copy):
        self.copy, self.folder = copy, os.path.dirname(copy)

    @contextlib.contextmanager
    def served(self, moment):
        """The port of a service, to which all comes at one moment. What it accepts stays in a copy of its own."""
        other = os.path.join(self.folder, "served.db")
        copy_office(self.copy, other)
        with listening(self.folder, "serve", "--db", other, "--port", "0", f"--at={moment}") as service:
            port = port_of(service.stdout.readline())
            if port is None:
                raise Fault(f"{program()}: it doesn't serve a copy: {service.stderr.readline().strip() or 'it said nothing'}")
            yield port

    def answered(self, lines):
        """What is answered to the lines of a script. What they change stays in the copy."""
        put_script(self.folder, lines)
        said, told = call(self.folder, "script", "--explain", "--db", self.copy, SCRIPT)
        return Answered(said, *explained(told))


def put_script(folder, lines):
    """Writes a script, which has a key, where nobody else may read it."""
    put_aside(os.path.join(folder, SCRIPT), "".join(f"{line}\n" for line in lines).encode())


def explained(told, before=0):
    """The explanation of each line of a script behind the first ones, by its number and without it; and the first line of all."""
    found = re.findall(r"(?m)^line (\d+): (.*)", told)
    return {int(number) - before: why for number, why in found}, told.strip().partition("\n")[0]
