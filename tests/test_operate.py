"""The files of `examples/operate`: the unit of systemd and the site of nginx, each read by its own checker, and the built program behind
them. Tests that need systemd-analyze, nginx or openssl are skipped where these aren't there."""
import contextlib
import os
import pathlib
import re
import shutil
import socket
import ssl
import subprocess
import sys
import tempfile
import time
import unittest

from programs import HOME, SETTLE, need, settle
from test_http import LISTENING

sys.path.append(str(HOME / "examples" / "client"))

import gaugepoppy

FOLDER = HOME / "examples" / "operate"
PATHS = f"{os.environ.get('PATH', '')}:/usr/sbin:/sbin"
ANALYZE, NGINX, OPENSSL = (shutil.which(name, path=PATHS) for name in ("systemd-analyze", "nginx", "openssl"))
OPERATOR, DATE = "op-market001", "2024-07-01"
MARKET = HOME / "examples" / "market"
PATIENCE = 30
CERTIFICATE = (
    "req -x509 -newkey ec -pkeyopt ec_paramgen_curve:prime256v1 -nodes -days 2 -subj /CN=localhost"
    " -addext subjectAltName=DNS:localhost"
)
PARTS = "client_body", "proxy", "fastcgi", "uwsgi", "scgi"


def unit_lines():
    """The settings of the unit."""
    return (FOLDER / "settle.service").read_text(encoding="utf-8").splitlines()


def value_of(name):
    (found,) = [line.partition("=")[2] for line in unit_lines() if line.startswith(f"{name}=")]
    return found


class InAFolder(unittest.TestCase):
    def setUp(self):
        room = tempfile.TemporaryDirectory()
        self.addCleanup(room.cleanup)
        self.room = pathlib.Path(room.name)


@unittest.skipUnless(ANALYZE, "there is no systemd-analyze")
class Unit(InAFolder):
    """The unit as systemd-analyze reads it."""

    needs_programs = False

    def verified(self, text):
        """The status, and what is said."""
        path = self.room / "settle.service"
        path.write_text(text.replace("/usr/local/bin/settle", shutil.which("true")), encoding="utf-8")
        made = subprocess.run([ANALYZE, "verify", "--man=no", "--recursive-errors=no", str(path)], capture_output=True, text=True)
        return made.returncode, made.stderr

    def test_it_is_a_unit(self):
        text = "\n".join([*unit_lines(), ""])
        self.assertEqual(self.verified(text), (0, ""))
        status, said = self.verified(text.replace("RestartSec=", "RestartSecs="))
        self.assertEqual((status, "RestartSecs" in said), (1, True))


class WithOffice(InAFolder):
    """An office on a file, which the command of the unit serves."""

    def setUp(self):
        super().setUp()
        need(SETTLE)
        self.database = str(self.room / "market.db")
        self.assertEqual(settle("init", "--db", self.database, "--operator-key", OPERATOR)[0], 0)

    def words(self, *more):
        program, *words = value_of("ExecStart").split()
        self.assertEqual(program, "/usr/local/bin/settle")
        places = {"/var/lib/settle/market.db": self.database, "8080": "0"}
        return [places.get(word, word) for word in words] + [*more]

    def serve(self, *more):
        made = subprocess.Popen([SETTLE, *self.words(*more)], stdout=subprocess.PIPE, stderr=subprocess.PIPE)
        self.addCleanup(made.communicate)
        self.addCleanup(made.kill)
        return made, int(LISTENING.match(made.stdout.readline())[1])


class Service(WithOffice):
    """The command of the unit, with the built program."""

    def test_each_end_after_which_it_begins_anew(self):
        """Its connections are used up: 0. Its file is in use: 1. Wrong words are the only end with 2."""
        self.assertEqual((value_of("Restart"), value_of("RestartPreventExitStatus")), ("always", "2"))
        made, port = self.serve("--count=1")
        self.assertEqual(settle(*self.words())[0], 1)
        self.assertEqual(gaugepoppy.Office(f"http://127.0.0.1:{port}", OPERATOR).runs(DATE)["runs"], [])
        self.assertEqual(made.wait(PATIENCE), 0)
        self.assertEqual(settle(*self.words("--count=1000001"))[0], 2)

    def test_its_folder_is_the_one_that_it_may_write(self):
        """That is the folder of the file: systemd leaves no other to the service."""
        self.assertEqual(value_of("ProtectSystem"), "strict")
        self.assertIn(f"--db /var/lib/{value_of('StateDirectory')}/", value_of("ExecStart"))
        self.assertEqual(value_of("UMask"), "0077")


@unittest.skipUnless(NGINX and OPENSSL, "there is no nginx, or no openssl to make it a certificate")
class Proxied(InAFolder):
    """The site in an nginx of its own, on a free port."""

    def setUp(self):
        super().setUp()
        call = [OPENSSL, *CERTIFICATE.split(), "-keyout", str(self.room / "office.key"), "-out", str(self.room / "office.crt")]
        subprocess.run(call, check=True, capture_output=True)

    def configure(self, port=8080):
        """The words that call nginx with the site before an office at a port."""
        with socket.create_server(("127.0.0.1", 0)) as free:
            self.port = free.getsockname()[1]
        site = (FOLDER / "office.nginx").read_text(encoding="utf-8")
        places = {
            "listen 443": f"listen 127.0.0.1:{self.port}",
            "/etc/ssl/office": self.room,
            "/var/log/nginx": self.room,
            ":8080;": f":{port};",
        }
        for place, other in places.items():
            self.assertIn(place, site)
            site = site.replace(place, str(other))
        (self.room / "site").write_text(site, encoding="utf-8")
        temporary = "".join(f"{part}_temp_path {self.room}/{part};" for part in PARTS)
        whole = f"daemon off; worker_processes 1; pid {self.room}/pid; events {{}}\nhttp {{ {temporary} include {self.room}/site; }}\n"
        (self.room / "nginx.conf").write_text(whole, encoding="utf-8")
        if not os.geteuid():
            os.chmod(self.room, 0o755)  # its workers give up root's rights
        return [NGINX, "-e", str(self.room / "early"), "-p", str(self.room), "-c", str(self.room / "nginx.conf")]


@contextlib.contextmanager
def running(test, words):
    """An nginx that takes connections, and has ended at the end."""
    made = subprocess.Popen(words, stdin=subprocess.DEVNULL, stdout=subprocess.DEVNULL, stderr=subprocess.DEVNULL)
    try:
        wait_for(test.port)
        yield
    finally:
        made.terminate()
        made.wait(PATIENCE)


def wait_for(port):
    """Waits until a port takes connections."""
    until = time.monotonic() + PATIENCE
    while True:
        try:
            socket.create_connection(("127.0.0.1", port), timeout=PATIENCE).close()
            return
        except ConnectionRefusedError:
            if time.monotonic() > until:
                raise
            time.sleep(0.02)


def trusting(test, key):
    """A client that trusts the site's certificate."""
    tls = ssl.create_default_context(cafile=test.room / "office.crt")
    return gaugepoppy.Office(f"https://localhost:{test.port}", key, pauses=(0,), tls=tls)


class Site(Proxied):
    needs_programs = False

    def test_it_is_a_site(self):
        words = self.configure()
        made = subprocess.run([*words, "-t"], capture_output=True, text=True)
        self.assertEqual(made.returncode, 0, made.stderr)
        self.assertNotIn("[warn]", made.stderr)

    def test_an_office_that_is_away(self):
        """The client asks again, and says that it has no answer."""
        with socket.create_server(("127.0.0.1", 0)) as free:
            words = self.configure(free.getsockname()[1])
        with running(self, words), self.assertRaises(gaugepoppy.NoAnswer) as raised:
            trusting(self, OPERATOR).runs(DATE)
        self.assertIn("status 502", str(raised.exception))

    def test_heads_that_are_too_large(self):
        """nginx answers them itself: a long path by 414, and a long header by 400."""
        with running(self, self.configure()):
            statuses = [trusting(self, key).ask_once("GET", path, None)[0] for key, path in (("", f"/{'a' * 5000}"), ("a" * 5000, "/"))]
        self.assertEqual(statuses, [414, 400])


class Behind(Proxied, WithOffice):
    """An office behind the site."""

    def test_what_comes_through(self):
        """Replies, refusals and files of every length that an office takes. A client that stalls holds up nobody. No key is logged."""
        _, port = self.serve()
        with running(self, self.configure(port)), self.stalled():
            self.ask(trusting(self, OPERATOR))
        log = (self.room / "office.log").read_text(encoding="utf-8")
        found = re.findall(r"(?m)^\S+ 127\.0\.0\.1 (\w+ \S+ \d+) sent ", log)
        self.assertEqual([line for line in found if line not in self.GIVEN_UP], self.EXPECTED)
        told = "".join(path.read_text(encoding="utf-8") for path in self.room.glob("office*.log"))
        for key in (OPERATOR, "citysupkey1", "hidden"):
            self.assertNotIn(key, told)

    # What nginx may write of the client that stalls. The office never hears of it.
    GIVEN_UP = "POST /files/prices/slow.csv 400", "POST /files/prices/slow.csv 408"
    EXPECTED = [
        "POST /files/parties/parties.csv 200",
        "GET /balances/CITYSUP-C 200",
        "GET /balances/CITYSUP-C 403",
        "GET /balances/CITYSUP-C 404",
        "POST /files/meters/full.csv 400",
        "POST /files/meters/large.csv 413",
        "POST /files/units/units.csv 200",
    ]

    @contextlib.contextmanager
    def stalled(self):
        """A client that has sent a part of its file."""
        tls = ssl.create_default_context(cafile=self.room / "office.crt")
        with socket.create_connection(("127.0.0.1", self.port)) as plain, tls.wrap_socket(plain, server_hostname="localhost") as client:
            client.sendall(b"POST /files/prices/slow.csv HTTP/1.1\r\nHost: localhost\r\nContent-Length: 100\r\n\r\ndate,")
            yield

    def ask(self, office):
        """What the log has."""
        parties = (MARKET / "parties.csv").read_bytes()
        self.assertEqual(office.load("parties", "parties.csv", parties), {"applied": 4, "late": 0})
        self.assertEqual(office.balance("CITYSUP-C")["moved_pence"], 0)
        self.refused(60, trusting(self, "").balance, "CITYSUP-C")
        status, said = office.ask_once("GET", "/balances/CITYSUP-C?key=hidden", None)
        self.assertEqual((status, gaugepoppy.refusal(status, said).number), (404, 61))
        self.refused(12, office.load, "meters", "full.csv", b"x" * 1_048_576)
        self.refused(66, office.load, "meters", "large.csv", b"x" * 1_048_577)
        pieces = iter((MARKET / "units.csv").read_bytes().splitlines(keepends=True))
        self.assertEqual(office.load("units", "units.csv", pieces), {"applied": 5, "late": 0})

    def refused(self, number, call, *words):
        with self.assertRaises(gaugepoppy.Refused) as raised:
            call(*words)
        self.assertEqual(raised.exception.number, number)


if __name__ == "__main__":
    unittest.main()
